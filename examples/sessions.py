#!/usr/bin/env python3
"""Writes web sessions as JSON lines, the same ones each time: examples/sessions.py > examples/sessions.jsonl

A session has a user where somebody is logged in, a device where the browser told one, and the pages that were seen in it; a page
has the events that were noted on it. Times are milliseconds since 1970."""
import json
import random

random.seed(20100913)
PATHS = ["/", "/search", "/article/17", "/article/42", "/cart", "/checkout", "/account", "/help"]
EVENTS = ["scroll", "click", "play", "add", "buy", "error"]
KINDS = ["phone", "desktop", "tablet"]
BROWSERS = ["Firefox", "Chrome", "Safari"]


def event():
    name = random.choice(EVENTS)
    made = {"Name": name}
    if name in ("scroll", "add", "buy"):
        made["Value"] = random.randrange(1, 101)
    return made


def page(time):
    status = random.choices([200, 304, 404, 500], [80, 12, 6, 2])[0]
    made = {"Path": random.choice(PATHS), "Time": time, "Status": status}
    if status == 200:
        made["Bytes"] = random.randrange(400, 90000)
    events = [event() for _ in range(random.choices([0, 1, 2, 4], [5, 3, 2, 1])[0])]
    if events:
        made["Event"] = events
    return made


def session(number):
    start = 1262304000000 + number * 173000 + random.randrange(60000)
    made = {"Id": f"s{number:04}", "Start": start}
    if random.random() < 0.6:
        made["User"] = f"user{random.randrange(40)}"
    if random.random() < 0.9:
        device = {"Kind": random.choice(KINDS)}
        if random.random() < 0.8:
            device["Browser"] = random.choice(BROWSERS)
        made["Device"] = device
    time, pages = start, []
    for _ in range(random.choices([0, 1, 2, 3, 6], [1, 4, 4, 3, 2])[0]):
        pages.append(page(time))
        time += random.randrange(500, 90000)
    if pages:
        made["Page"] = pages
    return made


for number in range(400):
    print(json.dumps(session(number), separators=(",", ":")))
