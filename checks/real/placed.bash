# What a put leaves: links, permissions, unfinished files, devices and pipes; and queries with few descriptors.

mkdir "$work/placed"
placed=$work/placed.table
tablet=$work/placed/t000000.parquet

# load_placed NAME: the load of the records into one tablet
load_placed() {
  told "$1" 0 "loaded 2 records into 1 tablets" "" load --schema "$schema" --table "$placed" "$work/placed" <"$records"
}

# only_tablet NAME: whether the folder holds the one tablet, whole
only_tablet() {
  sees "$1" [ "$(ls "$work/placed")" = t000000.parquet ]
  told "the table behind it" 0 '{"r":2}' "" query --table "$placed" "$rows"
}

load_placed "a load into an empty folder"
only_tablet "it leaves the tablet alone"
chmod 640 "$tablet"
echo old >"$tablet"
load_placed "the same over an old file"
only_tablet "the old file is replaced"
sees "with the old file's permissions" [ "$(stat -c %a "$tablet")" = 640 ]

echo part >"$tablet.unfinished-0"
told "an unfinished file beside a tablet" 0 '{"r":2}' "" query --table "$placed" "$rows"
told "the same, dumped" 0 '{"DocId":10}
{"DocId":20}' "" dump --table "$placed" DocId
load_placed "a load where an unfinished file is left"
only_tablet "it removes what is left"
if command -v flock >/dev/null; then
  echo part >"$tablet.unfinished-0"
  before=(flock "$tablet.unfinished-0")
  load_placed "a load where another program writes an unfinished file"
  before=()
  sees "it leaves that file" [ "$(cat "$tablet.unfinished-0")" = part ]
  rm "$tablet.unfinished-0"
  only_tablet "and the tablet"
else
  echo "skip  an unfinished file of another program: that wants flock"
fi
mkdir "$tablet.unfinished-0"
mkfifo "$tablet.unfinished-1"
ln -s "$records" "$tablet.unfinished-2"
load_placed "a load where a folder, a pipe and a link have the names of unfinished files"
sees "it leaves them" [ -d "$tablet.unfinished-0" -a -p "$tablet.unfinished-1" -a -L "$tablet.unfinished-2" ]
sees "and what the link leads to" cmp -s "$records" "$top/examples/document.jsonl"
rm -r "$tablet".unfinished-*
only_tablet "and the tablet"

ln "$tablet" "$work/other"
load_placed "a load over a file with another name"
sees "the other name has the old file" [ "$(stat -c %h "$work/other")" = 1 ]
mv "$tablet" "$work/behind"
ln -s ../behind "$tablet"
ln -s placed.table "$work/link.table"
told "a load through links" 0 "loaded 2 records into 1 tablets" "" \
  load --schema "$schema" --table "$work/link.table" --pages 2 "$work/placed" <"$records"
sees "the links stay" [ -L "$tablet" -a -L "$work/link.table" ]
sees "and what they lead to is new" cmp -s "$work/behind" <("$program" load --schema "$schema" --table /dev/null --pages 2 "$work/leaf0" <"$records" >"$work/null" && cat "$work/leaf0/t000000.parquet")
rm "$tablet" "$work/link.table"
sees "a device is written as it stands" [ "$(cat "$work/null")" = "loaded 2 records into 1 tablets" -a -c /dev/null ]
"$program" load --schema "$schema" --table /dev/stdout "$work/placed" <"$records" 2>"$work/err" | cat >"$work/out"
ended "a table into the pipe behind standard output" 0 "$(cat "$placed")
loaded 2 records into 1 tablets" "" 0
ln -s loop "$work/placed/loop"
told "a table at a link that leads to itself" 4 "" "outside: keeper" load --schema "$schema" --table "$work/placed/loop" "$work/placed" <"$records"
rm "$work/placed/loop"

if [ "$(id -u)" = 0 ] && command -v setpriv >/dev/null; then
  chmod 777 "$work/placed"
  chmod 444 "$tablet"
  cp "$tablet" "$work/whole"
  before=(setpriv --reuid=65534 --regid=65534 --clear-groups)
  told "a load over a file that may not be written" 4 "" "outside: keeper" \
    load --schema "$schema" --table "$work/placed/t" --pages 2 "$work/placed" <"$records"
  sees "it stands as it was" cmp -s "$work/whole" "$tablet"
  chmod 666 "$tablet"
  chmod 755 "$work/placed"
  told "a load over a file in a folder that may not be written" 4 "" "outside: keeper" \
    load --schema "$schema" --table "$work/placed/t" --pages 2 "$work/placed" <"$records"
  sees "it stands as it was" cmp -s "$work/whole" "$tablet"
  chmod 333 "$work/placed"
  told "a load into a folder that may not be read" 0 "loaded 2 records into 1 tablets" "" \
    load --schema "$schema" --table "$work/placed/t" "$work/placed" <"$records"
  before=()
  chmod 755 "$work/placed"
else
  echo "skip  what may not be written: that wants root, who may become another user"
fi

# limited N: from here on the program has descriptors for so many files, the standard streams included
limited() {
  before=(bash -c 'ulimit -n "$0" && exec "$@"' "$1")
}

mkdir "$work/few"
"$program" gen --seed 0 --records 15000 >"$work/few.jsonl"
limited 5
told "a load of 300 tablets with 5 descriptors" 0 "loaded 15000 records into 300 tablets" "" \
  load --schema "$schema" --table "$work/few.table" --rows 50 "$work/few" <"$work/few.jsonl"
told "300 tablets, dumped with 5 descriptors" 0 "$(seq -f '{"DocId":%.0f}' 0 14999)" "" dump --table "$work/few.table" DocId
few="SELECT COUNT(*) AS r, MAX(DocId) AS last FROM Document"
for workers in 1 2 3 4 8 16; do
  limited $((workers + 5))
  told "300 tablets, $workers workers, $((workers + 5)) descriptors" 0 '{"r":15000,"last":14999}' "" \
    query --table "$work/few.table" --workers "$workers" "$few"
done
before=()
