# Proving and building the program.

# The program's crates, one to a line: its name, the processor seconds that its proof is likely to take, and those of the longest chain that
# begins with it. What a crate took is kept in seconds.txt; else it is ten seconds a crate and 0.17 a line of code.
weigh_crates() {
  program_crates | awk -v top="$top" '
    function lines(name, kind, files, found) {
      files = "find \"" top "/crates/" name "\" -name out -prune -o -name must-fail -prune -o -name \"*." kind "\" -exec cat {} + | wc -l"
      files | getline found
      close(files)
      return found
    }
    FNR == 1 { part++ }
    part == 1 { if (!/^#/) took[$1] = $2; next }
    part == 2 {
      order[++count] = $1
      cost[$1] = $1 in took ? took[$1] : 10 + 0.17 * lines($1, "rt") + 0.0025 * lines($1, "antt")
      next
    }
    !/^#/ && NF { name = $1; sub(":", "", name); row[name] = $0 }
    END {
      for (at = count; at >= 1; at--) {
        name = order[at]
        chain[name] += cost[name]
        n = split(row[name], words, " ")
        for (i = 2; i <= n; i++)
          if (words[i] in cost && chain[words[i]] < chain[name]) chain[words[i]] = chain[name]
      }
      for (at = 1; at <= count; at++) printf "%s %d %d\n", order[at], cost[order[at]], chain[order[at]]
    }' "$top/launcher/seconds.txt" - "$top/crates.txt"
}

# how many crates are likely to be proved at once: one for each processor and for each 2.5 GB of free memory
lanes() {
  awk -v processors="$(nproc)" '/^MemAvailable:/ { fit = int($2 / 2500000) }
    END { print (fit < 1 ? 1 : fit < processors ? fit : processors) }' /proc/meminfo
}

# the minutes that a build from nothing is likely to take here
build_minutes() {
  weigh_crates | awk -v lanes="$(lanes)" '{ all += $2; if ($3 > chain) chain = $3 }
    END { time = all / lanes > chain ? all / lanes : chain; print int(time / 60) + 1 }'
}

# Copies the crates that the program stands on, without what is only tested or refused, so that all is proved of the same sources.
copy_crates() {
  local name part
  mkdir -p "$1/crates" && cp "$top/HANDLES" "$top/crates.txt" "$1/" || return
  while read -r name _; do
    mkdir "$1/crates/$name" || return
    for part in src specs proofs; do
      [ ! -d "$top/crates/$name/$part" ] || cp -R "$top/crates/$name/$part" "$1/crates/$name/" || return
    done
  done <"$2"
}

# Proves each crate over the statements alone of those below it, and builds the program. What `rt ci` has beyond that is left to it: tests, a
# second compiler, wrong bodies, the search for contracts that no call can meet. One call builds it, others wait.
build() {
  local hold
  ! tell_built || return 0
  find_kit && [ -x "$kit/bin/rattle" ] || { say "proving and building wants the command rt of the Rattle toolchain"; return "$no_answer"; }
  mkdir -p "$libraries" && exec {hold}>"$out/lock" || { say "no proved library can be kept in $libraries"; return "$no_answer"; }
  if ! lock -n "$hold"; then
    say "another call proves and builds the program: waiting for it"
    run_with_end lock "$hold"
    ! tell_built || return 0
  fi
  make_room
  sources=$room/repository
  touch "$room/started" && weigh_crates >"$room/crates" && copy_crates "$sources" "$room/crates" || { say "the crates could not be copied to $room"; return "$no_answer"; }
  say "proving the program's $(wc -l <"$room/crates") crates, up to $(lanes) at a time, and building it: about $(build_minutes) min from nothing"
  if ! prove_crates "$room/crates" || ! put_program; then
    tell_unproved_crate
    return "$no_answer"
  fi
  grep '^logic=proved' "$room/dremel.log" >&2
  say "proved and built in $((SECONDS / 60)) min $((SECONDS % 60)) s; what was proved is kept for the next build in $libraries ($(du -sh "$libraries" | cut -f 1)), and may be removed"
  tell_where
}

# whether the program is built, which is told
tell_built() {
  is_built || return
  say "the program is proved and built already"
  tell_where
}

tell_where() {
  say "it is $program"
  say "to call it from any folder, copy it to one of your path: cp '$program' ~/.local/bin/"
}

# Puts the program that was built into its place, where it answers; it is as old as its sources. The one without proof goes.
put_program() {
  failed=dremel
  { link_program "$room/dremel.o" "$room/dremel" && { answers_first_query "$room/dremel" || { echo "it does not answer the first query of README.md" && false; }; } && cp "$room/dremel" "$program.new" \
    && touch -r "$room/started" "$program.new" && mv "$program.new" "$program"; } >>"$room/dremel.log" 2>&1 || { rm -f "$program.new"; return 1; }
  rm -rf "$unproved" "$making"
}

# what the crate that was not proved, or not built, said
tell_unproved_crate() {
  grep -v ': proved$' "$room/$failed.log" | tail -n 60 >&2
  ! is_full "$libraries" "$room/$failed.log" || say "the disk of $libraries or of $room is full"
  say "the program could not be proved and built: the lines above tell why of $failed; what was proved is kept in $libraries"
}

# Proves the crates, as many at once as there are processors and memory: of those whose libraries are proved the first is the one with the
# longest chain behind it. One that is killed, most likely for want of memory, is begun once more, when no other runs.
prove_crates() {
  local name cost chain whole=0 kept=0 done=0 proved=0 total at_once running=0 again=
  declare -gA costs=() chains=() states=()
  while read -r name cost chain; do
    costs[$name]=$cost chains[$name]=$chain states[$name]=left whole=$((whole + cost))
  done <"$1"
  total=${#costs[@]}
  at_once=$(lanes)
  take_crates "$sources/crates.txt"
  while read -r name _; do
    if is_kept "$name"; then
      states[$name]=proved kept=$((kept + costs[$name]))
      tell_proved "$name" "was proved before"
    fi
  done <"$1"
  while [ "$proved" -lt "$total" ]; do
    begin_proofs
    [ "$running" -gt 0 ] || return
    wait -n 2>/dev/null
    end_proofs || return
  done
}

# Begins the proofs for which there is room.
begin_proofs() {
  local name first ready
  while [ "$running" -lt "$at_once" ] && { [ "$running" = 0 ] || has_memory; }; do
    first='' ready=0
    for name in "${!states[@]}"; do
      is_ready "$name" || continue
      ready=$((ready + 1))
      [ -n "$first" ] && [ "${chains[$first]}" -ge "${chains[$name]}" ] || first=$name
    done
    [ -n "$first" ] || return
    begin_proof "$first" "$(((at_once - running) / ready))"
  done
}

# whether there is free memory for one proof more
has_memory() {
  awk '/^MemAvailable:/ { exit ($2 < 2500000) }' /proc/meminfo
}

# whether a crate waits for nothing but a processor
is_ready() {
  local each
  [ "${states[$1]}" = left ] || return
  for each in ${own_uses[$1]}; do
    [ "${states[$each]}" = proved ] || return
  done
}

# Begins a proof, in a group of processes of its own, which ends with the launcher.
begin_proof() {
  local jobs=$2
  [ "$jobs" -ge 1 ] || jobs=1
  [ "$jobs" -le 4 ] || jobs=4
  set -m
  { prove_crate "$1" "$jobs" >"$room/$1.log" 2>&1; echo "$?" >"$room/$1.end"; } </dev/null &
  proofs[$!]=$! states[$1]=$!
  set +m
  running=$((running + 1))
}

# Takes the proofs that have ended, and fails where one of them did.
end_proofs() {
  local name status
  for name in "${!states[@]}"; do
    [[ ${states[$name]} =~ ^[0-9]+$ ]] || continue
    if [ -s "$room/$name.end" ]; then
      status=$(cat "$room/$name.end")
    elif kill -0 "${states[$name]}" 2>/dev/null; then
      continue
    else
      status=137
    fi
    rm -f "$room/$name.end"
    unset "proofs[${states[$name]}]"
    running=$((running - 1))
    if [ "$status" = 0 ]; then
      states[$name]=proved
      tell_proved "$name" "is proved"
    elif [ "$status" -ge 128 ] && [[ " $again " != *" $name "* ]]; then
      say "the proof of $name was killed, most likely for want of memory: once more, with none beside it"
      again+=" $name" at_once=1 states[$name]=left
    else
      failed=$name
      return 1
    fi
  done
}

# Tells a crate that is proved, with the share of the work that is done and the time that is likely left.
tell_proved() {
  proved=$((proved + 1)) done=$((done + costs[$1]))
  unset "chains[$1]"
  say "$1 $2: $proved of $total crates, $((done * 100 / whole)) %$(time_left)"
}

# The time that is likely left, by the pace so far: of all that is left, and not less than the longest chain of crates needs.
time_left() {
  local own=$((done - kept)) left=$((whole - done)) longest=0 each
  [ "$own" -gt 0 ] && [ "$left" -gt 0 ] && [ "$SECONDS" -gt 20 ] || return
  for each in "${chains[@]}"; do
    [ "$each" -gt "$longest" ] && longest=$each
  done
  awk -v own="$own" -v left="$left" -v longest="$longest" -v seconds="$SECONDS" -v lanes="$at_once" 'BEGIN {
    pace = own / seconds
    time = left / pace
    slow = pace < lanes ? lanes / pace : 1
    if (slow > 3) slow = 3
    if (longest * slow > time) time = longest * slow
    printf ", about %d min left", int(time / 60) + 1
  }'
}
