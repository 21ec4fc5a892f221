# Runs a program.

# Runs it with the words, in the launcher's place where nothing is left to do behind it. Where standard error is a terminal, what the
# program says there is kept, to be looked at behind it.
run_program() {
  local program=$1
  if is_typed "$program"; then
    hold_session "$program"
  elif [ -n "$shows_progress" ] && [ -f /dev/stdin ]; then
    run_beside_progress
  elif [ -t 2 ]; then
    make_room
    "$program" "${words[@]}" 2>"$room/told"
    local status=$?
    cat "$room/told" >&2
    return "$status"
  elif [ -n "$room" ]; then
    "$program" "${words[@]}"
  else
    exec "$program" "${words[@]}"
  fi
}

# Shows once a second how far the program has read the file that is standard input, and wipes the line at the end.
run_beside_progress() {
  local size place shown=0 status
  size=$(stat -L -c %s /dev/stdin)
  make_room
  "$program" "${words[@]}" <&0 2>"$room/told" &
  local running=$!
  while sleep 1 && kill -0 "$running" 2>/dev/null; do
    place=$(awk '/^pos:/ { print $2 }' "/proc/$running/fdinfo/0" 2>/dev/null) || break
    if [ -n "$place" ] && [ "$size" -gt 0 ]; then
      printf '\rdremel: %d of %d bytes read (%d %%)' "$place" "$size" "$((place * 100 / size))" >&2
      shown=1
    fi
  done
  wait "$running"
  status=$?
  if [ "$shown" = 1 ]; then
    printf '\r\033[K' >&2
  fi
  cat "$room/told" >&2
  return "$status"
}
