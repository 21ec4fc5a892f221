# A session at a terminal: its lines are typed with editing and history, and the program is given those alone that it takes.

# whether the lines are typed of a session whose schema the program takes
is_typed() {
  [ "$command" = session ] && [ -t 0 ] && [ -t 2 ] && [[ $("$1" explain --schema "$schema_file" -- '' 2>&1) == refused\ query* ]]
}

# Holds the session: each line is tried by the program's own commands, and one that it would refuse is told and typed again, since the first
# refused line ends a session. What a line prints comes before the next prompt.
hold_session() {
  local program=$1 line into answers status
  make_room
  mkfifo "$room/lines" "$room/answers" || return "$no_answer"
  "$program" "${words[@]}" <"$room/lines" >"$room/answers" 2>"$room/told" &
  child=$!
  exec {into}>"$room/lines" {answers}<"$room/answers"
  trap '' PIPE
  while kill -0 "$child" 2>/dev/null && IFS= read -r -e -p '> ' line; do
    history -s -- "$line"
    if takes_line "$program"; then
      printf '%s\n' "$line" 2>/dev/null >&"$into" || break
      print_answer
    fi
  done
  exec {into}>&-
  cat <&"$answers"
  wait "$child"
  status=$?
  child=
  cat "$room/told" >&2
  return "$status"
}

# Prints what the program answers to the line: up to the line that tells how many tablets there are.
print_answer() {
  local told
  [[ $line == . || $line == \?* ]] || return 0
  while IFS= read -r told <&"$answers"; do
    printf '%s\n' "$told"
    [[ $told != published\ * && $told != at\ * ]] || return 0
  done
}

# whether the program takes the line, where it can be tried; else why not
takes_line() {
  case $line in
    .) ;;
    +*) takes_record "$1" ;;
    \?*) takes_query "$1" ;;
    *)
      tell_word line Command
      return 1
      ;;
  esac
}

# tries a record as the only line of an input
takes_record() {
  local told name word='([A-Za-z]+)'
  name=$(schema_name)
  [ -n "$name" ] || return 0
  told=$("$1" ask --schema "$schema_file" "SELECT COUNT(*) AS r FROM $name" <<<"${line#+}" 2>&1 >/dev/null)
  if [[ $told =~ ^refused\ line\ 1:\ $word$ ]]; then
    tell_word line "${BASH_REMATCH[1]}"
    return 1
  fi
}

# tries a query as one that is explained
takes_query() {
  local told number='([0-9]+)' word='([A-Za-z]+)'
  query=${line#\?}
  are_utf8 "$query" || { tell_word query Syntax; return 1; }
  told=$("$1" explain --schema "$schema_file" -- "$query" 2>&1 >/dev/null)
  if [[ $told =~ ^refused\ query\ at\ $number:\ $word$ ]]; then
    tell_query "${BASH_REMATCH[1]}" "${BASH_REMATCH[2]}"
    return 1
  fi
}

# the name of the schema's message
schema_name() {
  tr '\n' ' ' <"$schema_file" 2>/dev/null | sed -n 's/^[[:space:]]*message[[:space:]][[:space:]]*\([A-Za-z_][A-Za-z0-9_]*\).*/\1/p'
}
