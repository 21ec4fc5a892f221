# Answers where no program can be made and kept: by a quick build without proof, made anew for each call.

# the most bytes of standard input that the quick build takes
most_input=67108864

# says that the answer wants the built program, and why
want_build() {
  say "$1; './dremel --build' proves and builds the program, once, in about $(build_minutes) min"
  return "$no_answer"
}

# Runs the words by `rt try`, which builds the program without proof and runs it, and gives what the program itself wrote and its status.
run_quick() {
  case $command in
    load | session) want_build "$command wants a program that is kept, and none without proof can be made here"; return ;;
  esac
  make_room
  if ! put_input; then
    want_build "the quick build takes at most $most_input bytes of standard input"
    return
  fi
  make_words_absolute
  local why="not built yet"
  [ ! -x "$program" ] || why="the program is older than its sources"
  say "$why: this answer comes from a quick build without proof, made for this call alone, in a minute or two; './dremel --build' proves and builds the program, once, in about $(build_minutes) min"
  (cd "$top/crates/dremel" && exec rt try --seconds 300 -- "${words[@]}") <"$room/input" >"$room/out" 2>"$room/err"
  give_answer
}

# Puts what the program is to read as standard input into a file, where it reads any.
put_input() {
  : >"$room/input"
  case $command in
    ask | stripe) head -c $((most_input + 1)) >"$room/input" 2>/dev/null || true ;;
  esac
  [ "$(stat -c %s "$room/input")" -le "$most_input" ]
}

# Gives what the program wrote, and its status, by the last line of `rt try`, before which the program's own lines stand.
give_answer() {
  if [[ $(tail -n 1 "$room/err") =~ ^run=ended\ status=([0-9]+)\  ]]; then
    local status=${BASH_REMATCH[1]}
    cat "$room/out"
    awk '/^rt: / { next } { line[++count] = $0 } /^checked: / { last = count }
      END { for (at = 1; at < last; at++) print line[at] }' "$room/err" | tee "$room/told" >&2
    return "$status"
  fi
  if grep -q 'no-answer' "$room/err"; then
    want_build "the quick build gave no answer: it gives none past 1 MiB of output or five minutes"
    return
  fi
  cat "$room/err" >&2
  want_build "the quick build failed: the lines above tell why"
}

# Makes the paths of files absolute, since the program runs in a folder of its own: those of the words, and in a table those of its directories.
make_words_absolute() {
  local at=1 plain=
  while [ "$at" -lt "${#words[@]}" ]; do
    case $plain${words[at]} in
      --) plain=. ;;
      --schema | --table)
        at=$((at + 1))
        [ "$at" -lt "${#words[@]}" ] && make_absolute "${words[at]}" && words[at]=$REPLY
        ;;
      --schema=* | --table=*) make_absolute "${words[at]#*=}" && words[at]=${words[at]%%=*}=$REPLY ;;
      --*) ;;
      *) [ "$command" != schema ] || { make_absolute "${words[at]}" && words[at]=$REPLY; } ;;
    esac
    at=$((at + 1))
  done
}

# gives in REPLY the path of a file, or that of a copy of a table whose directories are absolute
make_absolute() {
  REPLY=$1
  case $1 in
    '') return ;;
    /*) ;;
    *) REPLY=$PWD/$1 ;;
  esac
  if [ "$1" = "$table_file" ] && awk '/^schema$/ { exit } /^leaf [^\/]/ { found = 1 } END { exit !found }' "$REPLY" 2>/dev/null; then
    here=$PWD awk '/^schema$/ { behind = 1 }
      !behind && /^leaf [^\/]/ { $0 = "leaf " ENVIRON["here"] "/" substr($0, 6) }
      { print }' "$REPLY" >"$room/table"
    REPLY=$room/table
  fi
}
