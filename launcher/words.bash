# The words of a call, as the program is given them.

# whether each word is UTF-8, as the program takes words
are_utf8() {
  local LC_ALL=C
  case "$*" in
    *[!$'\x01'-$'\x7f']*) ! command -v iconv >/dev/null || printf '%s\n' "$@" | iconv -f UTF-8 -t UTF-8 >/dev/null 2>&1 ;;
  esac
}

# the usage text, as the program has it, on standard error
print_usage() {
  sed -n 's/^ *"\(usage: .*\)\\n";$/\1/p' "$top/crates/dr_words/src/commands.rt" >&2
}

# whether a word is an option that takes the next word as its value
takes_value() {
  case $1 in
    --schema | --table | --rows | --copies | --pages | --workers | --fan | --lag | --least) ;;
    *) false ;;
  esac
}

# Puts the words into `words`, the options of `load` before its directories, and each file that is read and is no regular file, as a
# pipe, in its place as a copy. `command` is the first word; `schema_file`, `table_file`, `query` and `plain_words` are what a refusal can be of.
take_words() {
  command=${1-}
  words=("$@")
  schema_file= table_file= query= plain_words=()
  case $command in
    load) put_options_first ;;
    query | ask | dump | stripe | fsm | schema | explain | session) ;;
    *) return ;;
  esac
  local at=1 word plain=
  while [ "$at" -lt "${#words[@]}" ]; do
    word=${words[at]}
    if [ -z "$plain" ] && [ "$word" = -- ]; then
      plain=1
    elif [ -z "$plain" ] && takes_value "$word"; then
      at=$((at + 1))
      [ "$at" -lt "${#words[@]}" ] && take_file "${word#--}" "${words[at]}" && words[at]=$REPLY
    elif [ -z "$plain" ] && [[ $word == --schema=* || $word == --table=* ]]; then
      word=${word#--}
      take_file "${word%%=*}" "${word#*=}" && words[at]=--${word%%=*}=$REPLY
    else
      take_plain_word "$at"
    fi
    at=$((at + 1))
  done
}

# a word that is no option and no value of one
take_plain_word() {
  case $command in
    schema) take_file file "${words[$1]}" && words[$1]=$REPLY ;;
    query | ask | explain) query=${words[$1]} ;;
    *) plain_words+=("${words[$1]}") ;;
  esac
}

# Puts the options of `load` that have their values before the other words.
put_options_first() {
  local options=() others=() at=1
  while [ "$at" -lt "${#words[@]}" ] && [ "${words[at]}" != -- ]; do
    if takes_value "${words[at]}" && [ $((at + 1)) -lt "${#words[@]}" ]; then
      options+=("${words[at]}" "${words[at + 1]}")
      at=$((at + 1))
    elif [[ ${words[at]} == --*=* ]]; then
      options+=("${words[at]}")
    else
      others+=("${words[at]}")
    fi
    at=$((at + 1))
  done
  words=(load "${options[@]}" "${others[@]}" "${words[@]:at}")
}

# Gives in REPLY the path under which the program is to read a file: its own, or that of a copy where its size isn't told by the file.
take_file() {
  REPLY=$2
  case $1 in
    schema) copy_if_odd "$2" 1048577 && schema_file=$REPLY ;;
    table) [ "$command" = load ] || { copy_if_odd "$2" 2097153 && table_file=$REPLY; } ;;
    file) copy_if_odd "$2" 9223372036854775807 ;;
  esac
}

# Copies at most so many bytes of a file that is there, can be read, and is no folder and no regular file with a size.
copy_if_odd() {
  REPLY=$1
  if [ ! -r "$1" ] || [ -d "$1" ] || { [ -f "$1" ] && [ -s "$1" ]; }; then
    return 0
  fi
  make_room
  copies=$((${copies:-0} + 1))
  if head -c "$2" <"$1" >"$room/file$copies"; then
    REPLY=$room/file$copies
  fi
  return 0
}
