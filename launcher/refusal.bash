# What is told behind a refusal, where standard error is a terminal: the text with a caret under the byte, and a sentence on the word.

# the sentence on a word of a kind of refusal, from refusals.txt
tell_word() {
  awk -F '\t' -v kind="$1" -v word="$2" '$1 == kind && $2 == word { print (word == "" ? "" : word ": ") $3; exit }' "$top/launcher/refusals.txt" >&2
}

# shows the line of a file in which a byte stands, cut to 100 bytes round it, with a caret under it
show_place() {
  LC_ALL=C awk -v place="$2" '
    function is_inner(byte) { return byte >= "\200" && byte <= "\277" }
    { last = $0; end = start + length($0) }
    place <= end { exit }
    { start = end + 1 }
    END {
      at = place > end ? length(last) : place - start
      first = at > 60 ? at - 60 : 0
      while (first > 0 && is_inner(substr(last, first + 1, 1))) first--
      shown = substr(last, first + 1, 100)
      while (shown != "" && is_inner(substr(last, first + length(shown) + 1, 1))) shown = substr(shown, 1, length(shown) - 1)
      under = substr(shown, 1, at - first)
      gsub(/[\001-\010\013-\037\177]/, "?", shown)
      gsub(/[\200-\277]/, "", under)
      gsub(/[^\t]/, " ", under)
      mark = first > 0 ? ".. " : "   "
      printf "%s%s\n   %s^\n", mark, shown, under
    }' "$1" >&2
}

# shows a place in `query`, and what is refused there
tell_query() {
  printf '%s\n' "$query" >"$room/text"
  show_place "$room/text" "$1"
  tell_word query "$2"
}

# the text of the schema in a table file
schema_of_table() {
  awk 'behind { print } /^schema$/ { behind = 1 }' "$1"
}

# a line of the input, where that is read and can be read again
input_line() {
  [ "$command" != trial ] || return
  local from=/dev/stdin
  [ -s "$room/input" ] && from=$room/input
  if [ -f "$from" ]; then
    sed -n "$1{p;q}" "$from"
  fi
}

# shows it
show_line() {
  input_line "$1" | cut -b -300 | tr '\000-\010\013-\037\177' '?' | sed 's/^/   /' >&2
}

# what is told of the first line that the program wrote on standard error, at this status
tell_refusal() {
  local line number='([0-9]+)' word='([A-Za-z]+)'
  [ -n "$room" ] && [ -s "$room/told" ] && IFS= read -r line <"$room/told" || return
  case $1 in
    2) ;;
    3) tell_left; return ;;
    *) tell_word "$line" ''; return ;;
  esac
  if [[ $line =~ ^refused\ query\ at\ $number:\ $word$ ]]; then
    tell_query "${BASH_REMATCH[1]}" "${BASH_REMATCH[2]}"
  elif [[ $line =~ ^refused\ schema\ at\ $number:\ $word$ ]]; then
    show_place "$schema_file" "${BASH_REMATCH[1]}"
    tell_word schema "${BASH_REMATCH[2]}"
  elif [[ $line =~ ^refused\ table:\ schema\ at\ $number:\ $word$ ]]; then
    schema_of_table "$table_file" >"$room/text"
    show_place "$room/text" "${BASH_REMATCH[1]}"
    tell_word schema "${BASH_REMATCH[2]}"
  elif [[ $line =~ ^refused\ table:\ $word ]]; then
    tell_word table "${BASH_REMATCH[1]}"
  elif [[ $line =~ ^refused\ line\ $number:\ $word$ ]]; then
    show_line "${BASH_REMATCH[1]}"
    tell_word line "${BASH_REMATCH[2]}"
  elif [[ $line =~ ^refused\ line\ $number:\ query\ at\ $number:\ $word$ ]]; then
    query=$(input_line "${BASH_REMATCH[1]}")
    query=${query#\?}
    [ -z "$query" ] && tell_word query "${BASH_REMATCH[3]}" || tell_query "${BASH_REMATCH[2]}" "${BASH_REMATCH[3]}"
  elif [[ $line =~ ^refused\ field\ $number:\ $word$ ]]; then
    printf '   %s\n' "${plain_words[BASH_REMATCH[1]]}" >&2
    tell_word field "${BASH_REMATCH[2]}"
  else
    tell_word "${line% [0-9]*}" ''
  fi
}

# each cause that the lines on tablets or a file name, once
tell_left() {
  local cause
  sed 's/^left [^:]*: //; s/[0-9]//g; s/;/\n/g' "$room/told" | tr -d ' ' | sort -u | while read -r cause; do
    tell_word left "$cause"
  done
}
