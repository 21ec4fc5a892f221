# The warning before a load into folders that hold tablets already.

# Warns where a folder of the load holds tablets. New ones take their names one by one, so a load that is stopped leaves some of each.
warn_of_replaced() {
  local folder tablets
  [ "$command" = load ] || return 0
  for folder in "${plain_words[@]}"; do
    tablets=("$folder"/t[0-9][0-9][0-9][0-9][0-9][0-9]*.parquet)
    [ -e "${tablets[0]}" ] || continue
    say "$folder holds tablets, which this load replaces one by one: if it is stopped or refused, the table of before has some new and some old ones"
    say "to be safe, load into new folders: the table file is put last, so it names the old tablets or all the new ones; then remove the old folders"
    return 0
  done
}
