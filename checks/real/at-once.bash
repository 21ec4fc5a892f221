# Two loads into one table at the same time, and queries and dumps meanwhile. Each ends as it would alone; which load's files stand there then isn't promised.

mkdir "$work/once" "$work/apart"
"$program" gen --seed 50000 --records 4000 >"$work/other.jsonl"
once=$work/once.table

# load_once INPUT TABLE FOLDER: how the load ended
load_once() {
  "$program" load --schema "$schema" --table "$2" --rows 500 "$3" <"$1" >/dev/null 2>&1
  echo "$?"
}

load_once "$made" "$work/apart.table" "$work/apart" >/dev/null
whole=$("$program" query --table "$work/apart.table" "$trial")
same=ok
for _ in $(seq 20); do
  [ "$(load_once "$made" "$once" "$work/once" & load_once "$made" "$once" "$work/once"; wait)" = $'0\n0' ] || same=
  [ "$("$program" query --table "$once" "$trial")" = "$whole" ] || same=
done
sees "two loads of the same records at once: each ends with 0, and the table holds them" [ "$same" ]

apart=ok
for _ in $(seq 20); do
  ends=$(load_once "$made" "$once" "$work/once" & load_once "$work/other.jsonl" "$once" "$work/once"; wait)
  [ "$ends" = $'0\n0' ] || apart=
  "$program" query --table "$once" "$trial" >/dev/null 2>&1 || apart=
done
sees "two loads of other records at once: each ends with 0, and so does a query behind them" [ "$apart" ]

meanwhile=ok
for _ in $(seq 10); do
  load_once "$made" "$once" "$work/once" >"$work/ended" &
  for number in $(seq 10); do
    words=(query --table "$once" "$trial")
    [ $((number % 2)) = 0 ] || words=(dump --table "$once" DocId)
    "$program" "${words[@]}" >/dev/null 2>&1 || meanwhile=
  done
  wait
  [ "$(cat "$work/ended")" = 0 ] || meanwhile=
done
sees "queries and dumps while a load replaces the table: each ends with 0" [ "$meanwhile" ]
told "the table behind them" 0 "$whole" "" query --table "$once" "$trial"
