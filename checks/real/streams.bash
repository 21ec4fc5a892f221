# Standard streams that are closed, full, folders, or pipes that nobody reads.

mkdir "$work/a" "$work/b"
table=$work/t.table
rows="SELECT COUNT(*) AS r FROM Document"

# puts the two records, a record to a tablet, each on both folders
load_two() {
  "$program" load --schema "$schema" --table "$table" --rows 1 --copies 2 "$work/a" "$work/b" <"$records" >/dev/null
}
load_two

# each command, told where it can't print
while read -r command words; do
  eval "words=($words)"
  "$program" "${words[@]}" <"$records" >&- 2>"$work/err"
  status=$?
  : >"$work/out"
  ended "$command, standard output closed" 4 "" "outside: out" "$status"
  "$program" "${words[@]}" <"$records" >/dev/full 2>"$work/err"
  ended "$command, standard output full" 4 "" "outside: out" $?
done <<'COMMANDS'
load load --schema "$schema" --table "$table" --rows 1 --copies 2 "$work/a" "$work/b"
load-in-V2 load --schema "$schema" --table "$work/later.table" --rows 1 --pages 2 "$work/later"
query query --table "$table" "$rows"
share query --table "$table" --least 50 "$rows"
ask ask --schema "$schema" "$rows"
dump dump --table "$table" DocId
schema schema "$work/a/t000000.parquet"
stripe stripe --schema "$schema" DocId
fsm fsm --schema "$schema" DocId
explain explain --schema "$schema" "$rows"
gen gen --seed 0 --records 2
trial trial --seed 0 --records 4
COMMANDS

"$program" gen --seed 0 --records 1000000 2>"$work/err" | head -c 1 >"$work/out"
ended "a pipe that nobody reads any more" 4 "{" "outside: out" "${PIPESTATUS[0]}"

: >"$work/err"
"$program" query --table "$table" "$rows" >"$work/out" 2>&-
ended "a result, standard error closed" 0 '{"r":2}' "" $?
"$program" query --table "$table" SELECT >"$work/out" 2>&-
ended "a refusal, standard error closed" 2 "" "" $?
"$program" query --table "$table" SELECT >"$work/out" 2>/dev/full
ended "a refusal, standard error full" 2 "" "" $?
"$program" query --table "$table" "$rows" <&- >&- 2>&-
status=$?
: >"$work/out"
ended "a result, all streams closed" 4 "" "" "$status"

told "standard input closed" 0 '{"r":0}' "" ask --schema "$schema" "$rows" <&-
told "standard input a folder" 4 "" "outside: source" ask --schema "$schema" "$rows" <"$work/a"
told "standard input that never ends a line" 2 "" "refused line 1: LineTooLong" ask --schema "$schema" "$rows" </dev/zero
told "a column, standard input closed" 0 "" "" stripe --schema "$schema" DocId <&-
told "a column, standard input a folder" 4 "" "outside: source" stripe --schema "$schema" DocId <"$work/a"
told "a load, standard input closed" 0 "loaded 0 records into 1 tablets" "" load --schema "$schema" --table "$work/later.table" "$work/later" <&-
told "a load whose input is a folder" 4 "" "outside: source" load --schema "$schema" --table "$work/none.table" "$work/leaf0" <"$work/a"
sees "no table is put where the input fails" [ ! -e "$work/none.table" ]

told "a session, standard input closed" 0 "" "" session --schema "$schema" <&-
told "a session, standard input a folder" 4 "" "outside: source" session --schema "$schema" <"$work/a"
"$program" session --schema "$schema" <<<. >/dev/full 2>"$work/err"
status=$?
: >"$work/out"
ended "a session, standard output full" 4 "" "outside: out" "$status"

# each line of a session is answered before the next is written
coproc talk { exec "$program" session --schema "$schema" 2>"$work/err"; }
talking=$talk_PID
exec {lines}>&"${talk[1]}" {answers}<&"${talk[0]}"
eval "exec ${talk[1]}>&-"
for line in "?$rows" . "+$(head -n 1 "$records")" . "?$rows"; do
  printf '%s\n' "$line" >&"$lines"
  while [[ $line != +* ]] && IFS= read -r -t 20 answer <&"$answers"; do
    printf '%s\n' "$line: $answer"
    [[ $answer != at\ * && $answer != published\ * ]] || break
  done
done >"$work/out"
exec {lines}>&-
wait "$talking"
ended "a session line by line" 0 "?$rows: {\"r\":0}
?$rows: at 0
.: published 1
.: published 2
?$rows: {\"r\":1}
?$rows: at 2" "" $?
