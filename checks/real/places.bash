# Folders, pipes, devices and links that lead nowhere in the place of files.

keeper="outside: keeper"
left="left file: read"
cp "$records" "$work/records"
ln -s loop "$work/loop"
ln -s nowhere "$work/nowhere"
long=$work/$(printf 'x%.0s' $(seq 256))
deep=$work/$(printf 'x/%.0s' $(seq 3000))
for path in "$work/a" "$work/loop" "$work/nowhere" "$work/none" "$work/records/x" "$long" "$deep" "" /dev/zero; do
  name=${path#"$work"}
  name=${name:0:20}
  told "a schema at '$name'" 4 "" "$keeper" ask --schema "$path" "$rows" <"$records"
  told "a table at '$name'" 4 "" "$keeper" query --table "$path" "$rows"
  told "a file at '$name'" 3 "" "$left" schema "$path"
  told "a load's schema at '$name'" 4 "" "$keeper" load --schema "$path" --table "$work/none.table" "$work/leaf0" <"$records"
  told "a column's schema at '$name'" 4 "" "$keeper" stripe --schema "$path" DocId <"$records"
  told "an automaton's schema at '$name'" 4 "" "$keeper" fsm --schema "$path" DocId
  told "an explained query's schema at '$name'" 4 "" "$keeper" explain --schema "$path" "$rows"
  told "a dumped table at '$name'" 4 "" "$keeper" dump --table "$path" DocId
done
told "a schema that is empty" 2 "" "refused schema at 0: Syntax" ask --schema /dev/null "$rows" <"$records"
told "a table that is empty" 2 "" "refused table: Head" query --table /dev/null "$rows"
told "a file that is empty" 3 "" "left file: footer" schema /dev/null
told "a file of the kernel" 2 "" "refused schema at 0: Syntax" ask --schema /proc/version "$rows" <"$records"

told "a schema from a pipe" 0 '{"r":2}' "" ask --schema <(cat "$schema") "$rows" <"$records"
told "a table from a pipe" 0 '{"r":2}' "" query --table <(cat "$table") "$rows"
told "a file from a pipe" 0 "$("$program" schema "$work/a/t000000.parquet")" "" schema <(cat "$work/a/t000000.parquet")
cp "$work/a/t000000.parquet" "$work/whole"
rm "$work/a/t000000.parquet" "$work/b/t000000.parquet"
mkfifo "$work/a/t000000.parquet"
cat "$work/whole" >"$work/a/t000000.parquet" &
told "a tablet from a pipe" 0 '{"DocId":10}
{"DocId":20}' "" query --table "$table" --workers 1 "SELECT DocId FROM Document"
wait

rm "$work/a/t000000.parquet"
mkdir "$work/a/t000000.parquet"
ln -s "$work/none" "$work/b/t000000.parquet"
copies="left t000000: 0 read; 1 read"
told "a folder, and a link that leads nowhere, as copies" 3 "" "$copies" query --table "$table" "$rows"
told "the same, dumped" 3 "" "$copies" dump --table "$table" DocId
told "the same, of which half is enough" 6 '{"r":1}' "$copies" query --table "$table" --least 50 "$rows"
told "a tablet onto a folder" 4 "" "$keeper" load --schema "$schema" --table "$work/none.table" --rows 1 "$work/a" <"$records"
told "a tablet into a file" 4 "" "$keeper" load --schema "$schema" --table "$work/none.table" "$work/records" <"$records"
told "a tablet into a folder that isn't there" 4 "" "$keeper" load --schema "$schema" --table "$work/none.table" "$work/none" <"$records"
sees "no table is put where a tablet isn't" [ ! -e "$work/none.table" ]
told "a table onto a full device" 4 "" "$keeper" load --schema "$schema" --table /dev/full "$work/leaf0" <"$records"
told "a table onto a folder" 4 "" "$keeper" load --schema "$schema" --table "$work/a" "$work/leaf0" <"$records"
rm -r "$work/a/t000000.parquet" "$work/b/t000000.parquet"

ln -s "$work/behind" "$work/b/t000000.parquet"
load_two
sees "a copy is put through a link" cmp -s "$work/behind" "$work/a/t000000.parquet"
rm "$work/b/t000000.parquet"
load_two
