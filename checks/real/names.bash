# Names of folders and files with odd bytes, and words that are no text.

mkdir "$work/names" "$work/schemas"
for name in "blank 'quote\" é" $'tab\tbell\a' "$(printf 'x%.0s' $(seq 255))" "%s%n" '$(x)' "*" "{}" "leaf x"; do
  mkdir -p "$work/names/$name"
  told "a table and folders named '${name:0:20}'" 0 "loaded 2 records into 2 tablets" "" \
    load --schema "$schema" --table "$work/names/$name/$name" --rows 1 "$work/names/$name" <"$records"
  told "the same, asked" 0 '{"r":2}' "" query --table "$work/names/$name/$name" "$rows"
  told "the same, dumped" 0 '{"DocId":10}
{"DocId":20}' "" dump --table "$work/names/$name/$name" DocId
  told "a tablet there" 0 "$("$program" schema "$work/a/t000000.parquet")" "" schema "$work/names/$name/t000000.parquet"
  cp "$schema" "$work/schemas/$name"
  told "a schema of this name" 0 '{"r":2}' "" ask --schema "$work/schemas/$name" "$rows" <"$records"
done

cd "$work/names" || exit 1
mkdir -- -dash
told "a folder that begins with a dash" 1 "" "$(cat "$work/usage")" load --schema "$schema" --table t --rows 1 -dash <"$records"
told "the same behind two dashes" 0 "loaded 2 records into 2 tablets" "" load --schema "$schema" --table t --rows 1 -- -dash <"$records"
told "a relative folder, asked from where it was loaded" 0 '{"r":2}' "" query --table t "$rows"
cd "$work" || exit 1
told "the same, asked from elsewhere" 3 "" "left t000000: 0 read
left t000001: 0 read" query --table "$work/names/t" "$rows"

mkdir $'names/line\nfeed' $'names/\xff'
told "a folder with a line feed" 2 "" "refused leaf 1" load --schema "$schema" --table names/u "$work/a" $'names/line\nfeed' <"$records"
told "a table with a line feed" 0 "loaded 2 records into 1 tablets" "" load --schema "$schema" --table $'names/line\nfeed/t' "$work/names" <"$records"
told "a word that is no text" 1 "" "$(cat "$work/usage")" load --schema "$schema" --table names/u $'names/\xff' <"$records"
told "a query that is no text" 1 "" "$(cat "$work/usage")" query --table "$table" $'SELECT \xff'
