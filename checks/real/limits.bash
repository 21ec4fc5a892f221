# A full disk, a limit on sizes, permissions, the most folders and tablets.

made=$work/made.jsonl
"$program" gen --seed 0 --records 4096 >"$made"

# A write past the limit fails where its signal is ignored; standard error is a pipe, which has no size.
mkdir "$work/limited"
(
  trap '' XFSZ
  ulimit -f 8
  "$program" load --schema "$schema" --table "$work/limited.table" "$work/limited" <"$made" 2>&1 >/dev/null
  echo "$?"
) | cat >"$work/out"
: >"$work/err"
ended "a file larger than the limit" 0 "outside: keeper
4" "" 0
sees "no table is put behind it" [ ! -e "$work/limited.table" ]
(
  trap '' XFSZ
  ulimit -f 0
  "$program" query --table "$table" "$rows" 2>&1 >"$work/limited/out"
  echo "$?"
) | cat >"$work/out"
ended "an output larger than the limit" 0 "outside: out
4" "" 0

if [ "$(id -u)" = 0 ] && mkdir "$work/small" && mount -t tmpfs -o size=64k none "$work/small" 2>/dev/null; then
  mkdir "$work/small/a"
  told "a full disk" 4 "" "outside: keeper" load --schema "$schema" --table "$work/full.table" "$work/small/a" <"$made"
  sees "no table is put" [ ! -e "$work/full.table" ]
  sees "and no part of a tablet" [ -z "$(ls "$work/small/a")" ]
  head -c 65536 /dev/zero >"$work/small/filler" 2>/dev/null
  told "a table on a full disk" 4 "" "outside: keeper" load --schema "$schema" --table "$work/small/t" --rows 1 "$work/a" <"$records"
  sees "nothing is left of it" [ ! -e "$work/small/t" -a ! -e "$work/small/t.unfinished-0" ]
  "$program" gen --seed 0 --records 4096 >"$work/small/out" 2>"$work/err"
  status=$?
  : >"$work/out"
  ended "an output on a full disk" 4 "" "outside: out" "$status"
  umount "$work/small"
else
  echo "skip  a full disk: that wants a file system of its own, which root may make"
fi
load_two

if [ "$(id -u)" = 0 ] && command -v setpriv >/dev/null; then
  before=(setpriv --reuid=65534 --regid=65534 --clear-groups)
  chmod 600 "$work/a/t000000.parquet"
  told "a copy that may not be read" 0 '{"r":2}' "" query --table "$table" "$rows"
  chmod 700 "$work/b"
  told "copies that may not be read" 3 "" "left t000000: 0 read; 1 read" query --table "$table" "$rows"
  told "the same, dumped" 3 "" "left t000000: 0 read; 1 read" dump --table "$table" DocId
  told "a file that may not be read" 3 "" "left file: read" schema "$work/a/t000000.parquet"
  told "a load into a folder that may not be written" 4 "" "outside: keeper" \
    load --schema "$schema" --table "$work/none.table" "$work/a" <"$records"
  chmod 600 "$table" && cp "$schema" "$work/schema" && chmod 0 "$work/schema"
  told "a table that may not be read" 4 "" "outside: keeper" query --table "$table" "$rows"
  told "the same, dumped" 4 "" "outside: keeper" dump --table "$table" DocId
  told "a schema that may not be read" 4 "" "outside: keeper" ask --schema "$work/schema" "$rows" <"$records"
  told "the same, of a load" 4 "" "outside: keeper" load --schema "$work/schema" --table "$work/none.table" "$work/a" <"$records"
  told "of a column" 4 "" "outside: keeper" stripe --schema "$work/schema" DocId <"$records"
  told "of an automaton" 4 "" "outside: keeper" fsm --schema "$work/schema" DocId
  told "of an explained query" 4 "" "outside: keeper" explain --schema "$work/schema" "$rows"
  before=()
  chmod 755 "$work/b"
else
  echo "skip  permissions: that wants root, who may become another user"
fi

folders=()
for number in $(seq 64); do
  mkdir "$work/folder$number"
  folders+=("$work/folder$number")
done
told "64 folders, 64 copies" 0 "loaded 2 records into 2 tablets" "" \
  load --schema "$schema" --table "$work/wide.table" --rows 1 --copies 64 "${folders[@]}" <"$records"
for number in $(seq 1 63); do
  rm "$work/folder$number"/*
done
told "of which all but the last are empty" 0 '{"r":2}' "" query --table "$work/wide.table" "$rows"
told "the same, dumped" 0 '{"DocId":10}
{"DocId":20}' "" dump --table "$work/wide.table" DocId
rm "$work/folder64/t000001.parquet"
reads=$(printf '; %s read' $(seq 0 63))
told "and one tablet is nowhere" 3 "" "left t000001: ${reads#; }" query --table "$work/wide.table" --workers 16 "$rows"
told "65 folders" 1 "" "$(cat "$work/usage")" load --schema "$schema" --table "$work/none.table" "${folders[@]}" "$work/a" <"$records"

mkdir "$work/many"
told "4,096 tablets" 0 "loaded 4096 records into 4096 tablets" "" \
  load --schema "$schema" --table "$work/many.table" --rows 1 "$work/many" <"$made"
told "4,096 tablets, asked" 0 '{"r":4096}' "" query --table "$work/many.table" --workers 16 "$rows"
told "4,096 tablets, dumped" 0 "$(seq -f '{"DocId":%.0f}' 0 4095)" "" dump --table "$work/many.table" DocId
told "4,096 tablets in memory" 0 '{"r":4096}' "" ask --schema "$schema" --rows 1 --workers 16 "$rows" <"$made"
rm "$work/many/t004095.parquet"
told "of which one is gone" 3 "" "left t004095: 0 read" query --table "$work/many.table" "$rows"
told "of which 99 of 100 are enough" 6 '{"r":4095}' "left t004095: 0 read" query --table "$work/many.table" --least 99 "$rows"
rm "$work/many"/*
told "all of which are gone" 3 "" "$(printf 'left t%06d: 0 read\n' $(seq 0 4095))" dump --table "$work/many.table" DocId
cat "$records" >>"$made"
told "4,097 tablets" 2 "" "refused line 4097: TooManyRecords" load --schema "$schema" --table "$work/none.table" --rows 1 "$work/many" <"$made"
told "4,097 tablets in memory" 2 "" "refused line 4097: TooManyRecords" ask --schema "$schema" --rows 1 "$rows" <"$made"
