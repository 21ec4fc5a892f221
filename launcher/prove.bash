# The proof of one crate, by rattle itself, and what is kept of it.

# Proves a crate with so many jobs. A library is built of it, with its statements, and kept; of the program an object file.
prove_crate() {
  local words
  export TMPDIR=$room
  cd "$sources/crates/$1" || return
  take_built_words "$1" "$libraries"
  words+=(--jobs "$2")
  if [ -e src/main.rt ]; then
    "$kit/bin/rattle" build src/main.rt "${words[@]}" --toolchain "$kit/toolchain" --backend llvm -o "$room/$1.o" && is_verdict "$1"
  else
    rm -f "$libraries/$1.sum" && "$kit/bin/rattle" build src/lib.rt "${words[@]}" --statements -o "$libraries/$1.rlib" && is_verdict "$1" && keep "$1"
  fi
}

# Whether the last line of a proof is a verdict over statements alone, with no word beside those that a crate here may have: it may wait as
# often as crates.txt says, and main is handed what HANDLES allows.
is_verdict() {
  local line each may=0
  line=$(tail -n 1 "$room/$1.log")
  [[ $line =~ ^logic=proved( (functions|axioms|target|cpu|threads|main|may-wait|sum)=[^ ]+)+\ native=nat,char,string\ logic-built=trusted\ libraries-built=trusted\ statements=trusted$ ]] \
    || { echo "the last line is no verdict over statements alone"; return 1; }
  [[ $line =~ \ may-wait=([0-9]+) ]] && may=${BASH_REMATCH[1]}
  [ "$may" = "${may_wait[$1]:-0}" ] || { echo "$1 may wait at $may places, and crates.txt says ${may_wait[$1]:-0}"; return 1; }
  [[ $line =~ \ main=([^ ]+) ]] || return 0
  for each in ${BASH_REMATCH[1]//+/ }; do
    grep -qw "$each" "$sources/HANDLES" || { echo "main takes the handle $each, which HANDLES does not allow"; return 1; }
  done
}

# A sum of all that a library is made from: the toolchain, its row of crates.txt, its files, and the sums of the libraries below it.
sum_of_sources() {
  local each
  { tell_kit && grep "^$1[ :]" "$sources/crates.txt" && cd "$sources/crates/$1" && find . -type f -print0 | LC_ALL=C sort -z | xargs -0 sha256sum \
    && for each in ${own_uses[$1]}; do cat "$libraries/$each.sum" || return; done; } | sha256sum
}

# a sum of a library's own files
sum_of_library() {
  (cd "$libraries/$1.rlib" && find . -type f -print0 | LC_ALL=C sort -z | xargs -0 sha256sum | sha256sum)
}

# Keeps a library: with its sums beside it, which are written last.
keep() {
  { sum_of_sources "$1" && sum_of_library "$1"; } >"$libraries/$1.part" && mv "$libraries/$1.part" "$libraries/$1.sum"
}

# whether a library was proved of just these sources, over the libraries below as they are, and is whole
is_kept() {
  local each
  [ -s "$libraries/$1.sum" ] && [ -d "$libraries/$1.rlib" ] || return
  for each in ${own_uses[$1]}; do
    [ "${states[$each]}" = proved ] || return
  done
  [ "$(cat "$libraries/$1.sum")" = "$(sum_of_sources "$1" && sum_of_library "$1")" ]
}
