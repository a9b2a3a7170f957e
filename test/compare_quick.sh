#!/bin/sh
# Compares h264v-quick with the proved program, of each command and option: standard output, standard error, the status, and the file of --output.
#
#   test/compare_quick.sh PROGRAM QUICK FILE..
set -u
[ $# -ge 3 ] || { sed -n 's/^# *//p' "$0" >&2; exit 64; }
proved=$(realpath "$1") || exit 64
quick=$(realpath "$2") || exit 64
shift 2
work=$(mktemp -d); trap 'rm -rf "$work"' EXIT
mkdir "$work/proved" "$work/quick" "$work/files"
ln -s "$proved" "$work/proved/h264v"
ln -s "$quick" "$work/quick/h264v"
same=0; different=0; input=/dev/null

# Runs both programs with these words.
compare() {
  for it in proved quick; do
    rm -f "$work/files/out"
    "$work/$it/h264v" "$@" <"$input" >"$work/$it/out" 2>"$work/$it/err"
    echo "status $?" >>"$work/$it/err"
    if [ -e "$work/files/out" ]; then mv "$work/files/out" "$work/$it/file"; else : >"$work/$it/file"; fi
    sed -i -e '/^h264v-quick: a plain build, of which nothing is proved$/d' -e 's/, a plain build, of which nothing is proved$//' "$work/$it/err"
  done
  for it in out err file; do
    cmp -s "$work/proved/$it" "$work/quick/$it" || { different=$((different + 1)); echo "$*: they differ"; return; }
  done
  same=$((same + 1))
}

# Makes a folder with what a folder may have.
make_tree() {
  mkdir -p "$work/tree/inner" "$work/tree/.hidden"
  for it in one.264 inner/two.264 .hidden/three.h264 "$(printf 'no\377name.264')"; do cp "$1" "$work/tree/$it"; done
  ln -s inner "$work/tree/link"
  ln -s one.264 "$work/tree/other"
  ln -s nothing "$work/tree/dangling"
  mkfifo "$work/tree/fifo"
  find "$work/tree" -name '*.264' -print0 | sort -z >"$work/list"
}

# What is asked of each file.
asked() {
  for command in check units headers frames decode elements info report; do
    printf '%s\n' "$command" "$command --json" "$command --quiet" "$command --target main-ip"
  done
  for command in check units headers frames decode elements; do echo "$command --explain"; done
  cat <<END
check --strict
check --strict --json
check --explain --json --strict
check --brief
report --strict
report -o $work/files/out
decode --y4m
decode -o $work/files/out
decode --y4m -o $work/files/out
elements --picture 1
elements --picture 99999
elements --mb 3 --json
elements -p 0 -m 0
units --y4m
info --strict
END
}

# What is asked without a file, and of folders and lists.
alone() {
  for command in check units headers frames decode elements info report explain; do printf '%s\n' "$command" "$command --help" "help $command"; done
  cat <<END

--help
-h
--version
help
help none
none
chek
-x
--jsn
--json=1
check --jsn x
check --json=1 x
check --json --json x
check -o
check -- -x
check --target none x
check --glob x
check --name a b
check -
check - -
check -r none
check -r $work/files
check -r $work/tree
info --json -r $work/tree --glob *.264
check --files0-from none
units --files0-from $work/list
elements -p x y
decode a b
decode a -o a
report a b
explain Range
explain range Level6 VectorCount --json
explain Rnge
explain --all
explain --all --json
END
}

make_tree "$1"
asked >"$work/asked"
alone >"$work/alone"
set -f
# shellcheck disable=SC2086 # a line is split into words
while read -r words; do compare $words; done <"$work/alone"
for file; do
  # shellcheck disable=SC2086
  while read -r words; do compare $words "$file"; done <"$work/asked"
  input=$file
  compare check -
  compare info --name given -
  compare check /dev/stdin
  input=/dev/null
done
for command in check units headers frames elements info; do
  compare "$command" "$@"
  compare "$command" --json "$@"
done
echo "$same agree, $different differ"
[ $different = 0 ]
