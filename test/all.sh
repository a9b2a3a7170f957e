#!/bin/sh
# Runs everything that needs no proof, over the plain build (quick.sh): some five minutes on four cores.
#
#   test/all.sh
#
# It prints a line for each step, and what a step said where it failed. Status 1 where one failed.
# Needs cargo, python3, bash, cc, pkg-config, valgrind, xxd, shellcheck and Python's jsonschema.
set -u
top=$(cd "$(dirname "$0")/.." && pwd)
cd "$top" || exit 1
work=$(mktemp -d "${TMPDIR:-/tmp}/h264v-all.XXXXXX")
trap 'rm -rf "$work"' EXIT INT TERM
passed=0; failed=0

# step NAME COMMAND..: runs a command, and tells how it ended
step() {
  name=$1; shift
  from=$(date +%s)
  if "$@" >"$work/said" 2>&1; then
    passed=$((passed + 1))
    echo "ok      $name ($(($(date +%s) - from)) s)"
  else
    failed=$((failed + 1))
    echo "FAILED  $name"
    sed 's/^/        /' "$work/said"
  fi
}

# What bash offers for words of which the last one is to be completed.
completed() {
  # shellcheck disable=SC2016 # the other shell expands it
  bash -c '. share/h264v.bash; COMP_WORDS=("$@"); COMP_CWORD=$(($# - 1)); _h264v; echo "${COMPREPLY[*]}"' bash "$@"
}

# Whether the completions of bash work.
completes() {
  [ "$(completed h264v ch)" = check ] && [ "$(completed h264v explain VectorR)" = VectorRange ] && [ "$(completed h264v check --target m)" = main-ip ]
}

# Whether the program lists the labels that shells complete.
lists_labels() {
  "$work/h264v-quick" explain --all --json 2>/dev/null | sed 's/.*"label":"\([^"]*\)".*/\1/' | sort >"$work/listed"
  python3 -B -c 'import sys; sys.path.insert(0, "tools"); import words; print(*words.labels(), sep="\n")' | sort | diff "$work/listed" -
}

step 'rules and their entries' tools/rules.py --check
step 'commands, options and labels' tools/words.py --check
step 'tables of CABAC' tools/cabac_tables.py --check
step 'versions' tools/version.py --check
step 'lines within 160 characters' tools/lines.py
step 'definitions within six arguments' tools/arguments.py
step 'tables and the README' tools/documents.py
step 'wrong bodies apply' proof/wrong_bodies.py --stale HEAD
# shellcheck disable=SC2046 # no name has a space
step 'shell scripts' shellcheck $(git ls-files '*.sh') .ci/run
step 'completions of bash' completes
step 'the plain program' ./quick.sh "$work"
step 'labels of the program' lists_labels
step 'objects and their schema' test/schema.py "$work/h264v-quick" samples
step 'examples' test/examples.sh "$work/h264v-quick"
# A processor that valgrind knows.
step 'the plain library' env CPU=x86-64-v2 ./quick.sh --library "$work/prefix"
step 'Python' env H264V_PROGRAM="$work/h264v-quick" python/test.sh "$work/prefix"
step 'C' examples/c/run.sh --plain "$work/prefix"
step 'C, Python and units beside the program' test/compare_library.py "$work/h264v-quick" "$work/prefix/lib/libh264v.so" samples
echo "$passed passed, $failed failed"
[ $failed = 0 ]
