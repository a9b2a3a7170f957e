#!/bin/sh
# Runs every example of docs/EXAMPLES.md and compares the last line that the program prints, or with --strict the first one that begins with `strict: bit`.
# Then it runs every line of every document that begins with `$` (tools/documents.py). The status is 1 where something differs.
#
#   test/examples.sh PROGRAM
# shellcheck disable=SC2016 # the backquotes are those of the table
set -u
program=$(command -v "${1:?PROGRAM}") || { echo "examples.sh: there is no $1" >&2; exit 64; }
top=$(dirname "$0")/..
page=$top/docs/EXAMPLES.md
stream=$(mktemp); trap 'rm -f "$stream"' EXIT
same=0; different=0
while IFS='|' read -r _ label _ run line _; do
  command=$(printf '%s' "$run" | sed -n 's/^ *\([a-z -]*\): .*/\1/p')
  want=$(printf '%s' "$line" | sed -n 's/^ *`\(.*\)` *$/\1/p')
  if [ -z "$command" ] || [ -z "$want" ]; then continue; fi
  printf '%s' "$run" | sed -n 's/^[^`]*`\([0-9a-f]*\)`.*/\1/p' | xxd -r -p >"$stream"
  # shellcheck disable=SC2086 # options are words of their own
  case $command in
  *--strict) got=$("$program" $command "$stream" 2>/dev/null | grep -m 1 '^strict: bit') ;;
  *) got=$("$program" $command "$stream" 2>/dev/null | tail -n 1) ;;
  esac
  if [ "$got" = "$want" ]; then same=$((same + 1)); else different=$((different + 1)); echo "$label: want $want, got $got"; fi
done <"$page"
echo "$same agree, $different differ"
"$top/tools/documents.py" --run "$program" || different=1
[ $different = 0 ]
