#!/bin/bash
# Goes through a folder of streams with their expected frames, such as the suite of H.264.1, and prints a table.
#
#   test/conformance.sh PROGRAM FOLDER
#
# A file is a stream if it begins with a start code, whatever its name. Its expected frames are beside it: planar YUV in a file whose name
# begins as the stream's (.yuv, .qcif, .cif), or else the only such file of its folder; or their MD5 in a file NAME*.md5.
# Status 1 if a stream is no yes, or its frames differ.
set -u
program=${1:?PROGRAM}
folder=${2:?FOLDER}
work=$(mktemp -d); trap 'rm -rf "$work"' EXIT
row() { printf '%-32s %-44s %-24s %8s\n' "$@"; }

is_stream() {
  case $1 in *.yuv | *.qcif | *.cif | *.md5 | *.zip | *.txt | *.doc | *.pdf) return 1 ;; esac
  case $(head -c 4 "$1" | od -An -tx1 | tr -d ' \n') in 000001* | 00000001) return 0 ;; esac
  return 1
}

# The file with a stream's expected frames, or with their digest; nothing where there is none.
expected() {
  local stem=${1%.*} file
  for file in "$stem".yuv "$stem"*.yuv "$stem"*.qcif "$stem"*.cif "$stem"*.md5 "$1".md5; do
    [ -f "$file" ] && { echo "$file"; return; }
  done
  set -- "$(dirname "$1")"/*.yuv
  [ $# = 1 ] && [ -f "$1" ] && echo "$1"
}

# How the frames in $work/frames compare with those in a file.
compared() {
  case $1 in
  '') echo 'nothing to compare' ;;
  *.md5)
    if grep -qi "$(md5sum <"$work/frames" | cut -d ' ' -f 1)" "$1"; then echo equal; else echo 'other digest'; fi ;;
  *)
    local byte size
    byte=$(cmp "$work/frames" "$1" 2>&1 | sed -n 's/.*\(byte\|after byte\) \([0-9]*\).*/\2/p')
    if [ -z "$byte" ]; then echo equal; return; fi
    size=$("$program" frames "$2" | sed -n 's/^frame .* \([0-9]*\)x\([0-9]*\) md5.*/\1 * \2 * 3 \/ 2/p;q')
    echo "frame $(((byte - 1) / (${size:-1}))) differs" ;;
  esac
}

bad=0; all=0
row stream verdict frames seconds
while IFS= read -r file; do
  is_stream "$file" || continue
  all=$((all + 1))
  from=$(date +%s%N)
  "$program" decode "$file" >"$work/frames" 2>"$work/line"
  to=$(date +%s%N)
  line=$(tail -n 1 "$work/line")
  frames=$(compared "$(expected "$file")" "$file")
  case "$line/$frames" in yes*/equal | yes*/nothing*) ;; *) bad=$((bad + 1)) ;; esac
  row "$(basename "$file")" "$line" "$frames" "$(awk "BEGIN { printf \"%.3f\", ($to - $from) / 1e9 }")"
done < <(find "$folder" -type f | sort)
echo "$all streams, $bad of them no yes or with other frames"
[ $bad = 0 ]
