#!/bin/sh
# Builds h264v-quick in about a minute: the same program, from a plain copy of the sources without contracts. Nothing is proved of it, and it says so.
#
#   ./quick.sh [FOLDER]            leaves FOLDER/h264v-quick; FOLDER is this one where it is left out
#   ./quick.sh --library PREFIX    puts a plain build of the library for C into PREFIX, for tests of the interfaces; needs ar and cc too
#
# Needs cargo (Rust 1.85 or later) and python3. CPU=NAME sets the processor that it builds for, which is this one where it is left out.
# test/compare_quick.sh compares it with the proved program.
set -eu

top=$(cd "$(dirname "$0")" && pwd)
library=
[ "${1:-}" != --library ] || { library=--library; shift; : "${1:?PREFIX}"; }
to=${1:-$top}
for tool in cargo python3; do
  command -v "$tool" >/dev/null || { echo "quick.sh: $tool is not on the path" >&2; exit 1; }
done

build=$(mktemp -d "${TMPDIR:-/tmp}/h264v-quick.XXXXXX")
trap 'rm -rf "$build"' EXIT INT TERM
# shellcheck disable=SC2086 # no option is no word
python3 "$top/tools/plain.py" $library "$top" "$build"
(cd "$build" && RUSTC_BOOTSTRAP=1 RUSTFLAGS="-C target-cpu=${CPU:-native}" cargo build --release --offline --quiet)
mkdir -p "$to"
if [ -n "$library" ]; then
  # Rust's own allocator calls malloc: an archive of nothing stands for the kit's. The tools of binutils tell of bitcode that they can't read.
  printf '!<arch>\n' >"$build/nothing.a"
  sh "$top/tools/c_library.sh" "$build/target/release/libh264_c.a" "$build/nothing.a" "$to" >"$build/told" 2>&1 || { cat "$build/told" >&2; exit 1; }
  echo "quick.sh: $to/lib/libh264v.so is a plain build, of which nothing is proved"
  exit 0
fi
install "$build/target/release/h264v-quick" "$to/h264v-quick"
echo "quick.sh: $to/h264v-quick is a plain build, of which nothing is proved"
