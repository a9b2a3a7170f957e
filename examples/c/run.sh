#!/bin/sh
# Builds the examples in C against the installed library, without warnings, and runs them: as they are, with AddressSanitizer and
# under valgrind. calls.c is the library's test: each function as the header says. It stands here, and not in crates/h264_c, since a
# decoder's handle can be made by h264v_open alone: no code that is proved may make one of a pointer.
#
#   examples/c/run.sh [--plain] [PREFIX]
#
# PREFIX is where install.sh put the library, ~/.local where it is left out. With --plain it is one that quick.sh put there, of which refused allocations
# are not tried: Rust's own library keeps some blocks. test/compare_library.py compares frames with the
# program's. Needs cc, pkg-config and valgrind.
set -eu
plain=
[ "${1:-}" != --plain ] || { plain=--plain; shift; }
prefix=${1:-$HOME/.local}
here=$(cd "$(dirname "$0")" && pwd)
samples=$here/../../samples
work=$(mktemp -d "${TMPDIR:-/tmp}/h264v-examples.XXXXXX")
trap 'rm -rf "$work"' EXIT INT TERM
export PKG_CONFIG_PATH="$prefix/lib/pkgconfig${PKG_CONFIG_PATH:+:$PKG_CONFIG_PATH}"
export LD_LIBRARY_PATH="$prefix/lib${LD_LIBRARY_PATH:+:$LD_LIBRARY_PATH}"

# build NAME KIND FLAG..: the example NAME as $work/NAME-KIND
build() {
  name=$1; kind=$2; shift 2
  # shellcheck disable=SC2046
  cc -std=c11 -pthread -Wall -Wextra -Wpedantic -Werror "$@" "$here/$name.c" $(pkg-config --cflags --libs h264v) -o "$work/$name-$kind"
}

# wants STATUS COMMAND..: runs a command that must end so
wants() {
  want=$1; shift
  got=0
  "$@" >"$work/out" 2>&1 || got=$?
  if [ "$got" != "$want" ]; then
    echo "run.sh: $*: status $got, wanted $want" >&2
    cat "$work/out" >&2
    exit 1
  fi
}

for name in decode compare calls; do
  build "$name" plain -O2
  build "$name" asan -O1 -g -fsanitize=address,undefined -fno-sanitize-recover=all
done
build misuse plain -O1 -g
build refusals plain -O2 -fno-builtin
checked='valgrind --quiet --error-exitcode=99 --leak-check=full --errors-for-leak-kinds=definite,possible'

# tried PREFIX..: every example, run so
tried() {
  kind=$1; shift
  wants 0 "$@" "$work/decode-$kind" "$samples/one_frame.264" "$work/one.yuv"
  wants 0 "$@" "$work/compare-$kind" "$samples/one_frame.264" "$work/one.yuv"
  wants 1 "$@" "$work/decode-$kind" "$samples/vector_too_long.264"
  wants 1 "$@" "$work/compare-$kind" "$samples/one_frame.264" "$samples/one_frame.264"
  wants 0 "$@" "$work/calls-$kind" "$samples/one_frame.264" "$samples/vector_too_long.264"
}
tried plain
tried asan
# shellcheck disable=SC2086
tried plain $checked
echo "the examples ran, with AddressSanitizer and under valgrind too"

# What the header asks of a caller: valgrind names each breach.
for word in closed-send closed-receive closed-twice past-the-end kept-frame null-decoder null-verdict; do
  # shellcheck disable=SC2086
  $checked "$work/misuse-plain" "$samples/one_frame.264" $word >"$work/out" 2>&1 || true
  grep -q 'Invalid \|uninitialised' "$work/out" || { echo "run.sh: valgrind says nothing of $word" >&2; cat "$work/out" >&2; exit 1; }
done
echo "valgrind named each of 7 breaches of a caller's duties"

# Threads with decoders of their own: the same frames, and no race.
build threads plain -O1 -g
wants 0 "$work/threads-plain" "$samples/one_frame.264"
wants 0 valgrind --quiet --error-exitcode=99 --tool=helgrind "$work/threads-plain" "$samples/one_frame.264"
echo "four threads decoded at once, without a race"

# Static too: the archive needs nothing but the C library.
cc -std=c11 -O2 -I"$prefix/include" "$here/decode.c" "$prefix/lib/libh264v.a" -o "$work/decode-static"
wants 0 "$work/decode-static" "$samples/one_frame.264"

if [ -n "$plain" ]; then
  echo "a plain build: refused allocations are not tried"
  exit 0
fi
"$work/refusals-plain" "$samples/one_frame.264" "$samples/vector_too_long.264" || {
  echo "run.sh: a refused allocation is not answered as it should be" >&2
  exit 1
}
