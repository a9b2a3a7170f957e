#!/bin/sh
# Makes the library for C of the archive that rt lib wrote, and puts it in place.
#
#   tools/c_library.sh ARCHIVE ALLOCATOR PREFIX
#
# ARCHIVE is crates/h264_c/out/libh264_c.a, and ALLOCATOR the kit's liblibc_c.a, which calls malloc, realloc and free. Puts into PREFIX
# lib/libh264v.a, which has both, lib/libh264v.so.N, which exports only the h264v_ names, include/h264v.h and lib/pkgconfig/h264v.pc. N is
# the first number of the version. Needs ar and cc.
set -eu
archive=${1:?ARCHIVE}; allocator=${2:?ALLOCATOR}; prefix=${3:?PREFIX}
top=$(cd "$(dirname "$0")/.." && pwd)
read -r version _ <"$top/VERSION"
object=libh264v.so.${version%%.*}
work=$(mktemp -d "${TMPDIR:-/tmp}/h264v-library.XXXXXX")
trap 'rm -rf "$work"' EXIT INT TERM
mkdir -p "$prefix/lib/pkgconfig" "$prefix/include"

cp "$archive" "$work/program.a"
cp "$allocator" "$work/allocator.a"
(cd "$work" && printf 'create libh264v.a\naddlib program.a\naddlib allocator.a\nsave\nend\n' | ar -M && ar s libh264v.a)
printf '{ global: h264v_*; local: *; };\n' >"$work/names"
cc -shared -o "$work/$object" -Wl,-soname,"$object" -Wl,-z,defs -Wl,--version-script="$work/names" \
  -Wl,--whole-archive "$work/libh264v.a" -Wl,--no-whole-archive

install -m 644 "$work/libh264v.a" "$prefix/lib/libh264v.a"
install -m 755 "$work/$object" "$prefix/lib/$object"
ln -sf "$object" "$prefix/lib/libh264v.so"
install -m 644 "$top/include/h264v.h" "$prefix/include/h264v.h"
sed "s|@PREFIX@|$prefix|; s|@VERSION@|$version|" "$top/share/h264v.pc.in" >"$prefix/lib/pkgconfig/h264v.pc"
