#!/bin/sh
# Builds h264v with all its proofs and installs the program, its man page and shell completions, and then the library for C with its header and
# pkg-config file (docs/LIBRARY.md).
#
#   ./install.sh [--program | --library] [PREFIX]   PREFIX is ~/.local where it is left out. --program and --library install that alone
#   ./install.sh --uninstall [PREFIX]               removes what an installation put there, and no folder
#
# The program is installed as soon as it is built, and the library after it. Each crate that was proved is told, with the time so far.
# An installation that was broken off goes on with the crate where it stopped: what was proved stays in ${XDG_CACHE_HOME:-~/.cache}/h264v-build until
# all is installed.
#
# Needs the kit's rt on the path, python3, 8 GB of memory for each processor or two, and disk in that folder: 29 of the crates took 1.7 GB. JOBS=N sets how many
# processors it takes, CPU=x86-64-v2 the processor that it builds for, BUILD=FOLDER the folder in which it makes h264v-build, and KEEP=1 leaves that one.
# The library needs ar and cc.
set -eu

task=all
case ${1:-} in
  --uninstall | --program | --library) task=${1#--}; shift ;;
  -*) echo "install.sh: no option $1: there are --program, --library and --uninstall" >&2; exit 64 ;;
esac
prefix=${1:-$HOME/.local}
case $prefix in /*) ;; *) prefix=$PWD/$prefix ;; esac
top=$(cd "$(dirname "$0")" && pwd)

say() { printf 'install.sh: %s\n' "$*" >&2; }

if [ "$task" = uninstall ]; then
  for file in bin/h264v share/man/man1/h264v.1 share/bash-completion/completions/h264v share/zsh/site-functions/_h264v \
    share/fish/vendor_completions.d/h264v.fish lib/libh264v.a lib/libh264v.so.0 lib/libh264v.so.1 lib/libh264v.so lib/pkgconfig/h264v.pc include/h264v.h; do
    rm -f "$prefix/$file"
  done
  say "removed h264v and its library from $prefix"
  exit 0
fi

case $task in
  program) crates=h264v tools="rt python3" ;;
  library) crates=h264_c tools="rt python3 ar cc" ;;
  all) crates="h264v h264_c" tools="rt python3 ar cc" ;;
esac
for tool in $tools; do
  command -v "$tool" >/dev/null && continue
  say "$tool is not on the path"
  case $tool in
    rt) say "Without the kit, ./quick.sh builds a program of which nothing is proved." ;;
    ar | cc) say "The library needs it. ./install.sh --program installs the program alone." ;;
  esac
  exit 1
done
kit=$(dirname "$(dirname "$(realpath "$(command -v rt)")")")

cpu=${CPU:-x86-64-v2}
if [ -z "${CPU:-}" ] && [ "$(grep -m 1 '^flags' /proc/cpuinfo | grep -owE 'avx2|bmi1|bmi2|fma|movbe|f16c' | sort -u | wc -l)" = 6 ]; then
  cpu=x86-64-v3
fi
jobs=${JOBS:-$(nproc)}
build=${BUILD:-${XDG_CACHE_HOME:-$HOME/.cache}}/h264v-build
mkdir -p "$build"

install_program() {
  install -D "$1" "$prefix/bin/h264v"
  install -D -m 644 "$top/share/h264v.1" "$prefix/share/man/man1/h264v.1"
  install -D -m 644 "$top/share/h264v.bash" "$prefix/share/bash-completion/completions/h264v"
  install -D -m 644 "$top/share/_h264v" "$prefix/share/zsh/site-functions/_h264v"
  install -D -m 644 "$top/share/h264v.fish" "$prefix/share/fish/vendor_completions.d/h264v.fish"
  say "installed $prefix/bin/h264v, built for $cpu, with every proof passed"
  case ":$PATH:" in *":$prefix/bin:"*) ;; *) say "$prefix/bin is not on your path" ;; esac
}

install_library() {
  sh "$top/tools/c_library.sh" "$1" "$kit/c/liblibc_c.a" "$prefix"
  say "installed $prefix/lib/libh264v.a and .so.0, built for $cpu, with every proof passed"
}

say "builds in $build for $cpu, on $jobs processors"
rm -f "$build/installed"
# shellcheck disable=SC2086 # each crate is a word
python3 "$top/tools/build.py" --jobs "$jobs" --cpu "$cpu" "$build" $crates | while read -r crate file; do
  case $crate in
    h264v) install_program "$file" ;;
    h264_c) install_library "$file" ;;
  esac
  echo "$crate" >>"$build/installed"
done
for crate in $crates; do
  grep -qx "$crate" "$build/installed" 2>/dev/null || { say "$crate was not built. Run it again to go on where it stopped."; exit 1; }
done
[ -n "${KEEP:-}" ] || rm -rf "$build"
