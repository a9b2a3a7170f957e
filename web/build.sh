#!/bin/bash
# Makes web/h264v.html: one page that needs nothing beside it, with the decoder in it as a module for wasm64.
#
#   web/build.sh [OUTPUT]
#
# The library crates/h264_c is proved and built for x86-64 by the kit. Its LLVM module, as the compiler is given it, is then given another target
# and compiled anew. The proof covers the module before that, and not the translation. Needs the kit's rt on the path, python3, and crates/h264_c
# proved or the time for it. CRATES=FOLDER takes crates that were proved elsewhere: the crates/ of a checkout in which
# `rt all check` ran; and CPU=NAME the processor for which they were checked. MODULE=FILE takes an LLVM module that is there.
set -euo pipefail
top=$(cd "$(dirname "$0")/.." && pwd)
output=${1:-$top/web/h264v.html}
kit=$(dirname "$(dirname "$(realpath "$(command -v rt)")")")
work=$(mktemp -d "${TMPDIR:-/tmp}/h264v-web.XXXXXX")
[ -n "${KEEP:-}" ] || trap 'rm -rf "$work"' EXIT INT TERM
exports='h264v_open h264v_send h264v_receive h264v_finish h264v_close h264v_check'

# A kit of links, of which the compiler alone is another: it keeps a copy of each module that it is given.
mkdir -p "$work/kit/bin" "$work/kit/toolchain/bin" "$work/modules"
for part in "$kit"/*; do
  case $(basename "$part") in bin | toolchain) ;; *) ln -s "$part" "$work/kit/" ;; esac
done
for part in "$kit"/toolchain/*; do [ "$(basename "$part")" = bin ] || ln -s "$part" "$work/kit/toolchain/"; done
for part in "$kit"/toolchain/bin/*; do [ "$(basename "$part")" = clang ] || ln -s "$part" "$work/kit/toolchain/bin/"; done
for part in "$kit"/bin/*; do
  case $(basename "$part") in rt | rt*.py) cp "$part" "$work/kit/bin/" ;; *) ln -s "$part" "$work/kit/bin/" ;; esac
done
cat >"$work/kit/toolchain/bin/clang" <<END
#!/bin/bash
for word in "\$@"; do
  case \$word in *.bc | *.ll) [ -f "\$word" ] && cp "\$word" "$work/modules/\$(date +%s%N)-\$(basename "\$word")" ;; esac
done
exec "$kit/toolchain/bin/clang" "\$@"
END
chmod +x "$work/kit/toolchain/bin/clang"

module=${MODULE:-}
if [ -z "$module" ]; then
  (cd "${CRATES:-$top/crates}/h264_c" && rm -f out/libh264_c.a && python3 "$work/kit/bin/rt" lib ${CPU:+--cpu "$CPU"})
  # shellcheck disable=SC2012 # their names have no odd characters
  module=$(ls -S "$work/modules"/* | head -n 1)
fi

clang=$kit/toolchain/bin/clang
# The module with another target: other words for its layout and its triple, and none on the processor it was made for.
"$clang" -x ir "$module" -S -emit-llvm -Xclang -disable-llvm-passes -o "$work/x86-64.ll"
sed -e 's/^target datalayout = .*/target datalayout = "e-m:e-p:64:64-p10:8:8-p20:8:8-i64:64-i128:128-n32:64-S128-ni:1:10:20"/' \
  -e 's/^target triple = .*/target triple = "wasm64-unknown-unknown"/' \
  -e 's/ "probe-stack"="[^"]*"//; s/ "stack-probe-size"="[^"]*"//; s/ "target-cpu"="[^"]*"//; s/ "target-features"="[^"]*"//' \
  "$work/x86-64.ll" >"$work/wasm64.ll"
to_wasm="--target=wasm64-unknown-unknown -mcpu=lime1 -msimd128 --no-default-config -fintegrated-cc1 -O3 -ffunction-sections -fdata-sections"
# shellcheck disable=SC2086
"$clang" $to_wasm -c -x ir "$work/wasm64.ll" -o "$work/program.o"
for name in heap product; do
  # shellcheck disable=SC2086
  "$clang" $to_wasm -ffreestanding -nostdlib -c "$top/web/$name.c" -o "$work/$name.o"
done
names=()
for name in $exports malloc free memory __heap_base; do [ "$name" = memory ] || names+=("--export=$name"); done
(exec -a wasm-ld "$kit/toolchain/bin/ld.lld" -mwasm64 --no-entry --gc-sections --stack-first -z stack-size=1048576 \
  --max-memory=17179869184 "${names[@]}" "$work/program.o" "$work/heap.o" "$work/product.o" -o "$work/h264v.wasm")
python3 "$top/web/make_page.py" "$top" "$work/h264v.wasm" "$output"
echo "build.sh: $output, with a module of $(stat -c %s "$work/h264v.wasm") bytes"
