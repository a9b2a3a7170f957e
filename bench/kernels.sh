#!/usr/bin/env bash
# kernels.sh [RUNS]: times inter prediction (h264_inter), residuals (h264_scale) and blocks of levels
# (h264_cavlc) beside their plain forms (sample by sample, element by element) in Rust at -O3, for the same processor, in alternating runs, and prints
# the best time of each kernel, the ratio, and whether both gave the same numbers.
# The program that calls our kernels (kernels/*.rt.txt) is no crate of the repository: it is proved and built in a throwaway copy.
set -eu
top=$(cd "$(dirname "$0")/.." && pwd)
work=$(mktemp -d)
trap 'rm -rf "$work"' EXIT
mkdir -p "$work/crates/kernels/src"
python3 - "$top" "$work" <<'PYTHON'
import pathlib, shutil, sys

top, work = map(pathlib.Path, sys.argv[1:])
lines = [line.partition(":") for line in (top / "crates.txt").read_text().splitlines() if line.startswith("h264_")]
uses = {name.split()[0]: words.split() for name, _, words in lines}
own = "h264_base h264_units h264_tables h264_rbsp h264_bits h264_cavlc h264_write h264_plane h264_scale h264_inter".split()
wanted, waiting = [], list(own)
while waiting:
    crate = waiting.pop(0)
    if crate in uses and crate not in wanted:
        wanted.append(crate)
        waiting += uses[crate]
for crate in wanted:
    shutil.copytree(top / "crates" / crate, work / "crates" / crate, ignore=shutil.ignore_patterns("must-fail"))
(work / "crates.txt").write_text("".join(f"{crate}: {' '.join(uses[crate])}\n" for crate in wanted) + f"kernels: {' '.join(own)}\n")
PYTHON
for module in main blocks; do
    cp "$top/bench/kernels/$module.rt.txt" "$work/crates/kernels/src/$module.rt"
done
(cd "$work/crates/kernels" && rt run > /dev/null)
cp "$top/bench/kernels/kernels.rs" "$top/bench/kernels/blocks.rs" "$work/"
python3 "$top/bench/kernels/tables.py" "$top/crates/h264_tables" > "$work/tables.rs"
rustc --edition 2021 -C opt-level=3 -C target-cpu=x86-64-v2 "$work/kernels.rs" -o "$work/rust"
python3 - "$work/crates/kernels/out/kernels" "$work/rust" "${1:-15}" <<'PYTHON'
import subprocess, sys

programs, runs = sys.argv[1:3], int(sys.argv[3])
best, sums = [{}, {}], [{}, {}]
for _ in range(runs):
    for i, program in enumerate(programs):
        for line in subprocess.run([program], capture_output=True, text=True, check=True).stdout.splitlines():
            name, time, digest = line.split()
            best[i][name] = min(best[i].get(name, 10**12), int(time))
            sums[i][name] = digest
for name, ours in best[0].items():
    same = "the same numbers" if sums[0][name] == sums[1][name] else "OTHER NUMBERS"
    print(f"{name:18} ours {ours:7} us, Rust {best[1][name]:7} us, ratio {ours / best[1][name]:.2f}, {same}")
PYTHON
