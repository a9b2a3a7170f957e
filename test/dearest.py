#!/usr/bin/env python3
"""dearest.py [--command COMMAND] PROGRAM [CASE..]: makes the dearest streams that a level allows (streams/dear.py), judges each by PROGRAM (check), and
prints processor time a byte and a macroblock, and the greatest memory.

Each case is made in two sizes, the second twice the first. The last column is the processor time of the second over that of the first: about 2 where time
grows with the input, 4 where it grows with the input's square. It ends with 1 where an answer is not the one that the case must have."""
import argparse
import os
import subprocess
import sys
import tempfile

from streams import dear

NANOSECONDS, KIBIBYTES = 1e9, 1024
SIZES = (1, 2)


def judged(program, command, path):
    """The last line, the processor time in seconds and the greatest memory in MiB of a run."""
    with tempfile.TemporaryFile() as out:
        process = subprocess.Popen([program, command, path], stdout=out, stderr=subprocess.DEVNULL)
        _, _, used = os.wait4(process.pid, 0)
        out.seek(0)
        lines = out.read().decode().splitlines()
    return lines[-1] if lines else "", used.ru_utime + used.ru_stime, used.ru_maxrss / KIBIBYTES


def measured(name, program, command, path):
    """Judges a case in its sizes and prints its line; whether its answers are right."""
    make, wanted = dear.CASES[name]
    times, right = [], True
    for size in SIZES:
        pieces, macroblocks = make(size)
        with open(path, "wb") as it:
            it.writelines(pieces)
        length = os.path.getsize(path)
        last, seconds, memory = judged(program, command, path)
        right = right and last.startswith(wanted)
        times.append(max(seconds, 1e-3))
    cost = NANOSECONDS * times[-1]
    costs = f"{times[-1]:7.2f} {cost / length:10.1f} {cost / macroblocks:12.1f} {memory:7.0f} {times[-1] / times[0]:5.1f}"
    print(f"{name:20} {length:10} {macroblocks:8} {costs}  {last}", flush=True)
    return right


def main():
    words = argparse.ArgumentParser(description=__doc__, formatter_class=argparse.RawDescriptionHelpFormatter)
    words.add_argument("--command", default="check")
    words.add_argument("program")
    words.add_argument("cases", nargs="*", metavar="CASE")
    asked = words.parse_args()
    print(f"{'case':20} {'bytes':>10} {'mbs':>8} {'seconds':>7} {'ns a byte':>10} {'ns a mb':>12} {'MiB':>7} {'ratio':>5}  answer")
    with tempfile.TemporaryDirectory() as folder:
        right = [measured(name, asked.program, asked.command, f"{folder}/dear.264") for name in asked.cases or dear.CASES]
    return 0 if all(right) else 1


if __name__ == "__main__":
    sys.exit(main())
