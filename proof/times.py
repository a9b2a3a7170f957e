#!/usr/bin/env python3
"""Lists the functions whose proofs take most processor time.

    proof/times.py [--test] [--most N] [--log FILE]     of the crate in this folder. With what is kept in out/ removed, else that counts as free
    proof/times.py [--most N] --of LOG..                of several crates, by the logs of earlier calls, and what each check took in all

Proves the crate by `rt check` with one job, with its tests where --test is given, and prints the N dearest functions (40 where none is given), with the seconds
from the line before. What is read before a function is charged to it: the first that cites a long file of lemmas seems dear. FILE gets all lines of the check,
each after the seconds so far. Ends with the check's status.
"""
import argparse
import os
import re
import subprocess
import sys

CHECKED = re.compile(r"checked (\S+), \d+ of \d+")
BEGINS = re.compile(r"so far: 0 of \d+ functions")
TICKS = os.sysconf("SC_CLK_TCK")


def seconds_of(root):
    """Processor seconds of a process and all below it, with those that have ended."""
    below, ticks = {}, {}
    for name in filter(str.isdigit, os.listdir("/proc")):
        try:
            with open(f"/proc/{name}/stat") as file:
                words = file.read().rpartition(")")[2].split()
        except OSError:
            continue
        below.setdefault(int(words[1]), []).append(int(name))
        ticks[int(name)] = sum(map(int, words[11:15]))
    total, waiting = 0, [root]
    while waiting:
        process = waiting.pop()
        total += ticks.get(process, 0)
        waiting += below.get(process, [])
    return total / TICKS


def main():
    options = argparse.ArgumentParser(description=__doc__, formatter_class=argparse.RawDescriptionHelpFormatter)
    options.add_argument("--test", action="store_true")
    options.add_argument("--most", type=int, default=40)
    options.add_argument("--log")
    options.add_argument("--of", nargs="+", metavar="LOG")
    given = options.parse_args()
    return told_of(given.of, given.most) if given.of else checked(given)


def told_of(logs, most):
    """Prints the dearest functions of these logs, and what each check took."""
    functions, sums = [], []
    for log in logs:
        own, last, now = [], 0.0, 0.0
        with open(log) as file:
            for line in file:
                now, line = float(line[:9]), line[10:]
                function = CHECKED.match(line)
                if function:
                    own.append((now - last, function[1]))
                if function or BEGINS.match(line):
                    last = now
        functions += own
        sums.append((now, len(own), own[0][1].split("::")[0] if own else log))
    put(functions, most)
    print("\nin all, and functions")
    for seconds, count, crate in sorted(sums, reverse=True):
        print(f"{seconds:7.1f}  {count:4}  {crate}")
    return 0


def put(functions, most):
    """Prints the dearest functions."""
    for seconds, name in sorted(functions, reverse=True)[:most]:
        print(f"{seconds:7.1f}  {name}")


def checked(given):
    """Proves a crate and prints its dearest functions: the check's status."""
    command = ["rt", "check", "--progress", "--jobs", "1"] + ["--test"] * given.test
    check = subprocess.Popen(command, stdout=subprocess.PIPE, stderr=subprocess.STDOUT, text=True)
    lines, functions, last = [], [], 0.0
    for line in check.stdout:
        now = seconds_of(check.pid)
        lines.append(f"{now:9.2f} {line}")
        checked = CHECKED.match(line)
        if checked:
            functions.append((now - last, checked[1]))
        if checked or BEGINS.match(line):
            last = now
    status = check.wait()
    if given.log:
        with open(given.log, "w") as file:
            file.writelines(lines)
    print(f"{os.times().children_user + os.times().children_system:7.1f}  the whole check")
    put(functions, given.most)
    return status


if __name__ == "__main__":
    sys.exit(main())
