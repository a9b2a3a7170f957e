#!/usr/bin/env python3
"""stack.py PROGRAM FILE..: how much stack each command of h264v needs.

Each command runs on each FILE with one stack after another, by halving, to 16 KiB. With too little the system ends the program by a signal. It prints, for
each command, the least stack in KiB with which none of its runs was ended."""
import resource
import subprocess
import sys

COMMANDS = ["units", "headers", "check", "frames", "decode", "elements", "info", "report"]
OPTIONS = ["check --explain", "check --json", "check --strict", "check --strict --json", "frames --json", "decode --y4m", "report --strict"]
LEAST, MOST = 16, 8192
STEP = 16


def ends(program, words, size):
    """Whether a run ends by itself with a stack of so many KiB."""

    def limit():
        resource.setrlimit(resource.RLIMIT_STACK, (size * 1024, size * 1024))

    ran = subprocess.run([program, *words], stdout=subprocess.DEVNULL, stderr=subprocess.DEVNULL, preexec_fn=limit)
    return ran.returncode >= 0


def needed(program, words, least):
    """The stack in KiB that a run needs, at least this much."""
    if ends(program, words, least):
        return least
    low, high = least, MOST
    while high - low > STEP:
        middle = (low + high) // 2
        low, high = (low, middle) if ends(program, words, middle) else (middle, high)
    return high


def main():
    if len(sys.argv) < 3:
        sys.exit(__doc__)
    program, *files = sys.argv[1:]
    for command in COMMANDS + OPTIONS:
        size = LEAST
        for file in files:
            size = needed(program, [*command.split(), file], size)
        print(f"{command}: {size} KiB", flush=True)


main()
