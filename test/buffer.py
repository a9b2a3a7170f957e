#!/usr/bin/env python3
"""buffer.py [--changed N] [--seed S] PROGRAM FILE..: compares what `check --strict` finds of the coded picture buffer with C.1 to C.3 by fractions.

With --changed N it makes N streams of those by other HRD parameters, times, delays and filler data, and compares these too; S begins the chances. A
stream has one sequence parameter set, and is judged with --target main-ip, which every stream of the first target is legal for. It prints each stream
where the two differ, and how often each rule was broken. Status 1 where some differ. The streams that x264 makes with --nal-hrd are fit for it:

    x264 --profile baseline --bitrate 400 --vbv-maxrate 400 --vbv-bufsize 400 --nal-hrd cbr --aud --pic-struct -o a.264 a.y4m
"""
import argparse
import collections
import pathlib
import random
import re
import subprocess
import sys
import tempfile

from streams.rescheduled import rescheduled
from streams.schedules import findings

RULES = "BufferUnderflow|BufferOverflow|InitialDelay|RemovalRate|MinCompression"
LINE = re.compile(rf"^strict: bit (\d+): ({RULES}) \(clause [^)]*\), (\d+) places$", re.M)


def told(program, path):
    """What the program finds: the first bit and the places of each rule."""
    done = subprocess.run([program, "check", "--strict", "--target", "main-ip", path], stdout=subprocess.PIPE, text=True)
    return {rule: (int(bit), int(places)) for bit, rule, places in LINE.findall(done.stdout)}


def streams_of(arguments):
    """The streams, and those that are made of them."""
    paths = [pathlib.Path(path) for path in arguments.streams]
    for path in paths:
        yield path.name, path.read_bytes()
    chance = random.Random(arguments.seed)
    for i in range(arguments.changed):
        path = chance.choice(paths)
        yield f"{path.name} changed ({i})", rescheduled(path.read_bytes(), chance)


def main():
    parser = argparse.ArgumentParser(description=__doc__, formatter_class=argparse.RawDescriptionHelpFormatter)
    parser.add_argument("--changed", type=int, default=0)
    parser.add_argument("--seed", type=int, default=1)
    parser.add_argument("program")
    parser.add_argument("streams", nargs="+", metavar="FILE")
    arguments = parser.parse_args()
    same, differ, broken = 0, 0, collections.Counter()
    with tempfile.TemporaryDirectory() as folder:
        for name, stream in streams_of(arguments):
            path = pathlib.Path(folder) / "stream.264"
            path.write_bytes(stream)
            ours, theirs = told(arguments.program, path), findings(stream)
            broken.update(ours.keys())
            same += ours == theirs
            differ += ours != theirs
            if ours != theirs:
                print(f"{name}: {ours}, by fractions {theirs}")
    print(f"{same} agree, {differ} differ; broken: " + ", ".join(f"{rule} {count}" for rule, count in sorted(broken.items())))
    sys.exit(differ > 0)


main()
