#!/usr/bin/env python3
"""Times the library beside the program and libavcodec, one thread each, within one run.

    bench/library.py [--turns N] PROGRAM LIBRARY FILE|FOLDER..

PROGRAM is h264v, LIBRARY the shared object (libh264v.so.0) built for the same processor. The library (decoders/receive.c) gets one unit a piece, pieces of
4 KiB and of 64 KiB. Each frame is received; it is read too, or left unread. The program runs `decode` with its output to nothing, and into a pipe that this script reads. libavcodec
(decoders/avcodec.c) gets pieces of 64 KiB, and each frame is read. All take turns. The least of N turns counts, 5 where N is left out, as user and system time of the process.
Compare figures of one line only.
Prints a table for docs/SPEED.md. Needs cc; libavcodec is left out where its headers are missing.
"""
import argparse
import os
import resource
import subprocess
import sys
import tempfile

sys.dont_write_bytecode = True

from named import names_in

HERE = os.path.dirname(os.path.abspath(__file__))
TURNS = 5
MOST_READ = 1 << 20


def drained(words):
    """Runs a command and reads its output from a pipe."""
    room = bytearray(MOST_READ)
    with subprocess.Popen(words, stdout=subprocess.PIPE, stderr=subprocess.DEVNULL) as process:
        while process.stdout.readinto(room):
            pass


def seconds(words, into_pipe):
    """User and system time of a run, whose output goes to nothing or into a pipe."""
    before = resource.getrusage(resource.RUSAGE_CHILDREN)
    if into_pipe:
        drained(words)
    else:
        subprocess.run(words, stdout=subprocess.DEVNULL, stderr=subprocess.DEVNULL)
    after = resource.getrusage(resource.RUSAGE_CHILDREN)
    return after.ru_utime - before.ru_utime, after.ru_stime - before.ru_stime


def built(name, folder, *words):
    """A program of decoders/, or None where it can't be built."""
    path = os.path.join(folder, name)
    run = subprocess.run(["cc", "-O2", os.path.join(HERE, "decoders", f"{name}.c"), *words, "-o", path], stderr=subprocess.DEVNULL)
    return path if run.returncode == 0 else None


def least(commands, turns):
    """Of each command the turn of the least sum, as user and system time."""
    best = {}
    for _ in range(turns):
        for name, words in commands.items():
            took = seconds(words, name == PIPE)
            if name not in best or sum(took) < sum(best[name]):
                best[name] = took
    return best


PIPE = "`decode` into a pipe"
# How the library is used, each with the words of receive.c.
WAYS = {
    "units, unread": ("units", "unread"),
    "4 KiB, unread": ("4096", "unread"),
    "units": ("units", "read"),
    "4 KiB": ("4096", "read"),
    "64 KiB": ("65536", "read"),
}
HEAD = f"| stream | `decode`, user + system | {PIPE} | {' | '.join(WAYS)} | units, of libavcodec | of its C code |"


def row(name, best):
    """A line of the table: the time of `decode`, that of each way of the library as a part of it, and of libavcodec's."""
    ratio = lambda way, other: "{:.2f}".format(sum(best[way]) / sum(best[other])) if other in best else "-"
    cells = [os.path.basename(name).replace(".264", ""), "{:.3f} + {:.3f}".format(*best["program"])]
    cells += [ratio(way, "program") for way in (PIPE, *WAYS)]
    cells += [ratio("units", "assembly"), ratio("units", "c")]
    return "| " + " | ".join(cells) + " |"


def main():
    words = argparse.ArgumentParser(description=__doc__, formatter_class=argparse.RawDescriptionHelpFormatter)
    words.add_argument("--turns", type=int, default=TURNS)
    words.add_argument("program")
    words.add_argument("library")
    words.add_argument("streams", nargs="+", metavar="FILE|FOLDER")
    asked, sums = words.parse_args(), {}
    program = asked.program
    with tempfile.TemporaryDirectory(prefix="h264v-bench.") as folder:
        os.symlink(os.path.abspath(asked.library), os.path.join(folder, "libh264v.so.0"))
        include = os.path.join(HERE, "..", "include")
        receive = built("receive", folder, "-I", include, os.path.join(folder, "libh264v.so.0"), f"-Wl,-rpath,{folder}")
        avcodec = built("avcodec", folder, "-lavcodec", "-lavutil")
        if not receive:
            sys.exit("library.py: decoders/receive.c can't be built")
        print(HEAD + "\n" + "|---" * HEAD.count(" |") + "|")
        for name in names_in(asked.streams):
            decode = [program, "decode", name]
            commands = {"program": decode, PIPE: decode, **{way: [receive, name, *more] for way, more in WAYS.items()}}
            if avcodec:
                commands.update({way: [avcodec, name, way, "read"] for way in ("assembly", "c")})
            best = least(commands, asked.turns)
            print(row(name, best), flush=True)
            for way, took in best.items():
                sums[way] = tuple(map(sum, zip(sums.get(way, (0, 0)), took)))
    print(row("all", sums))


main()
