#!/usr/bin/env python3
"""Times the program beside libavcodec, OpenH264 and md5sum, one thread each, within one run.

    bench/compare.py [--turns N] [--instructions] PROGRAM FILE|FOLDER..

FOLDER is one that corpus.sh made, or any with .264 files. `decode` stands beside small programs over libavcodec, with its assembly and without, and over
OpenH264 (decoders/), so that no start of a command line tool is in a time. All write planar YUV to nothing. They take turns; the least of N counts, 5 where N
is left out, as user and system time of the process. Compare figures of one line only.
A second table has `check`, which makes no frames, beside the same programs and `decode`. A third has `units`, `headers` and `check` beside md5sum. A file of
which `check` does not say yes stands in the third alone: bench/slices.py makes such streams.
With --instructions it counts by callgrind instead: instructions a macroblock of `decode` and of libavcodec, over the pictures after the second up to the
twelfth, so that no start is in them.
Prints tables for docs/SPEED.md. Needs cc; a decoder whose headers are missing is left out. --instructions needs valgrind and ffmpeg, which cuts the streams.
"""
import argparse
import os
import pathlib
import re
import resource
import subprocess
import sys
import tempfile

HERE = pathlib.Path(__file__).resolve().parent
QUIET = {"stdout": subprocess.DEVNULL, "stderr": subprocess.DEVNULL}
# The pictures over which instructions are counted: those after the first number, up to the second.
FIRST, LAST = 2, 12
MIB, KIB = 1 << 20, 1 << 10


def built(folder, name, *libraries):
    """A program of decoders/, or None where it can't be built."""
    path = folder / name
    words = ["cc", "-O2", HERE / "decoders" / f"{name}.c", *libraries, "-o", path]
    return path if subprocess.run(words, stderr=subprocess.DEVNULL).returncode == 0 else None


def decoders_in(folder):
    """By name how each other decoder decodes a file."""
    avcodec, openh264 = built(folder, "avcodec", "-lavcodec", "-lavutil"), built(folder, "openh264", "-lopenh264")
    ways = {}
    if avcodec:
        ways["libavcodec, with assembly"] = lambda file: [avcodec, file, "assembly", "write"]
        ways["its C code"] = lambda file: [avcodec, file, "c", "write"]
    if openh264:
        ways["OpenH264"] = lambda file: [openh264, file]
    return ways


def seconds(words):
    """User and system time of a run."""
    before = resource.getrusage(resource.RUSAGE_CHILDREN)
    subprocess.run(words, **QUIET)
    after = resource.getrusage(resource.RUSAGE_CHILDREN)
    return after.ru_utime - before.ru_utime + after.ru_stime - before.ru_stime


def least(commands, turns):
    """The least time of each command, which take turns."""
    rounds = [[seconds(words) for words in commands.values()] for _ in range(turns)]
    return {name: min(times) for name, times in zip(commands, zip(*rounds))}


def held(process, program):
    """The greatest memory that a process has held so far, in bytes. 0 where it runs no longer, or not yet."""
    try:
        if not os.path.samefile(f"/proc/{process.pid}/exe", program):
            return 0
        status = pathlib.Path(f"/proc/{process.pid}/status").read_text()
    except OSError:
        return 0
    found = re.search(r"VmHWM:\s*(\d+) kB", status)
    return int(found[1]) * KIB if found else 0


def peak(words):
    """The greatest memory of a run, in bytes."""
    process, most = subprocess.Popen(words, **QUIET), 0
    while process.poll() is None:
        most = max(most, held(process, words[0]))
    return most


def macroblocks(program, file):
    """How many macroblocks the coded frames have: those of the cropped size, filled up to whole ones."""
    text = subprocess.run([program, "frames", file], stdout=subprocess.PIPE, text=True).stdout
    sizes = re.findall(r"(?m)^frame .*?(\d+)x(\d+)", text)
    return sum(-(-int(width) // 16) * -(-int(height) // 16) for width, height in sizes)


def is_legal(program, file):
    return subprocess.run([program, "check", file], **QUIET).returncode == 0


def head(*cells):
    print("| " + " | ".join(cells) + " |\n" + "|---" * len(cells) + "|", flush=True)


def row(file, *cells):
    print(f"| {file.stem} | " + " | ".join(cells) + " |", flush=True)


def times_of_pictures(program, ways, files, turns):
    """The table of `decode` beside the other decoders."""
    head("stream", "seconds", "ns a macroblock", "MB", *(f"of {name}" for name in ways), *(f"MB of {name}" for name in ways))
    for file in files:
        commands = {"decode": [program, "decode", file], **{name: way(file) for name, way in ways.items()}}
        best = least(commands, turns)
        ratios = [f"{best['decode'] / best[name]:.2f}" for name in ways]
        memory = {name: f"{peak(words) / MIB:.0f}" for name, words in commands.items()}
        each = 1e9 * best["decode"] / macroblocks(program, file)
        row(file, f"{best['decode']:.3f}", f"{each:.0f}", memory.pop("decode"), *ratios, *memory.values())


def times_of_verdicts(program, ways, files, turns):
    """The table of `check` beside `decode` and the other decoders."""
    ways = {name: way for name, way in ways.items() if name != "its C code"}
    head("stream", "seconds", "MB of stream a second", "macroblocks a second", "of `decode`", *(f"of {name}" for name in ways))
    for file in files:
        commands = {"check": [program, "check", file], "decode": [program, "decode", file], **{name: way(file) for name, way in ways.items()}}
        best = least(commands, turns)
        took = best.pop("check")
        ratios = [f"{took / best[name]:.2f}" for name in best]
        row(file, f"{took:.3f}", f"{file.stat().st_size / took / 1e6:.1f}", f"{macroblocks(program, file) / took:,.0f}", *ratios)


def times_of_bytes(program, legal, files, turns):
    """The table of the other commands beside md5sum."""
    head("stream", "bytes", "seconds of md5sum", "units", "headers", "check")
    for file in files:
        modes = ["units", "headers"] + ["check"] * (file in legal)
        commands = {"md5sum": ["md5sum", file], **{mode: [program, mode, file] for mode in modes}}
        best = least(commands, turns)
        ratios = [f"{best[mode] / best['md5sum']:.2f}" if mode in best else "-" for mode in ("units", "headers", "check")]
        row(file, f"{file.stat().st_size:,}", f"{best['md5sum']:.3f}", *ratios)


def counted(words, folder):
    """The instructions of a run, by callgrind."""
    ran = ["valgrind", "--tool=callgrind", f"--callgrind-out-file={folder}/callgrind.out", *words]
    text = subprocess.run(ran, stdout=subprocess.DEVNULL, stderr=subprocess.PIPE, text=True, errors="replace").stderr
    return int(re.search(r"Collected : (\d+)", text)[1])


def instructions(program, ways, files, folder):
    """The table of instructions a macroblock."""
    ways = {"decode": lambda file: [program, "decode", file], **{name: way for name, way in ways.items() if name != "OpenH264"}}
    head("stream", *ways)
    for file in files:
        cuts = []
        for pictures in (FIRST, LAST):
            cuts.append(folder / f"{pictures}.264")
            subprocess.run(["ffmpeg", "-v", "error", "-y", "-i", file, "-c", "copy", "-frames:v", str(pictures), cuts[-1]], check=True)
        count = macroblocks(program, cuts[1]) - macroblocks(program, cuts[0])
        differences = [counted(way(cuts[1]), folder) - counted(way(cuts[0]), folder) for way in ways.values()]
        row(file, *(f"{it / count:,.0f}" for it in differences))


def files_in(words):
    for word in map(pathlib.Path, words):
        yield from sorted(word.glob("*.264")) if word.is_dir() else [word]


def main():
    words = argparse.ArgumentParser(description=__doc__, formatter_class=argparse.RawDescriptionHelpFormatter)
    words.add_argument("program")
    words.add_argument("--turns", type=int, default=5)
    words.add_argument("--instructions", action="store_true")
    words.add_argument("streams", nargs="+", metavar="FILE|FOLDER")
    asked = words.parse_args()
    files = list(files_in(asked.streams))
    legal = [it for it in files if is_legal(asked.program, it)]
    with tempfile.TemporaryDirectory(prefix="h264v-bench.") as name:
        folder = pathlib.Path(name)
        ways = decoders_in(folder)
        if asked.instructions:
            instructions(asked.program, ways, legal, folder)
            return
        if legal:
            times_of_pictures(asked.program, ways, legal, asked.turns)
            print()
            times_of_verdicts(asked.program, ways, legal, asked.turns)
            print()
        times_of_bytes(asked.program, legal, files, asked.turns)


if __name__ == "__main__":
    main()
