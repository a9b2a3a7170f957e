#!/usr/bin/env python3
"""Compares the library by each way with the program on streams: frames with counts and sizes, last lines and statuses.

    test/compare_library.py [--page PAGE SCREENSHOT] PROGRAM LIBRARY FILE|FOLDER..

PROGRAM is h264v, LIBRARY the shared object (libh264v.so.0), PAGE what web/build.sh wrote. The ways are C (examples/c/decode.c), Python (python/), units
without start codes by Python, and with --page the page in headless Chromium; SCREENSHOT shows it with the last stream. A FOLDER stands for the .264 files in it.
Each stream is judged for both targets. Says of each difference what it is, and at the end how many streams agree; status 1 where one differs.
Needs cc, and chromium for the page. A plain build is compared as well as a proved one: which they are is the caller's to say.
"""
import argparse
import hashlib
import os
import re
import subprocess
import sys
import tempfile
import zlib

sys.dont_write_bytecode = True
TOP = os.path.dirname(os.path.dirname(os.path.abspath(__file__)))
sys.path.insert(0, os.path.join(TOP, "bench"))

from named import names_in

TARGETS = ("baseline", "main-ip")
KINDS = {"yes": 0, "no": 1, "outside": 2, "memory": 3}


class Answer:
    """What a way says of a stream: its last line, its status, and of each frame its count, size and digest."""

    def __init__(self, line, status, frames):
        self.line, self.status, self.frames = line, status, frames

    def difference(self, other):
        """What differs from another answer; None where nothing does."""
        if self.line != other.line:
            return f"the last line is {other.line!r}, and {self.line!r} of the program"
        if self.status != other.status:
            return f"the status is {other.status}, and {self.status} of the program"
        if len(self.frames) != len(other.frames):
            return f"{len(other.frames)} frames, and {len(self.frames)} of the program"
        for number, (a, b) in enumerate(zip(self.frames, other.frames)):
            if a != b:
                return f"frame {number} is {b}, and {a} of the program"
        return None


def last_line(text):
    lines = text.decode().strip().splitlines()
    return lines[-1] if lines else ""


def cut(samples, sizes):
    """The bytes of each frame, by their sizes; and last what is left."""
    frames, at = [], 0
    for width, height in sizes:
        frames.append(samples[at : at + width * height * 3 // 2])
        at += width * height * 3 // 2
    return frames, samples[at:]


class Program:
    """The program's commands `frames` and `decode`."""

    def __init__(self, path):
        self.path = path

    def judge(self, name, target):
        """Its answer with MD5, with CRC-32, and the bytes that `decode` wrote."""
        words = ["--target", target, name]
        listed = subprocess.run([self.path, "frames", *words], capture_output=True)
        decoded = subprocess.run([self.path, "decode", *words], capture_output=True)
        rows = [line.split() for line in listed.stdout.decode().splitlines() if line.startswith("frame ")]
        # frame NUMBER count COUNT WIDTHxHEIGHT md5 DIGEST
        named = [(int(row[3]), row[4], row[6]) for row in rows]
        sizes = [tuple(map(int, size.split("x"))) for _, size, _ in named]
        frames, left = cut(decoded.stdout, sizes)
        line = last_line(decoded.stderr)
        if left or [hashlib.md5(frame).hexdigest() for frame in frames] != [digest for _, _, digest in named]:
            sys.exit(f"{name}: the program's own commands differ")
        by_crc = [(count, size, f"{zlib.crc32(frame):08x}") for (count, size, _), frame in zip(named, frames)]
        return Answer(line, decoded.returncode, named), Answer(line, decoded.returncode, by_crc), decoded.stdout


class InC:
    """examples/c/decode.c over the shared object."""

    def __init__(self, library, folder):
        self.path, self.output = os.path.join(folder, "decode"), os.path.join(folder, "frames.yuv")
        os.symlink(os.path.abspath(library), os.path.join(folder, "libh264v.so.0"))
        source = os.path.join(TOP, "examples", "c", "decode.c")
        words = ["-std=c11", "-O2", "-I", os.path.join(TOP, "include"), source, os.path.join(folder, "libh264v.so.0"), f"-Wl,-rpath,{folder}"]
        subprocess.run(["cc", *words, "-o", self.path], check=True)

    def judge(self, name, target, wanted, samples):
        """What differs from the program's answer and samples."""
        run = subprocess.run([self.path, "--target", target, name, self.output], capture_output=True)
        with open(self.output, "rb") as file:
            same = file.read() == samples
        told = Answer(last_line(run.stdout), run.returncode, wanted.frames)
        return wanted.difference(told) or (None if same else "other bytes of frames")


class InPython:
    """The Python module over the shared object."""

    def __init__(self, library):
        os.environ["H264V_LIBRARY"] = os.path.abspath(library)
        sys.path.insert(0, os.path.join(TOP, "python"))
        import h264v

        self.module = h264v

    def line_of(self, verdict):
        """A verdict as the program prints it."""
        kind = self.module.Kind
        if verdict.kind == kind.YES:
            return f"yes: units {verdict.units} pictures {verdict.pictures} frames {verdict.frames}"
        if verdict.kind == kind.NO:
            return f"no: bit {verdict.bit}: {verdict.label} (clause {verdict.clause})"
        return f"outside: bit {verdict.bit}: {verdict.label}"

    def frames_of(self, decoder):
        """The frames that a decoder has, each with its count, its size and its digest."""
        return [(f.count, f"{f.width}x{f.height}", hashlib.md5(f.samples).hexdigest()) for f in decoder]

    def judge(self, name, target, wanted):
        """What differs from the program's answer: of Decoder, or of check."""
        number = self.module.Target(TARGETS.index(target))
        with open(name, "rb") as file, self.module.Decoder(file, target=number, lend=True) as decoder:
            frames = self.frames_of(decoder)
            verdict = decoder.verdict
        with open(name, "rb") as file:
            checked = self.module.check(file.read(), target=number)
        told = Answer(self.line_of(verdict), int(verdict.kind), frames)
        return wanted.difference(told) or (None if checked == verdict else f"check says {checked}")


def units_of(data):
    """Where each NAL unit of a byte stream begins, and its bytes, without the zero bytes after it (B.1.1). Up to where the bytes are no byte stream."""
    starts = [found.end() for found in re.finditer(b"\0\0\1", data)]
    ends = [start - len(b"\0\0\1") for start in starts[1:]] + [len(data)]
    units = []
    for start, end in zip(starts, ends):
        whole = data[start:end].rstrip(b"\0")
        unit = whole.split(b"\0\0\0")[0]
        if unit:
            units.append((start, unit))
        if not unit or unit != whole:
            break
    return units


def line_in_units(line, units):
    """A last line with its bit counted in the bytes of the units alone."""
    found = re.search(r"bit (\d+):", line)
    if not found:
        return line
    bit = int(found[1])
    sent = sum(min(max(bit - 8 * start, 0), 8 * len(unit)) for start, unit in units)
    return line.replace(found[0], f"bit {sent}:", 1)


class InUnits(InPython):
    """The Python module over the shared object, by units without start codes."""

    #: What no unit breaks, but the bytes around the units.
    AROUND = (": ByteStream ", ": EmptyUnit ")

    def judge(self, name, target, wanted):
        """What differs from the program's answer, whose bit is counted in the bytes of the units alone."""
        if any(label in wanted.line for label in self.AROUND):
            return None
        with open(name, "rb") as file:
            units = units_of(file.read())
        frames = []
        with self.module.Decoder(target=self.module.Target(TARGETS.index(target)), lend=True) as decoder:
            for _, unit in units:
                decoder.send_unit(unit)
                frames += self.frames_of(decoder)
                if decoder.verdict:
                    break
            verdict = decoder.finish()
            frames += self.frames_of(decoder)
        told = Answer(self.line_of(verdict), int(verdict.kind), frames)
        return Answer(line_in_units(wanted.line, units), wanted.status, wanted.frames).difference(told)


class OnPage:
    """The page in headless Chromium."""

    def __init__(self, path):
        sys.path.insert(0, os.path.join(TOP, "web"))
        from shown_page import ShownPage

        self.page = ShownPage(path)

    def judge(self, name, target, wanted):
        """What differs from the program's answer with CRC-32."""
        line, frames = self.page.judge(name, TARGETS.index(target))
        status = KINDS.get(line.split(":")[0])
        told = Answer(line, status, [(int(count), size, digest) for count, size, digest in frames])
        return wanted.difference(told)


def compare(program, ways, name, differ):
    """Compares a stream by each way, and puts it into `differ` of a way that differs; how many frames were compared."""
    frames = 0
    for target in TARGETS:
        by_md5, by_crc, samples = program.judge(name, target)
        for way, judge in ways.items():
            wanted = (by_crc if way == "page" else by_md5,)
            cause = judge(name, target, *wanted, *((samples,) if way == "C" else ()))
            if cause:
                differ[way].add(name)
                print(f"{name} for {target}, {way}: {cause}", flush=True)
        frames += len(by_md5.frames)
    return frames


def main():
    words = argparse.ArgumentParser(description=__doc__, formatter_class=argparse.RawDescriptionHelpFormatter)
    words.add_argument("--page", nargs=2, metavar=("PAGE", "SCREENSHOT"))
    words.add_argument("program")
    words.add_argument("library")
    words.add_argument("streams", nargs="+", metavar="FILE|FOLDER")
    asked = words.parse_args()
    names, frames = list(names_in(asked.streams)), 0
    with tempfile.TemporaryDirectory(prefix="h264v-compare.") as folder:
        ways = {"C": InC(asked.library, folder).judge, "Python": InPython(asked.library).judge, "units": InUnits(asked.library).judge}
        shown = OnPage(asked.page[0]) if asked.page else None
        if shown:
            ways["page"] = shown.judge
        differ = {way: set() for way in ways}
        try:
            for name in names:
                frames += compare(Program(asked.program), ways, name, differ)
            if shown:
                shown.page.screenshot(asked.page[1])
        finally:
            if shown:
                shown.page.__exit__()
    for way, bad in differ.items():
        print(f"{way}: {len(names) - len(bad)} of {len(names)} streams have the program's frames, last lines and statuses for both targets")
    print(f"{frames} frames by each way, of both targets")
    sys.exit(1 if any(differ.values()) else 0)


main()
