#!/usr/bin/env python3
"""faults.py PROGRAM [FILE..]: runs each command of PROGRAM on small streams while one thing after another goes wrong, by a library that stands in
front of the C library (faults.c).

The Nth allocation is refused, for each N: `memory` and status 3, or nothing changes, where the program could do without it. The Nth read fails: `read failed` and status 4. The Nth write fails: status 4, or nothing
changes, where what was held back before a read is written after it. What was
written before is the front of what the stream gives without the fault, whole lines and whole frames; after a failed write it may break off anywhere. Each
read gives one byte, each write takes one, each is interrupted first: nothing changes. With no FILE some are made. It prints a line for each command and
stream, and ends with 1 at the first answer that is otherwise.

PROGRAM is h264v or h264v-quick, whose notice is passed over. Needs a C compiler."""
import os
import pathlib
import subprocess
import sys
import tempfile

from streams import legal

HERE = pathlib.Path(__file__).resolve().parent
COMMANDS = ["units", "headers", "check", "frames", "decode"]
MEMORY, DEVICE = 3, 4
NOTICE = b"h264v-quick: a plain build, of which nothing is proved"
SEEDS = [4, 8, 17]
MOST_BYTES = 4000
LONGEST = 20  # seconds that a run may take
SMALL, WIDE = "00000001 6742C00ADA71", "00000001 6742C00ADA2C40"
PPS, IDR = "00000001 68CE3880", "000001 65888493C0"
WORKED = {
    "empty": "",
    "no picture": SMALL,
    "stray byte": SMALL + PPS + "FF" + IDR,
    "one frame": SMALL + PPS + IDR,
    "two frames": SMALL + PPS + IDR + "000001 619A22A0",
    "gap": SMALL + PPS + IDR + "000001 619A42A0",
    "filled gap": "00000001 6742C00ADBF1" + PPS + IDR + "000001 619A82A0",
    "operations": SMALL + PPS + IDR + "000001 619A24A89BEA",
    "wide frames": WIDE + PPS + "000001 658884939314 38 000001 619A238080D4",
    "level 6": "00000001 6742C03CDA71",
}


class Answer:
    """What a run wrote, and its status."""

    def __init__(self, program, command, path, library="", **fault):
        variables = {**os.environ, "RUST_BACKTRACE": "0", **{name: str(value) for name, value in fault.items()}}
        if library:
            variables["LD_PRELOAD"] = library
        ran = subprocess.run([program, command, path], capture_output=True, env=variables, timeout=LONGEST)
        self.status, self.out, self.err = ran.returncode, ran.stdout, ran.stderr.replace(NOTICE, b"")
        self.lines_on_err = command == "decode"

    def last(self):
        """The last line, and what stands before it on standard output."""
        if self.lines_on_err:
            lines = [it for it in self.err.splitlines() if not it.startswith((b"h264v: ", b"memory allocation", b"note: "))]
            return (lines or [b""])[-1], self.out
        front, _, last = self.out.removesuffix(b"\n").rpartition(b"\n")
        return last, front + b"\n" if front else b""

    def is_same(self, other):
        return (self.status, self.out, self.last()) == (other.status, other.out, other.last())


class Trial:
    """One command on one stream."""

    def __init__(self, program, library, command, path):
        self.program, self.library, self.command, self.path = program, library, command, path
        self.whole, self.early, self.made_good = Answer(program, command, path), 0, 0

    def answer(self, **fault):
        return Answer(self.program, self.command, self.path, self.library, **fault)

    def is_front(self, front):
        """Whether this is the front of what is written without a fault, in whole lines or frames."""
        if not self.whole.out.startswith(front):
            return False
        if self.command == "decode":
            return self.frame_bytes() == 0 or len(front) % self.frame_bytes() == 0
        return not front or front.endswith(b"\n")

    def frame_bytes(self):
        """The bytes of a frame; each of these streams has frames of one size."""
        frames = Answer(self.program, "frames", self.path).out.count(b"frame ")
        return len(self.whole.out) // frames if frames else 0

    def is_told(self, answer, status, line):
        last, front = answer.last()
        return answer.status == status and last == line and self.is_front(front)

    def is_cut(self, answer):
        """After a failed write: the front of the output, anywhere broken off, and at most the last line after it."""
        last, front = answer.last()
        return answer.status == DEVICE and (self.whole.out.startswith(answer.out) or last == b"write failed" and self.whole.out.startswith(front))

    def each(self, name, is_right):
        """Lets the Nth call go wrong, for each N, until no call is the Nth: how many went wrong."""
        fired = pathlib.Path(f"{self.path}.fired")
        for number in range(1, 1 << 20):
            fired.unlink(missing_ok=True)
            answer = self.answer(**{name: number, "FIRED": fired})
            if not fired.exists():
                return number - 1
            if not is_right(answer):
                raise ValueError(f"{name}={number}: status {answer.status}\n{answer.out!r}\n{answer.err!r}")

    def is_memory(self, answer):
        """Whether the answer is `memory`, or the allocation was not needed, as those of a first reading of the words or of the file that a second one
        makes good. Before the words are known, `decode` too says so on standard output (docs/RELIABILITY.md)."""
        if self.lacks_words(answer):
            self.early += 1
            return True
        if self.is_made_good(answer):
            return True
        return self.is_told(answer, MEMORY, b"memory")

    def is_made_good(self, answer):
        """Whether nothing changed: what went wrong was not needed, or was done again later."""
        same = answer.is_same(self.whole)
        self.made_good += same
        return same

    def lacks_words(self, answer):
        return self.command == "decode" and (answer.status, answer.out, answer.last()[0]) == (MEMORY, b"memory\n", b"")

    def run(self):
        """All faults in turn: what was tried."""
        found = {
            "allocations": self.each("REFUSE", self.is_memory),
            "reads": self.each("FAIL_READ", lambda answer: self.is_told(answer, DEVICE, b"read failed")),
            "writes": self.each("FAIL_WRITE", lambda answer: self.is_cut(answer) or self.is_made_good(answer)),
        }
        for fault in ("SHORT_READ", "SHORT_WRITE", "INTERRUPT_READ", "INTERRUPT_WRITE"):
            if not self.answer(**{fault: 1}).is_same(self.whole):
                raise ValueError(f"{fault} changes what is written")
        others = {"told on standard output": self.early, "changed nothing": self.made_good}
        return ", ".join(f"{name} {count}" for name, count in {**found, **{name: count for name, count in others.items() if count}}.items())


def made(folder):
    """Small streams: worked by hand, and legal ones with frames that wait, gaps and operations."""
    for name, text in WORKED.items():
        yield name, bytes.fromhex(text)
    for seed in SEEDS:
        units, _ = legal.stream(seed)
        stream = b"".join(it.bytes() for it in units)
        yield f"legal {seed}", stream[:MOST_BYTES]


def main(program, *paths):
    with tempfile.TemporaryDirectory() as folder:
        library = f"{folder}/faults.so"
        subprocess.run(["cc", "-O2", "-shared", "-fPIC", str(HERE / "faults.c"), "-o", library, "-ldl"], check=True)
        streams = [(it, pathlib.Path(it).read_bytes()) for it in paths] or list(made(folder))
        for name, stream in streams:
            path = f"{folder}/stream"
            pathlib.Path(path).write_bytes(stream)
            for command in COMMANDS:
                try:
                    print(f"{command} {name}: {Trial(program, library, command, path).run()}", flush=True)
                except (ValueError, subprocess.TimeoutExpired) as wrong:
                    print(f"{command} {name}: {wrong}")
                    return 1
    return 0


if __name__ == "__main__":
    if len(sys.argv) < 2:
        sys.exit(__doc__)
    sys.exit(main(*sys.argv[1:]))
