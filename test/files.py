#!/usr/bin/env python3
"""files.py [--whole] PROGRAM: files and streams as systems have them. It prints a line for each, and ends with 1 where one is not answered as
docs/OUTPUT.md says.

Input above 4 GiB, in a sparse file; with --whole also input above 2^40 bytes, whose last ones are zeros that a library in front of the C library gives
(faults.c; minutes to hours). A pipe that stalls, one that brings a byte at a time, and one of more bytes than memory keeps. A file that is cut short while
it is read. A missing file, and a folder in its place. Output to a full disk and to a pipe that nobody reads: status 4, and no text but a cause. Signals: what
was written by then ends in a whole line.

PROGRAM is h264v or h264v-quick. Needs a C compiler, and 4 GiB of room for names of blocks in a sparse file, but no room on the disk."""
import argparse
import os
import pathlib
import signal
import subprocess
import sys
import tempfile
import time

HERE = pathlib.Path(__file__).resolve().parent
SIGNALS = (signal.SIGINT, signal.SIGTERM, signal.SIGHUP)
COMMANDS = ["units", "headers", "check", "frames", "decode"]
DEVICE, OUTSIDE = 4, 2
GIBIBYTE = 1 << 30
LONGEST_INPUT = 1 << 40
SECONDS = 600
PICTURE = bytes.fromhex("00000001 6742C00ADA71 00000001 68CE3880 000001 65888493C0")
OTHER_PICTURE = bytes.fromhex("00000001 6742C00ADA71 00000001 68CE3880 000001 65888224F0")
SKIPPED = bytes.fromhex("000001 619A22A0")
LINE_END = 10
# How many bytes the program reads at a time, and more than it keeps of a pipe in memory.
FIRST_PIECE = 4096
LONG_PIPE = 20 << 20


class Trials:
    """The program, and what has failed so far."""

    def __init__(self, program, folder):
        self.program, self.folder, self.failed = program, folder, 0
        self.library = f"{folder}/faults.so"
        subprocess.run(["cc", "-O2", "-shared", "-fPIC", str(HERE / "faults.c"), "-o", self.library, "-ldl"], check=True)
        self.stream = f"{folder}/stream"
        pathlib.Path(self.stream).write_bytes(PICTURE)

    def ran(self, command, path, faults=None, **ways):
        variables = {**os.environ, **({"LD_PRELOAD": self.library} if faults else {}), **{name: str(value) for name, value in (faults or {}).items()}}
        streams = {"stdout": subprocess.PIPE, "stderr": subprocess.PIPE, **ways}
        return subprocess.run([self.program, command, path], env=variables, timeout=SECONDS, **streams)

    def answer(self, command, path, faults=None):
        it = self.ran(command, path, faults)
        return it.returncode, it.stdout

    def told(self, name, right, more=""):
        self.failed += not right
        print(f"{name}: {'as it should be' if right else 'WRONG'}{', ' if more else ''}{more}", flush=True)

    def said(self, errors):
        """What standard error says, without the notice of a plain build."""
        return [it for it in errors.decode().splitlines() if not it.endswith("nothing is proved")]

    # Length

    def above_4_gib(self):
        """Two streams, with a hole of 4 GiB of zero bytes between them."""
        path = f"{self.folder}/sparse"
        with open(path, "wb") as it:
            it.write(PICTURE)
            it.truncate(4 * GIBIBYTE)
            it.seek(4 * GIBIBYTE)
            it.write(OTHER_PICTURE)
        begun = time.time()
        status, out = self.answer("units", path)
        speed = 4 * GIBIBYTE / (time.time() - begun)
        places = [int(it.split()[1]) for it in out.decode().splitlines() if it.startswith("unit")]
        wanted = [4, 14, 21]
        self.told("input above 4 GiB", status == 0 and places == wanted + [4 * GIBIBYTE + it for it in wanted], f"{speed / 1e6:.0f} million bytes a second")
        os.unlink(path)

    def above_2_to_40(self):
        """A stream, and zero bytes until the input is too long."""
        begun = time.time()
        variables = {**os.environ, "LD_PRELOAD": self.library, "ZEROS": str(LONGEST_INPUT)}
        it = subprocess.run([self.program, "check", self.stream], env=variables, capture_output=True)
        wanted = f"outside: bit {8 * LONGEST_INPUT}: InputTooLong\n".encode()
        self.told("input above 2^40 bytes", it.returncode == OUTSIDE and it.stdout == wanted, f"{time.time() - begun:.0f} seconds")

    # Pipes and files

    def piped(self, command, pieces, pause):
        """The answer to pieces from a pipe, with a pause between them."""
        process = subprocess.Popen([self.program, command, "-"], stdin=subprocess.PIPE, stdout=subprocess.PIPE, stderr=subprocess.DEVNULL)
        for piece in pieces:
            process.stdin.write(piece)
            process.stdin.flush()
            time.sleep(pause)
        out, _ = process.communicate()
        return process.returncode, out

    def pipes(self):
        stream = PICTURE + SKIPPED
        path = f"{self.folder}/two"
        pathlib.Path(path).write_bytes(stream)
        for name, pieces, pause in (("a pipe that stalls", [stream[:17], stream[17:]], 1), ("a byte at a time", [bytes([it]) for it in stream], 0.01)):
            self.told(name, all(self.piped(it, pieces, pause) == self.answer(it, path) for it in COMMANDS))

    def from_pipe(self, path, faults):
        """The answer of check to a file that comes by a pipe."""
        with open(path, "rb") as file, subprocess.Popen(["cat"], stdin=file, stdout=subprocess.PIPE) as pipe:
            it = self.ran("check", "-", faults, stdin=pipe.stdout)
        return it.returncode, it.stdout

    def long_pipes(self):
        """A pipe of which memory does not hold all: the answer to the file, also where no temporary file can be made or the disk is full, and nothing is left
        of one. Where it can't be read, a no is no answer."""
        right, room, missing = True, f"{self.folder}/room", f"{self.folder}/missing"
        os.mkdir(room)
        for end in (OTHER_PICTURE, OTHER_PICTURE[:-1]):
            path = f"{self.folder}/long"
            pathlib.Path(path).write_bytes(PICTURE + bytes(LONG_PIPE) + end)
            answer = self.answer("check", path)
            for faults in ({"TMPDIR": room}, {"TMPDIR": missing}, {"TMPDIR": room, "FAIL_PWRITE": 1}, {"TMPDIR": room, "FAIL_PWRITE": 3}):
                right = right and self.from_pipe(path, faults) == answer and not os.listdir(room)
            unread = self.from_pipe(path, {"TMPDIR": room, "FAIL_PREAD": 2})
            right = right and unread == (answer if answer[0] == 0 else (DEVICE, b"read failed\n"))
        self.told("a pipe of more than memory keeps", right)

    def shrinking(self):
        """A file that is cut to half before its second read, so that its end comes early: the answer to what was read."""
        units, right = 30000, True
        whole = PICTURE + SKIPPED[:3] + b"\x0c\xff\x80" + (b"\0\0\1\x0c\xff\x80" * units)
        for command in COMMANDS:
            path, cut = f"{self.folder}/shrinking", f"{self.folder}/cut"
            pathlib.Path(path).write_bytes(whole)
            got = self.answer(command, path, {"SHRINK_FILE": path, "SHRINK_AT": 2, "SHRINK_TO": 2000})
            pathlib.Path(cut).write_bytes(whole[:FIRST_PIECE])
            right = right and got == self.answer(command, cut)
        self.told("a file that shrinks", right)

    def unreadable(self):
        right = True
        for path in (f"{self.folder}/missing", self.folder):
            for command in COMMANDS:
                it = self.ran(command, path)
                last = (it.stderr if command == "decode" else it.stdout).decode().splitlines()
                right = right and it.returncode == DEVICE and "read failed" in last
        self.told("a missing file, and a folder", right)

    # Output

    def full_disk(self):
        right = True
        for command in COMMANDS:
            with open("/dev/full", "wb") as full:
                it = self.ran(command, self.stream, stdout=full)
                right = right and it.returncode == DEVICE and not any("panic" in line for line in self.said(it.stderr))
        self.told("output to a full disk", right)

    def closed_pipe(self):
        """Output to a pipe whose other end is closed: nothing is said, but for the answer of decode."""
        right, texts = True, set()
        for command in COMMANDS:
            reader, writer = os.pipe()
            os.close(reader)
            it = self.ran(command, self.stream, stdout=writer)
            os.close(writer)
            lines = self.said(it.stderr)
            texts.update(lines)
            right = right and it.returncode == DEVICE and all(line == "write failed" for line in lines)
        self.told("output to a pipe that nobody reads", right, " | ".join(sorted(texts)))

    def whole_writes(self):
        """Whether each write to standard output ends with a line: then no signal can leave half of one."""
        path, note, right = f"{self.folder}/many", f"{self.folder}/writes", True
        pathlib.Path(path).write_bytes(PICTURE + b"\0\0\1\x0c\xff\x80" * 30000)
        for command in ("units", "check"):
            pathlib.Path(note).unlink(missing_ok=True)
            self.answer(command, path, {"WRITES": note})
            ends = pathlib.Path(note).read_text().split()
            right = right and all(int(it) == LINE_END for it in ends)
        self.told("each write ends with a line", right)

    def signals(self):
        """A signal while the program waits for more of a pipe: what it has written ends in a whole line."""
        right, seen = True, []
        for number in SIGNALS:
            pipes = {"stdin": subprocess.PIPE, "stdout": subprocess.PIPE, "stderr": subprocess.DEVNULL}
            process = subprocess.Popen([self.program, "units", "-"], **pipes, preexec_fn=heed_signals)
            process.stdin.write(PICTURE + b"\0\0\1\x0c\xff\x80" * 10000)
            process.stdin.flush()
            time.sleep(1)
            process.send_signal(number)
            out, _ = process.communicate()
            seen.append(f"{signal.Signals(number).name} after {len(out)} bytes")
            right = right and process.returncode == -number and (not out or out.endswith(b"\n"))
        self.told("signals", right, ", ".join(seen))


def heed_signals():
    """Has a process end by a signal, even where this script was started to ignore it, as by nohup."""
    for number in SIGNALS:
        signal.signal(number, signal.SIG_DFL)


def main():
    words = argparse.ArgumentParser(description=__doc__, formatter_class=argparse.RawDescriptionHelpFormatter)
    words.add_argument("--whole", action="store_true")
    words.add_argument("program")
    asked = words.parse_args()
    with tempfile.TemporaryDirectory() as folder:
        trials = Trials(asked.program, folder)
        all_of_them = [trials.pipes, trials.long_pipes, trials.shrinking, trials.unreadable]
        all_of_them += [trials.full_disk, trials.closed_pipe, trials.whole_writes, trials.signals, trials.above_4_gib]
        all_of_them += [trials.above_2_to_40] * asked.whole
        for trial in all_of_them:
            trial()
        return 1 if trials.failed else 0


if __name__ == "__main__":
    sys.exit(main())
