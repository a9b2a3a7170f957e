#!/usr/bin/env python3
"""Proves and builds crates with all that they stand on, side by side, and says how far it is.

  tools/build.py [--jobs N] [--memory MB] [--cpu NAME] FOLDER CRATE..

Builds in FOLDER, which it makes. Each CRATE is a program or a static library of this repository. Crates that don't wait for one another
are proved side by side, on N processors: first what the first CRATE needs, and of that first the crates with the longest chain of others
behind them. A later run in the same FOLDER goes on with the crate where this one was broken off, and proves what changed since.

Each crate is proved from nothing by the kit's `rattle`, over the statements of the crates below it, as `rt ci` does. `rt lib` would read their proofs too, which in
the upper crates takes longer than the proof of the crate itself.

On standard error stands a line for each crate that was proved, with its time by the clock and its processor time. On standard output stands a line `CRATE FILE` as soon as a CRATE that was
asked for is built. FOLDER/log/CRATE has what rattle said. Status 1 where a crate was not proved.
"""
import argparse
import hashlib
import os
import pathlib
import shutil
import subprocess
import sys
import threading
import time

TOP = pathlib.Path(__file__).resolve().parent.parent
KIT = pathlib.Path(os.path.realpath(shutil.which("rt") or "rt")).parent.parent
RATTLE, TOOLCHAIN = KIT / "bin" / "rattle", KIT / "toolchain"
PARTS = ("src", "specs", "proofs")
# What a check takes of memory: at least, and for each line of the crate and of those below it, in MB.
LEAST_MEMORY, OWN_MEMORY, BELOW_MEMORY = 1000, 0.3, 0.02


class Crate:
    """A crate of crates.txt: what it is, the crates of the repository that it names, and how many lines it has."""

    def __init__(self, line):
        self.line = line
        head, below = line.split(":")
        self.name, *kind = head.split()
        self.is_static = "staticlib" in kind
        self.source = TOP / "crates" / self.name
        self.is_program = (self.source / "src" / "main.rt").is_file()
        self.needs = below.split()
        self.files = sorted(file for part in PARTS for file in (self.source / part).rglob("*") if file.suffix in (".rt", ".antt"))
        self.lines = sum(file.read_bytes().count(b"\n") for file in self.files)

    def made(self):
        """The name of what is made of the crate."""
        return self.name if self.is_program else f"lib{self.name}.a" if self.is_static else f"{self.name}.rlib"

    def sum(self):
        """A checksum of its text."""
        text = hashlib.sha256(self.line.encode())
        for file in self.files:
            text.update(f"{file.relative_to(self.source)}\0".encode() + file.read_bytes() + b"\0")
        return text.hexdigest()


def crates_of_repository():
    """The crates of crates.txt by their names, with what each names of the repository, and of the kit."""
    lines = [it.split("#")[0].strip() for it in (TOP / "crates.txt").read_text().splitlines()]
    found = {it.name: it for it in map(Crate, filter(None, lines))}
    for crate in found.values():
        crate.below = [it for it in crate.needs if it in found]
        crate.of_kit = ["std", *(it for it in crate.needs if it not in found)]
    return found


def all_below(crates, name):
    """The names of a crate and of all that it stands on."""
    return {name}.union(*(all_below(crates, it) for it in crates[name].below))


class Build:
    """What is built of some crates, and how far it is. What is made of a crate stands in FOLDER/CRATE, and beside it the checksum of all that it was made of."""

    def __init__(self, crates, asked):
        self.crates, self.asked, self.began = crates, asked, time.time()
        self.folder = asked.folder.resolve()
        self.wanted = set().union(*(all_below(crates, it) for it in asked.crates))
        self.first = all_below(crates, asked.crates[0])
        self.behind = {it: self.lines_behind(it) for it in self.wanted}
        self.memory = {it: self.memory_of(it) for it in self.wanted}
        self.done, self.failed, self.running = set(), [], {}
        self.turn = threading.Condition()
        (self.folder / "log").mkdir(parents=True, exist_ok=True)

    def lines_behind(self, name):
        """The lines of the longest chain of crates from this one up."""
        above = [it for it in self.wanted if name in self.crates[it].below]
        return self.crates[name].lines + max(map(self.lines_behind, above), default=0)

    def memory_of(self, name):
        """The memory that a check of the crate is likely to take, in MB."""
        below = sum(self.crates[it].lines for it in all_below(self.crates, name) - {name})
        return LEAST_MEMORY + OWN_MEMORY * self.crates[name].lines + BELOW_MEMORY * below

    def ready(self):
        """The crates that wait for no other, those to begin with first."""
        left = self.wanted - self.done - set(self.running) - set(self.failed)
        ready = [it for it in left if set(self.crates[it].below) <= self.done]
        return sorted(ready, key=lambda it: (it not in self.first, -self.behind[it], it))

    def stamp(self, name):
        """A checksum of all that a crate is made of."""
        parts = [(KIT / "KIT-ID").read_text(), self.asked.cpu or "", *(f"{it} {self.crates[it].sum()}" for it in sorted(all_below(self.crates, name)))]
        return hashlib.sha256("\n".join(parts).encode()).hexdigest()

    def is_kept(self, name):
        """Whether a crate was proved and built of the same text by an earlier run."""
        kept = self.folder / name / "stamp"
        return kept.is_file() and kept.read_text() == self.stamp(name)

    def words(self, crate):
        """What rattle is told of a crate: its name, its root, and the libraries that it stands on."""
        words = ["--crate-name", crate.name, "src/main.rt" if crate.is_program else "src/lib.rt"]
        for name in crate.of_kit:
            words += ["--extern", f"{name}={KIT}/rlibs/{name}.rlib"]
        for name in crate.below:
            words += ["--extern", f"{name}={self.folder}/{name}/{name}.rlib"]
        words += ["-L", f"dependency={KIT}/rlibs", "--antt-project", str(KIT / "rattle" / "logic" / "antt-project.json"), "--links", f"{crate.name}="]
        for name in sorted(all_below(self.crates, crate.name) - {crate.name}):
            words += ["-L", f"dependency={self.folder}/{name}"]
        if crate.is_static:
            words += ["--crate-type", "staticlib"]
        if self.asked.cpu and (crate.is_static or crate.is_program):
            words += [f"--cpu={self.asked.cpu}"]
        return words

    def commands(self, crate, jobs):
        """The commands that prove and build a crate, one after another."""
        words, room = self.words(crate), self.folder / crate.name
        proves = [*words, "--logic-built", str(KIT / "logic_built"), "--jobs", str(jobs)]
        compiles = ["--toolchain", str(TOOLCHAIN), "--backend", "llvm"]
        if crate.is_static:
            return [[RATTLE, "build", *proves, *compiles, "-o", room / crate.made()]]
        if not crate.is_program:
            return [[RATTLE, "build", *proves, "--statements", "-o", room / crate.made()]]
        links = [KIT / "bin" / "rattle-link", "--target", "x86_64-unknown-linux-gnu", "--toolchain", TOOLCHAIN, "-o", room / crate.made()]
        return [
            [RATTLE, "check", *proves, "-o", room / "checked"],
            [RATTLE, "build", *words, "--crate-checked", room / "checked", *compiles, "-o", room / "program.o"],
            [*links, room / "program.o", KIT / "c" / "libos_c.a", KIT / "c" / "liblibc_c.a"],
        ]

    def built(self, crate, jobs):
        """Proves and builds a crate, unless that was done: whether that went well, and the processor time that it took, in seconds."""
        room, log, used = self.folder / crate.name, self.folder / "log" / crate.name, 0
        if self.is_kept(crate.name):
            return True, 0
        stamp = self.stamp(crate.name)
        shutil.rmtree(room, ignore_errors=True)
        room.mkdir(parents=True)
        with open(log, "w") as said:
            for command in self.commands(crate, jobs):
                how = {"cwd": crate.source, "stdin": subprocess.DEVNULL, "stdout": said, "stderr": subprocess.STDOUT}
                ran = subprocess.Popen(command, **how)
                _, status, took = os.wait4(ran.pid, 0)
                used += took.ru_utime + took.ru_stime
                if status:
                    return False, used
        if stamp != self.stamp(crate.name) or "logic=proved " not in log.read_text():
            return False, used
        (room / "stamp").write_text(stamp)
        return True, used

    def work(self, name, jobs):
        """Proves and builds a crate, and says how that went."""
        crate, began = self.crates[name], time.time()
        try:
            is_well, used = self.built(crate, jobs)
        except OSError as why:
            print(f"{name}: {why}", file=sys.stderr)
            is_well, used = False, 0
        with self.turn:
            del self.running[name]
            if is_well:
                self.done.add(name)
            else:
                self.failed.append(name)
            far = f"{len(self.done)} of {len(self.wanted)} crates after {clock(time.time() - self.began)}"
            took = f"in {clock(time.time() - began)}, {clock(used)} of processor time" if used else "by an earlier run"
            print(f"{far}: {name} {'proved' if is_well else 'NOT PROVED'} {took}", file=sys.stderr, flush=True)
            if is_well and name in self.asked.crates:
                print(name, self.folder / name / crate.made(), flush=True)
            self.turn.notify()

    def begin_some(self):
        """Begins with as many crates as there are processors and memory for."""
        ready = self.ready()
        for at, name in enumerate(ready):
            idle = self.asked.jobs - sum(jobs for jobs, _ in self.running.values())
            room = self.asked.memory - sum(it for _, it in self.running.values())
            if idle < 1 or self.running and self.memory[name] > room:
                return
            jobs = max(1, min(4, idle // (len(ready) - at)))
            self.running[name] = jobs, self.memory[name] * (1 + 0.4 * (jobs - 1))
            threading.Thread(target=self.work, args=(name, jobs)).start()

    def run(self):
        """Builds all. True where each crate was proved."""
        with self.turn:
            while True:
                if not self.failed:
                    self.begin_some()
                if not self.running:
                    return not self.failed
                self.turn.wait()


def clock(seconds):
    """A time in minutes and seconds."""
    return f"{int(seconds) // 60} min {int(seconds) % 60:02} s"


def free_memory():
    """The memory that is free, in MB."""
    text = pathlib.Path("/proc/meminfo").read_text()
    return int(text.split("MemAvailable:")[1].split()[0]) // 1024


def main():
    words = argparse.ArgumentParser(description=__doc__, formatter_class=argparse.RawDescriptionHelpFormatter)
    words.add_argument("--jobs", type=int, default=len(os.sched_getaffinity(0)), help="how many processors to use")
    words.add_argument("--memory", type=int, default=free_memory() * 9 // 10, metavar="MB", help="how much memory to use")
    words.add_argument("--cpu", help="the processor that a program and a static library are built for")
    words.add_argument("folder", type=pathlib.Path, metavar="FOLDER")
    words.add_argument("crates", nargs="+", metavar="CRATE")
    asked = words.parse_args()
    crates = crates_of_repository()
    unknown = [it for it in asked.crates if it not in crates]
    if unknown:
        sys.exit(f"no crate {unknown[0]} in crates.txt")
    build = Build(crates, asked)
    is_well = build.run()
    for name in build.failed:
        print(f"what rattle said: {build.folder}/log/{name}", file=sys.stderr)
    sys.exit(0 if is_well else 1)


if __name__ == "__main__":
    main()
