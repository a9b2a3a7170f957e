#!/usr/bin/env python3
"""Checks what the documents show.

    tools/documents.py                  tables whose cells are too long, and a README that is too long; status 1 where there is one
    tools/documents.py --run PROGRAM    runs each line that begins with '$ ' and compares what the program prints; status 1 where one differs

A line that is run stands in an indented block, from the top of the repository, with `h264v` for the program. The lines below it, up to an empty line or
the next command, are what it writes to standard output. A line '..' stands for any lines, and '..' at the end of a line for the rest of it.
"""
import os
import pathlib
import re
import subprocess
import sys
import tempfile

TOP = pathlib.Path(__file__).resolve().parent.parent
#: The most characters in a cell of a table, and the most words in README.md.
CELL, WORDS = 300, 1200
SKIPPED = {"out", ".git", "target"}


def documents():
    """The documents of the repository."""
    for folder, folders, names in os.walk(TOP):
        folders[:] = [it for it in folders if it not in SKIPPED]
        yield from (pathlib.Path(folder, name) for name in sorted(names) if name.endswith(".md"))


def cells(line):
    return [it.strip() for it in re.split(r"(?<!\\)\|", line)[1:-1]] if line.startswith("|") else []


def too_long():
    """What is too long, a line for each."""
    for file in documents():
        for number, line in enumerate(file.read_text(encoding="utf-8").split("\n"), 1):
            most = max(map(len, cells(line)), default=0)
            if most > CELL:
                yield f"{file.relative_to(TOP)}:{number}: a cell has {most} characters, and {CELL} are the most"
    words = len((TOP / "README.md").read_text(encoding="utf-8").split())
    if words > WORDS:
        yield f"README.md has {words} words, and {WORDS} are the most"


def shown(file):
    """The number of each line that is run, its command, and what it is to write."""
    lines = file.read_text(encoding="utf-8").split("\n")
    for number, line in enumerate(lines):
        if line.startswith("    $ "):
            wanted = []
            for more in lines[number + 1 :]:
                if not more.startswith("    ") or more.startswith("    $ "):
                    break
                wanted.append(more[4:])
            yield number + 1, line[6:], wanted


def pattern(wanted):
    """What these lines stand for."""
    rows = []
    for line in wanted:
        if line == "..":
            rows.append(r"(?:.*\n)*")
        elif line.endswith(".."):
            rows.append(re.escape(line[:-2]) + r".*\n")
        else:
            rows.append(re.escape(line) + r"\n")
    return "".join(rows)


def run(program):
    """Runs what the documents show; how many lines agree, and how many differ."""
    agree = differ = 0
    with tempfile.TemporaryDirectory() as folder:
        os.symlink(program, os.path.join(folder, "h264v"))
        path = folder + os.pathsep + os.environ["PATH"]
        for file in documents():
            for number, command, wanted in shown(file):
                done = subprocess.run(["sh", "-c", command], cwd=TOP, env={**os.environ, "PATH": path}, capture_output=True, timeout=60)
                written = done.stdout.decode("utf-8", "replace")
                if re.fullmatch(pattern(wanted), written):
                    agree += 1
                    continue
                differ += 1
                print(f"{file.relative_to(TOP)}:{number}: {command}", written, sep="\n")
    print(f"{agree} lines of documents agree, {differ} differ")
    return differ


def main(words):
    if words[:1] == ["--run"] and len(words) == 2:
        return 1 if run(os.path.realpath(words[1])) else 0
    if words:
        print(__doc__, file=sys.stderr)
        return 64
    found = list(too_long())
    print(*found, sep="\n", end="\n" if found else "")
    return 1 if found else 0


if __name__ == "__main__":
    sys.exit(main(sys.argv[1:]))
