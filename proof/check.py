#!/usr/bin/env python3
"""check.py [--kept FOLDER] [--jobs N] CRATE [FLAG..]: checks a crate over the statements of the crates below it.

`rt check` reads the proofs of the crates below, which in an upper crate takes longer than its own proof. The gate reads statements alone, and so does this script. It first
proves what changed of the crates below, from nothing, and keeps their statements in FOLDER: out/statements of the repository where none is named. What it checked of the crate
itself it keeps in the crate's out/checked. So a second check takes some ten seconds, in any crate.

FLAGs go to the kit's `rattle check`: `--only PATH`, `--progress`, `--allow-holes`, `--start FUNCTION`. Status and lines are those of `rattle check`. `rt ci` gives the verdict.
"""
import argparse
import os
import pathlib
import subprocess
import sys
import types

TOP = pathlib.Path(__file__).resolve().parent.parent
sys.path.insert(0, str(TOP / "tools"))
import build  # noqa: E402

STATEMENTS = TOP / "out" / "statements"


class Checks:
    """Checks of crates over the statements that a folder keeps."""

    def __init__(self, kept=STATEMENTS, jobs=1):
        self.kept, self.jobs, self.crates = pathlib.Path(kept).resolve(), jobs, build.crates_of_repository()

    def below(self, name):
        """Proves what changed below a crate: whether all of it is proved."""
        needed = self.crates[name].below
        if not needed:
            return True
        made = self.built(needed)
        return all(map(made.is_kept, made.wanted)) or made.run()

    def built(self, names):
        """What is built of these crates and of all below them."""
        cores = len(os.sched_getaffinity(0))
        asked = types.SimpleNamespace(folder=self.kept, crates=names, jobs=cores, memory=build.free_memory() * 9 // 10, cpu=None)
        return build.Build(self.crates, asked)

    def command(self, name, work, flags=()):
        """The command that checks a crate in the folder that it is run in, and keeps its work in another."""
        words = self.built([name]).words(self.crates[name])
        return [build.RATTLE, "check", *words, "--logic-built", build.KIT / "logic_built", "--incremental", work, "--jobs", str(self.jobs), *flags]


def main():
    words = argparse.ArgumentParser(description=__doc__, formatter_class=argparse.RawDescriptionHelpFormatter)
    words.add_argument("--kept", default=STATEMENTS, metavar="FOLDER")
    words.add_argument("--jobs", type=int, default=1, help="how many functions are proved at once")
    words.add_argument("crate", metavar="CRATE")
    asked, flags = words.parse_known_args()
    checks = Checks(asked.kept, asked.jobs)
    if asked.crate not in checks.crates:
        sys.exit(f"no crate {asked.crate} in crates.txt")
    if not checks.below(asked.crate):
        sys.exit(1)
    source = TOP / "crates" / asked.crate
    work = source / "out" / "checked"
    work.mkdir(parents=True, exist_ok=True)
    sys.exit(subprocess.run(checks.command(asked.crate, work, flags), cwd=source).returncode)


if __name__ == "__main__":
    main()
