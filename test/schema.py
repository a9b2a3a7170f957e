#!/usr/bin/env python3
"""schema.py PROGRAM FILE|FOLDER..: compares every object that PROGRAM writes with share/h264v.schema.json.

Each command runs with --json on each file, for both targets, `check` and `report` with --strict too, and `explain` on all labels. It prints each object that the schema does
not allow, and at the end how many there were of each kind. Status 1 where one is not allowed. Needs the Python module jsonschema.
"""
import collections
import json
import os
import pathlib
import subprocess
import sys
import tempfile

import jsonschema

TOP = pathlib.Path(__file__).resolve().parent.parent
sys.dont_write_bytecode = True
sys.path.insert(0, str(TOP / "bench"))

from named import names_in

COMMANDS = ["check", "check --strict", "units", "headers", "frames", "elements", "info", "decode --output OUT", "decode --y4m --output OUT", "report --strict --output OUT"]
TARGETS = ("baseline", "main-ip")


class Objects:
    """The objects so far."""

    def __init__(self, program):
        schema = json.loads((TOP / "share" / "h264v.schema.json").read_text(encoding="utf-8"))
        self.program, self.schema, self.kinds, self.wrong = program, jsonschema.Draft202012Validator(schema), collections.Counter(), 0

    def told_by(self, words):
        """Looks at each line of JSON that a command writes."""
        ran = subprocess.run([self.program, *words], capture_output=True)
        for line in (ran.stdout + ran.stderr).decode(errors="surrogateescape").splitlines():
            if line.startswith("{"):
                self.look(line, words)

    def look(self, line, words):
        told = json.loads(line)
        self.kinds[told.get("kind")] += 1
        if not self.schema.is_valid(told):
            self.wrong += 1
            print(f"{' '.join(words)}: not allowed: {line}", flush=True)


def main(program, *words):
    objects, names = Objects(program), list(names_in(words))
    with tempfile.TemporaryDirectory(prefix="h264v-schema.") as folder:
        out = os.path.join(folder, "out")
        for command in COMMANDS:
            asked = command.replace("OUT", out).split()
            for name in names:
                for target in TARGETS:
                    objects.told_by([*asked, "--json", "--target", target, name])
    objects.told_by(["check", "--json", *names])
    objects.told_by(["check", "--json", os.path.join(os.sep, "nothing", "here")])
    objects.told_by(["explain", "--all", "--json"])
    print(", ".join(f"{count} of {kind}" for kind, count in sorted(objects.kinds.items())), f"; {objects.wrong} not allowed", sep="")
    return objects.wrong != 0


if __name__ == "__main__":
    if len(sys.argv) < 3:
        sys.exit(__doc__)
    sys.exit(main(*sys.argv[1:]))
