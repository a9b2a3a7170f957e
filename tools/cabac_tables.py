#!/usr/bin/env python3
"""Writes the tables of h264_cabac that contexts begin with (9.3.1.1) from tools/cabac_contexts.txt: those of the code and those of its definitions.

    tools/cabac_tables.py            writes them
    tools/cabac_tables.py --check    says whether they agree with the list; status 1 where not
"""
import pathlib
import sys

TOP = pathlib.Path(__file__).resolve().parent.parent
LIST = TOP / "tools/cabac_contexts.txt"
CODE = TOP / "crates/h264_cabac/src"
DEFINITIONS = TOP / "crates/h264_cabac/specs/Pairs.antt"

# The tables: the name in the definitions, and what they are for.
TABLES = [
    ("i_pairs", "of I slices"),
    ("pairs_0", "of P slices with cabac_init_idc 0"),
    ("pairs_1", "of P slices with cabac_init_idc 1"),
    ("pairs_2", "of P slices with cabac_init_idc 2"),
]
# The files of the code, each with some of the tables: a file has at most 800 lines.
FILES = [("pairs_i_0.rt", (0, 1)), ("pairs_1_2.rt", (2, 3))]
WIDTH = 100


def rows(text):
    """Each ctxIdx with its four pairs of m and n, in order; None for a dash."""
    found = []
    for line in text.splitlines():
        words = line.split("#")[0].split()
        if not words:
            continue
        index, pairs = int(words[0]), [None if w == "-" else tuple(int(x) for x in w.split(",")) for w in words[1:]]
        if len(pairs) != len(TABLES) or any(p is not None and len(p) != 2 for p in pairs):
            sys.exit(f"{LIST.name}: ctxIdx {index} wants four pairs")
        if found and found[-1][0] >= index:
            sys.exit(f"{LIST.name}: ctxIdx {index} stands out of order")
        found.append((index, pairs))
    return found


def column(found, k):
    """The pairs of one table, with their ctxIdx."""
    return [(index, pairs[k]) for index, pairs in found if pairs[k] is not None]


def ranges(entries):
    """The first and last ctxIdx of each run without a gap."""
    runs = []
    for index, _ in entries:
        if runs and runs[-1][1] + 1 == index:
            runs[-1][1] = index
        else:
            runs.append([index, index])
    return ", ".join(f"{first} to {last}" for first, last in runs)


def filled(words, indent):
    """Words in lines of at most WIDTH characters."""
    lines, line = [], ""
    for word in words:
        if line and len(indent) + len(line) + 1 + len(word) > WIDTH:
            lines.append(indent + line)
            line = word
        else:
            line = f"{line} {word}".strip()
    return "\n".join(lines + [indent + line])


def code(found, tables):
    text = "//! The values m and n that contexts begin with (9.3.1.1, Tables 9-12 to 9-33). tools/cabac_tables.py writes this file.\n#![tactic(auto)]\n"
    for k in tables:
        name, what = TABLES[k]
        entries = column(found, k)
        text += f"\n/// The pairs {what}: ctxIdx {ranges(entries)}.\npub const {name.upper()}: [(i8, i8); {len(entries)}] = [\n"
        text += "".join(f"    ({m}, {n}),\n" for _, (m, n) in entries) + "];\n"
    return text


def integer(x):
    return f"pos {x}" if x >= 0 else f"negsuc {-x - 1}"


def definitions(found):
    text = "-- The values m and n that contexts begin with (9.3.1.1, Tables 9-12 to 9-33). To be read beside the standard.\n"
    text += "-- tools/cabac_tables.py writes this file.\n"
    text += "use Rattle.std.specs.Prelude.{List, [], ◌∷◌, ℤ, pos, negsuc}\n"
    for k, (name, what) in enumerate(TABLES):
        entries = column(found, k)
        text += f"\n-- {what}: ctxIdx {ranges(entries)}\nunfoldable pub {name} : List (ℤ × ℤ)\n{name} =\n"
        text += filled([f"({integer(m)}, {integer(n)}) ∷" for _, (m, n) in entries], "    ") + "\n    []\n"
    return text


def main():
    found = rows(LIST.read_text())
    wanted = {CODE / name: code(found, tables) for name, tables in FILES} | {DEFINITIONS: definitions(found)}
    if sys.argv[1:] == ["--check"]:
        wrong = [str(path.relative_to(TOP)) for path, text in wanted.items() if not path.exists() or path.read_text() != text]
        for path in wrong:
            print(f"{path} does not agree with {LIST.relative_to(TOP)}")
        sys.exit(1 if wrong else 0)
    if sys.argv[1:]:
        sys.exit(__doc__)
    for path, text in wanted.items():
        path.write_text(text)


main()
