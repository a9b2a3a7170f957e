#!/usr/bin/env python3
"""Lists the lines of src/, specs/ and proofs/ that have more than 160 characters. Status 1 where there is one.

    tools/lines.py [--break] [CRATE..]

With --break it breaks the lines of proofs/: imports by names, comments by words, all others at the outermost place that is free. Run `rt fmt` in the
crate after it, which lays out what follows a break.
"""
import pathlib
import re
import sys

CRATES = pathlib.Path(__file__).resolve().parent.parent / "crates"
MOST = 160
# What a broken line may have: `rt fmt` may move it to the right.
LIMIT = 150
OPENING, CLOSING = "([{", ")]}"
# A line is best broken after one of these, and not beside one of those.
ENDS = {"→", "∙", "×", "⊎", "in", "=", "≡", "++"}
JOINS = set(": < ≤ + * - / % ^ ∷ == ≢ && || +ℤ -ℤ *ℤ ; , .".split()) | ENDS
OPENS = {"let", "λ", "rw", "pub", "if", "then", "else", "abbrev", "record", "use", "case", "of", "unfolding"}
BINDER = re.compile(r"\([^()]* : [^()]*\) →$")
DEPTH, WORD, BESIDE = 5, 4, 9


def cost(before, after, text):
    """How bad a break between two words is, where `text` ends in the first."""
    if before in ENDS:
        return 3 if before == "→" and BINDER.search(text) else 0
    if before[-1] in ",;":
        return 0
    return BESIDE if before in JOINS | OPENS or after in JOINS or before[-1] == "." else WORD


def places(text):
    """The columns at which the line may be broken, each with how bad that is: a break within brackets is worse."""
    depth = 0
    for at, sign in enumerate(text):
        depth += (sign in OPENING) - (sign in CLOSING)
        if sign == " " and text[:at].strip():
            before, after = text[:at].split(" ")[-1], text[at + 1 :].split(" ")[0]
            if before and after:
                yield at + 1, depth * DEPTH + cost(before, after, text[:at])


def filled(words, head, joint):
    """Rows of words that begin with `head`, none of them longer than a line may be."""
    rows, row = [], []
    for word in words:
        if row and len(head) + len(joint.join([*row, word])) + 1 > LIMIT:
            rows.append(row)
            row = []
        row.append(word)
    return [head + joint.join(it) for it in [*rows, row]]


def broken(line):
    """The lines in the place of one that is too long."""
    indent = " " * (len(line) - len(line.lstrip()))
    imports = re.match(r"((?:pub )?use [^{]*\.)\{(.*)\}$", line)
    if imports:
        return [f"{it}}}" for it in filled(imports[2].split(", "), imports[1] + "{", ", ")]
    if line.strip().startswith("--"):
        return filled(line.split()[1:], f"{indent}-- ", " ")
    rows, lead, rest = [], indent, line.strip()
    while len(lead + rest) > LIMIT:
        room = LIMIT - len(lead)
        free = [(bad, -at) for at, bad in places(rest) if at <= room]
        late = [it for it in free if -it[1] > min(40, room // 3)]
        if not free:
            break
        at = -min(late or free)[1]
        rows.append(lead + rest[:at].rstrip())
        lead, rest = indent + "    ", rest[at:]
    return [*rows, lead + rest]


def main(words):
    may_break, names = "--break" in words, [it for it in words if it != "--break"]
    count = 0
    for file in sorted(CRATES.glob("*/*/**/*")):
        crate, part, *_ = file.relative_to(CRATES).parts
        if part not in ("src", "specs", "proofs") or names and crate not in names or file.suffix not in (".rt", ".antt"):
            continue
        lines = file.read_text(encoding="utf-8").split("\n")
        long = [number for number, line in enumerate(lines, 1) if len(line) > MOST]
        if long and may_break and part == "proofs":
            rows = [row for line in lines for row in (broken(line) if len(line) > MOST else [line])]
            file.write_text("\n".join(rows), encoding="utf-8")
            continue
        for number in long:
            print(f"{file.relative_to(CRATES.parent)}:{number}: {len(lines[number - 1])} characters")
        count += len(long)
    return 1 if count else 0


if __name__ == "__main__":
    sys.exit(main(sys.argv[1:]))
