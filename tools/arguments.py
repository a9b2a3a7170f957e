#!/usr/bin/env python3
"""Lists the definitions of specs/ with more than six positional arguments, and fails where there is one.

usage: tools/arguments.py [CRATE..]

Counted are the explicit arguments in a definition's type: those before its result, and the parameters and indices of a
record or of a family of types. Arguments in braces are not counted: they are found by the prover."""
import pathlib
import re
import sys

MOST = 6
TOP = pathlib.Path(__file__).resolve().parent.parent
WORDS = r"(?:(?:abbrev|unfoldable|pub)\s+)*"
OPEN, CLOSE = "({[", ")}]"


def declarations(text):
    """The declarations of a file, each as the number of its first line and its text in one line."""
    lines = text.split("\n")
    for first, line in enumerate(lines):
        if line[:1].strip() and not line.startswith(("--", "use ")):
            rest = []
            for more in lines[first + 1 :]:
                if not more.startswith(" "):
                    break
                rest.append(more.strip())
            yield first + 1, " ".join([line, *rest])


def parts(text, separator):
    """The text cut at a separator that stands in no brackets."""
    found, depth = [""], 0
    for c in text:
        depth += (c in OPEN) - (c in CLOSE)
        if c == separator and not depth:
            found.append("")
        else:
            found[-1] += c
    return found


def names_in(group):
    """How many arguments a group such as `(a b : T)` names."""
    return len(group.split())


def count_in_type(text):
    """How many explicit arguments stand before the result of a type."""
    count = 0
    for part in parts(text, "→")[:-1]:
        part = part.strip()
        if part.startswith("{"):
            continue
        named = re.match(r"\(([^(){}:]+) :", part)
        count += names_in(named[1]) if named else 1
    return count


def arguments_of(declaration):
    """The name of a definition, and how many explicit arguments it has; None for the lines that give its value."""
    family = re.match(WORDS + r"(?:record|data)\s+(\S+)\s*(.*)$", declaration)
    if family:
        head, *rest = parts(family[2], ":")
        parameters = sum(names_in(group) for group in re.findall(r"\(([^(){}:]+):", head))
        return family[1], parameters + count_in_type(":".join(rest).split(" where")[0])
    function = re.match(WORDS + r"(\S+) : (.*)$", declaration)
    return (function[1], count_in_type(function[2])) if function else None


def main():
    crates = sys.argv[1:] or sorted(it.name for it in (TOP / "crates").iterdir())
    found = 0
    for crate in crates:
        for file in sorted((TOP / "crates" / crate / "specs").rglob("*.antt")):
            for line, declaration in declarations(file.read_text(encoding="utf-8")):
                name, count = arguments_of(declaration) or ("", 0)
                if count > MOST:
                    print(f"{file.relative_to(TOP)}:{line}: {name} has {count} arguments")
                    found += 1
    print(f"{found} definitions with more than {MOST} arguments")
    return 1 if found else 0


if __name__ == "__main__":
    sys.exit(main())
