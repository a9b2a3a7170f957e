#!/usr/bin/env python3
"""What contracts and definitions said at a revision, and no longer say.

  proof/clauses.py REV

Prints each clause of a public function, and each definition of specs/, that stood at REV and does not stand in the working tree, and how many there are of
both. A clause is known by its function's name and its text, a definition by its text: neither by its crate or file, so that what only moved is not listed.
Imports, comments and layout do not count. Status 1 where something is lost.
"""
import pathlib
import re
import subprocess
import sys

TOP = pathlib.Path(__file__).resolve().parent.parent
FUNCTION = re.compile(r"^\s*(?:pub (?:const |unsafe )*|final )?fn (\w+)")
CLAUSE = re.compile(r"^\s*(requires|ensures|ghost)\b")
DEFINITION = re.compile(r"^(?:abbrev |unfoldable |opaque )?pub (?:record |data )?([^\s:({]+)")


def files_at(revision):
    """The text of each file of src/ and specs/ by its path, at a revision, or in the working tree where that is None."""
    if revision is None:
        found = [it for it in (TOP / "crates").glob("*/s*/**/*") if it.suffix in (".rt", ".antt")]
        return {str(it.relative_to(TOP)): it.read_text() for it in found if it.relative_to(TOP).parts[2] in ("src", "specs")}
    names = subprocess.run(["git", "ls-tree", "-r", "--name-only", revision, "crates"], cwd=TOP, check=True, capture_output=True, text=True).stdout.split("\n")
    names = [it for it in names if re.match(r"crates/\w+/(src/.*\.rt|specs/.*\.antt)$", it)]
    batch = subprocess.run(["git", "cat-file", "--batch"], cwd=TOP, check=True, capture_output=True, input="".join(f"{revision}:{it}\n" for it in names).encode()).stdout
    texts, at = {}, 0
    for name in names:
        end = batch.index(b"\n", at)
        size = int(batch[at:end].split()[-1])
        texts[name] = batch[end + 1 : end + 1 + size].decode()
        at = end + 2 + size
    return texts


def clauses_of(text):
    """The clauses of the functions of a source file that are public, or of a trait, as (function, clause)."""
    name, clause = None, None
    for line in text.split("\n"):
        found = FUNCTION.match(line)
        if found:
            is_public = line.lstrip().startswith(("pub ", "final ")) or line.startswith("    fn")
            name, clause = found[1] if is_public else None, None
        elif name and CLAUSE.match(line):
            clause = [line]
        elif name and (line.strip() in ("{", "{}") or line.startswith("}")):
            name = None
        elif clause is not None and line.strip() and not line.strip().startswith("//"):
            clause.append(line)
        if clause is not None and " ".join(clause).count("{") == " ".join(clause).count("}") and "{" in " ".join(clause):
            yield name, " ".join(" ".join(clause).rstrip(";,").split())
            clause = None


def definitions_of(text):
    """The definitions of a file of specs/, each as its text."""
    lines = [it for it in text.split("\n") if not it.startswith(("--", "use ", "pub use ", "pub mod ", "mod "))]
    block = []
    for line in [*lines, "pub "]:
        if block and not line.strip() or DEFINITION.match(line) or line == "pub ":
            said = " ".join(" ".join(block).split())
            if said:
                yield said
            block = []
        if line.strip():
            block.append(line)


def said_in(texts):
    """All clauses and all definitions of these files."""
    clauses, definitions = set(), set()
    for path, text in texts.items():
        if path.endswith(".rt"):
            clauses.update(clauses_of(text))
        else:
            definitions.update(definitions_of(text))
    return clauses, definitions


def main():
    if len(sys.argv) != 2:
        sys.exit(__doc__)
    (clauses, definitions), (clauses_now, definitions_now) = said_in(files_at(sys.argv[1])), said_in(files_at(None))
    lost = sorted(clauses - clauses_now)
    gone = sorted(definitions - definitions_now)
    for name, clause in lost:
        print(f"clause of {name}: {clause}")
    for text in gone:
        print(f"definition: {text}")
    print(f"{len(clauses)} clauses then, {len(clauses_now)} now, {len(lost)} lost; {len(definitions)} definitions then, {len(definitions_now)} now, {len(gone)} lost")
    sys.exit(bool(lost or gone))


if __name__ == "__main__":
    main()
