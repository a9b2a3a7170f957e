#!/usr/bin/env python3
"""wrong_bodies.py [--jobs N] [--kept FOLDER] [--alone] [--part K/N] [--since REV | --stale REV] [CRATE..]: tries the edits of wrong-bodies/CRATE/. Each
has to be refused by the prover.

Edits of functions that do not call one another are tried together, in one check of a copy of the crate. An edit is refused there where the check does
not prove a function that the edit changes, and says so of that function itself: not because of one that it calls. Where that check does not tell, or
the crate as it stands is not proved, the edit is tried alone. With --alone each is. With --part K/N, K from 1, it takes the K-th of N parts of a crate's batches, so that several
runs share a large crate. Standard error is told of each batch when it is done.

Each check is one over the statements of the crates below, which FOLDER keeps (proof/check.py). With no CRATE it tries the edits of every crate that has some. It prints a line for each
edit that is not refused, or only for a name in a proof or by a limit of the prover, and a count for each crate. Status 1 where an edit was not refused.

With --stale REV nothing is proved. It names the edits that cannot be applied to the files as they are, since an old text does not stand there once, and
those to be tried again, since something changed after REV: the edit, a function that it turns with its contract, or a file of the crate's specs/ that the
function's file cites, also through others of that crate. Definitions of lower crates are not looked at. Status 1 where an edit cannot be applied.

With --since REV it tries the edits alone that --stale REV names.
"""
import argparse
import enum
import pathlib
import re
import shutil
import subprocess
import sys
import tempfile
import time

from check import STATEMENTS, Checks

TOP = pathlib.Path(__file__).resolve().parent.parent
FUNCTION = re.compile(r"^( *)(?:pub(?:\([a-z]+\))? )?(?:const )?(?:unsafe )?(?:extern \"C\" )?fn (\w+)")
CALLED = re.compile(r"\b([a-z_]\w*)(?:::<[^()]*>)?\(")
WORK = pathlib.Path("out", "checked")
# what a check says of a function, and of a line of a function's proof
OF_FUNCTION = re.compile(r"(?m)^(?:so far: )?fn \w+::([\w:<>+' ]*?): (not proved|no proof)(.*)$")
OF_PROOF = re.compile(r"(?m)^(?:so far: )?(?:\./)?proofs/(\S+)/\w+\.antt:\d+:\d+: error(.*)$")
OF_NAME = re.compile(r"has no field|is not in scope|has no `|was not admitted")
# what is wrong with the text itself, of which no contract says anything
OF_SOURCE = re.compile(r"(?m)^(?:so far: )?(?:\./)?(src/\S+):(\d+):\d+: error")
OF_TEXT = re.compile(r"(?m)^(?:so far: )?(?:\./)?(?:src|specs)/\S+:\d+:\d+: error|\berror\[[\w-]+\]")


class Told(enum.Enum):
    """What a check says of an edit."""

    REFUSED = "refused"
    FOR_A_NAME = "refused only for a name in a proof"
    PROVED = "NOT REFUSED: it is proved"
    UNREAD = "BAD EDIT: the new text does not compile"
    UNKNOWN = "NOT TRIED: the check came to no verdict"


def edits_of(crate, sources):
    """The edits of a crate."""
    return [Edit(it, sources) for it in sorted((TOP / "wrong-bodies" / crate).glob("*.edit"))]


class Edit:
    """An edit, by the pairs of texts in its file and the functions that it changes."""

    def __init__(self, path, sources):
        self.path, self.name, self.pairs = path, path.stem, []
        file = old = None
        for line in path.read_text().split("\n"):
            if line.startswith("file: "):
                file = line[len("file: ") :].strip()
            elif line.startswith("old: "):
                old = line[len("old: ") :]
            elif line.startswith("new:"):
                self.pairs.append((file, old, line[len("new:") :].removeprefix(" ")))
        self.functions = {sources.function_at(file, old) for file, old, _ in self.pairs}

    def is_of_functions(self):
        """Whether each change stands in a function."""
        return bool(self.functions) and None not in self.functions


class Sources:
    """The functions of a crate, as (file, name), and what they call, by names."""

    def __init__(self, crate):
        self.texts = {str(it.relative_to(crate)): it.read_text() for it in sorted((crate / "src").rglob("*.rt"))}
        self.spans = {file: list(spans_of(text)) for file, text in self.texts.items()}
        called = {}
        for file, spans in self.spans.items():
            lines = self.texts[file].split("\n")
            for first, last, name in spans:
                called.setdefault(name, set()).update(CALLED.findall("\n".join(lines[first:last])))
        self.called = {name: within(called, name) for name in called}

    def span_at(self, file, old):
        """The lines and the name of the one function in which a text stands. None where there is none, or the text does not stand there once."""
        text = self.texts.get(file, "")
        if not old or text.count(old) != 1:
            return None
        line = text.count("\n", 0, text.index(old)) + 1
        return next(((first, last, name) for first, last, name in self.spans[file] if first <= line <= last), None)

    def function_at(self, file, old):
        """The function in which a text stands so."""
        span = self.span_at(file, old)
        return span and (file, span[2])


def spans_of(text):
    """The first and the last line of each function, and its name."""
    lines, at = text.split("\n"), 0
    while at < len(lines):
        found = FUNCTION.match(lines[at])
        if found:
            first = at
            while at + 1 < len(lines) and not ends_function(lines, first, at, found[1]):
                at += 1
            yield first + 1, at + 1, found[2]
        at += 1


def ends_function(lines, first, at, indent):
    """Whether a function that begins at a line ends at another: by its brace, or by a semicolon where it has no body."""
    line = lines[at]
    return line.startswith(indent + "}") or at == first and line.endswith("}") or line.endswith(";") and "{" not in "".join(lines[first:at])


def within(called, name):
    """All that a function calls, and what that calls in turn, by names."""
    seen, left = set(), [name]
    while left:
        for it in called.get(left.pop(), ()):
            if it in called and it not in seen:
                seen.add(it)
                left.append(it)
    return seen


def batches_of(edits, sources):
    """Sorts edits into batches: within one, no changed function calls another, and none is changed twice."""
    batches = []
    reached_by = {it: set().union(*(sources.called[name] for _, name in it.functions)) for it in edits}
    for edit in sorted(edits, key=lambda it: len(reached_by[it])):
        names, reached = {name for _, name in edit.functions}, reached_by[edit]
        for batch in batches:
            if all(not names & others and not reached & others and not names & theirs for _, others, theirs in batch):
                batch.append((edit, names, reached))
                break
        else:
            batches.append([(edit, names, reached)])
    return [[edit for edit, _, _ in batch] for batch in batches]


def copied(crate, room):
    """A copy of a crate that may change, with what its check kept."""
    place, source = room / crate, TOP / "crates" / crate
    for part in ("src", "specs", "proofs"):
        if (source / part).is_dir():
            shutil.copytree(source / part, place / part)
    work = place / WORK
    work.parent.mkdir()
    linked = subprocess.run(["cp", "-al", source / WORK, work], stderr=subprocess.DEVNULL)
    if linked.returncode:
        # The two lie on different disks.
        shutil.rmtree(work, ignore_errors=True)
        shutil.copytree(source / WORK, work)
    # A check replaces what it keeps, and writes into these alone.
    for file in work.rglob("*"):
        if file.is_file() and file.suffix != ".oantt":
            data = file.read_bytes()
            file.unlink()
            file.write_bytes(data)
    return place


def edited(text, pairs):
    """A text in which each old text, which stands there once, gives way to a new one."""
    parts, at = [], 0
    for start, old, new in sorted((text.index(old), old, new) for old, new in pairs):
        parts += [text[at:start], new]
        at = start + len(old)
    return "".join(parts) + text[at:]


def edited_in_turn(text, pairs):
    """A text in which each old text gives way to a new one, in what the pairs before made."""
    for old, new in pairs:
        text = text.replace(old, new, 1)
    return text


def is_path_of(path, function):
    """Whether a path of a function within its crate, as plane::Plane::get, is that of one in a file, as (src/plane.rt, get). The path of a trait's method has
    the type and the trait in one word, as plane::PlaneRead::read, and that of a function that calls itself may have a plus, as plane::+fill."""
    file, name = function
    module = file.removeprefix("src/").removesuffix(".rt").replace("/", "::")
    words = path.split("::")
    return words[-1].removeprefix("+") == name and (module in ("lib", "main") or path.startswith(module + "::"))


def said_of(text):
    """The paths of functions that were not proved for what they do, and of those of which more than a name in a proof says so."""
    own, beyond_names = set(), set()
    for path, _, why in OF_FUNCTION.findall(text):
        if "it calls" not in why:
            own.add(path)
        if "`search` did not prove" in why:
            beyond_names.add(path)
    for path, why in OF_PROOF.findall(text):
        if not OF_NAME.search(why):
            beyond_names.add(path.replace("/", "::"))
    return own, beyond_names


def checked(checks, crate, place):
    """A check of a crate as it stands in a folder."""
    work = place / WORK
    work.mkdir(parents=True, exist_ok=True)
    return subprocess.run(checks.command(crate, work), cwd=place, stdout=subprocess.PIPE, stderr=subprocess.STDOUT, text=True, errors="replace")


def checked_with(checks, crate, edits, sources):
    """A check of a copy of a crate with some edits, whose texts do not meet."""
    with tempfile.TemporaryDirectory(prefix="wrong-bodies-") as room:
        place = copied(crate, pathlib.Path(room))
        for file in {file for edit in edits for file, _, _ in edit.pairs}:
            pairs = [(old, new) for edit in edits for name, old, new in edit.pairs if name == file]
            text = (place / file).read_text()
            (place / file).write_text(edited(text, pairs) if len(edits) > 1 else edited_in_turn(text, pairs))
        return checked(checks, crate, place)


def is_proved(checks, crate):
    """Whether the crate as it stands is proved."""
    return checks.below(crate) and not checked(checks, crate, TOP / "crates" / crate).returncode


def is_verdict(ran):
    """Whether a check read the text and says that it is not proved."""
    return ran.returncode == 1 and "logic=not-proved" in ran.stdout and not OF_TEXT.search(ran.stdout)


def unread(batch, said, sources):
    """The edits of a batch in whose functions the compiler finds an error."""
    places = {(file, int(line)) for file, line in OF_SOURCE.findall(said)}
    spans = {it: [(file, sources.span_at(file, old)) for file, old, _ in it.pairs] for it in batch}
    return [it for it in batch if any(file == of and span[0] <= line <= span[1] for file, line in places for of, span in spans[it])]


def told_together(checks, crate, batch, sources):
    """Tries edits together: those that are refused, and of these the ones that are refused for a name alone. One that does not compile is left out."""
    ran = checked_with(checks, crate, batch, sources)
    while left := unread(batch, ran.stdout, sources):
        batch = [it for it in batch if it not in left]
        if not batch:
            return [], []
        ran = checked_with(checks, crate, batch, sources)
    if not is_verdict(ran):
        return [], []
    own, beyond_names = said_of(ran.stdout)
    refused = [it for it in batch if any(is_path_of(path, function) for path in own for function in it.functions)]
    named = [it for it in refused if not any(is_path_of(path, function) for path in beyond_names for function in it.functions)]
    return refused, named


def told_alone(checks, crate, edit, sources):
    """What a check says of one edit."""
    if why_not_applied(edit, sources):
        return Told.UNREAD
    ran = checked_with(checks, crate, [edit], sources)
    if ran.returncode == 0:
        return Told.PROVED
    if OF_TEXT.search(ran.stdout):
        return Told.UNREAD
    own, beyond_names = said_of(ran.stdout)
    if not is_verdict(ran) or not own:
        return Told.UNKNOWN
    return Told.REFUSED if own & beyond_names else Told.FOR_A_NAME


def part_of(edits, sources, is_together, part):
    """A part K/N of the edits: those to try one by one, and the batches of the others."""
    together = [it for it in edits if is_together and it.is_of_functions()]
    batches, alone = batches_of(together, sources), [it for it in edits if it not in together]
    which, parts = (int(it) for it in part.split("/"))
    return alone[which - 1 :: parts], batches[which - 1 :: parts]


def tried(checks, crate, asked, change):
    """Tries the edits of a crate, or those alone that a change made stale: how many, how many were refused, and how many of these only for a name."""
    began, sources = time.time(), Sources(TOP / "crates" / crate)
    edits = edits_of(crate, sources)
    if change:
        edits = [it for it in edits if why_stale(it, crate, sources, change)]
    if not edits:
        return 0, 0, 0
    alone, batches = part_of(edits, sources, is_proved(checks, crate) and not asked.alone, asked.part)
    edits = [*alone, *(edit for batch in batches for edit in batch)]
    refused, named = set(), set()
    for at, batch in enumerate(batches, 1):
        some, by_name = told_together(checks, crate, batch, sources)
        refused |= {it.name for it in some}
        named |= {it.name for it in by_name}
        print(f"{crate}: batch {at} of {len(batches)}: {len(some)} of {len(batch)} refused", file=sys.stderr, flush=True)
    left = [it for it in edits if it.name not in refused]
    for edit in left:
        told = told_alone(checks, crate, edit, sources)
        if told in (Told.REFUSED, Told.FOR_A_NAME):
            refused.add(edit.name)
        if told is Told.FOR_A_NAME:
            named.add(edit.name)
        elif told is not Told.REFUSED:
            print(f"{crate}/{edit.name}: {told.value}", flush=True)
    for name in sorted(named):
        print(f"{crate}/{name}: {Told.FOR_A_NAME.value}", flush=True)
    seconds = time.time() - began
    print(f"{crate}: {len(edits)} edits, {len(left)} tried alone; {len(refused)} refused, {len(named)} only for a name; {seconds:.0f} s", flush=True)
    return len(edits), len(refused), len(named)


class Change:
    """What changed in the repository since a revision."""

    def __init__(self, revision):
        self.revision, self.kept = revision, {}
        if self.said("rev-parse", "--verify", "--quiet", f"{revision}^{{commit}}") == "":
            sys.exit(f"no such revision: {revision}")
        self.files = set((self.said("diff", "--name-only", revision) + self.said("ls-files", "--others", "--exclude-standard")).split())

    def said(self, *words):
        """What git says."""
        return subprocess.run(["git", *words], cwd=TOP, stdout=subprocess.PIPE, stderr=subprocess.DEVNULL, text=True).stdout

    def functions_of(self, path):
        """The texts of the functions that a file had."""
        if path not in self.kept:
            text = self.said("show", f"{self.revision}:{path}")
            lines = text.split("\n")
            self.kept[path] = {"\n".join(lines[first - 1 : last]) for first, last, _ in spans_of(text)}
        return self.kept[path]


def cited_by(text, crate):
    """The files of a crate's specs/ that a text cites, also through others of them."""
    seen, left = set(), [text]
    while left:
        for name in re.findall(rf"\bRattle\.{crate}\.specs\.(\w+)", left.pop()):
            path = TOP / "crates" / crate / "specs" / f"{name}.antt"
            if path not in seen and path.is_file():
                seen.add(path)
                left.append(path.read_text())
    return {str(it.relative_to(TOP)) for it in seen}


def why_not_applied(edit, sources):
    """Why an edit cannot be applied; nothing where it can. A text may stand in what the edit's texts before it made."""
    texts = dict(sources.texts)
    for file, old, new in edit.pairs:
        count = texts.get(file, "").count(old) if old else 0
        if count != 1:
            return f"a text stands {count} times in {file}: {(old or '').strip()[:80]}"
        texts[file] = texts[file].replace(old, new)
    return "" if edit.pairs else "it has no texts"


def why_again(edit, crate, sources, change):
    """Why an edit has to be tried again; nothing where it need not."""
    if str(edit.path.relative_to(TOP)) in change.files:
        return "the edit is new"
    for file, old, _ in edit.pairs:
        path, span = f"crates/{crate}/{file}", sources.span_at(file, old)
        if path in change.files and span is None:
            return f"{file} changed"
        if path in change.files and "\n".join(sources.texts[file].split("\n")[span[0] - 1 : span[1]]) not in change.functions_of(path):
            return f"fn {span[2]} changed"
    cited = set().union(*(cited_by(sources.texts[file], crate) for file, _, _ in edit.pairs))
    return next((f"{it} changed" for it in sorted(cited & change.files)), "")


def why_stale(edit, crate, sources, change):
    """Why an edit cannot be applied, or has to be tried again; nothing where it is neither."""
    fault = why_not_applied(edit, sources)
    if fault:
        return f"cannot be applied: {fault}"
    why = why_again(edit, crate, sources, change)
    return why and f"to be tried again: {why}"


def stale(crates, revision):
    """Names the edits that cannot be applied, and those to be tried again; gives how many cannot."""
    change, count, broken, again = Change(revision), 0, 0, 0
    for crate in crates:
        sources = Sources(TOP / "crates" / crate)
        for edit in edits_of(crate, sources):
            why = why_stale(edit, crate, sources, change)
            if why:
                print(f"{crate}/{edit.name}: {why}")
            cannot = why.startswith("cannot")
            count, broken, again = count + 1, broken + cannot, again + bool(why and not cannot)
    print(f"{count} edits: {broken} cannot be applied, {again} are to be tried again")
    return broken


def main():
    words = argparse.ArgumentParser(description=__doc__, formatter_class=argparse.RawDescriptionHelpFormatter)
    words.add_argument("--jobs", type=int, default=1, help="how many functions a check proves at once")
    words.add_argument("--kept", default=STATEMENTS, metavar="FOLDER", help="where the statements of crates are kept")
    words.add_argument("--alone", action="store_true", help="each edit in a check of its own")
    words.add_argument("--part", default="1/1", metavar="K/N", help="the K-th of N parts of each crate's edits")
    which = words.add_mutually_exclusive_group()
    which.add_argument("--stale", metavar="REV", help="proves nothing, and names the edits that a change since REV made stale")
    which.add_argument("--since", metavar="REV", help="tries those alone")
    words.add_argument("crates", nargs="*", metavar="CRATE")
    asked = words.parse_args()
    crates = asked.crates or sorted(it.name for it in (TOP / "wrong-bodies").iterdir() if it.is_dir())
    unknown = [it for it in crates if not (TOP / "wrong-bodies" / it).is_dir() or not (TOP / "crates" / it).is_dir()]
    if unknown:
        sys.exit(f"no crate with wrong bodies: {unknown[0]}")
    if asked.stale:
        sys.exit(stale(crates, asked.stale) != 0)
    checks = Checks(asked.kept, asked.jobs)
    change = Change(asked.since) if asked.since else None
    counts = [tried(checks, it, asked, change) for it in crates]
    edits, refused, named = (sum(it) for it in zip(*counts))
    print(f"{edits} tried, {refused} refused ({named} of them only for a name in a proof), {edits - refused} not")
    sys.exit(edits != refused)


if __name__ == "__main__":
    main()
