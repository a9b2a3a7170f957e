#!/usr/bin/env python3
"""Writes what a shell completes, and the labels of the schema, from the tables of the command line (h264_words), of the rules (h264_pages) and of the further rules (h264_strict).

    tools/words.py            writes share/h264v.bash, share/_h264v and share/h264v.fish, and the labels in share/h264v.schema.json
    tools/words.py --check    says which of them is out of date, and which command or option the man page lacks or has too much; status 1 where there is one
"""
import json
import pathlib
import re
import sys

sys.dont_write_bytecode = True
TOP = pathlib.Path(__file__).resolve().parent.parent
SOURCE = TOP / "crates" / "h264_words" / "src" / "command_line.rt"
MANUAL = TOP / "share" / "h264v.1"
SCHEMA = TOP / "share" / "h264v.schema.json"
TEXT = r'"((?:[^"\\]|\\.)*)"'
TARGETS = "baseline main-ip"
#: How the value of an option is completed, by the name of the value in the help: in zsh, and whether it is a file.
KINDS = {"OUTPUT": ("_files", True), "LIST": ("_files", True), "FOLDER": ("_files -/", True), "TARGET": (f"({TARGETS})", False)}


class Option:
    """An option: its name, its letter, the name of its value, its help, and the commands that take it."""

    def __init__(self, name, letter, value, about, commands):
        self.name, self.letter, self.value, self.about, self.commands = name, letter, value, about.rstrip("."), commands


class Words:
    """The commands with their help, and the options."""

    def __init__(self):
        self.source = SOURCE.read_text(encoding="utf-8")
        self.commands = dict(re.findall(rf"\(\s*{TEXT},\s*{TEXT},\s*\)", self.const("SUBCOMMANDS")))
        self.options = [*self.flags(), *self.values(), *self.lists()]

    def const(self, name):
        """The text of a constant."""
        return re.search(rf"(?s)const {name}: [^=]*=(.*?);\n\n", self.source)[1]

    def shown_by(self, text):
        """The commands whose help shows an option, by what stands for them in a table."""
        text = text.strip()
        return re.findall(TEXT, text if "[" in text else self.const(text))

    def flags(self):
        """The options without a value."""
        for name, about, shown in re.findall(rf"\(\s*{TEXT},\s*{TEXT},\s*(&\[[^\]]*\]|[A-Z_]+),?\s*\)", self.const("FLAGS")):
            yield Option(name, None, None, about, self.shown_by(shown))

    def values(self):
        """The options with a value."""
        row = rf"\(\s*{TEXT},\s*'(\w)',\s*\(\s*{TEXT},\s*{TEXT},?\s*\),\s*(&\[[^\]]*\]|[A-Z_]+),?\s*\)"
        for name, letter, value, about, shown in re.findall(row, self.const("VALUES")):
            yield Option(name, letter, value, about, self.shown_by(shown))

    def lists(self):
        """The options that name files by lists, standard input, and all labels."""
        streams = self.shown_by("OF_STREAMS")
        several = [it for it in streams if it not in re.findall(rf"name != {TEXT}", self.source)]
        for name, letter, help_of, commands in (
            ("files0-from", None, "LIST_HELP", several),
            ("recursive", "r", "FOLDER_HELP", several),
            ("glob", None, "GLOB_HELP", several),
            ("name", None, "NAME_HELP", streams),
        ):
            value, about = re.findall(TEXT, self.const(help_of))
            yield Option(name, letter, value, about, commands)
        yield Option("all", None, None, re.findall(TEXT, self.const("ALL_HELP"))[0], ["explain"])


def labels_by_kind():
    """The labels of rules, of features and of further rules, by what the schema calls them, in the order of their tables."""
    rules = (TOP / "crates" / "h264_pages" / "src" / "rules.rt").read_text(encoding="utf-8")
    further = (TOP / "crates" / "h264_strict" / "src" / "strict_entries.rt").read_text(encoding="utf-8")
    tables = {"rule": ("RuleEntry", rules), "feature": ("FeatureEntry", rules), "further_rule": ("StrictEntry", further)}
    return {name: re.findall(rf"{kind} \{{\s*\w+: \w+::(\w+),", text) for name, (kind, text) in tables.items()}


def labels():
    """All labels."""
    return [it for some in labels_by_kind().values() for it in some]


def for_bash(words):
    cases = []
    for command in words.commands:
        names = [f"--{it.name}" for it in words.options if command in it.commands]
        if command == "explain":
            names += labels()
        cases.append(f"  {command}) words='{' '.join(names)}' ;;\n")
    return f"""# Completion of h264v for bash. By tools/words.py.
_h264v() {{
  local word=${{COMP_WORDS[COMP_CWORD]}} before=${{COMP_WORDS[COMP_CWORD - 1]}} words=
  if [ "$COMP_CWORD" = 1 ]; then
    mapfile -t COMPREPLY < <(compgen -W '{' '.join(words.commands)} --help --version' -- "$word")
    return
  fi
  case ${{COMP_WORDS[1]}} in
{''.join(cases)}  esac
  case ${{COMP_WORDS[1]}}/$before/$word in
  */--target/* | */-t/*) mapfile -t COMPREPLY < <(compgen -W '{TARGETS}' -- "$word") ;;
  explain/* | */-*) mapfile -t COMPREPLY < <(compgen -W "$words" -- "$word") ;;
  *) mapfile -t COMPREPLY < <(compgen -f -- "$word") ;;
  esac
}}
complete -o filenames -F _h264v h264v
"""


def quoted(text):
    """A text within a word of a shell in quotes."""
    return "'" + text.replace("'", "'\\''") + "'"


def in_zsh(option):
    """The line of an option for zsh's _arguments."""
    about = f"[{option.about.replace(':', ';')}]"
    value = f":{option.value}:{KINDS.get(option.value, ('', False))[0]}" if option.value else ""
    many = "*" if option.value in ("LIST", "FOLDER") else ""
    if not option.letter:
        return quoted(f"{many}--{option.name}{about}{value}")
    group = many or f"(-{option.letter} --{option.name})"
    return quoted(group) + f"{{-{option.letter},--{option.name}}}" + quoted(about + value)


def for_zsh(words):
    commands = "".join(f"  {quoted(f'{name}:{about}')}\n" for name, about in words.commands.items())
    cases = []
    for command in words.commands:
        options = [in_zsh(it) for it in words.options if command in it.commands]
        rest = f"'*:label:({' '.join(labels())})'" if command == "explain" else "'*:file:_files'"
        cases.append(f"  {command})\n    _arguments " + " \\\n      ".join([*options, rest]) + "\n    ;;\n")
    return f"""#compdef h264v
# Completion of h264v for zsh. By tools/words.py.
local -a commands
commands=(
{commands})
if (( CURRENT == 2 )); then
  _describe command commands
  return
fi
case $words[2] in
{''.join(cases)}esac
"""


def for_fish(words):
    lines = ["# Completion of h264v for fish. By tools/words.py."]
    for name, about in words.commands.items():
        lines.append(f"complete -c h264v -n __fish_use_subcommand -f -a {name} -d {quoted(about)}")
    for it in words.options:
        seen = f"-n '__fish_seen_subcommand_from {' '.join(it.commands)}'"
        letter = f" -s {it.letter}" if it.letter else ""
        value = ""
        if it.value:
            value = " -r" if KINDS.get(it.value, ("", False))[1] else " -x"
        choice = f" -a '{TARGETS}'" if it.value == "TARGET" else ""
        lines.append(f"complete -c h264v {seen}{letter} -l {it.name}{value}{choice} -d {quoted(it.about)}")
    lines.append(f"complete -c h264v -n '__fish_seen_subcommand_from explain' -f -a '{' '.join(labels())}'")
    return "\n".join(lines) + "\n"


def for_schema(words):
    """The schema of the objects as it stands, with these labels."""
    schema = json.loads(SCHEMA.read_text(encoding="utf-8"))
    for name, some in labels_by_kind().items():
        schema["$defs"][name]["enum"] = some
    return json.dumps(schema, indent=2) + "\n"


FILES = {TOP / "share" / "h264v.bash": for_bash, TOP / "share" / "_h264v": for_zsh, TOP / "share" / "h264v.fish": for_fish, SCHEMA: for_schema}


def told_of_manual(words):
    """What the man page lacks, or has too much, of the commands and the options."""
    text = MANUAL.read_text(encoding="utf-8").replace("\\-", "-")
    for section, wanted in (("COMMANDS", [*words.commands]), ("OPTIONS", [f"--{it.name}" for it in words.options])):
        rows = re.findall(r"(?m)^\.TP\n\.B (.*)$", text.split(f".SH {section}\n")[1].split("\n.SH ")[0])
        named = [it for row in rows for it in (row.split()[:1] if section == "COMMANDS" else re.findall(r"--[\w-]+", row))]
        for it in sorted({*named} ^ {*wanted}):
            yield f"share/h264v.1, {section}: {it} is {'not known' if it in named else 'missing'}"


def main(asked):
    if asked not in ([], ["--check"]):
        print(__doc__, file=sys.stderr)
        return 64
    words, found = Words(), []
    for file, made in FILES.items():
        text = made(words)
        if not asked:
            file.write_text(text, encoding="utf-8")
        elif file.read_text(encoding="utf-8") != text:
            found.append(f"{file.relative_to(TOP)} is out of date: run tools/words.py")
    found += told_of_manual(words)
    print(*found, sep="\n", end="\n" if found else "")
    return 1 if found else 0


if __name__ == "__main__":
    sys.exit(main(sys.argv[1:]))
