#!/usr/bin/env python3
"""Writes the entries of docs/RULES.md from the tables of h264_pages and h264_strict, which the program prints too (`h264v explain LABEL`).

    tools/rules.py            writes them
    tools/rules.py --check    says whether they are up to date, and whether docs/EXAMPLES.md has the example of each further rule; status 1 where not
"""
import os
import re
import sys

TOP = os.path.dirname(os.path.dirname(os.path.abspath(__file__)))
SOURCE = f"{TOP}/crates/h264_pages/src/rules.rt"
CLAUSES = f"{TOP}/crates/h264_base/specs/Rule.antt"
FURTHER_SOURCE = f"{TOP}/crates/h264_strict/src/strict_entries.rt"
FURTHER_CLAUSES = f"{TOP}/crates/h264_strict/specs/StrictRules.antt"
PAGE = f"{TOP}/docs/RULES.md"
EXAMPLES = f"{TOP}/docs/EXAMPLES.md"
BEGIN, END = "<!-- entries, by tools/rules.py -->\n", "<!-- end of entries -->\n"
FURTHER_BEGIN, FURTHER_END = "<!-- further entries, by tools/rules.py -->\n", "<!-- end of further entries -->\n"


def texts(source, kind, fields):
    """The values of these fields of each entry of a table, the label first."""
    source = re.sub(r"\\\n\s*", "", source)
    pattern = r"%s \{\s*\w+: \w+::(\w+),\s*" % kind + r",\s*".join(r'%s:\s*"((?:[^"\\]|\\.)*)"' % f for f in fields) + r",\s*\}"
    return re.findall(pattern, source)


def clauses(path, prefix):
    """The clause of each rule, as the definitions have it."""
    return dict(re.findall(r'clause_of %s(\w+) = codes "([^"]+)"' % prefix, open(path).read()))


def entries():
    source = open(SOURCE).read()
    clause_of = clauses(CLAUSES, "")
    lines = []
    for label, breaks, bit, cause in texts(source, "RuleEntry", ("breaks", "bit", "cause")):
        lines += [f"### {label}", "", f"Clause {clause_of[label]}. {breaks}", "", f"- Bit: {bit}", f"- Usual cause: {cause}", ""]
    lines += ["## Features that are not judged", ""]
    for name, stands, bit, advice in texts(source, "FeatureEntry", ("stands", "bit", "advice")):
        lines += [f"### {name}", "", stands, "", f"- Bit: {bit}", f"- What to do: {advice}", ""]
    return "\n".join(lines)


def further_rules():
    """The label, breaks, bit, cause and example of each further rule."""
    return texts(open(FURTHER_SOURCE).read(), "StrictEntry", ("breaks", "bit", "cause", "example"))


def further_entries():
    clause_of = clauses(FURTHER_CLAUSES, r"rules\.")
    lines = []
    for label, breaks, bit, cause, example in further_rules():
        lines += [f"### {label}", "", f"Clause {clause_of[label]}. {breaks}", "", f"- Bit: {bit}", f"- Usual cause: {cause}", f"- Example: {example}.", ""]
    return "\n".join(lines)


def with_entries(page, begin, end, new):
    """The page with these entries between two marks."""
    head, rest = page.split(begin)
    return head + begin + "\n" + new + "\n" + end + rest.split(end)[1]


def without_example():
    """The labels of the further rules whose example docs/EXAMPLES.md has not."""
    page = open(EXAMPLES).read()
    found = set(re.findall(r"\n\| (\w+) \| ([^|]*) \| check(?: --target main-ip)? --strict: ", page))
    return [rule[0] for rule in further_rules() if (rule[0], rule[4]) not in found]


def main():
    page = open(PAGE).read()
    new = with_entries(page, BEGIN, END, entries())
    new = with_entries(new, FURTHER_BEGIN, FURTHER_END, further_entries())
    if "--check" not in sys.argv:
        open(PAGE, "w").write(new)
        return
    if new != page:
        sys.exit("docs/RULES.md is out of date: run tools/rules.py")
    if without_example():
        sys.exit("docs/EXAMPLES.md has no example of " + ", ".join(without_example()))


main()
