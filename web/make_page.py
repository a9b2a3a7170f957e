#!/usr/bin/env python3
"""Writes the page: web/page.html with web/syntax.js, the module, the texts on rules and the code words in it.

    web/make_page.py TOP MODULE OUTPUT
"""
import base64
import json
import os
import re
import sys


def texts(source, kind, fields):
    """The values of these fields of each entry of a table of rules.rt, the label first."""
    source = re.sub(r"\\\n\s*", "", source)
    pattern = r"%s \{\s*\w+: \w+::(\w+),\s*" % kind + r",\s*".join(r'%s:\s*"((?:[^"\\]|\\.)*)"' % field for field in fields) + r",\s*\}"
    return [[text.replace('\\"', '"') for text in entry] for entry in re.findall(pattern, source)]


def rules(top):
    """What is said of each rule and each feature, by its label."""
    with open(os.path.join(top, "crates", "h264_pages", "src", "rules.rt")) as file:
        source = file.read()
    told = {label: [breaks, cause] for label, breaks, _, cause in texts(source, "RuleEntry", ["breaks", "bit", "cause"])}
    told.update({label: [stands, advice] for label, stands, _, advice in texts(source, "FeatureEntry", ["stands", "bit", "advice"])})
    return told


def numbers(source, name):
    """The numbers of a constant of h264_tables."""
    (found,) = re.findall(r"pub const %s: \[u\d+; \d+\] = \[([^\]]*)\];" % name, source)
    return [int(number) for number in re.findall(r"\d+", found)]


def tables(top):
    """The code words of slice data, as lengths and bits of each row, and the values of the rows."""

    def rows(source, names):
        return [[numbers(source, f"{name}_{part}") for part in ("LENGTHS", "BITS")] for name in names]

    def read(name):
        with open(os.path.join(top, "crates", "h264_tables", "src", f"{name}.rt")) as file:
            return file.read()

    token, zeros, run, pattern = map(read, ("coeff_token", "total_zeros", "run_before", "coded_block_pattern"))
    return {
        "tokens": numbers(token, "VALUES"),
        "token": rows(token, ["NC0", "NC2", "NC4", "NC8", "CHROMA_DC"]),
        "zeros": rows(zeros, [f"INDEX_{index}" for index in range(1, 16)]),
        "chromaZeros": rows(zeros, [f"CHROMA_DC_{index}" for index in range(1, 4)]),
        "run": rows(run, [f"LEFT_{left}" for left in range(1, 8)]),
        "intraPatterns": numbers(pattern, "INTRA_PATTERNS"),
        "interPatterns": numbers(pattern, "INTER_PATTERNS"),
    }


def main():
    if len(sys.argv) != 4:
        sys.exit(__doc__)
    top, module, output = sys.argv[1:]
    with open(os.path.join(top, "web", "page.html")) as file:
        page = file.read()
    with open(os.path.join(top, "web", "syntax.js")) as file:
        syntax = file.read()
    with open(module, "rb") as file:
        module = base64.b64encode(file.read()).decode("ascii")
    told = json.dumps(rules(top), sort_keys=True).replace("<", "\\u003c")
    with open(output, "w") as file:
        file.write(page.replace("@SYNTAX@", syntax).replace("@TABLES@", json.dumps(tables(top))).replace("@RULES@", told).replace("@MODULE@", module))


main()
