#!/usr/bin/env python3
"""The version and its date, which `VERSION` has, in each file that names them.

    tools/version.py            writes them
    tools/version.py --check    names each place that has another one; status 1 where there is one

docs, tests and the changelog's text are written by hand: of CHANGELOG.md the heading of the first section is compared, and never written.
install.sh takes the version of pkg-config and of the soname from `VERSION` itself, tools/plain.py that of the plain build.
"""
import pathlib
import re
import sys

TOP = pathlib.Path(__file__).resolve().parent.parent
VERSION, DATE = (TOP / "VERSION").read_text(encoding="utf-8").split()
PARTS = VERSION.split(".")
SONAME = f"libh264v.so.{PARTS[0]}"
#: The file, the pattern with what is to stand between its two groups, and that.
PLACES = [
    ("crates/h264_words/src/command_line.rt", r'(\.version\(")([^"]*)("\))', VERSION),
    ("crates/h264v_tests/src/more_tests.rt", r'(err: "h264v )(\d[^"\\]*)(\\n")', VERSION),
    ("include/h264v.h", r'(#define H264V_VERSION_TEXT ")([^"]*)(")', VERSION),
    *(("include/h264v.h", r"(#define H264V_VERSION_%s )(\d+)(\n)" % name, part) for name, part in zip(("MAJOR", "MINOR", "PATCH"), PARTS)),
    *(("crates/h264_c/src/version.rt", r"(const %s: u32 = )(\d+)(;)" % name, part) for name, part in zip(("MAJOR", "MINOR", "PATCH"), PARTS)),
    *((f"crates/h264_c/src/{name}.rt", r"(result ≡ version_number )(\d+ \d+ \d+)( \})", " ".join(PARTS)) for name in ("lib", "version")),
    ("python/h264v/__init__.py", r'(\n__version__ = ")([^"]*)(")', VERSION),
    ("python/h264v/__init__.py", r'(")(libh264v\.so\.\d+)(")', SONAME),
    ("python/h264v/__init__.py", r'(lib/)(libh264v\.so\.\d+)(")', SONAME),
    ("python/test.sh", r'(lib/)(libh264v\.so\.\d+)(\})', SONAME),
    ("docs/LIBRARY.md", r"(\| `lib/)(libh264v\.so\.\d+)(`)", SONAME),
    ("share/h264v.1", r'(\.TH H264V 1 "[^"]*" "h264v )([^"]*)(")', VERSION),
    ("share/h264v.1", r'(\.TH H264V 1 ")([^"]*)(" "h264v )', DATE),
]
CHANGES = f"## {VERSION}, {DATE}"


def differing():
    """Each place that has another version, a line for each."""
    for name, pattern, wanted in PLACES:
        found = [it[1] for it in re.findall(pattern, (TOP / name).read_text(encoding="utf-8"))]
        if found != [wanted] * max(1, len(found)):
            yield f"{name}: {', '.join(found) or 'no version'}, wanted {wanted}"
    first = re.search(r"^## .*$", (TOP / "CHANGELOG.md").read_text(encoding="utf-8"), re.M)
    if not first or first[0] != CHANGES:
        yield f"CHANGELOG.md: the first section is not '{CHANGES}'"


def write():
    for name, pattern, wanted in PLACES:
        file = TOP / name
        text = file.read_text(encoding="utf-8")
        file.write_text(re.sub(pattern, lambda it: it[1] + wanted + it[3], text), encoding="utf-8")


def main(words):
    if words not in ([], ["--check"]):
        print(__doc__, file=sys.stderr)
        return 64
    if not words:
        write()
    found = list(differing())
    print(*found, sep="\n", end="\n" if found else "")
    return 1 if found else 0


if __name__ == "__main__":
    sys.exit(main(sys.argv[1:]))
