#!/usr/bin/env python3
"""Makes a plain Rust program of the sources, without contracts, ghosts and tactics. Nothing of it is proved.

    plain.py [--library] TOP OUT      writes the Cargo package OUT from the crates in TOP/crates that h264v needs, and from tools/plain

With --library it writes the library for C of the crates that h264_c needs, for tests of the interfaces.
Build it with RUSTC_BOOTSTRAP=1 cargo build --release, in OUT. quick.sh does both.
"""
import os
import re
import shutil
import sys

PROGRAM, LIBRARY = "h264v", "h264_c"
OPEN, CLOSE = "([{", ")]}"
OURS = os.path.join(os.path.dirname(os.path.abspath(__file__)), "plain")
# Modules of std that the kit has in another form, as tools/plain has them.
STD = "alloc|cell|collections|env|fs|io|marker|process|time"
# A library of the kit of which nothing is left.
LEFT_OUT = "thiserror"
# Functions whose sink is known to the decoder, so that nothing is spent on what it passes over. The others share one copy.
DIRECT = ("judge_unnoted", "judge_plainly", "check", "run_frames")
CARGO = """[package]
name = "h264v-quick"
version = "@VERSION@"
edition = "2024"
rust-version = "1.85"
@KIND@[profile.release]
opt-level = 3
lto = "fat"
codegen-units = 1
panic = "abort"
"""
# How Cargo is told of the library.
STATIC = """[lib]
name = "h264_c"
path = "src/library.rs"
crate-type = ["staticlib"]
"""


def after_token(text, i):
    """The place after the comment or literal that begins at i; i where none does."""
    if text.startswith("//", i):
        end = text.find("\n", i)
        return len(text) if end < 0 else end
    if text[i] == '"':
        j = i + 1
        while text[j] != '"':
            j += 2 if text[j] == "\\" else 1
        return j + 1
    literal = re.match(r"b?'(\\.[^']*|[^'\\])'", text[i:])
    return i + literal.end() if literal else i


def after_bracket(text, i):
    """The place after the bracket that closes the one at i."""
    depth = 0
    while True:
        j = after_token(text, i)
        if j > i:
            i = j
            continue
        depth += (text[i] in OPEN) - (text[i] in CLOSE)
        i += 1
        if depth == 0:
            return i


def is_word(text, i, word):
    """Whether this whole word stands at i."""
    return re.match(r"(?<!\w)%s(?!\w)" % word, text[i:]) is not None and (i == 0 or not re.match(r"\w", text[i - 1]))


def after_ghost(text, i):
    """The place after the ghost item or field at i."""
    while text[i] not in ";,}":
        i = after_bracket(text, i) if text[i] in OPEN else i + 1
    return i if text[i] == "}" else i + 1


def after_proof_text(text, i):
    """The place after what only the prover reads at i: a clause, a ghost, an attribute, a model; i where none stands."""
    if is_word(text, i, "requires") or is_word(text, i, "ensures"):
        return after_bracket(text, text.index("{", i))
    if re.match(r"pub ghost\b", text[i:]) and is_word(text, i, "pub"):
        return after_ghost(text, i)
    if is_word(text, i, "ghost"):
        return after_ghost(text, i)
    if re.match(r"#!?\[(tactic|error)\b", text[i:]):
        return after_bracket(text, text.index("[", i))
    if (i == 0 or text[i - 1] == "\n") and re.match(r"impl(<[^{]*>)? Model for ", text[i:]):
        return after_bracket(text, text.index("{", i))
    if re.match(r"prove!\(", text[i:]):
        end = after_bracket(text, i + len("prove!"))
        return end + (text[end] == ";")
    return i


def without_proof_text(text):
    kept, i = [], 0
    while i < len(text):
        end = after_token(text, i)
        if end > i:
            kept.append("" if text.startswith("//", i) else text[i:end])
        else:
            end = after_proof_text(text, i)
            if end == i:
                kept.append(text[i])
                end = i + 1
        i = end
    return "".join(kept)


def start_of_receiver(text, i):
    """Where the expression begins that ends before the method call at i."""
    while True:
        while text[i - 1].isspace():
            i -= 1
        if text[i - 1] in CLOSE:
            depth = 0
            while True:
                i -= 1
                depth += (text[i] in CLOSE) - (text[i] in OPEN)
                if depth == 0:
                    break
        while re.match(r"\w", text[i - 1]):
            i -= 1
        if text[i - 2:i] == "::":
            i -= 2
            continue
        dot = i
        while text[dot - 1].isspace():
            dot -= 1
        if text[dot - 1] != ".":
            return i
        i = dot - 1


def with_swizzles(text):
    """Methods that pick lanes become the macro of Rust's portable vectors."""
    call, at = re.compile(r"\s*\.(swizzle|shuffle)(::<[^>]*>)?\("), 0
    while True:
        found = call.search(text, at)
        if not found:
            return text
        end = after_bracket(text, found.end() - 1)
        start = start_of_receiver(text, found.start())
        new = "std::simd::simd_swizzle!(%s, %s)" % (text[start:found.start()], text[found.end():end - 1])
        text = text[:start] + new + text[end:]
        at = start + 1


def derives(match):
    names = [name.strip() for name in match.group(1).split(",")]
    kept = [name for name in names if name not in ("Drop", "Error", "")]
    return "#[derive(%s)]" % ", ".join(kept) if kept else ""


def with_shared_decoder(text):
    """Calls of `run` with a sink of any type, but in the functions `DIRECT`."""
    call = re.compile(r"(?<![\w.])run\(([\w.]+, (?:&mut )?[\w.]+), ((?:&mut )?\w+),")

    def shared(found):
        function = re.findall(r"fn (\w+)", text[:found.start()])[-1]
        return found.group() if function in DIRECT else "run(%s, &mut crate::rt::aside::Aside(%s)," % found.groups()

    return call.sub(shared, text)


def converted(crate, text, crates, libraries):
    """The plain text of a source file of this crate."""
    text = without_proof_text(text)
    for pattern, new in (
        (r"#\[derive\(([^)]*)\)\]", derives),
        (r"use (thiserror::Error|std::marker::Model);\n", ""),
        (r"use std::(%s)\b" % STD, r"use crate::rt::\1"),
        (r"use std::(?=\{(?:(?:%s)(?:, )?)+\};)" % STD, "use crate::rt::"),
        (r"(?<![\w:])(%s)::" % "|".join(libraries), r"crate::rt::\1::"),
        (r"<(\w+): Drop>", r"<\1>"),
        (r"\s*\+ Drop\b", ""),
        (r"vec!\[in \w+(?:\.\w+)*; ([^;\]]*); ([^\]]*)\]", r"crate::rt::alloc::filled(\1, \2)"),
        (r"(?<![\w:])crate::(?!rt\b)", f"crate::{crate}::"),
        (r"(?<![\w:])(%s)::" % "|".join(crates), r"crate::\1::"),
        (r"(?<![\w:])str::from_utf8", "std::str::from_utf8"),
        (r"(?m)^fn main\(", "pub fn main("),
        (r"fn fmt<W: fmt::Write>\(&self, f: &mut fmt::Formatter<W>\)", "fn fmt(&self, f: &mut fmt::Formatter)"),
        (r"\n\s*\n+", "\n\n"),
    ):
        text = re.sub(pattern, new, text)
    return "#[allow(unused_imports)]\nuse crate::rt::prelude::*;\n" + with_shared_decoder(with_swizzles(text)).lstrip()


def needed(top, root):
    """The crates that a crate needs, itself among them, and the libraries of the kit that they need, as crates.txt has them."""
    lines = [line.partition(":") for line in read(f"{top}/crates.txt").split("\n") if ":" in line and not line.startswith("#")]
    needs = {name.split()[0]: rest.split() for name, _, rest in lines}
    found, left = set(), [root]
    while left:
        name = left.pop()
        if name not in found:
            found.add(name)
            left += needs.get(name, [])
    return sorted(found & set(needs)), sorted(found - set(needs) - {LEFT_OUT})


def write(path, text):
    os.makedirs(os.path.dirname(path), exist_ok=True)
    with open(path, "w", encoding="utf-8") as file:
        file.write(text)


def read(path):
    with open(path, encoding="utf-8") as file:
        return file.read()


def convert(top, out, crate, crates, libraries):
    """Writes the plain modules of a crate."""
    sources = f"{top}/crates/{crate}/src"
    for folder, _, files in os.walk(sources):
        for file in files:
            if file.endswith(".rt"):
                module = os.path.relpath(os.path.join(folder, file), sources).removesuffix(".rt")
                module = "mod" if module in ("lib", "main") else module
                write(f"{out}/src/{crate}/{module}.rs", converted(crate, read(os.path.join(folder, file)), crates, libraries))


def main():
    words = sys.argv[1:]
    is_library = words[:1] == ["--library"]
    if len(words) != 2 + is_library:
        sys.exit(__doc__)
    top, out = words[is_library:]
    crates, libraries = needed(top, LIBRARY if is_library else PROGRAM)
    lacking = [name for name in libraries if not os.path.exists(f"{OURS}/{name}.rs") and not os.path.exists(f"{OURS}/{name}")]
    if lacking:
        sys.exit(f"plain.py: {OURS} has nothing for {', '.join(lacking)}")
    for crate in crates:
        convert(top, out, crate, crates, libraries)
    shutil.copytree(OURS, f"{out}/src/rt", ignore=shutil.ignore_patterns("main.rs", "library.rs"), dirs_exist_ok=True)
    modules = "".join(f"mod {crate};\n" for crate in crates)
    root, kind = ("library", STATIC) if is_library else ("main", "")
    write(f"{out}/src/{root}.rs", read(f"{OURS}/{root}.rs").replace("@MODULES@", f"#[macro_use]\nmod rt;\n{modules}"))
    write(f"{out}/Cargo.toml", CARGO.replace("@VERSION@", read(f"{top}/VERSION").split()[0]).replace("@KIND@", kind))


main()
