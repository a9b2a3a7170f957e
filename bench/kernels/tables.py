#!/usr/bin/env python3
"""tables.py CRATE: writes the tables of code words of h264_tables in plain Rust: their columns, their entries and the functions that look them up."""
import re, sys

print("macro_rules! entry {")
print(re.search(r"macro_rules! entry \{\n(.*?\n\})\n", open(sys.argv[1] + "/src/lib.rt").read(), re.S).group(1))
for name in ["coeff_token", "total_zeros", "run_before"]:
    text = open(f"{sys.argv[1]}/src/{name}.rt").read()
    print(f"pub mod {name} {{")
    for column in re.findall(r"(?:pub )?const (\w+: \[u\d+; \d+\] = \[.*?\];)", text, re.S):
        print("pub static " + column)
    for function in re.findall(r"pub fn (\w+_entry)\(.*?(entry!\(.*?\))\n\}", text, re.S):
        print(f"#[inline]\npub fn {function[0]}(bits: u16) -> (u8, u8) {{ {function[1]} }}")
    print("}")
