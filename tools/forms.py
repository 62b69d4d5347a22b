#!/usr/bin/env python3
"""Counts the older forms in crates/*/src by the points of docs/DESIGN-PASS.md: tools/forms.py [--list] [FOLDER]."""
import glob
import os
import re
import sys

NONE = re.compile(
    r"//.*(, or (n|V|m|0|64|128|256|NO_ROOM|`\w+`)\b|where there is none|where none do|their number where|or the end\.|or the number of)"
)
BY_HAND = re.compile(
    r"fn (equals|greater|least|same|copy|digit|number|flag_number|four_numbers|\w+_numbers|state_of|put_state|append_value|glyph)\b"
)


def loops(lines):
    for i, line in enumerate(lines):
        m = re.match(r"(\s*)while (.*) \{$", line)
        if not m:
            continue
        j = i + 1
        while not lines[j].startswith(m.group(1) + "}"):
            j += 1
        body = "\n".join(lines[i + 1 : j])
        if "without_lowest" in body and ".lowest()" in body:
            kind = "members of a set"
        elif "!= 0" in m.group(2):
            kind = "bits of a word"
        elif re.search(r"^\s*\w+ (?:\+=|-=) \d+;", body, re.M):
            kind = "an index"
        else:
            kind = "other"
        yield i + 1, kind, line.strip()


def functions(text):
    for m in re.finditer(r"fn (\w+)(?:<[^>]*>)?\(([^)]*)\)", text):
        yield text.count("\n", 0, m.start()) + 1, m.group(1), [p.strip() for p in m.group(2).split(",") if p.strip()]


def count(root):
    found = {}

    def add(what, place):
        found.setdefault(what, []).append(place)

    for path in sorted(glob.glob(os.path.join(root, "crates/*/src/**/*.rt"), recursive=True)):
        text = open(path).read()
        lines = text.split("\n")
        name = os.path.relpath(path, root)
        for i, line in enumerate(lines, 1):
            at = f"{name}:{i} {line.strip()}"
            if re.match(r"(pub )?enum ", line):
                add("1 enums", at)
            if re.match(r"(pub(\(crate\))? )?const [A-Z_]+: (usize|i32)", line):
                add("1 constants that are numbers", at)
            if re.match(r"\s+(pub )?\w+: bool,$", line):
                add("1 flags in a struct or a parameter on its own line", at)
            if NONE.search(line):
                add("1 a number for none, by the comment", at)
            if BY_HAND.search(line):
                add("4 equality, order, copies and conversions by hand", at)
            if "begins: &[usize; 129]" in line:
                add("5 `begins` beside a body", at)
        for i, kind, line in loops(lines):
            add(f"3 while: {kind}", f"{name}:{i} {line}")
        for i, function, ps in functions(text):
            if len(ps) >= 7:
                add("5 functions of seven parameters and more", f"{name}:{i} {function} {len(ps)}")
            kept = [p for p in ps if re.match(r"(n|m|rows|vertices): usize$", p)]
            if kept and any("&[" in p or "&mut [" in p or "&'a [" in p for p in ps):
                add("6 a length or a number of rows beside a slice or an array", f"{name}:{i} {function}")
            if any(re.search(r"&(mut )?\[u64(; (4|8|32|256|512))?\]", p) for p in ps):
                add("6 tables of two words a set", f"{name}:{i} {function}")
        for i, line in enumerate(lines, 1):
            if re.match(r"\s+if word (==|<|<=|>=) ", line) or re.match(r"\s+if \(word == ", line):
                add("7 a step chosen by a number", f"{name}:{i} {line.strip()}")
    return found


def main():
    args = [a for a in sys.argv[1:] if a != "--list"]
    root = args[0] if args else os.path.join(os.path.dirname(os.path.abspath(__file__)), "..")
    found = count(root)
    for what in sorted(found):
        print(f"{len(found[what]):4} {what}")
        if "--list" in sys.argv:
            for place in found[what]:
                print(f"       {place}")


main()
