#!/usr/bin/env python3
"""Counts in crates/*/src the places that docs/DESIGN-PASS.md speaks of.

tools/places.py [FOLDER] [--list]   one line for each search: its letter, what it looks for, how many it finds
"""
import re
import sys
from pathlib import Path

folder = Path(next((a for a in sys.argv[1:] if not a.startswith("--")), "."))
show = "--list" in sys.argv
files = sorted(folder.glob("crates/*/src/**/*.rt"))
texts = {f: f.read_text() for f in files}


def code(text):
    """The text without comments and contracts, line for line."""
    out = []
    for line in text.split("\n"):
        line = re.sub(r"//.*", "", line)
        if re.match(r"\s*(ghost |ensures|requires)", line):
            line = ""
        out.append(line)
    return out


def lines(pattern, of=code):
    found = []
    for f, t in texts.items():
        for n, line in enumerate(of(t), 1):
            if re.search(pattern, line):
                found.append((f, n, line.strip()))
    return found


def raw(text):
    return text.split("\n")


def fields(pattern):
    """Lines inside the braces of a struct."""
    found = []
    for f, t in texts.items():
        inside = False
        for n, line in enumerate(code(t), 1):
            if re.match(r"\s*(pub(\(crate\))? )?struct .*\{", line):
                inside = True
            elif line.startswith("}"):
                inside = False
            elif inside and re.search(pattern, line):
                found.append((f, n, line.strip()))
    return found


def loops_that_search():
    """A `for` whose whole body is one `if` that returns."""
    found = []
    for f, t in texts.items():
        c = code(t)
        for n, line in enumerate(c):
            m = re.match(r"(\s*)for .* \{$", line)
            if not m:
                continue
            end = next(k for k in range(n + 1, len(c)) if c[k].startswith(m[1] + "}"))
            body = [x.strip() for x in c[n + 1:end] if x.strip()]
            ifs = [x for x in body if x.startswith("if ")]
            if ifs and any(x.startswith("return") for x in body) and not any("?" in x for x in body):
                found.append((f, n + 1, line.strip()))
    return found


def matches_that_compare():
    """A `match` whose arms all say true or false."""
    found = []
    for f, t in texts.items():
        c = code(t)
        for n, line in enumerate(c):
            m = re.match(r"(\s*)(.* )?match .* \{$", line)
            if not m:
                continue
            end = next(k for k in range(n + 1, len(c)) if c[k].startswith(m[1] + "}"))
            arms = " ".join(x.strip() for x in c[n + 1:end])
            if re.fullmatch(r"([^=]*=> (true|false),\s*)+", arms):
                found.append((f, n + 1, line.strip()))
    return found


def equal_contracts(pattern):
    return lines(pattern, raw)


def functions_with(*parts):
    found = []
    for f, t in texts.items():
        flat = "\n".join(code(t))
        for m in re.finditer(r"fn (\w+)(<[^(]*>)?\(([^)]*)\)", flat):
            if all(re.search(p, m[3]) for p in parts):
                found.append((f, flat[:m.start()].count("\n") + 1, "fn " + m[1]))
    return found


searches = [
    ("1a", "enums of the repository's own (to be read by eye for the shape of Option or Result)", lines(r"^\s*(pub(\(crate\))? )?enum ")),
    ("1b", "fields that are a flag (to be read by eye for a value beside)", fields(r"^\s*(pub )?\w+: bool,")),
    ("1c", "numbers for kinds, causes and refusals in code", lines(r"\.number\(\)|Kind::of\(|const (NAME|STEM|EXTENSION)\b|match (number|row\.kind) |cause != 0|fn (unit|reason)\(number")),
    ("1d", "None or an error passed on by hand", lines(r"=> None,|return None;|=> return Err|Err\(\w+\) => Err")),
    ("1e", "functions that answer a number or a flag which says nothing", lines(r"-> u8$|-> u8 ")),
    ("3a", "loops over a range, with enumerate, and while", lines(r"for \(?\w+(, \w+)?\)? in (\(?\d|.*\.enumerate)|for \w+ in \(?\w*\d*\.\.|\bwhile ")),
    ("3b", "loops that only search or test", loops_that_search()),
    ("4a", "matches whose arms all say true or false", matches_that_compare()),
    ("4b", "functions that compare or convert by hand", lines(r"fn (same|starts_with|is_same|of|number|cause|refused)\(")),
    ("4c", "printing by hand (a Display of a type of another crate)", lines(r"struct Explained|fn (unit|reason)\(")),
    ("5a", "the meaning of a sheet written out in a clause", equal_contracts(r"^\s*(ensures|requires).*model \(\w+\.Readable\.rows")),
    ("5b", "functions with texts and what is known of them as two parameters", functions_with(r"lent: Texts", r"(u|known): &Understood")),
    ("5c", "functions with `inside` and `behind`", functions_with(r"inside: bool", r"behind: bool")),
    ("5d", "clauses that a field is as before", equal_contracts(r"ensures \w+ \{ self\.new\.\w+ ≡ self\.old\.\w+ \}")),
    ("6a", "fields that are a length beside a buffer", fields(r"^\s*len: usize")),
    ("6b", "searches of a sorted list by hand", lines(r"high - low")),
    ("6c", "functions that answer whether there was room", lines(r"fn (push|add)\(.*-> bool")),
    ("7a", "traits of one method that stand for a function, and their impls", lines(r"trait (RowTest|AttrTest)|(RowTest|AttrTest) for ")),
    ("7b", "switches on which test to run", lines(r"enum Run\b|Run::\w+\.length|self\.has\(\*b\)")),
    ("8a", "files of answers", [(f, 1, "") for f in sorted(folder.glob("crates/*/proofs/**/Answers.antt"))]),
    ("8b", "answers in them", [(f, n, l) for f in sorted(folder.glob("crates/*/proofs/**/Answers.antt")) for n, l in enumerate(f.read_text().split("\n"), 1) if re.match(r"pub \S+ : goal\.", l)]),
]

for letter, what, found in searches:
    print(f"{letter}  {len(found):4}  {what}")
    if show:
        for f, n, text in found:
            print(f"          {f.relative_to(folder)}:{n}  {text}")
