#!/usr/bin/env python3
"""Respells this repository's own definitions and lemmas for today's Rattle: words in snake case, after tools/respell.map.

usage: tools/respell.py [FOLDER]     run once, after the kit's port.py, at the top of a checkout (or on FOLDER)

The map has a line 'OLD NEW' for each name. A name of the map is turned wherever it stands whole in an .antt file, in the clauses,
ghost fields and imports of an .rt file and in an edit of must-fail/. A name with a dash is left alone behind a dot, where it is one
that Rattle made, but for the fields of this repository's own records. A few lemmas had the name that a definition gets: they are turned first, each in its own file.
"""
import pathlib
import re
import sys

HERE = pathlib.Path(__file__).resolve().parent
TOP = pathlib.Path(sys.argv[1]) if len(sys.argv) > 1 else HERE.parent
# (files, old, new): names that would fall together with a definition's
FIRST = [
    ("crates/rules/proofs", "entered_by", "entered_by_lem"),
    ("crates/course/proofs", "none_of", "none_of_lem"),
    ("crates/course/proofs", "row_put", "row_put_lem"),
    ("crates/order/proofs", "out_of_order", "out_of_order_lem"),
    ("crates/order/proofs", "too_many", "too_many_lem"),
    ("crates/outline/proofs", "same_answer", "same_answer_lem"),
    ("crates/outline/proofs", "same_row", "same_row_lem"),
    ("crates/outline/proofs", "is_open", "opens_here"),
    ("crates/rules/proofs", "IsTrue", "TokenTrue"),
    ("crates/calls/proofs", "IsTrue", "TokenTrue"),
]
FIELDS = {"is-spoilt", "kept-rows", "of-list", "of-texts"}


def whole(word):
    return re.compile(r"(?<![\w'′·-])" + re.escape(word) + r"(?![\w'′·-])")


def main():
    names = dict(line.split() for line in (HERE / "respell.map").read_text(encoding="utf-8").splitlines() if line)
    token = re.compile(r"(\.?)(?<![\w'′·-])([A-Za-z][\w'′·-]*)")

    def turned(m):
        dot, name = m.groups()
        if name not in names or (dot and "-" in name and name not in FIELDS):
            return m.group(0)
        return dot + names[name]

    for path in sorted((TOP / "crates").rglob("*")):
        if path.suffix not in (".antt", ".rt", ".edit") or "out" in path.parts:
            continue
        text = path.read_text(encoding="utf-8")
        new = text
        if path.suffix == ".antt":
            for folder, old, to in FIRST:
                if str(path.relative_to(TOP)).startswith(folder + "/"):
                    new = whole(old).sub(to, new)
        new = token.sub(turned, new)
        if new != text:
            path.write_text(new, encoding="utf-8")


if __name__ == "__main__":
    main()
