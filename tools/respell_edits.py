#!/usr/bin/env python3
"""Brings the old: and new: texts of crates/*/must-fail/*.edit to today's spelling, and prints what is left to mend by hand.

usage: tools/respell_edits.py            at the top of the repository, after tools/respell.py

A pair is turned where its old: text so stands exactly once in its file (the pairs before it applied): whole words by the table
spelling.tsv, camel case to snake case where that word stands in the file, `(x .field)` and `x .field` to `x.field`,
`(f x .field)` to `(f x).field`, `getD` to `get_or`, `′` to `'`. One that stands neither so nor as it was is printed,
with the file's lines that are most like it, and left as it was.
"""
import difflib
import pathlib
import re

import respell

PLAIN = [("′", "'"), (r"\bgetD\b", "get_or"), (r"\bPrim\.Native\.Nat\.", "")]
PLAIN += [(r"\((\w+) \.(\w+)\)", r"\1.\2"), (r"\((\w[^()]*) \.(\w+)\)", r"(\1).\2"), (r"\b(\w+) \.(\w)", r"\1.\2")]


def turned(text, turn, words):
    for old, new in PLAIN:
        text = re.sub(old, new, text)

    def snake(m):
        it = re.sub(r"([A-Z])", lambda c: "_" + c[0].lower(), m[0])
        return it if it in words else m[0]

    return re.sub(r"\b[a-z]\w*[A-Z]\w*", snake, turn(text))


def bring(edit, table):
    crate = edit.parent.parent
    text, turn, lines, old, at = "", None, edit.read_text(encoding="utf-8").split("\n"), None, 0
    for number, line in enumerate(lines):
        if line.startswith("file: "):
            file = crate / line[len("file: ") :].strip()
            if not file.is_file():
                return print(f"{edit}: there is no file {file}")
            text, turn = file.read_text(encoding="utf-8"), respell.turner(table, str(file))
        elif line.startswith("old: "):
            old, at = line[len("old: ") :], number
        elif line.startswith("new:"):
            new = line[len("new: ") :]
            words = set(re.findall(r"\w+", text))
            today = turned(old, turn, words)
            if text.count(today) == 1 and (old, new) != (today, turned(new, turn, words)):
                old, new = today, turned(new, turn, words)
                lines[at], lines[number] = f"old: {old}", f"new: {new}"
            if text.count(old) != 1:
                print(f"{edit}: stands {text.count(old)} times:\n    old: {old}\n    new: {new}")
                for like in difflib.get_close_matches(today, text.split("\n"), 3, 0.5):
                    print(f"    now: {like}")
            text = text.replace(old, new)
    edit.write_text("\n".join(lines), encoding="utf-8")


def main():
    for edit in sorted(respell.ROOT.glob("crates/*/must-fail/*.edit")):
        bring(edit.relative_to(respell.ROOT), respell.rows())


if __name__ == "__main__":
    main()
