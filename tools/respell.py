#!/usr/bin/env python3
"""Spells the repository's own definitions and lemmas in snake case, by the table spelling.tsv beside this file.

usage: tools/respell.py            at the top of the repository, once, right after port.py

A row of the table is an old name, a tab and the new one. Whole words turn: in each .antt file below crates/, in the clauses, ghost items
and comments of each .rt file there. Names of functions, types and modules of src/ stay. A row with a third column turns only in files
whose path begins with it.
"""
import pathlib
import re

HERE = pathlib.Path(__file__).resolve().parent
ROOT = HERE.parent
WORD = re.compile(r"[^\s(){}\[\].;,@\"«»`]+")
CLAUSE = re.compile(r"ghost\s+use\b[^;]*;|\b(?:requires|ensures)\b[^{]*\{", re.S)


def rows():
    table = []
    for line in (HERE / "spelling.tsv").read_text(encoding="utf-8").splitlines():
        old, new, *where = line.split("\t")
        table.append((old, new, where[0] if where else ""))
    return table


def turner(table, path):
    names = {old: new for old, new, where in table if path.startswith(where)}
    return lambda text: WORD.sub(lambda m: names.get(m[0], m[0]), text)


def clause_end(text, at):
    """The place after the brace that closes the one before at."""
    depth = 1
    while depth:
        depth += {"{": 1, "}": -1}.get(text[at], 0)
        at += 1
    return at


def rt(text, turn):
    """Turns clauses, ghost items and comments."""
    out, at = [], 0
    pattern = re.compile(r"//[^\n]*|" + CLAUSE.pattern, re.S)
    while m := pattern.search(text, at):
        end = m.end()
        if m[0].startswith(("requires", "ensures")):
            end = clause_end(text, end)
        piece = text[m.start() : end]
        # in a comment only a definition's own spelling turns, never a plain word
        out += [text[at : m.start()], piece if piece.startswith("//") and "`" not in piece else turn(piece)]
        at = end
    return "".join(out) + text[at:]


def main():
    table = rows()
    for path in sorted((ROOT / "crates").rglob("*")):
        if path.suffix not in (".antt", ".rt") or "out" in path.relative_to(ROOT).parts:
            continue
        turn = turner(table, str(path.relative_to(ROOT)))
        old = path.read_text(encoding="utf-8")
        new = turn(old) if path.suffix == ".antt" else rt(old, turn)
        if new != old:
            path.write_text(new, encoding="utf-8")


if __name__ == "__main__":
    main()
