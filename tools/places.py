#!/usr/bin/env python3
"""Counts, over src/ and proofs/ of the crates, the places that docs/DESIGN-PASS.md speaks of.

    tools/places.py [COMMIT]     today's tree, or that of a commit; -v lists each place
"""
import collections
import pathlib
import re
import subprocess
import sys

ARGS = [a for a in sys.argv[1:] if a != "-v"]
LIST = "-v" in sys.argv
NAME = r"[a-z_][a-z0-9_]*"


def files():
    """Path and text of each source and proof file."""
    if ARGS:
        names = subprocess.run(
            ["git", "ls-tree", "-r", "--name-only", ARGS[0], "crates"], capture_output=True, text=True, check=True
        ).stdout.split("\n")
        names = [n for n in names if wanted(n)]
        for name in names:
            yield name, subprocess.run(["git", "show", f"{ARGS[0]}:{name}"], capture_output=True, text=True, check=True).stdout
    else:
        for path in sorted(pathlib.Path("crates").rglob("*")):
            if wanted(str(path)) and "out" not in path.parts:
                yield str(path), path.read_text()


def wanted(name):
    return ("/src/" in name and name.endswith(".rt")) or ("/proofs/" in name and name.endswith(".antt"))


def functions(text):
    """Name, parameters and body of each function."""
    for m in re.finditer(rf"^( *)(?:pub(?:\(crate\))? )?(?:extern \"C\" )?fn ({NAME})[^(]*\(", text, re.M):
        end = text.find(f"\n{m[1]}}}\n", m.end())
        part = text[m.end() : end]
        close = re.search(r"\)(?: ->|\n| \{)", part)
        body = re.search(rf"\n{m[1]}\{{\n|\{{\n", part)
        if close:
            yield m[2], part[: close.start()], part[body.end() if body else close.end() :]


def lines(text, pattern):
    return [m[0].strip() for m in re.finditer(pattern, text, re.M)]


def loops(text):
    """`while` loops that change by hand the variable of their test by a fixed step."""
    for m in re.finditer(r"^( *)while ([^\n]*) \{\n(.*?)\n\1\}", text, re.M | re.S):
        steps = re.findall(rf"^ *({NAME}) (?:\+=|-=) [0-9]+;", m[3], re.M)
        steps += [a for a, b in re.findall(rf"^ *({NAME}) = ({NAME}) \+ [0-9]+;", m[3], re.M) if a == b]
        if any(re.search(rf"\b{s}\b", m[2]) for s in steps):
            yield m[2]


def shape(body):
    """A body with its names and numbers taken out."""
    body = re.sub(r"//[^\n]*", "", body)
    seen = {}
    return re.sub(r"\b[A-Za-z_][A-Za-z0-9_]*\b|[0-9]+", lambda m: "0" if m[0].isdigit() else seen.setdefault(m[0], f"v{len(seen)}"), body).split()


found = collections.defaultdict(list)
groups = collections.defaultdict(set)
bodies = collections.defaultdict(list)
for name, text in files():
    crate = name.split("/")[1]
    if name.endswith(".rt"):
        for m in re.finditer(r"^(?:pub(?:\(crate\))? )?enum (\w+) \{(.*?)\n\}", text, re.M | re.S):
            variants = re.findall(r"^    (\w+)", m[2], re.M)
            if 2 <= len(variants) <= 3:
                found["1 own enums of two or three variants"].append(f"{crate} {m[1]}")
        for line in lines(text, r"^.*\b(?:refused|\w+::(?:Fault|Wrong|Refused))\([0-9]+.*$"):
            found["1 refusals by a number"].append(f"{crate}: {line}")
        for line in lines(text, r"^.*\bnumber: (?:u64|u32|[0-9]+),?$|^.*\b(?:number|fault) (?:==|!=) [0-9]+.*$"):
            found["1 numbers told or tested"].append(f"{crate}: {line}")
        for line in loops(text):
            found["3 loops that count by hand"].append(f"{crate}: while {line}")
        for fn, params, body in functions(text):
            names = re.findall(rf"\b({NAME}):", params)
            if len(names) > 7:
                found["5 functions of more than seven parameters"].append(f"{crate} {fn}")
            for i in range(len(names)):
                for j in range(i + 1, len(names)):
                    for k in range(j + 1, len(names)):
                        groups[tuple(sorted((names[i], names[j], names[k])))].add(f"{crate} {fn}")
            if {"start", "part", "owner"} <= set(names):
                found["6 parallel tables as parameters"].append(f"{crate} {fn}")
            key = " ".join(shape(body))
            if len(key) > 60:
                bodies[key].append(f"{crate} {fn}")
            if re.search(r"\b\w+: bool\b", params):
                found["7 flags as parameters"].append(f"{crate} {fn}")
    else:
        answers = re.findall(r"^(\w\S*) (?:g )?c =", text, re.M)
        found["8 answers"] += [f"{crate} {a}" for a in answers]
        lets = collections.Counter(re.findall(r"^ +(let \w+ :.*)$", text, re.M))
        found["8 repeated lets"] += [f"{name}: {k}" for k, n in lets.items() for _ in range(n - 1)]
for key, fns in bodies.items():
    if len(fns) > 1:
        found["2 functions of the same shape as another"] += fns
taken = set()
for names, fns in sorted(groups.items(), key=lambda g: -len(g[1])):
    if len(fns) >= 3 and not (set(names) & taken):
        found["5 three parameters that travel together in three functions or more"].append(f"{', '.join(names)}: {len(fns)}")
        taken |= set(names)
for key in sorted(found):
    print(f"{len(found[key]):5}  {key}")
    if LIST:
        for place in found[key]:
            print(f"           {place}")
