#!/usr/bin/env python3
"""Respells the repository's own definitions and lemmas, once: words in snake case, types and modules in camel case.

usage: python3 tools/respell.py        at the top of the repository, right after the kit's own scripts have run

A name is the repository's own if a file of specs/ or a lemma file of proofs/ declares it, with a hyphen in it. Each is
respelled wherever it stands: in .antt files, in the clauses of .rt files, in the edits of must-fail/, and where docs/ and
README.md set it as code. Comments, strings and the functions of src/ keep their words. Names that would fall together stop
the script before it writes anything.
"""
import glob
import re
import sys

NAME = r"[A-Za-z_][\w']*(?:-[\w']+)*"
DECLARED = re.compile(r"^\s*(?:(?:abbrev|unfoldable|opaque|pub|record|data)\s+)*(" + NAME + r")\s*:(?!:)")
ALIAS = re.compile(r"\bas (" + NAME + r")")
TOKEN = re.compile(r"(?<![\w'◌-])" + NAME + r"(?![\w'◌-])")
# What the kit's scripts made of an alias that the library also has.
MADE = {"in_Item": "in_item"}


def respelled(name):
    if name in MADE:
        return MADE[name]
    words = name.split("-")
    if name[0].isupper():
        return "".join(w[0].upper() + w[1:] for w in words)
    return "_".join(words)


def code_of(line, comment):
    at = line.find(comment)
    return (line, "") if at < 0 else (line[:at], line[at:])


def declared(files):
    names, all_names = set(MADE), set()
    for path in files:
        for line in open(path, encoding="utf-8"):
            code, _ = code_of(line, "--")
            m = DECLARED.match(code)
            found = {m.group(1)} if m else set()
            found |= set(ALIAS.findall(code)) if code.startswith("use ") else set()
            all_names |= found
            names |= {n for n in found if "-" in n}
    return names, all_names


def turn(text, names):
    return TOKEN.sub(lambda m: respelled(m.group(0)) if m.group(0) in names else m.group(0), text)


def turn_file(path, names):
    with open(path, encoding="utf-8", newline="") as f:
        old = f.read()
    if path.endswith(".md"):
        new = re.sub(r"`[^`\n]*`", lambda m: turn(m.group(0), names), old)
    elif path.endswith(".edit"):
        new = turn(old, names)
    else:
        comment = "--" if path.endswith(".antt") else "//"
        lines = []
        for line in old.splitlines(keepends=True):
            code, rest = code_of(line, comment)
            parts = re.split(r'("(?:[^"\\]|\\.)*")', code) if comment == "//" else [code]
            lines.append("".join(p if p.startswith('"') else turn(p, names) for p in parts) + rest)
        new = "".join(lines)
    if new != old:
        with open(path, "w", encoding="utf-8", newline="") as f:
            f.write(new)
    return new != old


def main():
    antt = [p for p in sorted(glob.glob("crates/**/*.antt", recursive=True)) if "/out/" not in p]
    sources = [p for p in antt if "/specs/" in p or re.match(r"crates/\w+/proofs/\w+\.antt$", p)]
    names, all_names = declared(sources)
    by_new = {}
    for name in all_names:
        by_new.setdefault(respelled(name), set()).add(name)
    together = sorted(sorted(v) for v in by_new.values() if len(v) > 1)
    if together:
        sys.exit(f"names that fall together: {together}")
    others = glob.glob("crates/*/src/**/*.rt", recursive=True) + glob.glob("crates/*/must-fail/*.edit")
    pages = glob.glob("docs/*.md") + ["README.md"]
    changed = sum(turn_file(p, names) for p in antt + sorted(others) + sorted(pages))
    print(f"{len(names)} names respelled in {changed} files")


main()
