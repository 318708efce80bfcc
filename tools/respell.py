#!/usr/bin/env python3
"""Gives the repository's own definitions and lemmas the spelling of today's Rattle: words in snake case, a dash where it joins two names.

usage: python3 tools/respell.py     at the top of the repository, once, after the kit's port.py

tools/respell.tsv lists each name and what it is now. Rows marked `port` are names that port.py itself respells: they are turned here only in what
port.py leaves alone, the must-fail edits and the pages. `field` marks a record's fields, which are turned behind a dot too. Behind the name that a `use .. as` gives a module all are turned.
"""

import glob
import re

TOKEN = re.compile(r"[^\s(){}.;,:@\"«»\[\]\\`*]+")


def table():
    own, port, fields = {}, {}, set()
    with open("tools/respell.tsv", encoding="utf-8") as f:
        for line in f:
            old, new, *mark = line.rstrip("\n").split("\t")
            (port if mark == ["port"] else own)[old] = new
            if mark == ["field"]:
                fields.add(old)
    return own, port, fields


def turned(text, names, fields, all_names):
    aliases = re.findall(r"^use \S+ as (\S+)$", text, re.M)

    def one(m):
        name = m.group(0)
        before = re.search(r"([^\s(){}.;,]+)\.$", text[max(0, m.start() - 40) : m.start()])
        if before and before.group(1) in aliases:
            return all_names.get(name, name)
        behind_dot = m.start() > 0 and text[m.start() - 1] == "."
        return name if name not in names or behind_dot and name not in fields else names[name]

    return TOKEN.sub(one, text)


def rewrite(path, names, fields, all_names, marked=False):
    with open(path, encoding="utf-8") as f:
        text = f.read()
    if marked:  # a page: only what stands between backticks
        new = re.sub(r"`[^`\n]*`", lambda m: turned(m.group(0), names, fields, all_names), text)
    else:
        new = turned(text, names, fields, all_names)
    if new != text:
        with open(path, "w", encoding="utf-8") as f:
            f.write(new)
        return 1
    return 0


def main():
    own, port, fields = table()
    both = {**own, **port}
    n = 0
    for path in sorted(glob.glob("crates/*/s*/**/*", recursive=True) + glob.glob("crates/*/proofs/**/*", recursive=True)):
        if path.endswith((".antt", ".rt")):
            n += rewrite(path, own, fields, both)
    for path in sorted(glob.glob("crates/*/must-fail/*.edit")):
        n += rewrite(path, both, fields, both)
    for path in sorted(glob.glob("docs/**/*.md", recursive=True) + ["README.md"]):
        n += rewrite(path, both, fields, both, marked=True)
    print(f"respell: {n} files")


if __name__ == "__main__":
    main()
