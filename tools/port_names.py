#!/usr/bin/env python3
"""Brings the names of definitions, lemmas and their variables to today's spelling: words in snake case, joined by dashes.

usage: python3 tools/port_names.py      at the top of the repository, once, after port.py

It reads every word of crates/ in .antt, .rt and .edit files whose parts are in lower camel case, as `stateNumber`, and writes
`state_number` for it there and in README.md and docs/. Types and modules keep their capitals. Two lemmas would fall together with a
definition of the same words, and get `_lem`.
"""

import os
import re

WORD = re.compile(r"(?<![0-9])[A-Za-z_][A-Za-z0-9_']*(?:-[A-Za-z0-9_'ℕ]+)*")
CAMEL = re.compile(r"[a-z][A-Za-z0-9_']*\Z")
TOGETHER = {"bytes_ok": "bytes_ok_lem", "found_rows": "found_rows_lem"}


def part(p):
    if not CAMEL.match(p) or not re.search(r"[a-z0-9'][A-Z]", p):
        return p
    p = re.sub(r"([a-z0-9'])([A-Z])", r"\1_\2", p)
    return re.sub(r"([A-Z])([A-Z][a-z])", r"\1_\2", p).lower()


def snake(word):
    return "-".join(part(p) for p in word.split("-"))


def crate_files():
    for folder, dirs, files in os.walk("crates"):
        dirs[:] = sorted(d for d in dirs if d != "out")
        for f in sorted(files):
            if f.endswith((".antt", ".rt", ".edit")):
                yield os.path.join(folder, f)


def pages():
    yield "README.md"
    for f in sorted(os.listdir("docs")):
        if f.endswith(".md"):
            yield os.path.join("docs", f)


def read(path):
    with open(path, encoding="utf-8") as f:
        return f.read()


def main():
    words = set()
    for path in crate_files():
        words |= set(WORD.findall(read(path)))
    names = {w: snake(w) for w in words if snake(w) != w}
    if not names:
        return
    names |= {old: new for old, new in TOGETHER.items()}
    for path in [*crate_files(), *pages()]:
        before = read(path)
        after = WORD.sub(lambda m: names.get(m.group(0), m.group(0)), before)
        if after != before:
            with open(path, "w", encoding="utf-8") as f:
                f.write(after)


main()
