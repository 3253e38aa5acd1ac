#!/usr/bin/env python3
"""Spells the names in the documents' `..` spans as the sources are spelled today, by tools/port/respelled.tsv: tools/port/docs.py, at the top.

A word that stands in today's code or definitions is left; code blocks are passed over. Prints how many words it changed, by document.
"""

import re
import subprocess


def files(*patterns):
    return subprocess.run(["git", "ls-files", *patterns], capture_output=True, text=True, check=True).stdout.split("\n")[:-1]


def text_of(path):
    with open(path, encoding="utf-8", errors="replace") as it:
        return it.read()


WORD = re.compile(r"[A-Za-z_][A-Za-z0-9_'′-]*")
with open("tools/port/respelled.tsv", encoding="utf-8") as it:
    table = dict(line.rstrip("\n").split("\t") for line in it)
proved = {word for path in files("*.antt", "*.rt") for word in WORD.findall(text_of(path))}
sources = files("*.antt", "*.rt", "*.rs", "*.c", "*.h", "tools", "Makefile", "crates.txt", ":!tools/port")
today = {word for path in sources for word in WORD.findall(text_of(path))} | {part.rsplit(".", 1)[0] for path in files() for part in path.split("/")}

for document in files("*.md"):
    changed, code, lines = 0, False, []

    def word(found):
        global changed
        # (a name that became two in two crates is in no line of the table)
        plain = re.sub(r"(?<=[a-z0-9])([A-Z])", lambda it: "_" + it[1].lower(), found[0]).replace("-", "_")
        new = table.get(found[0]) or (plain if plain in today else None)
        if new is None or new == found[0] or found[0] in proved or (found[0] in today and found[0] not in table):
            return found[0]
        changed += 1
        return new

    for line in text_of(document).split("\n"):
        if re.match(r" *```", line):
            code = not code
        elif not code:
            line = re.sub(r"`[^`]+`", lambda span: WORD.sub(word, span[0]), line)
        lines.append(line)
    if changed:
        with open(document, "w", encoding="utf-8") as it:
            it.write("\n".join(lines))
        print(document, changed)
