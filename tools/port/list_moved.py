#!/usr/bin/env python3
"""Prints, for docs/PORT.md, each theorem that stood in specs/ after the scripts and stands in proofs/ today, whole.

usage: tools/port/list_moved.py OLD      OLD: a folder with the repository as port.py and respell.py left it
"""

import os
import re
import sys

sys.path.insert(0, os.path.dirname(os.path.abspath(__file__)))
import theorems as T


def statements(path):
    with open(path, encoding="utf-8") as f:
        lines = f.read().split("\n")

    def walk(ds, section):
        for d in ds:
            if d.kind == "section":
                yield from walk(d.subs, section + [" ".join(T.code(l).strip() for l in d.sig)])
            elif d.kind != "use":
                sig = d.sig if d.kind not in ("data", "record") else d.sig + d.body
                yield d.name, section, "\n".join(T.code(l).rstrip() for l in sig if T.code(l).strip())

    return {(n, tuple(re.sub(r"\s+", " ", s) for s in sec)): text for n, sec, text in walk(T.parse(lines, 0, len(lines), 0), [])}


def plain(text):
    return re.sub(r"\s+", " ", re.sub(r"\b(pub|unfoldable) ", "", text)).strip()


def main(old):
    bad, n = [], 0
    for crate in sorted(os.listdir("crates")):
        now = os.path.join("crates", crate, "proofs")
        if not os.path.isdir(now):
            continue
        for f in sorted(os.listdir(now)):
            was = os.path.join(old, "crates", crate, "specs", {"LayoutLaws.antt": "Layout.antt", "KindsLaws.antt": "Kinds.antt"}.get(f, f))
            if not f.endswith(".antt") or f == "Lib.antt" or not os.path.exists(was):
                continue
            before, after = statements(was), statements(os.path.join(now, f))
            print(f"\n### `crates/{crate}/specs/{os.path.basename(was)}` to `crates/{crate}/proofs/{f}`\n\n```text")
            section = ()
            for (name, sec), text in after.items():
                if (name, sec) not in before or plain(before[(name, sec)]) != plain(text):
                    bad.append(f"{crate} {f} {name}")
                if sec != section:
                    if sec:
                        print("\n".join(sec))
                    section = sec
                print(text)
                n += 1
            print("```")
    for b in bad:
        print("differs: " + b, file=sys.stderr)
    print(f"{n} declarations", file=sys.stderr)


main(sys.argv[1])
