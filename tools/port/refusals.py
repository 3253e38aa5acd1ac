#!/usr/bin/env python3
"""Prints, for docs/PORT.md, each edit whose text is not the one of OLD, with the goal or the law that refuses it today.

usage: tools/port/refusals.py OLD LOG ..      OLD: a folder with the repository in its older form; LOG: what tools/test and rt ci said
"""

import glob
import os
import re
import sys

old, logs = sys.argv[1], sys.argv[2:]
said = {}
for log in logs:
    with open(log, encoding="utf-8", errors="replace") as f:
        for line in f:
            m = re.match(r"rt: must-fail (\w+)/(\w+)\.edit: refused, as it must be[^:]*: (?:note: )?(?:\./)?([^:]+):\d+:\d+:(?: error: `([^`]*)`)?", line)
            if m:
                said[f"crates/{m[1]}/must-fail/{m[2]}.edit"] = f"`{m[4]}`, {m[3]}" if m[4] else m[3]
            m = re.match(r"(\w+)/(\w+): refused, first at (\S+?)(?::\d+:\d+)? \(([^)]*)\)", line)
            if m:
                said[f"crates/{m[1]}/wrong-answers/{m[2]}.edit"] = f"`{m[4]}`, {m[3]}"
            m = re.match(r"(\w+)/(\w+): harmless, proved", line)
            if m:
                said[f"crates/{m[1]}/harmless/{m[2]}.edit"] = "harmless: proved, as it must be"
            m = re.match(r"(?:\w+: )?(\w+): refused, first at (\S+?)(?::\d+:\d+)? \(([^)]*)\)", line)
            if m:
                for p in glob.glob(f"tools/teeth*.d/{m[1]}.edit"):
                    said[p] = f"`{m[3]}`, {m[2]}"
rows, without = [], []
for p in sorted(glob.glob("crates/*/*/*.edit") + glob.glob("tools/teeth*.d/*.edit")):
    was = os.path.join(old, p)
    with open(p, encoding="utf-8") as f:
        now = f.read()
    if os.path.exists(was):
        with open(was, encoding="utf-8") as f:
            if f.read() == now:
                continue
    name = p[:-5].replace("crates/", "", 1) if p.startswith("crates/") else p[:-5]
    if p in said:
        rows.append(f"| {name} | {said[p]} |")
    else:
        without.append(p)
print("| edit | refused at |\n|---|---|\n" + "\n".join(rows))
print(f"{len(rows)} edits; {len(without)} without a log: {' '.join(without[:20])}", file=sys.stderr)
