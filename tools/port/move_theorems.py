#!/usr/bin/env python3
"""Moves the theorems of crates from specs/ to proofs/: the definitions stay, no statement changes, and who cites them finds them there.

usage: tools/port/move_theorems.py [--keep CRATE:NAME,..].. CRATE ..

A must-fail edit of a definition reads as bad where theorems in specs/ rest on it and others on those. A theorem that an edit itself
changes (or that --keep names), and what its own proof cites, stay. A section (module _ .. where) moves whole. Run at the top.
"""

import os
import re
import sys

sys.path.insert(0, os.path.dirname(os.path.abspath(__file__)))
import theorems as T

USE = re.compile(r"^use (\S+?)(?:\.\{([^}]*)\})?( as (\S+))?\s*$")


class Item:
    def __init__(self, d, lines, facts):
        self.d = d
        self.text = lines[d.first : d.last + 1]
        while self.text and not self.text[-1].strip():
            self.text.pop()
        self.section = d.kind == "section"
        subs = list(T.flat(d.subs)) if self.section else [d]
        self.names = set(x.name for x in subs)
        self.fields = set()
        for x in subs:
            if x.kind in ("data", "record"):
                for l in x.body + x.sig[1:]:
                    m = re.match(r"^\s+((?:pub )?)([^\s(){}.;,@\"«»:=]+(?: [^\s(){}.;,@\"«»:=]+)*) :(?=\s|$)", T.code(l))
                    if m:
                        self.names.update(n for n in m[2].split() if n not in ("pub",))
                        if x.kind == "record":
                            self.fields.update(m[2].split())
        # names of mixfix operators stand in code without their holes
        self.names |= {n.replace("◌", "") for n in self.names if "◌" in n}
        self.theorem = all(T.is_theorem(x, facts) for x in subs if x.kind != "use") if subs else False
        self.tokens = set(t for l in self.text for t in T.TOKEN.findall(T.code(l)))
        self.unfolds = set()
        for l in self.text:
            m = re.match(r"^\s*unfolding (.*)$", T.code(l))
            if m:
                self.unfolds.update(m[1].split())
        self.kinds = {x.name: x.kind for x in subs}


def main(argv):
    keep = set()
    crates = []
    i = 0
    while i < len(argv):
        if argv[i] == "--keep":
            c, names = argv[i + 1].split(":")
            keep |= {(c, n) for n in names.split(",")}
            i += 2
        else:
            crates.append(argv[i])
            i += 1
    files, clauses = T.load(".")
    facts, data = T.families(files)
    moved = {}  # (crate, module) -> set of names moved, and whether the whole module went
    report = []
    for crate in crates:
        mods = {}
        for p, (c, folder, lines, decls) in files.items():
            if c == crate and folder == "specs":
                with open(p, encoding="utf-8") as f:
                    lines = f.read().split("\n")
                decls = T.parse(lines, 0, len(lines), 0)
                # what a use line brings
                brings, alias = {}, {}
                uses = []
                for d in decls:
                    if d.kind == "use":
                        uses.append(lines[d.first])
                        m = USE.match(lines[d.first])
                        if not m:
                            continue
                        own = re.match(rf"Rattle\.{crate}\.specs\.(\w+)$", m[1])
                        if own and m[2] is not None:
                            for it in m[2].split(","):
                                it = it.strip()
                                a = it.split(" as ")
                                brings[a[-1]] = (own[1], a[0])
                        elif own:
                            alias[m[4] or own[1]] = own[1]
                module = os.path.splitext(os.path.basename(p))[0]
                mods[module] = dict(path=p, lines=lines, uses=uses, brings=brings, alias=alias, items=[Item(d, lines, facts) for d in decls if d.kind != "use"])
        where = {}
        for m, it in mods.items():
            for item in it["items"]:
                item.module = m
                for n in item.names:
                    where.setdefault((m, n), item)

        def refs(item):
            it = mods[item.module]
            out = set()
            for t in item.tokens:
                # a field of its own may have a theorem's name
                if t in item.fields:
                    continue
                if (item.module, t) in where and where[(item.module, t)] is not item:
                    out.add(where[(item.module, t)])
                elif t in it["brings"]:
                    m, n = it["brings"][t]
                    if (m, n) in where:
                        out.add(where[(m, n)])
                    elif (m, n.replace("◌", "")) in where:
                        out.add(where[(m, n.replace("◌", ""))])
            text = "\n".join(item.text)
            for a, m in it["alias"].items():
                for t in re.findall(rf"(?<![\w.]){re.escape(a)}\.([^\s(){{}}.;,]+)", text):
                    if (m, t) in where:
                        out.add(where[(m, t)])
            # mixfix names
            for n, (m, o) in it["brings"].items():
                if "◌" in n and (m, o) in where and n.replace("◌", "") in item.tokens:
                    out.add(where[(m, o)])
            return out

        items = [item for it in mods.values() for item in it["items"]]
        ref = {id(item): refs(item) for item in items}
        stay = set()
        # theorems that an edit itself changes
        folder = os.path.join("crates", crate, "must-fail")
        for e in sorted(os.listdir(folder)) if os.path.isdir(folder) else []:
            with open(os.path.join(folder, e), encoding="utf-8") as f:
                text = f.read()
            at = None
            for line in text.split("\n"):
                m = re.match(r"file: specs/(\w+)\.antt", line)
                if m:
                    at = m[1]
                if line.startswith("old: ") and at in mods:
                    old = line[5:]
                    for item in mods[at]["items"]:
                        if old in "\n".join(item.text):
                            stay.add(id(item))
                            if item.theorem or item.section:
                                report.append(f"{crate}: {at}: {sorted(item.names)[:4]} stays: {e} changes it")
        for c, n in keep:
            if c == crate:
                for item in items:
                    if n in item.names:
                        stay.add(id(item))
        byid = {id(item): item for item in items}
        todo = list(stay)
        while todo:
            for r in ref[todo.pop()]:
                if id(r) not in stay:
                    stay.add(id(r))
                    todo.append(id(r))
        go = {id(item) for item in items if (item.theorem or item.section) and id(item) not in stay}
        grown = True
        while grown:
            grown = False
            for item in items:
                if id(item) not in go and any(id(r) in go for r in ref[id(item)]):
                    if id(item) in stay:
                        report.append(f"{crate}: {item.module}: {sorted(item.names)[:3]} is wanted in specs/ and cites what moves")
                        continue
                    go.add(id(item))
                    grown = True
                    report.append(f"{crate}: {item.module}: {sorted(item.names)[:3]} moves with what it cites")
        for m, it in mods.items():
            gone = [x for x in it["items"] if id(x) in go]
            left = [x for x in it["items"] if id(x) not in go]
            if gone:
                moved[(crate, m)] = (set(n for x in gone for n in x.names), not left)
            it["gone"], it["left"] = gone, left
        # what needs to be seen from proofs/
        seen = {}
        for m, it in mods.items():
            for x in it["gone"]:
                for r in ref[id(x)]:
                    if id(r) not in go:
                        seen.setdefault(id(r), set()).update(n for n in r.names if n in x.tokens or n.replace("◌", "") in x.tokens)
                for n in x.unfolds:
                    if (m, n) in where and id(where[(m, n)]) not in go:
                        where[(m, n)].opened = getattr(where[(m, n)], "opened", set()) | {n}
        base = os.path.join("crates", crate)
        os.makedirs(os.path.join(base, "proofs"), exist_ok=True)
        lib = os.path.join(base, "proofs", "Lib.antt")
        lib_lines = open(lib, encoding="utf-8").read().split("\n") if os.path.exists(lib) else []
        lib_lines = [l for l in lib_lines if l.strip()]
        for m, it in sorted(mods.items()):
            if not it["gone"]:
                continue
            lib_lines.append(f"pub mod {RESERVED.get(m, m)}")
            lines = it["lines"]
            first = next((k for k, l in enumerate(lines) if l.strip() and not l.startswith("--")), 0)
            header = [l for l in lines[:first] if l.strip()]
            to = os.path.join(base, "proofs", RESERVED.get(m, m) + ".antt")
            if not it["left"]:
                os.rename(it["path"], to)
                continue
            mine = set()
            for x in it["gone"]:
                for r in ref[id(x)]:
                    if id(r) not in go and r.module == m:
                        for n in r.names - r.fields:
                            if n in x.tokens and (n in r.kinds or not any("◌" in k and k.replace("◌", "") == n for k in r.names)):
                                mine.add(n)
                            elif "◌" in n and n.replace("◌", "") in x.tokens:
                                mine.add(n)
            for x in it["left"]:
                need = {n for n in x.names if n in seen.get(id(x), set())}
                opened = getattr(x, "opened", set())
                out = []
                begun = False
                for l in x.text:
                    k = None if begun else re.match(r"^((?:(?:pub|abbrev|unfoldable) )*)(data |record )?([^\s(){}.;,@\"«»:=]+)(?=[ :])", l)
                    if k and (k[3] in x.kinds) and l is x.text[[i for i, q in enumerate(x.text) if q == l][0]] and (" : " in l or l.rstrip().endswith(":") or k[2] or re.match(rf"^((?:pub|abbrev|unfoldable) )*{re.escape(k[3])}( [({{].*)?( :|$)", l)) and " = " not in l.split(" : ")[0]:
                        words = k[1].split()
                        if k[3] in need or need and k[2]:
                            if "pub" not in words:
                                if k[2]:
                                    words = ["pub"] + words
                                else:
                                    words = words + ["pub"]
                        if k[3] in opened and x.kinds[k[3]] == "plain" and "unfoldable" not in words and "abbrev" not in words:
                            words = ["unfoldable"] + words
                        l = " ".join(words + ([k[2].strip()] if k[2] else []) + [k[3]]) + l[k.end() :]
                        begun = True
                    elif need and x.kinds.get(next(iter(x.kinds)), "") == "record":
                        f = re.match(r"^(\s+)(?!pub )([^\s(){}.;,@\"«»:=]+(?: [^\s(){}.;,@\"«»:=]+)*) :(?=\s|$)", l)
                        if f and not l.lstrip().startswith("--"):
                            l = f[1] + "pub " + l[len(f[1]) :]
                    out.append(l)
                x.text = out

            def write(path, items, extra):
                body = "\n\n".join("\n".join(x.text) for x in items)
                toks = set(t for x in items for l in x.text for t in T.TOKEN.findall(T.code(l)))
                uses = []
                for u in it["uses"]:
                    k = USE.match(u)
                    if k and k[2] is not None:
                        names = [n.strip() for n in k[2].split(",")]
                        kept = []
                        for n in names:
                            last = n.split(" as ")[-1]
                            parts = [q for q in last.split("◌") if q]
                            if last in toks or ("◌" in last and all(q in toks for q in parts)):
                                kept.append(n)
                        if kept:
                            uses.append(f"use {k[1]}.{{{', '.join(kept)}}}")
                    elif k:
                        a = k[4] or k[1].split(".")[-1]
                        if re.search(rf"(?<![\w.]){re.escape(a)}\.", body):
                            uses.append(u)
                    else:
                        uses.append(u)
                if extra:
                    uses.append(f"use Rattle.{crate}.specs.{m}.{{{', '.join(sorted(extra))}}}")
                with open(path, "w", encoding="utf-8") as f:
                    f.write("\n".join(header + uses) + "\n\n" + body + "\n")

            write(to, it["gone"], mine)
            write(it["path"], it["left"], set())
        with open(lib, "w", encoding="utf-8") as f:
            f.write("\n".join(lib_lines) + "\n")
        slib = os.path.join(base, "specs", "Lib.antt")
        with open(slib, encoding="utf-8") as f:
            t = f.read()
        for m, it in mods.items():
            if it["gone"] and not it["left"]:
                t = re.sub(rf"(?m)^pub mod {m}\n", "", t)
        with open(slib, "w", encoding="utf-8") as f:
            f.write(t)
    # who cites them
    for folder, dirs, names in os.walk("crates"):
        dirs[:] = [d for d in dirs if d not in ("out", "must-fail", "wrong-answers", "harmless")]
        for f in names:
            if not f.endswith((".antt", ".rt")):
                continue
            p = os.path.join(folder, f)
            with open(p, encoding="utf-8") as it:
                text = it.read()
            new = []
            here = re.match(r"crates/(\w+)/(specs|proofs)/(.*)\.antt$", p)
            for line in text.split("\n"):
                m = re.match(r"^(ghost )?use Rattle\.(\w+)\.specs\.(\w+)(?:\.\{([^}]*)\})?( as (\S+?))?(;?)\s*$", line)
                if not m or (m[2], m[3]) not in moved:
                    new.append(line)
                    continue
                names_moved, whole = moved[(m[2], m[3])]
                pre = f"{m[1] or ''}use Rattle.{m[2]}."
                if m[4] is None:
                    if whole:
                        new.append(f"{pre}proofs.{RESERVED.get(m[3], m[3])}{m[5] or ''}{m[7]}")
                    else:
                        a = m[6] or m[3]
                        used = set(re.findall(rf"(?<![\w.]){re.escape(a)}\.([^\s(){{}}.;,]+)", text))
                        if used & names_moved:
                            new.append(f"{pre}proofs.{RESERVED.get(m[3], m[3])} as {a}Laws{m[7]}")
                            for n in used & names_moved:
                                text = re.sub(rf"(?<![\w.]){re.escape(a)}\.{re.escape(n)}(?![\w'])", f"{a}Laws.{n}", text)
                            new = [re.sub(rf"(?<![\w.]){re.escape(a)}\.({'|'.join(map(re.escape, used & names_moved))})(?![\w'])", rf"{a}Laws.\1", l) for l in new]
                            report.append(f"{p}: {a}Laws for {sorted(used & names_moved)}")
                            ALIAS.setdefault(p, []).append((a, used & names_moved))
                        if used - names_moved:
                            new.append(line)
                    continue
                its = [n.strip() for n in m[4].split(",")]
                there = [n for n in its if n.split(" as ")[0] in names_moved or n.split(" as ")[0].replace("◌", "") in names_moved]
                here_ = [n for n in its if n not in there]
                if here_:
                    new.append(f"{pre}specs.{m[3]}.{{{', '.join(here_)}}}{m[7]}")
                if there:
                    new.append(f"{pre}proofs.{RESERVED.get(m[3], m[3])}.{{{', '.join(there)}}}{m[7]}")
            out = "\n".join(new)
            for a, ns in ALIAS.get(p, []):
                out = "\n".join(l if l.startswith("use ") else re.sub(rf"(?<![\w.]){re.escape(a)}\.({'|'.join(map(re.escape, ns))})(?![\w'])", rf"{a}Laws.\1", l) for l in out.split("\n"))
            if out != text:
                with open(p, "w", encoding="utf-8") as it:
                    it.write(out)
    for r in report:
        print(r)
    for (c, m), (ns, whole) in sorted(moved.items()):
        print(f"moved {c} {m} {'whole' if whole else len(ns)}")


ALIAS = {}
# rattle makes modules of these names in proofs/
RESERVED = {"Layout": "LayoutLaws", "Kinds": "KindsLaws"}

if __name__ == "__main__":
    main(sys.argv[1:])
