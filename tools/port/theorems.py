#!/usr/bin/env python3
"""Tells the theorems of specs/ from its definitions, by text; move_theorems.py and list_moved.py use it.

A theorem is a declaration without data, record, abbrev or unfoldable whose signature concludes a fact: a relation (≡, ≤, ..), a product of
facts, or a type that takes parameters. Every other declaration is a definition.
"""

import os
import re

TOKEN = re.compile(r"[^\s(){}.;,@\"«»]+")
HEAD = re.compile(r"^(\s*)((?:(?:pub|abbrev|unfoldable)\s+)*)(\S+)((?:\s+[({].*?[)}])*)\s*:(?=\s|$)")
KEYED = re.compile(r"^(\s*)((?:(?:pub|abbrev|unfoldable)\s+)*)(data|record|ruleset|infixl|infixr|infix)\s+(?:pub\s+)?(\S+)")


def code(line):
    return re.sub(r"(?<![^\s])--.*$", "", line)


class Decl:
    def __init__(self, name, kind, first, indent):
        self.name, self.kind, self.first, self.last, self.indent = name, kind, first, first, indent
        self.sig, self.body, self.unfolds, self.subs = [], [], [], []

    def tokens(self, lines):
        return set(t for l in lines for t in TOKEN.findall(code(l)))


def parse(lines, start, end, indent):
    """The declarations among lines[start:end] at this indentation; comments and blank lines in front belong to the next one."""
    out, i, lead = [], start, None
    pre = " " * indent
    while i < end:
        line = lines[i]
        if not line.strip() or code(line).strip() == "":
            if line.strip() and lead is None:
                lead = i
            elif not line.strip():
                lead = None if not line.strip() else lead
            i += 1
            continue
        if len(line) - len(line.lstrip()) != indent:
            if out:
                out[-1].last = i
                (out[-1].body if out[-1].state == "body" else out[-1].sig).append(line)
            i += 1
            continue
        text = line[indent:]
        if text.startswith("use ") or text.startswith("open "):
            d = Decl("", "use", i, indent)
            d.state = "body"
            out.append(d)
            i += 1
            lead = None
            continue
        m = re.match(r"module _\b.*where\s*$", text) or re.match(r"module _\b", text)
        if m:
            d = Decl("", "section", lead if lead is not None else i, indent)
            d.head = i
            j = i + 1
            while j < end and (not lines[j].strip() or len(lines[j]) - len(lines[j].lstrip()) > indent):
                j += 1
            while j > i + 1 and not lines[j - 1].strip():
                j -= 1
            k = i
            while k < j and not code(lines[k]).rstrip().endswith("where"):
                k += 1
            d.body_from = k + 1
            inner = [len(l) - len(l.lstrip()) for l in lines[k + 1 : j] if l.strip()]
            d.subs = parse(lines, k + 1, j, min(inner) if inner else indent + 2)
            d.sig = lines[i : k + 1]
            d.last = j - 1
            d.state = "body"
            out.append(d)
            i = j
            lead = None
            continue
        m = KEYED.match(line)
        if m:
            d = Decl(m[4], m[3], lead if lead is not None else i, indent)
            d.state = "sig"
            d.sig = [line]
            d.pub = "pub" in line.split(m[4])[0]
            out.append(d)
            i += 1
            lead = None
            continue
        m = HEAD.match(line)
        name = TOKEN.match(text)
        if m and not (out and out[-1].name == m[3] and out[-1].kind != "use" and re.match(rf"{re.escape(m[3])}(\s.*)?=", text) and " : " not in text.split("=")[0]):
            kind = "abbrev" if "abbrev" in m[2] else "unfoldable" if "unfoldable" in m[2] else "plain"
            d = Decl(m[3], kind, lead if lead is not None else i, indent)
            d.pub = "pub" in m[2].split()
            d.state = "sig"
            d.sig = [line]
            out.append(d)
        elif out:
            d = out[-1]
            if text.startswith("unfolding "):
                d.unfolds += text.split()[1:]
            else:
                d.state = "body"
                d.body.append(line)
            d.last = i
        i += 1
        lead = None
    for d in out:
        if d.kind not in ("section", "use"):
            pass
    return out


def load(root):
    """Every file of specs/ and what it declares; and the tokens of clauses."""
    files = {}
    clauses = set()
    for crate in sorted(os.listdir(os.path.join(root, "crates"))):
        base = os.path.join(root, "crates", crate)
        for folder in ("specs", "proofs"):
            at = os.path.join(base, folder)
            if not os.path.isdir(at):
                continue
            for d, dirs, names in os.walk(at):
                for f in names:
                    if f.endswith(".antt") and f not in ("Lib.antt",):
                        p = os.path.join(d, f)
                        with open(p, encoding="utf-8") as it:
                            lines = it.read().split("\n")
                        files[p] = (crate, folder, lines, parse(lines, 0, len(lines), 0))
        src = os.path.join(base, "src")
        for d, dirs, names in os.walk(src):
            for f in names:
                if f.endswith(".rt"):
                    with open(os.path.join(d, f), encoding="utf-8") as it:
                        text = it.read()
                    for m in re.finditer(r"\b(?:requires|ensures|ghost)\b[^\n]*", text):
                        clauses.update(TOKEN.findall(m[0]))
    return files, clauses


def flat(decls):
    for d in decls:
        if d.kind == "section":
            yield from flat(d.subs)
        else:
            yield d


def bare(text, wanted):
    """Where a sign stands in the text outside parentheses."""
    deep = 0
    for i, ch in enumerate(text):
        deep += (ch in "({") - (ch in ")}")
        if ch == wanted and deep == 0:
            yield i


def conclusion(sig):
    """What a signature concludes, its arguments left out."""
    text = " ".join(code(l).strip() for l in sig)
    start = next(bare(text, ":"), None)
    if start is None:
        return ""
    rest = text[start + 1 :]
    rest = rest[max(bare(rest, "→"), default=-1) + 1 :].strip()
    m = re.match(r"let .* in (.*)$", rest)
    return m[1] if m else rest


RELATIONS = ("≡", "≤", "<", "≢", "⊥", "≤ℤ", "<ℤ", "⊎", "×", "↔")


def families(files):
    """The names of facts: types that take parameters; and of data: types that take none (or only types)."""
    facts, data = set(), set()
    for p, (crate, folder, lines, decls) in files.items():
        for d in flat(decls):
            head = " ".join(code(l).strip() for l in d.sig)
            if d.kind in ("data", "record"):
                m = re.search(re.escape(d.name) + r"(.*?):\s*Type|" + re.escape(d.name) + r"\s*:(.*)Type", head)
                given = head.split(d.name, 1)[1].split("Type")[0] if m else ""
                (facts if re.search(r"[({→]", given) else data).add(d.name)
            elif re.match(r"Type\b", conclusion(d.sig)):
                facts.add(d.name)
    return facts, data


def is_theorem(d, facts):
    if d.kind != "plain":
        return False
    c = conclusion(d.sig)
    if c.startswith("Type"):
        return False
    deep = 0
    for t in re.findall(r"[(){}]|[^\s(){}]+", c):
        if t in "({":
            deep += 1
        elif t in ")}":
            deep -= 1
        elif deep == 0 and t in RELATIONS:
            return True
    head = re.match(r"\(?\s*([^\s(){}.;,]+)", c)
    if c.startswith("("):
        return True
    return bool(head and head[1] in facts)
