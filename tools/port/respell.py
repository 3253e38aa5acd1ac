#!/usr/bin/env python3
"""Spells the repository's own definitions and lemmas as today's Rattle spells its library: words in snake case, a prime as an apostrophe.

usage: tools/port/respell.py [--check] [ROOT]

Run once, at the top, right after the toolchain's own port.py, which respelled only the names that its library had too. A name that specs/
declares (a definition, a lemma, a field, a constructor that begins with a small letter) gets underscores for its dashes and for its
inner capitals, in every file of crates/ that names it: in .antt files, and in the clauses and the ghost items of .rt files. Rust's names,
strings, inputs and outputs stay, and so does a name that a file takes from the toolchain. Two names that would become one in some file
do not: the one with the dash, a lemma, gets the ending _lem, and so does a definition that would be spelled as a function, a parameter or
a local of Rust's where a contract cites it. With --check nothing is written. What was renamed is printed, old and new, a line each.
"""

import collections
import glob
import os
import re
import sys

TOKEN = re.compile(r"[^\s(){}.;,@\"«»]+")
WORDS = re.compile(r"[A-Za-z_][A-Za-z0-9_'′-]*")
DECLARES = re.compile(r"^\s*(?:(?:pub|abbrev|unfoldable|axiom|mutual)\s+)*([^\s(){}.;,@\"«»:=]+)(?: [({].*?)?\s*: ")
TYPES = re.compile(r"^\s*(?:(?:pub|abbrev|unfoldable)\s+)*(?:data|record|ruleset)\s+(?:pub\s+)?([^\s(){}.;,@\"«»:=]+)")
USE = re.compile(r"\buse ([^\s;{]+)(?:\{([^}]*)\})?")
KEYWORDS = set("let in where do elim use pub mod as with open data record abbrev unfoldable unfolding module mutual infix infixl infixr axiom ruleset".split())


def texts(root):
    crates = os.path.join(root, "crates")
    for folder, dirs, files in os.walk(crates):
        dirs[:] = sorted(d for d in dirs if d not in ("out", "must-fail", "wrong-answers", "harmless", "data"))
        for f in sorted(files):
            if f.endswith((".antt", ".rt")):
                yield os.path.join(folder, f)


def snake(name):
    def part(p):
        if not re.match(r"[a-z]", p):
            return p
        p = re.sub(r"([a-z0-9])([A-Z])", r"\1_\2", p)
        p = re.sub(r"([A-Z])([A-Z][a-z])", r"\1_\2", p)
        return p.lower()

    return "_".join(part(p) for p in name.replace("′", "'").split("-"))


def code_of_antt(text):
    return re.sub(r"--[^\n]*", lambda m: " " * len(m[0]), text)


# what of a .rt file is antt: ghost items and clauses
CLAUSE = re.compile(r"\b(?:requires|ensures)\*?\s*(?:\w+\s*)?\{|\bghost\s+(?:use\b|(?:\w+\s*(?::\s*)?(?:=\s*)?)?\{|\w+\s*:\s*\{)")


def ghost_spans(text):
    blank = re.sub(r'//[^\n]*|b?"(?:[^"\\]|\\.)*"', lambda m: " " * len(m[0]), text)
    spans = []
    for m in re.finditer(r"\bghost use\b[^;]*;", blank):
        spans.append((m.start(), m.end()))
    for m in CLAUSE.finditer(blank):
        if blank[m.start() : m.end()].startswith("ghost use") or blank[m.end() - 1] != "{":
            continue
        deep, i = 1, m.end()
        while i < len(blank) and deep:
            deep += (blank[i] == "{") - (blank[i] == "}")
            i += 1
        spans.append((m.end(), i - 1))
    return sorted(spans)


def split_rt(text):
    """The text's pieces, each with whether it is antt."""
    at, out = 0, []
    for a, b in ghost_spans(text):
        if a < at:
            continue
        out.append((False, text[at:a]))
        out.append((True, text[a:b]))
        at = b
    out.append((False, text[at:]))
    return out


def main(argv):
    check = "--check" in argv
    argv = [a for a in argv if a != "--check"]
    root = argv[0] if argv else "."
    crates = {c for c in os.listdir(os.path.join(root, "crates"))}
    content, declared, outside, rust, tokens = {}, set(), {}, {}, {}
    for path in texts(root):
        with open(path, encoding="utf-8") as f:
            content[path] = text = f.read()
        name = os.path.relpath(path, os.path.join(root, "crates")).split(os.sep)
        pieces = [(True, text)] if path.endswith(".antt") else split_rt(text)
        antt = "\n".join(code_of_antt(t) for own, t in pieces if own)
        if path.endswith(".antt") and name[1] == "specs":
            for line in code_of_antt(text).split("\n"):
                for m in (DECLARES.match(line), TYPES.match(line)):
                    if m and m[1] not in KEYWORDS:
                        declared.add(m[1])
        outside[path] = set()
        for m in USE.finditer(antt):
            steps = m[1].strip(".").split(".")
            names = [it.split(" as ") for it in (m[2] or "").split(",") if it.strip()]
            own = len(steps) > 1 and steps[0] == "Rattle" and steps[1] in crates
            if not own:
                outside[path].update(n[0].strip() for n in names)
        tokens[path] = set(TOKEN.findall(antt))
        rust[path] = set()
        if path.endswith(".rt"):
            plain = re.sub(r'//[^\n]*|b?"(?:[^"\\]|\\.)*"', " ", "\n".join(t for own, t in pieces if not own))
            rust[path] = set(re.findall(r"\b([A-Za-z_]\w*)\s*:(?!:)", plain))
    table = {n: snake(n) for n in declared}
    table = {n: s for n, s in table.items() if s != n and re.fullmatch(r"[A-Za-z][A-Za-z0-9_'′-]*", n)}
    # a name that was given a module and a middle dot, since a function has it too: a contract may name both today
    for path in content:
        for t in tokens[path] if not path.endswith("/Proof.antt") else ():
            if "·" in t.strip("·") and t not in outside[path]:
                head, last = t.split("·", 1)
                taken = tokens[path] | rust[path] | {table.get(x, x) for x in tokens[path] if x != last}
                taken -= {last} if re.search(r"\b" + re.escape(last) + " as " + re.escape(t), content[path]) and last not in rust[path] else set()
                table[t] = snake(last) if snake(last) not in taken and table.get(t) in (None, snake(last)) else snake(head).lower() + "_" + snake(last)
    # names that fall together where both are read
    for _ in range(8):
        clashes = set()
        for path in content:
            # the labels of a proof are Rattle's, and stand behind a dot
            if path.endswith("/Proof.antt"):
                continue
            here = collections.defaultdict(set)
            for t in tokens[path]:
                here[table.get(t, t) if t not in outside[path] else t].add(t)
            for new, olds in here.items():
                moved = [o for o in olds if o in table and o not in outside[path]]
                if moved and (len(olds) > 1):
                    # the lemma yields: the one with the dash, and of several the longer ones
                    moved.sort(key=lambda o: ("-" in o, len(o), o))
                    stays = [o for o in olds if o not in moved]
                    clashes.update(o for o in (moved if stays else moved[1:]) if "·" not in o)
                for o in moved:
                    if new in rust[path] and "·" not in o:
                        clashes.add(o)
        if not clashes:
            break
        for o in clashes:
            table[o] += "_lem"
    else:
        raise SystemExit("names still fall together: " + ", ".join(sorted(clashes)))
    for old, new in sorted(table.items()):
        print(f"{old}\t{new}")
    if check:
        return 0

    def turned(text, path):
        mine = lambda t: table[t] if t in table and t not in outside[path] else t
        seen = tokens[path]

        def comment(m):
            return re.sub(r"`[^`\n]*`|" + WORDS.pattern, lambda w: TOKEN.sub(lambda t: mine(t[0]), w[0]) if w[0][0] == "`" else (mine(w[0]) if w[0] in seen or not "-" in w[0] else w[0]), m[0])

        out, at = [], 0
        for m in re.finditer(r"--[^\n]*", text):
            out.append(TOKEN.sub(lambda t: mine(t[0]), text[at : m.start()]))
            out.append(comment(m))
            at = m.end()
        out.append(TOKEN.sub(lambda t: mine(t[0]), text[at:]))
        return "".join(out)

    def prose(text, path):
        mine = lambda t: table[t] if t in table else t
        seen = tokens[path]
        return re.sub(r"//[^\n]*", lambda m: re.sub(r"`[^`\n]*`|" + WORDS.pattern, lambda w: TOKEN.sub(lambda t: mine(t[0]), w[0]) if w[0][0] == "`" else (mine(w[0]) if w[0] in seen or re.search("[a-z][A-Z]", w[0]) else w[0]), m[0]), text)

    for path, text in content.items():
        if path.endswith(".antt"):
            new = re.sub(r"(?<![\w'-])([A-Za-z_][\w']*) as \1(?![\w'-])", r"\1", turned(text, path))
        else:
            new = "".join(turned(t, path) if own else prose(t, path) for own, t in split_rt(text))
        new = re.sub(r"(?<![\w'-])([A-Za-z_][\w']*) as \1(?![\w'-])", r"\1", new)
        if new != text:
            with open(path, "w", encoding="utf-8") as f:
                f.write(new)
    return 0


if __name__ == "__main__":
    raise SystemExit(main(sys.argv[1:]))
