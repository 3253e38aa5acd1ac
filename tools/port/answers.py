#!/usr/bin/env python3
"""Turns the proofs of a crate's functions from the older form, a Proof.antt that names each need, to Answers.antt and Invariants.antt.

usage: tools/port/answers.py CRATE NAMES

NAMES is the names.json that `rt check --generated DIR --old-names` wrote in the crate. Of each need, the tactics that a check tries by
itself are left to it: kept are the invariants and measures, the answers that are more than `search rules`, and those that unfold a
definition. A path such as c.before.before.get-u32.ensures becomes the step's name of today. What could not be matched is printed.
"""

import json
import os
import re
import sys


def norm(s):
    return re.sub(r"[_·]", "-", s).lower()


def chunks(text):
    out, now = [], []
    for line in text.split("\n"):
        if not line.strip():
            if now:
                out.append(now)
            now = []
        else:
            now.append(line)
    if now:
        out.append(now)
    return out


def key_of(path):
    return re.sub(r"/Proof\.antt$", "", path)


def lent(callee, cache={}):
    """The parameters of a function, by its path, with whether each is a &mut."""
    if callee not in cache:
        crate, name = callee.split("::")[0], callee.split("::")[-1]
        cache[callee] = []
        for root, _, files in os.walk(os.path.join("crates", crate, "src")):
            for f in files:
                with open(os.path.join(root, f), encoding="utf-8") as it:
                    m = re.search(r"\bfn " + re.escape(name) + r"(?:<[^(]*>)?\(([^)]*)\)", it.read())
                if m:
                    cache[callee] = re.findall(r"(\w+)\s*:(?!:)\s*(&(?:'\w+ )?mut\b)?", m[1])
    return cache[callee]


class Names:
    def __init__(self, entry):
        self.needs = entry["needs"]
        self.asked = entry["asked_at"]
        self.places = {p[0]: p for p in entry["places"]}
        self.loops = entry["loops"]
        self.changed = entry["changed"]

    def chain(self, place):
        out = []
        while place is not None and place in self.places:
            out.append(self.places[place])
            place = self.places[place][1]
        return out


def convert(folder, entry, say):
    path = os.path.join(folder, "Proof.antt")
    with open(path, encoding="utf-8") as f:
        text = f.read()
    names = Names(entry)
    parts = chunks(text)
    uses, head, decls = [], [], []
    for part in parts:
        if part[0].startswith(("--", "use ")) and all(l.startswith(("--", "use ")) for l in part) and not decls:
            head += [l for l in part if l.startswith("--")]
            uses += [l for l in part if l.startswith("use ")]
        else:
            decls.append(part)
    fn = None
    for u in uses:
        m = re.match(r"use (Rattle\.\S+)\.Tie as tie", u)
        if m:
            fn = m[1]
    if fn is None:
        return False
    uses = [u for u in uses if not re.search(r"\.(Tie as tie|Statement\.\{statement\})", u)]
    order = {}
    for i, (old, new) in enumerate(names.needs):
        order.setdefault(norm(old), i)
    invariants, answers, lemmas = [], [], []
    labels, renamed = [], {}
    for part in decls:
        comments = [l for l in part if l.startswith("--") and not re.match(r"-- src/\S+:\d+", l)]
        body = [l for l in part if not l.startswith("--")]
        if not body:
            continue
        whole = "\n".join(body)
        if "tie.close" in whole or re.search(r": \{M : Type 1\} → statement", whole):
            continue
        m = re.match(r"abbrev (?:pub )?(\S+) : tie\.(invariant|decreases)-?(\S*)", body[0])
        if m:
            kind, old = m[2], m[3]
            at = [i for i, l in enumerate(names.loops) if norm(l[0][0]) == norm(old)]
            if not at and len(names.loops) == 1:
                at = [0]
            if not at:
                say(f"{folder}: no loop for {m[1]} among {[l[0] for l in names.loops]}")
                lemmas.append(comments + body)
                continue
            (oldl, newl), variables = names.loops[at[0]]
            changed = names.changed[at[0]]
            params = body[1].split(" = ", 1)[0].split()[1:]
            rest = body[1].split(" = ", 1)
            rhs = rest[1] if len(rest) > 1 else ""
            more = "\n".join(body[2:])
            if not rhs:
                rhs = more
            elif more:
                rhs += "\n" + more
            if body[1].rstrip().endswith("="):
                params = body[1].rstrip()[:-1].split()[1:]
                rhs = more
            want = [("l.initial." if c else "l.") + v for v, c in zip(variables, changed)] + ["l." + v for v, c in zip(variables, changed) if c]
            if len(params) != len(want):
                say(f"{folder}: {m[1]} has {len(params)} parameters, {len(want)} are known: {params} {want}")
            table = dict(zip(params, want))
            rhs = re.sub(r"(?<![^\s(){};,«])([^\s(){}.;,@\"«»]+)(?=[\s(){}.;,]|$)", lambda t: table.get(t[1], t[1]), rhs)
            new = f"{kind}-{newl}"
            sep = "\n" if rhs.startswith((" ", "\n")) and "\n" in rhs else " "
            invariants.append((comments, f"abbrev pub {new} : goal.{new}\n{new} l ={sep}{rhs}"))
            continue
        m = re.match(r"(\S+) : tie\.Need-?(\S+)", body[0])
        if m:
            old = m[2]
            labels.append(old)
            cand = [old, re.sub(r"^overflow-", "", old), m[1]]
            i = next((order[norm(c)] for c in cand if norm(c) in order), None)
            rest = body[1:]
            simple = len(rest) == 1 and re.search(r"= search rules\s*$", rest[0])
            if simple:
                continue
            if i is None:
                say(f"{folder}: no goal for {old}; there are {[n[0] for n in names.needs]}")
                new, place = m[2], None
            else:
                new, place = names.needs[i][1], names.asked[i][0]
            unf = [l for l in rest if l.startswith("unfolding ")]
            code = "\n".join(l for l in rest if not l.startswith("unfolding "))
            mm = re.match(r"(\S+)((?: \S+)*?) =", code)
            if not mm:
                say(f"{folder}: {m[1]} cannot be read")
                lemmas.append(comments + body)
                continue
            args = mm[2].split()
            code = code[mm.end() :]
            c = args[0] if args else "c"
            chain = names.chain(place)

            def step(t):
                n = t[1].count(".before")
                label = t[2]
                if label in ("args", "requires", "ranges", "type_inv"):
                    return f"{c}.{label}"
                exact = chain[n] if n < len(chain) else None

                def named(p):
                    above = names.places.get(p[1])
                    if not p[3] and above and above[2][1].startswith(("in-", "in_")):
                        # what a pattern binds is told by its arm
                        return f"{c}.\0{p[2][1]}\0{above[2][1]}\0{re.sub(r'-?[0-9]+$', '', label)}\0"
                    return f"{c}.{p[2][1]}"

                if exact and norm(exact[2][0]) == norm(label):
                    return named(exact)
                label = label.replace("List-set_of_Decides", "list-set")
                label = re.sub(r"_lem$", "", re.sub(r"_lem(\d+)$", r"\1", label))
                if exact and norm(exact[2][0]) == norm(label):
                    return named(exact)
                near = [(abs(k - n), p) for k, p in enumerate(chain) if norm(p[2][0]) == norm(label)]
                if not near and label == "copy":
                    near = [(abs(k - n), p) for k, p in enumerate(chain) if p[2][0] == "copy_from_slice"]
                if not near:
                    # the older form counted a definition's name too
                    bare = re.sub(r"-?\d+$", "", label)
                    near = [(abs(k - n), p) for k, p in enumerate(chain) if norm(re.sub(r"-?\d+$", "", p[2][0])) == norm(bare)]
                if near:
                    near.sort(key=lambda x: x[0])
                    if len(near) > 1:
                        say(f"{folder}: {m[1]}: {t[0]} is one of {[p[2][1] for _, p in near]}")
                    return named(near[0][1])
                bare = re.sub(r"-?\d+$", "", label)
                say(f"{folder}: {m[1]}: {t[0]} is none of {[tuple(p[2]) for p in chain]}")
                return f"{c}.{label}"

            code = re.sub(rf"(?<![\w.'-]){re.escape(c)}((?:\.before)*)\.([^\s(){{}}.;,]+)", step, code)
            code = re.sub(r"\0[^\0]*\0([^\0]*)\0[^\0]*\0\.given\.1(?![\w.-])", r"\1.is", code)
            code = re.sub(r"\0[^\0]*\0([^\0]*)\0([^\0]*)\0\.given\.0\.0(?![\w-])", r"\1.\2", code)
            code = re.sub(r"\0([^\0]*)\0[^\0]*\0[^\0]*\0", r"\1", code)
            if m[1] != new:
                renamed[m[1]] = new
            for own, _ in lent(f"{fn.split('.')[1]}::{fn.split('.')[-1]}"):
                code = re.sub(r"(?<=\.)" + own.replace("_", "-") + r"(?![\w'-])", own, code)
            # a test of !x says what x is
            atom = r"(?:[^\s()]+|\((?:[^()]|\((?:[^()]|\([^()]*\))*\))*\))"
            code = re.sub(rf"\(not-(?:true|false) {atom} ({re.escape(c)})\.(if-not-[^\s.()]+\.(?:true|false))\)", r"\1.\0\2", code)
            code = re.sub(rf"not-(?:true|false) {atom} ({re.escape(c)})\.(if-not-[^\s.()]+\.(?:true|false))", r"\1.\0\2", code)
            code = re.sub(rf"(?<![\w.'-])({re.escape(c)}\.if-not-[^\s.(){{}};,]+\.(?:true|false))(?![\w.-])", r"(ap not \1)", code)
            if "(ap not " in code:
                for name, home in (("ap", "mathlib.Core.Path"), ("not", "mathlib.Core.Bool")):
                    if not any(re.search(rf"[{{ ]{name}[,}}]", u) for u in uses):
                        uses.append(f"use {home}.{{{name}}}")
            code = code.replace("\0", "")
            code = code.replace(f"{c}.copy_from_slice.ensures.1", f"{c}.copy_from_slice.ensures.after")
            code = re.sub(r"\.keys\d+(?![\w'-])", ".is", code)
            code = re.sub(rf"(?<![\w.'-])({re.escape(c)}\.(in_default[\w-]*))\.rest(?![\w'-])", r"\1.\2-own.rest", code)
            callees = {p[2][1]: p[3] for p in chain if p[3]}

            def left(m):
                it = lent(callees[m[1]]) if m[1] in callees else []
                k = m[2].count(".1")
                return f"{c}.{m[1]}.new.{it[k][0]}" if k < len(it) and it[k][1] else m[0]

            code = re.sub(rf"(?<![\w.'-]){re.escape(c)}\.([^\s(){{}}.;,]+)\.new((?:\.1)*\.0)(?![\w-])", left, code)
            answers.append((comments, new, c, unf, code))
            continue
        lemmas.append(comments + body)
    # one answer may cite another
    for k, (comments, new, c, unf, code) in enumerate(answers):
        code = re.sub(r"(?<![\w.'-])([^\s(){}.;,]+)(?=[\s(){}.;,]|$)", lambda t: renamed.get(t[1], t[1]), code)
        answers[k] = (comments, "\n".join([f"pub {new} : goal.{new}"] + unf + [f"{new} {c} ={code}"]))
    os.remove(path)

    def tokens(texts):
        return set(re.findall(r"[^\s(){}.;,@\"«»]+", "\n".join(texts)))

    def imports(texts):
        used = tokens(texts)
        out = []
        for u in uses:
            m = re.match(r"use (\S+?)\.\{([^}]*)\}$", u)
            if not m:
                out.append(u)
                continue
            keep = []
            for it in m[2].split(","):
                it = it.strip()
                name = it.split(" as ")[-1]
                bare = name.replace("◌", "")
                if name in used or ("◌" in name and bare in used) or name == "rules" and "rules" in used:
                    keep.append(it)
            if keep:
                out.append(f"use {m[1]}.{{{', '.join(keep)}}}")
        return out

    if invariants:
        texts = ["\n".join(c + [t]) for c, t in invariants]
        with open(os.path.join(folder, "Invariants.antt"), "w", encoding="utf-8") as f:
            f.write("\n".join(head + imports([t for _, t in invariants]) + [f"use {fn}.Given as goal"]) + "\n\n" + "\n\n".join(texts) + "\n")
    if answers:
        texts = ["\n".join(l) for l in lemmas] + ["\n".join(c + [t]) for c, t in answers]
        code = ["\n".join(l) for l in lemmas] + [t for _, t in answers]
        with open(os.path.join(folder, "Answers.antt"), "w", encoding="utf-8") as f:
            f.write("\n".join(([] if invariants else head) + imports(code) + [f"use {fn}.Goals as goal"]) + "\n\n" + "\n\n".join(texts) + "\n")
    elif lemmas and not answers:
        say(f"{folder}: lemmas that nothing cites: {lemmas[0][0]}")
    return True


def main(crate, path):
    with open(path, encoding="utf-8") as f:
        names = json.load(f)
    base = os.path.join("crates", crate, "proofs")
    for folder, dirs, files in os.walk(base):
        if "Proof.antt" not in files:
            continue
        key = "Rattle-" + crate + "-proofs." + os.path.relpath(folder, base).replace(os.sep, ".") + ".Lts"
        if key not in names:
            print(f"{folder}: names.json has no {key}")
            continue
        if not convert(folder, names[key], print):
            print(f"{folder}: left as it is")
    for folder, dirs, files in os.walk(base, topdown=False):
        if not os.listdir(folder):
            os.rmdir(folder)


if __name__ == "__main__":
    main(sys.argv[1], sys.argv[2])
