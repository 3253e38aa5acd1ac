#!/usr/bin/env python3
"""Spells the edits that the prover must refuse (must-fail/, wrong-answers/, harmless/, tools/teeth*.d/) as the sources are spelled today.

usage: tools/port/edits.py [--dry] [EDIT ..]    turns the edits, or the named ones, in place; prints what it changed and what is left by hand
       tools/port/edits.py --check [EDIT ..]    says which edits do not fit the sources as they stand, or have a word of the older spelling

Run at the top, after port.py and tools/port/respell.py have turned the sources, which turn no edit. An edit was written for the tree of
the commit OLD. Its texts are respelled by the same rules as the sources: names by tools/port/respelled.tsv and, where a file's own line
says otherwise, by that line; projections tight; operators with their places. A text is only replaced where what comes out stands once in
today's file, in the line that the old file's line became.
"""

import glob
import os
import re
import subprocess
import sys

sys.dont_write_bytecode = True
sys.path.insert(0, os.path.dirname(os.path.realpath(__file__)))
import respell  # noqa: E402

OLD = "2c6fdcc"
TEETH = {"tools/teeth.d": "crates/line/specs", "tools/teeth-turns.d": "crates/turns/specs"}
WORD = re.compile(r"[^\s(){}.;,@\"«»]+")
ATOM = re.compile(r"\s+|[(){};,]|[^\s(){};,]+")
NAMES = re.compile(r"[A-Za-z_][\w'-]*|[^\w\s(){}.;,\"'◌]+")
# the toolchain's own names that edits and sources have
KIT = {"getD": "get_or", "trailingZeros": "count_trailing_zeros"}
OPERATORS = set("&& || + - * / % ^ ++ ∷ ≡ ≢ ≤ < ≥ > → = : ⊎ × ∙ . | ← let in λ == ⌜ ⌝".split())


def table():
    with open("tools/port/respelled.tsv", encoding="utf-8") as f:
        return dict(line.rstrip("\n").split("\t") for line in f)


def edits(named):
    return named or sorted(glob.glob("crates/*/must-fail/*.edit") + glob.glob("crates/*/wrong-answers/*.edit") + glob.glob("crates/*/harmless/*.edit") + glob.glob("tools/teeth*.d/*.edit"))


def base(edit):
    """The folder below which an edit's files lie."""
    folder = os.path.dirname(edit)
    return os.path.dirname(folder) if folder.startswith("crates/") else TEETH.get(folder, "crates")


def old_text(path, cache={}):
    if path not in cache:
        r = subprocess.run(["git", "show", f"{OLD}:{path}"], capture_output=True)
        cache[path] = r.stdout.decode() if r.returncode == 0 else None
    return cache[path]


def today(path):
    if not os.path.isfile(path):
        return None
    with open(path, encoding="utf-8") as f:
        return f.read()


# --- how a text is respelled -----------------------------------------------------------------------------------------------------------


def names(text, of):
    """The text with each name as of says; a name ends where a character stands that no name has, a projection's dot too."""

    def word(w):
        if w in of:
            return of[w]
        m = re.match(r"(\.+)(.+)", w)
        if m and m[2] in of:
            return m[1] + of[m[2]]
        if "." in w.strip("."):
            return ".".join(of.get(p, p) for p in w.split("."))
        return w

    return re.sub(r"[^\s(){};,@\"«»]+", lambda m: word(m[0]), text)


def parsed(text):
    """The text's words and brackets as a tree: a list of strings (spaces and words) and of lists (bracket, inner, bracket)."""
    stack, top = [], []
    for t in ATOM.findall(text):
        if t in "({":
            stack.append((top, t))
            top = []
        elif t in ")}" and stack and stack[-1][1] == "({"[")}".index(t)]:
            outer, opened = stack.pop()
            outer.append([opened, top, t])
            top = outer
        else:
            top.append(t)
    while stack:
        outer, opened = stack.pop()
        outer.append(opened)
        outer.extend(top)
        top = outer
    return top


def flat(tree):
    return "".join(t if isinstance(t, str) else t[0] + flat(t[1]) + t[2] for t in tree)


def tight(tree):
    """Projections written after a space, `s .queue i .work`, as they are written today: `(s.queue i).work`."""
    out, start = [], 0  # out[start:] is the application that a projection belongs to
    for t in tree:
        if isinstance(t, list):
            inner = tight(t[1])
            words = [x for x in inner if not (isinstance(x, str) and x.isspace())]
            if t[0] == "(" and t[2] == ")" and len(words) == 1 and isinstance(words[0], Projection):
                out.append(words[0])
            else:
                out.append([t[0], inner, t[2]])
        elif re.fullmatch(r"\.[^\s.]+", t) and any(not (isinstance(x, str) and x.isspace()) for x in out[start:]):
            head = out[start:]
            lead = []
            while isinstance(head[0], str) and head[0].isspace():
                lead.append(head.pop(0))
            while isinstance(head[-1], str) and head[-1].isspace():
                head.pop()
            if len(head) == 1 and (isinstance(head[0], list) or re.match(r"[^\W\d]", head[0]) or isinstance(head[0], Projection)):
                it = Projection(flat(head) + t)
            else:
                it = Projection("(" + flat(head) + ")" + t)
            out[start:] = lead + [it]
        else:
            out.append(t)
            if t in OPERATORS or t in (";", ",", "{", "}", "(", ")") or t.endswith("."):
                start = len(out)
    return out


class Projection(str):
    pass


def respelled(text, of):
    text = re.sub(r"(?<![^\s({,])_([^\s\w(){};,]+)_(?![^\s)},])", r"◌\1◌", text)
    return flat(tight(parsed(names(text, of))))


def words(text):
    return set(WORD.findall(text))


def primed(w):
    return w.replace("′", "'")


class Names:
    """What an old name is called today: in a file, and where the file says nothing, in its crate, and then anywhere."""

    def __init__(self):
        self.table = table()
        self.all = None
        self.crates = {}

    def today_of(self, folder):
        if folder not in self.crates:
            found = set()
            for at, dirs, files in os.walk(folder):
                dirs[:] = [d for d in dirs if d not in ("out", "must-fail", "wrong-answers", "harmless", "data")]
                for f in files:
                    if f.endswith((".antt", ".rt")) and f not in ("Proof.antt", "Answers.antt"):
                        found |= words(today(os.path.join(at, f)))
            self.crates[folder] = found
        return self.crates[folder]

    def of(self, path, *texts):
        """The names of an old file, and of these texts, that are spelled otherwise today."""
        was, now = words(old_text(path) or ""), words(today(path) or "")
        crate = self.today_of("/".join(path.split("/")[:2])) if path.startswith("crates/") else set()
        found = {}
        for w in was.union(*map(words, texts)):
            for p in {w} | set(w.strip(".").split(".")):
                mine = [self.table.get(p), KIT.get(p), respell.snake(p), respell.snake(p) + "_lem"]
                mine = [x for x in mine if x and x != p]
                for here in (now, crate, None):
                    if here is not None and p in here:
                        break
                    hit = [x for x in mine if here is None and x in (self.table.get(p), KIT.get(p)) or here is not None and x in here]
                    if hit:
                        found[p] = hit[0]
                        break
        return found


# --- one edit --------------------------------------------------------------------------------------------------------------------------


def line_at(text, at):
    a = text.rfind("\n", 0, at) + 1
    b = text.find("\n", at)
    return a, len(text) if b < 0 else b


def is_antt(path, text, at):
    return path.endswith(".antt") or any(a <= at < b for a, b in respell.ghost_spans(text))


def least(one, other, text):
    """The texts to change and to write, whole words, so that the first stands in text once."""
    a = 0
    while a < min(len(one), len(other)) and one[a] == other[a]:
        a += 1
    b = 0
    while b < min(len(one), len(other)) - a and one[-1 - b] == other[-1 - b]:
        b += 1
    end = len(one) - b
    while True:
        while a and not (one[a - 1].isspace() and not one[a].isspace()):
            a -= 1
        while end < len(one) and not one[end].isspace():
            end += 1
        if text.count(one[a:end]) == 1 or (a == 0 and end == len(one)):
            return one[a:end], other[a : len(other) - (len(one) - end)]
        if a and not one[:a].isspace():
            a -= 1
        elif end < len(one):
            end += 1
        else:
            a = 0


class ByHand(Exception):
    pass


def turned(edit, given):
    """The edit's text as it is spelled today, and what is to be looked at."""
    with open(edit, encoding="utf-8") as f:
        lines = f.read().split("\n")
    out, path, at, left = [], None, None, []
    was, now = {}, {}
    for line in lines:
        if line.startswith("file: "):
            path = os.path.join(base(edit), line[6:].strip())
            out.append(line)
        elif line.startswith("old: "):
            old, at = line[5:], len(out)
            out.append(line)
        elif line.startswith("new:") and at is not None:
            new = line[5:]
            out.append(line)
            if path not in was:
                was[path], now[path] = old_text(path), today(path)
            try:
                a, b = pair(path, old, new, was, now, given)
                out[at], out[-1] = "old: " + a, ("new: " + b).rstrip() if not b else "new: " + b
            except ByHand as why:
                left.append(f"{why}: {old}")
            at = None
        elif line.startswith("#"):
            of = given.of(path or os.path.join(base(edit), "src/lib.rt"), line)
            fact = re.match(r"# fact: (\S+)$", line)
            out.append("# fact: " + of.get(fact[1], fact[1]) if fact else re.sub(respell.WORDS, lambda m: comment_word(m[0], of), line))
        else:
            out.append(line)
    return "\n".join(out), left


def comment_word(w, of):
    return of[w] if w in of and (re.search("[a-z0-9][A-Z]", w) or "-" in w) else w


def pair(path, old, new, was, now, given):
    if "/proofs/" in path:
        raise ByHand("a proof file, which is written anew")
    if was[path] is None:
        raise ByHand("the old tree has no such file")
    if now[path] is None:
        raise ByHand("the file is gone")
    if was[path].count(old) != 1:
        raise ByHand(f"it stands {was[path].count(old)} times in the old file")
    at = was[path].index(old)
    antt = is_antt(path, was[path], at)
    start, end = line_at(was[path], at)
    line = was[path][start:end]
    changed = line[: at - start] + new + line[at - start + len(old) :]
    was[path] = was[path][:start] + changed + was[path][end:]
    of = given.of(path, new) if antt else {}
    one, other = (respelled(line, of), respelled(changed, of)) if antt else (line, changed)
    its = now[path].split("\n")
    if not antt and now[path].count(old) == 1:  # rt fmt may have joined its lines
        now[path] = now[path].replace(old, new)
        return old, new
    if its.count(one) == 0:
        raise ByHand(f"no line is today as the old one would be ({one.strip()})")
    a, b = (respelled(old, of), respelled(new, of)) if antt else (old, new)
    if now[path].count(a) != 1 or one.replace(a, b, 1) != other or one.count(a) != 1:
        a, b = least(one, other, now[path])
    if now[path].count(a) != 1:
        raise ByHand(f"it would stand {now[path].count(a)} times ({a})")
    if not now[path][: now[path].index(a)].count("\n") in [i for i, x in enumerate(its) if x == one]:
        raise ByHand(f"it would stand in another line ({a})")
    now[path] = now[path].replace(a, b)
    return a, b


def check(edit, given):
    with open(edit, encoding="utf-8") as f:
        lines = f.read().split("\n")
    said, path, old, texts, pairs, news = [], None, None, {}, 0, []
    for line in lines:
        if line.startswith("file: "):
            path = os.path.join(base(edit), line[6:].strip())
            if path not in texts:
                texts[path] = today(path)
            if texts[path] is None:
                said.append(f"there is no {path}")
        elif line.startswith("old: "):
            old = line[5:]
        elif line.startswith("new:") and old is not None:
            new, pairs = line[5:], pairs + 1
            if old == new:
                said.append(f"new is old: {old}")
            if texts[path] is not None:
                if texts[path].count(old) != 1:
                    said.append(f"it stands {texts[path].count(old)} times: {old}")
                else:
                    antt = is_antt(path, texts[path], texts[path].index(old))
                    here = words(texts[path])
                    for w in sorted(words(old + " " + new)) if antt and "/proofs/" not in path else []:
                        if w not in here and (w in given.table or w in KIT or re.fullmatch(r"\.[A-Za-z][\w'-]*", w) or re.search("^[a-z].*[a-z][A-Z]|′", w)):
                            said.append(f"a word of the older spelling: {w}")
                    if antt and not re.search(r"/proofs/.*/", path):
                        news.append((path, texts[path], new))
                    if antt and re.search(r"(?<=[\w)]) \.[a-zA-Z]|[⌜⌝]", old + " " + new):
                        said.append(f"a projection or a clause in the older form: {old} / {new}")
                    texts[path] = texts[path].replace(old, new)
            old = None
        elif line.startswith("#"):
            fact = re.match(r"# fact: (\S+)$", line)
            for w in [fact[1]] if fact else respell.WORDS.findall(line):
                if w in given.table and (re.search("[a-z0-9][A-Z]", w) or "-" in w):
                    said.append(f"a word of the older spelling: {w}")
    for path, text, new in news:
        # (a projection, and what stands behind a module's name, need no import; another pair may bring one)
        has = set(NAMES.findall(text)).union(*(NAMES.findall(n) for p, _, n in news if p == path and re.search(r"^use |\{|\}$|^[\w, ]+,$", n)))
        bound = set(" ".join(re.findall(r"λ ([^.]*)\.", new)).split())
        for w in re.findall(r"(?<![\w'.)\\])[A-Za-z_][\w'-]*(?![\w'.])|(?<= )[^\w\s(){}.;,\"'◌]+(?= )", new):
            if w not in has and w not in bound and not re.search(w + r" as \w", new):
                said.append(f"a name that the file has nowhere else: {w} ({new})")
    if not pairs:
        said.append("it changes nothing")
    return said


def main(argv):
    checks, dry = "--check" in argv, "--dry" in argv
    named = [a for a in argv if not a.startswith("--")]
    given, bad, n = Names(), 0, 0
    for edit in edits(named):
        n += 1
        if checks:
            said = check(edit, given)
            for s in said:
                print(f"{edit}: {s}")
            bad += bool(said)
            continue
        text, left = turned(edit, given)
        for s in left:
            print(f"{edit}: BY HAND: {s}")
        bad += bool(left)
        with open(edit, encoding="utf-8") as f:
            was = f.read()
        if text != was:
            for a, b in zip(was.split("\n"), text.split("\n")):
                if a != b:
                    print(f"{edit}:\n    {a}\n    {b}")
            if not dry:
                with open(edit, "w", encoding="utf-8") as f:
                    f.write(text)
    print(f"{n} edits, {bad} " + ("do not fit" if checks else "with a part that is left by hand"))
    return bad and checks


if __name__ == "__main__":
    raise SystemExit(main(sys.argv[1:]))
