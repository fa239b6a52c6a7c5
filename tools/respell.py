#!/usr/bin/env python3
"""Brings this repository's own definitions and lemmas to today's spelling: snake case, no dashes, after the kit's port.py was run.

usage: tools/respell.py [--dry]     at the top of the repository, once

A definition, lemma, record field or constructor of specs/ or proofs/ that is in lower camel case or has a dash becomes snake case, in every
.antt and .rt file. A lemma that would get its definition's name, or a word's of std, ends in `_lem`. Names of the generated modules (a
goal, a step, a field of a step) are left, and so are words that a file takes from elsewhere under the same spelling.
The list of what was renamed, old and new, is added to docs/RESPELLED.tsv.
"""
import collections
import os
import re
import sys

WORD = re.compile(r"(?<![\w'◌·-])[^\W\d][\w']*(?:-[\w']+)*")
USE = re.compile(r"^(?:pub )?(?:ghost )?use\s+([^\s{};]+?)(?:\.\{([^}]*)\})?(?: as ([^\s;]+))?;?$", re.M)
DEF = re.compile(r"^(?:abbrev |unfoldable |ruleset )*(?:pub )?([^\s:(){};,=|\[\]]+)(?: [^\n:]*?)? :(?= |\n)", re.M)
DATA = re.compile(r"^(data|record) (?:pub )?[^\n]*\bwhere\n((?:[ ]+[^\n]*\n|\n)*)", re.M)
# a definition of a section or of a `where`
INNER = re.compile(r"^ +(?:abbrev |unfoldable )*(?:pub )?([^\s:(){};,=|\[\]]+)(?: [^\n:]*?)? :(?= |\n)", re.M)
FIELD = re.compile(r"^ +([^\s:(){};,=|]+(?: [^\s:(){};,=|]+)*) :(?= |\n)", re.M)
GOAL = re.compile(r"^(?:abbrev )?(?:pub )?([^\s:(){};,=|]+) : (?:\{M : Type 1\} → )?(?:tie|goal|statement)\b", re.M)


def snake(n):
    if re.fullmatch(r"[A-Z0-9_-]+", n):
        return n.replace("-", "_")
    n = re.sub(r"(?<=[a-z0-9])([A-Z])", lambda m: "_" + m.group(1).lower(), n) if n[0].islower() else n
    return n.replace("-", "_")


def files(root):
    for top, dirs, names in os.walk(os.path.join(root, "crates")):
        dirs[:] = sorted(d for d in dirs if d != "out")
        for n in sorted(names):
            if n.endswith((".antt", ".rt")):
                yield os.path.relpath(os.path.join(top, n), root)


def deep(path):
    """A file of the proof of one function."""
    parts = path.split("/")
    return parts[2] == "proofs" and len(parts) > 4


def imports(text, crates):
    """Words that a file takes from elsewhere, and from this repository."""
    foreign, own = set(), set()
    for m in USE.finditer(text):
        path, names, alias = m.groups()
        ours = path.startswith("Rattle.") and path.split(".")[1] in crates
        words = set()
        for item in (names or "").split(","):
            words |= {w.strip() for w in item.split(" as ")} - {""}
        (own if ours else foreign).update(words)
    return foreign, own


def main():
    root = os.getcwd()
    dry = "--dry" in sys.argv
    crates = set(os.listdir(os.path.join(root, "crates")))
    texts = {p: open(os.path.join(root, p), encoding="utf-8").read() for p in files(root)}
    defs, fields, local = collections.defaultdict(set), set(), {}
    std = set()
    for p, pairs in BEFORE.items():
        for a, b in pairs:
            if p in texts and not re.search(r"(?<![\w'.-])" + b + r"(?![\w'-])", texts[p]):
                texts[p] = re.sub(r"(?<![\w'.-])" + a + r"(?![\w'-])", b, texts[p])
    for p, t in texts.items():
        foreign, own = imports(t, crates)
        std |= foreign
        here = set()
        if p.endswith(".antt"):
            goals = set(GOAL.findall(t)) if deep(p) else set()
            here = {n for n in DEF.findall(t) + INNER.findall(t)} - goals - {"use", "let", "abbrev", "pub"}
            for m in DATA.finditer(t):
                for f in FIELD.findall(m.group(2)):
                    for n in f.split(" "):
                        (fields if m.group(1) == "record" else here).add(n)
            for n in here:
                defs[n].add(p)
            local[p] = (foreign, goals)
        else:
            local[p] = (foreign, set())
    names = set(defs) | fields
    turn = {}
    wants = [n for n in sorted(names) if ("-" in n or (n[0].islower() and re.search(r"[a-z0-9][A-Z]", n))) and re.fullmatch(r"[^\W\d][\w'-]*", n)]
    taken = set(names) - set(wants)
    camel = [n for n in wants if "-" not in n]
    dashed = [n for n in wants if "-" in n]
    for n in camel:
        turn[n] = snake(n)
    spelled = set(turn.values())
    for n in dashed:
        s = snake(n)
        turn[n] = s + "_lem" if s in spelled or s in taken or s in std else s
    back = collections.defaultdict(list)
    for a, b in turn.items():
        back[b].append(a)
    for b, a in back.items():
        if len(a) > 1:
            print("together:", b, a)
    trouble = 0
    for p, t in texts.items():
        foreign, goals = local[p]
        inner = deep(p)
        out, last, hit, plain = [], 0, set(), set()
        is_rt = p.endswith(".rt")
        said = [(m.start(), m.end()) for m in COMMENT.finditer(t)]
        at = 0
        for m in WORD.finditer(t):
            w = m.group(0)
            while at < len(said) and said[at][1] <= m.start():
                at += 1
            comment = at < len(said) and said[at][0] <= m.start()
            if comment and ("-" in w and t[m.start() - 1] != "`" or w not in turn):
                continue
            before = t[m.start() - 1] if m.start() else ""
            dotted = before == "." and not t[:m.start()].endswith("..")
            if w not in turn or w in foreign or w in goals:
                if not dotted:
                    plain.add(w)
                continue
            if dotted:
                # a path of a use line or a field
                alias = re.search(r"([\w'-]+)\.$", t[max(0, m.start() - 60):m.start()])
                if alias and alias.group(1) in aliases(t, crates):
                    out.append(t[last:m.start()])
                    out.append(turn[w])
                    last = m.end()
                    continue
                if w not in fields and not re.search(r"(?:^|[\s(])(?:use |ghost use )?[\w.'-]*\.$", t[max(0, m.start() - 120):m.start()].split("\n")[-1]):
                    continue
                if w not in fields:
                    continue
                if inner and "-" in w:
                    continue
            if inner and "-" in w and w not in local_own(t, crates) and p not in defs[w]:
                plain.add(w)
                continue
            if is_rt and "-" in w and not w.isupper():
                continue
            out.append(t[last:m.start()])
            out.append(turn[w])
            last = m.end()
            if not comment:
                hit.add(w)
        out.append(t[last:])
        for w in sorted(hit):
            if turn[w] in plain and not (is_rt and not clause_has(t, turn[w])):
                trouble += 1
                print("meets:", p, w, turn[w])
        if out != [t] and not dry or p in BEFORE and not dry:
            open(os.path.join(root, p), "w", encoding="utf-8").write("".join(out))
    for top, dirs, found in os.walk(os.path.join(root, "crates")):
        for f in found if os.path.basename(top) == "must-fail" and not dry else []:
            path = os.path.join(top, f)
            t = open(path, encoding="utf-8").read()
            lines = []
            for line in t.split("\n"):
                if line.startswith(("old:", "new:")):
                    line = WORD.sub(lambda m: turn.get(m.group(0), m.group(0)), line)
                lines.append(line)
            open(path, "w", encoding="utf-8").write("\n".join(lines))
    print(len(turn), "names;", trouble, "meet another of that spelling in their file")
    if not dry:
        path = os.path.join(root, "docs", "RESPELLED.tsv")
        was = {l for l in open(path, encoding="utf-8").read().splitlines()} if os.path.exists(path) else set()
        with open(path, "w", encoding="utf-8") as f:
            f.write("\n".join(sorted(was | {f"{a}\t{b}" for a, b in turn.items()})) + "\n")


def behind_dots(root):
    """What stands behind a dot: fields of records, and constructors behind the name of their type."""
    turn = {}
    for line in open(os.path.join(root, "docs", "RESPELLED.tsv"), encoding="utf-8"):
        a, b = line.rstrip("\n").split("\t")
        turn.setdefault(a, b)
    paths = [p for p in files(root) if p.endswith(".antt")]
    fields = set()
    for p in paths:
        t = open(os.path.join(root, p), encoding="utf-8").read()
        for m in re.finditer(r"^ *(?:pub )?record (?:pub )?.*\n((?:(?:[ ]+[^\n]*)?\n)*)", t, re.M):
            for k in re.finditer(r"^ +([\w' -]+) :", m.group(1), re.M):
                fields |= set(k.group(1).split())
    for p in paths:
        t = open(os.path.join(root, p), encoding="utf-8").read()
        inner = deep(p)

        def field(m):
            w = m.group(1)
            generated = inner and "-" in w and t[max(0, m.start() - 7):m.start()].endswith("before")
            return "." + turn[w] if turn.get(w) in fields and not generated else m.group(0)

        def constructor(m):
            w = m.group(2)
            return m.group(1) + "." + turn[w] if w in turn and not (inner and "-" in w) else m.group(0)

        u = re.sub(r"(?<=[\w')\]])\.([a-z][\w']*(?:-[\w']+)*)", field, t)
        u = re.sub(r"(?<![\w'.-])([A-Z][\w']*)\.([a-z][\w']*(?:-[\w']+)*)", constructor, u)
        if u != t:
            open(os.path.join(root, p), "w", encoding="utf-8").write(u)


# Lemmas that already have the new spelling of a definition that stands in their file.
BEFORE = {
    "crates/mirror_box/proofs/Questions.antt": [("or_later", "or_later_lem")],
    "crates/oof_axis/proofs/Laws.antt": [("is_normal", "is_normal_lem")],
    "crates/oof_box_laws/proofs/Resolved.antt": [("left_out", "left_out_lem")],
}
COMMENT = re.compile(r"(?m)(?:^|(?<=\s))(?:--|//)(?=\s|$).*$")
CACHE = {}


def aliases(t, crates):
    """What a file calls modules of this repository that it takes whole, generated ones aside."""
    k = ("as", id(t))
    if k not in CACHE:
        CACHE[k] = {
            a
            for path, _, a in USE.findall(t)
            if a and path.startswith("Rattle.") and path.split(".")[1] in crates and path.split(".")[-1] not in ("Statement", "Tie", "Reads", "Lts", "TheVariants")
        }
    return CACHE[k]


def local_own(t, crates):
    k = id(t)
    if k not in CACHE:
        CACHE[k] = imports(t, crates)[1]
    return CACHE[k]


def clause_has(t, word):
    """Whether a clause, a ghost line or a parameter of a .rt file has the word."""
    for m in re.finditer(r"(?:requires|ensures)(?: \w+)? \{((?:[^{}]|\{[^{}]*\})*)\}|ghost use[^;]*;", t):
        if re.search(r"(?<![\w'.])" + re.escape(word) + r"(?![\w'])", m.group(0)):
            return True
    for m in re.finditer(r"fn \w+(?:<[^>]*>)?\(([^)]*)\)", t):
        if re.search(r"(?<![\w'])" + re.escape(word) + r":", m.group(1)):
            return True
    return False


main()
if "--dry" not in sys.argv:
    behind_dots(os.getcwd())
