#!/usr/bin/env python3
"""Spells the repository's own names in today's way: a fact or a type in upper camel case, every other word in snake case.

usage: tools/respell.py [--list]      at the top of the repository

Run once, after the toolchain's own script for an older repository. A name is the repository's own where a file of specs/ or proofs/ declares
it, binds it or gives it to an import. What a library is called by, and the labels that the check makes of the code, stay. Functions,
fields and text of src/ stay too: there only the clauses, ghost items and their imports turn.
"""
import collections
import os
import re
import sys

WORD = re.compile(r'[^\s(){}.;,@"«»`]+')
DECLARED = re.compile(r'(?m)^[ |]*(?:module _ [^\n]*where *)?(?:(?:pub|abbrev|record|data|unfoldable|where|let) +)*([^\s(){}.;,@"«»]+)((?: [({][^\n]*?[)}])*) :(?=\s)')
LET = re.compile(r'\blet ([^\s(){}.;,@"«»]+)')
IN_LINE = re.compile(r'(?<=[\s(])([^\s(){}.;,@"«»]+) : ')
ALIAS = re.compile(r'\bas ([^\s(){}.;,@"«»]+)')
HEAD = re.compile(r'\bλ ([^.;]*?)\.')
ARM = re.compile(r'\|?\s*(?:inl|inr) ([^\s(){}.;,@"«»]+)(?: ([^\s(){}.;,@"«»]+))? ↦')
USED = re.compile(r'use Rattle\.(?:std|core)\b[^{\n;]*\{([^}]*)\}')
QUIET = re.compile(r'--[^\n]*|"[^"\n]*"')
LETTER = re.compile(r'[A-Za-z]')
ANSWERS = re.compile(r'/(Answers|Invariants)(/.*)?\.antt$')


def files(ends):
    for top, dirs, names in os.walk("crates"):
        dirs[:] = sorted(d for d in dirs if d != "out")
        for n in sorted(names):
            if n.endswith(ends):
                yield os.path.join(top, n)


def turned(name):
    if not LETTER.search(name) or "◌" in name:
        return name
    parts = name.split("-")
    if any(p == "" for p in parts) or "→" in name:
        return name
    if name[0].isupper() and not re.fullmatch(r"[A-Z]\d*", parts[0]):
        return "".join(p[:1].upper() + p[1:] for p in parts)
    return "_".join(parts)


def own():
    # a record whose parameters go over a line, and variables of patterns
    ours, theirs, fields = {"Run-of", "idle-u", "small-op", "idle-row", "about-n"}, set(), set()
    for p in files(".antt"):
        raw = open(p, encoding="utf-8").read()
        t = QUIET.sub("", raw)
        for m in USED.finditer(t):
            theirs.update(re.split(r"\s+as\s+", x.strip())[0] for x in m.group(1).split(","))
        answers = ANSWERS.search(p)
        for m in DECLARED.finditer(t):
            if answers and re.search(r"goal\.", t[m.end() : m.end() + 12]):
                continue
            ours.add(m.group(1))
            if not answers:
                fields.add(m.group(1))
        for r in (LET, ALIAS):
            ours.update(m.group(1) for m in r.finditer(t))
        if not answers:
            ours.update(m.group(1) for m in IN_LINE.finditer(t))
        else:
            ours.update(m.group(1) for m in IN_LINE.finditer(t) if not t[m.end() :].startswith("goal."))
        for m in HEAD.finditer(t):
            ours.update(WORD.findall(m.group(1)))
        for m in ARM.finditer(t):
            ours.update(x for x in m.groups() if x)
    return ours, theirs, fields


def main():
    ours, theirs, fields = own()
    table = {n: turned(n) for n in ours if "-" in n and turned(n) != n}
    clash = {n for n in table if n in theirs}
    met = collections.defaultdict(set)
    for n in ours:
        met[table.get(n, n)].add(n)
    together = {k: v for k, v in met.items() if len(v) > 1}
    if "--list" in sys.argv:
        for n in sorted(table):
            print(n, table[n], sep="\t")
        print("also a library's:", sorted(clash))
        print("fall together:", sorted((k, sorted(v)) for k, v in together.items()))
        rest = collections.Counter()
        for p in files(".antt"):
            for w in WORD.findall(QUIET.sub("", open(p, encoding="utf-8").read())):
                if "-" in w and LETTER.search(w) and w not in table and w not in theirs and "◌" not in w:
                    rest[w] += 1
        print("left:", sorted(rest.items()))
        return

    def quietly(t, turn):
        out, at = [], 0
        for m in QUIET.finditer(t):
            out.append(turn(t[at : m.start()]))
            out.append(re.sub(r"`([^`\n]*)`", lambda x: "`" + turn(x.group(1)) + "`", m.group()) if m.group().startswith("--") else m.group())
            at = m.end()
        out.append(turn(t[at:]))
        return "".join(out)

    for p in files(".antt"):
        t = open(p, encoding="utf-8").read()
        here = set()
        for m in USED.finditer(t):
            here.update(x.strip() for x in m.group(1).split(","))
        answers = bool(ANSWERS.search(p))
        labels = set(re.findall(r"(?m)^(?:abbrev )?pub ([^\s:]+) : goal\.", t)) if answers else set()

        def turn(part, answers=answers, here=here, labels=labels):
            out, at = [], 0
            for m in WORD.finditer(part):
                w = m.group()
                if w not in table or w in here or w in labels:
                    continue
                if answers and part[m.start() - 1 : m.start()] == "." and w not in fields:
                    continue
                out.append(part[at : m.start()])
                out.append(table[w])
                at = m.end()
            out.append(part[at:])
            return "".join(out)

        new = quietly(t, turn)
        if new != t:
            open(p, "w", encoding="utf-8").write(new)
    for p in files(".rt"):
        t = open(p, encoding="utf-8").read()

        def line(s):
            if s.lstrip().startswith("//"):
                return re.sub(r"`([^`\n]*)`", lambda x: "`" + "".join(table.get(w, w) for w in re.split(r"(\s+)", x.group(1))) + "`", s)
            if "-" not in s or '"' in s:
                return s
            return WORD.sub(lambda m: table.get(m.group(), m.group()), s)

        new = "\n".join(line(s) for s in t.split("\n"))
        if new != t:
            open(p, "w", encoding="utf-8").write(new)


main()
