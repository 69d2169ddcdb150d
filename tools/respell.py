#!/usr/bin/env python3
"""Brings the repository's own definitions and lemmas to this Rattle's spelling, after port.py.

usage: python3 tools/respell.py [FOLDER]

Names of definitions and lemmas with a dash are written in snake case, and facts and records in camel case: `next-at` is `next_at`,
`Kept-own` and `Laid_out` are `KeptOwn` and `LaidOut`. In clauses the other names that only stood for a dash (`next-at as nextAt`) go. A name keeps its dash where the
new name is taken already, where the library has the old one, and where a lemma is named after a fact (`All-append`).
Functions of src/, exported names, texts, goals and files keep their names. Run it once.
"""
import os
import re
import sys

root = os.path.abspath(sys.argv[1] if len(sys.argv) > 1 else ".")
WORD = re.compile(r"[A-Za-z_\u0370-\u03ff][A-Za-z0-9_'\u0370-\u03ff\u2080-\u2089\u2115\u2124-]*")
HEAD = re.compile(r"^(\s*)((?:(?:abbrev|unfoldable|pub|data|record)\s+)*)([^\s(){}.,;:]+)\s*(?=[:({])")


def files(ends, below):
    for top, dirs, names in os.walk(os.path.join(root, below)):
        dirs[:] = sorted(d for d in dirs if d not in ("out", ".git"))
        for n in sorted(names):
            if n.endswith(ends):
                yield os.path.join(top, n)


def text(p):
    with open(p, encoding="utf-8") as f:
        return f.read()


antt = list(files(".antt", "crates"))
code = list(files(".rt", "crates"))
OF_A_FUNCTION = ("Answers.antt", "Invariants.antt", "Choices.antt", "Proof.antt", "Lib.antt")

# what the files declare: name -> is it a definition
declared = {}
fields = set()
for p in antt:
    if os.path.basename(p) in OF_A_FUNCTION and "/specs/" not in p:
        continue
    inside = None  # the indent of the record whose fields follow
    for line in text(p).split("\n"):
        if not line.strip() or line.lstrip().startswith("--") or line.startswith("use "):
            continue
        m = HEAD.match(line)
        indent = len(line) - len(line.lstrip())
        if inside is not None and indent <= inside:
            inside = None
        if not m:
            continue
        words = m.group(2).split()
        name = m.group(3)
        if inside is not None and "record" not in words:
            fields.add(name)
        if "record" in words:
            inside = indent
        if ("-" in name and not name.startswith("-")) or re.match(r"[A-Z][^_]*_", name):
            of_specs = "/specs/" in p
            declared[name] = declared.get(name, False) or of_specs or bool({"abbrev", "unfoldable", "record", "data"} & set(words))

# other names that an import gives
for p in antt:
    for line in text(p).split("\n"):
        if line.startswith("use "):
            for name in re.findall(r" as ([^\s,;{}]+)", line):
                if "-" in name:
                    declared[name] = True

used = set()
goals = set()
for p in antt + code:
    t = text(p)
    if p.endswith(".antt"):
        for line in t.split("\n"):
            if line.startswith("use "):
                line = line[line.index(".{") + 1 :] if ".{" in line else line.rsplit(" ", 1)[-1].rsplit(".", 1)[-1]
            used |= {m.group(0) for m in WORD.finditer(line.split("-- ")[0]) if not line[: m.start()].endswith(".")}
    for m in re.finditer(r"\.(?:Goals|Given)\.\{([^}]*)\}", t):
        goals |= set(WORD.findall(m.group(1)))
    for m in re.finditer(r"\bgoal\.([^\s(){},;]+)", t):
        goals.add(m.group(1))

# what the files take from the library
own = sorted(os.listdir(os.path.join(root, "crates")))
library = set()
for p in antt + code:
    for m in re.finditer(r"\buse ((?:[\w+'-]+\.)+)\{([^}]*)\}", text(p)):
        path = m.group(1).split(".")
        if path[0] != "Rattle" or path[1] not in own:
            library |= set(WORD.findall(m.group(2)))


def respelt(name):
    parts = name.split("-")
    if name[0].isupper():
        parts = re.split("[-_]", name)
        return "".join(p[:1].upper() + p[1:] for p in parts)
    return "_".join(parts)


new = {}
kept = []
for name, definition in sorted(declared.items()):
    to = respelt(name)
    if name in goals:
        kept.append((name, "a goal has this name"))
    elif name in library:
        kept.append((name, "the library has this name"))
    elif to in used or to in new.values():
        kept.append((name, "taken: " + to))
    elif name[0].isupper() and not definition:
        kept.append((name, "a lemma named after a fact"))
    else:
        new[name] = to


def turned(t):
    def one(m):
        w = m.group(0)
        if w not in new:
            return w
        before = t[: m.start()]
        if before.endswith(".") and w not in fields and not re.search(r"(Rattle\.[\w.+]*|\b[A-Z]\w*)\.$", before[-200:]):
            return w
        return new[w]

    return WORD.sub(one, t)


changed = 0
for p in antt:
    t = text(p)
    r = turned(t)
    if r != t:
        changed += 1
        with open(p, "w", encoding="utf-8") as f:
            f.write(r)

for p in code:
    t = text(p)
    r = []
    aliases = {}

    def item(m):
        old, alias = m.group(1), m.group(2)
        to = new.get(old, old)
        plain = re.compile(r"(?<![\w'-])" + re.escape(to) + r"(?![\w'-])")
        rest = "\n".join(line for line in t.split("\n") if not line.lstrip().startswith("ghost use"))
        if to == alias:
            return to
        if "-" not in to and respelt_alias(to) == alias and not plain.search(rest) and aliases.get(alias, to) == to:
            aliases[alias] = to
            return to
        return f"{to} as {alias}"

    def respelt_alias(to):
        parts = to.split("_")
        return parts[0] + "".join(x[:1].upper() + x[1:] for x in parts[1:])

    lines = []
    for line in t.split("\n"):
        if line.lstrip().startswith("ghost use"):
            line = re.sub(r"([A-Za-z][\w'-]*) as ([A-Za-z]\w*)", item, line)
            line = turned(line)
        lines.append(line)
    r = "\n".join(lines)
    r = "\n".join(line if line.lstrip().startswith("//") else turned(line) for line in r.split("\n"))
    for alias, to in aliases.items():
        r = re.sub(r"(?<![\w'-])" + re.escape(alias) + r"(?![\w'-])", to, r)
    if r != t:
        changed += 1
        with open(p, "w", encoding="utf-8") as f:
            f.write(r)

print(f"respell: {len(new)} names, {changed} files")
for name, why in kept:
    print(f"kept: {name} ({why})")
