#!/usr/bin/env python3
"""Spells the repository's own definitions and lemmas as the kit's libraries spell theirs: words in snake case, types and modules in camel case.

usage: tools/respell.py [ROOT]      once, right behind port.py

What is turned: each name that a file of specs/ or a file of laws (proofs/, but for the folders of functions) declares and that has a capital
behind a small letter or a digit, or a hyphen. It gets underscores, wherever it stands in a .antt file, and in the ghost lines and clauses of .rt
files. A name of a type (it begins with a capital) keeps its capitals and loses its hyphens. In a function's folder a word behind a dot is Rattle's,
unless it is a name of specs/. Names that would fall together with another are told and get '_lem'.
"""
import os
import re
import sys

ROOT = sys.argv[1] if len(sys.argv) > 1 else "."
WORD = re.compile(r"[^\s(){}.;,@\"«»]+")
HEAD = re.compile(r"^ *(?:(?:abbrev|unfoldable|pub|pattern) )*([^\s(){}.;,@\"«»]+)(?: \{[^}\n]*\})* :(?= |$)")
RULES = re.compile(r"^ *(?:pub )?ruleset (\S+) =")
KIND = re.compile(r"^ *(?:pub )?(?:data|record) (\S+)")

# Fields of specs/ that would meet a name beside them.
BY_HAND = {"place-in": "place_inside", "at-end": "is_at_end", "calls-in": "calls_within", "settled-fields": "settled_all"}


def crates():
    base = os.path.join(ROOT, "crates")
    return sorted(c for c in os.listdir(base) if os.path.isdir(os.path.join(base, c, "src")))


def files(folder, end):
    for at, dirs, names in os.walk(folder):
        dirs[:] = sorted(d for d in dirs if d not in ("out", "target"))
        for n in sorted(names):
            if n.endswith(end):
                yield os.path.join(at, n)


def turned(name):
    if name[:1].isupper():
        # a type: camel case throughout
        parts = re.split(r"[-_]", name)
        return parts[0] + "".join(p[:1].upper() + p[1:] for p in parts[1:])
    n = re.sub(r"(?<=[a-z0-9'])([A-Z])", lambda m: "_" + m.group(1).lower(), name)
    return n.replace("-", "_")


def read(path):
    with open(path, encoding="utf-8") as f:
        return f.read()


def declared_in_order(text):
    matches = [how.match(line) for line in text.split("\n") for how in (HEAD, RULES, KIND)]
    return [m.group(1) for m in matches if m]


def declared(text):
    return set(declared_in_order(text))


def main():
    spec_names, law_names = set(), set()
    for c in crates():
        base = os.path.join(ROOT, "crates", c)
        for p in files(os.path.join(base, "specs"), ".antt"):
            spec_names |= declared(read(p))
        proofs = os.path.join(base, "proofs")
        if os.path.isdir(proofs):
            for n in sorted(os.listdir(proofs)):
                if n.endswith(".antt"):
                    law_names |= declared(read(os.path.join(proofs, n)))
    names = spec_names | law_names
    table = {}
    for n in sorted(names):
        if not re.match(r"[A-Za-z]", n):
            continue
        to = BY_HAND.get(n, turned(n))
        if to != n:
            table[n] = to
    # what falls together in some file: a definition of specs/ keeps the plain name, and a law gets '_lem'
    met = {}
    for c in crates():
        base = os.path.join(ROOT, "crates", c)
        for p in files(base, ".antt"):
            words = set(WORD.findall(read(p)))
            by = {}
            for w in words:
                by.setdefault(table.get(w, w), set()).add(w)
            for new, olds in by.items():
                if len(olds) > 1:
                    met.setdefault(new, {}).setdefault(tuple(sorted(olds)), os.path.relpath(p, ROOT))
    for new in sorted(met):
        olds = {o for o in set().union(*met[new]) if o in names}
        if len(olds) < 2:
            continue
        keep = min(olds, key=lambda o: (o not in spec_names, o != new, "-" in o, o))
        for i, o in enumerate(sorted(olds - {keep})):
            table[o] = new + "_lem" + ("" if i == 0 else str(i + 1))
            where = "specs" if o in spec_names else "proofs"
            print(f"falls together: {keep} keeps {new}; {o} ({where}) becomes {table[o]}: {list(met[new].values())[:2]}")
    said = 0
    for c in crates():
        base = os.path.join(ROOT, "crates", c)
        for p in files(base, ".antt"):
            text = read(p)
            inside = os.path.relpath(p, base).split(os.sep)
            in_function = inside[0] == "proofs" and len(inside) > 2
            out, at = [], 0
            for m in WORD.finditer(text):
                w = m.group(0)
                to = table.get(w)
                if to is None:
                    continue
                if in_function and m.start() and text[m.start() - 1] == "." and w not in spec_names:
                    continue
                out.append(text[at:m.start()])
                out.append(to)
                at = m.end()
                said += 1
            if out:
                out.append(text[at:])
                with open(p, "w", encoding="utf-8") as f:
                    f.write("".join(out))
        for p in files(os.path.join(base, "src"), ".rt"):
            text = read(p)
            lines = text.split("\n")
            for i, line in enumerate(lines):
                if re.match(r" *(ghost use|requires|ensures|ghost)\b", line):
                    lines[i] = WORD.sub(lambda m: table.get(m.group(0), m.group(0)) if m.group(0) in spec_names else m.group(0), line)
            new = "\n".join(lines)
            if new != text:
                with open(p, "w", encoding="utf-8") as f:
                    f.write(new)
    print(f"{len(table)} names, {said} places")


if __name__ == "__main__":
    main()
