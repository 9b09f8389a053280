#!/usr/bin/env python3
"""Spells the names of definitions and laws in the pages, and in comments of the sources, as tools/respell.py spelled them in the proofs.

usage: tools/respell-pages.py [ROOT]      once, in a clone that has the two commits

Right behind the turn (docs/PORT.md, line 2) each file of specs/ and of laws declares as many names as right before it, in the same order; the table is
their pairs. A name is turned between backticks and in lines of code; elsewhere only where no word of a sentence looks like it: with a capital within.
Left alone are docs/PORT.md, and docs/unfinished, a change that has not landed.
"""
import functools
import importlib.util
import os
import re
import subprocess
import sys

HERE = os.path.dirname(os.path.abspath(__file__))
ROOT = sys.argv[1] if len(sys.argv) > 1 else "."
LEFT = ("docs/PORT.md", "docs/unfinished")
DECLARES = re.compile(r"crates/\w+/(?:specs/.*|proofs/[^/]+)\.antt")


def loaded(name):
    spec = importlib.util.spec_from_file_location(name, os.path.join(HERE, f"{name}.py"))
    made = importlib.util.module_from_spec(spec)
    spec.loader.exec_module(made)
    return made


respell = loaded("respell")


def git(*words):
    return subprocess.run(["git", "-C", ROOT, *words], capture_output=True, encoding="utf-8", check=True).stdout


def table():
    """What each name that was turned is called now."""
    with open(os.path.join(ROOT, "docs/PORT.md"), encoding="utf-8") as f:
        after = f.read().split()[1]
    found = {}
    for path in git("ls-tree", "-r", "--name-only", after).split("\n"):
        if not DECLARES.fullmatch(path):
            continue
        old, new = (respell.declared_in_order(git("show", f"{commit}:{path}")) for commit in (f"{after}^", after))
        if len(old) != len(new):
            sys.exit(f"{path} declares {len(old)} names before the turn and {len(new)} behind it")
        for one, other in zip(old, new):
            if found.setdefault(one, other) != other:
                sys.exit(f"{one} became {found[one]} and, in {path}, {other}")
    return {one: other for one, other in found.items() if one != other}


def turned(text, names, is_code):
    """The text with its names turned: all of them in code, and else those with a capital within."""

    def one(m):
        word = m.group(0)
        plain = not is_code and not re.search(r"[a-z0-9][A-Z]", word)
        return word if plain else names.get(word, word)

    return respell.WORD.sub(one, text)


def between_backticks(text, names):
    parts = text.split("`")
    # an odd one is open to the end of its line, and no code
    return "`".join(turned(part, names, at % 2 == 1 and at < len(parts) - 1) for at, part in enumerate(parts))


def is_indented(lines, at):
    """Whether a line is one of code by its indent, and no item of a list or what goes on in one."""
    line, before = lines[at], lines[at - 1] if at else ""
    item = "`" in line or re.match(r" +(?:[-*]|\d+\.) ", line)
    return line.startswith("    ") and not item and (not before.strip() or before.startswith("    "))


def page(text, names):
    lines, fenced = text.split("\n"), False
    for at, line in enumerate(lines):
        if line.startswith("```"):
            fenced = not fenced
        elif fenced or is_indented(lines, at):
            lines[at] = turned(line, names, True)
        else:
            lines[at] = between_backticks(line, names)
    return "\n".join(lines)


def comments(text, names, mark):
    """A source with the names in its comments turned, which begin with a mark."""
    lines = text.split("\n")
    for at, line in enumerate(lines):
        start = line.find(mark)
        if start >= 0 and (mark == "//" or not line[:start].strip()):
            lines[at] = line[:start] + between_backticks(line[start:], names)
    return "\n".join(lines)


def main():
    names = table()
    changed = []
    for path in git("ls-files").split("\n"):
        if path.endswith(".md"):
            how = page
        elif re.fullmatch(r"crates/\w+/src/.*\.rt|host/.*\.rs", path):
            how = functools.partial(comments, mark="//")
        elif re.fullmatch(r"crates/\w+/(?:specs|proofs)/.*\.antt", path):
            how = functools.partial(comments, mark="--")
        else:
            how = None
        if how is None or path.startswith(LEFT) or not os.path.isfile(os.path.join(ROOT, path)):
            continue
        with open(os.path.join(ROOT, path), encoding="utf-8") as f:
            text = f.read()
        new = how(text, names)
        if new != text:
            with open(os.path.join(ROOT, path), "w", encoding="utf-8") as f:
                f.write(new)
            changed.append(path)
    print(f"{len(names)} names; {len(changed)} files: {' '.join(changed)}")


if __name__ == "__main__":
    main()
