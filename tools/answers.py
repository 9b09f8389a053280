#!/usr/bin/env python3
"""Turns proofs by hand of the older Rattle, proofs/F/Proof.antt, to Invariants.antt and Answers.antt.

usage: tools/answers.py CRATE_FOLDER NAMES.json [FOLDER..]

NAMES.json is what 'rt check --generated DIR --old-names' writes: the old and the new name of each goal and step. An answer that a plain search gives is
left out, since the check finds it. What could not be turned is told. With FOLDERs (below proofs/) only these are turned.
"""
import json
import os
import re
import sys

TRIVIAL = {"search rules", "omega arith", "search (rules, arith)", "search arith"}
FIELDS = {"type-inv": "type_inv", "well-formed": "well_formed"}
TOKEN = r"[^\s(){}.;,@\"«»]"


def quoted(v):
    return "«data»" if v == "data" else v


def norm(n):
    n = n.replace("_", "-")
    n = re.sub(r"^(overflow|nonzero)-", "", n)
    return n


def squash(n):
    return re.sub(r"[-_]", "", n)


def blocks(text):
    """Top declarations: a signature line in column 0 with all that follows to the next blank line in column 0 text."""
    out, cur = [], []
    for line in text.split("\n"):
        if line and not line[0].isspace() and cur and cur[-1] == "":
            out.append(cur)
            cur = []
        cur.append(line)
    if cur:
        out.append(cur)
    return ["\n".join(b).rstrip("\n") for b in out]


def nested(path, fields):
    """The clause that a path of positions named where the clauses were pairs within pairs, with what is left of the path."""
    steps = path.split(".")[1:]
    for i in range(len(fields) - 1):
        if not steps:
            return None
        s = steps.pop(0)
        if s == "0":
            return "." + fields[i] + "".join("." + x for x in steps)
        if s != "1":
            return None
    return "." + fields[-1] + "".join("." + x for x in steps)


def source_clauses(crate, rel):
    """The names of the ensures and of the requires clauses of the function whose folder below proofs/ is rel."""
    *modules, name = rel.split(os.sep)
    for module in [*modules[-1:], "lib", "main"]:
        path = os.path.join(crate, "src", module + ".rt")
        if not os.path.isfile(path):
            continue
        with open(path, encoding="utf-8") as f:
            t = f.read()
        m = re.search(rf"(?m)^ *(?:pub(?:\(crate\))? )?(?:extern \"C\" )?fn {re.escape(name.lstrip('+'))}\b(.*?)^ *\{{$", t, re.S | re.M)
        if m:
            return tuple(re.findall(rf"(?m)^ *{kind} (\w+) \{{", m.group(1)) for kind in ("ensures", "requires"))
    return [], []


def requires_of(crate, goal, params):
    """The names of the requires clauses of the function whose call the goal is about."""
    best = None
    for path in params:
        name = path.split("::")[-1]
        if goal.startswith(name + "-") and (best is None or len(name) > len(best.split("::")[-1])):
            best = path
    if best is None:
        return []
    parts = best.split("::")
    folder = os.path.join(crate, "..", parts[0])
    if not os.path.isdir(folder):
        return []
    return source_clauses(folder, os.sep.join(parts[1:]))[1]


def by_clause(expr, fields):
    """An answer that gave pairs within pairs as a record of the clauses."""
    if len(fields) < 2:
        return expr
    to = as_record(expr, fields)
    if to != expr:
        return to
    flat = re.sub(r"\s+", " ", expr).strip()
    last = re.split(r" in ", flat)[-1]
    if re.match(r"(search|omega|grind|record|cc|assumption|rw|simp|elim)\b", last):
        return expr
    at = ["h." + "".join("1." for _ in range(i)) + "0" for i in range(len(fields) - 1)] + ["h." + ".".join("1" for _ in range(len(fields) - 1))]
    body = expr.strip("\n").strip()
    inner = body.replace("\n", "\n    ")
    if "let " in body:
        inner = "(" + inner + ")"
    return f"\n    let h =\n        {inner} in\n    record {{ " + "; ".join(f"{f} = {a}" for f, a in zip(fields, at)) + " }"


def at_commas(text):
    """The parts of a text between its commas that stand in no bracket; none where a bracket closes that is not open."""
    parts, depth = [""], 0
    for ch in text:
        depth += (ch in "({[") - (ch in ")}]")
        if depth < 0:
            return []
        if ch == "," and depth == 0:
            parts.append("")
        else:
            parts[-1] += ch
    return parts


def as_record(expr, fields):
    """The last tuple of an answer as a record of its clauses."""
    if len(fields) < 2:
        return expr
    t = expr.rstrip()
    if not t.endswith(")"):
        return expr
    depth, i = 0, len(t) - 1
    while i >= 0:
        if t[i] == ")":
            depth += 1
        elif t[i] == "(":
            depth -= 1
            if depth == 0:
                break
        i -= 1
    before = t[:i].rstrip()
    if before and not re.search(r"(\bin|=|^)$", before):
        return expr
    parts = at_commas(t[i + 1:-1])
    if parts and not parts[-1].strip():
        parts.pop()
    # pairs within pairs: the last part is cut on
    while 1 < len(parts) < len(fields):
        last = parts[-1].strip()
        more = at_commas(last[1:-1]) if last.startswith("(") and last.endswith(")") else []
        if len(more) < 2:
            return expr
        parts[-1:] = more
    if len(parts) != len(fields):
        return expr
    return t[:i] + "record { " + "; ".join(f"{f} = {p.strip()}" for f, p in zip(fields, parts)) + " }"


def main():
    crate, names = sys.argv[1], json.load(open(sys.argv[2]))
    only = set(sys.argv[3:])
    crate_name = os.path.basename(os.path.abspath(crate))
    for at, dirs, files in sorted(os.walk(os.path.join(crate, "proofs"))):
        if "Proof.antt" not in files:
            continue
        rel = os.path.relpath(at, os.path.join(crate, "proofs"))
        if only and rel not in only:
            continue
        path = ".".join(rel.split(os.sep))
        entry = names.get(f"Rattle-{crate_name}-proofs.{path}.Lts")
        if entry is None:
            print(f"left: {rel}: no names")
            continue
        turn(crate, crate_name, at, rel, path, entry)


def turn(crate, crate_name, at, rel, path, entry):
    text = open(os.path.join(at, "Proof.antt"), encoding="utf-8").read()
    bs = blocks(text)
    needs = {norm(o): n for o, n in entry["needs"]}
    steps = {}
    for place in entry["places"]:
        o, n = place[2]
        if o:
            steps[squash(o)] = n
    # the clauses of each call, by the new name of its step
    told = {}
    for place, c in zip(entry["places"], entry["clauses"]):
        if c and place[2][1] and len(c["fields"]) > 1:
            told[place[2][1]] = c["fields"]

    def clauses(expr):
        alias = {m.group(1): m.group(2) for m in re.finditer(rf"let (\S+) = (?:{TOKEN}+\.)*({TOKEN}+) in", expr)}

        def one(m):
            fields = told.get(alias.get(m.group(1), m.group(1)))
            to = nested(m.group(2), fields) if fields else None
            return f"{m.group(1)}.ensures{to}" if to else m.group(0)

        for m in list(re.finditer(rf"let (\S+) = (?:{TOKEN}+\.)*({TOKEN}+)\.ensures in", expr)):
            fields = told.get(alias.get(m.group(2), m.group(2)))
            if fields:
                expr = re.sub(rf"(?<![\w.-]){re.escape(m.group(1))}((?:\.\d+)+)", lambda k: m.group(1) + (nested(k.group(1), fields) or k.group(1)), expr)
        return re.sub(rf"({TOKEN}+)\.ensures((?:\.\d+)+)", one, expr)

    loops = {}
    for ((o, n), vars_), ch in zip(entry["loops"], entry["changed"]):
        loops[squash(o)] = (n, vars_, ch)
    head, uses, helpers, invs, answers, said = [], [], [], [], [], []
    local = {}
    own_ensures, own_requires = source_clauses(crate, rel)
    places_by = {squash(p[0]): n for p, n in zip(entry["places"], entry["places_by_name"])}
    heads = set(re.findall(r"(?m)^(\S+) : tie\.Need-", text))

    def fix_paths(body):
        # steps behind a dot; the way there is flat, but where an answer is cited at an earlier place
        body = re.sub(rf"(?<![^\s(){{}};,])({TOKEN}+) (\w+)((?:\.before)+)(?![\w.-])", lambda m: f"{m.group(1)} {m.group(2)}" + m.group(3).replace(".before", "\x00") if m.group(1) in heads else m.group(0), body)
        body = re.sub(r"(?:\.before)+(?=\.)", "", body)
        body = re.sub(r"(?<=[A-Za-z0-9₀'])(?:\.before)+(?![\w-])", "", body)

        lent = {m.group(1) for m in re.finditer(rf"let (\S+) = {TOKEN}*(?:\.{TOKEN}+)*\.(?:args|ranges|requires|new|ensures|type_inv) in", body)}

        def step(m):
            w = m.group(1)
            before = re.search(rf"({TOKEN}*)$", body[:m.start()]).group(1)
            if before in lent or before in ("args", "ranges", "type_inv", "type-inv", "new", "ensures", "requires", "auto", "result", "now"):
                return "." + FIELDS.get(w, w)
            n = steps.get(squash(w))
            return "." + (n if n is not None and w not in ("args", "requires") else FIELDS.get(w, w))

        return re.sub(rf"\.({TOKEN}+)", step, body).replace("\x00", ".before")

    for b in bs:
        lines = b.split("\n")
        # comments before
        k = 0
        while k < len(lines) and (lines[k].startswith("--") or lines[k] == ""):
            k += 1
        comment, rest = lines[:k], lines[k:]
        if not rest:
            head += comment
            continue
        if rest[0].startswith("use ") or rest[0].startswith("pub use") or rest[0].startswith("unfoldable pub use"):
            head += comment
            tail = []
            for l in rest:
                if re.search(r"\.(Statement|Tie)\b", l):
                    continue
                (uses if l.startswith(("use ", "pub use", "unfoldable")) else tail).append(l)
            if [x for x in tail if x.strip()] and not re.match(r"pub \S+[-_]spec : ", tail[0]):
                helpers.append("\n".join(tail))
            continue
        sig = rest[0]
        m = re.match(r"(?:abbrev )?(?:pub )?\S+ : tie\.(invariant|InvT|decreases|MeasureT)-(\S+)", sig)
        if m:
            kind = "invariant" if m.group(1) in ("invariant", "InvT") else "decreases"
            if squash(m.group(2)) in loops:
                invs.append(("\n".join(comment), kind, *loops[squash(m.group(2))], rest[1:]))
            else:
                said.append(f"{kind} {m.group(2)}")
                helpers.append(b)
            continue
        m = re.match(rf"(\S+) : tie\.Need-(\S+)(.*)$", sig)
        if m:
            old = m.group(1)
            new = needs.get(norm(m.group(2)))
            body = rest[1:]
            unf = []
            while body and body[0].startswith("unfolding"):
                unf.append(body.pop(0))
            text_body = "\n".join(body)
            mm = re.match(rf"{re.escape(old)}((?: [^\s=]+)*) =(\s)", text_body)
            if not mm or new is None:
                if mm and re.sub(r"\s+", " ", text_body[mm.end():]).strip() in TRIVIAL:
                    continue
                said.append(f"goal {m.group(2)}")
                helpers.append("\n".join(comment + ["-- LEFT " + sig] + ["-- " + x for x in unf + body]))
                continue
            expr = text_body[mm.end():]
            args = mm.group(1).split()
            flat = re.sub(r"\s+", " ", expr).strip()
            local[old] = new
            plain = flat in TRIVIAL and not unf
            args = [a for a in args if a not in ("κs", "κ")]
            expr = clauses(fix_paths(expr))
            if len(own_requires) > 1:
                expr = re.sub(r"\.requires((?:\.\d+)+)", lambda m: ".requires" + (nested(m.group(1), own_requires) or m.group(1)), expr)
                for pre in re.findall(rf"let (\S+) = {TOKEN}+\.requires in", expr):
                    expr = re.sub(rf"(?<![\w.-]){re.escape(pre)}((?:\.\d+)+)", lambda m: pre + (nested(m.group(1), own_requires) or m.group(1)), expr)
            if new.startswith("returns"):
                expr = by_clause(expr, own_ensures)
            elif "requires" in new:
                expr = by_clause(expr, requires_of(crate, new, entry["params"]))
            answers.append((new, plain, "\n".join(comment + [f"pub {new} : goal.{new}"] + unf), ''.join(' ' + a for a in args), mm.group(2) + expr))
            continue
        if re.match(r"pub \S+[-_]spec : ", sig):
            continue
        b = re.sub(rf"\blts\.({TOKEN}+)(?: claims)?(?: reads\.Pre reads\.Post)?", lambda m: places_by.get(squash(m.group(1)), m.group(1)), b)
        helpers.append(clauses(fix_paths(b)))
    # an answer that another one cites is written, and cited by its new name
    cited = set()

    def cite(m):
        new = local.get(m.group(1))
        if new is None:
            return m.group(1)
        cited.add(new)
        return new

    word = rf"(?<![^\s(){{}};,@«»])({TOKEN}+)"
    answers = [(new, plain, sig, args, re.sub(word, cite, expr)) for new, plain, sig, args, expr in answers]
    helpers = [re.sub(word, cite, h) for h in helpers]
    answers = [f"{sig}\n{new}{args} ={expr}" for new, plain, sig, args, expr in answers if not plain or new in cited]
    # invariants
    inv_texts = []
    for comment, kind, n, vars_, ch, body in invs:
        t = "\n".join(body)
        unf = ""
        while t.startswith("unfolding"):
            l, _, t = t.partition("\n")
            unf += l + "\n"
        mm = re.match(r"\S+((?: [^\s=]+)*) =(\s)", t)
        if not mm:
            said.append(f"form of {kind} {n}")
            continue
        params = mm.group(1).split()
        order = []
        for v, c in zip(vars_, ch):
            order.append(f"l.initial.{quoted(v)}" if c else f"l.{quoted(v)}")
        for v, c in zip(vars_, ch):
            if c:
                order.append(f"l.{quoted(v)}")
        if len(order) != len(params):
            said.append(f"{kind} {n}: {params} against {order}")
        table = dict(zip(params, order))
        expr = t[mm.end():]
        expr = re.sub(r"(?<![\w.])«(\w+)»", lambda w: table.get(w.group(0), w.group(0)), expr)
        expr = re.sub(rf"(?<![^\s(){{}};,@«»])({TOKEN}+)", lambda w: table.get(w.group(1), w.group(1)), expr)
        c = comment + "\n" if comment else ""
        inv_texts.append(f"{c}abbrev pub {kind}-{n} : goal.{kind}-{n}\n{unf}{kind}-{n} l ={mm.group(2)}{expr}")
    negated = rf"({TOKEN}+(?:\.{TOKEN}+)*\.if-not-{TOKEN}+\.(?:true|false))(?![\w.-])"
    answers = [re.sub(negated, r"(ap not \1)", a) for a in answers]
    for i, a in enumerate(answers):
        for name in re.findall(rf"let (\S+) = (?:{TOKEN}+\.)*if-not-{TOKEN}+ in", a):
            a = re.sub(rf"(?<![\w.-])({re.escape(name)}\.(?:true|false))(?![\w.-])", r"(ap not \1)", a)
        answers[i] = a
    if any("(ap not " in a for a in answers):
        have = " ".join(uses)
        if not re.search(r"[{ ]not[,}]", have):
            uses.append("use mathlib.Core.Bool.{not}")
        if not re.search(r"[{ ]ap[,}]", have):
            uses.append("use mathlib.Core.Path.{ap}")
    base = f"Rattle.{crate_name}.proofs.{path}"
    if inv_texts:
        with open(os.path.join(at, "Invariants.antt"), "w", encoding="utf-8") as f:
            f.write("\n".join(head + uses + [f"use {base}.Given as goal", ""]) + "\n" + "\n\n".join(inv_texts) + "\n")
    if answers or helpers:
        with open(os.path.join(at, "Answers.antt"), "w", encoding="utf-8") as f:
            f.write("\n".join(head + uses + [f"use {base}.Goals as goal", ""]) + "\n" + "\n\n".join(helpers + answers) + "\n")
    os.remove(os.path.join(at, "Proof.antt"))
    if said:
        print(f"left: {rel}: " + "; ".join(said))


if __name__ == "__main__":
    main()
