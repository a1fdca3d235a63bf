#!/usr/bin/env python3
"""Turns the proof files of functions, Proof.antt over a module Tie, into Invariants.antt and Answers.antt.

usage: python3 tools/port_proofs.py NAMES [CRATE..]     at the top of the repository, after `rt names NAMES`

A need's name and place come from the names; `c.before.before.x.y` becomes the step and field that it stands for, and a helper over a
place becomes one over the record of that place. What stays for a hand has a line `left:`. It removes each Proof.antt that it turned whole.
By hand came after it: imports of places from `Goals`, records in place of tuples for several `requires`, and the four walks.
"""
import glob
import json
import os
import re
import sys

PATH = re.compile(r"(?<![\w'.₀-₉-])([A-Za-z_][\w'₀-₉-]*)((?:\.[\w'+-]+)*)")
LET = re.compile(r"let ([A-Za-z_][\w'₀-₉-]*) = ([A-Za-z_][\w'₀-₉-]*(?:\.[\w'+-]+)*) in\b[ ]?")
plain = lambda it: it.replace("_", "-")


def chunks(text):
    """The declarations of a file: (comment, name, signature, options, clauses)."""
    lines = text.split("\n")
    uses, out, i, comment = [], [], 0, []
    while i < len(lines):
        line = lines[i]
        if not line.strip():
            comment = []
            i += 1
            continue
        block = [line]
        i += 1
        while i < len(lines) and lines[i].strip() and lines[i][0] in " \t)":
            block.append(lines[i])
            i += 1
        whole = "\n".join(block)
        if line.startswith("--"):
            comment.append(whole)
        elif line.startswith("use "):
            uses.append(whole)
        else:
            out.append((comment, whole))
            comment = []
    return uses, out


class Left(Exception):
    pass


class Function:
    def __init__(self, entry, name):
        self.e, self.name = entry, name
        self.places = [p[0] for p in entry["places"]]
        self.parent = {p[0]: p[1] for p in entry["places"]}
        self.at = {p[0]: i for i, p in enumerate(entry["places"])}
        self.by = {plain(p): p for p in self.places}
        self.helpers, self.asks = {}, None

    def chain(self, place):
        while place:
            yield place
            place = self.parent[place]

    def flat(self, place, fields, goal):
        """The name in Answers.antt of the fields of the step at a place, as the goal's place has it."""
        if not fields:
            raise Left("a whole context")
        first, rest = fields[0], list(fields[1:])
        first = re.sub(r"_lem$", "", first)
        like = lambda old: plain(old).lower() == plain(first).lower()
        first = {"pre": "requires"}.get(first, first)
        if first == "args" and rest:
            rest[0] = rest[0].replace("-", "_")
        if first in ("args", "requires", "ranges", "lifetimes", "well-formed", "well_formed"):
            return ".".join(["c", first.replace("-", "_"), *rest])
        # Places that came or went since: the nearest step of that name.
        if not like(self.e["places"][self.at[place]][2][0]):
            line = list(self.chain(goal))
            near = [q for q in line if like(self.e["places"][self.at[q]][2][0])]
            counted = re.fullmatch(r"(.*?)(\d+)", first)
            if not near and counted:  # calls that are counted from 1 since
                first = counted[1] + (str(int(counted[2]) - 1) if int(counted[2]) > 2 else "")
                near = [q for q in line if like(self.e["places"][self.at[q]][2][0])]
            if near:
                here = line.index(place) if place in line else len(line)
                place = min(near, key=lambda q: abs(line.index(q) - here))
        best = None
        for there in self.chain(goal):
            arm = self.e["arms"][self.at[there]]
            for field, step, path in arm[2] if arm else []:
                own = field.endswith("-own") and not path
                if like(step) and rest[: len(path)] == path and (best is None or (not own, len(path)) > best[0]):
                    best = ((not own, len(path)), arm[0], field, rest[len(path) :])
        if best and best[0][0]:
            return ".".join(["c", best[1], best[2], *best[3]])
        _, _, (old, new), callee, labels = self.e["places"][self.at[place]]
        if not like(old):
            raise Left(f"{first} at {place}, whose step is {old}")
        if best:
            return ".".join(["c", best[1], best[2], *best[3]])
        if rest and rest[0] in ("typed", "given"):
            known = dict((step, var) for var, step in self.e["typed"][self.at[goal]])
            if old in known and rest[0] == "typed":
                return ".".join(["c", "type_inv", known[old], *rest[1:]])
        turned = dict(labels)
        if rest and rest[0] in turned:
            rest[0] = turned[rest[0]]
        if len(rest) > 1 and rest[0] in ("new", "auto") and rest[1] in "01":
            n = 1
            while n < len(rest) and rest[n] == "1":
                n += 1
            if n >= len(rest) or rest[n] != "0":
                raise Left(f"{first}.{'.'.join(rest)}")
            k = n - 1
            if callee and callee in self.e["params"]:
                rest[1 : n + 1] = [self.e["params"][callee][k]]
            else:
                loops = [v for names, v in self.e["loops"] if names[0] == old]
                changed = [c for (names, v), c in zip(self.e["loops"], self.e["changed"]) if names[0] == old]
                if not loops:
                    raise Left(f"{first}.{'.'.join(rest)} of no call")
                rest[1 : n + 1] = [f"?auto{k}of:" + ",".join(v for v, c in zip(loops[0], changed[0]) if c)]
        looped = [v for names, v in self.e["loops"] if names[0] == old]
        if looped and rest:
            rest[0] = {plain(v): v for v in looped[0]}.get(plain(rest[0]), rest[0])
        return ".".join(["c", new, *rest])

    def resolve(self, env, root, fields):
        place, path = env[root]
        path = list(path)
        for f in fields:
            if not path and f == "before":
                place = self.parent[place] or place
            else:
                path.append(f)
        return place, path

    def body(self, text, env, goal):
        env, out, i = dict(env), [], 0
        while i < len(text):
            let = LET.match(text, i) if i == 0 or not re.match(r"[\w'.-]", text[i - 1]) else None
            if let and let[2].split(".")[0] in env:
                root, *fields = let[2].split(".")
                env[let[1]] = self.resolve(env, root, fields)
                i = let.end()
                continue
            path = PATH.match(text, i)
            if path and (i == 0 or not re.match(r"[\w'.₀-₉-]", text[i - 1])):
                name = path[1]
                if name in self.helpers and not path[2]:
                    arg = re.compile(r"\s+([A-Za-z_][\w'₀-₉-]*)((?:\.[\w'+-]+)*)").match(text, path.end())
                    if arg and arg[1] in env and self.asks:
                        at = self.helpers[name][0]
                        out.append(f"{name} (goal.at.{self.asks} c).{self.e['places_by_name'][self.at[at]]}")
                        i = arg.end()
                        continue
                    if arg and arg[1] in env:
                        place, left = self.resolve(env, arg[1], [f for f in arg[2].split(".") if f])
                        if left:
                            raise Left(f"a call of {name} at no place")
                        at, kind, body, var, is_short = self.helpers[name]
                        inner = self.body(body, {var: (place, [])}, goal).strip()
                        if is_short:
                            out.append(f"({inner})")
                        else:
                            kind = self.body(kind, {var: (place, [])}, goal).strip()
                            out.append(f"(let {name} : {kind} = {inner} in {name})")
                        i = arg.end()
                        continue
                if name in env:
                    place, left = self.resolve(env, name, [f for f in path[2].split(".") if f])
                    out.append(self.flat(place, left, goal))
                    i = path.end()
                    continue
                out.append(path[0])
                i = path.end()
                continue
            if text.startswith("--", i):
                end = text.find("\n", i)
                end = len(text) if end < 0 else end
                out.append(text[i:end])
                i = end
                continue
            out.append(text[i])
            i += 1
        return "".join(out)


def turn(path, names):
    crate = path.split("/")[1]
    inner = path.split("/")[3:-1]
    entry = names.get(f"Rattle-{crate}-proofs.{'.'.join(inner)}.Lts")
    if entry is None:
        print(f"left: {path}: no names")
        return
    text = open(path, encoding="utf-8").read()
    uses, decls = chunks(text)
    fn = Function(entry, inner[-1])
    kept = [u for u in uses if not re.search(r"\.(Tie as tie|Statement\.\{statement\})$", u)]
    given, answers, plainly, spec = [], {}, [], None
    order = []
    # signatures and clauses come as blocks one after the other
    k = 0
    problems = []
    while k < len(decls):
        comment, whole = decls[k]
        head = re.match(r"((?:pub |abbrev |unfoldable )*)(\S+)\s*:\s*(.*)", whole, re.S)
        if not head:
            plainly.append((comment, [whole]))
            k += 1
            continue
        mods, name, sig = head[1], head[2], head[3]
        body = []
        k += 1
        while k < len(decls) and (decls[k][1].startswith("unfolding ") or re.match(re.escape(name) + r"(?![\w'-])", decls[k][1])) and not re.match(re.escape(name) + r"\s*:", decls[k][1]):
            body.append(decls[k][1])
            k += 1
        if re.match(r"tie\.(invariant|decreases)-", sig):
            given.append((comment, sig.split(".")[1].strip(), name, body))
        elif "tie.Need-" in sig:
            answers[name] = (comment, sig, body)
            order.append(name)
        elif "statement" in sig and "{M" in sig or re.search(r"[-_]spec$", name) and "tie.close" in "".join(body):
            spec = "\n".join(body)
        elif re.search(r"tie\.\w", sig):
            at = re.match(r"(?:\((\w+) : )?tie\.([\w'-]+)[^→]*?\)?\s*→\s*(.*)", sig, re.S)
            clause = [b for b in body if not b.startswith("unfolding ")]
            var = re.match(re.escape(name) + r" (\S+) =\s*(.*)", clause[0], re.S) if len(clause) == 1 else None
            if not at or not var:
                problems.append(f"the helper {name}")
                continue
            fn.helpers[name] = (fn.by.get(plain(at[2])), at[3], var[2], var[1], "abbrev" in mods)
            if at[1] and at[1] != var[1]:
                fn.helpers[name] = (fn.by.get(plain(at[2])), re.sub(rf"(?<![\w'.-]){at[1]}(?![\w'-])", var[1], at[3]), var[2], var[1], "abbrev" in mods)
        else:
            plainly.append((comment, [f"{mods}{name} : {sig}", *body]))
    if spec is None:
        print(f"left: {path}: no spec")
        return
    inner_text = re.search(r"tie\.close\s*(?:\(tie\.spec(.*)\)|tie\.spec)\s*$", spec, re.S)
    if not inner_text:
        print(f"left: {path}: another spec")
        return
    args, depth, cur = [], 0, ""
    for ch in inner_text[1] or "":
        if ch == "(":
            depth += 1
        if ch == ")":
            depth -= 1
        if ch.isspace() and depth == 0:
            if cur:
                args.append(cur)
            cur = ""
        else:
            cur += ch
    if cur:
        args.append(cur)
    loops = [g[2] for g in given]
    args = [a for a in args if a not in loops]
    needs = entry["needs"]
    if len(args) != len(needs):
        short = lambda it: re.sub(r"^(overflow|nonzero)-", "", plain(it))
        named = {}
        for arg in args:
            if arg in answers:
                named[short(re.search(r"tie\.Need-([^\s)]+)", answers[arg][1])[1])] = arg
            elif not re.match(r"\(λ \S+( κs)?\. search rules\)$", arg):
                problems.append(f"an argument {arg[:80]}")
        args = [named.pop(short(old), "(λ c. search rules)") for old, new in needs]
        for it in named.values():
            problems.append(f"the answer {it} to no goal")
    # invariants
    out_given = []
    for comment, kind, name, body in given:
        loop = kind.split("-", 1)[1]
        hit = [(n, v, c) for (n, v), c in zip(entry["loops"], entry["changed"]) if plain(n[0]) == plain(loop)]
        if not hit:
            problems.append(f"the loop {loop}")
            continue
        (_, new), vars_, changed = hit[0]
        clause = re.match(re.escape(name) + r"((?: [^\s=]+)*) =\s*(.*)", body[-1], re.S)
        params = clause[1].split()
        to = {}
        wanted = [("l.initial." if c else "l.") + v for v, c in zip(vars_, changed)] + ["l." + v for v, c in zip(vars_, changed) if c]
        if len(params) > len(wanted):
            problems.append(f"the parameters of {name}")
            continue
        for p, w in zip(params, wanted):
            to[p] = w
        text_of = re.sub(r"(?<![\w'.₀-₉-])([A-Za-z_][\w'₀-₉-]*)", lambda it: to.get(it[1], it[1]) if it[1] != "_" else it[1], clause[2])
        kind2 = kind.split("-", 1)[0] + "-" + new
        lines = [*comment, f"abbrev pub {kind2} : goal.{kind2}", *[b for b in body[:-1]], f"{kind2} l = {text_of}"]
        out_given.append("\n".join(lines))
    out_answers = []
    for name, (at, kind, body, var, is_short) in fn.helpers.items():
        fn.asks = None
        if at is None:
            problems.append(f"the helper {name} at no place")
            continue
        try:
            where = entry["places_by_name"][fn.at[at]]
            kind = fn.body(kind, {var: (at, [])}, at)
            turned = fn.body(body, {var: (at, [])}, at)
        except Left as why:
            problems.append(f"the helper {name}: {why}")
            continue
        arg = f"(c : goal.{where}) → " if not is_short else f"goal.{where} → "
        out_answers.append(f"{'abbrev ' if is_short else ''}{name} : {arg}{kind}\n{name} c = {turned.strip()}")
    for (old, new), asked, arg in zip(needs, entry["asked_at"], args):
        place = asked[0]
        if arg in answers:
            comment, sig, body = answers[arg]
            opens = [b for b in body if b.startswith("unfolding ")]
            clauses = [b for b in body if not b.startswith("unfolding ")]
            if len(clauses) != 1:
                problems.append(f"{arg} has {len(clauses)} clauses")
                continue
            m = re.match(re.escape(arg) + r" (\S+)(?: κs)? =\s*(.*)", clauses[0], re.S)
            if not m:
                problems.append(f"{arg} has other parameters")
                continue
            var, term = m[1], m[2]
        else:
            m = re.match(r"\(λ (\S+?)(?: κs)?\.\s*(.*)\)$", arg, re.S)
            if not m:
                problems.append(f"an argument {arg[:60]}")
                continue
            comment, opens, var, term = [], [], m[1], m[2]
        if term.strip() == "search rules" and not opens:
            continue
        fn.asks = new
        try:
            turned = fn.body(term, {var: (place, [])}, place)
        except Left as why:
            problems.append(f"{new} ({arg[:40]}): {why}")
            turned = "?"
        if "?auto" in turned:
            problems.append(f"{new}: {re.findall(r'[?]auto[^ )]*', turned)}")
        turned = re.sub(r"\n[ \t]*(?=\n)", "", "\n" + turned.strip() if "\n" in turned.strip() else " " + turned.strip())
        turned = turned if turned.startswith(" ") else "\n    " + turned.strip()
        out_answers.append("\n".join([*comment, f"pub {new} : goal.{new}", *opens, f"{new} c ={turned}"]))
    folder = os.path.dirname(path)
    module = f"Rattle.{crate}.proofs.{'.'.join(inner)}"
    decl = ["\n".join([*c, *b]) for c, b in plainly]
    used_in_given = [d for d in decl if any(re.search(rf"(?<![\w'.-]){re.escape(d.split(' : ')[0].split()[-1])}(?![\w'-])", g) for g in out_given)]
    if out_given:
        with open(f"{folder}/Invariants.antt", "w", encoding="utf-8") as f:
            f.write("\n".join(kept + [f"use {module}.Given as goal"]) + "\n\n" + "\n\n".join(used_in_given + out_given) + "\n")
    if out_answers or decl and not used_in_given:
        with open(f"{folder}/Answers.antt", "w", encoding="utf-8") as f:
            f.write("\n".join(kept + [f"use {module}.Goals as goal"]) + "\n\n" + "\n\n".join(decl + out_answers) + "\n")
    for it in problems:
        print(f"left: {path}: {it}")
    os.remove(path) if not problems else os.rename(path, path + ".old")
    if not problems and not os.listdir(folder):
        os.rmdir(folder)


def main():
    top, *crates = sys.argv[1:]
    for path in sorted(glob.glob("crates/*/proofs/**/Proof.antt", recursive=True)):
        crate = path.split("/")[1]
        if crates and crate not in crates:
            continue
        if "Tie as tie" not in open(path, encoding="utf-8").read():
            print(f"left: {path}: by hand")
            continue
        with open(f"{top}/crates/{crate}/names.json", encoding="utf-8") as f:
            turn(path, json.load(f))


main()
