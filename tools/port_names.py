#!/usr/bin/env python3
"""Gives the repository's own definitions and lemmas the spelling of today's Rattle: words in snake case.

usage: python3 tools/port_names.py        at the top of the repository, once, after port.py

- A name in lower camel case, as `recordIn`, becomes `record_in`: of a definition, a field, a lemma or a variable,
  in .antt files, in the clauses of .rt files, and in the lines of must-fail edits.
- In a lemma's name a dash stays between two names of definitions, as in `holds-with_bit`; any other becomes `_`.
- A lemma that would then have a definition's name gets `_lem`.
- Types, facts and modules keep their capital; functions of src/, strings and what another library names stay.

It prints each name that it changes, a line `together:` for names that would have fallen together, and a line `beside:` where a
definition gets the name of a function or a field that stands in the same file.
"""
import collections
import glob
import re
import subprocess

# Fields of two records each, which may fall together.
FIELDS = {"wordsAre", "standsAt"}
OWN = [line.split(":")[0].split()[0] for line in open("crates.txt", encoding="utf-8") if re.match(r"\w", line)]
PART = r"[^\s(){}\[\].;,@\"«»\\|]+"
TOKEN = re.compile(r"\"(?:[^\"\\]|\\.)*\"|«[^»]*»|" + PART)
USE = re.compile(r"^\s*(?:pub )?(?:ghost )?use ([^\s{;]+?)(?:\.\{([^}]*)\})?(?: as (\S+?))?;?\s*$", re.M)
DECLARED = re.compile(
    r"^[ \t]*(?:(?:pub|abbrev|unfoldable|ruleset)[ \t]+)*(" + PART + r")[ \t]*(?:\([^)\n]*\)[ \t]*|\{[^}\n]*\}[ \t]*)*:[ \t\n]", re.M
)
TYPE = re.compile(r"^[ \t]*(?:pub[ \t]+)?(?:data|record)[ \t]+(" + PART + ")", re.M)
CAMEL = re.compile(r"[a-z][a-z0-9]*(?:[A-Z][a-z0-9]*)+")

antt = sorted(glob.glob("crates/*/specs/**/*.antt", recursive=True) + glob.glob("crates/*/proofs/**/*.antt", recursive=True))
code = sorted(glob.glob("crates/*/src/**/*.rt", recursive=True))
edits = sorted(glob.glob("crates/*/must-fail/*.edit"))
texts = {p: open(p, encoding="utf-8").read() for p in antt + code + edits}


def snake(word):
    """`recordIn` as `record_in`, also as a part of a name."""
    return CAMEL.sub(lambda it: re.sub(r"(?<=[a-z0-9])([A-Z]+)", lambda u: "_" + u[1].lower(), it[0]), word)


def names_of(text):
    return [it.strip().split(" as ")[-1].strip() for it in text.split(",")]


foreign = set()
for text in texts.values():
    for path, items, _ in USE.findall(text):
        parts = path.split(".")
        if items and not (parts[0] == "Rattle" and len(parts) > 1 and parts[1] in OWN):
            foreign.update(it.strip().split(" as ")[0].strip() for it in items.split(","))

laws, definitions, facts = set(), set(), set()
for path in antt:
    text = texts[path]
    facts.update(TYPE.findall(text))
    if not path.endswith("/Proof.antt"):
        (definitions if "/specs/" in path else laws).update(DECLARED.findall(text))
words = {snake(it) for it in definitions | foreign | facts} | {it.lower() for it in facts}
tokens = collections.Counter(it for p in antt for it in TOKEN.findall(texts[p]) if not it.startswith(('"', "«")))


def respelled(name):
    """Dashes stay between two names."""
    parts = [snake(it) for it in name.split("-")]
    out = parts[0]
    for left, right in zip(parts, parts[1:]):
        out += ("-" if left in words and right in words else "_") + right
    return out


new = {}
for name in sorted(tokens):
    if name in foreign or name[0].isupper() or not re.match(r"[a-z]", name):
        continue
    if "-" in name and name in laws | definitions:
        new[name] = respelled(name)
    elif CAMEL.search(name) and re.fullmatch(r"[A-Za-z0-9_'₀-₉-]+", name):
        new[name] = snake(name)
new = {old: to for old, to in new.items() if old != to}

# That a definition has the name of the function that it mirrors is std's own rule; where both stand in one file is said.
def stand_together(old, to):
    by_itself = lambda name: re.compile(r"(?<![^\s({\[,;])" + re.escape(name) + r"(?![^\s)}\].,;:])")
    return [p for p in antt if by_itself(to).search(USE.sub("", texts[p])) and by_itself(old).search(texts[p])]


together = collections.defaultdict(set)
for old, to in new.items():
    together[to].add(old)
for to, olds in sorted(together.items()):
    olds |= {to} & (laws | definitions | foreign)
    if len(olds) > 1:
        # The definition has the plain name; a lemma that would have it too gets `_lem`, as std's do.
        first = min(olds, key=lambda it: (it not in foreign, it not in definitions, "-" in it, it != to))
        for old in olds - {first} - FIELDS:
            new[old] = f"{to}_lem"
        print(f"together: {', '.join(sorted(olds))}: {first} is {to}, " + ", ".join(f"{it} is {new[it]}" for it in sorted(olds - {first} - FIELDS)))
        if len(olds) > 2:
            print(f"by hand: {to}")
    elif to in tokens:
        for old in olds:
            for p in stand_together(old, to):
                print(f"beside: {old} as {to} in {p}")
new = {old: to for old, to in new.items() if old != to}
for path in code:
    for to in {new[it] for it in TOKEN.findall(texts[path]) if it in new}:
        if re.search(rf"(?<![\w.]){re.escape(to)}\s*:", texts[path]):
            print(f"hidden: a parameter of {path} has the name {to}")

for path, text in texts.items():
    def turned(it, path=path, text=text):
        word = it[0]
        behind = it.start() and text[it.start() - 1] == "."
        # What stands in src/, or behind a dot, may be a function or a step of a proof: there only a name in camel case is a definition's.
        if word not in new or (behind or not path.endswith(".antt")) and not CAMEL.search(word):
            return word
        return new[word]

    after = TOKEN.sub(turned, text)
    if after != text:
        open(path, "w", encoding="utf-8").write(after)
for old, to in sorted(new.items()):
    print(f"{old} -> {to}")
