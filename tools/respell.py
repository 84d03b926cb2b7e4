#!/usr/bin/env python3
"""Respells this repository's own definitions and lemmas: words in snake case, types in camel case.

usage: respell.py [--make]      at the top of a checkout to which port.py was applied

The table tools/respell_names.txt has a line 'OLD NEW' for each name; --make writes it anew from the declarations of
specs/ and proofs/, and prints names that would fall together. Without it the table is applied to the .antt and .rt
files below crates/. A name that a file imports from a library is left alone in that file.
"""
import collections
import glob
import os
import re
import sys

TABLE = os.path.join(os.path.dirname(os.path.abspath(__file__)), "respell_names.txt")
TOKEN = re.compile(r"[^\s()\[\]{},;.\"'λ→∷×:]+'*")
DECLARED = re.compile(
    r"\s*(?:(?:abbrev|unfoldable|pub|ruleset)\s+)*(?:(?:record|data)\s+)?(?:pub\s+)?"
    r"([^\s()\[\]{},;.:]+)\s*(?:(?:\{[^}]*\}|\([^)]*\))\s*)*:\s"
)
# Facts that were spelled as words.
FACTS = {"is_taken": "IsTaken"}
# Names chosen by hand: two definitions whose names would fall together, and names that a `use` line gives.
CHOSEN = {
    "dol-data": "fills",
    "textFaultNumber": "text_fault_number",
    "waitsAt": "waits_at",
    "putAfter": "closed_put_after",
    "putAnswer": "closed_put_answer",
    "putTold": "closed_put_told",
    "put-after": "put_after",
    "put-answer": "put_answer",
    "put-told": "put_told",
    "total-after": "total_after",
    "write-after": "write_after",
}


def files():
    found = glob.glob("crates/*/specs/**/*.antt", recursive=True)
    found += glob.glob("crates/*/proofs/**/*.antt", recursive=True)
    found += glob.glob("crates/*/src/**/*.rt", recursive=True)
    return sorted(found)


def respelled(name):
    if name[0].isupper():
        return "".join(part[0].upper() + part[1:] for part in name.split("-") if part)
    name = re.sub(r"([a-z0-9])([A-Z])", lambda m: m.group(1) + "_" + m.group(2).lower(), name)
    return name.replace("-", "_").lower()


def imported(text):
    """The names that the file imports from a library."""
    taken = set()
    for line in text.split("\n"):
        m = re.match(r"\s*(?:ghost )?use ([^{;]*?)\.?\{(.*)\}", line)
        if m and (m.group(1).startswith("Rattle.std.") or not m.group(1).startswith("Rattle.")):
            for item in m.group(2).split(","):
                taken.add(item.split(" as ")[-1].strip())
    return taken


def make():
    names = collections.defaultdict(set)
    for path in files():
        if path.endswith(".rt"):
            continue
        own = re.search(r"(Answers|Choices|Invariants)\.antt$", path)
        for line in open(path, encoding="utf-8"):
            m = DECLARED.match(line)
            if m and not (own and re.search(r": goal\.", line)):
                names[m.group(1)].add(path)
    table = {}
    for name in names:
        if name in ("_", "let"):
            continue
        new = FACTS.get(name, name)
        if name[0].isupper() and "-" in name or not name[0].isupper() and re.search(r"-|[a-z0-9][A-Z]", name):
            new = respelled(name)
        if new != name:
            table[name] = new
    # A lemma whose new name is a definition's or a function's ends in _lem.
    functions = set()
    for path in files():
        if path.endswith(".rt"):
            functions |= set(re.findall(r"\bfn ([a-z_0-9]+)", open(path, encoding="utf-8").read()))
    definitions = {new for old, new in table.items() if "-" not in old} | {"value_at"}
    for old, new in table.items():
        if "-" in old and not old[0].isupper() and new in definitions | functions:
            table[old] = new + "_lem"
    table.update(CHOSEN)
    news = collections.defaultdict(list)
    for old, new in table.items():
        news[new].append(old)
    for new, olds in sorted(news.items()):
        if len(olds) > 1:
            print("fall together:", new, olds)
        if new in names:
            print("there already:", new, olds, sorted(names[new] | names[olds[0]]))
    for path in files():
        text = open(path, encoding="utf-8").read()
        here = set(TOKEN.findall(text))
        for old in here & set(table):
            if table[old] in here:
                print("in one file:", path, old, table[old])
    with open(TABLE, "w", encoding="utf-8") as out:
        for old, new in sorted(table.items()):
            out.write(old + " " + new + "\n")


def apply():
    table = dict(line.split() for line in open(TABLE, encoding="utf-8"))
    for path in files():
        text = open(path, encoding="utf-8").read()
        keep = imported(text)
        parts = re.split(r'("(?:[^"\\\n]|\\.)*")', text) if path.endswith(".rt") else [text]

        def turn(m):
            word = m.group(0)
            return table[word] if word in table and word not in keep else word

        new = "".join(part if part.startswith('"') and path.endswith(".rt") else TOKEN.sub(turn, part) for part in parts)
        if new != text:
            with open(path, "w", encoding="utf-8") as out:
                out.write(new)


if __name__ == "__main__":
    make() if sys.argv[1:] == ["--make"] else apply()
