#!/usr/bin/env python3
"""Brings the repository's own words and lemmas to the spelling of today's Rattle: snake case, an apostrophe for a prime.

usage: python3 tools/respell_names.py        at the top of the repository, once, after the kit's port.py

It reads the names that crates/*/specs and crates/*/proofs/*.antt declare: definitions, fields, constructors of
lower case, lemmas. A name of the shape fooBar or foo-bar becomes foo_bar, wherever it stands as a whole name in .antt
files, in the clauses of .rt files, in must-fail edits, and between backticks in the documents. Names that only
Proof.antt files declare are names of goals and stay. Functions, strings, inputs and outputs stay.
Where a lemma and the function that it is about would fall together, the lemma gets _lem (LEMMAS below).
"""
import os, re, sys, collections

TOKEN = re.compile(r"[^\s(){}\[\].,;:`\"\\|⟨⟩⌜⌝]+")
DECL = re.compile(r"^[ \t]*(?:(?:abbrev|unfoldable|pub|private|record|data|module|instance)[ \t]+)*([^\s(){}\[\].,;:`\"]+)(?=[ \t]*(?:\([^)]*\)[ \t]*|\{[^}]*\}[ \t]*)*:(?:[ \t]|$))", re.M)

def files(kind):
    for root, dirs, names in os.walk("crates"):
        dirs[:] = sorted(d for d in dirs if d != "out")
        for n in sorted(names):
            p = os.path.join(root, n)
            if n.endswith(kind):
                yield p

def respelled(n):
    if n.startswith("LOCATION-"):
        return n.lower().replace("-", "_")
    m = re.sub(r"([a-z0-9])([A-Z])", lambda k: k.group(1) + "_" + k.group(2).lower(), n)
    return m.replace("-", "_").replace("′", "'")

declared = collections.defaultdict(set)
for p in files(".antt"):
    if p.endswith("/Proof.antt"):
        continue
    text = re.sub(r"^[ \t]*--.*$", "", open(p, encoding="utf-8").read(), flags=re.M)
    for m in DECL.finditer(text):
        declared[m.group(1)].add(p)

names = {}
for n in declared:
    if not re.fullmatch(r"[A-Za-z][A-Za-z0-9_'′-]*", n):
        continue
    if n[0].isupper() and not n.startswith("LOCATION-"):
        continue
    if re.search(r"[a-z0-9][A-Z]", n) or "-" in n or "′" in n:
        names[n] = respelled(n)

# Lemmas that would get the name of the function they are about.
LEMMAS = ["all-stated", "digit-by", "event-fields", "bit-and", "bit-or", "bit-xor", "last-writer", "lock-fields", "one_field", "pair-fields", "section-of",
          "shown-first", "slot_cases", "slot-cases", "sources-from"]
for n in LEMMAS:
    if n in declared:
        names[n] = n.replace("-", "_") + "_lem"


def turn(text, table):
    return TOKEN.sub(lambda k: table.get(k.group(0), k.group(0)), text)


# Words of English, in comments, may look like a name with a dash: there only the names of one word are turned.
camel = {n: m for n, m in names.items() if re.search(r"[a-z0-9][A-Z]", n)}
STRING = re.compile(r'(b?"(?:\\.|[^"\\])*")')


def code(text, comment, table):
    lines = []
    for line in text.split("\n"):
        at = re.search(r"(^|[ \t])" + re.escape(comment), line)
        cut = at.end() - len(comment) if at else len(line)
        parts = STRING.split(line[:cut]) if comment == "//" else [line[:cut]]
        lines.append("".join(x if i % 2 else turn(x, table) for i, x in enumerate(parts)) + turn(line[cut:], camel))
    return "\n".join(lines)


# In the documents, also the names that port.py turned itself.
DOCUMENTS = {n: respelled(n) for n in ["all-apart", "by-and", "bytesOf", "isStore", "itemAt", "last-found", "listOf", "partCount", "read-back",
                                       "round-trip", "slot-cases", "table-filled", "then-found"]}


def marked(text, table):
    return re.sub(r"`[^`\n]+`", lambda k: turn(k.group(0), DOCUMENTS | table), text)


def main():
    for kind, change in [(".antt", lambda t: code(t, "--", names)), (".rt", lambda t: code(t, "//", names)),
                         (".edit", lambda t: turn(t, names))]:
        for p in files(kind):
            with open(p, encoding="utf-8") as f:
                old = f.read()
            new = change(old)
            if new != old:
                with open(p, "w", encoding="utf-8") as f:
                    f.write(new)
    documents = ["README.md"] + sorted("docs/" + n for n in os.listdir("docs") if n.endswith(".md"))
    for p in documents:
        with open(p, encoding="utf-8") as f:
            old = f.read()
        new = marked(old, names)
        if new != old:
            with open(p, "w", encoding="utf-8") as f:
                f.write(new)


main()
