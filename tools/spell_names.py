#!/usr/bin/env python3
"""Turns the repository's own definitions and lemmas from dashes to snake case, as Rattle's library now spells its own.

usage: python3 tools/spell_names.py [--list]      at the top of the repository, after /opt/rattle/port/port.py

A name is the repository's own if a file of specs/ or of proofs/ declares it: as a definition, a lemma, a field, a variable or an alias.
What answers a goal in proofs/F/ is named by Rattle, and stays; so do code, strings and comments. With --list it only prints the names.
"""
import os
import re
import sys

NAME = r"[A-Za-z_][A-Za-z0-9_']*(?:-[A-Za-z0-9_']+)+"
HEAD = re.compile(r"(?m)^( *)(?:(?:abbrev|opaque|unfoldable|pub)\s+)*(" + NAME + r")\s*:\s")
BINDERS = re.compile(r"[({]([^(){}:,]+?)\s:\s")
LET = re.compile(r"\blet\s+(" + NAME + r")\s")
LAMBDA = re.compile(r"λ\s+([^.]+)\.")
ALIAS = re.compile(r"\bas\s+(" + NAME + r")")
TOKEN = re.compile(r"(?<![\w'◌.-])" + NAME + r"|(?<=\.)" + NAME)
# where the plain spelling is a function's of the same module
OTHERWISE = {"worked-cases": "worked_cases_lem"}
# comments and strings, which stay
ANTT_SKIP = re.compile(r"(?<!\S)--[^\n]*|\"[^\"\n]*\"")
RUST_SKIP = re.compile(r"//[^\n]*|\"(?:\\.|[^\"\\])*\"")


def files():
    for folder, dirs, names in os.walk("crates"):
        dirs[:] = sorted(d for d in dirs if d not in ("out", ".git"))
        for name in sorted(names):
            if name.endswith((".antt", ".rt")):
                yield os.path.join(folder, name)


def read(path):
    with open(path, encoding="utf-8") as f:
        return f.read()


def answers_goals(path):
    """Whether the file's top names are goals of a function: those lie in folders of proofs/."""
    parts = path.split(os.sep)
    return parts[2] == "proofs" and len(parts) > 4


def declared(path, text):
    plain = (ANTT_SKIP if path.endswith(".antt") else RUST_SKIP).sub("", text)
    found = {m[1] for m in ALIAS.finditer(plain)}
    if path.endswith(".rt"):
        return found
    for m in HEAD.finditer(plain):
        if m[1] or not answers_goals(path):
            found.add(m[2])
    found |= {m[1] for m in LET.finditer(plain)}
    for m in list(BINDERS.finditer(plain)) + list(LAMBDA.finditer(plain)):
        found |= {w for w in re.split(r"[\s(),]+", m[1]) if re.fullmatch(NAME, w)}
    return found


def spelled(text, skip, names):
    out, at = [], 0
    for m in list(skip.finditer(text)) + [None]:
        end = m.start() if m else len(text)
        out.append(TOKEN.sub(lambda t: OTHERWISE.get(t[0], t[0].replace("-", "_")) if t[0] in names else t[0], text[at:end]))
        if m:
            out.append(m[0])
            at = m.end()
    return "".join(out)


def main():
    texts = {path: read(path) for path in files()}
    names = set().union(*(declared(path, text) for path, text in texts.items()))
    if "--list" in sys.argv:
        print("\n".join(sorted(names)))
        return
    for path, text in texts.items():
        new = spelled(text, ANTT_SKIP if path.endswith(".antt") else RUST_SKIP, names)
        if new != text:
            with open(path, "w", encoding="utf-8") as f:
                f.write(new)
    print(f"{len(names)} names")


main()
