#!/usr/bin/env python3
"""Brings the repository's own names of definitions and lemmas to the spelling of today's Rattle: words in snake case, facts in upper camel case.

usage: python3 tools/spell_names.py        at the top of the repository, once, after the kit's port.py
"""
import os
import re

TOKEN = re.compile(r"(?<![\w'-])[^\W\d][\w'-]*")
CAMEL = re.compile(r"[a-z][a-z0-9_]*[A-Z]")

# Lemmas whose name a definition takes, by the file that has them: (file, old, new).
LEMMAS = [
    ("plan/proofs/Laws/Decide.antt", "clear_step", "clear_step-one"),
    ("lines/proofs/Laws/Reading.antt", "no_line", "no_line-breaks"),
    ("printed/proofs/Follows.antt", "no_line", "no_line-absurd"),
    ("examples/proofs/Examples/Play.antt", "same_bytes", "same_bytes-eq"),
    ("chain/proofs/Examples/Alone.antt", "in_order", "in_order-is"),
]

# Facts: what was spelled as a word, and the crates that know it.
FACTS = [
    (("history", "printed"), "one-count", "AlwaysOneCount"),
    (("history", "printed"), "one-count-listed", "AlwaysOrdered"),
    (("history/specs/Statement", "history/proofs/Recovers"), "recovers", "AlwaysRecovers"),
    (("history",), "never-unfit", "NeverUnfit"),
    (("history",), "only-recovery", "RecoveryAlone"),
    (("asking",), "no-announce", "IsNoAnnounce"),
    (("chain/proofs/Examples/Pair", "chain/proofs/Examples/Attempts"), "nowhere", "Nowhere"),
    (("chain/proofs/Examples/Pair", "chain/proofs/Examples/Attempts"), "only", "Only"),
    (("chain/proofs/Examples/Pair", "chain/proofs/Examples/Attempts"), "unmarked", "Unmarked"),
    (("chain/proofs/Laws/Counted", "chain/proofs/Laws/World"), "fam", "Fam"),
]


def snake(part):
    if not CAMEL.match(part):
        return part
    return re.sub(r"(?<=[a-z0-9])[A-Z]", lambda m: "_" + m[0].lower(), part)


def spelled(token):
    return "-".join(snake(p) for p in token.split("-"))


def renamed(line, old, new):
    if line.lstrip().startswith("--"):
        return line
    return TOKEN.sub(lambda m: new if m[0] == old else m[0], line)


def turned(path, text):
    inside = path.split("crates/", 1)[1]
    for of, old, new in LEMMAS:
        if inside == of or (old == "no_line" and of.startswith("lines/") and inside.startswith(("lines/", "stream/", "events/"))) or (old == "clear_step" and inside.startswith("plan/proofs")):
            text = "\n".join(renamed(l, old, new) for l in text.split("\n"))
    for where, old, new in FACTS:
        if inside.startswith(where):
            text = "\n".join(renamed(l, old, new) for l in text.split("\n"))
    return TOKEN.sub(lambda m: spelled(m[0]), text)


def main():
    for folder, dirs, files in os.walk("crates"):
        dirs[:] = sorted(d for d in dirs if d != "out")
        for f in sorted(files):
            if f.endswith((".rt", ".antt")):
                path = os.path.join(folder, f)
                with open(path, encoding="utf-8") as it:
                    text = it.read()
                new = turned(path, text)
                if new != text:
                    with open(path, "w", encoding="utf-8") as it:
                        it.write(new)


main()
