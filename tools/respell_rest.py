#!/usr/bin/env python3
"""respell_rest: what respell.py passed over, names declared several on a line or bound by a term, in today's spelling.

usage: python3 tools/respell_rest.py    at the top of the repository

Goes over specs/ and proofs/. A name that any file takes from a library stays, and so do the goals of functions. Where
two names of a file would fall together it stops and changes nothing.
"""
import collections
import os
import re

TOKEN = re.compile(r"[^\s(){}\[\];,.\"]+")
FUNCTION_FILES = ("Proof.antt", "Answers.antt", "Invariants.antt")  # of a function, in a folder of its own below proofs/
STAYS = {"not-nil"}  # a constructor's law in the library, cited behind a dot


def files():
    for base, dirs, names in os.walk("crates"):
        dirs[:] = sorted(d for d in dirs if d not in ("out", "must-fail"))
        for name in sorted(names):
            if name.endswith((".antt", ".rt")):
                yield os.path.join(base, name)


def of_function(path):
    return os.path.basename(path) in FUNCTION_FILES and os.path.basename(os.path.dirname(path)) != "proofs"


def bare(text):
    return re.sub(r"(?m)^\s*(--|//).*$", "", text)


def main():
    crates = set(os.listdir("crates"))
    texts = {p: open(p, encoding="utf-8").read() for p in files()}
    library = set(STAYS)
    for text in texts.values():
        for m in re.finditer(r"use ([\w.+\-']+?)\.?\{([^}]*)\}", text):
            path = m.group(1).split(".")
            if not (path[0] == "Rattle" and path[1] in crates):
                library.update(w for w in re.split(r"[\s,]+", m.group(2)) if w)
    turned = {}
    for path, text in texts.items():
        if path.endswith(".antt") and not of_function(path):
            for word in TOKEN.findall(bare(text)):
                if re.search(r"\w-\w", word) and word not in library:
                    turned[word] = word.replace("-", "_")
    turned["Written-sheet"] = "WrittenSheet"
    turned["entryWith"] = "entry_with"
    clash = False
    for path, text in texts.items():
        by_new = collections.defaultdict(set)
        for word in set(TOKEN.findall(bare(text))):
            by_new[turned.get(word, word)].add(word)
        for new, old in by_new.items():
            if len(old) > 1:
                clash = True
                print(f"{path}: {' and '.join(sorted(old))} would both be {new}")
    if clash:
        raise SystemExit(1)
    for path, text in texts.items():
        new = TOKEN.sub(lambda m: turned.get(m.group(0), m.group(0)), text)
        if new != text:
            with open(path, "w", encoding="utf-8") as f:
                f.write(new)
    print(f"respell_rest: {len(turned)} names")


main()
