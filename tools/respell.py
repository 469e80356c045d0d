#!/usr/bin/env python3
"""respell: brings the names that the repository itself declares in specs/ and proofs/ to today's spelling.

usage: python3 tools/respell.py            at the top of the repository, once, right after the kit's port.py

Words are in snake case (a dash becomes an underscore, camelCase is taken apart), types keep their capitals. Names
that a file takes from a library keep theirs, and so do the goals of a function (the files of its own folder in
proofs/). It goes over .antt and .rt files; where two names would fall together it stops and changes nothing.
With --list it prints each old name with its new one.
"""
import collections
import os
import re
import sys

# Names that would fall together with another one, or that port.py gave a word too many.
BY_HAND = {
    "key-of": "key_of_slot",
    "isKey": "is_key_kind",
    "isOwn": "is_own_entry",
    "sealedUnder": "is_sealed_under",
    "commandOf": "stored_command",
    "is_held_lem": "is_held_mark",
    "seal-number": "seal_number_lem",
    "lookup-in": "lookup_in_lem",
    "handle-in": "handle_in_lem",
}
TOKEN = re.compile(r"[^\s(){}\[\];,.\"]+")
DECLARED = re.compile(r"^\s*(?:(?:abbrev|unfoldable|pub|data|record|infix[lr]?) )*([^\s(){}:;,.]+)(?: +[({].*)?(?: *:| +where)")
HEAD = {"where", "let", "in", "use", "pub", "mod", "module", "λ", "elim", "record", "data", "infix", "infixl", "infixr", "unfolding", "open"}
FUNCTION_FILES = ("Proof.antt", "Answers.antt", "Invariants.antt")


def files(ending):
    for base, dirs, names in os.walk("crates"):
        dirs[:] = sorted(d for d in dirs if d not in ("out", "target"))
        for name in sorted(names):
            if name.endswith(ending):
                yield os.path.join(base, name)


def read(path):
    with open(path, encoding="utf-8") as f:
        return f.read()


def own_crates():
    return {d for d in os.listdir("crates") if os.path.isdir(os.path.join("crates", d))}


def library_names(text, crates):
    """The names that a file takes from a library."""
    found = set()
    for m in re.finditer(r"use ([\w.·+\-']+?)\.?\{([^}]*)\}", text):
        path = m.group(1).split(".")
        if path[0] == "Rattle" and path[1] in crates:
            continue
        for item in m.group(2).split(","):
            found.update(w for w in item.split() if w != "as")
    return found


def snake(name):
    if name in BY_HAND:
        return BY_HAND[name]
    out = name.replace("-", "_")
    if not out[0].isupper():
        out = re.sub(r"(?<=[a-z0-9])([A-Z])", lambda m: "_" + m.group(1).lower(), out)
    return out


def main():
    crates = own_crates()
    declared, library = set(), set()
    for path in files(".antt"):
        text = read(path)
        library |= library_names(text, crates)
        if path.endswith(FUNCTION_FILES):
            continue
        for line in text.splitlines():
            m = DECLARED.match(line)
            if m and m.group(1) not in HEAD and not line.lstrip().startswith("--"):
                declared.add(m.group(1))
            m = re.match(r"^\s*pub ((?:[^\s(){}:;,.]+ )+): ", line)
            if m:
                declared.update(m.group(1).split())
    kept = {n for n in declared & library if snake(n) != n}
    turned = {n: snake(n) for n in declared - library if snake(n) != n}
    turned.update({n: s for n, s in BY_HAND.items() if n not in library})
    if "--list" in sys.argv:
        for n in sorted(turned):
            print(n, turned[n])
        print("kept:", *sorted(kept))
        return
    clash = []
    texts = {}
    for path in list(files(".antt")) + list(files(".rt")):
        text = read(path)
        tokens = set(TOKEN.findall(re.sub(r"(?m)^\s*(--|//).*$", "", text)))
        by_new = collections.defaultdict(set)
        for t in tokens:
            by_new[turned.get(t, t)].add(t)
        # (a function of src/ may have the name of the word that says what it gives)
        clash += [(path, new, sorted(old)) for new, old in by_new.items() if len(old & declared) > 1]
        texts[path] = TOKEN.sub(lambda m: turned.get(m.group(0), m.group(0)), text)
    for path, new, old in clash:
        print(f"{path}: {' and '.join(old)} would both be {new}")
    if clash:
        raise SystemExit(1)
    for path, text in texts.items():
        if text != read(path):
            with open(path, "w", encoding="utf-8") as f:
                f.write(text)
    print(f"respell: {len(turned)} names")


main()
