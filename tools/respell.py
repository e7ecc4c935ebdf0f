#!/usr/bin/env python3
"""Brings the definitions and lemmas of this repository to the toolchain's spelling.

    python3 tools/respell.py            at the top: rewrites the names in crates/ and in the edits that are kept beside them
    python3 tools/respell.py --list     prints old and new names, and rewrites nothing

Words are in snake case: `byRules` becomes `by_rules`, `some-tuple` becomes `some_tuple`. A dash stays where it joins two names of functions, as
in the lemma `length-digits`. Types and facts keep their capitals. Names of Rust items, and names that come from the toolchain's library, stay as they are.
"""

import os
import re
import sys

WORD = re.compile(r'[^\s(){}.;,@"«»]+')
DECLARED = re.compile(r"^(?: {2})*(?:unfoldable +)?(?:abbrev +)?(?:pub +)?([^\s(){}.;,@\"«»:]+) :(?= |$)", re.M)
FIELD = re.compile(r"^ +(?:pub +)?([^\s(){}.;,@\"«»:]+) :(?= )", re.M)
WORDS = re.compile(r"^(?:unfoldable +)?(?:abbrev +)?(?:pub +)?([^\s(){}.;,@\"«»:]+) :(?= |$)", re.M)
GHOST = re.compile(r"^ *ghost +(\w+):(?= )", re.M)
USE = re.compile(r"^\s*(?:ghost |pub )?use +((?:[^\s{};.]+\.)+)\{([^}]*)\}", re.M)
# lemmas that already have the name that their definition now gets, or get it now: `_lem` is added
LEMMAS = {"has_room": "has_room_lem", "held_in": "held_in_lem"}
# names of functions of the library that lemmas join by a dash
FUNCTIONS = set(
    "length append take drop map reverse concat filter sum all lt le eq add sub mul div mod pow xor and or not suc zero nil cons set xs "
    "bits shl shr bit replicate zip update insert get read items".split()
)


def files(root):
    for top in ("crates", "tests"):
        for folder, dirs, names in os.walk(os.path.join(root, top)):
            dirs[:] = sorted(d for d in dirs if d not in ("out", ".git"))
            for n in sorted(names):
                if n.endswith((".antt", ".rt", ".edit")):
                    yield os.path.join(folder, n)


def lemma_file(path):
    """A file of specs/ or a file of lemmas: right in specs/ or proofs/."""
    return path.endswith(".antt") and os.path.basename(os.path.dirname(path)) in ("specs", "proofs")


def snake(name):
    """camelCase to snake case; words in capitals and words that begin with one stay."""
    if not name[:1].islower():
        return name
    return re.sub(r"(?<=[a-z0-9'])([A-Z])(?=[a-z]|$)", lambda m: "_" + m[1].lower(), name)


def joined(name, functions):
    parts = name.split("-")
    if "" in parts:
        return name
    turned = [snake(p) for p in parts]
    out = turned[0]
    for before, after in zip(turned, turned[1:]):
        stays = before.strip("'") in functions and after.strip("'") in functions
        out += ("-" if stays or before[:1].isupper() or after[:1].isupper() else "_") + after
    return out


def table(root):
    texts = {p: open(p, encoding="utf-8").read() for p in files(root)}
    outside, declared, defined, words = set(), set(), set(), set()
    own = {d for d in os.listdir(os.path.join(root, "crates"))}
    for p, t in texts.items():
        for m in USE.finditer(t):
            if re.match(r"Rattle\.(\w+)\.", m[1]) and re.match(r"Rattle\.(\w+)\.", m[1])[1] in own:
                continue
            outside.update(w.strip().split(" as ")[0] for w in m[2].split(","))
        if lemma_file(p):
            names = set(DECLARED.findall(t)) | set(FIELD.findall(t))
            names = {n for n in names if not n.startswith("--") and n not in ("let", "in", "where", "module")}
            declared |= names
            if "/specs/" in p:
                defined |= names
                words |= set(WORDS.findall(t))
        elif p.endswith(".rt"):
            names = set(GHOST.findall(t))
            declared |= names
            defined |= names
    functions = FUNCTIONS | {snake(n) for n in words if "-" not in n}
    rows = {}
    for n in sorted(declared):
        new = joined(n, set() if n in defined else functions)
        if new != n and n not in outside:
            rows[n] = new
    spelled = {new for old, new in rows.items() if "-" not in old} | defined
    for old, new in rows.items():
        if "-" in old and new in spelled:
            rows[old] = new + "_lem"
    return texts, rows, declared - set(LEMMAS), outside


def turned(rows, path, text, first):
    if first and path.endswith(".antt"):
        # these are also names of Rust functions, which stand behind or before a dot
        for old, new in LEMMAS.items():
            text = re.sub(r"(?<![\w'.-])%s(?![\w'.-])" % old, new, text)
    return WORD.sub(lambda m: rows.get(m[0], m[0]), GHOST.sub(lambda m: m[0].replace(m[1] + ":", rows.get(m[1], m[1]) + ":"), text))


def main():
    root = os.getcwd()
    texts, rows, declared, outside = table(root)
    taken = {}
    for old, new in rows.items():
        taken.setdefault(new, []).append(old)
    bad = {new: olds for new, olds in taken.items() if len(olds) > 1 or new in declared or new in outside}
    for new, olds in sorted(bad.items()):
        print("together: %s <- %s%s" % (new, ", ".join(olds), " (declared)" if new in declared else "") + (" (library)" if new in outside else ""))
    if "--list" in sys.argv:
        for old, new in sorted(rows.items()):
            print(old + "\t" + new)
        return
    # a name that is turned can be what another is joined to: again until nothing is left
    first = True
    while rows:
        changed = 0
        for p, t in texts.items():
            new = turned(rows, p, t, first)
            if new != t:
                changed += 1
                with open(p, "w", encoding="utf-8") as f:
                    f.write(new)
        print("%d names, %d files" % (len(rows), changed))
        first = False
        if not changed:
            sys.exit("left: " + ", ".join(rows))
        texts, rows, declared, outside = table(root)


if __name__ == "__main__":
    main()
