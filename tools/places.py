#!/usr/bin/env python3
"""Lists the places of crates/*/src where an older form of the language may still stand, by the points of docs/DESIGN-PASS.md.

    python3 tools/places.py          the counts
    python3 tools/places.py 3        the places of point 3, a line each

It reads the checkout that it lies in. A row is a place to look at, and no verdict.
"""
import difflib
import glob
import os
import re
import sys

ROOT = os.path.dirname(os.path.dirname(os.path.abspath(__file__)))
FILES = sorted(glob.glob(os.path.join(ROOT, "crates/*/src/**/*.rt"), recursive=True))


def code(path):
    """The lines of a file without comments."""
    return [re.sub(r"//.*", "", line) for line in open(path).read().split("\n")]


def rows(pattern):
    for path in FILES:
        for n, line in enumerate(code(path), 1):
            if re.search(pattern, line):
                yield f"{os.path.relpath(path, ROOT)}:{n}: {line.strip()[:110]}"


def items(word):
    """Every `fn` or `struct`: its path, line, name, head up to the brace, and body."""
    for path in FILES:
        text = "\n".join(code(path))
        for m in re.finditer(r"\b%s (\w+)" % word, text):
            depth, round, i, start = 0, 0, m.end(), None
            while i < len(text):
                c = text[i]
                round += (c in "([") - (c in ")]")
                if c == "{":
                    if depth == 0 and not re.search(r"(requires|ensures|ghost)[^{}]*$", text[m.start():i]):
                        start = i
                    depth += 1
                elif c == "}":
                    depth -= 1
                    if depth == 0 and start is not None:
                        break
                elif c == ";" and depth == 0 and round == 0:
                    break
                i += 1
            line = text.count("\n", 0, m.start()) + 1
            if start is not None:
                yield os.path.relpath(path, ROOT), line, m.group(1), text[m.start():start], text[start:i + 1]


def shape(text):
    """A text without its names of types, numbers and strings, as a list of words."""
    text = re.sub(r'b?"[^"]*"', "S", text)
    text = re.sub(r"\b(0x[0-9A-Fa-f_]+|\d[\d_]*(u8|u16|u32|u64|usize)?)\b", "0", text)
    text = re.sub(r"\b(u8|u16|u32|u64|usize|[A-Z]\w*)\b", "T", text)
    return re.findall(r"\w+|[^\w\s]", text)


def numbers_for_kinds():
    return list(rows(r"\b(call|kind|letter|engine): (u8|usize)\b|^\s+(pub )?(number: (u8|0)|place: usize),$|\(u8, u32, &str, usize\)|fn \w+\(\) -> u8$"))


def twins():
    """Groups of functions or types of one shape, at least 25 words long and nine tenths alike: a row for each but the first."""
    found = []
    for word in ["fn", "struct"]:
        seen = {}
        all_items = [(p, n, name, shape(head.split("ensures")[0].split("requires")[0] + body)) for p, n, name, head, body in items(word)]
        all_items = [x for x in all_items if len(x[3]) >= (25 if word == "fn" else 15)]
        for i, a in enumerate(all_items):
            for b in all_items[i + 1:]:
                short, long = sorted([len(a[3]), len(b[3])])
                if short * 10 < long * 8:
                    continue
                words = difflib.SequenceMatcher(None, a[3], b[3], autojunk=False)
                if b[:3] not in seen and words.quick_ratio() >= 0.9 and words.ratio() >= 0.9:
                    seen[b[:3]] = True
                    found.append(f"{b[0]}:{b[1]}: {word} {b[2]}, as {a[0]}:{a[1]}: {word} {a[2]}")
    return sorted(found)


def index_loops():
    return list(rows(r"\bfor \w+ in [^{]*\.\.|\bwhile\b|\.enumerate\(\)"))


def by_hand():
    return list(rows(r"\bimpl.* (From<.*>|TryFrom<.*>|fmt::Display|Display|PartialEq|Eq|PartialOrd|Ord|Clone|Debug) for|"
                     r"\bfn (coded_of|description_of|description_at|entry_in|pair_at|quad_at|tell|number_at|put_\w+|with_hex|hex_\w+|word)\b|"
                     r"Layer::\w+ => \"|== self\.generator\.|degree\(\) != 32"))


def together():
    """Facts in the contracts of three functions or more, and pairs of parameters of as many."""
    facts, pairs = {}, {}
    for path, line, name, head, _ in items("fn"):
        where = f"{path}:{name}"
        for clause in re.findall(r"(?:requires|ensures)\s*\w*\s*\{(.*)\}", head):
            for fact in re.split(r" × | → ", clause):
                fact = fact.strip(" ()")
                if "result" not in fact and len(fact) > 12 and "≡" not in fact.split("(")[0]:
                    facts.setdefault(fact, set()).add(where)
        params = re.search(r"\((.*?)\)\s*(->|\n|$)", head.replace("\n", " "))
        names = sorted(set(re.findall(r"(\w+: [^,()]+)", params.group(1)))) if params else []
        for i, a in enumerate(names):
            for b in names[i + 1:]:
                pairs.setdefault((a.strip(), b.strip()), set()).add(where)
    out = [f"fact in {len(w)}: {f}" for f, w in sorted(facts.items(), key=lambda x: -len(x[1])) if len(w) >= 3]
    out += [f"parameters in {len(w)}: {a}, {b}" for (a, b), w in sorted(pairs.items(), key=lambda x: -len(x[1])) if len(w) >= 4]
    return out


def buffers():
    return list(rows(r"\blen: usize\b|: \[(u8|Entry); |\bNAMES\b.*zip|CATALOGUE\[\d\]|\[0(u8)?; \d+\]|-> usize$"))


def switches():
    return list(rows(r"match .*\.call\b|for _ in 0\.\.more|\bfn\(|dyn "))


def answers():
    out = []
    for path in sorted(glob.glob(os.path.join(ROOT, "crates/*/proofs/**/Answers.antt"), recursive=True)):
        n = len(re.findall(r"(?m)^pub [^\n]* : goal\.", open(path).read()))
        out.append(f"{os.path.relpath(path, ROOT)}: {n} answers")
    return out


POINTS = [
    ("own Options, flags and numbers for kinds or refusals", numbers_for_kinds),
    ("twins", twins),
    ("loops that count", index_loops),
    ("equality, conversion and printing by hand", by_hand),
    ("facts and parameters that go together", together),
    ("buffers with a length, parallel arrays, indices", buffers),
    ("switches on a step", switches),
    ("files of answers", answers),
]

if __name__ == "__main__":
    wanted = [int(a) for a in sys.argv[1:]]
    for n, (what, find) in enumerate(POINTS, 1):
        if not wanted:
            print(f"{n}  {len(find()):4}  {what}")
        elif n in wanted:
            for row in find():
                print(row)
