"""Mutants of the rules, and whether the random scripts notice them.

    python3 reference/mutants.py [COUNT [SEED]]

Each mutant is a copy of the reference with one line of a rule turned: a
comparison, a constant, a place, a test left out, an order.  The transcripts of
random scripts are worked out by the reference as it is, and then by each
mutant until one differs.  Status 1: a mutant went unnoticed that is not known
to mean the same.
"""

import os
import pickle
import shutil
import subprocess
import sys
import tempfile

sys.dont_write_bytecode = True

from line import transcript                                      # noqa: E402
from mutations import MUTATIONS                                  # noqa: E402
from scripts import scripts                                      # noqa: E402

HERE = os.path.dirname(os.path.abspath(__file__))
FILES = ("poly.py", "codes.py", "station.py", "line.py")

# run in the mutant's folder: the number of the first script whose transcript
# is another, or 0
PROBE = """
import pickle, sys
sys.dont_write_bytecode = True
from line import transcript
with open(sys.argv[1], 'rb') as file:
    pairs = pickle.load(file)
for k, (text, wanted) in enumerate(pairs, 1):
    try:
        same = transcript(text) == wanted
    except Exception:
        same = False
    if not same:
        print(k)
        break
else:
    print(0)
"""


def mutated(folder, name, old, new):
    """Copies the reference into a folder, with one text in one file turned."""
    for each in FILES:
        shutil.copy(os.path.join(HERE, each), folder)
    path = os.path.join(folder, name)
    with open(path, encoding="utf-8") as file:
        text = file.read()
    if text.count(old) != 1:
        raise ValueError("%s: %r stands %d times"
                         % (name, old, text.count(old)))
    with open(path, "w", encoding="utf-8") as file:
        file.write(text.replace(old, new))


def noticed(pairs, name, old, new):
    """The number of the first script that tells the mutant, or 0."""
    with tempfile.TemporaryDirectory() as folder:
        mutated(folder, name, old, new)
        try:
            run = subprocess.run([sys.executable, "-c", PROBE, pairs],
                                 cwd=folder, stdout=subprocess.PIPE,
                                 stderr=subprocess.DEVNULL, timeout=120)
        except subprocess.TimeoutExpired:
            return -1
    return int(run.stdout or b"-1")


def main(count=400, seed="mutants"):
    texts = scripts(count, seed)
    left, same = [], []
    with tempfile.NamedTemporaryFile() as file:
        pickle.dump([(text, transcript(text)) for text in texts], file)
        file.flush()
        for name, old, new, reason in MUTATIONS:
            first = noticed(file.name, name, old, new)
            what = "%s: %s => %s" % (name, " ".join(old.split()),
                                     " ".join(new.split()))
            if first:
                print("%6s  %s" % (first if first > 0 else "fails", what))
            else:
                (same if reason else left).append(what)
                print("%6s  %s" % ("same" if reason else "UNSEEN", what))
                if reason:
                    print("        " + reason)
            if first and reason:
                left.append(what)
                print("        but it was said to mean the same: " + reason)
            sys.stdout.flush()
    print("%d mutants, %d noticed by %d scripts, %d mean the same, %d unseen"
          % (len(MUTATIONS), len(MUTATIONS) - len(same) - len(left), count,
             len(same), len(left)))
    return 1 if left else 0


if __name__ == "__main__":
    sys.exit(main(*[int(word) for word in sys.argv[1:2]], *sys.argv[2:3]))
