"""Prints what the report has, over every engine, and the published vectors.

    python3 reference/survey.py
"""

import sys

sys.dont_write_bytecode = True

from codes import CATALOGUE, ENGINES, three_kinds                # noqa: E402
from report import parts                                         # noqa: E402
from shows import refusal_of, shown                              # noqa: E402
from vectors import answers, vectors                             # noqa: E402


def kinds():
    """The check of one message by kinds 1 and 2 over every engine."""
    yield ""
    yield "Kinds over engines"
    message = b"123456789"
    for name, d in CATALOGUE:
        if d.kind in (1, 2):
            over = [engine for engine in ENGINES if refusal_of(
                three_kinds(engine).check, d, message, 64) is None]
            checks = set(three_kinds(engine).check(d, message, 64)
                         for engine in over)
            assert len(checks) == 1, name
            yield "  %s: %s has %s by %s" % (
                name, shown(message), checks.pop().hex().upper(),
                ", ".join(over))


def survey():
    lines = list(parts(ENGINES))
    lines.extend(kinds())
    lines.extend(vectors())
    lines.extend(answers())
    return "".join(line + "\n" for line in lines)


def main():
    sys.stdout.buffer.write(survey().encode("ascii"))
    sys.stdout.buffer.flush()


if __name__ == "__main__":
    main()
