"""Prints what each published generator is and what it leaves.

    python3 reference/report.py
"""

import sys

sys.dont_write_bytecode = True

import poly                                                      # noqa: E402
from codes import (CATALOGUE, Description, Refusal,              # noqa: E402
                   period_call, published, set_engine, three_kinds)
from shows import (ALL_BYTES, hex_even, hex_for, refusal_of,      # noqa: E402
                   shown)

# the engines that the report is on; the survey has slicing too
ENGINES = ("bitwise", "table", "ready-made", "fast")

GENERATORS = (
    ("CRC-16", 16, 0x8005),
    ("CRC-CCITT", 16, 0x1021),
    ("IEEE-802", 32, 0x04C11DB7),
    ("ATM-HEC", 8, 0x07),
    ("FAST-16", 16, 0x011B),
    ("LONG-24", 24, 0x018301),
    ("PARITY-16", 15, 0x0003),
    ("WSC-8 first", 8, 0x1D),
    ("WSC-8 second", 5, 0x15),
)

MESSAGES = (
    b"",
    b"\x01",
    b"\x80",
    b"\x01\x01",
    b"123456789",
    b"\xff" * 2,
    b"\xff" * 4,
    bytes(range(16)),
    ALL_BYTES,
)

PIECES = (
    ("no piece", ()),
    ("31, nothing, 32333435, 36373839 in pieces", (b"1", b"", b"2345", b"6789")),
)

# call, degree, low part, engine (None where every engine must say the same)
REFUSED = (
    ("engine set", 7, 0x07, None),
    ("engine set", 33, 0x07, None),
    ("engine set", 8, 0x06, None),
    ("engine set", 8, 0x0107, None),
    ("engine set", 16, 0x8005, "fast"),
    ("engine set", 16, 0x1021, "ready-made"),
    ("period", 1, 0x01, None),
    ("period", 33, 0x01, None),
    ("period", 8, 0x06, None),
    ("period", 8, 0x0107, None),
)


def block(name, degree, low, engines):
    yield "%s: degree %d, low part %s, %d terms" % (
        name, degree, hex_for(low, degree), poly.terms(degree, low))
    period, steps = period_call(degree, low)
    if period is None:
        yield "  no period up to %d after %d steps" % (poly.LIMIT, steps)
    else:
        yield "  period %d after %d steps" % (period, steps)
    yield "  longest word %d bytes" % (
        min(period or poly.LIMIT, poly.LIMIT) // 8)
    carrying = []
    for engine in engines:
        refusal = refusal_of(set_engine, engine, degree, low)
        if refusal is None:
            carrying.append(engine)
            yield "  %s carries it" % engine
        else:
            yield "  %s refuses it: %s" % (engine, refusal)
    if carrying:
        for message in MESSAGES:
            left = poly.string_remainder(message, degree, low)
            yield "  %s leaves %s by %s" % (
                shown(message), hex_for(left, degree), ", ".join(carrying))
        for said, pieces in PIECES:
            left = poly.string_remainder(b"".join(pieces), degree, low)
            yield "  %s leaves %s by %s" % (
                said, hex_for(left, degree), ", ".join(carrying))
    yield ""


def refusal_line(call, degree, low, engine, engines):
    if call == "period":
        refusal = refusal_of(period_call, degree, low)
    elif engine is not None:
        refusal = refusal_of(set_engine, engine, degree, low)
    else:
        each = [refusal_of(set_engine, one, degree, low) for one in engines]
        refusal = each[0]
        if len(set(str(one) for one in each)) != 1:
            raise ValueError("the engines differ over a set refusal")
    return "  %s, degree %d, low part %s%s: %s" % (
        call, degree, hex_even(low), " by " + engine if engine else "",
        "0" if refusal is None else refusal)


# the kinds: messages whose checks are printed
CHECKED = (b"\x01", b"\x80", b"\x03", b"\x01\x01", b"123456789",
           bytes(range(16)), ALL_BYTES)

# a code of kind 3 with tuples of four bytes
WIDE = Description(3, 32, 0x04C11DB7, 16, 0x8005, 4)

# description, reach, engine
ADMITTED = (
    (Description(9, 8, 0x07, 0, 0, 1), 15, "table"),
    (Description(1, 12, 0x07, 0, 0, 1), 15, "table"),
    (Description(1, 8, 0x07, 1, 0, 1), 15, "table"),
    (Description(1, 8, 0x07, 0, 1, 1), 15, "table"),
    (Description(1, 8, 0x07, 0, 0, 2), 15, "table"),
    (Description(3, 8, 0x1D, 9, 0x15, 1), 15, "table"),
    (Description(1, 8, 0x06, 0, 0, 1), 15, "table"),
    (Description(3, 8, 0x1D, 5, 0x14, 1), 15, "table"),
    (Description(2, 15, 0x0001, 0, 0, 1), 15, "table"),
    (Description(3, 8, 0x1D, 5, 0x05, 1), 15, "table"),
    (Description(1, 16, 0x8005, 0, 0, 1), 15, "fast"),
    (Description(1, 8, 0x07, 0, 0, 1), 1, "table"),
    (Description(1, 16, 0x8005, 0, 0, 1), 4096, "table"),
    (Description(3, 8, 0x1D, 2, 0x01, 1), 15, "table"),
    (Description(1, 16, 0x8005, 0, 0, 1), 4095, "table"),
)


def spelled(d):
    """The ten bytes of a description, field by field."""
    return "%02X %02X %08X %02X %04X %02X" % d


def code_block(name, d):
    bank = three_kinds()
    yield "%s: %s" % (name, spelled(d))
    sheet = bank.sheet(d)
    yield "  check %d, tuple %d, burst %d, few %d, odd %s" % (
        sheet.check_bytes, sheet.tuple_bytes, sheet.burst, sheet.few,
        "yes" if sheet.odd else "no")
    reach = 4096
    while refusal_of(bank.admission, d, reach) is not None:
        reach -= sheet.tuple_bytes
    more = refusal_of(bank.admission, d, reach + sheet.tuple_bytes)
    yield "  greatest reach %d, one tuple more %s" % (reach, more)
    for message in CHECKED:
        try:
            said = "has " + bank.check(d, message, 64).hex().upper()
        except Refusal as refusal:
            said = "is refused: %s" % refusal
        yield "  %s %s" % (shown(message), said)
    yield "  nothing is refused: %s" % refusal_of(bank.check, d, b"", 64)
    yield "  one byte of room too few: %s" % refusal_of(
        bank.check, d, bytes(4), sheet.check_bytes - 1)
    yield ""


def codes():
    yield ""
    yield "Codes"
    yield ""
    for name, d in CATALOGUE:
        assert published(name) == d
        for line in code_block(name, d):
            yield line
    for line in code_block("tuples of four bytes", WIDE):
        yield line
    yield "Admission"
    for d, reach, engine in ADMITTED:
        refusal = refusal_of(three_kinds(engine).admission, d, reach)
        yield "  %s, reach %d, by %s: %s" % (
            spelled(d), reach, engine,
            "admitted" if refusal is None else refusal)
    yield "  no published code is called CRC-17: %s" % (
        "none" if published("CRC-17") is None else "some")


def parts(engines):
    """The lines of the report over these engines."""
    for name, degree, low in GENERATORS:
        for line in block(name, degree, low, engines):
            yield line
    yield "Refusals"
    for call, degree, low, engine in REFUSED:
        yield refusal_line(call, degree, low, engine, engines)
    for line in codes():
        yield line


def report():
    return "".join(line + "\n" for line in parts(ENGINES))


def main():
    sys.stdout.buffer.write(report().encode("ascii"))
    sys.stdout.buffer.flush()


if __name__ == "__main__":
    main()
