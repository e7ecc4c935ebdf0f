"""Descriptions, the catalogue, engines by what they carry, and the kinds.

A kind answers four questions: which kind numbers it serves, whether it admits
a description with a reach, the sheet of a description, and the check of a
message.  A refusal has a number, a layer and a place.
"""

from collections import namedtuple

import poly

GREATEST_REACH = 4096


class Refusal(Exception):
    """A number, the layer that refuses, and the place of the cause."""

    def __init__(self, number, layer, place):
        super().__init__(number, layer, place)
        self.number = number
        self.layer = layer
        self.place = place

    def triple(self):
        return (self.number, self.layer, self.place)

    def __str__(self):
        return "%d %s %d" % self.triple()


class Description(namedtuple(
        "Description",
        "kind degree low second_degree second_low tuple_bytes")):
    """What a code is.  Its ten bytes stand at places 2 to 11 of a head."""

    def to_bytes(self):
        return (bytes([self.kind, self.degree])
                + self.low.to_bytes(4, "big")
                + bytes([self.second_degree])
                + self.second_low.to_bytes(2, "big")
                + bytes([self.tuple_bytes]))


def description_of(ten):
    """The description that ten bytes spell."""
    return Description(ten[0], ten[1], int.from_bytes(ten[2:6], "big"),
                       ten[6], int.from_bytes(ten[7:9], "big"), ten[9])


Sheet = namedtuple("Sheet", "check_bytes tuple_bytes burst few odd")


CATALOGUE = (
    ("CRC-16", Description(1, 16, 0x8005, 0, 0, 1)),
    ("CRC-CCITT", Description(1, 16, 0x1021, 0, 0, 1)),
    ("IEEE-802", Description(1, 32, 0x04C11DB7, 0, 0, 1)),
    ("ATM-HEC", Description(1, 8, 0x07, 0, 0, 1)),
    ("FAST-16", Description(1, 16, 0x011B, 0, 0, 1)),
    ("LONG-24", Description(1, 24, 0x018301, 0, 0, 1)),
    ("PARITY-16", Description(2, 15, 0x0003, 0, 0, 1)),
    ("WSC-8", Description(3, 8, 0x1D, 5, 0x15, 1)),
)


def published(name):
    """The description of a published name, or None."""
    for known, description in CATALOGUE:
        if known == name:
            return description
    return None


# ---------------------------------------------------------------- engines

ENGINES = ("bitwise", "table", "ready-made", "fast", "slicing")


def carries(engine, degree, low):
    """Whether an engine carries a generator: a fixed yes or no."""
    if engine in ("bitwise", "table", "slicing"):
        return True
    if engine == "ready-made":
        return (degree, low) == (32, 0x04C11DB7)
    if engine == "fast":
        return poly.degree_of(low) <= degree - 8
    raise ValueError("no such engine: " + engine)


def set_engine(engine, degree, low):
    """Refuses as an engine's set does; no answer where it accepts."""
    if not 8 <= degree <= 32:
        raise Refusal(12, "engine", 3)
    if not poly.valid(degree, low):
        raise Refusal(13, "engine", 4)
    if not carries(engine, degree, low):
        raise Refusal(15, "engine", 4)


def period_call(degree, low):
    """(period or None, steps) for a generator of degree 2 to 32."""
    if not 2 <= degree <= 32:
        raise Refusal(12, "engine", 3)
    if not poly.valid(degree, low):
        raise Refusal(13, "engine", 4)
    return poly.period(degree, low)


def period_reaches(degree, low, need):
    """Whether the period is at least `need`; none up to the limit is."""
    found, _ = poly.period(degree, low)
    return found is None or found >= need


# ------------------------------------------------------------------ kinds

class Kind:
    """What all kinds share: the order in which their calls refuse."""

    number = None

    def serves(self, kind_number):
        return kind_number == self.number

    def chosen(self, kind_number):
        return self

    def unfit(self, d):
        """Refuses a description that is wrong whatever the reach."""
        if not self.serves(d.kind):
            raise Refusal(11, "kind", 2)
        self.wrong_fields(d)
        self.wrong_low_parts(d)
        self.wrong_terms(d)
        self.not_carried(d)

    def admission(self, d, reach):
        self.unfit(d)
        sheet = self.plain_sheet(d)
        if (reach % sheet.tuple_bytes != 0
                or reach < sheet.check_bytes + sheet.tuple_bytes
                or reach > GREATEST_REACH):
            raise Refusal(16, "kind", 12)
        self.short_period(d, reach)

    def sheet(self, d):
        self.unfit(d)
        return self.plain_sheet(d)

    def check(self, d, message, room):
        """The check of a message, for an output of `room` bytes."""
        self.unfit(d)
        sheet = self.plain_sheet(d)
        size = len(message)
        if size == 0 or size % sheet.tuple_bytes != 0 or size > GREATEST_REACH:
            raise Refusal(31, "frame", size)
        if room < sheet.check_bytes:
            raise Refusal(33, "frame", room)
        return self.plain_check(d, message)

    # what each kind says for itself
    def wrong_fields(self, d):
        raise NotImplementedError

    def wrong_low_parts(self, d):
        if not poly.valid(d.degree, d.low):
            raise Refusal(13, "kind", 4)

    def wrong_terms(self, d):
        pass

    def not_carried(self, d):
        pass

    def short_period(self, d, reach):
        if not period_reaches(d.degree, d.low, 8 * reach):
            raise Refusal(17, "kind", 4)

    def plain_sheet(self, d):
        raise NotImplementedError

    def plain_check(self, d, message):
        raise NotImplementedError


class OverAnEngine(Kind):
    """Kinds 1 and 2: one generator, worked through an engine."""

    degrees = ()

    def __init__(self, engine="table"):
        self.engine = engine

    def wrong_fields(self, d):
        if d.degree not in self.degrees:
            raise Refusal(12, "kind", 3)
        if d.second_degree != 0:
            raise Refusal(12, "kind", 8)
        if d.second_low != 0:
            raise Refusal(12, "kind", 9)
        if d.tuple_bytes != 1:
            raise Refusal(12, "kind", 11)

    def not_carried(self, d):
        if not carries(self.engine, d.degree, d.low):
            raise Refusal(15, "engine", 4)


class Crc(OverAnEngine):
    """Kind 1: the check is the remainder."""

    number = 1
    degrees = (8, 16, 24, 32)

    def plain_sheet(self, d):
        even = poly.terms(d.degree, d.low) % 2 == 0
        return Sheet(d.degree // 8, 1, d.degree, 3 if even else 2, even)

    def plain_check(self, d, message):
        left = poly.string_remainder(message, d.degree, d.low)
        return left.to_bytes(d.degree // 8, "big")


class CrcWithParity(OverAnEngine):
    """Kind 2: the remainder, then a bit that makes the word's ones even."""

    number = 2
    degrees = (15, 23, 31)

    def wrong_terms(self, d):
        if poly.terms(d.degree, d.low) % 2 == 0:
            raise Refusal(14, "kind", 4)

    def plain_sheet(self, d):
        return Sheet((d.degree + 1) // 8, 1, d.degree + 1, 3, True)

    def plain_check(self, d, message):
        left = poly.string_remainder(message, d.degree, d.low)
        count = poly.ones(poly.of_string(message)) + poly.ones(left)
        last = 1 if count % 2 == 1 else 0
        return (2 * left + last).to_bytes((d.degree + 1) // 8, "big")


class WeightedSum(Kind):
    """Kind 3: two check tuples, a weighted sum and a plain one."""

    number = 3

    def wrong_fields(self, d):
        if d.degree not in (8, 16, 32):
            raise Refusal(12, "kind", 3)
        if not 2 <= d.second_degree <= min(16, d.degree):
            raise Refusal(12, "kind", 8)
        if d.tuple_bytes != d.degree // 8:
            raise Refusal(12, "kind", 11)

    def wrong_low_parts(self, d):
        if not poly.valid(d.degree, d.low):
            raise Refusal(13, "kind", 4)
        if not poly.valid(d.second_degree, d.second_low):
            raise Refusal(13, "kind", 9)

    def wrong_terms(self, d):
        if poly.terms(d.second_degree, d.second_low) % 2 == 1:
            raise Refusal(14, "kind", 9)

    def short_period(self, d, reach):
        if not period_reaches(d.degree, d.low, reach // d.tuple_bytes - 1):
            raise Refusal(17, "kind", 4)
        if not period_reaches(d.second_degree, d.second_low,
                              8 * d.tuple_bytes):
            raise Refusal(17, "kind", 9)

    def plain_sheet(self, d):
        return Sheet(2 * d.tuple_bytes, d.tuple_bytes, d.degree, 3, True)

    def plain_check(self, d, message):
        s = d.tuple_bytes
        q = [poly.of_string(message[k:k + s])
             for k in range(0, len(message), s)]
        n = len(q) + 2                       # tuples in the word
        weighted = 0
        for i in range(n - 2):               # Q0 to Q(n-3)
            weighted ^= q[i] << (n - 2 - i)  # Qi times X^(n-2-i)
        p1 = poly.remainder(weighted, poly.whole(d.degree, d.low))
        y = p1
        for each in q:
            y ^= each
        p2 = poly.remainder(y, poly.whole(d.second_degree, d.second_low))
        return p1.to_bytes(s, "big") + p2.to_bytes(s, "big")


class Bank:
    """A pair of kinds, and again a kind: the left one serves its own kind
    numbers, the right one all others."""

    def __init__(self, left, right):
        self.left = left
        self.right = right

    def serves(self, kind_number):
        return self.left.serves(kind_number) or self.right.serves(kind_number)

    def chosen(self, kind_number):
        side = self.left if self.left.serves(kind_number) else self.right
        return side.chosen(kind_number)

    def admission(self, d, reach):
        return self.chosen(d.kind).admission(d, reach)

    def sheet(self, d):
        return self.chosen(d.kind).sheet(d)

    def check(self, d, message, room):
        return self.chosen(d.kind).check(d, message, room)


def three_kinds(engine="table"):
    """The bank of kinds 1 to 3, the first two over the named engine."""
    return Bank(Crc(engine), Bank(CrcWithParity(engine), WeightedSum()))
