"""Polynomials with coefficients modulo 2, kept as Python integers.

Bit i of the integer is the coefficient of X^i.  The sum is the exclusive or.
A generator of degree h is X^h plus a low part; it is given as the pair
(degree, low part).  Everything here is schoolbook arithmetic, one bit at a
time: there are no tables of remainders.
"""

LIMIT = 32768          # how far the walk for a period goes
STRETCH = 32           # bytes of a dividend brought down at once


def degree_of(p):
    """The degree of a polynomial that is not zero; -1 for zero."""
    return p.bit_length() - 1


def whole(degree, low):
    """The generator itself: X^degree plus the low part."""
    return (1 << degree) ^ low


def product(p, q):
    """p times q: one shifted copy of p for each coefficient of q."""
    total = 0
    place = 0
    while q >> place:
        if (q >> place) & 1:
            total ^= p << place
        place += 1
    return total


def divide(p, m):
    """Quotient and remainder of p by m, by long division."""
    if m == 0:
        raise ZeroDivisionError("division by the zero polynomial")
    top = m.bit_length()
    quotient = 0
    while p.bit_length() >= top:
        shift = p.bit_length() - top
        quotient ^= 1 << shift
        p ^= m << shift
    return quotient, p


def remainder(p, m):
    """What long division of p by m leaves."""
    if m == 0:
        raise ZeroDivisionError("division by the zero polynomial")
    top = m.bit_length()
    length = p.bit_length()
    while length >= top:
        p ^= m << (length - top)
        length = p.bit_length()
    return p


def of_string(data):
    """The polynomial of a byte string: the top bit of its first byte is its
    highest coefficient."""
    return int.from_bytes(data, "big")


def string_remainder(data, degree, low):
    """What division of string times X^degree by the generator leaves.

    The dividend's bytes are brought down some at a time, as in a division
    by hand; this only spares moving very long numbers about.
    """
    m = whole(degree, low)
    left = 0
    for start in range(0, len(data), STRETCH):
        piece = data[start:start + STRETCH]
        left = remainder((left << (8 * len(piece))) ^ of_string(piece), m)
    return remainder(left << degree, m)


def ones(p):
    """How many coefficients of p are 1."""
    return bin(p).count("1")


def terms(degree, low):
    """How many nonzero coefficients the generator has, X^degree included."""
    return ones(whole(degree, low))


def valid(degree, low):
    """Whether the low part stays below its degree and has constant term 1."""
    return low >> degree == 0 and low & 1 == 1


_walked = {}


def period(degree, low):
    """(period or None, steps made).

    The period is the least i from 1 upwards for which X^i leaves 1.  The walk
    goes through the remainders of X^1, X^2, ... as far as X^32768.
    """
    key = (degree, low)
    if key not in _walked:
        _walked[key] = _walk(degree, low)
    return _walked[key]


def _walk(degree, low):
    m = whole(degree, low)
    above = 1 << degree
    power = 1
    for step in range(1, LIMIT + 1):
        power <<= 1
        if power & above:
            power ^= m
        if power == 1:
            return step, step
    return None, LIMIT
