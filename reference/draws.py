"""Descriptions, reaches and frames by lot: good ones, and such as break one
rule or two."""

import poly
from codes import CATALOGUE, Description, Refusal, description_of, three_kinds
from published import periods
from station import head

BANK = three_kinds()
SHORT = [(h, low) for h, low, p in periods() if p <= poly.LIMIT]


# ----------------------------------------------------------- descriptions
def low_part(dice, degree):
    """A low part below a degree, with constant term 1."""
    published = [low for h, low in SHORT if h == degree]
    if published and dice.random() < 0.5:
        return dice.choice(published)
    return dice.choice((1, 3, 7 % (1 << degree), dice.getrandbits(degree) | 1,
                        dice.getrandbits(degree) | 1))


def with_terms(dice, degree, parity, draw):
    """A low part of a generator of even (0) or odd (1) terms."""
    while True:
        low = draw(dice, degree)
        if poly.terms(degree, low) % 2 == parity:
            return low


def near_period(dice, degree, need):
    """A low part of even terms, by preference with a period near `need`."""
    many = [with_terms(dice, degree, 0, low_part) for _ in range(12)]
    many.sort(key=lambda low: abs((poly.period(degree, low)[0] or 1 << 20)
                                  - need))
    return many[0] if dice.random() < 0.6 else many[-1]


def fit(dice):
    """A description that its kind takes, whatever the reach."""
    kind = dice.choice((0, 0, 1, 1, 2, 3, 3))
    if kind == 0:
        return dice.choice(CATALOGUE)[1]
    if kind == 1:
        degree = dice.choice((8, 16, 24, 32))
        return Description(1, degree, low_part(dice, degree), 0, 0, 1)
    if kind == 2:
        degree = dice.choice((15, 15, 23, 31))
        return Description(2, degree, with_terms(dice, degree, 1, low_part),
                           0, 0, 1)
    degree = dice.choice((8, 16, 16, 32))
    second = dice.choice((2, 3, 4, 5, 8, min(degree, 16), min(degree, 16),
                          dice.randint(2, min(degree, 16))))
    return Description(3, degree, low_part(dice, degree), second,
                       near_period(dice, second, degree), degree // 8)


def misfit(dice):
    """A description of a degree that its kind may not have, or whose terms are
    of any number; the rest is as it should be."""
    kind = dice.choice((1, 2, 2, 3))
    degree = dice.choice((0, 1, 7, 7, 9, 12, 12, 12, 14, 15, 15, 23, 24, 24,
                          31, 33, dice.randrange(2, 40), dice.randrange(256)))
    low = low_part(dice, min(degree, 32)) if degree > 1 else 1
    if kind != 3:
        return Description(kind, degree, low, 0, 0, 1)
    if dice.random() < 0.7:
        degree = dice.choice((8, 16, 32))
        low = low_part(dice, degree)
    second = dice.choice((0, 1, 2, 6, 7, 8, 9, 10, 16, 16, 17, 18, 32,
                          dice.randrange(40)))
    return Description(3, degree, low, second,
                       near_period(dice, max(2, min(second, 16)), 4 * degree),
                       dice.choice((degree // 8, degree // 8, degree // 16,
                                    degree // 8 - 1)) % 256)


def spoiled(dice, d):
    """The description with one field changed to something near or far."""
    field = dice.choice(("kind", "degree", "low", "low", "second_degree",
                         "second_low", "second_low", "tuple_bytes"))
    old = getattr(d, field)
    width = {"low": 32, "second_low": 16}.get(field, 8)
    degree = {"low": d.degree, "second_low": d.second_degree}.get(field, 4)
    new = dice.choice((old ^ 1, old + 1, old - 1, 0, 1, 2, 255, old ^ 2,
                       old ^ 4, old ^ (1 << degree), old ^ (1 << width - 1),
                       dice.choice((8, 9, 12, 15, 16, 17, 23, 24, 31, 32, 33)),
                       dice.getrandbits(width)))
    return d._replace(**{field: new % (1 << width)})


def greatest(d):
    """The greatest reach that the period of the first generator allows."""
    period = poly.period(d.degree, d.low)[0] or poly.LIMIT
    if d.kind == 3:
        return min(4096, (period + 1) * d.tuple_bytes)
    return min(4096, period // 8)


def reach_for(dice, d):
    """A reach at one of the edges, or a plain one."""
    sheet = BANK.sheet(d)
    s = sheet.tuple_bytes
    least = sheet.check_bytes + s
    most = greatest(d)
    return dice.choice((least, least - s, least - 1, least + 1, most, most,
                        most + s, most + 1, most - s, most - 1, 4096, 4096 + s,
                        4097, 0, 1, s, 65535, 8192, least + 3 * s,
                        least + 12 * s, least + 30 * s,
                        s * dice.randint(1, 4096 // s))) % 65536


def admitted(d, reach):
    try:
        BANK.admission(d, reach)
    except Refusal:
        return False
    return True


# ----------------------------------------------------------------- frames
def framed(dice, number, d, size):
    """A frame as some station would seal it."""
    s = BANK.sheet(d).tuple_bytes
    message = dice.randbytes(max(1, size // s) * s)
    word = message + BANK.check(d, message, 64)
    return head(number, d, len(word)) + word


def flipped(frame, bits):
    """The frame with some bits flipped, counted from its first."""
    altered = bytearray(frame)
    for k in bits:
        altered[k // 8] ^= 0x80 >> k % 8
    return bytes(altered)


def flips(dice, frame):
    """Some bits of a frame: few, a burst, an odd number, many."""
    first, last = dice.choice(((0, 128), (128, 8 * len(frame)),
                               (112, 8 * len(frame)), (0, 8 * len(frame)),
                               (8 * len(frame) - 24, 8 * len(frame))))
    span = dice.randint(1, min(40, last - first))
    start = dice.randint(first, last - span)
    burst = [k for k in range(start, start + span)
             if k in (start, start + span - 1) or dice.random() < 0.5]
    return dice.choice((burst, dice.sample(range(first, last),
                                           min(last - first,
                                               dice.randint(1, 5)))))


def headed(dice, frame):
    """The frame with another head, whose check is right."""
    number, d = frame[1], description_of(frame[2:12])
    length = len(frame) - 16
    change = dice.randrange(4)
    if change == 0:
        number = dice.choice((number ^ 1, number ^ 128, dice.randrange(24)))
    if change == 1:
        ten = bytearray(d.to_bytes())
        ten[dice.randrange(10)] ^= 1 << dice.randrange(8)
        if dice.random() < 0.5:
            ten[dice.randrange(10)] ^= 1 << dice.randrange(8)
        return head(number, description_of(ten), length) + frame[16:]
    if change == 2:
        length = dice.choice((length + 1, length - 1, 0, length ^ 256,
                              dice.getrandbits(16))) % 65536
    word = frame[16:]
    if change == 3:
        length = dice.choice((1, 2, 3, 4, 5, 8, 12, length - 1, length + 1,
                              length + 4, 4096))
        word = (word + bytes(4096))[:length]
    return head(number, d, length) + word


def unnoticed(dice, frame):
    """The frame with a change of its word that no check can notice: another
    word of the same code is added, by the sums of kinds 1 to 3."""
    d = description_of(frame[2:12])
    size = len(frame) - 16 - BANK.sheet(d).check_bytes
    other = framed(dice, frame[1], d, size)
    if len(other) != len(frame):
        return frame
    return frame[:16] + bytes(a ^ b for a, b in zip(frame[16:], other[16:]))


def damaged(dice, frame):
    """A frame that is altered in one of many ways, or in two."""
    if len(frame) < 17:
        return frame
    way = dice.randrange(9)
    if way == 0:
        return frame[:dice.choice((len(frame) - 1, 16, 17, 15, 1,
                                   dice.randrange(len(frame))))]
    if way == 1:
        return frame + dice.randbytes(dice.choice((1, 1, 2, 4, 16)))
    if way == 2:
        return dice.choice((b"\0", b"\2", b"\x81", b"\x1e")) + frame[1:]
    if way in (3, 4):
        return flipped(frame, flips(dice, frame))
    if way in (5, 6):
        return headed(dice, frame)
    if way == 7:
        last = bytearray(frame)
        place = dice.randint(1, min(8, len(frame) - 16))
        last[-place] ^= 1 << dice.randrange(8)
        return bytes(last)
    return damaged(dice, damaged(dice, frame))


def both_sums_vanish(dice, number, d, size):
    """A frame of kind 3 whose last tuple has a multiple of M1 added: its sums
    vanish, and its check is another."""
    frame = bytearray(framed(dice, number, d, size))
    second = poly.whole(d.second_degree, d.second_low)
    tuple_bits = 8 * d.tuple_bytes
    if second.bit_length() <= tuple_bits:
        shift = dice.randrange(tuple_bits - second.bit_length() + 1)
        last = int.from_bytes(frame[-d.tuple_bytes:], "big") ^ second << shift
        frame[-d.tuple_bytes:] = last.to_bytes(d.tuple_bytes, "big")
    return bytes(frame)
