"""Checks the reference against sums worked by hand and known answers.

    python3 reference/check.py
"""

import binascii
import os
import random
import subprocess
import sys
import zlib

sys.dont_write_bytecode = True

import poly                                             # noqa: E402
import report                                           # noqa: E402
import survey                                           # noqa: E402
from codes import (Bank, CATALOGUE, Crc, CrcWithParity,  # noqa: E402
                   Description, ENGINES, Refusal, Sheet, WeightedSum,
                   carries, description_of, period_call, published,
                   set_engine, three_kinds)
from examples import examples                           # noqa: E402
from line import lines_of, transcript                   # noqa: E402
from script import script                               # noqa: E402
from rows import answer_rows                            # noqa: E402
from station import Station, head                       # noqa: E402

HERE = os.path.dirname(os.path.abspath(__file__))
done = 0
bank = three_kinds()


def same(found, wanted, what=""):
    global done
    if found != wanted:
        raise AssertionError("%s: found %r, wanted %r"
                             % (what, found, wanted))
    done += 1


def outcome(call, *arguments):
    """0 with the call's answer, or the refusal as a triple."""
    try:
        return (0, call(*arguments))
    except Refusal as refusal:
        return refusal.triple()


def h(text):
    return bytes.fromhex(text)


def d(kind, degree, low, second_degree=0, second_low=0, tuple_bytes=1):
    return Description(kind, degree, low, second_degree, second_low,
                       tuple_bytes)


def check_of(name, message):
    return bank.check(published(name), h(message), 64).hex().upper()


def run(text):
    return transcript(text).decode("ascii")


ATM = published("ATM-HEC")
WSC = published("WSC-8")
PAR = published("PARITY-16")
GOOD = h("010501080000000700000001000294620107")


# ------------------------------------------------------------ polynomials
def polynomials():
    dice = random.Random(1)
    same(poly.product(0b11, 0b11), 0b101)
    same(poly.product(0, 5), 0)
    same(poly.divide(0b101, 0b11), (0b11, 0))
    for _ in range(500):
        p = dice.getrandbits(dice.randrange(1, 200))
        m = dice.getrandbits(dice.randrange(1, 40)) | 1
        quotient, left = poly.divide(p, m)
        same(poly.product(quotient, m) ^ left, p)
        same(left.bit_length() < m.bit_length(), True)
        same(poly.remainder(p, m), left)
        q = dice.getrandbits(60)
        same(poly.product(p, q), poly.product(q, p))
    for _ in range(200):
        degree = dice.randrange(1, 33)
        low = dice.getrandbits(degree) | 1
        text = dice.randbytes(dice.randrange(0, 150))
        same(poly.string_remainder(text, degree, low),
             poly.divide(poly.of_string(text) << degree,
                         poly.whole(degree, low))[1])
    # two checks known to the standard library
    for size in list(range(0, 70)) + [255, 256, 1000, 4094]:
        text = dice.randbytes(size)
        same(poly.string_remainder(text, 16, 0x1021),
             binascii.crc_hqx(text, 0))
        same(poly.string_remainder(text, 32, 0x04C11DB7), plain_crc32(text))
    # known check values of the nine digits
    digits = b"123456789"
    same(poly.string_remainder(digits, 16, 0x8005), 0xFEE8)
    same(poly.string_remainder(digits, 16, 0x1021), 0x31C3)
    same(poly.string_remainder(digits, 8, 0x07), 0xF4)
    same(poly.string_remainder(digits, 32, 0x04C11DB7), 0x765E7680 ^ 0xFFFFFFFF)
    same(poly.terms(16, 0x8005), 4)
    same(poly.terms(15, 0x0003), 3)
    same(poly.valid(8, 0x07), True)
    same(poly.valid(8, 0x06), False)
    same(poly.valid(8, 0x107), False)
    same(poly.valid(32, 0xFFFFFFFF), True)


def mirror(value, bits):
    return int(format(value, "0%db" % bits)[::-1], 2)


def plain_crc32(text):
    """The remainder out of zlib's: turn the bits of each byte about, take
    away what its start and end values add, turn the result about."""
    turned = bytes(mirror(byte, 8) for byte in text)
    added = zlib.crc32(bytes(len(text)))
    return mirror(zlib.crc32(turned) ^ added, 32)


def periods():
    same(period_call(8, 0x07), (127, 127))
    same(period_call(8, 0x1D), (255, 255))
    same(period_call(5, 0x15), (15, 15))
    same(period_call(16, 0x8005), (32767, 32767))
    same(period_call(16, 0x1021), (32767, 32767))
    same(period_call(15, 0x0003), (32767, 32767))
    same(period_call(24, 0x018301), (4094, 4094))
    same(period_call(32, 0x04C11DB7), (None, 32768))
    same(period_call(2, 0x03), (3, 3))
    same(period_call(2, 0x01), (2, 2))
    same(period_call(8, 0x01), (8, 8))
    same(outcome(period_call, 1, 1), (12, "engine", 3))
    same(outcome(period_call, 0, 1), (12, "engine", 3))
    same(outcome(period_call, 33, 1), (12, "engine", 3))
    same(outcome(period_call, 33, 6), (12, "engine", 3))
    same(outcome(period_call, 8, 0x06), (13, "engine", 4))
    same(outcome(period_call, 8, 0x107), (13, "engine", 4))
    # against the definition itself, every generator of degree 2 to 7
    for degree in range(2, 8):
        for low in range(1, 1 << degree, 2):
            m = poly.whole(degree, low)
            i = 1
            while poly.divide(1 << i, m)[1] != 1:
                i += 1
            same(period_call(degree, low), (i, i))
    # X^n + 1 has period n: the walk's limit, at it and one beyond (the walk
    # itself minds no degree)
    same(poly.period(32768, 1), (32768, 32768))
    same(poly.period(32769, 1), (None, 32768))
    # powers of X + 1 have powers of two as periods
    power = 1
    for exponent in range(1, 33):
        power = poly.product(power, 0b11)
        if exponent >= 2:
            wanted = 1
            while wanted < exponent:
                wanted *= 2
            low = power ^ (1 << exponent)
            same(period_call(exponent, low), (wanted, wanted))


# ---------------------------------------------------------------- engines
def engines():
    for engine in ENGINES:
        same(outcome(set_engine, engine, 7, 0x07), (12, "engine", 3))
        same(outcome(set_engine, engine, 33, 0x07), (12, "engine", 3))
        same(outcome(set_engine, engine, 8, 0x06), (13, "engine", 4))
        same(outcome(set_engine, engine, 8, 0x107), (13, "engine", 4))
        same(outcome(set_engine, engine, 32, 0x04C11DB7),
             (15, "engine", 4) if engine == "fast" else (0, None))
    same(outcome(set_engine, "fast", 16, 0x8005), (15, "engine", 4))
    same(outcome(set_engine, "ready-made", 16, 0x1021), (15, "engine", 4))
    same(carries("fast", 16, 0x01FF), True)
    same(carries("fast", 16, 0x0201), False)     # degree 16 - 7
    same(carries("fast", 8, 0x01), True)
    same(carries("fast", 8, 0x03), False)
    same(carries("fast", 16, 0x011B), True)
    same(carries("fast", 24, 0x018301), True)
    same(carries("fast", 24, 0x020001), False)
    same(carries("fast", 15, 0x0003), True)
    same(carries("ready-made", 32, 0x04C11DB5), False)


# ------------------------------------------------------------------ codes
def small_sums():
    same(check_of("ATM-HEC", "01"), "07")
    same(check_of("ATM-HEC", "80"), "89")
    same(check_of("CRC-CCITT", "01"), "1021")
    same(check_of("CRC-CCITT", "80"), "9188")
    same(check_of("PARITY-16", "01"), "0007")
    same(check_of("PARITY-16", "03"), "000A")
    same(check_of("WSC-8", "01"), "0203")
    same(check_of("WSC-8", "80"), "1D16")
    same(check_of("WSC-8", "0101"), "0606")
    station = Station(bank)
    station.enter(8, WSC, 256)
    same(outcome(station.take, head(8, WSC, 3) + h("010203")), (0, h("01")))
    same(outcome(station.take, head(8, WSC, 3) + h("010236")),
         (47, "frame", 18))


def catalogue():
    spelled = {
        "CRC-16": "01100000800500000001",
        "CRC-CCITT": "01100000102100000001",
        "IEEE-802": "012004C11DB700000001",
        "ATM-HEC": "01080000000700000001",
        "FAST-16": "01100000011B00000001",
        "LONG-24": "01180001830100000001",
        "PARITY-16": "020F0000000300000001",
        "WSC-8": "03080000001D05001501",
    }
    same(len(CATALOGUE), len(spelled))
    for name, text in spelled.items():
        same(published(name).to_bytes(), h(text))
        same(description_of(h(text)), published(name))
    for name in ("", "CRC", "crc-16", "CRC-16 ", "WSC-8 first"):
        same(published(name), None)


def sheets():
    same(bank.sheet(published("CRC-16")), Sheet(2, 1, 16, 3, True))
    same(bank.sheet(published("CRC-CCITT")), Sheet(2, 1, 16, 3, True))
    same(bank.sheet(published("IEEE-802")), Sheet(4, 1, 32, 2, False))
    same(bank.sheet(ATM), Sheet(1, 1, 8, 3, True))
    same(bank.sheet(published("FAST-16")), Sheet(2, 1, 16, 3, True))
    same(bank.sheet(published("LONG-24")), Sheet(3, 1, 24, 3, True))
    same(bank.sheet(PAR), Sheet(2, 1, 16, 3, True))
    same(bank.sheet(WSC), Sheet(2, 1, 8, 3, True))
    same(bank.sheet(d(3, 16, 0x1021, 5, 0x15, 2)), Sheet(4, 2, 16, 3, True))
    same(bank.sheet(d(3, 32, 0x04C11DB7, 5, 0x15, 4)),
         Sheet(8, 4, 32, 3, True))


def reaches():
    for name, greatest in (("CRC-16", 4095), ("PARITY-16", 4095),
                           ("ATM-HEC", 15), ("WSC-8", 256),
                           ("LONG-24", 511)):
        it = published(name)
        same(outcome(bank.admission, it, greatest), (0, None), name)
        same(outcome(bank.admission, it, greatest + 1), (17, "kind", 4), name)
    it = published("IEEE-802")
    same(outcome(bank.admission, it, 4096), (0, None))
    same(outcome(bank.admission, it, 4097), (16, "kind", 12))
    same(outcome(bank.admission, it, 5), (0, None))
    same(outcome(bank.admission, it, 4), (16, "kind", 12))
    same(outcome(bank.admission, published("CRC-16"), 4097), (16, "kind", 12))
    wide = d(3, 32, 0x04C11DB7, 8, 0x07, 4)
    same(outcome(bank.admission, wide, 4096), (0, None))
    same(outcome(bank.admission, wide, 4094), (16, "kind", 12))
    same(outcome(bank.admission, wide, 12), (0, None))
    same(outcome(bank.admission, wide, 8), (16, "kind", 12))


def admissions():
    def says(it, reach, *wanted):
        same(outcome(bank.admission, it, reach), wanted, repr((it, reach)))
        if wanted[0] in (11, 12, 13, 14, 15):
            same(outcome(bank.sheet, it), wanted)
            same(outcome(bank.check, it, b"", 0), wanted)

    for kind in (0, 4, 9, 255):
        says(d(kind, 12, 6, 1, 1, 0), 1, 11, "kind", 2)
    # kinds 1 and 2: places 3, 8, 9, 11, whatever is wrong further on
    for kind, degree, low in ((1, 8, 0x07), (2, 15, 0x0003)):
        says(d(kind, 12, 6, 1, 1, 0), 1, 12, "kind", 3)
        says(d(kind, degree, 6, 1, 1, 0), 1, 12, "kind", 8)
        says(d(kind, degree, 6, 0, 1, 0), 1, 12, "kind", 9)
        says(d(kind, degree, 6, 0, 0, 0), 1, 12, "kind", 11)
        says(d(kind, degree, 6, 0, 0, 2), 1, 12, "kind", 11)
        says(d(kind, degree, 6), 1, 13, "kind", 4)
        says(d(kind, degree, low | 1 << degree), 1, 13, "kind", 4)
        says(d(kind, degree, low), 1, 16, "kind", 12)
        says(d(kind, degree, low), 0, 16, "kind", 12)
        says(d(kind, degree, low), 4097, 16, "kind", 12)
        says(d(kind, degree, low), 3, 0, None)
    for degree in range(0, 40):
        wanted = (0, None) if degree in (8, 16, 24, 32) else (12, "kind", 3)
        same(outcome(Crc().unfit, d(1, degree, 1)), wanted)
        wanted = (0, None) if degree in (15, 23, 31) else (12, "kind", 3)
        same(outcome(CrcWithParity().unfit, d(2, degree, 3)), wanted)
        s = degree // 8
        wanted = (0, None) if degree in (8, 16, 32) else (12, "kind", 3)
        same(outcome(WeightedSum().unfit, d(3, degree, 1, 2, 1, s)), wanted)
    says(d(2, 15, 0x0001), 1, 14, "kind", 4)
    says(d(2, 15, 0x0007), 4000, 14, "kind", 4)
    # kind 3: places 3, 8, 11; then 4, 9; then 9
    says(d(3, 24, 6, 1, 2, 0), 1, 12, "kind", 3)
    says(d(3, 8, 6, 1, 2, 0), 1, 12, "kind", 8)
    says(d(3, 8, 6, 0, 2, 0), 1, 12, "kind", 8)
    says(d(3, 8, 6, 9, 2, 0), 1, 12, "kind", 8)
    says(d(3, 16, 6, 17, 2, 0), 1, 12, "kind", 8)
    says(d(3, 32, 6, 17, 2, 0), 1, 12, "kind", 8)
    says(d(3, 32, 6, 16, 2, 0), 1, 12, "kind", 11)
    says(d(3, 8, 6, 8, 2, 2), 1, 12, "kind", 11)
    says(d(3, 8, 6, 8, 2, 1), 1, 13, "kind", 4)
    says(d(3, 8, 0x11D, 8, 2, 1), 1, 13, "kind", 4)
    says(d(3, 8, 0x1D, 8, 2, 1), 1, 13, "kind", 9)
    says(d(3, 8, 0x1D, 5, 0x35, 1), 1, 13, "kind", 9)
    says(d(3, 8, 0x1D, 5, 0x05, 1), 1, 14, "kind", 9)
    says(d(3, 8, 0x1D, 2, 0x01, 1), 2, 16, "kind", 12)
    says(d(3, 8, 0x1D, 2, 0x01, 1), 257, 17, "kind", 4)
    says(d(3, 8, 0x1D, 2, 0x01, 1), 256, 17, "kind", 9)
    says(d(3, 8, 0x1D, 5, 0x15, 1), 3, 0, None)
    says(d(3, 16, 0x1021, 5, 0x15, 2), 8, 17, "kind", 9)
    # an engine that does not carry comes after everything but the reach
    fast = three_kinds("fast")
    same(outcome(fast.admission, published("CRC-16"), 9), (15, "engine", 4))
    same(outcome(fast.admission, published("CRC-16"), 1), (15, "engine", 4))
    same(outcome(fast.sheet, published("CRC-16")), (15, "engine", 4))
    same(outcome(fast.check, published("CRC-16"), b"", 0), (15, "engine", 4))
    same(outcome(fast.admission, d(1, 16, 0x8004), 9), (13, "kind", 4))
    same(outcome(fast.admission, d(2, 15, 0x4003), 9), (14, "kind", 4))
    same(outcome(fast.admission, d(2, 15, 0x4001), 9), (15, "engine", 4))
    same(outcome(fast.admission, d(2, 15, 0x4001), 1), (15, "engine", 4))
    same(outcome(fast.admission, d(2, 15, 0x0003), 1), (16, "kind", 12))
    same(outcome(fast.admission, published("FAST-16"), 9), (0, None))
    same(outcome(fast.admission, WSC, 9), (0, None))
    ready = three_kinds("ready-made")
    same(outcome(ready.admission, published("IEEE-802"), 9), (0, None))
    same(outcome(ready.admission, PAR, 9), (15, "engine", 4))
    # the check call's own refusals
    same(outcome(bank.check, ATM, b"", 1), (31, "frame", 0))
    same(outcome(bank.check, ATM, bytes(4097), 0), (31, "frame", 4097))
    same(outcome(bank.check, ATM, bytes(4096), 0), (33, "frame", 0))
    same(outcome(bank.check, ATM, bytes(4096), 1), (0, b"\0"))
    same(outcome(bank.check, d(3, 16, 0x1021, 8, 0x07, 2), bytes(3), 0),
         (31, "frame", 3))
    same(outcome(bank.check, WSC, h("01"), 1), (33, "frame", 1))
    # the left kind wins, and a kind serves its own number alone
    same(Bank(Crc("fast"), Crc("table")).chosen(1).engine, "fast")
    same(outcome(Bank(Crc("fast"), Crc("table")).sheet, published("CRC-16")),
         (15, "engine", 4))
    same([n for n in range(256) if bank.serves(n)], [1, 2, 3])
    same(outcome(Crc().sheet, PAR), (11, "kind", 2))


def kind_three_by_steps():
    """The formula against a walk that multiplies by X tuple after tuple."""
    dice = random.Random(2)
    for degree, low, m, second in ((8, 0x1D, 5, 0x15), (16, 0x1021, 8, 0x07),
                                   (32, 0x04C11DB7, 16, 0x1021)):
        s = degree // 8
        it = d(3, degree, low, m, second, s)
        for count in (1, 2, 3, 7, 50):
            message = dice.randbytes(count * s)
            p1 = 0
            y = 0
            for k in range(0, len(message), s):
                q = int.from_bytes(message[k:k + s], "big")
                p1 = poly.remainder((p1 ^ q) << 1, poly.whole(degree, low))
                y ^= q
            p2 = poly.remainder(y ^ p1, poly.whole(m, second))
            same(bank.check(it, message, 64),
                 p1.to_bytes(s, "big") + p2.to_bytes(s, "big"))


def sure_flips():
    """Bursts, few flips and odd numbers of flips, on short words."""
    dice = random.Random(3)
    for name, it in CATALOGUE:
        sheet = bank.sheet(it)
        message = dice.randbytes(4)
        word = message + bank.check(it, message, 64)
        bits = 8 * len(word)
        masks = set()
        for _ in range(60):
            span = dice.randrange(1, sheet.burst + 1)
            b = 1 | 1 << (span - 1) | (dice.getrandbits(span) & ((1 << span) - 1))
            masks.add(b << dice.randrange(0, bits - span + 1))
        for _ in range(60):
            masks.add(sum(1 << k for k in
                          dice.sample(range(bits),
                                      dice.randrange(1, sheet.few + 1))))
        if sheet.odd:
            for _ in range(60):
                masks.add(sum(1 << k for k in
                              dice.sample(range(bits),
                                          dice.randrange(1, bits, 2))))
        for mask in masks:
            other = (int.from_bytes(word, "big") ^ mask).to_bytes(
                len(word), "big")
            left = other[:-sheet.check_bytes]
            same(bank.check(it, left, 64) == other[-sheet.check_bytes:],
                 False, name)


# ---------------------------------------------------------------- station
def a_station(reach=15):
    station = Station(bank)
    station.enter(5, ATM, reach)
    return station


def stations():
    empty = Station(bank)
    same(outcome(empty.narrow, 5, 9), (23, "book", 1))
    same(outcome(empty.retire, 5), (23, "book", 1))
    same(outcome(empty.seal, 5, b"", bytearray()), (23, "book", 1))
    same(outcome(empty.take, GOOD), (23, "book", 1))
    same(outcome(empty.take, h("")), (41, "frame", 0))
    station = a_station()
    same(outcome(station.enter, 5, ATM, 15), (21, "book", 1))
    same(outcome(station.enter, 5, ATM, 16), (17, "kind", 4))
    same(outcome(station.enter, 5, d(9, 0, 0), 15), (11, "kind", 2))
    for number in range(100, 115):
        same(outcome(station.enter, number, ATM, 15), (0, None))
    same(outcome(station.enter, 200, ATM, 15), (22, "book", 1))
    same(outcome(station.enter, 5, ATM, 15), (21, "book", 1))
    same(outcome(station.enter, 200, ATM, 1), (16, "kind", 12))
    same(outcome(station.retire, 107), (0, None))
    same(outcome(station.retire, 107), (23, "book", 1))
    same(outcome(station.enter, 200, ATM, 15), (0, None))
    same(outcome(station.enter, 107, ATM, 15), (22, "book", 1))
    station = a_station()
    same(outcome(station.narrow, 5, 15), (24, "book", 12))
    same(outcome(station.narrow, 5, 5000), (24, "book", 12))
    same(outcome(station.narrow, 5, 1), (16, "kind", 12))
    same(outcome(station.narrow, 5, 9), (0, None))
    same(station.book, {5: (ATM, 9)})
    same(outcome(station.narrow, 5, 10), (24, "book", 12))
    # seal
    station = a_station()
    out = bytearray(b"\xee" * 20)
    same(outcome(station.seal, 5, h("01"), out), (0, 18))
    same(bytes(out), GOOD + b"\xee\xee")
    out = bytearray(b"\xee" * 17)
    same(outcome(station.seal, 5, h("01"), out), (33, "frame", 17))
    same(bytes(out), b"\xee" * 17)
    same(outcome(station.seal, 5, b"", out), (31, "frame", 0))
    same(outcome(station.seal, 5, b"", bytearray()), (31, "frame", 0))
    same(outcome(station.seal, 5, bytes(15), out), (32, "frame", 12))
    same(outcome(station.seal, 5, bytes(5000), out), (32, "frame", 12))
    same(outcome(station.seal, 5, bytes(14), out), (33, "frame", 17))
    two = d(3, 16, 0x1021, 8, 0x07, 2)
    station.enter(7, two, 20)
    same(outcome(station.seal, 7, bytes(4097), out), (31, "frame", 4097))
    same(outcome(station.seal, 7, bytes(4098), out), (32, "frame", 12))
    # take
    same(outcome(station.take, GOOD), (0, h("01")))
    same(outcome(station.take, GOOD[:16]), (41, "frame", 16))
    same(outcome(station.take, b"\2" + GOOD[1:]), (42, "frame", 0))
    for k in range(1, 14):
        bad = bytearray(GOOD)
        bad[k] ^= 1
        same(outcome(station.take, bad), (43, "frame", 14))
    same(outcome(station.take, GOOD[:14] + h("9463") + GOOD[16:]),
         (43, "frame", 14))
    same(outcome(station.take, GOOD + b"\0"), (44, "frame", 12))
    same(outcome(station.take, GOOD[:17]), (44, "frame", 12))
    same(outcome(station.take, head(6, ATM, 2) + h("0107")), (23, "book", 1))
    same(outcome(station.take, head(6, ATM, 3) + h("0107")), (44, "frame", 12))
    other = Station(bank)
    other.enter(5, PAR, 15)
    same(outcome(other.take, GOOD), (45, "frame", 2))
    ten = ATM.to_bytes()
    for k in range(10):
        bad = bytearray(ten)
        bad[k] ^= 0x80
        bad[9] ^= 0x40
        same(outcome(station.take,
                     head(5, description_of(bytes(bad)), 2) + h("0107")),
             (45, "frame", 2 + k))
    same(outcome(station.take, head(5, ATM, 1) + h("07")), (46, "frame", 12))
    same(outcome(station.take, head(7, two, 4) + bytes(4)), (46, "frame", 12))
    same(outcome(station.take, head(7, two, 7) + bytes(7)), (46, "frame", 12))
    same(outcome(station.take, head(7, two, 23) + bytes(23)),
         (46, "frame", 12))
    same(outcome(station.take, head(7, two, 22) + bytes(22)),
         (32, "frame", 12))
    same(outcome(station.take, head(7, two, 20) + bytes(20)), (0, bytes(16)))
    same(outcome(station.take, head(5, ATM, 16) + bytes(16)),
         (32, "frame", 12))
    same(outcome(station.take, GOOD[:16] + h("0106")), (47, "frame", 17))
    # trial
    frame = bytearray(GOOD)
    same(outcome(station.trial, frame, 17, 7), (0, None))
    same(outcome(station.trial, frame, 17, 6), (47, "frame", 17))
    same(outcome(station.trial, frame, 0, 2), (42, "frame", 0))
    same(outcome(station.trial, frame, 18, 2), (48, "frame", 18))
    same(outcome(station.trial, frame, 99, 2), (48, "frame", 18))
    same(outcome(station.trial, bytearray(), 0, 2), (48, "frame", 0))
    same(bytes(frame), GOOD)
    # what is sealed is taken, for every published code
    dice = random.Random(4)
    for number, (name, it) in enumerate(CATALOGUE):
        station = Station(bank)
        reach = {"ATM-HEC": 15, "WSC-8": 256, "LONG-24": 511}.get(name, 600)
        station.enter(number, it, reach)
        sheet = bank.sheet(it)
        for size in (1, 2, 3, 9, reach - sheet.check_bytes):
            message = dice.randbytes(size)
            out = bytearray(16 + reach)
            length = station.seal(number, message, out)
            same(length, 16 + size + sheet.check_bytes)
            same(station.take(out[:length]), message)


# ----------------------------------------------------------- line program
EXAMPLE = b"""E 0501080000000700000001000F
M 0501
F 010501080000000700000001000294620107
F 010501080000000700000001000294620106
"""
EXAMPLE_OUT = """1 0
2 0 010501080000000700000001000294620107
3 0 01
4 47 17
"""


def line_program():
    same(run(EXAMPLE), EXAMPLE_OUT)
    same(run(EXAMPLE[:-1]), EXAMPLE_OUT)
    spawned = subprocess.run([sys.executable, os.path.join(HERE, "line.py")],
                             input=EXAMPLE, stdout=subprocess.PIPE, check=True)
    same(spawned.stdout.decode("ascii"), EXAMPLE_OUT)
    same(run(b""), "")
    same(lines_of(b""), [])
    same(lines_of(b"\n"), [b""])
    same(run(b"\n\n\n"), "")
    same(run(b"\n\nQ"), "3 1 0\n")
    same(run(b"#\n# " + b"x" * 9000 + b"\nR 05"), "3 23 1\n")
    for text, wanted in (
            (b"Q", "1 0"), (b"e 05", "1 0"), (b" #", "1 0"), (b"\r", "1 0"),
            (b" ", "1 0"), (b"\xff", "1 0"), (b"\0", "1 0"),
            (b"E", "2 1"), (b"F", "2 1"), (b"R05", "2 1"), (b"R\t05", "2 1"),
            (b"M\r", "2 1"),
            (b"R 0a", "2 3"), (b"R 0g5", "2 3"), (b"R 05\r", "2 4"),
            (b"R  05", "2 2"), (b"R 05 ", "2 4"), (b"R 0 5", "2 3"),
            (b"R 0", "2 3"), (b"R 050", "2 5"), (b"R 05G", "2 4"),
            (b"F 0", "2 3"), (b"R \xc3\xa9", "2 2"), (b"R 0:", "2 3"),
            (b"R 0/", "2 3"), (b"R 0@", "2 3"), (b"R 0x", "2 3"),
            (b"E ", "3 2"), (b"N ", "3 2"), (b"R ", "3 2"), (b"M ", "3 2"),
            (b"R 0506", "3 6"), (b"N 0500", "3 6"), (b"N 05000F00", "3 10"),
            (b"E " + b"00" * 12, "3 26"), (b"E " + b"00" * 14, "3 30"),
            (b"F ", "41 0"), (b"F 01", "41 1"), (b"F " + b"01" * 16, "41 16"),
            (b"M 05", "23 1"), (b"R 05", "23 1"), (b"N 05000F", "23 1"),
            (b"Q" * 8226, "1 0"), (b"Q" * 8227, "4 8226"),
            (b"R" * 8226, "2 1"), (b"R" * 8227, "4 8226"),
            (b"F " + b"0" * 8224, "42 0"), (b"F " + b"0" * 8225, "4 8226"),
            (b"F " + b"0" * 8223, "2 8225"),
            (b"M " + b"0" * 8224, "23 1"),
            (b"R " + b"0" * 8224, "3 8226")):
        same(run(text), "1 %s\n" % wanted, repr(text[:20]))
        same(run(b"\n" + text + b"\n"), "2 %s\n" % wanted, repr(text[:20]))
    start = b"E 0501080000000700000001000F\n"
    same(run(start + b"M 05"), "1 0\n2 31 0\n")
    same(run(start + b"M 05" + b"00" * 14),
         "1 0\n2 0 " + (head(5, ATM, 15) + bytes(15)).hex().upper() + "\n")
    same(run(start + b"M 05" + b"00" * 15), "1 0\n2 32 12\n")
    same(run(start + b"N 05000F\nN 050009\nN 050001\nR 05\nR 05\n"),
         "1 0\n2 24 12\n3 0\n4 16 12\n5 0\n6 23 1\n")
    same(run(start + start), "1 0\n2 21 1\n")
    # the longest word there is: a frame's line is exactly as long as allowed
    big = b"E AA012004C11DB7000000011000\n"
    message = bytes(range(256)) * 16
    message = message[:4092]
    made = run(big + b"M AA" + message.hex().upper().encode() + b"\n")
    frame = made.splitlines()[1].split(" ")[2]
    same(len(frame), 8224)
    same(run(big + b"F " + frame.encode() + b"\n"),
         "1 0\n2 0 " + message.hex().upper() + "\n")
    same(run(big + b"M AA" + b"00" * 4093), "1 0\n2 32 12\n")


def the_page():
    for text, printed in examples():
        same(run(text), printed, repr(text))
    same(len(examples()), 70)


def the_script():
    """The fixed script meets every refusal that a line can meet, at every
    place that a fixed field has."""
    text = script()
    met = {}
    for row in run(text).splitlines():
        answer = row.split(" ")
        met.setdefault(int(answer[1]), set()).update(answer[2:3])
    same(sorted(met), [0, 1, 2, 3, 4, 11, 12, 13, 14, 16, 17, 21, 22, 23, 24,
                       31, 32, 41, 42, 43, 44, 45, 46, 47])
    for number, places in ((12, "3 8 9 11"), (13, "4 9"), (14, "4 9"),
                           (17, "4 9"), (45, "2 3 4 5 6 7 8 9 10 11")):
        same(met[number], set(places.split(" ")), str(number))
    same(text[-1:] != b"\n", True)


# ------------------------------------------------------ report and survey
def told(text, more):
    """What a text tells of CRC-16, by the report's engines and these more,
    and of refusals."""
    lines = text.split("\n")
    behind = len(more)
    by = ", ".join(["bitwise", "table"] + more)
    same(lines[0], "CRC-16: degree 16, low part 8005, 4 terms")
    same(lines[1], "  period 32767 after 32767 steps")
    same(lines[2], "  longest word 4095 bytes")
    same(lines[3:7 + behind],
         ["  bitwise carries it", "  table carries it",
          "  ready-made refuses it: 15 engine 4",
          "  fast refuses it: 15 engine 4"]
         + ["  %s carries it" % engine for engine in more])
    same(lines[7 + behind], "  nothing leaves 0000 by " + by)
    same(lines[11 + behind], "  313233343536373839 leaves FEE8 by " + by)
    same(lines[16 + behind], "  no piece leaves 0000 by " + by)
    same(lines[18 + behind], "")
    same(text.endswith("\n") and not text.endswith("\n\n"), True)
    same(text[text.index("Refusals"):text.index("\nCodes")], """Refusals
  engine set, degree 7, low part 07: 12 engine 3
  engine set, degree 33, low part 07: 12 engine 3
  engine set, degree 8, low part 06: 13 engine 4
  engine set, degree 8, low part 0107: 13 engine 4
  engine set, degree 16, low part 8005 by fast: 15 engine 4
  engine set, degree 16, low part 1021 by ready-made: 15 engine 4
  period, degree 1, low part 01: 12 engine 3
  period, degree 33, low part 01: 12 engine 3
  period, degree 8, low part 06: 13 engine 4
  period, degree 8, low part 0107: 13 engine 4
""")
    same("  no period up to 32768 after 32768 steps\n" in text, True)
    same("  FFFF leaves 1D0F by %s\n" % by in text, True)


def main():
    polynomials()
    periods()
    engines()
    small_sums()
    catalogue()
    sheets()
    reaches()
    admissions()
    kind_three_by_steps()
    sure_flips()
    stations()
    answer_rows(same, outcome)
    line_program()
    the_page()
    the_script()
    told(report.report(), [])
    told(survey.survey(), ["slicing"])
    print("reference: %d checks, all right" % done)


if __name__ == "__main__":
    main()
