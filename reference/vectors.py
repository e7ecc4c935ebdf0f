"""The parts of the survey on published vectors, and on what lines and stations
refuse."""

import poly
from codes import Crc, period_call, published, three_kinds
from line import decode
from published import REMAINDERS, periods
from shows import carriers, hex_for, refusal_of, shown
from station import Station, head


def vectors():
    """What is published of other generators, beside what is found."""
    yield ""
    yield "Published remainders"
    for name, degree, low, message, wanted in REMAINDERS:
        left = poly.string_remainder(message, degree, low)
        assert left == wanted, name
        yield "  %s, degree %d, low part %s, published %s: %s leaves %s by %s" % (
            name, degree, hex_for(low, degree), hex_for(wanted, degree),
            shown(message), hex_for(left, degree),
            ", ".join(carriers(degree, low)))
    yield ""
    yield "Published periods"
    for degree, low, wanted in periods():
        period, steps = period_call(degree, low)
        assert period == wanted or period is None and wanted > poly.LIMIT
        found = ("none up to %d" % poly.LIMIT if period is None
                 else "found %d" % period)
        yield "  degree %d, low part %s: published %d, %s after %d steps" % (
            degree, hex_for(low, degree), wanted, found, steps)


def answers():
    """Every refusal of a line and a station, through what gives it."""
    station = Station(three_kinds())
    hec, wsc = published("ATM-HEC"), published("WSC-8")
    parity, crc_16 = published("PARITY-16"), published("CRC-16")

    def said(what, call, *arguments):
        refusal = refusal_of(call, *arguments)
        return "  %s: %s" % (what, "0" if refusal is None else refusal)

    yield ""
    yield "Answers to lines"
    for text in (b"Q 05", b"R 0a", b"R 050", b"R", b"R 0506"):
        yield said("the line '%s'" % text.decode("ascii"), decode, text)
    yield said("a line of 8227 bytes", decode, b"F" * 8227)
    yield ""
    yield "Answers at a station"
    for what, number, d, reach in (
            ("05 entered, ATM-HEC", 5, hec, 15),
            ("06 entered, PARITY-16", 6, parity, 15),
            ("08 entered, WSC-8", 8, wsc, 256),
            ("kind 09 entered", 9, hec._replace(kind=9), 15),
            ("degree 12 entered", 9, hec._replace(degree=12), 15),
            ("tuple bytes 2 entered", 9, hec._replace(tuple_bytes=2), 15),
            ("low part 06 entered", 9, hec._replace(low=6), 15),
            ("PARITY-16 with low part 0001 entered", 9,
             parity._replace(low=1), 15),
            ("WSC-8 with second low part 05 entered", 9,
             wsc._replace(second_low=5), 15),
            ("ATM-HEC with reach 1 entered", 9, hec, 1),
            ("CRC-16 with reach 4096 entered", 9, crc_16, 4096),
            ("05 entered twice", 5, hec, 15)):
        yield said(what, station.enter, number, d, reach)
    for what, number, reach in (
            ("99 narrowed, which is not held", 0x99, 9),
            ("05 narrowed from 15 to 15", 5, 15),
            ("05 narrowed from 15 to 1", 5, 1),
            ("08 narrowed from 256 to 15", 8, 15),
            ("08 narrowed from 15 to 15", 8, 15)):
        yield said(what, station.narrow, number, reach)
    yield said("99 retired, which is not held", station.retire, 0x99)
    for what, number, message, room in (
            ("01 sealed under 99, which is not held", 0x99, b"\1", 18),
            ("nothing sealed", 5, b"", 18),
            ("15 bytes sealed for a reach of 15", 5, bytes(15), 40),
            ("01 sealed into 17 bytes", 5, b"\1", 17),
            ("01 sealed into 18 bytes", 5, b"\1", 18)):
        output = bytearray(room)
        yield said(what, station.seal, number, message, output)
    good = bytes(output)
    for what, frame in (
            ("a frame of 16 bytes taken", b"\1" * 16),
            ("a frame with 9463 for 9462 taken",
             good[:14] + b"\x94\x63" + good[16:]),
            ("a frame with a byte added taken", good + b"\0"),
            ("a frame under 99 taken, which is not held",
             head(0x99, hec, 2) + b"\1\7"),
            ("a frame of kind 1 taken where kind 2 is held",
             head(6, hec, 2) + b"\1\7"),
            ("a word of one byte taken", head(5, hec, 1) + b"\1"),
            ("a word of 16 bytes taken for a reach of 15",
             head(5, hec, 16) + bytes(16)),
            ("the word 010236 of WSC-8 taken",
             head(8, wsc, 3) + b"\x01\x02\x36"),
            ("nothing taken", b""),
            ("the frame of 01 taken", good)):
        yield said(what, station.take, frame)
    for what, place, byte in (
            ("02 tried at 0", 0, 2), ("06 tried at 17", 17, 6),
            ("07 tried at 17", 17, 7), ("00 tried at 18", 18, 0)):
        yield said(what, station.trial, bytearray(good), place, byte)
    for number in range(32, 45):
        station.enter(number, hec, 15)
    yield said("99 entered as the seventeenth", station.enter, 0x99, hec, 15)
    yield said("CRC-16 entered over the fast engine",
               Station(Crc("fast")).enter, 9, crc_16, 15)
