"""The fixed script that the line program is run on.

    python3 reference/script.py > script

It has every example of docs/line.md, every refusal that a line can meet,
bytes of any value, lines and frames of the greatest length, a full book, some
hundred calls by lot, and some of the random scripts, each at an empty book.  A
station goes along, so that the script can seal frames and empty the book.
"""

import sys

sys.dont_write_bytecode = True

from codes import CATALOGUE, Description, Refusal, published  # noqa: E402
from codes import three_kinds                                 # noqa: E402
from examples import examples                                 # noqa: E402
from line import LONGEST, lines_of, obey                      # noqa: E402
from scripts import scripts                                   # noqa: E402
from station import Station, head, head_check                 # noqa: E402

ATM = published("ATM-HEC")
IEEE = published("IEEE-802")
WSC = published("WSC-8")
# weighted sums of tuples of two and of four bytes
PAIRS = Description(3, 16, 0x002D, 16, 0x1021, 2)
FOURS = Description(3, 32, 0x04C11DB7, 16, 0x8005, 4)
CODES = tuple(code for _, code in CATALOGUE) + (PAIRS, FOURS)
BYTES = [bytes([b]) for b in range(256) if b != 10]


class Lot:
    """Numbers by lot, the same in every run."""

    def __init__(self, seed):
        self.state = seed

    def below(self, bound):
        self.state = (self.state * 6364136223846793005
                      + 1442695040888963407) % 2 ** 64
        return (self.state >> 33) % bound

    def one(self, of):
        return of[self.below(len(of))]

    def string(self, size):
        return bytes(self.below(256) for _ in range(size))


class Script:
    """The lines so far, and the station that they make."""

    def __init__(self):
        self.lines = []
        self.station = Station(three_kinds())

    def say(self, line):
        self.lines.append(line)
        if line and line[0:1] != b"#":
            try:
                obey(self.station, line)
            except Refusal:
                pass

    def hex(self, letter, data):
        self.say(letter + b" " + data.hex().upper().encode("ascii"))

    def enter(self, number, d, reach):
        self.hex(b"E", bytes([number]) + d.to_bytes()
                 + reach.to_bytes(2, "big"))

    def narrow(self, number, reach):
        self.hex(b"N", bytes([number]) + reach.to_bytes(2, "big"))

    def retire(self, number):
        self.hex(b"R", bytes([number]))

    def seal(self, number, message):
        self.hex(b"M", bytes([number]) + message)

    def take(self, frame):
        self.hex(b"F", frame)

    def frame(self, number, message):
        """The frame that the station seals now."""
        output = bytearray(5000)
        return bytes(output[:self.station.seal(number, message, output)])

    def empty(self):
        for number in list(self.station.book):
            self.retire(number)


def documented(script):
    script.say(b"# the examples")
    for text, _ in examples():
        for line in lines_of(text):
            script.say(line)
        script.empty()


def lines_of_any_bytes(script):
    script.say(b"# every byte as the first, the second, and a digit")
    script.say(b"# " + b"".join(BYTES))
    script.say(b"")
    for byte in BYTES:
        script.say(byte)
        script.say(b"R" + byte + b"05")
        script.say(b"R 0" + byte)
        script.say(b"F " + byte + b"1")


def lines_of_any_length(script):
    script.say(b"# the wrong number of digits")
    for letter in (b"E", b"N", b"R", b"M", b"F"):
        script.say(letter)
        for count in range(30):
            script.say(letter + b" " + b"0" * count)
    script.say(b"# lines of the greatest length, and longer ones")
    for size in (LONGEST - 1, LONGEST, LONGEST + 1):
        for start in (b"#", b"Q", b"F", b"F ", b"M "):
            script.say(start + b"0" * (size - len(start)))
    script.say(b"E " + b"0" * (LONGEST - 2))
    script.say(b"F " + b"0" * (LONGEST - 3) + b"g")
    script.say(b"F " + b"0" * (LONGEST - 3) + b"\r")
    script.say(b"#" * 20000)


def descriptions(script):
    script.say(b"# descriptions that no kind admits")
    for kind in (0, 4, 5, 127, 255):
        script.enter(9, ATM._replace(kind=kind), 15)
    for kind in (1, 2, 3):
        for degree in list(range(35)) + [255]:
            script.enter(9, Description(kind, degree, 7, 0, 0, 1), 15)
    for code in CODES:
        for second in (0, 1, 2, 9, 17, 255):
            script.enter(9, code._replace(second_degree=second), 16)
        for second in (0, 1, 0x10, 0x8000, 0xFFFF):
            script.enter(9, code._replace(second_low=second), 16)
        for size in (0, 1, 2, 3, 4, 255):
            script.enter(9, code._replace(tuple_bytes=size), 16)
        for low in (0, 2, 3, 0x0100, 0x0101, 0x10001, 2 ** 31, 2 ** 32 - 1):
            script.enter(9, code._replace(low=low), 16)
            script.empty()
        script.empty()


def reaches(script):
    script.say(b"# reaches")
    for code in CODES:
        for reach in (0, 1, 2, 3, 4, 5, 8, 11, 12, 15, 16, 256, 257, 511, 512,
                      4094, 4095, 4096, 4097, 65535):
            script.enter(9, code, reach)
            script.empty()


def frames(script):
    script.say(b"# frames of every code, and what is made of them")
    lot = Lot(1)
    for number, code in enumerate(CODES):
        script.enter(number, code, 12)
    for number, code in enumerate(CODES):
        for size in range(13):
            script.seal(number, lot.string(size))
        message = lot.string(4 * code.tuple_bytes)[:4]
        frame = script.frame(number, message)
        script.take(frame)
        script.take(frame[:-1])
        script.take(frame + b"\0")
        for place in range(16, len(frame)):
            altered = bytearray(frame)
            altered[place] ^= 1 << lot.below(8)
            script.take(bytes(altered))
    script.empty()


def altered_heads(script):
    script.say(b"# a frame with each of its bits flipped")
    script.enter(5, ATM, 15)
    script.enter(4, IEEE, 15)
    frame = script.frame(5, b"\x01")
    for bit in range(8 * len(frame)):
        altered = bytearray(frame)
        altered[bit // 8] ^= 0x80 >> bit % 8
        script.take(bytes(altered))
    script.say(b"# the same, with a head check that agrees")
    for bit in range(8 * 14):
        altered = bytearray(frame)
        altered[bit // 8] ^= 0x80 >> bit % 8
        altered[14:16] = head_check(altered[:14])
        script.take(bytes(altered))
    script.say(b"# words of any length")
    for size in range(20):
        script.take(head(5, ATM, size) + bytes(size))
    script.take(head(5, ATM, 65535) + bytes(17))
    script.empty()
    script.enter(6, FOURS, 16)
    for size in range(20):
        script.take(head(6, FOURS, size) + bytes(size))
    script.empty()


def the_book(script):
    script.say(b"# a full book")
    for number in range(17):
        script.enter(number * 15, ATM, 15)
    script.enter(0, ATM, 15)
    script.enter(0, ATM, 16)
    script.enter(7, ATM, 1)
    script.seal(240, b"\x01")
    script.retire(240)
    script.retire(45)
    script.retire(45)
    script.enter(240, WSC, 15)
    script.enter(45, ATM, 15)
    script.seal(45, b"\x01")
    script.seal(240, b"\x01")
    script.seal(225, b"\x01")
    script.empty()
    script.say(b"# a number used again for another code")
    script.enter(255, ATM, 15)
    frame = script.frame(255, b"\x01\x02")
    script.retire(255)
    script.take(frame)
    script.enter(255, IEEE, 15)
    script.take(frame)
    script.retire(255)
    script.enter(255, ATM, 3)
    script.take(frame)
    script.narrow(255, 2)
    script.take(frame)
    script.empty()


def narrowings(script):
    script.say(b"# narrowings")
    for number, code in enumerate(CODES):
        script.enter(number, code, 16 - 16 % code.tuple_bytes)
        script.enter(number, code, 12)
        for reach in (65535, 16, 15, 14, 12, 12, 13, 11, 8, 7, 6, 5, 4, 3, 2,
                      1, 0):
            script.narrow(number, reach)
            script.seal(number, bytes(range(4)))
    for number in range(len(CODES)):
        script.retire(number)
        script.narrow(number, 2)


def long_frames(script):
    script.say(b"# the longest frames")
    lot = Lot(2)
    script.enter(170, IEEE, 4096)
    for size in (4090, 4091, 4092, 4093, 4111):
        script.seal(170, lot.string(size))
    message = lot.string(4092)
    frame = script.frame(170, message)
    script.take(frame)
    for place in (0, 14, 16, 2000, 4107, 4108, 4111):
        altered = bytearray(frame)
        altered[place] ^= 0x10
        script.take(bytes(altered))
    script.take(frame[:4111])
    script.narrow(170, 4095)
    script.seal(170, message)
    script.take(frame)
    script.seal(170, message[1:])
    script.empty()
    script.enter(1, FOURS, 4096)
    script.seal(1, message[:4088])
    script.seal(1, message[:4090])
    script.take(script.frame(1, message[:4088]))
    script.enter(2, published("PARITY-16"), 4095)
    script.seal(2, message)
    script.take(script.frame(2, message))
    script.empty()


def by_lot(script):
    script.say(b"# calls by lot")
    lot = Lot(3)
    frame = b""
    for _ in range(600):
        number = lot.one((1, 2, 3, 128))
        which = lot.below(8)
        if which == 0:
            code = lot.one(CODES)
            script.enter(number, code, 4 * lot.one((2, 3, 3, 4, 4, 5)))
        elif which == 1:
            script.narrow(number, lot.below(21))
        elif which == 2 and lot.below(3) == 0:
            script.retire(number)
        elif which < 5:
            message = lot.string(lot.one((1, 2, 4, 4, 8)))
            script.seal(number, message)
            try:
                frame = script.frame(number, message)
            except Refusal:
                pass
        elif which == 5 and frame:
            altered = bytearray(frame)
            altered[lot.below(len(frame))] = lot.below(256)
            script.take(bytes(altered))
        elif which == 6:
            line = b"M " + b"%02X" % number + b"0123456789"
            place = lot.below(len(line))
            script.say(line[:place] + lot.one(BYTES) + line[place + 1:])
        else:
            script.take(frame)
    script.empty()


def at_random(script):
    script.say(b"# random scripts")
    for text in scripts(60, "gate"):
        for line in lines_of(text):
            script.say(line)
        script.empty()


def script():
    """The whole script.  Its last line has no 0A."""
    written = Script()
    documented(written)
    lines_of_any_bytes(written)
    lines_of_any_length(written)
    descriptions(written)
    reaches(written)
    frames(written)
    altered_heads(written)
    the_book(written)
    narrowings(written)
    long_frames(written)
    by_lot(written)
    at_random(written)
    written.say(b"R 05")
    return b"\n".join(written.lines)


if __name__ == "__main__":
    sys.stdout.buffer.write(script())
    sys.stdout.buffer.flush()
