"""Random scripts for the line program, and what it has to print for them.

    python3 reference/scripts.py COUNT SEED FOLDER

writes COUNT scripts into the folder, as 1.in, 2.in and so on, and beside each
the expected transcript, as 1.out; and prints which answers were reached.  The
same seed gives the same scripts.  Status 1: an answer that the program can
give was not reached.
"""

import os
import random
import sys

sys.dont_write_bytecode = True

from codes import CATALOGUE, Refusal                             # noqa: E402
from draws import (BANK, admitted, both_sums_vanish, damaged,    # noqa: E402
                   fit, framed, greatest, misfit, reach_for, spoiled,
                   unnoticed)
from line import obey, transcript                                # noqa: E402
from station import Station, head                                # noqa: E402

# every answer but those that the program cannot give: its engine carries all
# generators (15), its output is long enough (33), and it has no trial (48)
REACHABLE = (0, 1, 2, 3, 4, 11, 12, 13, 14, 16, 17, 21, 22, 23, 24, 31, 32,
             41, 42, 43, 44, 45, 46, 47)

class Script:
    """A script as it grows, with the station that its lines lead to."""

    def __init__(self, seed):
        self.dice = random.Random(seed)
        self.station = Station(BANK)
        self.lines = []
        self.frames = []        # sealed here or elsewhere
        self.numbers = self.dice.choice((range(4), range(20), range(24),
                                         (0, 5, 127, 128, 255)))

    def say(self, text):
        self.lines.append(text)
        if text[:1] in (b"", b"#"):
            return
        try:
            shown = obey(self.station, text)
        except Refusal:
            return
        if text[:1] == b"M":
            self.frames.append(shown)

    def command(self, letter, data):
        self.say(letter + b" " + data.hex().upper().encode("ascii"))

    def number(self):
        if self.station.book and self.dice.random() < 0.85:
            return self.dice.choice(sorted(self.station.book))
        if self.dice.random() < 0.05:
            return self.dice.randrange(256)
        return self.dice.choice(self.numbers)

    # one line of each sort
    def enter(self):
        d = fit(self.dice)
        reach = reach_for(self.dice, d)
        while self.dice.random() < 0.25:
            d = spoiled(self.dice, d)
        if self.dice.random() < 0.3:
            d, reach = misfit(self.dice), self.dice.choice((12, 16, 24, reach))
        number = (self.dice.choice(self.numbers)
                  if self.dice.random() < 0.8 else self.number())
        self.command(b"E", bytes([number]) + d.to_bytes()
                     + reach.to_bytes(2, "big"))

    def enter_well(self):
        """An entry that its kind admits, by preference."""
        for _ in range(9):
            d = fit(self.dice)
            sheet = BANK.sheet(d)
            s = sheet.tuple_bytes
            reach = min(greatest(d), sheet.check_bytes
                        + s * self.dice.choice((1, 2, 4, 9, 40, 500, 4096)))
            reach -= reach % s
            if admitted(d, reach):
                break
        number = self.dice.choice(self.numbers)
        self.command(b"E", bytes([number]) + d.to_bytes()
                     + reach.to_bytes(2, "big"))

    def narrow(self):
        number = self.number()
        reach = self.dice.randrange(4200)
        if number in self.station.book:
            d, present = self.station.book[number]
            sheet = BANK.sheet(d)
            s = sheet.tuple_bytes
            least = sheet.check_bytes + s
            reach = self.dice.choice(
                (present, present - s, present - 1, present + s, present - s,
                 least, least - 1, least - s,
                 max(least, present // 2 // s * s), 0, 1, 65535))
        self.command(b"N", bytes([number])
                     + (reach % 65536).to_bytes(2, "big"))

    def retire(self):
        self.command(b"R", bytes([self.number()]))

    def message(self):
        number = self.number()
        size = self.dice.choice((0, 1, 2, 3, 4, 8, 9, self.dice.randrange(64)))
        if number in self.station.book:
            d, reach = self.station.book[number]
            sheet = BANK.sheet(d)
            s = sheet.tuple_bytes
            room = reach - sheet.check_bytes
            size = self.dice.choice(
                (s, s, 2 * s, room, room, room + s, room + 1, room - s,
                 max(0, s - 1), 0, self.dice.randrange(1, 20) * s, size))
        size = max(0, min(size, 4111))
        data = self.dice.choice((bytes(size), self.dice.randbytes(size),
                                 self.dice.randbytes(size)))
        self.command(b"M", bytes([number]) + data)

    def frame(self):
        if self.dice.random() < 0.3 or not self.frames:
            self.frames.append(self.foreign())
        frame = self.dice.choice(self.frames[-8:])
        for _ in range(self.dice.choice((0, 1, 1, 1, 1))):
            frame = damaged(self.dice, frame)
        self.command(b"F", frame[:4112])

    def foreign(self):
        """A frame of another station: by the code that is held here under its
        number, or by another."""
        number = self.number()
        d, size = fit(self.dice), self.dice.choice((1, 2, 8, 30))
        if number in self.station.book and self.dice.random() < 0.8:
            d, reach = self.station.book[number]
            if self.dice.random() < 0.3:
                return self.shapeless(number, d, reach)
            size = self.dice.choice((size, reach, reach - 1,
                                     reach - BANK.sheet(d).check_bytes))
            size = max(1, min(size, 4096 - BANK.sheet(d).check_bytes))
        if d.kind == 3 and self.dice.random() < 0.4:
            return both_sums_vanish(self.dice, number, d, min(size, 64))
        return framed(self.dice, number, d, size)

    def shapeless(self, number, d, reach):
        """Any bytes for a word, of a length at one of the edges."""
        sheet = BANK.sheet(d)
        s, check = sheet.tuple_bytes, sheet.check_bytes
        length = self.dice.choice((1, check - 1, check, check + 1, check + s,
                                   reach - 1, reach - 1, reach, reach + 1,
                                   reach + 1, reach + s, reach + s + 1))
        length = max(1, min(length, 4096))
        return head(number, d, length) + self.dice.randbytes(length)

    def replay(self):
        """A frame of long ago, or one with a change that goes unnoticed."""
        if self.frames:
            frame = self.dice.choice(self.frames)
            if self.dice.random() < 0.4:
                frame = unnoticed(self.dice, frame)
            self.command(b"F", frame[:4112])

    def remark(self):
        self.say(self.dice.choice((b"", b"", b"#", b"# E 05", b"#" * 9000)))

    def noise(self):
        """A line that is none, or hardly: bytes put in, left out, changed."""
        dice = self.dice
        text = bytearray(dice.choice((
            b"R 05", b"N 05000F", b"M 0501", b"F 0105", b"E 05" + b"00" * 12,
            b"E 0501080000000700000001000F", b"", b"F ", b"Q 05", b" #", b"\r",
            dice.choice(self.lines[-6:]) if self.lines else b"R 05")))
        for _ in range(dice.randint(0, 3)):
            k = dice.randrange(len(text) + 1)
            put = dice.choice((b"0", b"A", b"a", b"F", b"g", b"G", b" ", b"\t",
                               b"\r", b"/", b":", b"@", b"`", b"#", b"\0",
                               b"\xff", b"0506", bytes([dice.randrange(256)])))
            text[k:k + dice.choice((0, 0, 1, 2))] = put
        self.say(bytes(text).replace(b"\n", b""))

    def miscounted(self):
        """Good digits, of another number of bytes."""
        letter = self.dice.choice((b"E", b"N", b"R", b"M", b"F"))
        size = self.dice.choice((0, 0, 0, 1, 2, 3, 4, 12, 13, 14, 26))
        text = letter + b" " + self.dice.randbytes(size).hex().upper().encode()
        self.say(text + self.dice.choice((b"", b"", b"", b"0", b"\r", b" ")))

    def long_line(self):
        """A line at the limit of 8,226 bytes, one below or above it."""
        first = self.dice.choice((b"F ", b"M ", b"R ", b"E ", b"Q ", b"F0",
                                  b"# ", b"F 01", b"N "))
        size = self.dice.choice((8224, 8225, 8226, 8226, 8227, 8227, 8228,
                                 9000))
        fill = self.dice.choice((b"0", b"1", b"0", b"g"))
        self.say((first + fill * size)[:size])

    def fill(self):
        """Entries until the book is full, and some more."""
        for number in range(len(self.station.book), 19):
            d = dict(CATALOGUE)[self.dice.choice(("ATM-HEC", "CRC-16", "WSC-8",
                                                  "PARITY-16"))]
            self.command(b"E", bytes([number * 11 % 256]) + d.to_bytes()
                         + b"\0" + bytes([self.dice.randint(3, 15)]))

    def grow(self, size):
        sorts = ((self.enter, 5), (self.enter_well, 5), (self.narrow, 5),
                 (self.retire, 2), (self.message, 8), (self.frame, 14),
                 (self.replay, 4), (self.remark, 1), (self.noise, 3),
                 (self.miscounted, 2), (self.long_line, 0.4), (self.fill, 0.3))
        kinds, weights = zip(*sorts)
        for _ in range(min(size // 10, 6)):
            self.enter_well()
        while len(self.lines) < size:
            self.dice.choices(kinds, weights)[0]()

    def text(self):
        joined = b"\n".join(self.lines)
        return joined + self.dice.choice((b"\n", b"\n", b"\n", b"", b"\n\n"))


def script(seed):
    """The script of a seed."""
    new = Script(seed)
    new.grow(new.dice.choice((0, 1, 12, 40, 40, 80, 120)))
    return new.text()


def scripts(count, seed):
    return [script("%s/%d" % (seed, k)) for k in range(1, count + 1)]


def answers_of(printed):
    """The answer numbers of a transcript."""
    return [int(text.split(b" ")[1]) for text in printed.splitlines()]


def main(count, seed, folder):
    reached = {}
    for k, text in enumerate(scripts(count, seed), 1):
        printed = transcript(text)
        for name, data in (("%d.in" % k, text), ("%d.out" % k, printed)):
            with open(os.path.join(folder, name), "wb") as file:
                file.write(data)
        for number in answers_of(printed):
            reached[number] = reached.get(number, 0) + 1
    print("answers: " + ", ".join("%d: %d" % pair
                                  for pair in sorted(reached.items())))
    missing = [number for number in REACHABLE if number not in reached]
    if missing:
        print("not reached: " + ", ".join(map(str, missing)))
    return 1 if missing else 0


if __name__ == "__main__":
    sys.exit(main(int(sys.argv[1]), sys.argv[2], sys.argv[3]))
