"""Two stations whose books disagree: what is done and answered, in words.

    python3 reference/fleet.py
"""

import sys

sys.dont_write_bytecode = True

from codes import Refusal, published, three_kinds                # noqa: E402
from station import Station                                      # noqa: E402

READING = bytes.fromhex("00001388FFEC01F4")
SHORT = b"\x01"


def answered(call):
    """What a call gives, or its refusal, in words."""
    try:
        value = call()
    except Refusal as refusal:
        return "refused with %d by the %s at %d" % refusal.triple()
    if value is None:
        return "done"
    if isinstance(value, int):
        return "wrote %d bytes" % value
    return "handed over " + bytes(value).hex().upper()


class Site:
    def __init__(self, name):
        self.lines = [name]
        self.station = Station(three_kinds())

    def say(self, what, call):
        self.lines.append("  %s: %s" % (what, answered(call)))

    def enter(self, number, name, reach):
        d = published(name)
        self.say("enter %d, reach %d" % (number, reach),
                 lambda: self.station.enter(number, d, reach))

    def narrow(self, number, reach):
        self.say("narrow %d to %d" % (number, reach),
                 lambda: self.station.narrow(number, reach))

    def retire(self, number):
        self.say("retire %d" % number, lambda: self.station.retire(number))

    def seal(self, number, message, room):
        out = bytearray(room)
        self.say("seal %s under %d" % (message.hex().upper() or "nothing", number),
                 lambda: self.station.seal(number, message, out))
        return out

    def take(self, frame):
        self.say("take a frame of %d bytes" % len(frame),
                 lambda: self.station.take(frame))

    def trial(self, frame, place, byte):
        kept = bytearray(frame)
        self.say("trial with %02X at %d" % (byte, place),
                 lambda: self.station.trial(kept, place, byte))
        assert kept == bytearray(frame)


def main():
    old = Site("The old site seals")
    old.enter(5, "CRC-16", 64)
    old.enter(7, "ATM-HEC", 15)
    old.enter(7, "CRC-16", 64)
    old.enter(9, "WSC-8", 256)
    reading = bytes(old.seal(5, READING, 26))
    short = bytes(old.seal(7, SHORT, 18))
    sums = bytes(old.seal(9, READING, 26))
    old.seal(5, b"", 26)
    old.seal(7, bytes(15), 40)
    old.seal(5, READING, 25)
    old.seal(6, READING, 26)
    old.narrow(5, 10)
    old.narrow(5, 10)
    old.seal(5, READING + SHORT, 40)
    old.take(reading)
    old.trial(reading, 20, 0x01)
    old.retire(9)
    old.retire(9)

    new = Site("The new site, whose set-up tool saved another code under 5, takes")
    new.enter(5, "LONG-24", 511)
    new.enter(7, "ATM-HEC", 15)
    new.enter(9, "WSC-8", 256)
    new.take(reading)
    new.take(short)
    new.take(sums)
    new.trial(short, 0, 0x02)
    new.trial(short, 1, 0x06)
    new.trial(short, 15, 0x63)
    new.trial(short, 16, 0x00)
    new.trial(short, 17, 0x06)
    new.trial(short, 18, 0x00)
    new.trial(short, 16, 0x01)
    new.take(short[:16])
    new.take(short + b"\x00")
    new.narrow(9, 9)
    new.take(sums)
    new.retire(7)
    new.take(short)
    new.enter(7, "CRC-CCITT", 4095)
    new.take(short)
    new.seal(7, SHORT, 19)

    for line in old.lines + [""] + new.lines:
        print(line)


if __name__ == "__main__":
    main()
