"""The frame, the book and the six calls of a station."""

import poly
from codes import Refusal, description_of

HEAD = 16
PLACES = 16


def head_check(first_fourteen):
    """The remainder of a head's bytes 0 to 13 under CRC-CCITT."""
    return poly.string_remainder(first_fourteen, 16, 0x1021).to_bytes(2, "big")


def head(number, description, word_length):
    """The sixteen bytes that stand before a word."""
    start = (bytes([1, number]) + description.to_bytes()
             + word_length.to_bytes(2, "big"))
    return start + head_check(start)


class Station:
    """A bank of kinds and a book of at most sixteen entries."""

    def __init__(self, bank):
        self.bank = bank
        self.book = {}          # number: (description, reach)

    def held(self, number):
        if number not in self.book:
            raise Refusal(23, "book", 1)
        return self.book[number]

    def enter(self, number, description, reach):
        self.bank.admission(description, reach)
        if number in self.book:
            raise Refusal(21, "book", 1)
        if len(self.book) >= PLACES:
            raise Refusal(22, "book", 1)
        self.book[number] = (description, reach)

    def narrow(self, number, reach):
        description, present = self.held(number)
        if reach >= present:
            raise Refusal(24, "book", 12)
        self.bank.admission(description, reach)
        self.book[number] = (description, reach)

    def retire(self, number):
        self.held(number)
        del self.book[number]

    def seal(self, number, message, output):
        """Writes the frame at the start of `output` (a bytearray) and answers
        the frame's length; the rest of the output is kept."""
        description, reach = self.held(number)
        sheet = self.bank.sheet(description)
        if len(message) == 0 or len(message) % sheet.tuple_bytes != 0:
            raise Refusal(31, "frame", len(message))
        word_length = len(message) + sheet.check_bytes
        if word_length > reach:
            raise Refusal(32, "frame", 12)
        if len(output) < HEAD + word_length:
            raise Refusal(33, "frame", len(output))
        check = self.bank.check(description, message, sheet.check_bytes)
        frame = head(number, description, word_length) + message + check
        output[:len(frame)] = frame
        return len(frame)

    def take(self, frame):
        """The part of the frame that is the message."""
        frame = bytes(frame)
        if len(frame) < HEAD + 1:
            raise Refusal(41, "frame", len(frame))
        if frame[0] != 1:
            raise Refusal(42, "frame", 0)
        if frame[14:16] != head_check(frame[0:14]):
            raise Refusal(43, "frame", 14)
        word_length = int.from_bytes(frame[12:14], "big")
        if len(frame) != HEAD + word_length:
            raise Refusal(44, "frame", 12)
        description, reach = self.held(frame[1])
        if description_of(frame[2:12]) != description:
            own = description.to_bytes()
            for k in range(10):
                if own[k] != frame[2 + k]:
                    raise Refusal(45, "frame", 2 + k)
        sheet = self.bank.sheet(description)
        if (word_length <= sheet.check_bytes
                or word_length % sheet.tuple_bytes != 0):
            raise Refusal(46, "frame", 12)
        if word_length > reach:
            raise Refusal(32, "frame", 12)
        end = len(frame) - sheet.check_bytes
        message = frame[HEAD:end]
        check = self.bank.check(description, message, sheet.check_bytes)
        for k in range(sheet.check_bytes):
            if frame[end + k] != check[k]:
                raise Refusal(47, "frame", end + k)
        return message

    def trial(self, frame, place, byte):
        """Takes the frame (a bytearray) with one byte written at a place; the
        byte is back as it was on every way out.  No message is answered."""
        if place >= len(frame):
            raise Refusal(48, "frame", len(frame))
        before = frame[place]
        frame[place] = byte
        try:
            self.take(frame)
        finally:
            frame[place] = before
