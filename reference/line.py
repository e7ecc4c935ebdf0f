"""The line program: commands on standard input, a transcript on output.

    python3 reference/line.py < script > transcript
"""

import sys

sys.dont_write_bytecode = True

from codes import Refusal, description_of, three_kinds  # noqa: E402
from station import HEAD, Station                       # noqa: E402

LONGEST = 8226
DIGITS = b"0123456789ABCDEF"
GREATEST_FRAME = HEAD + 4096


def decode(line):
    """(command letter, decoded bytes) of a line that is neither empty nor a
    remark."""
    if len(line) > LONGEST:
        raise Refusal(4, "line", LONGEST)
    letter = line[0:1]
    if letter not in (b"E", b"N", b"R", b"M", b"F"):
        raise Refusal(1, "line", 0)
    if line[1:2] != b" ":
        raise Refusal(2, "line", 1)
    digits = line[2:]
    from_first_bad = digits.lstrip(DIGITS)
    if from_first_bad:
        raise Refusal(2, "line", len(line) - len(from_first_bad))
    if len(digits) % 2 == 1:
        raise Refusal(2, "line", len(line))
    data = bytes.fromhex(digits.decode("ascii"))
    size = len(data)
    if (letter == b"E" and size != 13 or letter == b"N" and size != 3
            or letter == b"R" and size != 1 or letter == b"M" and size == 0):
        raise Refusal(3, "line", len(line))
    return letter, data


def obey(station, line):
    """Does what a line says; the bytes to print, or None for nothing."""
    letter, data = decode(line)
    if letter == b"E":
        station.enter(data[0], description_of(data[1:11]),
                      int.from_bytes(data[11:13], "big"))
        return None
    if letter == b"N":
        station.narrow(data[0], int.from_bytes(data[1:3], "big"))
        return None
    if letter == b"R":
        station.retire(data[0])
        return None
    if letter == b"M":
        output = bytearray(GREATEST_FRAME)
        length = station.seal(data[0], data[1:], output)
        return bytes(output[:length])
    return station.take(data)


def lines_of(text):
    """The lines of an input: each ends at 0A or at the input's end."""
    lines = text.split(b"\n")
    if lines[-1] == b"":
        lines.pop()
    return lines


def transcript(text):
    """Everything that is printed for an input."""
    station = Station(three_kinds("table"))
    printed = []
    for number, line in enumerate(lines_of(text), 1):
        if line == b"" or line[0:1] == b"#":
            continue
        try:
            shown = obey(station, line)
            if shown is None:
                printed.append("%d 0\n" % number)
            else:
                printed.append("%d 0 %s\n" % (number, shown.hex().upper()))
        except Refusal as refusal:
            printed.append("%d %d %d\n"
                           % (number, refusal.number, refusal.place))
    return "".join(printed).encode("ascii")


def main():
    sys.stdout.buffer.write(transcript(sys.stdin.buffer.read()))
    sys.stdout.buffer.flush()


if __name__ == "__main__":
    main()
