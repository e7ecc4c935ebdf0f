"""The example of each row of docs/answers.md, through the call that gives it,
held against the page: number, layer and place."""

import os
import re

from codes import Description, period_call, published, set_engine, three_kinds
from line import decode
from station import Station, head

PAGE = os.path.join(os.path.dirname(os.path.abspath(__file__)),
                    "..", "docs", "answers.md")


def page():
    """The rows of the page's first table: number, layer, cause, place and
    example, as texts."""
    with open(PAGE, encoding="utf-8") as file:
        text = file.read()
    table = text[text.index("## Every refusal"):].split("\n## ")[0]
    return [[cell.strip() for cell in line.strip().strip("|").split("|")]
            for line in table.splitlines() if re.match(r"\| \d", line)]


def rows():
    """Number, layer, place, and the call with its arguments."""
    bank = three_kinds()
    hec, crc_16 = published("ATM-HEC"), published("CRC-16")
    good = head(5, hec, 2) + b"\1\7"
    station, full, parity_held = Station(bank), Station(bank), Station(bank)
    station.enter(5, hec, 15)
    for number in range(16):
        full.enter(number, hec, 15)
    parity_held.enter(5, published("PARITY-16"), 15)
    enter = station.enter
    return (
        (1, "line", 0, decode, b"Q 05"),
        (2, "line", 3, decode, b"R 0a"),
        (3, "line", 6, decode, b"R 0506"),
        (4, "line", 8226, decode, b"F" * 8227),
        (11, "kind", 2, enter, 9, hec._replace(kind=9), 15),
        (12, "kind", 3, enter, 9, Description(1, 12, 7, 0, 0, 1), 15),
        (12, "engine", 3, set_engine, "table", 7, 0x07),
        (12, "engine", 3, period_call, 1, 0x01),
        (13, "kind", 4, enter, 9, hec._replace(low=6), 15),
        (13, "engine", 4, set_engine, "table", 8, 0x06),
        (13, "engine", 4, period_call, 8, 0x06),
        (14, "kind", 4, enter, 9, Description(2, 15, 1, 0, 0, 1), 15),
        (15, "engine", 4, Station(three_kinds("fast")).enter, 9, crc_16, 15),
        (16, "kind", 12, enter, 9, hec, 1),
        (17, "kind", 4, enter, 9, crc_16, 4096),
        (21, "book", 1, enter, 5, hec, 15),
        (22, "book", 1, full.enter, 16, hec, 15),
        (23, "book", 1, Station(bank).seal, 5, b"\1", bytearray(99)),
        (24, "book", 12, station.narrow, 5, 15),
        (31, "frame", 0, station.seal, 5, b"", bytearray(99)),
        (32, "frame", 12, station.seal, 5, bytes(15), bytearray(99)),
        (33, "frame", 17, station.seal, 5, b"\1", bytearray(17)),
        (41, "frame", 16, station.take, good[:16]),
        (42, "frame", 0, station.take, b"\2" + good[1:]),
        (43, "frame", 14, station.take, good[:14] + b"\x94\x63" + good[16:]),
        (44, "frame", 12, station.take, good + b"\0"),
        (45, "frame", 2, parity_held.take, good),
        (46, "frame", 12, station.take, head(5, hec, 1) + b"\1"),
        (47, "frame", 17, station.take, good[:16] + b"\1\6"),
        (48, "frame", 18, station.trial, bytearray(good), 18, 0),
    )


def answer_rows(same, outcome):
    """Every row of the page has its cells and is tested, and nothing is tested
    that is not on it."""
    places = {}
    for number, layer, place, call, *arguments in rows():
        same(outcome(call, *arguments), (number, layer, place))
        places[number, layer] = place
    stated = page()
    for cells in stated:
        same(len(cells), 5, cells)
        same("" in cells, False, cells)
        number, layer, _, where, example = cells
        place = places.get((int(number), layer))
        if where.isdigit():
            same(place, int(where), cells)
        told = re.search(r": place (\d+)", example)
        if told:
            same(place, int(told.group(1)), cells)
    same(sorted((int(cells[0]), cells[1]) for cells in stated),
         sorted(places))
