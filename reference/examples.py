"""The examples of docs/line.md: what is read and what is printed."""

import os
import re

PAGE = os.path.join(os.path.dirname(os.path.abspath(__file__)),
                    "..", "docs", "line.md")
FIGURE = re.compile(r"Input:\n\n```\n(.*?)```\n\nOutput:\n\n```\n(.*?)```",
                    re.DOTALL)
ROW = re.compile(r"\| `([^`]*)` \| (?:`([^`]*)`|nothing) \|")


def bytes_of(shown):
    """The bytes of a line as the page shows it."""
    for mark, byte in (("\u2420", " "), ("\\t", "\t"), ("\\r", "\r")):
        shown = shown.replace(mark, byte)
    return shown.encode("ascii")


def examples():
    """(input, what is printed) for every example of the page."""
    with open(PAGE, encoding="utf-8") as page:
        text = page.read()
    found = [(shown.encode("ascii"), printed)
             for shown, printed in FIGURE.findall(text)]
    before = b""
    for row in text[text.index("## Single lines"):].split("\n"):
        start = re.match(r"After `(.*)`:$", row)
        if start:
            before = bytes_of(start.group(1)) + b"\n"
        single = ROW.match(row)
        if single:
            printed = "1 0\n" if before else ""
            if single.group(2):
                number = 2 if before else 1
                printed += "%d %s\n" % (number, single.group(2))
            found.append((before + bytes_of(single.group(1)) + b"\n", printed))
    return found
