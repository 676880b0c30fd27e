"""The numbers of a formula for another count of portions, as a table for a kitchen. The numbers are the proved call's; what each stands under is read off
the term's text."""
import re
from typing import List

from .source import Trouble

PART = re.compile(rb"[A-Za-z0-9_]+|[()]")


class Open:
    """A constructor whose parts are being read: what it stands under itself, how many parts have begun, and the label or name that its second part has."""

    def __init__(self, constructor: bytes, under: str):
        self.constructor, self.under, self.begun, self.name = constructor, under, 0, ""

    def part_under(self) -> str:
        """What its next part stands under: the name that an application applies, the label of a field, else what the whole stands under."""
        is_named = self.constructor in (b"mkTermApp", b"mkFieldCons") and self.begun == 1
        return self.name or self.under if is_named else self.under


def standing(term: bytes) -> List[str]:
    """For each number of a term's text, from the left, the name that is applied to it, else the label of the innermost field around it, else nothing."""
    under: List[str] = []
    opened = [Open(b"", "")]
    parts = PART.findall(term)
    for at, part in enumerate(parts):
        inner = opened[-1]
        if part == b")":
            opened.pop()
        elif parts[at + 1] == b"(":
            opened.append(Open(part, inner.part_under()))
            inner.begun += 1
            if part == b"mkTermNum":
                under.append(opened[-1].under)
        elif part != b"(":
            inner.begun += 1
            if inner.constructor == b"mkFieldCons":
                inner.name = part.decode("ascii")
            elif inner.constructor == b"mkTermVar" and opened[-2].constructor == b"mkTermApp" and opened[-2].begun == 1:
                opened[-2].name = part.decode("ascii")
    return under


def table(written: str, wanted: str, answer: bytes) -> str:
    """A line for each number: for the portions written, for those wanted in whole grams, what is left over in parts of a gram, and what it stands under."""
    lines = answer.split(b"\n")[1:-1]
    under = standing(lines[0])
    entries = [line.decode("ascii").split() for line in lines[1:]]
    if len(under) != len(entries) or any(len(entry) != 3 for entry in entries):
        raise Trouble("the list does not belong to the term")
    rows = [("for " + written, "for " + wanted, "and", "")]
    for (number, grams, remainder), name in zip(entries, under):
        rows.append((number + " g", grams + " g", "%s/%s g" % (remainder, written) if remainder != "0" else "", name))
    wide = [max(len(row[i]) for row in rows) for i in range(3)]
    return "\n".join(("%*s  %*s  %-*s  %s" % (wide[0], row[0], wide[1], row[1], wide[2], row[2], row[3])).rstrip() for row in rows)
