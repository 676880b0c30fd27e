"""A refusal with the table and the formula that it is about, and how their parts are named and shown."""
from typing import List, NamedTuple, Optional, Sequence, Tuple

from . import reading
from .grammar import Alternative, Grammar
from .pack import Packed
from .reading import Token
from .source import Spot, counted, marked
from .table import KEYWORD, Field, read_fields, spellings


class Refusal(NamedTuple):
    number: int
    a: int
    b: int
    c: int


class Part(str):
    """A part of an explanation: its text, which may be several lines. If it speaks of a field of the table, of a stretch of its notation or of a stretch of the
    formula, it says of which, and what is said of it without its place."""
    field: Optional[int] = None
    spot: Optional[Spot] = None
    stretch: Optional[Tuple[int, int]] = None
    said = ""


def part(text: str, said: str, field: Optional[int] = None, stretch: Optional[Tuple[int, int]] = None) -> Part:
    out = Part(text)
    out.said, out.field, out.stretch = said, field, stretch
    return out


def as_what(keyword: str) -> str:
    """What a keyword that is given back is in formulas."""
    return "an ordinary word" if keyword[:1].isalpha() else "a symbol that no phrase reads"


def stretched(spots: Sequence[Spot], start: int, width: int) -> Optional[Spot]:
    """The spot of some bytes of a text, as far as they stand in one line; of what is behind its end, the place there."""
    if start >= len(spots):
        return spots[-1]._replace(column=spots[-1].column + spots[-1].width, width=1) if spots else None
    first = spots[start]
    last = [s for s in spots[start:start + width] if s.line == first.line][-1]
    return first._replace(width=last.column + last.width - first.column)


class Case:
    """A refusal with what it is about."""

    def __init__(self, packed: Packed, formula: Optional[bytes], refusal: Refusal):
        self.packed, self.formula, self.refusal = packed, formula, refusal
        self.data, self.a, self.b, self.c = packed.data, refusal.a, refusal.b, refusal.c
        self.grammar = Grammar(packed.data)
        self.fields = {f.place: f for f in read_fields(packed.data)}
        self.keywords = spellings(list(self.fields.values()), KEYWORD)
        self.given_back = self.grammar.given_back()
        self.tokens: List[Token] = reading.scan(formula, self.grammar) if formula is not None else []

    def field(self) -> Optional[Field]:
        return self.fields.get(self.a)

    def alternative(self) -> Optional[Alternative]:
        return self.grammar.alternative_of(self.a)

    def nonterminal(self, number: int) -> str:
        return "`%s`" % self.packed.nonterminals.get(number, "n%d" % number)

    def variable(self, a: Alternative, number: int) -> str:
        return "`%s`" % self.packed.variables.get(a.field.place, {}).get(number, "v%d" % number)

    def where(self, place: int) -> str:
        """Where a field stands: a line of the notation, or a byte of the table."""
        spot = self.packed.spots.get(place)
        return str(spot) if spot else "byte %d of the table" % place

    def shown(self, place: int) -> List[str]:
        """A field as it is written."""
        spot, f = self.packed.spots.get(place), self.fields.get(place)
        if spot:
            return [spot.marked()]
        return ["    " + self.data[place:place + 3 + len(f.value)][:24].hex(" ")] if f else []

    def at(self, place: int, said: str, *hints: str) -> List[str]:
        """What is to be said of a field, with its place and its text; hints follow."""
        return [part("%s: %s" % (self.where(place), said), said, field=place)] + self.shown(place) + list(hints)

    def in_text(self, place: int, start: int, width: int, said: str) -> List[str]:
        """What is to be said of a stretch of the text of a result, with the stretch marked in the notation, or in the text itself."""
        spots = self.packed.texts.get(place)
        if spots is None:
            out = part("byte %d of the text at byte %d of the table: %s" % (start, place, said), said, field=place)
            return [out, marked(self.fields[place].value[1:].decode("latin-1"), start, width)]
        spot = stretched(spots, start, width) or self.packed.spots[place]
        out = part("%s: %s" % (spot, said), said, field=place)
        out.spot = spot
        return [out, spot.marked()]

    def word(self, index: int) -> List[str]:
        """The token of the formula with this index, marked in its line."""
        if self.formula is None:
            return ["at token %d of the formula, counted from 0" % index]
        if index > len(self.tokens):
            return []
        if index == len(self.tokens):
            return self.place(len(self.formula.rstrip()), 1, "the end of the formula, behind %s" % counted(index, "token"))
        t = self.tokens[index]
        return self.place(t.start, len(t.text), "`%s`, token %d of the formula, counted from 0" % (t.text.decode("ascii"), index))

    def place(self, offset: int, width: int, what: str) -> List[str]:
        """A stretch of the formula, marked in its line."""
        before = self.formula[:offset].split(b"\n")
        left = before[-1].decode("utf-8", "replace")
        right = self.formula[offset:].split(b"\n", 1)[0].decode("utf-8", "replace")
        text = "formula, line %d, column %d: %s" % (len(before), len(left) + 1, what)
        return [part(text, what, stretch=(offset, width)), marked(left + right, len(left), width)]

    def kinds(self, bits: int) -> List[str]:
        """The token kinds of a set: bit 0 a word, bit 1 a number, bit k + 2 keyword k."""
        names = ["a word", "a number"] + ["`%s`" % k for k in self.keywords]
        return [names[i] if i < len(names) else "keyword %d" % (i - 2) for i in range(64) if bits >> i & 1]
