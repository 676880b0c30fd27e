"""Reading the text of a result once more: the template that it stands for, and where a refusal at it lies.

The verdict is the proved check's. A text is read under the blocks before its own, as a formula is, with templates for values.
"""
import re
from typing import Any, Dict, List, NamedTuple, Optional

from .grammar import FIRST_PLACE, FIRST_VARIABLE, NUMBER_BIT, WORD_BIT, Alternative, Grammar, keyword_bit
from .reading import MOST_CONSTRUCTORS, MOST_ROWS, NO_BIT, Reading, Stop, Token, fault_of
from .table import (BINDER, BY_CODE, GLOBAL, IS_CALL, IS_KEYWORD, IS_LOCAL, IS_PLACE, KEYWORD, LABEL, NAME, OUTSIDE_LABEL, UNIT_READ,
                    VARIABLES, Field, Template, TemplateFault, spellings)

TOKEN = re.compile(rb"\$[0-9]+|[A-Za-z][A-Za-z0-9_]*|[0-9]+|[^\t\n\r ]")
MOST_TOKENS = 4096
UNIT = Template(UNIT_READ, 0, ())


class Fault(NamedTuple):
    """What is wrong in a text: the refusal's number, the stretch of the text, and what is said of it; where a reading stopped, its stop."""
    number: int
    start: int
    width: int
    said: str
    stop: Optional[Stop] = None


def variable_number(token: bytes) -> Optional[int]:
    """The number of a variable, if a token is one."""
    return int(token[1:].lstrip(b"0")[:4] or b"0") if len(token) > 1 and token[:1] == b"$" else None


class Text:
    """The text of an alternative's result, with what it is read by."""

    def __init__(self, grammar: Grammar, a: Alternative):
        self.alternative, self.field = a, a.result
        self.nonterminal, self.bytes = a.result.value[0], a.result.value[1:]
        self.before = grammar.before(a.definition.block)
        self.sorts = grammar.sorts(a, len(a.items))
        self.names = spellings(grammar.fields, NAME)
        self.found = [(m.start(), m.group()) for m in TOKEN.finditer(self.bytes)]

    def unnumbered(self) -> Optional[Fault]:
        """The first variable that the alternative has not; those behind a bad byte count too."""
        for start, token in self.found:
            number = variable_number(token)
            if number is not None and number >= len(self.sorts):
                return Fault(9, start, len(token), "there is no variable %d in this alternative: there are %d" % (number, len(self.sorts)))
        return None

    def bad_token(self) -> Optional[Fault]:
        """The first token that no text may have."""
        for at, (start, token) in enumerate(self.found):
            said = (fault_of(token) or "").replace("a formula", "a text") if variable_number(token) is None else ""
            if token[:1].isdigit():
                said = "a text holds no number: one comes from the formula, by an item as `n=number`; for a fixed one take an outside name"
            if at == MOST_TOKENS:
                said = "a text has at most %d tokens" % MOST_TOKENS
            if said:
                return Fault(26, start, len(token), said)
        return None

    def tokens(self) -> List[Token]:
        """The tokens; keywords are those that the nonterminal reaches under the blocks before."""
        reached = self.before.keywords_from(self.nonterminal)
        keywords = {k: keyword_bit(i) for i, k in reversed(list(enumerate(spellings(self.before.fields, KEYWORD)))) if i in reached}
        out = []
        for start, token in self.found:
            number = variable_number(token)
            other = WORD_BIT if token[:1].isalpha() else NUMBER_BIT if token[:1].isdigit() else NO_BIT
            bit = keywords.get(token.decode("latin-1"), other) if number is None else FIRST_VARIABLE + (self.sorts[number] or 0)
            out.append(Token(start, token, bit))
        return out


class TextReading(Reading):
    """A reading whose values are templates. It notes the words that stand at a Binder, the locals that it meets, and the words that are no outside names."""

    def __init__(self, text: Text, rows: int):
        super().__init__(text.before, text.tokens(), rows)
        self.text = text
        self.bound: List[Token] = []
        self.unknown: List[Token] = []
        self.locals: List[Any] = []

    def whole(self) -> Template:
        value = self.call(self.text.nonterminal, (), None, None)
        if self.at < len(self.tokens):
            raise self.stop(18, None, None)
        return value

    def sort(self) -> Optional[int]:
        """The sort of the next token, if it is a variable."""
        bit = self.tokens[self.at].bit if self.at < len(self.tokens) else NO_BIT
        return bit - FIRST_VARIABLE if bit >= FIRST_VARIABLE else None

    def choice(self, nonterminal: int) -> Optional[Alternative]:
        """For a variable the alternative that opens with a word that it fits, else with a place of its sort, else the nullable one."""
        chosen, sort = super().choice(nonterminal), self.sort()
        if sort is None or chosen is not None and self.fits(self.grammar.own_firsts[chosen.field.place]):
            return chosen
        placed = [a for a in self.grammar.productions.get(nonterminal, []) if self.grammar.own_firsts[a.field.place] >> FIRST_PLACE + sort & 1]
        return placed[0] if placed else chosen

    def item(self, f: Field, a: Alternative, values: List[Any]) -> Template:
        kind = f.value[0]
        if kind == IS_LOCAL:
            self.locals.append((f, self.at))
            return UNIT
        if kind == IS_PLACE and self.sort() == f.value[1]:
            self.at += 1
        else:
            taken = super().item(f, a, values)
            if kind == IS_CALL:
                return taken
        return UNIT if kind == IS_KEYWORD else self.value(self.tokens[self.at - 1], f.value[1])

    def value(self, token: Token, sort: int) -> Template:
        """What a variable or a word gives."""
        number = variable_number(token.text)
        if number is not None:
            return Template(number, 0, ())
        spelled = token.text.decode("ascii")
        if sort == BINDER:
            self.bound.append(token)
        if spelled not in self.text.names:
            self.unknown.append(token)
            return UNIT
        return Template(OUTSIDE_LABEL if sort == LABEL else GLOBAL, self.text.names.index(spelled), ())

    def build(self, t: Template, values: List[Any], f: Field, a: Alternative) -> Template:
        if t.head < VARIABLES:
            return values[t.head] if t.head < len(values) else UNIT
        if t.head not in BY_CODE:
            return t
        arguments = tuple(self.build(x, values, f, a) for x in t.arguments)
        if self.cells == self.rows:
            raise self.stop(21, f, a)
        self.cells += 1
        return Template(t.head, 0, arguments)


def size(t: Template, known: Dict[int, int]) -> int:
    """The constructors of a template; a shared part counts at each place."""
    if t.head not in BY_CODE:
        return 0
    if id(t) not in known:
        known[id(t)] = 1 + sum(size(x, known) for x in t.arguments)
    return known[id(t)]


class Read(NamedTuple):
    """What a text comes to: the reading, its template if there is one, and what is wrong; nothing if the blocks before have no templates to read it by."""
    reading: Optional[TextReading]
    template: Optional[Template]
    fault: Optional[Fault]


def read(grammar: Grammar, a: Alternative) -> Read:
    """Reads a text, once for all who ask."""
    if a.result.place not in grammar.shared:
        grammar.shared[a.result.place] = read_anew(grammar, a)
    return grammar.shared[a.result.place]


def read_anew(grammar: Grammar, a: Alternative) -> Read:
    text = Text(grammar, a)
    fault = text.unnumbered() or text.bad_token()
    if fault:
        return Read(None, None, fault)
    earlier = [read(grammar, b).reading for b in grammar.texts() if b.result.place < a.result.place]
    reading = TextReading(text, MOST_ROWS - sum(r.cells for r in earlier if r))
    try:
        template = reading.whole()
    except Stop as s:
        token = reading.tokens[s.token] if s.token < len(reading.tokens) else Token(len(text.bytes.rstrip()), b" ", NO_BIT)
        return Read(reading, None, Fault(26, token.start, len(token.text), STOPS[s.number], s))
    except TemplateFault:
        return Read(None, None, None)
    if size(template, {}) > MOST_CONSTRUCTORS:
        return Read(reading, None, Fault(26, 0, len(text.bytes), "it stands for a template of more than 16,384 constructors"))
    return Read(reading, template, noted(reading))


STOPS = {
    17: "this does not fit here",
    18: "what stands before this is a whole text, and it cannot go on with this",
    19: "phrases are nested too deeply: more than 1,024 calls are open at once",
    20: "the text needs more than 65,536 calls",
    21: "the texts of a table make 16,384 rows at most, and there is none left for this one"}


def noted(reading: TextReading) -> Optional[Fault]:
    """What is wrong in a text that can be read: 27, 28 and 9, in this order."""
    for token in reading.bound[:1]:
        return Fault(27, token.start, len(token.text), "`%s` is a word where a Binder is asked, and a text binds variables only: read or make the name among "
                     "the items, as x=ide:Binder or x=local, and write $x" % token.text.decode("ascii"))
    for _, at in reading.locals[:1]:
        token = reading.tokens[at] if at < len(reading.tokens) else Token(len(reading.text.bytes.rstrip()), b" ", NO_BIT)
        return Fault(28, token.start, len(token.text), "what is read from here on makes a fresh name")
    for token in reading.unknown[:1]:
        return Fault(9, token.start, len(token.text), "`%s` is no outside name" % token.text.decode("ascii"))
    return None


def template_of(grammar: Grammar, a: Alternative) -> Template:
    """The template that a text stands for."""
    found = read(grammar, a).template if a.result.value else None
    if found is None:
        raise TemplateFault("the text cannot be read")
    return found
