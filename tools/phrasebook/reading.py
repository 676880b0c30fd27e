"""Reading a formula once more, to say where in the notation a refusal came about.

The answer is that of the proved expander; this finds the item and the calls that were open at that moment.
"""
import re
from typing import Any, Dict, List, NamedTuple, Optional, Tuple

from .grammar import NUMBER_BIT, TOKEN_KINDS, WORD_BIT, Alternative, Grammar, keyword_bit
from .table import (BY_CODE, IS_CALL, IS_KEYWORD, IS_LOCAL, IS_PLACE, KEYWORD, TEXT, VARIABLES, Field, Template, TemplateFault, read_result,
                    read_templates, spellings)

TOKEN = re.compile(rb"[A-Za-z][A-Za-z0-9_]*|[0-9]+|[^\t\n\r ]")
LONGEST_WORD, LARGEST_NUMBER = 31, 999999999
MOST_OPEN, MOST_CALLS, MOST_ROWS, MOST_CONSTRUCTORS = 1024, 65536, 16384, 16384
PROGRAM_ROWS = 4096
NO_BIT = 64


class Token(NamedTuple):
    start: int
    text: bytes
    bit: int


def fault_of(text: bytes) -> Optional[str]:
    """Why these bytes are no token."""
    if text[:1].isalpha() and len(text) > LONGEST_WORD:
        return "this word has %d bytes, and %d are allowed" % (len(text), LONGEST_WORD)
    if text[:1].isdigit() and int(text.lstrip(b"0")[:12] or b"0") > LARGEST_NUMBER:
        return "this number is over 999,999,999"
    if len(text) == 1 and not 33 <= text[0] <= 126:
        return "byte %d (hex %02x) may not stand in a formula: only blanks, tabs, line ends and the ASCII characters that print" % (text[0], text[0])
    return None


def token_at(formula: bytes, start: int) -> bytes:
    m = TOKEN.match(formula, start)
    return m.group() if m else b""


def scan(formula: bytes, grammar: Grammar) -> List[Token]:
    """The tokens up to the first that is none. Keywords that are given back are words or symbols like others."""
    given_back = grammar.given_back()
    keywords = {k: keyword_bit(i) for i, k in reversed(list(enumerate(spellings(grammar.fields, KEYWORD)))) if i not in given_back}
    out = []
    for m in TOKEN.finditer(formula):
        text = m.group()
        if fault_of(text):
            break
        other = WORD_BIT if text[:1].isalpha() else NUMBER_BIT if text[:1].isdigit() else NO_BIT
        out.append(Token(m.start(), text, keywords.get(text.decode("ascii"), other)))
    return out


class Call(NamedTuple):
    nonterminal: int
    token: int


class Stop(Exception):
    """Where a reading stops: number as in document 01, the item at which it stops (none for the root), the calls then open, and the tokens
    by which calls that took their empty alternative here could have gone on."""

    def __init__(self, number: int, token: int, item: Optional[Field], alternative: Optional[Alternative], calls: List[Call], others: int):
        super().__init__()
        self.number, self.token, self.item, self.alternative, self.calls, self.others = number, token, item, alternative, calls, others


class Node(NamedTuple):
    """A constructor with the result or call whose template made it."""
    code: int
    arguments: Tuple[Any, ...]
    field: Field


class Fresh(NamedTuple):
    number: int
    item: Field


class Reading:
    """A reading of a formula."""

    def __init__(self, grammar: Grammar, tokens: List[Token], rows: int):
        self.grammar, self.tokens, self.rows = grammar, tokens, rows
        self.at = self.calls = self.cells = self.fresh = 0
        self.open: List[Call] = []
        self.passed: Dict[int, int] = {}

    def fits(self, bits: int) -> bool:
        return self.at < len(self.tokens) and bits >> self.tokens[self.at].bit & 1 == 1

    def stop(self, number: int, item: Optional[Field], alternative: Optional[Alternative]) -> Stop:
        return Stop(number, self.at, item, alternative, list(self.open), self.passed.get(self.at, 0) & TOKEN_KINDS)

    def whole(self) -> Any:
        value = self.call(self.grammar.root, (), None, None)
        if self.at < len(self.tokens):
            raise self.stop(18, None, None)
        return value

    def call(self, nonterminal: int, arguments: Tuple[Any, ...], item: Optional[Field], caller: Optional[Alternative]) -> Any:
        if len(self.open) == MOST_OPEN:
            raise self.stop(19, item, caller)
        if self.calls == MOST_CALLS:
            raise self.stop(20, item, caller)
        chosen = self.choice(nonterminal)
        if chosen is None:
            raise self.stop(17, item, caller)
        self.calls += 1
        self.open.append(Call(nonterminal, self.at))
        value = self.alternative(chosen, list(arguments))
        self.open.pop()
        return value

    def choice(self, nonterminal: int) -> Optional[Alternative]:
        """The alternative that the next token opens, else the nullable one."""
        own = self.grammar.productions.get(nonterminal, [])
        opened = next((a for a in own if self.fits(self.grammar.own_firsts[a.field.place])), None)
        if opened is not None:
            return opened
        self.passed[self.at] = self.passed.get(self.at, 0) | self.grammar.firsts.get(nonterminal, 0)
        return next((a for a in own if self.grammar.empty(a)), None)

    def alternative(self, a: Alternative, values: List[Any]) -> Any:
        for f in a.items:
            values.append(self.item(f, a, values))
        if a.result is None:
            raise TemplateFault("there is no result")
        return self.build(self.template(a), values, a.result, a)

    def template(self, a: Alternative) -> Template:
        """The template of a result, or the one that its text stands for."""
        if a.result.tag != TEXT:
            return read_result(a.result.value)
        from .texts import template_of  # texts are read by a reading, too
        return template_of(self.grammar, a)

    def item(self, f: Field, a: Alternative, values: List[Any]) -> Any:
        if f.value[0] == IS_CALL:
            arguments = tuple(self.build(t, values, f, a) for t in read_templates(f.value[2:]))
            return self.call(f.value[1], arguments, f, a)
        if f.value[0] == IS_LOCAL:
            self.fresh += 1
            return Fresh(self.fresh, f)
        if f.value[0] == IS_PLACE or not self.fits(self.grammar.item_first(f)):
            raise self.stop(17, f, a)
        self.at += 1
        return None if f.value[0] == IS_KEYWORD else self.tokens[self.at - 1]

    def build(self, t: Template, values: List[Any], f: Field, a: Alternative) -> Any:
        if t.head < VARIABLES:
            return values[t.head] if t.head < len(values) else None
        if t.head not in BY_CODE:
            return None
        arguments = tuple(self.build(x, values, f, a) for x in t.arguments)
        if self.cells == self.rows:
            raise self.stop(21, f, a)
        self.cells += 1
        return Node(t.head, arguments, f)


def node_at(term: Any, place: int) -> Optional[Node]:
    """The constructor at this place, counted from the left from 0; a part used twice stands at both places."""
    stack, at = [term], 0
    while stack and at <= min(place, MOST_CONSTRUCTORS):
        node = stack.pop()
        if not isinstance(node, Node):
            continue
        if at == place:
            return node
        at += 1
        stack += reversed(node.arguments)
    return None
