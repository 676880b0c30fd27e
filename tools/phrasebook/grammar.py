"""A table that passed its layout, as a grammar: blocks, definitions, alternatives; its normal form, what the root reaches, first sets and left recursion.

This serves explanations. The verdict on a table is that of the proved check; here it is only looked up where its cause lies.
"""
from typing import Any, Dict, Iterator, List, NamedTuple, Optional, Set, Tuple

from .table import (ADD, ALTERNATIVE, BINDER, BLOCK, DEFINITION, IS_CALL, IS_IDE, IS_KEYWORD, IS_LOCAL, IS_NUMBER, IS_PLACE, ITEM, KEYWORD, NUM,
                    RESULT, ROOT, SORTS, TEXT, UNIT, UPDATE, VAR, Field, read_fields, spellings)

# What an alternative can begin with, as a set of bits: document 01's 64 kinds of tokens, from bit 65 on the pattern places of each sort (as refusal 13 counts
# them), and from bit 72 on the sorts of a text's variables that fit a word.
WORD_BIT, NUMBER_BIT, FIRST_PLACE, FIRST_VARIABLE = 0, 1, 65, 72
TOKEN_KINDS = (1 << 64) - 1


def keyword_bit(number: int) -> int:
    return number + 2


def fits(given: int, asked: int) -> bool:
    """Whether a value of a sort may stand where a sort is asked."""
    return given == asked or (given, asked) == (BINDER, VAR)


class Definition(NamedTuple):
    field: Field
    block: int

    @property
    def nonterminal(self) -> int:
        return self.field.value[0]

    @property
    def mode(self) -> int:
        return self.field.value[1]

    @property
    def result(self) -> int:
        return self.field.value[2]

    @property
    def parameters(self) -> Tuple[int, ...]:
        return tuple(self.field.value[3:])


class Alternative(NamedTuple):
    field: Field
    definition: Definition
    items: List[Field]
    result: Optional[Field]

    def holds(self, place: int) -> bool:
        return any(f is not None and f.place == place for f in [self.field, self.result] + self.items)


class Grammar:
    """The parts of a table; fields that do not fit where they stand are left out. `shared` holds, for a table and the blocks before each of its blocks, what is
    known of its texts by their places."""

    def __init__(self, data: bytes, shared: Optional[Dict[Any, Any]] = None):
        self.data, self.shared = data, {} if shared is None else shared
        self.fields = read_fields(data)
        self.definitions: List[Definition] = []
        self.alternatives: List[Alternative] = []
        self.root: Optional[int] = None
        block = -1
        for f in self.fields:
            block += f.tag == BLOCK
            self.add(f, block)
        self.productions = self.normal_form()
        self.nullable = self.nullable_nonterminals()
        self.firsts = self.first_sets()
        self.own_firsts = {a.field.place: self.first(a) for _, a in self.all_productions()}

    def add(self, f: Field, block: int) -> None:
        if f.tag == DEFINITION and len(f.value) >= 3:
            self.definitions.append(Definition(f, block))
        elif f.tag == ALTERNATIVE and self.definitions:
            self.alternatives.append(Alternative(f, self.definitions[-1], [], None))
        elif f.tag == ITEM and self.alternatives and len(f.value) >= 2:
            self.alternatives[-1].items.append(f)
        elif f.tag in (RESULT, TEXT) and self.alternatives:
            self.alternatives[-1] = self.alternatives[-1]._replace(result=f)
        elif f.tag == ROOT and f.value:
            self.root = f.value[0]

    def texts(self) -> List[Alternative]:
        """The alternatives whose results are texts."""
        return [a for a in self.alternatives if a.result is not None and a.result.tag == TEXT and a.result.value]

    def before(self, block: int) -> "Grammar":
        """The blocks before a block: a text is read under those before its own."""
        if ("before", block) not in self.shared:
            starts = [f.place for f in self.fields if f.tag == BLOCK]
            self.shared["before", block] = Grammar(self.data[:starts[block] if block >= 0 else 0], self.shared)
        return self.shared["before", block]

    def alternative_of(self, place: int) -> Optional[Alternative]:
        return next((a for a in self.alternatives if a.holds(place)), None)

    def signature(self, nonterminal: int, block: int) -> Optional[Definition]:
        """The newest definition of a nonterminal in this block or an earlier one."""
        found = [d for d in self.definitions if d.nonterminal == nonterminal and d.block <= block]
        return found[-1] if found else None

    def sorts(self, a: Alternative, count: int) -> List[Optional[int]]:
        """The sorts of an alternative's variables, up to this many items; none for a call of what is not defined."""
        out: List[Optional[int]] = list(a.definition.parameters)
        for f in a.items[:count]:
            called = self.signature(f.value[1], a.definition.block) if f.value[0] == IS_CALL else None
            own = {IS_KEYWORD: UNIT, IS_IDE: f.value[1], IS_NUMBER: NUM, IS_LOCAL: BINDER, IS_PLACE: f.value[1]}.get(f.value[0])
            out.append(called.result if called else own)
        return out

    def normal_form(self) -> Dict[int, List[Alternative]]:
        """The alternatives of each nonterminal after all extensions and updates."""
        out: Dict[int, List[Alternative]] = {}
        for d in self.definitions:
            own = [a for a in self.alternatives if a.definition.field.place == d.field.place]
            out[d.nonterminal] = own if d.mode in (ADD, UPDATE) else out.get(d.nonterminal, []) + own
        return out

    def all_productions(self) -> Iterator[Tuple[int, Alternative]]:
        return ((n, a) for n, own in self.productions.items() for a in own)

    def reached(self, start: Optional[int] = None) -> List[int]:
        """The nonterminals that the root, or another one, reaches by calls, itself the first; none if it is not defined."""
        start = self.root if start is None else start
        out = [start] if start in self.productions else []
        for n in out:
            called = [f.value[1] for a in self.productions.get(n, []) for f in a.items if f.value[0] == IS_CALL]
            out += [m for m in dict.fromkeys(called) if m not in out]
        return out

    def keywords_from(self, nonterminal: int) -> Set[int]:
        """The keywords that count in what is read as a nonterminal, by their numbers."""
        had = (f for n in self.reached(nonterminal) for a in self.productions.get(n, []) for f in a.items)
        return {f.value[1] for f in had if f.value[0] == IS_KEYWORD}

    def given_back(self) -> Dict[int, str]:
        """The keywords that no alternative reached has, by their numbers: in formulas they are ordinary words, or symbols that no phrase reads. None if the
        root is not defined: then there are no formulas."""
        had = self.keywords_from(self.root) if self.reached() else None
        return {k: spelled for k, spelled in enumerate(spellings(self.fields, KEYWORD)) if had is not None and k not in had}

    def nullable_nonterminals(self) -> set:
        found: set = set()
        while True:
            more = {n for n, a in self.all_productions() if all(self.is_nullable(f, found) for f in a.items)} - found
            if not more:
                return found
            found |= more

    def is_nullable(self, item: Field, nullable: Optional[set] = None) -> bool:
        known = self.nullable if nullable is None else nullable
        return item.value[0] == IS_LOCAL or (item.value[0] == IS_CALL and item.value[1] in known)

    def empty(self, a: Alternative) -> bool:
        return all(self.is_nullable(f) for f in a.items)

    def leading(self, a: Alternative) -> Iterator[Field]:
        """The items of an alternative up to the first that is not nullable."""
        for f in a.items:
            yield f
            if not self.is_nullable(f):
                return

    def first_sets(self) -> Dict[int, int]:
        sets = {n: 0 for n in self.productions}
        changed = True
        while changed:
            changed = False
            for n, a in self.all_productions():
                joined = sets[n] | self.first(a, sets)
                changed, sets[n] = changed or joined != sets[n], joined
        return sets

    def item_first(self, item: Field, sets: Optional[Dict[int, int]] = None) -> int:
        kind, operand = item.value[0], item.value[1]
        if kind == IS_CALL:
            return (self.firsts if sets is None else sets).get(operand, 0)
        if kind == IS_IDE:
            return 1 << WORD_BIT | sum(1 << FIRST_VARIABLE + s for s in range(len(SORTS)) if fits(s, operand))
        return {IS_KEYWORD: 1 << keyword_bit(operand), IS_NUMBER: 1 << NUMBER_BIT, IS_PLACE: 1 << FIRST_PLACE + operand}.get(kind, 0)

    def first(self, a: Alternative, sets: Optional[Dict[int, int]] = None) -> int:
        out = 0
        for f in self.leading(a):
            out |= self.item_first(f, sets)
        return out

    def left_calls(self, nonterminal: int) -> List[Tuple[Field, int]]:
        """The calls that a nonterminal can make before any token is read, with the nonterminal called."""
        own = self.productions.get(nonterminal, [])
        return [(f, f.value[1]) for a in own for f in self.leading(a) if f.value[0] == IS_CALL]

    def left_cycle(self, nonterminal: int) -> List[Field]:
        """The shortest run of such calls from a nonterminal to itself; empty if there is none."""
        paths: List[Tuple[int, List[Field]]] = [(nonterminal, [])]
        seen = set()
        for at, path in paths:
            for f, called in self.left_calls(at):
                if called == nonterminal:
                    return path + [f]
                if called not in seen:
                    seen.add(called)
                    paths.append((called, path + [f]))
        return []
