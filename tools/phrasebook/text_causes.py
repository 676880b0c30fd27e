"""The causes that lie in the text of a result, 9, 11 and 26 to 28, in words."""
from typing import List

from . import texts
from .case import Case
from .formula_causes import tokens_of
from .grammar import FIRST_PLACE, FIRST_VARIABLE, NUMBER_BIT, TOKEN_KINDS, Alternative
from .table import BINDER, IS_IDE, SORTS, TEXT, sort_name
from .texts import Fault, TextReading

# the kinds of tokens that a text can have
TOKENS = TOKEN_KINDS - (1 << NUMBER_BIT)


def is_at_text(case: Case) -> bool:
    """Whether a refusal is at a result that is a text."""
    f = case.field()
    return f is not None and f.tag == TEXT and bool(f.value) and case.alternative() is not None


def not_defined(case: Case) -> List[str]:
    a, number = case.alternative(), case.field().value[0]
    if case.grammar.signature(number, a.definition.block - 1) is not None:
        return faulty(case)
    late = [d for d in case.grammar.definitions if d.nonterminal == number]
    hint = "; its definition at %s comes too late" % case.where(late[0].field.place) if late else ""
    return case.at(case.a, "the text is read as %s, which no block before its own defines%s" % (case.nonterminal(number), hint))


def wrong_sort(case: Case) -> List[str]:
    a, number = case.alternative(), case.field().value[0]
    d = case.grammar.signature(number, a.definition.block - 1)
    if d is None:
        return []
    name = case.nonterminal(number)
    if d.parameters:
        return case.at(case.a, "a text is read as a nonterminal without parameters, and %s has %d" % (name, len(d.parameters)))
    own = "%s gives a %s" % (case.nonterminal(a.definition.nonterminal), sort_name(a.definition.result))
    return case.at(case.a, "%s, and the text is read as %s, which gives %s" % (own, name, sort_name(d.result)))


def faulty(case: Case) -> List[str]:
    """What is wrong in the text, if that is the refusal's own cause."""
    if not is_at_text(case):
        return []
    a = case.alternative()
    found = texts.read(case.grammar, a)
    if found.fault is None or found.fault.number != case.refusal.number:
        return []
    return case.in_text(case.a, found.fault.start, found.fault.width, found.fault.said) + hints(case, a, found.fault, found.reading)


def hints(case: Case, a: Alternative, fault: Fault, reading: TextReading) -> List[str]:
    if fault.number == 9 and reading is not None:
        return word_hint(case, a, reading.unknown[0].text.decode("ascii"))
    if fault.number == 28:
        f, _ = reading.locals[0]
        owner = case.grammar.alternative_of(f.place)
        return case.at(f.place, "by this local of %s" % case.nonterminal(owner.definition.nonterminal)) + [
            "a text makes no fresh name: let the alternative make it, by an item as x=local, and write $x"]
    return misfit(case, fault, reading) if fault.stop is not None else []


def word_hint(case: Case, a: Alternative, word: str) -> List[str]:
    if word in case.packed.variables.get(a.field.place, {}).values():
        return ["`%s` is a variable of this alternative: in a text it is $%s" % (word, word)]
    return ["a line `names %s` makes it an outside name" % word]


def misfit(case: Case, fault: Fault, reading: TextReading) -> List[str]:
    """What would have fitted where a text could not be read on."""
    stop, grammar = fault.stop, reading.grammar
    if stop.number != 17:
        return []
    bits = grammar.item_first(stop.item) if stop.item else grammar.firsts.get(reading.text.nonterminal, 0)
    said = ["expected: %s" % tokens_of(case, bits & TOKENS)] if bits & TOKENS else []
    said += variable_hint(case, reading, bits)
    if stop.item is not None:
        said += case.at(stop.item.place, "reading this item of %s" % case.nonterminal(stop.alternative.definition.nonterminal))
    return said


def variable_hint(case: Case, reading: TextReading, bits: int) -> List[str]:
    """Which variables would have fitted, and what can be done for the one that stands there."""
    sorts = [s for s in range(len(SORTS)) if bits >> FIRST_PLACE + s & 1 or bits >> FIRST_VARIABLE + s & 1]
    said = ["or a variable that is a %s" % " or a ".join(SORTS[s] for s in sorts)] if sorts else []
    sort = reading.sort()
    if sort is None:
        return said
    number = texts.variable_number(reading.tokens[reading.at].text)
    said.append("%s is a %s" % (case.variable(reading.text.alternative, number), sort_name(sort)))
    words = [f for f in reading.text.alternative.items if f.value[0] == IS_IDE]
    if BINDER in sorts and sort != BINDER and words:
        said.append("ide:Binder reads a word that may bind")
    elif not any(first >> FIRST_PLACE + sort & 1 for first in reading.grammar.firsts.values()):
        said.append("no phrase of the blocks before has a pattern place for it: an alternative as `a=pIde:%s => a`, in a block of its own, makes one"
                    % sort_name(sort))
    return said
