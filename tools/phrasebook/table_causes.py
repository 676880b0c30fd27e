"""The causes that lie in a table, 1 to 13, in words."""
from typing import Callable, Iterator, List, Optional, Tuple

from . import text_causes
from .case import Case
from .grammar import FIRST_PLACE, FIRST_VARIABLE, Alternative, Definition, Grammar
from .pack import defined_beside
from .sorting import complaint, undefined
from .source import counted
from .table import (ALTERNATIVE, BLOCK, DEFINITION, EXTEND, IS_CALL, IS_IDE, IS_LOCAL, IS_NUMBER, IS_PLACE, ITEM, KEYWORD, LAST_KIND, LAST_TAG,
                    LONGEST_WORD, MODES, MOST, MOST_BYTES, MOST_NONTERMINALS, MOST_PARAMETERS, NAME, RESULT, ROOT, SORTS, TAGS, TERM, TEXT, Field,
                    TemplateFault, read_result, read_templates, size_at, sort_name)

# the bit of 13 if alternatives share nothing and are empty
EMPTY = 64


def article(tag: int) -> str:
    return ("an " if TAGS[tag][0] in "aeiou" else "a ") + TAGS[tag]


def is_or_are(n: int, what: str) -> str:
    return "%s %s" % (counted(n, what), "is" if n == 1 else "are")


def table_size(case: Case) -> List[str]:
    if len(case.data) <= MOST_BYTES:
        return []
    over = [p for p, f in case.fields.items() if p + 3 + len(f.value) > MOST_BYTES]
    return ["the table has %d bytes" % len(case.data)] + (case.at(over[0], "what is before this fits") if over else [])


def field_past_end(case: Case) -> List[str]:
    left = len(case.data) - case.a
    if not 0 < left:
        return []
    if left < 3:
        return ["byte %d of the table: %s left, and a field begins with a tag and two bytes of length" % (case.a, is_or_are(left, "byte"))]
    says = counted(size_at(case.data, case.a), "byte")
    return ["byte %d of the table: this field says that it has %s, and %s left" % (case.a, says, is_or_are(left - 3, "byte"))]


def why_unknown(f: Field) -> str:
    """What is not known in a field."""
    v = f.value
    if f.tag not in TAGS:
        return "tag %02x is none of 01 to %02x" % (f.tag, LAST_TAG)
    if f.tag in (BLOCK, ALTERNATIVE):
        return "%s is empty, and this one has %s" % (article(f.tag), counted(len(v), "byte"))
    if f.tag == ROOT:
        return "a root is one nonterminal" if len(v) != 1 else number_too_high(v[0])
    if f.tag == TEXT:
        return number_too_high(v[0]) if v else "a text stands behind the nonterminal that it is read as"
    if f.tag == DEFINITION:
        return why_unknown_head(v)
    return why_unknown_item(v) if f.tag == ITEM else ""


def number_too_high(number: int) -> str:
    return "this is nonterminal %d, and they are numbered 0 to 63: 64 are allowed" % number if number >= MOST_NONTERMINALS else ""


def why_unknown_head(v: bytes) -> str:
    if len(v) < 3:
        return "a definition has a nonterminal, a mode and a result sort"
    if number_too_high(v[0]):
        return number_too_high(v[0])
    if v[1] >= len(MODES):
        return "mode %d is none of 0 (==), 1 (|==) and 2 (:=)" % v[1]
    if len(v) - 3 > MOST_PARAMETERS:
        return "this has %d parameters, and %d are allowed" % (len(v) - 3, MOST_PARAMETERS)
    wrong = [s for s in v[2:] if s >= len(SORTS)]
    return "%d is the code of no sort: they are 0 to 6" % wrong[0] if wrong else ""


def why_unknown_item(v: bytes) -> str:
    if len(v) < 2:
        return "an item has a kind and an operand"
    if v[0] > LAST_KIND:
        return "%d is no kind of item: they are 0 to %d" % (v[0], LAST_KIND)
    if v[0] == IS_CALL:
        return number_too_high(v[1])
    if len(v) > 2:
        return "only a call has bytes behind its operand"
    if v[0] == IS_PLACE:
        return "%d is the code of no sort: they are 0 to 6" % v[1] if v[1] >= len(SORTS) else ""
    if v[0] == IS_IDE and not 1 <= v[1] <= 3:
        return "ide gives a word, and a word is a Var, a Binder or a Label, not %s" % (sort_name(v[1]))
    return "the operand of number and local is 0" if v[0] in (IS_NUMBER, IS_LOCAL) and v[1] else ""


def unknown_value(case: Case) -> List[str]:
    f = case.field()
    why = why_unknown(f) if f else ""
    return case.at(f.place, why) if why else []


def missing(tag: Optional[int]) -> str:
    """What is missing behind a field of this tag."""
    if tag == DEFINITION:
        return "a definition needs an alternative"
    if tag in (ALTERNATIVE, ITEM):
        return "an alternative needs its result"
    return "the root is missing: a line as `root term` names the nonterminal that a formula is read as"


def out_of_order(case: Case) -> List[str]:
    f = case.field()
    before = [g for place, g in case.fields.items() if place < case.a]
    last = before[-1].tag if before else None
    if f is None:
        return ["at the end of the table: " + missing(last)] if case.a == len(case.data) else []
    if f.tag not in TAGS:
        return []
    if last == ROOT:
        return case.at(f.place, "the root is the last field, and %s stands behind it" % article(f.tag))
    follows = "%s cannot stand at the front" % article(f.tag) if last is None else "%s cannot follow %s" % (article(f.tag), article(last))
    return case.at(f.place, follows + "; the order is keywords, outside names, blocks, root")


def why_misspelled(case: Case, f: Field) -> str:
    text = f.value.decode("utf-8", "replace")
    same = [g for g in case.fields.values() if g.tag == f.tag and g.value == f.value and g.place < f.place]
    if same:
        return "`%s` is %s already, at %s" % (text, article(f.tag), case.where(same[0].place))
    if not f.value:
        return "the spelling is empty"
    if len(f.value) > LONGEST_WORD:
        return "`%s` has %d bytes, and %d are allowed" % (text, len(f.value), LONGEST_WORD)
    foreign = [c for c in text if ord(c) > 126]
    if foreign:
        return "`%s` has the sign `%s`: a word has the letters A to Z and a to z, digits and underscores, and no others" % (text, foreign[0])
    if len(text.split()) > 1:
        return "`%s` are several words: each is a keyword of its own, as %s" % (text, " ".join('"%s"' % w for w in text.split()))
    symbol = "" if f.tag == NAME else ", nor one symbol (a single ASCII character that prints, no letter and no digit)"
    return "`%s` is not a word (a letter, then letters, digits or underscores)%s" % (text, symbol)


def bad_spelling(case: Case) -> List[str]:
    f = case.field()
    return case.at(f.place, why_misspelled(case, f)) if f and f.tag in (KEYWORD, NAME) else []


def too_many(case: Case) -> List[str]:
    f = case.field()
    if f is None or f.tag not in MOST:
        return []
    per = "in one alternative" if f.tag == ITEM else "in the table"
    return case.at(f.place, "this is one %s too many: %d are allowed %s" % (TAGS[f.tag], MOST[f.tag], per))


def head_at(case: Case) -> Optional[Definition]:
    return next((d for d in case.grammar.definitions if d.field.place == case.a), None)


def earlier_heads(case: Case, d: Definition) -> List[Definition]:
    return [e for e in case.grammar.definitions if e.nonterminal == d.nonterminal and e.field.place < d.field.place]


def signature(case: Case, d: Definition) -> str:
    parameters = "(%s)" % " ".join(sort_name(s) for s in d.parameters) if d.parameters else ""
    return "%s%s:%s" % (case.nonterminal(d.nonterminal).strip("`"), parameters, sort_name(d.result))


def added_twice(case: Case) -> List[str]:
    d = head_at(case)
    if d is None or not earlier_heads(case, d):
        return []
    first = earlier_heads(case, d)[0]
    return case.at(d.field.place, "%s is defined already, at %s" % (case.nonterminal(d.nonterminal), case.where(first.field.place)),
                   "in a later block `|==` adds alternatives to it, and `:=` replaces them")


def nothing_to_extend(case: Case) -> List[str]:
    d = head_at(case)
    if d is None:
        return []
    name, verb = case.nonterminal(d.nonterminal), "extend" if d.mode == EXTEND else "update"
    earlier = earlier_heads(case, d)
    own = [e for e in earlier if e.block == d.block]
    if own:
        first = case.where(own[0].field.place)
        return case.at(d.field.place, "this block defines %s already, at %s; a block defines a nonterminal once" % (name, first))
    if not earlier:
        spot = case.packed.spots.get(d.field.place)
        hint = defined_beside(case.packed.files, spot.path, name.strip("`")) if spot else ""
        return case.at(d.field.place, "there is no %s in an earlier block to %s%s" % (name, verb, hint or "; `==` adds a new nonterminal"))
    old = earlier[-1]
    return case.at(d.field.place, "the signature is %s here, and %s at %s" % (signature(case, d), signature(case, old), case.where(old.field.place)))


def root_line(case: Case, f: Field) -> List[str]:
    d = case.grammar.signature(f.value[0], len(case.fields))
    name = case.nonterminal(f.value[0])
    if d is None:
        return case.at(f.place, "%s is not defined" % name)
    if d.parameters:
        return case.at(f.place, "the root has no parameters, and %s has %d" % (name, len(d.parameters)))
    return case.at(f.place, "the root gives a Term, and %s gives %s" % (name, sort_name(d.result))) if d.result != TERM else []


def body_line(case: Case, judge: Callable[..., Optional[str]]) -> List[str]:
    f, a = case.field(), case.alternative()
    if f is not None and f.tag == ROOT and f.value:
        return root_line(case, f)
    if f is None or a is None:
        return []
    said = judge(case, a, f)
    return case.at(f.place, "in %s: %s" % (case.nonterminal(a.definition.nonterminal), said)) if said else []


def not_defined(case: Case) -> List[str]:
    return text_causes.not_defined(case) if text_causes.is_at_text(case) else body_line(case, undefined)


def wrong_sort(case: Case) -> List[str]:
    return text_causes.wrong_sort(case) if text_causes.is_at_text(case) else body_line(case, complaint)


def bad_template(case: Case) -> List[str]:
    f = case.field()
    if f is None or f.tag not in (ITEM, RESULT):
        return []
    try:
        read_result(f.value) if f.tag == RESULT else read_templates(f.value[2:])
    except TemplateFault as e:
        return case.at(f.place, str(e))
    return []


def tested(case: Case) -> Iterator[Tuple[Grammar, List[str]]]:
    """What is tested for 12 and 13, and how it is named: the blocks before each text, then the whole table."""
    for a in case.grammar.texts():
        yield case.grammar.before(a.definition.block), ["so it is in the blocks before the text at %s, which is read by them" % case.where(a.result.place)]
    yield case.grammar, []


def left_recursion(case: Case) -> List[str]:
    found = next(((g, named) for g, named in tested(case) if g.left_cycle(case.a)), None)
    if found is None:
        return []
    out = []
    for f in found[0].left_cycle(case.a):
        a = case.grammar.alternative_of(f.place)
        out += case.at(f.place, "%s can begin with %s" % (case.nonterminal(a.definition.nonterminal), case.nonterminal(f.value[1])))
    cure = ["what goes on behind a term is a nonterminal of its own that takes the term as a parameter, as `termIter` of house.grammar"]
    return ["%s is the nonterminal; this is its way to itself:" % case.nonterminal(case.a)] + out + found[1] + cure


def clashing(case: Case, g: Grammar) -> List[Alternative]:
    """The alternatives that the refusal is about, in the table or in the blocks before a text."""
    own = g.productions.get(case.a, []) if case.b < FIRST_VARIABLE else []
    return [a for a in own if (g.empty(a) if case.b == EMPTY else g.own_firsts[a.field.place] >> case.b & 1)]


def clash(case: Case) -> List[str]:
    found = next(((two, named) for g, named in tested(case) for two in [clashing(case, g)] if len(two) > 1), None)
    if found is None:
        return []
    two, named = found
    if case.b > EMPTY:
        how = "can begin with a pattern place for a %s" % sort_name(case.b - FIRST_PLACE)
    else:
        how = "can be empty" if case.b == EMPTY else "can begin with " + case.kinds(1 << case.b)[0]
    out = ["these alternatives of %s %s:" % (case.nonterminal(case.a), how)]
    for a in two:
        first = (a.items or [a.result or a.field])[0]
        out += case.at(first.place, "an alternative")
    out += named
    if case.b > EMPTY:
        return out + ["one alternative of a nonterminal has a pattern place of a sort: leave one of these out"]
    if case.b == EMPTY:
        return out + ["one alternative at most is empty: give one of these a keyword of its own"]
    return out + ["let one alternative read what they share, and call a nonterminal for the rest; a phrase that stands behind a term, as `a*b`, is an",
                  "alternative of the nonterminal that goes on behind a term, as `termIter` of house.grammar"]
