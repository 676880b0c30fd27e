"""Why a field of an alternative has something undefined in it, or a wrong sort: causes 9 and 11 in words."""
from typing import List, Optional

from .case import Case
from .grammar import Alternative
from .source import counted, stand
from .table import (BINDER, BY_CODE, GLOBAL, IS_CALL, IS_KEYWORD, ITEM, LABEL, NAME, TERM, VAR, VARIABLES, Field, Template, TemplateFault,
                    read_result, read_templates, sort_name, spellings)


def templates_of(f: Field) -> List[Template]:
    try:
        if f.tag != ITEM:
            return [read_result(f.value)]
        return read_templates(f.value[2:]) if f.value[:1] == bytes([IS_CALL]) else []
    except TemplateFault:
        return []


def items_before(a: Alternative, f: Field) -> int:
    """How many items are numbered where a field stands."""
    return sum(i.place < f.place for i in a.items)


def undefined(case: Case, a: Alternative, f: Field) -> Optional[str]:
    """What a field uses that is not defined."""
    if f.tag == ITEM and f.value[0] == IS_KEYWORD:
        return "keyword %d is not defined: the table has %d" % (f.value[1], len(case.keywords))
    if f.tag == ITEM and f.value[0] == IS_CALL and case.grammar.signature(f.value[1], a.definition.block) is None:
        return undefined_nonterminal(case, f.value[1])
    count = len(case.grammar.sorts(a, items_before(a, f)))
    return next((said for t in templates_of(f) for said in [undefined_in(case, t, count)] if said), None)


def undefined_nonterminal(case: Case, number: int) -> str:
    later = [d for d in case.grammar.definitions if d.nonterminal == number]
    what = "%s is not defined in this block or an earlier one" % case.nonterminal(number)
    return what + ("; its definition at %s comes too late" % case.where(later[0].field.place) if later else "")


def undefined_in(case: Case, t: Template, count: int) -> Optional[str]:
    if t.head < VARIABLES:
        return "variable %d is not numbered here: there are %d" % (t.head, count) if t.head >= count else None
    if t.head in BY_CODE:
        return next((said for x in t.arguments for said in [undefined_in(case, x, count)] if said), None)
    names = spellings(list(case.fields.values()), NAME)
    return "outside name %d is not defined: the table has %d" % (t.name, len(names)) if t.name >= len(names) else None


def complaint(case: Case, a: Alternative, f: Field) -> Optional[str]:
    """Which sort or count of arguments is wrong in a field."""
    sorts = case.grammar.sorts(a, items_before(a, f))
    templates = templates_of(f)
    if f.tag != ITEM:
        want = "%s gives a %s" % (case.nonterminal(a.definition.nonterminal), sort_name(a.definition.result))
        return misplaced(case, a, sorts, templates[0], a.definition.result, want) if templates else None
    called = case.grammar.signature(f.value[1], a.definition.block)
    if called is None:
        return None
    return wrong_arguments(case, a, sorts, templates, called)


def wrong_arguments(case: Case, a: Alternative, sorts, templates: List[Template], called) -> Optional[str]:
    name, wanted = case.nonterminal(called.nonterminal), called.parameters
    if len(templates) != len(wanted):
        sorts_wanted = " (%s)" % " ".join(sort_name(s) for s in wanted) if wanted else ""
        return "%s takes %s%s, and here %s" % (name, counted(len(wanted), "argument"), sorts_wanted, stand(len(templates)))
    for at, (t, s) in enumerate(zip(templates, wanted), 1):
        said = misplaced(case, a, sorts, t, s, "argument %d of %s is a %s" % (at, name, sort_name(s)))
        if said:
            return said
    return None


def misplaced(case: Case, a: Alternative, sorts, t: Template, want: int, why: str) -> Optional[str]:
    """The first place in a template whose sort is not the one that is asked for."""
    have = sort_of(sorts, t)
    if have is not None and have != want and not (have == BINDER and want == VAR):
        return "%s, and here stands %s, which is %s%s" % (why, named(case, a, t), sort_name(have), hint(t, have, want))
    if t.head not in BY_CODE:
        return None
    made = BY_CODE[t.head]
    for at, (x, s) in enumerate(zip(t.arguments, made.arguments), 1):
        said = misplaced(case, a, sorts, x, s, "argument %d of %s is a %s" % (at, made.name, sort_name(s)))
        if said:
            return said
    return None


def sort_of(sorts, t: Template) -> Optional[int]:
    if t.head in BY_CODE:
        return BY_CODE[t.head].result
    if t.head < VARIABLES:
        return sorts[t.head] if t.head < len(sorts) else None
    return VAR if t.head == GLOBAL else LABEL


def named(case: Case, a: Alternative, t: Template) -> str:
    if t.head in BY_CODE:
        return BY_CODE[t.head].name
    if t.head < VARIABLES:
        return case.variable(a, t.head)
    return "global(..)" if t.head == GLOBAL else "label(..)"


def hint(t: Template, have: int, want: int) -> str:
    if want == TERM and have in (VAR, BINDER):
        return "; mkTermVar(..) makes a term of it"
    if want == BINDER and have == VAR and t.head < VARIABLES:
        return "; ide:Binder reads a word that may bind"
    return ""
