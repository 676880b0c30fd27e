"""The causes that lie in a formula or its term, 14 to 24, and in counts of portions, in words."""
import unicodedata
from typing import Any, List, Optional, Union

from . import reading
from .case import Case, as_what
from .reading import Fresh, Reading, Stop
from .source import counted, listed
from .table import TemplateFault

LISTED_TOKENS = 12


def formula_size(case: Case) -> List[str]:
    return ["it has %d bytes" % len(case.formula)] if case.formula is not None else []


def token_count(case: Case) -> List[str]:
    return ["it has %s" % counted(len(case.tokens), "token")] if case.formula is not None else []


def bad_token(case: Case) -> List[str]:
    if case.formula is None:
        return ["at byte %d of the formula, counted from 0" % case.a]
    text = reading.token_at(case.formula, case.a)
    why = reading.fault_of(text) if text else None
    return case.place(case.a, len(text), foreign_sign(case.formula[case.a:]) or why) if why else []


def foreign_sign(rest: bytes) -> str:
    """What is said of a character outside ASCII, which has several bytes."""
    sign = next((rest[:n].decode("utf-8") for n in range(2, 5) if is_text(rest[:n])), "") if rest[0] > 126 else ""
    if not sign:
        return ""
    return "`%s` (%s) may not stand in a formula: words have the letters A to Z and a to z, digits and underscores" % (
        sign, unicodedata.name(sign, "a character without a name").lower())


def is_text(data: bytes) -> bool:
    try:
        return len(data.decode("utf-8")) == 1
    except UnicodeDecodeError:
        return False


def read_again(case: Case, rows: int) -> Union[Stop, Any]:
    """What a second reading comes to: a stop, a term, or nothing if there is no formula or no table to read it by."""
    if case.grammar.root is None or case.formula is None:
        return None
    try:
        return Reading(case.grammar, case.tokens, rows).whole()
    except Stop as s:
        return s
    except TemplateFault:
        return None


def stopped(case: Case, rows: int = reading.MOST_ROWS) -> Optional[Stop]:
    """The stop of a second reading, if it is the refusal's own."""
    s = read_again(case, rows)
    return s if isinstance(s, Stop) and (s.number, s.token) == (case.refusal.number, case.a) else None


def reading_what(case: Case, stop: Optional[Stop]) -> List[str]:
    """The item at which the reading stopped."""
    if stop is None:
        return []
    if stop.item is None:
        return ["reading %s, the root" % case.nonterminal(case.grammar.root)]
    name = case.nonterminal(stop.alternative.definition.nonterminal)
    return case.at(stop.item.place, "reading this item of %s" % name)


def tokens_of(case: Case, bits: int) -> str:
    """The tokens of a set, or as many as can be read at a glance."""
    kinds = case.kinds(bits)
    if len(kinds) > LISTED_TOKENS + 1:
        kinds = kinds[:LISTED_TOKENS] + ["%d more" % (len(kinds) - LISTED_TOKENS)]
    return listed(kinds) if kinds else "nothing"


def misfit(case: Case) -> List[str]:
    stop = stopped(case)
    said = ["expected: %s" % tokens_of(case, case.b)]
    if stop and stop.others & ~case.b:
        said.append("what stands before it could also go on with: %s" % tokens_of(case, stop.others & ~case.b))
    return case.word(case.a) + said + keyword_hint(case) + habits(case) + reading_what(case, stop)


def habits(case: Case) -> List[str]:
    """Hints at what is often meant otherwise: a number written into a word, a keyword in other letters or given back, a symbol that no phrase has."""
    out = []
    shown = [t.text.decode("ascii") for t in case.tokens[:case.a + 1]]
    for before, token in zip(case.tokens[:case.a], case.tokens[1:case.a + 1]):
        if before.text.isdigit() and token.text[:1].isalpha() and before.start + len(before.text) == token.start:
            pair = (before.text.decode("ascii"), token.text.decode("ascii"))
            out.append("`%s%s` is the number %s and the word `%s`" % (pair + pair))
    given_back = case.given_back.values()
    keywords = {k.lower(): k for i, k in enumerate(case.keywords) if i not in case.given_back}
    for token, text in zip(case.tokens, shown):
        if text in given_back:
            out.append("`%s` is %s here: it is a keyword that is given back, for no phrase that the root reaches has it" % (text, as_what(text)))
        elif token.bit == reading.WORD_BIT and text.lower() in keywords:
            out.append("`%s` is a word; the keyword is `%s`" % (text, keywords[text.lower()]))
    if case.a < len(case.tokens) and case.tokens[case.a].bit == reading.NO_BIT and shown[case.a] not in given_back:
        out.append("`%s` is no keyword of this grammar: no phrase reads it" % shown[case.a])
    return list(dict.fromkeys(out))


def keyword_hint(case: Case) -> List[str]:
    """Why a word does not fit where a word is expected."""
    token = case.tokens[case.a] if case.a < len(case.tokens) else None
    if token is None or not case.b & 1 or not token.text.isalpha() or token.bit == reading.WORD_BIT:
        return []
    return ["`%s` is a keyword of this table, and so it is no word" % token.text.decode("ascii")]


def left_over(case: Case) -> List[str]:
    stop = stopped(case)
    said = ["what stands before it is a whole formula, and it cannot go on with this token"]
    return case.word(case.a) + said + (["it could go on with: %s" % tokens_of(case, stop.others)] if stop else []) + habits(case)


def calls_open(case: Case) -> List[str]:
    stop = stopped(case)
    inner = " > ".join(case.nonterminal(c.nonterminal) for c in stop.calls[-4:]) if stop else ""
    return case.word(case.a) + (["the innermost calls open: " + inner] if inner else []) + reading_what(case, stop)


def out_of_rows(case: Case) -> List[str]:
    stop = stopped(case, reading.PROGRAM_ROWS) or stopped(case)
    return case.word(case.a) + ["the limit is the rows lent, and 16,384 at most; the program `phrase` lends 4,096"] + reading_what(case, stop)


def loose_name(case: Case) -> List[str]:
    out = ["the variable is constructor %d of the term, counted from the left from 0" % case.a]
    node = reading.node_at(read_again(case, reading.MOST_ROWS), case.a)
    if node is None or not node.arguments or not isinstance(node.arguments[0], Fresh):
        return out
    a = case.grammar.alternative_of(node.field.place)
    return out + case.at(node.field.place, "made by this template of %s" % case.nonterminal(a.definition.nonterminal)) + case.at(
        node.arguments[0].item.place, "with the name of this local: a mkTermFun with that name has to stand around it")


def large_term(case: Case) -> List[str]:
    return ["it was made of %s; a part that stands at several places counts at each" % counted(case.a, "cell")]


def long_text(case: Case) -> List[str]:
    return ["it has %s; the program `phrase` lends 65,536" % counted(case.a, "byte")]


def portions(case: Case) -> List[str]:
    return ["counts are from 1 to 10,000; neither table nor formula was looked at"]
