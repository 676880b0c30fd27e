"""A refusal in plain words: what it means, where it lies in the notation or in the table, and at which word of the formula.

The verdict is the proved program's. If its numbers do not belong to the table and the formula given here, the explanation says only what
the cause means.
"""
from typing import Callable, Dict, List, Optional

from . import formula_causes as formulas
from . import table_causes as tables
from . import text_causes as texts
from .case import Case, Refusal
from .causes import CAUSES
from .pack import Packed


DETAILS: Dict[int, Callable[[Case], List[str]]] = {
    1: tables.table_size, 2: tables.field_past_end, 3: tables.unknown_value, 4: tables.out_of_order, 5: tables.bad_spelling, 6: tables.too_many,
    7: tables.added_twice, 8: tables.nothing_to_extend, 9: tables.not_defined, 10: tables.bad_template, 11: tables.wrong_sort,
    12: tables.left_recursion, 13: tables.clash, 14: formulas.formula_size, 15: formulas.bad_token, 16: formulas.token_count, 17: formulas.misfit,
    18: formulas.left_over, 19: formulas.calls_open, 20: formulas.calls_open, 21: formulas.out_of_rows, 22: formulas.large_term,
    23: formulas.loose_name, 24: formulas.long_text, 25: formulas.portions, 26: texts.faulty, 27: texts.faulty, 28: texts.faulty}


def foreign(case: Case) -> List[str]:
    """What is said if nothing of the table or the formula has the values of the refusal."""
    if case.refusal.number in (14, 16, 25):
        return []
    return ["the values %d %d %d belong to nothing in what is given here: was this table refused, with this formula?" % (case.a, case.b, case.c)]


def parts(packed: Packed, formula: Optional[bytes], refusal: Refusal) -> List[str]:
    """The explanation part by part, behind the words of the cause; parts that speak of a place are of the kind Part, and say of which."""
    case = Case(packed, formula, refusal)
    return DETAILS[refusal.number](case) or foreign(case)


def told(refusal: Refusal, details: List[str]) -> str:
    """An explanation as text."""
    lines = ["refused %d: %s" % (refusal.number, CAUSES[refusal.number])]
    for part in details:
        lines += ["  " + line for line in part.split("\n")]
    return "\n".join(lines)


def explain(packed: Packed, formula: Optional[bytes], refusal: Refusal) -> str:
    return told(refusal, parts(packed, formula, refusal))
