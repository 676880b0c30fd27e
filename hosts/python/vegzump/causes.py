"""The causes of refusal, written by tests/causes from causes.txt."""
from .refusal import Refusal


class TableTooLong(Refusal):
    """1: the table has more than 16,384 bytes."""
    number, names = 1, ()
    message = "the table is longer than 16,384 bytes"


class FieldPastEnd(Refusal):
    """2: a field of the table runs past its end; a place."""
    number, names = 2, ('place',)
    message = "the field at byte {place} of the table runs past its end"


class UnknownField(Refusal):
    """3: a tag, a length or a value that is not known; a place."""
    number, names = 3, ('place',)
    message = "the field at byte {place} of the table has an unknown tag, length or value"


class FieldOutOfOrder(Refusal):
    """4: a field is out of order, or missing; a place."""
    number, names = 4, ('place',)
    message = "a field is missing or out of order at byte {place} of the table"


class BadSpelling(Refusal):
    """5: a keyword or outside name is badly spelled, or stands twice; a place."""
    number, names = 5, ('place',)
    message = "the spelling at byte {place} of the table is bad or repeated"


class TooMany(Refusal):
    """6: more keywords, names, blocks, alternatives or items than allowed; a place."""
    number, names = 6, ('place',)
    message = "the field at byte {place} of the table is one too many"


class NumberInUse(Refusal):
    """7: a nonterminal is added that is defined already; a place."""
    number, names = 7, ('place',)
    message = "the definition at byte {place} of the table adds a nonterminal in use"


class BadExtension(Refusal):
    """8: nothing to extend or update: defined in this block, not defined earlier, or with another signature; a place."""
    number, names = 8, ('place',)
    message = "the definition at byte {place} of the table extends or updates no earlier one of its signature"


class Undefined(Refusal):
    """9: something is used that is not defined: nonterminal, keyword, name, variable; a place."""
    number, names = 9, ('place',)
    message = "the field at byte {place} of the table uses something undefined"


class BadTemplate(Refusal):
    """10: a template is cut, has bytes left over or an unknown byte; a place."""
    number, names = 10, ('place',)
    message = "the template at byte {place} of the table is cut, too long or has an unknown byte"


class WrongSort(Refusal):
    """11: a sort or a count of arguments is wrong; the root has parameters or is no Term; a place."""
    number, names = 11, ('place',)
    message = "the field at byte {place} of the table has a wrong sort or count of arguments"


class LeftRecursion(Refusal):
    """12: left recursion: a nonterminal reaches itself before any token is read; a lowest such nonterminal."""
    number, names = 12, ('nonterminal',)
    message = "nonterminal {nonterminal} is left recursive"


class Ambiguous(Refusal):
    """13: two alternatives share a token that they can begin with, or both can be empty; a nonterminal, b lowest shared bit (64: both empty)."""
    number, names = 13, ('nonterminal', 'bit')
    message = "two alternatives of nonterminal {nonterminal} share opening {bit} (64: both can be empty)"


class FormulaTooLong(Refusal):
    """14: the formula has more than 65,535 bytes."""
    number, names = 14, ()
    message = "the formula is longer than 65,535 bytes"


class BadToken(Refusal):
    """15: a byte that may not stand in a formula, a word over 31 bytes, a number over 999,999,999; a offset of its start."""
    number, names = 15, ('offset',)
    message = "a bad byte, long word or large number at byte {offset} of the formula"


class TooManyTokens(Refusal):
    """16: more than 4,096 tokens."""
    number, names = 16, ()
    message = "the formula has more than 4,096 tokens"


class TokenDoesNotFit(Refusal):
    """17: a token does not fit; a token, b what would have fitted at the item where the run stopped (bit 0 a word, bit 1 a number, bit k + 2 keyword
    k), c how many kinds that is."""
    number, names = 17, ('token', 'openings', 'kinds')
    message = "token {token} does not fit; {kinds} kinds would"


class TokenLeftOver(Refusal):
    """18: a token is left over behind a whole formula; a token."""
    number, names = 18, ('token',)
    message = "token {token} is left over"


class TooManyOpenCalls(Refusal):
    """19: nested too deeply: a call when 1,024 are open; a token."""
    number, names = 19, ('token',)
    message = "more than 1,024 open calls at token {token}"


class TooManyCalls(Refusal):
    """20: more than 65,536 calls; a token."""
    number, names = 20, ('token',)
    message = "more than 65,536 calls at token {token}"


class NoRow(Refusal):
    """21: no row is left for the next cell, or 16,384 are made; a token."""
    number, names = 21, ('token',)
    message = "no row is left for the next cell at token {token}"


class TermTooLarge(Refusal):
    """22: the term has more than 16,384 constructors; a cells made."""
    number, names = 22, ('cells',)
    message = "the term of {cells} cells has more than 16,384 constructors"


class LooseFreshVariable(Refusal):
    """23: a fresh name is a variable under no binder made with it; a its place among the constructors, from the left, from 0."""
    number, names = 23, ('constructor',)
    message = "constructor {constructor} is a fresh variable under no binder of its own"


class TextTooLong(Refusal):
    """24: the text, or the list in its place, is longer than its buffer; a length needed."""
    number, names = 24, ('needed',)
    message = "the text needs {needed} bytes, or the list {needed} numbers"


class BadPortions(Refusal):
    """25: a count of portions is 0 or over 10,000."""
    number, names = 25, ()
    message = "a count of portions is 0 or over 10,000"
