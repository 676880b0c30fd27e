"""Calls of the proved phrase expander.

A phrase table and a formula go in; a core term comes out, as rows of cells and as text, with every variable belonging to the binder that its origin calls for.
What the calls answer and write is proved for every input; that the declarations below fit the library is tested.

    import vegzump
    with open("phrases.tab", "rb") as f:
        table = f.read()
    try:
        print(vegzump.expand_whole(table, "fun(p)p(b)").text)
    except vegzump.Refusal as refusal:
        print("refused:", refusal)

Tables and formulas are bytes; a formula may be a str, of which the UTF-8 bytes are taken. The calls keep nothing between them and may run on several threads
at once. They use up to STACK bytes of stack at the worst: a thread that may meet the largest terms is given that and what it needs itself
(threading.stack_size).
"""
import ctypes
import os
from array import array
from typing import Iterable, List, NamedTuple, Sequence, Tuple, Union

from . import causes
from .refusal import Refusal, refusal

__all__ = ["check", "compare", "expand", "expand_each", "expand_texts", "expand_whole", "portions", "portions_whole", "causes", "Refusal", "Accepted",
           "Comparison", "Expansion", "Portion", "STACK", "TABLE_BYTES", "FORMULA_BYTES", "ROWS", "ROW_CELLS"]

# Bytes of stack that a call takes at the worst.
STACK = 3_670_016

# The longest table and formula that are not refused for their length.
TABLE_BYTES = 16_384
FORMULA_BYTES = 65_535

# The most rows that an expansion makes, and the numbers in a row.
ROWS = 16_384
ROW_CELLS = 4

Bytes = Union[bytes, bytearray, memoryview, str]


class Accepted(NamedTuple):
    """What an accepted formula gave: rows of cells made, unused ones too; constructors of the term, those of a shared part at each of its places; bytes of
    text, or for `portions` 64-bit numbers of the list."""
    cells: int
    constructors: int
    text: int


class Expansion(NamedTuple):
    """A whole expansion in memory of its own."""
    rows: List[Tuple[int, ...]]
    constructors: int
    text: str


class Portion(NamedTuple):
    """A number of a formula's term for another count of portions: grams * written + remainder == number * wanted, and remainder < written."""
    number: int
    grams: int
    remainder: int


class Comparison(NamedTuple):
    """Whether two runs of bytes are equal, and how many comparisons it took to tell."""
    equal: bool
    count: int


class _Answer(ctypes.Structure):
    _fields_ = [("number", ctypes.c_uint8), ("a", ctypes.c_uint64), ("b", ctypes.c_uint64), ("c", ctypes.c_uint64)]


class _Comparison(ctypes.Structure):
    _fields_ = [("equal", ctypes.c_uint8), ("count", ctypes.c_uint64)]


_READ = [ctypes.c_char_p, ctypes.c_size_t]
_LENT = [ctypes.c_void_p, ctypes.c_size_t]


def _library(kind):
    """The shared object beside this file, where pip puts it, or else the one that the system's linker finds."""
    beside = os.path.join(os.path.dirname(os.path.abspath(__file__)), "libvegzump.so")
    library = kind(beside if os.path.exists(beside) else "libvegzump.so.0")
    library.vegzump_check.restype, library.vegzump_check.argtypes = _Answer, _READ
    library.vegzump_expand.restype, library.vegzump_expand.argtypes = _Answer, 2 * _READ + 2 * _LENT
    library.vegzump_expand_each.restype, library.vegzump_expand_each.argtypes = ctypes.c_size_t, 2 * _READ + 4 * _LENT
    library.vegzump_compare.restype, library.vegzump_compare.argtypes = _Comparison, 2 * _READ
    library.vegzump_portions.restype, library.vegzump_portions.argtypes = _Answer, 2 * _READ + 2 * [ctypes.c_uint64] + 2 * _LENT
    return library


# Other threads of Python run during a call of _free, and none does during one of _alone: it is for memory of the caller's, which nobody may touch meanwhile.
_free, _alone = _library(ctypes.CDLL), _library(ctypes.PyDLL)
__version__ = (ctypes.c_char * 32).in_dll(_free, "vegzump_version").value.decode()


def _read(given):
    """What is only read, as a pointer and a length. What could change meanwhile is copied."""
    held = given.encode() if isinstance(given, str) else bytes(given)
    return held, len(held)


def _lent(room, size):
    """Memory that is lent, of numbers of so many bytes each, held as long as the array is."""
    view = memoryview(room)
    if view.itemsize != size or view.ndim != 1:
        raise TypeError("lent is one row of numbers of %d bytes each, such as array('%s')" % (size, {1: "B", 4: "I", 8: "Q"}[size]))
    return ({1: ctypes.c_uint8, 4: ctypes.c_uint32, 8: ctypes.c_uint64}[size] * len(view)).from_buffer(room)


def _rooms(cells, text, size=1):
    """Cells and a text, or a list, of a caller as arrays, which have no byte in common."""
    rooms = _lent(cells, 4), _lent(text, size)
    starts = [ctypes.addressof(room) for room in rooms]
    if max(starts) < min(start + ctypes.sizeof(room) for start, room in zip(starts, rooms)):
        raise ValueError("cells and text overlap")
    return rooms


def _answer(number, a, b, c):
    """What an expansion answered: Accepted or a Refusal."""
    return Accepted(a, b, c) if number == 0 else refusal(number, a, b, c)


def _taken(answer):
    """The answer, if it is no refusal; a refusal is raised."""
    if isinstance(answer, Refusal):
        raise answer
    return answer


def check(table: Bytes) -> None:
    """Checks a phrase table. Raises a Refusal with one of the numbers 1 to 13 if it does not pass."""
    found = _free.vegzump_check(*_read(table))
    if found.number:
        raise refusal(found.number, found.a, found.b, found.c)


def _expanded(library, table, formula, cells, text):
    found = library.vegzump_expand(*_read(table), *_read(formula), cells, len(cells), text, len(text))
    return _answer(found.number, found.a, found.b, found.c)


def expand(table: Bytes, formula: Bytes, cells, text) -> Accepted:
    """Checks the table, expands the formula into `cells`, ROW_CELLS numbers a row, and prints its term into `text`. Raises a Refusal.

    `cells` is an array('I') or another writable buffer of 32-bit numbers, `text` a bytearray or another of bytes. Rows are written from the front, and
    those made stay when a later step refuses. The text is written on acceptance only. All that lies past what is written is as it was.
    """
    return _taken(_expanded(_alone, table, formula, *_rooms(cells, text)))


def _each(library, table, formulas, ends, cells, text):
    ends = array("Q", ends)
    answers = (ctypes.c_uint64 * (4 * len(ends)))()
    library.vegzump_expand_each(*_read(table), *_read(formulas), ends.buffer_info()[0], len(ends), answers, len(answers), cells, len(cells), text, len(text))
    return [_answer(*answers[4 * i:4 * i + 4]) for i in range(len(ends))]


def expand_each(table: Bytes, formulas: Bytes, ends: Sequence[int], cells, text) -> List[Union[Accepted, Refusal]]:
    """Expands many formulas under one table, which is checked once. Each answers and writes what `expand` gives with what it is lent here.

    Formula i is the bytes of `formulas` from ends[i - 1], or 0 for the first, to ends[i], as far as there are any. All are lent `cells`, each as the one
    before left them, and each the part of `text` behind the texts of those accepted before it, which lie one behind the other from the front. A text longer
    than what is left is refused and takes no room. There are as many answers as ends; a refusal is among them and is not raised.
    """
    return _each(_alone, table, formulas, ends, *_rooms(cells, text))


# As many formulas as one call of the library is handed.
_AT_ONCE = 256


def expand_texts(table: Bytes, formulas: Iterable[Bytes]) -> List[Union[str, Refusal]]:
    """The texts of many formulas under one table, in their order, with as much room as each needs: TextTooLong is never among them, and NoRow only past
    ROWS. The table is checked once for many of them. A refusal is among the texts and is not raised."""
    held = [_read(formula)[0] for formula in formulas]
    cells, text = (ctypes.c_uint32 * (ROWS * ROW_CELLS))(), (ctypes.c_uint8 * 65_536)()
    texts = []
    while len(texts) < len(held):
        ahead, ends, at = held[len(texts):len(texts) + _AT_ONCE], [], 0
        for formula in ahead:
            ends.append(len(formula) + (ends[-1] if ends else 0))
        for answer in _each(_free, table, b"".join(ahead), ends, cells, text):
            if isinstance(answer, causes.TextTooLong):  # the formula is the first of the next call, with more room
                text = (ctypes.c_uint8 * max(answer.needed, 2 * len(text)))()
                break
            if isinstance(answer, Accepted):
                texts.append(bytes(text[at:at + answer.text]).decode("ascii"))
                at += answer.text
            else:
                texts.append(answer)
    return texts


def expand_whole(table: Bytes, formula: Bytes) -> Expansion:
    """Expands with as much room as the formula needs, so that no refusal is for want of room: TextTooLong never, NoRow only past ROWS. Raises a Refusal."""
    cells, text = (ctypes.c_uint32 * (ROWS * ROW_CELLS))(), (ctypes.c_uint8 * 4_096)()
    answer = _expanded(_free, table, formula, cells, text)
    if isinstance(answer, causes.TextTooLong):
        text = (ctypes.c_uint8 * answer.needed)()
        answer = _expanded(_free, table, formula, cells, text)
    accepted = _taken(answer)
    numbers = iter(cells[:ROW_CELLS * accepted.cells])
    return Expansion(list(zip(*[numbers] * ROW_CELLS)), accepted.constructors, bytes(text[:accepted.text]).decode("ascii"))


def _listed(library, table, formula, written, wanted, cells, numbers):
    if min(written, wanted) < 0 or max(written, wanted) >= 1 << 64:
        raise OverflowError("a count of portions is a number of 64 bits")
    found = library.vegzump_portions(*_read(table), *_read(formula), written, wanted, cells, len(cells), numbers, len(numbers))
    return _answer(found.number, found.a, found.b, found.c)


def portions(table: Bytes, formula: Bytes, written: int, wanted: int, cells, numbers) -> Accepted:
    """Expands the formula as `expand` does, and writes into `numbers`, in place of its text, the numbers of its term for another count of portions: three for
    each number, from the left and at each of its places: itself, the whole grams and the remainder. Raises a Refusal.

    `numbers` is an array('Q') or another writable buffer of 64-bit numbers. It is written on acceptance only; TextTooLong tells how many it needs, and a count of
    portions that is 0 or over 10,000 is BadPortions, before the table is looked at.
    """
    return _taken(_listed(_alone, table, formula, written, wanted, *_rooms(cells, numbers, 8)))


def portions_whole(table: Bytes, formula: Bytes, written: int, wanted: int) -> List[Portion]:
    """All numbers of a formula's term for another count of portions, with as much room as the formula needs. Raises a Refusal."""
    cells, numbers = (ctypes.c_uint32 * (ROWS * ROW_CELLS))(), (ctypes.c_uint64 * (3 * 64))()
    answer = _listed(_free, table, formula, written, wanted, cells, numbers)
    if isinstance(answer, causes.TextTooLong):
        numbers = (ctypes.c_uint64 * answer.needed)()
        answer = _listed(_free, table, formula, written, wanted, cells, numbers)
    entries = iter(numbers[:_taken(answer).text])
    return [Portion(*entry) for entry in zip(*[entries] * 3)]


def compare(a: Bytes, b: Bytes) -> Comparison:
    """Compares two runs of any bytes as spellings are compared: words of eight bytes from the front, then the tail of fewer than eight byte by byte. Each is one
    comparison. If the lengths differ there is none, else `count` has all up to and with the first that fails."""
    found = _free.vegzump_compare(*_read(a), *_read(b))
    return Comparison(found.equal != 0, found.count)
