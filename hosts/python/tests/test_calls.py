"""The library from Python: the conformance cases, lengths round every limit, nothing at all, many formulas in one call beside one by one, several threads, and
what a caller of Python can do wrong.

Usage: python3 -m unittest discover hosts/python/tests       the package is installed, or PYTHONPATH and LD_LIBRARY_PATH name its folder and the library's
"""
import os
import pickle
import re
import threading
import unittest
from array import array

from vegzump import (FORMULA_BYTES, ROW_CELLS, ROWS, STACK, TABLE_BYTES, Accepted, Comparison, Portion, Refusal, __version__, causes, check, compare, expand,
                     expand_each, expand_texts, expand_whole, portions, portions_whole)

ROOT = os.path.dirname(os.path.dirname(os.path.dirname(os.path.dirname(os.path.abspath(__file__)))))
CASES = os.environ.get("VEGZUMP_CASES") or os.path.join(ROOT, "crates", "conformance", "data", "cases.bin")


def read(*path):
    with open(os.path.join(ROOT, *path), "rb") as f:
        return f.read()


def with_stack(*tests):
    """Runs each on a thread with the stack that the header states, all at once; what else runs there has a megabyte."""
    answers, faults = [], []

    def run(test):
        try:
            answers.append(test())
        except BaseException as fault:
            faults.append(fault)

    before = threading.stack_size(STACK + (1 << 20))
    threads = [threading.Thread(target=run, args=(test,)) for test in tests]
    for thread in threads:
        thread.start()
    threading.stack_size(before)
    for thread in threads:
        thread.join()
    if faults:
        raise faults[0]
    return answers


def on_a_thread(test):
    """A test method that runs with that stack."""
    return lambda self: with_stack(lambda: test(self)) and None


def cells_of(count, value=0xAAAAAAAA):
    return array("I", [value]) * count


def numbered(table, formula, cells, text):
    """The number and the values of an answer as document 01 has them."""
    try:
        return 0, tuple(expand(table, formula, cells, text))
    except Refusal as refusal:
        return refusal.numbered()


def every_case():
    """The cases of cases.bin: table, formula, answer, and cells and text as they are owed."""
    data, at = read(CASES), 0

    def number(size):
        nonlocal at
        at += size
        return int.from_bytes(data[at - size:at], "big")

    def part():
        nonlocal at
        size = number(4)
        at += size
        return data[at - size:at]

    while at < len(data):
        table, formula, cells_lent, text_lent = part(), part(), number(4), number(4)
        owed = number(4), (number(8), number(8), number(8))
        cells, text = cells_of(cells_lent), bytearray(b"\xee" * text_lent)
        for i in range(number(4)):
            cells[i] = number(4)
        written = part()
        text[:len(written)] = written
        yield table, formula, owed, cells, text


def field(tag, value):
    return bytes([tag]) + len(value).to_bytes(2, "big") + bytes(value)


def table_of_length(length):
    """A table of so many bytes and the rows that it makes: a word `x` gives applications nested to the left with mkTermVar(x) at every end."""
    levels = (length - 30) // 3
    spare = length - 30 - 3 * levels
    template = b"\x22" * levels + b"\x20\0" * (levels + 1)
    table = b"".join([field(2, b"abc"[:1 + spare]), field(3, b""), field(4, b"\0\0\4"), field(5, b""), field(6, b"\1\1"), field(7, template), field(8, b"\0")])
    assert len(table) == length
    return table, 2 * levels + 1


# A table whose formulas are any number of words, eight at a time; the term is a lone outside name.
WORDS = b"".join([field(2, b"T"), field(3, b""), field(4, b"\0\0\4"), field(5, b""), *[field(6, b"\1\1")] * 8, field(6, b"\4\0"), field(7, b"\x08"),
                  field(5, b""), field(7, b"\x20\x10\0"), field(8, b"\0")])


class Calls(unittest.TestCase):
    def test_as_the_header_says(self):
        stated = dict(re.findall(r"^#define VEGZUMP_(\w+) (\d+)u", read("include", "vegzump.h").decode(), re.MULTILINE))
        found = [int(stated[name]) for name in ("STACK", "TABLE_BYTES", "FORMULA_BYTES", "ROWS", "ROW_CELLS")]
        self.assertEqual(found, [STACK, TABLE_BYTES, FORMULA_BYTES, ROWS, ROW_CELLS])
        self.assertIn('version = "%s"' % __version__, read("hosts", "rust", "Cargo.toml").decode())

    def conformance(self):
        count = 0
        for table, formula, owed, cells_owed, text_owed in every_case():
            cells, text = cells_of(len(cells_owed)), bytearray(b"\xee" * len(text_owed))
            self.assertEqual(numbered(table, formula, cells, text), owed, "case %d" % count)
            self.assertTrue(cells == cells_owed and text == text_owed, "room of case %d" % count)
            if owed[0] == 0:
                made, constructors, size = owed[1]
                rows = [tuple(cells[i:i + ROW_CELLS]) for i in range(0, ROW_CELLS * made, ROW_CELLS)]
                self.assertEqual(expand_whole(table, formula), (rows, constructors, text[:size].decode()), "the whole of case %d" % count)
            try:
                check(table)
                self.assertNotIn(owed[0], range(1, 14), "check of case %d" % count)
            except Refusal as refusal:
                self.assertEqual(refusal.numbered(), owed, "check of case %d" % count)
            count += 1
        return count

    def test_conformance_cases_on_several_threads(self):
        counts = with_stack(*[self.conformance] * 2)
        self.assertTrue(counts[0] > 0 and len(set(counts)) == 1)

    @on_a_thread
    def test_table_lengths(self):
        for length in range(TABLE_BYTES - 2, TABLE_BYTES + 1):
            table, made = table_of_length(length)
            check(table)
            whole = expand_whole(table, b"x")
            self.assertEqual((len(whole.rows), whole.constructors, len(whole.text)), (made, made, 12 * made))
            self.assertEqual(whole.rows[0], (0x20, (1 << 24) + 64, 0, 0))
        for length in (TABLE_BYTES + 1, TABLE_BYTES + 2, 2 * TABLE_BYTES, 65_536, 100_000):
            table = table_of_length(TABLE_BYTES)[0].ljust(length, b"\0")
            self.assertRaises(causes.TableTooLong, check, table)
            self.assertRaises(causes.TableTooLong, expand, table, b"x", cells_of(0), bytearray())

    def test_formula_lengths(self):
        for length in (FORMULA_BYTES - 1, FORMULA_BYTES, FORMULA_BYTES + 1, FORMULA_BYTES + 2, 200_000):
            cells, text = cells_of(8, 7), bytearray(b"." * 16)
            found = numbered(WORDS, b" " * length, cells, text)
            if length > FORMULA_BYTES:
                self.assertEqual((found, cells, text), ((14, (0, 0, 0)), cells_of(8, 7), b"." * 16))
            else:
                self.assertEqual((found, cells.tolist(), text), ((0, (1, 1, 12)), [0x20, 3 << 24, 0, 0, 7, 7, 7, 7], b"mkTermVar(T)...."))

    def test_token_counts(self):
        owed = {4_088: (0, (1, 1, 12)), 4_095: (17, (4_095, 1, 1)), 4_096: (0, (1, 1, 12)), 4_097: (16, (0, 0, 0)), 4_098: (16, (0, 0, 0))}
        for count, answer in owed.items():
            self.assertEqual(numbered(WORDS, "a " * count, cells_of(4), bytearray(12)), answer)

    @on_a_thread
    def test_rows_and_text_too_small(self):
        table, made = table_of_length(TABLE_BYTES)
        most, long = made * ROW_CELLS, 12 * made
        all_cells, all_text = cells_of(most, 7), bytearray(long)
        self.assertEqual(numbered(table, b"x", all_cells, all_text), (0, (made, made, long)))
        for spare in range(4):  # three spare numbers are no row
            cells, text = cells_of(most - ROW_CELLS + spare, 7), bytearray(long)
            self.assertEqual(numbered(table, b"x", cells, text), (21, (1, 0, 0)))
            self.assertEqual((cells, text), (all_cells[:most - ROW_CELLS] + cells_of(spare, 7), bytes(long)))
        for short in (1, 2, long):
            cells, text = cells_of(most, 7), bytearray(long - short)
            self.assertEqual(numbered(table, b"x", cells, text), (24, (long, 0, 0)))
            self.assertEqual((cells, text), (all_cells, bytes(long - short)))
        cells, text = cells_of((ROWS + 9) * ROW_CELLS, 7), bytearray(long + 9)  # more than is ever used
        self.assertEqual(numbered(table, b"x", cells, text), (0, (made, made, long)))
        self.assertEqual((cells, text), (all_cells + cells_of(len(cells) - most, 7), all_text + bytes(9)))

    @on_a_thread
    def test_many_formulas(self):
        """One call for many formulas answers, and leaves cells and text, as one call for each does."""
        by_table = {}
        for table, formula, *_ in every_case():
            by_table.setdefault(table, []).append(formula)
        for table, formulas in by_table.items():
            ends = [sum(map(len, formulas[:i + 1])) for i in range(len(formulas))]
            for lent in (0, 100, 1 << 16):
                cells, text, cells_owed, text_owed = cells_of(2_000), bytearray(lent), cells_of(2_000), bytearray(lent)
                owed, at = [], 0
                for formula in formulas:
                    owed.append(numbered(table, formula, cells_owed, memoryview(text_owed)[at:]))
                    at += owed[-1][1][2] if owed[-1][0] == 0 else 0
                found = expand_each(table, b"".join(formulas), ends, cells, text)
                self.assertEqual([answer.numbered() if isinstance(answer, Refusal) else (0, tuple(answer)) for answer in found], owed)
                self.assertTrue(cells == cells_owed and text == text_owed)
            for text, formula in zip(expand_texts(table, formulas), formulas):
                try:
                    self.assertEqual(text, expand_whole(table, formula).text)
                except Refusal as refusal:
                    self.assertEqual(text, refusal)

    def test_ends_of_any_kind(self):
        """Ends that go backward or lie behind the buffer, and texts that do not fit behind those before."""
        def expanded(ends, room):
            text = bytearray(b"." * room)
            answers = expand_each(WORDS, b"abcdefgh 8", ends, cells_of(4), text)
            return [0 if isinstance(answer, Accepted) else 24 for answer in answers], text.decode()

        most, long = 2**64 - 1, "mkTermVar(T)"
        self.assertEqual(expanded([], 3), ([], "..."))
        self.assertEqual(expanded([0], 13), ([0], long + "."))
        self.assertEqual(expanded([0, 0, 0], 25), ([0, 0, 24], long + long + "."))
        self.assertEqual(expanded([most, 0, most - 1, most], 48), ([24, 0, 24, 0], long + long + "." * 24))
        for end in (-1, most + 1):
            self.assertRaises(OverflowError, expanded, [end], 3)

    def test_portions_of_a_formula(self):
        """With a list that is enough, too short or longer than the numbers are, and with counts at their limits."""
        table, formula = next(every_case())[0], "{oats=80 milk=207}"
        self.assertEqual(portions_whole(table, formula, 4, 6), [Portion(80, 120, 0), Portion(207, 310, 2)])
        for lent in range(9):
            cells, numbers = cells_of(64), array("Q", [7]) * lent
            try:
                self.assertEqual(portions(table, formula, 4, 6, cells, numbers).text, 6)
                self.assertEqual(list(numbers), [80, 120, 0, 207, 310, 2] + [7] * (lent - 6))
            except causes.TextTooLong as refusal:
                self.assertEqual((refusal.needed, list(numbers), lent < 6), (6, [7] * lent, True))
        for written, wanted in ((0, 1), (1, 0), (10_001, 1), (1, 10_001), ((1 << 64) - 1, (1 << 64) - 1)):
            for given in (table, b""):
                self.assertRaises(causes.BadPortions, portions_whole, given, formula, written, wanted)
        self.assertEqual(portions_whole(table, "999999999", 10_000, 9_999), [Portion(999_999_999, 999_899_999, 1)])
        self.assertEqual(len(portions_whole(table, "{" + "".join("f%d=%d " % (n, n) for n in range(100)) + "}", 1, 1)), 100)
        self.assertRaises(OverflowError, portions_whole, table, formula, -1, 1)
        self.assertRaises(OverflowError, portions_whole, table, formula, 1, 1 << 64)
        self.assertRaises(TypeError, portions, table, formula, 1, 1, cells_of(4), array("I", [0]))

    def test_runs_that_differ_at_each_place(self):
        """Every length up to four words and a tail: equal, one byte more, and another byte at each place."""
        for length in range(40):
            words, run = length // 8, bytes((37 * at + length) % 256 for at in range(length))
            self.assertEqual(compare(run, bytearray(run)), Comparison(True, words + length % 8))
            self.assertEqual(compare(run, run + b"\0"), Comparison(False, 0))
            self.assertEqual(compare(run + b"\0", run), Comparison(False, 0))
            for at in range(length):
                other = run[:at] + bytes([run[at] ^ 128]) + run[at + 1:]
                owed = at // 8 + 1 if at < 8 * words else words + at - 8 * words + 1
                self.assertEqual(compare(run, other), Comparison(False, owed))
        self.assertEqual(compare("north_ward_oats", "north_ward_milk"), Comparison(False, 5))

    def test_nothing_at_all(self):
        self.assertRaises(causes.FieldOutOfOrder, check, b"")
        self.assertEqual(numbered(b"", b"", cells_of(0), bytearray()), (4, (0, 0, 0)))
        self.assertEqual(numbered(WORDS, b"", cells_of(0), bytearray()), (21, (0, 0, 0)))
        self.assertEqual(numbered(WORDS, b"", cells_of(4), bytearray()), (24, (12, 0, 0)))
        self.assertEqual(expand_texts(WORDS, []), [])

    def test_rooms_that_cannot_be_lent(self):
        both = bytearray(64)
        view = memoryview(both)
        for cells, text, fault in ((view[:32].cast("I"), view[31:], ValueError), (view.cast("I"), view, ValueError), (view, bytearray(9), TypeError),
                                   (bytes(16), bytearray(9), TypeError), (cells_of(4), bytes(9), TypeError), (cells_of(4), "text", TypeError),
                                   (memoryview(cells_of(8))[::2], bytearray(9), TypeError), (view.cast("I", [4, 4]), bytearray(9), TypeError)):
            self.assertRaises(fault, expand, WORDS, b"", cells, text)
            self.assertRaises(fault, expand_each, WORDS, b"", [0], cells, text)
        self.assertEqual(both, bytes(64))
        self.assertEqual(expand(WORDS, b"", view[:16].cast("I"), view[16:]), Accepted(1, 1, 12))
        self.assertEqual(both[16:29], b"mkTermVar(T)\0")

    def test_refusals(self):
        """Names, values, words; a refusal is as good as another of the same numbers, and travels between processes."""
        with self.assertRaises(causes.TokenDoesNotFit) as raised:
            expand_whole(WORDS, "a b 7")
        refusal = raised.exception
        self.assertEqual((refusal.number, refusal.token, refusal.openings, refusal.kinds), (17, 2, 1, 1))
        self.assertEqual(str(refusal), "token 2 does not fit; 1 kinds would")
        self.assertEqual(pickle.loads(pickle.dumps(refusal)), refusal)
        text = bytearray(3)
        try:
            expand(WORDS, b"", cells_of(4), text)
        except causes.TextTooLong as more:
            text.extend(bytes(more.needed))  # nothing holds the memory that was lent
        self.assertEqual(len(text), 15)
        self.assertNotEqual(refusal, causes.TokenLeftOver(2))
        self.assertNotEqual(refusal, causes.TokenDoesNotFit(2, 1, 2))
        self.assertEqual(vars(causes.TokenDoesNotFit(4, 64, 1)), {"token": 4, "openings": 64, "kinds": 1})
        with self.assertRaises(causes.BadToken) as raised:
            expand_whole(WORDS, "pur\u00e9e")
        self.assertEqual(raised.exception.offset, 3)
        self.assertEqual(sorted(cause.number for cause in Refusal.__subclasses__()), list(range(1, len(Refusal.__subclasses__()) + 1)))


if __name__ == "__main__":
    unittest.main()
