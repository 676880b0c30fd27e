"""What an author asks of a grammar without writing a program: does it pass, which phrases does it have, do its formulas give what is expected.

Every verdict is the proved program's; here it is only asked and shown.
"""
import os
import re
import subprocess
import tempfile
from typing import List, NamedTuple, Optional

from . import notation, pack
from .case import as_what
from .explain import Refusal, explain
from .grammar import Grammar
from .level import HAS_TEXTS
from .source import Trouble, counted, read_file

ROOT = os.path.dirname(os.path.dirname(os.path.dirname(os.path.abspath(__file__))))
# the causes of a table; from level 14 on those of its texts are among them
OF_TABLE = (*range(1, 14), *((26, 27, 28) if HAS_TEXTS else ()))


class NoProgram(Exception):
    """The proved program is not built."""


def program() -> str:
    path = os.path.abspath(os.environ.get("PHRASE") or os.path.join(ROOT, "target", "bin", "phrase"))
    if not os.access(path, os.X_OK):
        raise NoProgram("there is no program %s; ./build makes it" % path)
    return path


def answer(table: bytes, formula: bytes) -> str:
    """What the program writes."""
    with tempfile.TemporaryDirectory() as room:
        with open(os.path.join(room, "phrases.tab"), "wb") as f:
            f.write(table)
        out = subprocess.run([program()], cwd=room, input=formula, stdout=subprocess.PIPE, check=False).stdout
    return out.decode("latin-1").rstrip("\n")


def refusal_in(said: str) -> Optional[Refusal]:
    words = said.split()
    return Refusal(*map(int, words[1:5])) if words[:1] == ["refused"] else None


def packed_or_troubles(path: str) -> pack.Packed:
    """The table of a notation, or everything that is wrong in it, in one trouble."""
    read = notation.read_all(path)
    wrong = read.troubles or pack.troubles(read)
    if wrong:
        raise Trouble("\n".join(map(str, wrong)) + ("\n%s: %s" % (path, counted(len(wrong), "mistake")) if len(wrong) > 1 else ""))
    return pack.pack(read)


def refused(packed: pack.Packed) -> str:
    """Why the proved check refuses a table; nothing if it passes."""
    refusal = refusal_in(answer(packed.data, b""))
    return explain(packed, None, refusal) if refusal is not None and refusal.number in OF_TABLE else ""


def check(path: str) -> str:
    """One line if a grammar passes, and one on keywords that are given back; else what is wrong, all that can be told at once."""
    packed = packed_or_troubles(path)
    said = refused(packed)
    if said:
        raise Trouble(said)
    kinds = [(len(packed.nonterminals), "nonterminal"), (sum(1 for _ in phrases(notation.read(path))), "alternative")]
    warned = "".join("%s\n" % w for w in packed.warnings)
    passes = "%s: passes, with %s; %d bytes" % (path, " and ".join(counted(n, what) for n, what in kinds), len(packed.data))
    return "\n".join([warned + passes] + given_back(Grammar(packed.data)))


def given_back(grammar: Grammar) -> List[str]:
    """A line on the keywords that are given back, if there are any."""
    each = ", ".join("`%s` is %s" % (k, as_what(k)) for k in grammar.given_back().values())
    return ["no phrase that the root reaches has these keywords, and they are given back: %s" % each] if each else []


class Phrase(NamedTuple):
    nonterminal: str
    form: str
    where: str


def form_of(item: notation.Item) -> str:
    name = "%s=" % item.name.text if item.name else ""
    sort = ":" + notation.SORTS[item.sort] if item.sort is not None else ""
    return name + item.what.text + sort + ("(..)" if item.arguments else "")


def phrases(read: notation.Notation):
    """Every alternative: its nonterminal, its form, and where it is written."""
    for d in pack.all_definitions(read):
        for a in d.alternatives:
            yield Phrase(d.name.text, " ".join(map(form_of, a.items)) or "(nothing)", str(a.spot))


def standing(grammar: Grammar) -> List[str]:
    """For each alternative, in the order of the table, why no formula can use it; nothing of one that can be used."""
    reached = grammar.reached()
    left = {a.field.place: n for n, a in grammar.all_productions()}
    return ["replaced" if a.field.place not in left else "" if left[a.field.place] in reached or not reached else "not reached by the root"
            for a in grammar.alternatives]


def listing(path: str) -> str:
    """Each phrase in a line, and a line on keywords that are given back; of a grammar that cannot be packed the phrases alone."""
    read = notation.read(path)
    rows = list(phrases(read))
    grammar = None if pack.troubles(read) else Grammar(pack.pack(read).data)
    remarks = standing(grammar) if grammar else [""] * len(rows)
    wide, long = max(len(r.nonterminal) for r in rows), min(60, max(len(r.form) for r in rows))
    out = ["%-*s  %-*s  %s%s" % (wide, r.nonterminal, long, r.form, r.where, remark and "  (%s)" % remark) for r, remark in zip(rows, remarks)]
    return "\n".join(out + (given_back(grammar) if grammar else []))


def files(path: str) -> List[str]:
    """The file of a grammar and those that it uses, whether they are there and can be read or not."""
    out: List[str] = []
    ahead = [path]
    while ahead:
        file = os.path.normpath(ahead.pop(0))
        if file in out:
            continue
        out.append(file)
        text = read_file(file).decode("utf-8", "replace") if os.path.isfile(file) else ""
        ahead += [os.path.join(os.path.dirname(file), used) for used in re.findall(r"^\s*use\s+(\S+)", text, re.MULTILINE)]
    return out


class Tested(NamedTuple):
    """How many formulas were tried, and what is said of those that gave something else."""
    count: int
    failed: List[str]


class Test(NamedTuple):
    """A line of a file of tests: a formula, and the term or the refusal that is expected."""
    line: int
    formula: str
    expected: str


def read_tests(path: str, data: bytes) -> List[Test]:
    """The lines `FORMULA => TERM` or `FORMULA => refused NUMBER [A B C]`; blank lines and lines that begin with # are remarks."""
    out = []
    for number, line in enumerate(data.decode("utf-8", "replace").splitlines(), 1):
        if not line.strip() or line.startswith("#"):
            continue
        formula, arrow, expected = line.rpartition(" => ")
        if not arrow:
            raise Trouble("%s:%d: a line is `FORMULA => TERM`, or `FORMULA => refused NUMBER`" % (path, number))
        out.append(Test(number, formula, expected.strip()))
    return out


def as_expected(found: str, expected: str) -> bool:
    """Whether a term or a refusal is the one expected; `refused 17` expects any values."""
    words = expected.split()
    return found.split()[:len(words)] == words if words[:1] == ["refused"] else found == expected


def tested(path: str, tests: str) -> Tested:
    """Runs a file of tests."""
    table, failed = packed_or_troubles(path).data, []
    lines = read_tests(tests, read_file(tests))
    for number, formula, expected in lines:
        said = answer(table, formula.encode("utf-8"))
        found = said if said.startswith("refused") else said.partition("\n")[2]
        if not as_expected(found, expected):
            failed.append("%s:%d: `%s` gives\n    %s\nand expected is\n    %s" % (tests, number, formula, found, expected))
    return Tested(len(lines), failed)
