"""What the page is answered: grammars as text and a formula go in, the term or an explanation with the places to underline comes out.

The notation is packed and refusals are explained by tools/phrasebook; tables are checked and formulas expanded by the proved library. Nothing here judges
a table or a formula. No path of a request is ever opened: `use` finds the grammars of the folder and those that the page has changed, by their names.
"""
import os
from typing import Any, Dict, List, NamedTuple, Optional, Tuple

from phrasebook import author, notation, pack, reading
from phrasebook.case import Case, Part, Refusal
from phrasebook.causes import CAUSES
from phrasebook.explain import parts, told
from phrasebook.grammar import Grammar
from phrasebook.reading import Stop
from phrasebook.source import Texts, Trouble, counted, read_file
from phrasebook.table import TemplateFault

from . import places
from .folder import Folder
from .library import Answer, Library
from .origins import Origins

HOUSE = os.path.join(author.ROOT, "examples", "house.grammar")
FAULTS_OF_GRAMMAR = (*author.OF_TABLE, 23)
MOST_MARKS = 50


class Sheet(NamedTuple):
    """What a page shows: the name of a grammar, and the text of each grammar that it has changed, with that of this one."""
    name: str
    texts: Dict[str, str]

    @property
    def grammar(self) -> str:
        return self.texts[self.name]


class Unread(Exception):
    """A grammar that cannot be packed, with all that is wrong in it."""

    def __init__(self, troubles: List[Trouble]):
        super().__init__("\n".join(map(str, troubles)))
        self.troubles = troubles


class Engine:
    def __init__(self, library: Library, folder: Folder):
        self.library, self.folder = library, folder
        self.last: Optional[Tuple[Any, pack.Packed]] = None

    def packed(self, sheet: Sheet) -> pack.Packed:
        """The table of a sheet's grammar; the last one is kept, since most requests change the formula only."""
        texts = {**self.folder.grammars(), **{name: text.encode("utf-8", "surrogatepass") for name, text in sheet.texts.items()}}
        asked = (sheet.name, texts)
        if self.last is not None and self.last[0] == asked:
            return self.last[1]
        read = notation.read_all(sheet.name, Texts(texts))
        troubles = read.troubles or pack.troubles(read)
        if troubles:
            raise Unread(troubles)
        made = pack.pack(read)
        self.last = (asked, made)
        return made

    def expand(self, sheet: Sheet, formula_text: str) -> Dict[str, Any]:
        """The term of a formula; or why there is none, with marks where it lies."""
        formula = formula_text.encode("utf-8", "surrogatepass")
        try:
            packed = self.packed(sheet)
        except Unread as e:
            return unread(sheet, e.troubles)
        answer, term = self.library.expand(packed.data, formula)
        out = refused(sheet, packed, formula, answer) if answer.number else {"stage": "done", "answer": answer, "text": term, "marks": []}
        out["table"] = len(packed.data)
        out["notes"] = [w.message for w in packed.warnings]
        if out["stage"] != "table":
            # All bytes before the first that is no token's are ASCII, so these offsets are the browser's too.
            out["tokens"] = [(t.start, t.start + len(t.text)) for t in reading.scan(formula, Grammar(packed.data))]
        return out

    def origins(self, sheet: Sheet, formula_text: str) -> Dict[str, Any]:
        """Where each part of a term came from. Asked for when someone points at the term, so that typing does not wait for a second reading."""
        formula = formula_text.encode("utf-8", "surrogatepass")
        try:
            packed = self.packed(sheet)
            if self.library.expand(packed.data, formula)[0].number:
                return {}
            found = Origins(packed, formula)
        except (Unread, Stop, TemplateFault):
            return {}
        marks = [places.of_spot(sheet.name, sheet.grammar, packed.spots[p], "") for p in found.places]
        return {"began": found.began, "made": found.made, "names": found.names, "places": marks}

    def tests(self, sheet: Sheet, tests: List[Dict[str, str]]) -> Dict[str, Any]:
        """What each formula of a list gives, and whether that is expected; nothing expected is no verdict."""
        try:
            packed = self.packed(sheet)
        except Unread as e:
            return {"trouble": str(e), "results": []}
        return {"results": [self.test(packed, t["formula"], " ".join(t["expected"].split())) for t in tests]}

    def test(self, packed: pack.Packed, formula: str, expected: str) -> Dict[str, Any]:
        answer, term = self.library.expand(packed.data, formula.encode("utf-8", "surrogatepass"))
        found = "refused %d %d %d %d" % answer if answer.number else term
        return {"got": found, "same": author.as_expected(found, expected) if expected else None, "why": CAUSES.get(answer.number, "")}

    def house(self, formula: str, expected: str) -> Dict[str, Any]:
        """Reads the page's own printing of a term back, as a formula of the house."""
        return self.test(house_table(), formula, expected)


def house_table() -> pack.Packed:
    name = os.path.basename(HOUSE)
    return pack.pack(notation.read(name, Texts({name: read_file(HOUSE)})))


def unread(sheet: Sheet, troubles: List[Trouble]) -> Dict[str, Any]:
    """The answer to a grammar that has no table."""
    marks = [dict(places.of_spot(sheet.name, sheet.grammar, t.spot, t.message), fault=True) for t in troubles[:MOST_MARKS] if t.spot]
    title = "The grammar cannot be read" + (": %s" % counted(len(troubles), "mistake") if len(troubles) > 1 else "")
    said = [line for t in troubles[:MOST_MARKS] for line in ([str(t.spot) + ": " + t.message, t.spot.marked()] if t.spot else [t.message])]
    return {"stage": "notation", "title": title, "said": said, "text": "\n".join(map(str, troubles)), "marks": marks}


def refused(sheet: Sheet, packed: pack.Packed, formula: bytes, answer: Answer) -> Dict[str, Any]:
    """The answer to a refusal. Places of the grammar are at fault if the cause is the grammar's; else they only tell what was being read."""
    refusal = Refusal(*answer)
    details = parts(packed, formula, refusal)
    fault, marks = answer.number in FAULTS_OF_GRAMMAR, []
    for p in details:
        if isinstance(p, Part) and p.field in packed.spots:
            marks.append(dict(places.of_spot(sheet.name, sheet.grammar, p.spot or packed.spots[p.field], p.said), fault=fault))
        if isinstance(p, Part) and p.stretch is not None:
            marks.append(dict(places.of_stretch(formula, p.stretch, p.said), fault=True))
    return {"stage": "table" if answer.number in author.OF_TABLE else "formula", "title": CAUSES[answer.number], "said": details,
            "text": told(refusal, details), "marks": marks, "answer": answer}


def kinds(packed: pack.Packed) -> List[str]:
    """The names of the kinds of tokens, by their bits."""
    count = 2 + len(Case(packed, None, Refusal(0, 0, 0, 0)).keywords)
    return Case(packed, None, Refusal(0, 0, 0, 0)).kinds((1 << count) - 1)
