"""Where the parts of a term came from: a second reading of an accepted formula that notes for each constructor the token at which its call began."""
from typing import Any, Dict, List

from phrasebook import pack, reading
from phrasebook.grammar import Grammar
from phrasebook.reading import Fresh, Node, Reading, Token

MOST = 4000


class Noted(Reading):
    """A reading that keeps for each constructor the token at which the innermost call then open began."""

    def __init__(self, *arguments: Any):
        super().__init__(*arguments)
        self.began: Dict[int, int] = {}
        self.kept: List[Node] = []   # so that no two constructors have one identity

    def build(self, *arguments: Any) -> Any:
        made = super().build(*arguments)
        if isinstance(made, Node) and id(made) not in self.began:
            self.began[id(made)] = self.open[-1].token
            self.kept.append(made)
        return made


class Origins:
    """For each constructor from the left, up to MOST: the token where its phrase begins, and the place of its template; for each name, where it is from.
    Places are numbered as they come; `places` has the field of the table of each."""

    def __init__(self, packed: pack.Packed, formula: bytes):
        grammar = Grammar(packed.data)
        self.again = Noted(grammar, reading.scan(formula, grammar), reading.PROGRAM_ROWS)
        self.index = {t.start: i for i, t in enumerate(self.again.tokens)}
        self.began: List[int] = []
        self.made: List[int] = []
        self.names: List[List[Any]] = []
        self.places: Dict[int, int] = {}
        self.walk(self.again.whole())

    def place(self, field: int) -> int:
        return self.places.setdefault(field, len(self.places))

    def walk(self, root: Any) -> None:
        ahead = [root]
        while ahead and len(self.began) < MOST:
            part = ahead.pop()
            if isinstance(part, Node):
                self.began.append(self.again.began[id(part)])
                self.made.append(self.place(part.field.place))
                ahead += reversed(part.arguments)
            else:
                self.names.append(self.name(part))

    def name(self, part: Any) -> List[Any]:
        if isinstance(part, Token):
            return ["word", self.index[part.start]]
        return ["fresh", self.place(part.item.place)] if isinstance(part, Fresh) else ["outside", 0]
