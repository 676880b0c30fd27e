"""From a notation to the bytes of its table.

What has no bytes is refused here, with its spot: an unknown name, a wrong count of a constructor's arguments. All else is packed as it is
written and judged by the proved check.
"""
import re
from typing import Dict, List, Mapping, NamedTuple, Optional, Sequence, Set

from . import notation
from .notation import Alternative, Definition, Item, Notation, Token
from .source import DISK, Disk, Spot, Trouble, counted, listed, near, stand
from .table import (ALTERNATIVE, BINDER, BLOCK, BY_NAME, DEFINITION, GLOBAL, IS_CALL, IS_IDE, IS_KEYWORD, IS_LOCAL, IS_NUMBER, IS_PLACE, ITEM,
                    KEYWORD, LABEL, NAME, OUTSIDE_LABEL, RESULT, ROOT, SORTS, TEXT, VAR, VARIABLES, encode)

NUMBERED = re.compile(r"n(0|[1-9]\d{0,2})")
# a text's parts: a variable by its name, a byte by its digits, any other sign
TEXT_PART = re.compile(r"\$(?P<name>[A-Za-z][A-Za-z0-9_]*)|\\(?P<byte>[0-9A-Fa-f]{2})|.")
OTHER_ITEMS = {"number": IS_NUMBER, "local": IS_LOCAL}


class Packed(NamedTuple):
    """A table with what its bytes leave out: where each field was written, the names of nonterminals and of each alternative's variables; the files that its
    notation was read from; and for the place of each text where its bytes were written."""
    data: bytes
    spots: Dict[int, Spot]
    nonterminals: Dict[int, str]
    variables: Dict[int, Dict[int, str]]
    warnings: Sequence[Trouble] = ()
    files: Disk = DISK
    texts: Mapping[int, Sequence[Spot]] = {}


def spelled(keyword: Token) -> str:
    return keyword.text[1:-1]


def all_definitions(n: Notation) -> List[Definition]:
    return [d for b in n.blocks for d in b.definitions]


def keywords_of(n: Notation) -> List[Token]:
    """Those listed, in order, then the others as they first appear."""
    items = [i.what for d in all_definitions(n) for a in d.alternatives for i in a.items if i.what.is_keyword()]
    known = {spelled(k) for k in n.keywords}
    out = list(n.keywords)
    for k in items:
        if spelled(k) not in known:
            known.add(spelled(k))
            out.append(k)
    return out


def numbers_of(n: Notation) -> Dict[str, int]:
    """nK is nonterminal K; the others get the numbers that are left, in the order of their definitions."""
    names = list(dict.fromkeys(d.name.text for d in all_definitions(n)))
    fixed = {name: int(m.group(1)) for name in names for m in [NUMBERED.fullmatch(name)] if m and int(m.group(1)) < 256}
    left = iter(sorted(set(range(256)) - set(fixed.values())))
    out = dict(fixed)
    for d in all_definitions(n):
        if d.name.text not in out:
            number = next(left, None)
            if number is None:
                raise Trouble("more than 256 nonterminals have no place in a table (and 64 are allowed)", d.name.spot)
            out[d.name.text] = number
    return out


def check_names(parameters: List[str], a: Alternative) -> None:
    """The variables of an alternative have different names."""
    known = set(parameters)
    for name in [i.name for i in a.items if i.name is not None]:
        if name.text in known:
            raise Trouble("this alternative has a variable `%s` already" % name.text, name.spot)
        known.add(name.text)


def defined_beside(files: Disk, path: str, name: str) -> str:
    """A hint at a grammar in the same folder that adds this nonterminal."""
    adds = re.compile(r"^\s*%s\s*(\([^)]*\))?\s*:\s*\w+\s*==" % re.escape(name), re.MULTILINE)
    for other in files.others(path):
        try:
            text = files.read(other).decode("utf-8", "replace")
        except Trouble:
            continue
        if adds.search(text):
            name = other.rpartition("/")[2]
            return "; %s has it: a line `use %s` takes it over" % (name, name)
    return ""


def place_sort(sorts: List[int], at: int) -> Optional[int]:
    return sorts[at] if at < len(sorts) else None


class Packer:
    def __init__(self, n: Notation):
        self.notation = n
        self.keywords = keywords_of(n)
        self.keyword_numbers = {spelled(k): i for i, k in reversed(list(enumerate(self.keywords)))}
        self.names = [t.text for t in n.names]
        self.numbers = numbers_of(n)
        self.parameters: Dict[str, List[int]] = {}
        for d in all_definitions(n):
            self.parameters.setdefault(d.name.text, [s for _, s in d.parameters])
        self.data, self.spots, self.variables, self.texts = bytearray(), {}, {}, {}
        self.warnings: List[Trouble] = []
        self.troubles: List[Trouble] = []

    def pack(self) -> Packed:
        for k in self.keywords:
            self.put(KEYWORD, spelled(k).encode("utf-8"), k.spot)
        for t in self.notation.names:
            self.put(NAME, t.text.encode("utf-8"), t.spot)
        for block in self.notation.blocks:
            self.put(BLOCK, b"", block.spot)
            for d in block.definitions:
                self.definition(d)
        if self.notation.root is not None:
            self.put(ROOT, bytes([self.nonterminal(self.notation.root)]), self.notation.root.spot)
        names = {v: k for k, v in self.numbers.items()}
        return Packed(bytes(self.data), self.spots, names, self.variables, self.warnings, self.notation.files, self.texts)

    def put(self, tag: int, value: bytes, spot: Spot) -> None:
        if len(value) > 0xFFFF:
            raise Trouble("this needs %d bytes, and a field of a table has room for 65,535" % len(value), spot)
        self.spots[len(self.data)] = spot
        self.data += encode(tag, value)

    def byte(self, number: int, what: str, spot: Spot) -> int:
        if number > 0xFF:
            raise Trouble("this is %s %d, and a table has one byte for its number" % (what, number), spot)
        return number

    def beside(self, name: str) -> str:
        return defined_beside(self.notation.files, self.notation.path, name)

    def nonterminal(self, token: Token) -> int:
        if token.text in self.numbers:
            return self.numbers[token.text]
        hint = near(token.text, self.numbers) or self.beside(token.text)
        raise Trouble("`%s` is no nonterminal of this grammar%s" % (token.text, hint), token.spot)

    def definition(self, d: Definition) -> None:
        self.put(DEFINITION, bytes([self.nonterminal(d.name), d.mode, d.result] + [s for _, s in d.parameters]), d.name.spot)
        for a in d.alternatives:
            try:
                self.alternative(d, a)
            except Trouble as e:
                self.troubles.append(e)

    def alternative(self, d: Definition, a: Alternative) -> None:
        variables = {name.text: i for i, (name, _) in enumerate(d.parameters)}
        check_names(list(variables), a)
        place, count = len(self.data), len(variables)
        self.put(ALTERNATIVE, b"", a.spot)
        for item in a.items + self.last_call(a, variables):
            self.put(ITEM, self.item(d, a, item, variables), item.spot)
            if item.name is not None:
                variables[item.name.text] = count
            count += 1
        if a.result.text is not None:
            self.text(a.result, variables)
        elif self.is_last_call(a, variables):
            self.put(RESULT, bytes([self.variable(count - 1, a.result.head)]), a.result.spot)
        else:
            self.put(RESULT, self.template(a.result, variables), a.result.spot)
        self.variables[place] = {i: name for name, i in variables.items()}

    def text(self, t: notation.Template, variables: Dict[str, int]) -> None:
        """A result as a text: its nonterminal, and the bytes of the text, with where each of them stands."""
        value, spots = bytearray([self.nonterminal(t.head)]), []
        for at, piece in enumerate(t.text.pieces):
            if at:
                value += b"\n"
                spots.append(piece._replace(width=1))
            written = piece.text[piece.column - 1:piece.column - 1 + piece.width]
            for m in TEXT_PART.finditer(written):
                spot = piece._replace(column=piece.column + m.start(), width=len(m.group()))
                part = self.text_part(m, spot, variables)
                value += part
                spots += [spot] * len(part)
        self.texts[len(self.data)] = spots
        self.put(TEXT, bytes(value), t.spot)

    def text_part(self, m: "re.Match[str]", spot: Spot, variables: Dict[str, int]) -> bytes:
        name, byte = m.group("name"), m.group("byte")
        if byte is not None:
            return bytes([int(byte, 16)])
        if name is None:
            if m.group() == "\\":
                raise Trouble("behind a backslash in a text stand the two hex digits of a byte; \\5c is a backslash", spot)
            return m.group().encode("utf-8")
        if name not in variables:
            hint = near(name, variables) or ("; the outside name is written without `$`" if name in self.names else "")
            raise Trouble("`$%s` is no variable of this alternative%s" % (name, hint), spot)
        return b"$%d" % variables[name]

    def is_last_call(self, a: Alternative, variables: Dict[str, int]) -> bool:
        head = a.result.head
        declared = set(variables) | {i.name.text for i in a.items if i.name is not None}
        return a.result.text is None and head.text not in declared and head.text not in notation.RESERVED and head.text in self.numbers

    def last_call(self, a: Alternative, variables: Dict[str, int]) -> List[Item]:
        """A nonterminal as the result is one more item."""
        if not self.is_last_call(a, variables):
            return []
        name = a.result.head.text
        if not a.result.arguments and any(i.what.text == name and i.name is None and not i.arguments for i in a.items):
            self.warnings.append(Trouble("this result reads one more `%s` behind the items; to give the one that stands among them, name it: `a=%s => a`"
                                         % (name, name), a.result.spot))
        return [Item(a.result.spot, None, a.result.head, None, a.result.arguments or [])]

    def item(self, d: Definition, a: Alternative, item: Item, variables: Dict[str, int]) -> bytes:
        what = item.what
        if what.is_keyword():
            return bytes([IS_KEYWORD, self.byte(self.keyword_numbers[spelled(what)], "keyword", what.spot)])
        if what.text == "ide":
            return bytes([IS_IDE, self.ide_sort(d, a, item) if item.sort is None else item.sort])
        if what.text == "pIde":
            return bytes([IS_PLACE, item.sort])
        if what.text in OTHER_ITEMS:
            return bytes([OTHER_ITEMS[what.text], 0])
        if what.text not in self.numbers:
            hint = (near(what.text, list(self.numbers) + ["ide", "number", "local"]) or self.beside(what.text)
                    or '; a keyword stands in quotes, as "%s"' % what.text)
            raise Trouble("`%s` is no nonterminal of this grammar%s" % (what.text, hint), what.spot)
        arguments = b"".join(self.template(t, variables) for t in item.arguments)
        return bytes([IS_CALL, self.nonterminal(what)]) + arguments

    def template(self, t: notation.Template, variables: Dict[str, int]) -> bytes:
        name = t.head.text
        if name in BY_NAME:
            return self.constructor(t, variables)
        if name in ("global", "label") and t.arguments is not None:
            return self.outside(t)
        if name not in variables:
            raise self.unknown(t, variables)
        if t.arguments is not None:
            raise Trouble("`%s` is a variable and takes no arguments" % name, t.head.spot)
        return bytes([self.variable(variables[name], t.head)])

    def unknown(self, t: notation.Template, variables: Dict[str, int]) -> Trouble:
        name = t.head.text
        if name in self.numbers:
            hint = "give it a name among the items, as `x=%s`" % name
            return Trouble("the nonterminal `%s` cannot stand inside a result or an argument: %s" % (name, hint), t.head.spot)
        if name in self.names:
            return Trouble("`%s` is an outside name: write global(%s), or label(%s) where a label is meant" % (name, name, name), t.head.spot)
        what = "constructor" if t.arguments is not None else "variable of this alternative"
        return Trouble("`%s` is no %s%s" % (name, what, near(name, list(variables) + list(BY_NAME) + list(self.numbers))), t.head.spot)

    def variable(self, number: int, head: Token) -> int:
        if number >= VARIABLES:
            raise Trouble("this is variable %d of its alternative, and a template can name 0 to 15 (12 items are allowed)" % number, head.spot)
        return number

    def constructor(self, t: notation.Template, variables: Dict[str, int]) -> bytes:
        made, arguments = BY_NAME[t.head.text], t.arguments or []
        if len(arguments) != len(made.arguments):
            raise Trouble("%s has %s, and here %s" % (made.signature(), counted(len(made.arguments), "argument"), stand(len(arguments))), t.head.spot)
        return bytes([made.code]) + b"".join(self.template(x, variables) for x in arguments)

    def outside(self, t: notation.Template) -> bytes:
        kind = GLOBAL if t.head.text == "global" else OUTSIDE_LABEL
        if len(t.arguments) != 1 or t.arguments[0].arguments is not None:
            raise Trouble("%s takes one outside name, as in %s(T)" % (t.head.text, t.head.text), t.head.spot)
        name = t.arguments[0].head
        if name.text not in self.names:
            hint = near(name.text, self.names) or "; a line `names %s` makes it one" % name.text
            raise Trouble("`%s` is no outside name%s" % (name.text, hint), name.spot)
        return bytes([kind, self.byte(self.names.index(name.text), "outside name", name.spot)])

    def ide_sort(self, d: Definition, a: Alternative, item: Item) -> int:
        """The sort of a word, by the places where it is used; 001 leaves it out where they tell."""
        if item.name is None:
            return VAR
        uses = self.uses(d, a, item.name.text)
        if uses <= {VAR, BINDER}:
            return BINDER if BINDER in uses else VAR
        if uses == {LABEL}:
            return LABEL
        name = item.name.text
        if uses <= {VAR, BINDER, LABEL}:
            raise Trouble("`%s` is used as a label and as a variable: two items are needed, or a sort, as in %s=ide:Label" % (name, name), item.spot)
        other = listed(sorted(SORTS[s] for s in uses - {VAR, BINDER, LABEL}))
        raise Trouble("`%s` is a word and stands where a %s is asked: as a term it is mkTermVar(%s)" % (name, other, name), item.spot)

    def uses(self, d: Definition, a: Alternative, name: str) -> Set[int]:
        """The sorts of the places where a variable stands in an alternative."""
        found: Set[int] = set()

        def look(t: notation.Template, sort: Optional[int]) -> None:
            if t.text is not None:
                return
            if t.head.text in BY_NAME:
                for at, x in enumerate(t.arguments or []):
                    look(x, place_sort(list(BY_NAME[t.head.text].arguments), at))
            elif t.head.text == name and sort is not None:
                found.add(sort)

        calls = [(i.what.text, i.arguments) for i in a.items]
        if self.is_last_call(a, {p.text: 0 for p, _ in d.parameters}):
            calls.append((a.result.head.text, a.result.arguments or []))
        else:
            look(a.result, d.result)
        for called, arguments in calls:
            for at, x in enumerate(arguments):
                look(x, place_sort(self.parameters.get(called, []), at))
        return found


def troubles(n: Notation) -> List[Trouble]:
    """All that is wrong in a notation that can be read."""
    packer = Packer(n)
    try:
        packer.pack()
    except Trouble as e:
        packer.troubles.append(e)
    return packer.troubles


def pack(n: Notation) -> Packed:
    """The table, or the first thing that is wrong."""
    packer = Packer(n)
    packed = packer.pack()
    if packer.troubles:
        raise packer.troubles[0]
    return packed
