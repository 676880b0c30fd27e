"""The bytes of a phrase table, as document 01 lays them out under "Phrase table"."""
from typing import Dict, List, NamedTuple, Tuple

from .level import HAS_TEXTS

SORTS = ("Unit", "Var", "Binder", "Label", "Term", "Fields", "Num")
UNIT, VAR, BINDER, LABEL, TERM, FIELDS, NUM = range(7)
MODES = ("==", "|==", ":=")
ADD, EXTEND, UPDATE = range(3)

KEYWORD, NAME, BLOCK, DEFINITION, ALTERNATIVE, ITEM, RESULT, ROOT = range(1, 9)
IS_KEYWORD, IS_IDE, IS_NUMBER, IS_LOCAL, IS_CALL = range(5)
# A result as a text and a pattern place, from level 14 on; below it they are numbers that no byte is.
TEXT, IS_PLACE = (9, 5) if HAS_TEXTS else (-1, -1)
LAST_TAG, LAST_KIND = max(ROOT, TEXT), max(IS_CALL, IS_PLACE)
TAGS = {KEYWORD: "keyword", NAME: "outside name", BLOCK: "block", DEFINITION: "definition", ALTERNATIVE: "alternative",
        ITEM: "item", RESULT: "result", ROOT: "root", TEXT: "result as a text"}

# a template's bytes: variables below, an outside name as Var, as Label, constructors from 20 (hex); a Unit that a text reads has no byte
VARIABLES, GLOBAL, OUTSIDE_LABEL, UNIT_READ = 0x10, 0x10, 0x11, 0xFF

MOST_BYTES, MOST_NONTERMINALS, MOST_PARAMETERS, LONGEST_WORD = 16384, 64, 4, 31
MOST = {KEYWORD: 62, NAME: 64, BLOCK: 16, ALTERNATIVE: 256, ITEM: 12}


def sort_name(code: int) -> str:
    return SORTS[code] if code < len(SORTS) else "sort %d" % code


class Constructor(NamedTuple):
    name: str
    code: int
    arguments: Tuple[int, ...]
    result: int

    def signature(self) -> str:
        return "%s(%s)" % (self.name, " ".join(SORTS[s] for s in self.arguments))


CONSTRUCTORS = (
    Constructor("mkTermVar", 0x20, (VAR,), TERM),
    Constructor("mkTermFun", 0x21, (BINDER, TERM), TERM),
    Constructor("mkTermApp", 0x22, (TERM, TERM), TERM),
    Constructor("mkTermRcd", 0x23, (FIELDS,), TERM),
    Constructor("mkTermDot", 0x24, (TERM, LABEL), TERM),
    Constructor("mkFieldNil", 0x25, (), FIELDS),
    Constructor("mkFieldCons", 0x26, (LABEL, TERM, FIELDS), FIELDS),
    Constructor("mkTermNum", 0x27, (NUM,), TERM))
BY_CODE: Dict[int, Constructor] = {c.code: c for c in CONSTRUCTORS}
BY_NAME: Dict[str, Constructor] = {c.name: c for c in CONSTRUCTORS}


class Field(NamedTuple):
    """A field, and the offset of its tag in the table."""
    place: int
    tag: int
    value: bytes


def encode(tag: int, value: bytes) -> bytes:
    return bytes([tag]) + len(value).to_bytes(2, "big") + value


def size_at(data: bytes, place: int) -> int:
    """The length that the field at this place says it has."""
    return int.from_bytes(data[place + 1:place + 3], "big")


def read_fields(data: bytes) -> List[Field]:
    """The fields from the front, up to the first that runs past the end."""
    out, at = [], 0
    while at + 3 <= len(data) and at + 3 + size_at(data, at) <= len(data):
        end = at + 3 + size_at(data, at)
        out.append(Field(at, data[at], data[at + 3:end]))
        at = end
    return out


def spellings(fields: List[Field], tag: int) -> List[str]:
    return [f.value.decode("utf-8", "replace") for f in fields if f.tag == tag]


class Template(NamedTuple):
    """A template: its first byte, the number of its outside name if it has one, its arguments."""
    head: int
    name: int
    arguments: Tuple["Template", ...]


class TemplateFault(Exception):
    """Why some bytes are no templates."""


def read_template(value: bytes, at: int) -> Tuple[Template, int]:
    """The template that begins at this byte of a value, and where it ends."""
    if at >= len(value):
        raise TemplateFault("the template is cut: an argument is missing at its end" if value else "the template is empty")
    head = value[at]
    if head < VARIABLES:
        return Template(head, 0, ()), at + 1
    if head in (GLOBAL, OUTSIDE_LABEL):
        if at + 1 >= len(value):
            raise TemplateFault("the template is cut: byte %02x wants the number of an outside name behind it" % head)
        return Template(head, value[at + 1], ()), at + 2
    if head not in BY_CODE:
        raise TemplateFault("byte %02x begins no template: 00 to 0f are variables, 10 and 11 outside names, 20 to 27 constructors" % head)
    arguments, at = [], at + 1
    for _ in BY_CODE[head].arguments:
        argument, at = read_template(value, at)
        arguments.append(argument)
    return Template(head, 0, tuple(arguments)), at


def read_templates(value: bytes) -> List[Template]:
    """All templates of a value, one behind the other."""
    out, at = [], 0
    while at < len(value):
        template, at = read_template(value, at)
        out.append(template)
    return out


def read_result(value: bytes) -> Template:
    """The one template of a result."""
    template, end = read_template(value, 0)
    if end < len(value):
        raise TemplateFault("%d byte%s left over behind the template" % (len(value) - end, " is" if len(value) - end == 1 else "s are"))
    return template
