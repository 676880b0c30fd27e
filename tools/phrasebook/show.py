"""From the bytes of a table to its notation, in which nonterminal K is nK and variable K of an alternative vK. Packing it gives the same bytes. A remark tells
which keywords are given back."""
import re
from typing import List, Set, Tuple

from .grammar import Grammar
from .source import Trouble
from .table import (ALTERNATIVE, BLOCK, BY_CODE, DEFINITION, GLOBAL, IS_CALL, IS_IDE, IS_KEYWORD, IS_LOCAL, IS_PLACE, ITEM, KEYWORD, LAST_TAG, MODES,
                    NAME, RESULT, ROOT, SORTS, TEXT, VARIABLES, Field, Template, TemplateFault, read_fields, read_result, read_templates, size_at,
                    spellings)

# a text's parts: a variable that can be named, as no word follows it; a byte that cannot stand in a notation, or means something else there; any other
TEXT_PART = re.compile(rb"\$(?P<variable>0|[1-9][0-9]?)(?![A-Za-z0-9_])|(?P<byte>[^ -~]|\\|>(?=>|\Z)|\$(?=[A-Za-z]))|.", re.DOTALL)


class Unshown(Exception):
    """Why a field has no notation."""


def sort_name(code: int) -> str:
    if code >= len(SORTS):
        raise Unshown("%d is the code of no sort" % code)
    return SORTS[code]


def template_text(t: Template, names: List[str]) -> str:
    if t.head < VARIABLES:
        return "v%d" % t.head
    if t.head in BY_CODE:
        return "%s(%s)" % (BY_CODE[t.head].name, " ".join(template_text(x, names) for x in t.arguments))
    if t.name >= len(names):
        raise Unshown("outside name %d is not defined" % t.name)
    return "%s(%s)" % ("global" if t.head == GLOBAL else "label", names[t.name])


def used_variables(t: Template) -> Set[int]:
    return {t.head} if t.head < VARIABLES else set().union(*(used_variables(x) for x in t.arguments))


def text_shown(text: bytes, variables: int) -> Tuple[str, Set[int]]:
    """A text as it is written between << and >>, and the variables that it names, of so many."""
    out, used = [], set()
    for m in TEXT_PART.finditer(text):
        if m.group("variable") and int(m.group("variable")) < variables:
            used.add(int(m.group("variable")))
            out.append("$v" + m.group("variable").decode("ascii"))
        else:
            out.append("\\%02x" % m.group()[0] if m.group("byte") else m.group().decode("ascii"))
    return "".join(out), used


class Shower:
    def __init__(self, data: bytes):
        self.fields = read_fields(data)
        self.keywords, self.names = spellings(self.fields, KEYWORD), spellings(self.fields, NAME)
        self.given_back = Grammar(data).given_back()
        self.out: List[str] = []
        self.open = self.first = False
        self.parameters = 0
        self.items: List[Tuple[str, Set[int]]] = []

    def show(self) -> str:
        self.words("keywords", ['"%s"' % k if k in '#"' else k for k in self.keywords])
        self.words("# given back, for no phrase that the root reaches has them:", list(self.given_back.values()))
        self.words("names", self.names)
        parts = {BLOCK: self.block, DEFINITION: self.definition, ALTERNATIVE: self.alternative, ITEM: self.item, RESULT: self.template, TEXT: self.text,
                 ROOT: self.root}
        for f in self.fields:
            if f.tag not in parts and f.tag not in (KEYWORD, NAME):
                raise Trouble("byte %d: tag %02x is none of 01 to %02x" % (f.place, f.tag, LAST_TAG))
            try:
                parts.get(f.tag, lambda _: None)(f)
            except (Unshown, TemplateFault, IndexError) as e:
                why = "it is too short" if isinstance(e, IndexError) else e
                raise Trouble("byte %d: this field has no notation: %s" % (f.place, why))
        self.close()
        return "\n".join(self.out) + "\n"

    def words(self, what: str, spelled: List[str]) -> None:
        if spelled:
            self.out.append("%s %s" % (what, " ".join(spelled)))

    def close(self) -> None:
        if self.open:
            self.out.append("end")
        self.open = False

    def block(self, _: Field) -> None:
        self.close()
        self.out.append("grammar")
        self.open = True

    def definition(self, f: Field) -> None:
        if f.value[1] >= len(MODES):
            raise Unshown("%d is no mode" % f.value[1])
        parameters = " ".join("v%d:%s" % (i, sort_name(s)) for i, s in enumerate(f.value[3:]))
        head = "n%d%s:%s" % (f.value[0], "(%s)" % parameters if parameters else "", sort_name(f.value[2]))
        self.out.append("  %s %s" % (head, MODES[f.value[1]]))
        self.parameters, self.first = len(f.value) - 3, True

    def alternative(self, _: Field) -> None:
        self.items = []

    def item(self, f: Field) -> None:
        kind, operand, used = f.value[0], f.value[1], set()
        if kind == IS_KEYWORD:
            if operand >= len(self.keywords):
                raise Unshown("keyword %d is not defined" % operand)
            text = '"%s"' % self.keywords[operand]
        elif kind == IS_IDE:
            text = "ide:" + sort_name(operand)
        elif kind == IS_PLACE:
            text = "pIde:" + sort_name(operand)
        elif kind == IS_CALL:
            arguments = read_templates(f.value[2:])
            used = set().union(*(used_variables(t) for t in arguments))
            text = "n%d" % operand + ("(%s)" % " ".join(template_text(t, self.names) for t in arguments) if arguments else "")
        elif kind <= IS_LOCAL:
            text = "local" if kind == IS_LOCAL else "number"
        else:
            raise Unshown("%d is no kind of item" % kind)
        self.items.append((text, used))

    def template(self, f: Field) -> None:
        template = read_result(f.value)
        self.result(template_text(template, self.names), used_variables(template))

    def text(self, f: Field) -> None:
        written, used = text_shown(f.value[1:], self.parameters + len(self.items))
        self.result("n%d<<%s>>" % (f.value[0], written), used)

    def result(self, written: str, used: Set[int]) -> None:
        """An alternative whose result uses some variables."""
        used = used.union(*(u for _, u in self.items))
        shown = ["v%d=%s" % (i, text) if i in used else text for i, (text, _) in enumerate(self.items, self.parameters)]
        self.out.append("    %s => %s" % (" ".join([" " if self.first else "|"] + shown), written))
        self.first = False

    def root(self, f: Field) -> None:
        self.close()
        self.out.append("root n%d" % f.value[0])


def show(data: bytes) -> str:
    end = sum(3 + len(f.value) for f in read_fields(data))
    if end < len(data):
        says = "it says that it has %d bytes" % size_at(data, end) if end + 3 <= len(data) else "it has no length"
        raise Trouble("byte %d: this field runs past the end of the table: %s" % (end, says))
    return Shower(data).show()
