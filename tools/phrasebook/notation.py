"""Reading the notation: from text to a tree of its parts, each with the spot where it stands.

The notation is that of Figure 2 of 001, with lines for what the figure leaves to the text:

    file        = { section }
    section     = "use" FILE                                   all that another file has, before what follows
                | "keywords" WORD ...                          to the end of the line; a word may stand in quotes
                | "names" WORD ...                             to the end of the line
                | "grammar" { definition } "end"
                | "root" NONTERMINAL
    definition  = NONTERMINAL [ "(" { NAME ":" SORT } ")" ] ":" SORT ("==" | "|==" | ":=") [ "|" ] alternative { "|" alternative }
    alternative = { item } "=>" result
    item        = [ NAME "=" ] ( KEYWORD in quotes | "ide" [ ":" SORT ] | "number" | "local" | NONTERMINAL [ arguments ] | place )
    result      = template | NONTERMINAL [ arguments ]         a nonterminal here is a last item, and its value the result
                | written
    template    = NAME | CONSTRUCTOR arguments | "global" "(" WORD ")" | "label" "(" WORD ")"
    arguments   = "(" { template } ")"

From level 14 on there are a pattern place, and a result written as a text that is read as a nonterminal under the blocks before this one:

    place       = "pIde" ":" SORT
    written     = NONTERMINAL "<<" TEXT ">>"

A TEXT goes up to the next `>>`, over several lines if need be. In it $NAME is a variable of the alternative, $0 and on is one by its number, and \\XX is the
byte with these two hex digits: \\5c is a backslash, \\3e a `>` where two would end the text, \\24 a `$` that stands before a letter.
"""
import re
from dataclasses import dataclass, field
from typing import List, NamedTuple, Optional, Tuple

from .level import HAS_TEXTS
from .source import DISK, Disk, Spot, Trouble, is_table, listed, near
from .table import BY_NAME, MODES, SORTS

LEXEME = re.compile(r'"""|"[^"]*"|=>|\|==|==|:=|<<|>>|[A-Za-z][A-Za-z0-9_]*|\S')
TEXT_BEGINS, TEXT_ENDS = "<<", ">>"
RAW_WORD = re.compile(r'"""|"[^"\s]+"|\S+')
NAME_FORM = re.compile(r"[A-Za-z][A-Za-z0-9_]*")
SECTIONS = ("use", "keywords", "names", "grammar", "root")
WORD_LINES = ("use", "keywords", "names")
BYTE_ORDER_MARK = b"\xef\xbb\xbf"
OTHER_QUOTES = "'`\u2018\u2019\u201a\u201c\u201d\u201e\u00ab\u00bb"
ITEMS = "an item (a keyword in quotes, ide, number, local%s or a nonterminal)" % (", pIde" if HAS_TEXTS else "")
RESERVED = set(BY_NAME) | {"ide", "number", "local", "global", "label", "end", "pIde"} | set(SECTIONS)


class Token(NamedTuple):
    """A token and where it stands. Of a text `<<..>>`, the parts between its signs, line by line, stand in `pieces`."""
    text: str
    spot: Spot
    pieces: Tuple[Spot, ...] = ()

    def is_text(self) -> bool:
        return bool(self.pieces)

    def is_name(self) -> bool:
        return NAME_FORM.fullmatch(self.text) is not None

    def is_keyword(self) -> bool:
        return self.text.startswith('"')


@dataclass
class Template:
    """A template as written: a name alone, or a head with arguments; as a whole result also a nonterminal with a text."""
    head: Token
    arguments: Optional[List["Template"]]
    spot: Spot
    text: Optional[Token] = None


@dataclass
class Item:
    spot: Spot
    name: Optional[Token]
    what: Token
    sort: Optional[int] = None
    arguments: List[Template] = field(default_factory=list)


@dataclass
class Alternative:
    spot: Spot
    items: List[Item]
    result: Template


@dataclass
class Definition:
    name: Token
    mode: int
    result: int
    parameters: List[Tuple[Token, int]]
    alternatives: List[Alternative]


@dataclass
class Block:
    spot: Spot
    definitions: List[Definition]


@dataclass
class Notation:
    path: str
    files: Disk = DISK
    keywords: List[Token] = field(default_factory=list)
    names: List[Token] = field(default_factory=list)
    blocks: List[Block] = field(default_factory=list)
    root: Optional[Token] = None
    troubles: List[Trouble] = field(default_factory=list)


def decoded(path: str, data: bytes) -> List[str]:
    """The lines of a notation's bytes."""
    if is_table(path, data):
        raise Trouble("%s: this is a table, not a notation: `phrases show` shows it" % path)
    lines = []
    data = data[len(BYTE_ORDER_MARK):] if data.startswith(BYTE_ORDER_MARK) else data
    for at, line in enumerate(data.split(b"\n"), 1):
        control = [i for i, b in enumerate(line.rstrip(b"\r")) if b < 32 and b != 9]
        if control:
            raise Trouble("%s:%d: byte %02x in column %d is no text" % (path, at, line[control[0]], control[0] + 1))
        try:
            lines.append(line.decode("utf-8").rstrip("\r"))
        except UnicodeDecodeError as e:
            raise Trouble("%s:%d: byte %02x in column %d is not UTF-8 text" % (path, at, line[e.start], e.start + 1))
    return lines


def raw_words(path: str, number: int, line: str) -> List[Token]:
    """The words of a line whose words are anything between blanks, up to a remark."""
    out = []
    for m in RAW_WORD.finditer(line):
        if m.group().startswith("#"):
            break
        out.append(Token(m.group(), Spot(path, number, m.start() + 1, len(m.group()), line)))
    return out


def check_lexeme(text: str, spot: Spot) -> None:
    if text == '"':
        raise Trouble("a keyword opens here with a quote, and no quote closes it in this line", spot)
    if text == '""':
        raise Trouble("a keyword has at least one character between its quotes", spot)
    if text in OTHER_QUOTES:
        raise Trouble('a keyword stands between straight double quotes, as "half"; this is another sign', spot)


class Lexer:
    """The tokens of lines, one after the other. A text may go on from line to line: `opened` is the spot of its `<<`, `pieces` what there is of it."""

    def __init__(self, path: str):
        self.path, self.out = path, []
        self.opened: Optional[Spot] = None
        self.pieces: List[Spot] = []

    def line(self, number: int, line: str) -> None:
        """The tokens of a line; none if there is trouble in it."""
        at, before = 0, len(self.out)
        try:
            while at is not None:
                at = self.lexemes(number, line, at) if self.opened is None else self.text(number, line, at)
        except Trouble:
            del self.out[before:]
            raise

    def lexemes(self, number: int, line: str, at: int) -> Optional[int]:
        """The tokens from a column on; where a text begins, if one does."""
        for m in LEXEME.finditer(line, at):
            text, spot = m.group(), Spot(self.path, number, m.start() + 1, len(m.group()), line)
            if text == "#":
                return None
            if text == TEXT_BEGINS and HAS_TEXTS:
                self.opened, self.pieces = spot, []
                return m.end()
            check_lexeme(text, spot)
            self.out.append(Token(text, spot))
        return None

    def text(self, number: int, line: str, at: int) -> Optional[int]:
        """A text from a column on; where it ends, if it does in this line."""
        end = line.find(TEXT_ENDS, at)
        self.pieces.append(Spot(self.path, number, at + 1, (len(line) if end < 0 else end) - at, line))
        if end < 0:
            return None
        first = self.opened
        width = (end + 2 if first.line == number else len(first.text.rstrip())) - first.column + 1
        self.out.append(Token("<<..>>", first._replace(width=width), tuple(self.pieces)))
        self.opened = None
        return end + 2


def tokens(path: str, lines: List[str], troubles: List[Trouble]) -> List[Token]:
    """The tokens of all lines; a line that has none gives its trouble."""
    lexer = Lexer(path)
    for number, line in enumerate(lines, 1):
        first = (line.split(None, 1) or [""])[0]
        try:
            if lexer.opened is None and first in WORD_LINES:
                lexer.out += raw_words(path, number, line)
            else:
                lexer.line(number, line)
        except Trouble as e:
            troubles.append(e)
    if lexer.opened is not None:
        troubles.append(Trouble("this text is never closed: `>>` ends it", lexer.opened))
    return lexer.out


def quoted(word: Token) -> Token:
    """A keyword as it stands in an alternative."""
    is_quoted = len(word.text) > 2 and word.text[0] == word.text[-1] == '"'
    return word if is_quoted else Token('"%s"' % word.text, word.spot)


class Parser:
    """Reads one file, and the files that it uses before it."""

    def __init__(self, path: str, into: Notation, using: Tuple[str, ...], used: set):
        self.path, self.into, self.using, self.used = path, into, using, used
        self.rooted = False
        lines = decoded(path, into.files.read(path))
        self.tokens, self.at = tokens(path, lines, into.troubles), 0
        last = self.tokens[-1].spot if self.tokens else Spot(path, 1, 1, 0, "")
        self.end = Token("", last._replace(column=last.column + last.width, width=1))

    def peek(self, ahead: int = 0) -> Token:
        return self.tokens[self.at + ahead] if self.at + ahead < len(self.tokens) else self.end

    def take(self) -> Token:
        token = self.peek()
        self.at += 1
        return token

    def span(self, first: Spot) -> Spot:
        """From a spot to the last token taken, or to the end of the line if that stands in a later one."""
        last = self.tokens[self.at - 1].spot
        end = last.column + last.width if last.line == first.line else len(first.text.rstrip()) + 1
        return first._replace(width=end - first.column)

    def expect(self, text: str, why: str) -> Token:
        if self.peek().text != text:
            raise self.surprise("`%s`, %s" % (text, why))
        return self.take()

    def surprise(self, expected: str, hint: str = "") -> Trouble:
        """What to say if the next token is not what was expected."""
        found = self.peek()
        if found.text == ",":
            return Trouble("no commas: parameters and arguments are separated by blanks", found.spot)
        if not HAS_TEXTS and found.text in (TEXT_BEGINS, TEXT_ENDS):
            return Trouble("patterns in << >> are left out of this notation: write the result with constructors", found.spot)
        if not HAS_TEXTS and found.text == "pIde":
            return Trouble("pIde is left out of this notation, as patterns are", found.spot)
        if found.is_text():
            return Trouble("a text stands as a whole result, directly behind the nonterminal that it is read as, as in term<<$a($b)>>", found.spot)
        if found.text == TEXT_ENDS:
            return Trouble("no text is open that `>>` could end", found.spot)
        hint = hint or self.habit()
        shown = "`%s`" % found.text if found.text else "the end of the file"
        return Trouble("found %s, expected %s%s" % (shown, expected, hint), found.spot)

    def habit(self) -> str:
        """A hint where the next tokens are what another notation has."""
        pair = self.peek().text + self.peek(1).text
        if pair in ("->", "=>", "=-"):
            return "; an arrow is `=>`"
        if pair in ("//", "/*", "--"):
            return "; a remark begins with `#`"
        if self.peek().text == ":":
            return "; `a=term` gives an item a name"
        if self.peek().text in ("[", "?", "*", "+"):
            return "; an optional or repeated part is a nonterminal of its own, with an alternative that is empty"
        return ""

    def own_name(self, what: str) -> Token:
        """A name that the author chooses."""
        if not self.peek().is_name():
            raise self.surprise("the name of %s" % what)
        if self.peek().text in RESERVED:
            raise Trouble("`%s` is a word of the notation and cannot be the name of %s" % (self.peek().text, what), self.peek().spot)
        return self.take()

    def sort(self) -> int:
        token = self.peek()
        if token.text not in SORTS:
            raise self.surprise("a sort (%s)" % ", ".join(SORTS), near(token.text, SORTS))
        return SORTS.index(self.take().text)

    def file(self) -> None:
        while self.peek().text:
            token = self.peek()
            if token.text not in SECTIONS:
                raise self.surprise(listed(SECTIONS), near(token.text, SECTIONS))
            getattr(self, "section_" + self.take().text)(token)

    def same_line(self, first: Token) -> List[Token]:
        out = []
        while self.peek().text and self.peek().spot.line == first.spot.line:
            out.append(self.take())
        return out

    def section_use(self, first: Token) -> None:
        words = self.same_line(first)
        if len(words) != 1:
            raise Trouble("one file is named behind use", first.spot)
        path = self.into.files.beside(self.path, words[0].text)
        here = self.into.files.key(path)
        if here in self.using:
            raise Trouble("%s is used by itself, by way of this line" % words[0].text, words[0].spot)
        if here in self.used:
            return
        if self.into.files.missing(path):
            raise Trouble(self.into.files.missing(path), words[0].spot)
        read_into(path, self.into, self.using, self.used)

    def section_keywords(self, first: Token) -> None:
        self.into.keywords += [quoted(t) for t in self.same_line(first)]

    def section_names(self, first: Token) -> None:
        self.into.names += self.same_line(first)

    def section_root(self, first: Token) -> None:
        if self.rooted:
            raise Trouble("this file has a root already", first.spot)
        self.into.root, self.rooted = self.own_name("a nonterminal"), True

    def section_grammar(self, first: Token) -> None:
        block = Block(first.spot, [])
        self.into.blocks.append(block)
        while self.peek().text != "end":
            if not self.peek().text or self.peek().text in SECTIONS:
                raise self.surprise("`end`: the grammar of line %d is still open" % first.spot.line)
            if self.peek().text == "|" or self.peek(1).text not in (":", "("):
                self.into.troubles.append(self.surprise("a definition as `term:Term ==`, a further alternative of one behind `|`, or `end`"))
                self.skip()
                continue
            try:
                block.definitions.append(self.definition())
            except Trouble as e:
                self.into.troubles.append(e)
                self.skip()
        self.take()

    def skip(self) -> None:
        """To the next line that begins a definition, or to the end of the block."""
        self.take()
        while self.peek().text and self.peek().text not in SECTIONS and self.peek().text != "end":
            first = self.at == 0 or self.tokens[self.at - 1].spot.line != self.peek().spot.line
            if first and self.peek().is_name() and self.peek(1).text in (":", "("):
                return
            self.take()

    def definition(self) -> Definition:
        name = self.own_name("a nonterminal")
        parameters = self.parameters() if self.peek().text == "(" else []
        self.expect(":", "then the sort of what `%s` gives, as in `%s:Term ==`" % (name.text, name.text))
        result = self.sort()
        if self.peek().text not in MODES:
            raise self.surprise("`==` (adds), `|==` (extends) or `:=` (updates)")
        mode = MODES.index(self.take().text)
        if self.peek().text == "|":
            self.take()
        alternatives = [self.alternative()]
        while self.peek().text == "|":
            self.take()
            alternatives.append(self.alternative())
        return Definition(name, mode, result, parameters, alternatives)

    def parameters(self) -> List[Tuple[Token, int]]:
        out: List[Tuple[Token, int]] = []
        self.take()
        while self.peek().text != ")":
            name = self.own_name("a parameter")
            if name.text in [n.text for n, _ in out]:
                raise Trouble("two parameters are called `%s`" % name.text, name.spot)
            self.expect(":", "then the sort of the parameter, as in `%s:Term`" % name.text)
            out.append((name, self.sort()))
        self.take()
        return out

    def alternative(self) -> Alternative:
        spot, items = self.peek().spot, []
        while self.peek().text != "=>":
            if self.peek().text in ("|", "end", ""):
                raise self.surprise("`=>` and what this alternative gives")
            items.append(self.item())
        self.take()
        return Alternative(spot, items, self.result())

    def result(self) -> Template:
        """A template, or a nonterminal with the text that is read as it."""
        if self.peek().is_name() and self.peek(1).is_text():
            head, text = self.own_name("a nonterminal"), self.take()
            return Template(head, None, self.span(head.spot), text)
        return self.template()

    def item(self) -> Item:
        spot, name = self.peek().spot, None
        if self.peek(1).text == "=":
            name = self.own_name("a variable")
            self.take()
        what = self.peek()
        if not what.is_keyword() and (not what.is_name() or what.text == "pIde" and not HAS_TEXTS):
            raise self.surprise("%s or `=>`" % ITEMS)
        self.take()
        item = Item(spot, name, what)
        self.item_rest(item)
        item.spot = self.span(spot)
        return item

    def item_rest(self, item: Item) -> None:
        """The sort of ide or of pIde, or the arguments of a call."""
        what = item.what
        if what.text == "pIde":
            self.expect(":", "then the sort of the variable that may stand here in a text, as in pIde:Term")
            item.sort = self.sort()
        elif what.text == "ide" and self.peek().text == ":":
            self.take()
            item.sort = self.sort()
        elif not what.is_keyword() and self.peek().text == "(":
            item.arguments = self.arguments()

    def template(self) -> Template:
        if self.peek().text.isdigit():
            raise Trouble("a result holds no number: one comes from the formula, by an item as `n=number`; for a fixed one take an outside name, as "
                          "mkTermVar(global(two)) with a line `names two`", self.peek().spot)
        if self.peek().is_keyword():
            raise Trouble("a result holds no text: an outside name is global(T), or label(T) where a label is meant, with a line `names T`",
                          self.peek().spot)
        if not self.peek().is_name():
            raise self.surprise("a variable, a constructor, global(..), label(..) or a nonterminal")
        head = self.take()
        if self.peek().text == TEXT_BEGINS:
            raise self.surprise("a result")
        if self.peek().is_text():
            raise Trouble("a text is a whole result, and no argument: a nonterminal of its own can give it, as `composed(a b)` of examples/texts.grammar",
                          self.peek().spot)
        arguments = self.arguments() if self.peek().text == "(" else None
        return Template(head, arguments, self.span(head.spot))

    def arguments(self) -> List[Template]:
        out, opening = [], self.take()
        while self.peek().text != ")":
            if not self.peek().text:
                raise Trouble("this parenthesis is never closed", opening.spot)
            out.append(self.template())
        self.take()
        return out


def read_into(path: str, into: Notation, using: Tuple[str, ...], used: set) -> None:
    here = into.files.key(path)
    used.add(here)
    Parser(path, into, using + (here,), used).file()


def read_all(path: str, files: Disk = DISK) -> Notation:
    """The notation of a file and of the files that it uses, with all that is wrong in it, in the order of the lines."""
    out = Notation(path, files)
    try:
        read_into(path, out, (), set())
    except Trouble as e:
        out.troubles.append(e)
    out.troubles.sort(key=lambda e: e.spot.line if e.spot else 0)
    return out


def read(path: str, files: Disk = DISK) -> Notation:
    """The same, or the first thing that is wrong."""
    out = read_all(path, files)
    if out.troubles:
        raise out.troubles[0]
    return out
