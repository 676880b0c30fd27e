"""Where things stand in files, and messages about them."""
import difflib
import os
import posixpath
from typing import Dict, Iterable, List, NamedTuple, Optional


class Spot(NamedTuple):
    """A stretch of a line of a file; lines and columns count from 1."""
    path: str
    line: int
    column: int
    width: int
    text: str

    def __str__(self) -> str:
        return "%s:%d" % (self.path, self.line)

    def marked(self) -> str:
        """The line with the stretch marked below it."""
        return marked(self.text, self.column - 1, self.width)


def marked(text: str, start: int, width: int, room: int = 100) -> str:
    """A text, or as much of it as there is room for, with a stretch marked below it."""
    text = "".join(c if c.isprintable() else " " for c in text)
    left = max(0, start - room // 2) if len(text) > room else 0
    shown = ("..." if left else "") + text[left:left + room] + ("..." if left + room < len(text) else "")
    at = start - left + (3 if left else 0)
    return "    %s\n    %s%s" % (shown, " " * at, "^" * max(1, min(width, room - (start - left))))


class Trouble(Exception):
    """What a person is told in place of a result."""

    def __init__(self, message: str, spot: Optional[Spot] = None):
        super().__init__(message)
        self.message, self.spot = message, spot

    def __str__(self) -> str:
        if self.spot is None:
            return self.message
        return "%s: %s\n%s" % (self.spot, self.message, self.spot.marked())


def read_file(path: str) -> bytes:
    try:
        with open(path, "rb") as f:
            return f.read()
    except OSError as e:
        raise Trouble("%s: cannot be read: %s" % (path, e.strerror or "no such file"))


class Disk:
    """The grammars of this machine's folders, by their paths."""

    def beside(self, path: str, name: str) -> str:
        """What a grammar calls by this name."""
        return os.path.join(os.path.dirname(path), name)

    def key(self, path: str) -> str:
        """The same for all paths of one file."""
        return os.path.realpath(path)

    def missing(self, path: str) -> str:
        """What is said if there is no such grammar; nothing if there is."""
        return "" if os.path.isfile(path) else "the file %s is not there" % path

    def read(self, path: str) -> bytes:
        return read_file(path)

    def others(self, path: str) -> List[str]:
        """The other grammars in the same folder."""
        own = os.path.basename(path)
        return [self.beside(path, f) for f in sorted(os.listdir(os.path.dirname(path) or ".")) if f.endswith(".grammar") and f != own]


class Texts(Disk):
    """Grammars held by their names, which are as paths within one folder; no name is ever opened as a path."""

    def __init__(self, texts: Dict[str, bytes]):
        self.texts = texts

    def beside(self, path: str, name: str) -> str:
        return posixpath.normpath(posixpath.join(posixpath.dirname(path), name))

    def key(self, path: str) -> str:
        return path

    def missing(self, path: str) -> str:
        hint = near(path, self.texts) or ("; there are %s" % listed(sorted(self.texts), "and") if 1 < len(self.texts) < 9 else "")
        return "" if path in self.texts else "there is no grammar %s here%s" % (path, hint)

    def read(self, path: str) -> bytes:
        return self.texts[path]

    def others(self, path: str) -> List[str]:
        return sorted(p for p in self.texts if p != path and posixpath.dirname(p) == posixpath.dirname(path))


DISK = Disk()


def is_table(path: str, data: bytes) -> bool:
    """Whether a file is a table: no notation by its name, and with one of the bytes 0 to 8, as every field of a table and no text has."""
    return not path.endswith(".grammar") and any(b < 9 for b in data)


def near(word: str, known: Iterable[str]) -> str:
    """A hint at the known word that is most like this one."""
    found = difflib.get_close_matches(word, list(known), 1, 0.6)
    return "; did you mean `%s`?" % found[0] if found else ""


def listed(parts: Iterable[str], last: str = "or") -> str:
    parts = list(parts)
    return parts[0] if len(parts) == 1 else "%s %s %s" % (", ".join(parts[:-1]), last, parts[-1])


def counted(n: int, what: str) -> str:
    return "%s %s%s" % (n or "no", what, "" if n == 1 else "s")


def stand(n: int) -> str:
    return "is 1" if n == 1 else "are %s" % (n or "none")
