"""The folder of the workbench: its grammars, the tests of each, and saving into it.

Only plain files that are called NAME.grammar and NAME.tests are read or written, in the folder itself and in the folders in it; links are left alone.
"""
import hashlib
import os
import re
import stat
import tempfile
from typing import Dict, List, Optional

from phrasebook import author
from phrasebook.source import Trouble

WORD = r"[A-Za-z0-9][A-Za-z0-9_-]{0,63}"
NAME = re.compile(r"(?:%s/)?%s\.grammar" % (WORD, WORD))
MOST_BYTES, MOST_FILES, MOST_FOLDERS = 65536, 200, 50


class Unsaved(Exception):
    """Why a file is not written."""


def cells_of(line: str) -> List[str]:
    """The cells of a row of a table in a README."""
    return [c.strip().replace("\\|", "|") for c in re.split(r"(?<!\\)\|", line.strip())[1:-1]]


def stamp(data: bytes) -> str:
    """What tells one text of a file from another."""
    return hashlib.sha256(data).hexdigest()


def read_plain(path: str) -> Optional[bytes]:
    """The bytes of a plain file of no more than MOST_BYTES, or nothing."""
    try:
        status = os.lstat(path)
        if not stat.S_ISREG(status.st_mode) or status.st_size > MOST_BYTES:
            return None
        with open(path, "rb") as f:
            return f.read()
    except OSError:
        return None


def is_text(data: bytes) -> bool:
    try:
        data.decode("utf-8")
        return True
    except UnicodeDecodeError:
        return False


def entries(path: str) -> List[os.DirEntry]:
    """What a folder has, by its names; nothing if it cannot be read."""
    try:
        with os.scandir(path) as found:
            return sorted(found, key=lambda e: e.name)
    except OSError:
        return []


class Folder:
    def __init__(self, path: str):
        self.path = os.path.abspath(path)

    def file(self, name: str) -> str:
        return os.path.join(self.path, name)

    def folders(self) -> List[str]:
        """The folder itself and those in it that are no links, as names of grammars begin."""
        inner = [e.name + "/" for e in entries(self.path) if re.fullmatch(WORD, e.name) and e.is_dir(follow_symlinks=False)]
        return [""] + inner[:MOST_FOLDERS]

    def grammars(self) -> Dict[str, bytes]:
        """The grammars as they are now; a file that is no UTF-8 text is left out, since a page cannot show it and give it back."""
        names = [folder + e.name for folder in self.folders() for e in entries(self.file(folder)) if NAME.fullmatch(folder + e.name)]
        found = {name: read_plain(self.file(name)) for name in names[:MOST_FILES]}
        return {name: data for name, data in found.items() if data is not None and is_text(data)}

    def tests(self, name: str) -> List[Dict[str, str]]:
        """The tests of a grammar: those of NAME.tests, or where there is no such file the rows of README.md beside it that have its name."""
        data = read_plain(self.file(tests_of(name)))
        if data is None:
            return self.worked(name)
        try:
            return [{"formula": t.formula, "expected": t.expected} for t in author.read_tests(tests_of(name), data)]
        except Trouble:
            return []

    def worked(self, name: str) -> List[Dict[str, str]]:
        data = read_plain(self.file(os.path.join(os.path.dirname(name), "README.md"))) or b""
        rows = [c for c in map(cells_of, data.decode("utf-8", "replace").split("\n")) if len(c) == 3 and c[0].strip("`") == os.path.basename(name)]
        return [{"formula": "" if c[1] == "nothing" else c[1].strip("`"), "expected": c[2].strip("`")} for c in rows]

    def save(self, name: str, text: str, known: str) -> str:
        """Writes a grammar, unless the file is not the one that the page had: `known` is the stamp of that, empty if there was none."""
        before = read_plain(self.file(name))
        if before is None and os.path.lexists(self.file(name)):
            raise Unsaved("%s is no plain file of at most %d bytes" % (name, MOST_BYTES))
        if known != ("" if before is None else stamp(before)):
            raise Unsaved("%s was changed by another program since this page read it: `Undo all changes` shows it" % name)
        self.write(name, text.encode("utf-8"))
        return stamp(text.encode("utf-8"))

    def save_tests(self, name: str, tests: List[Dict[str, str]]) -> str:
        """Writes NAME.tests, as `tools/phrases test` reads it. A line end within a formula is a blank; tests that expect nothing are left out."""
        path = self.file(tests_of(name))
        if os.path.lexists(path) and read_plain(path) is None:
            raise Unsaved("%s is no plain file of at most %d bytes" % (tests_of(name), MOST_BYTES))
        lines = ["%s => %s" % (as_line(t["formula"]), " ".join(t["expected"].split())) for t in tests if t["expected"].strip()]
        self.write(tests_of(name), "".join(line + "\n" for line in lines).encode("utf-8"))
        return tests_of(name)

    def write(self, name: str, data: bytes) -> None:
        """A file is there whole or as it was: it is written beside and then put in place, with the rights that it had."""
        path = self.file(name)
        if len(data) > MOST_BYTES:
            raise Unsaved("%s would have more than %d bytes" % (name, MOST_BYTES))
        if name[:-len(os.path.basename(name))] not in self.folders():
            raise Unsaved("there is no such folder here: %s" % os.path.dirname(name))
        try:
            rights = stat.S_IMODE(os.lstat(path).st_mode) if os.path.exists(path) else 0o644
            with tempfile.TemporaryDirectory(dir=os.path.dirname(path), prefix=".workbench-") as room:
                beside = os.path.join(room, os.path.basename(name))
                with open(beside, "wb") as f:
                    f.write(data)
                os.chmod(beside, rights)
                os.replace(beside, path)
        except OSError as e:
            raise Unsaved("%s cannot be written: %s" % (name, e.strerror))


def tests_of(name: str) -> str:
    return name[:-len("grammar")] + "tests"


def as_line(formula: str) -> str:
    """A formula in one line; one that begins as a remark does gets a blank in front."""
    line = " ".join(formula.splitlines())
    return " " + line if line.startswith("#") else line
