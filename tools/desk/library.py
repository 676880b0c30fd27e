"""The proved library, as the workbench calls it: its archive as a shared object, or where there is no C compiler the proved program."""
import ctypes
import os
import subprocess
import tempfile
from typing import NamedTuple, Tuple, Union

from phrasebook import author

# As much as the program `phrase` lends, so that the page and the program answer alike.
CELLS, TEXT = 16384, 65536


class Answer(NamedTuple):
    """number is 0 on acceptance, else the cause of the refusal, as in include/vegzump.h."""
    number: int
    a: int
    b: int
    c: int


class Numbers(ctypes.Structure):
    """vegzump_answer of include/vegzump.h."""
    _fields_ = [("number", ctypes.c_uint8), ("a", ctypes.c_uint64), ("b", ctypes.c_uint64), ("c", ctypes.c_uint64)]

    def answer(self) -> Answer:
        return Answer(self.number, self.a, self.b, self.c)


class Archive:
    """The library's archive, linked as a shared object. A call needs VEGZUMP_STACK bytes of stack at the worst (include/vegzump.h)."""
    name = "archive"

    def __init__(self, archive: str):
        with tempfile.TemporaryDirectory() as room:
            shared = os.path.join(room, "libvegzump.so")
            subprocess.run(["cc", "-shared", "-o", shared, "-Wl,--whole-archive", archive, "-Wl,--no-whole-archive"], check=True, capture_output=True)
            self.library = ctypes.CDLL(shared)
        bytes_, size, room_ = ctypes.c_char_p, ctypes.c_size_t, ctypes.c_void_p
        self.library.vegzump_check.argtypes = [bytes_, size]
        self.library.vegzump_check.restype = Numbers
        self.library.vegzump_expand.argtypes = [bytes_, size, bytes_, size, room_, size, room_, size]
        self.library.vegzump_expand.restype = Numbers

    def check(self, table: bytes) -> Answer:
        return self.library.vegzump_check(table, len(table)).answer()

    def expand(self, table: bytes, formula: bytes) -> Tuple[Answer, str]:
        """The answer, and on acceptance the term."""
        cells, text = (ctypes.c_uint32 * CELLS)(), (ctypes.c_char * TEXT)()
        r = self.library.vegzump_expand(table, len(table), formula, len(formula), cells, CELLS, text, TEXT)
        return r.answer(), "" if r.number else ctypes.string_at(text, r.c).decode("ascii")


class Program:
    """The program `phrase`, a process for each formula."""
    name = "program"

    def check(self, table: bytes) -> Answer:
        answer, _ = self.expand(table, b"")
        return answer if answer.number in author.OF_TABLE else Answer(0, 0, 0, 0)

    def expand(self, table: bytes, formula: bytes) -> Tuple[Answer, str]:
        first, _, term = author.answer(table, formula).partition("\n")
        words = first.split()
        return (Answer(0, *map(int, words[1:])), term) if words[0] == "ok" else (Answer(*map(int, words[1:])), "")


Library = Union[Archive, Program]


def find(with_archive: bool) -> Library:
    """The archive if it is built and can be linked, else the program. author.NoProgram is raised if neither is there."""
    archive = os.path.join(os.environ.get("VEGZUMP_LIB_DIR") or os.path.join(author.ROOT, "target", "staticlib"), "libvegzump.a")
    if with_archive and os.path.isfile(archive):
        try:
            return Archive(archive)
        except (OSError, subprocess.CalledProcessError):
            pass
    author.program()
    return Program()
