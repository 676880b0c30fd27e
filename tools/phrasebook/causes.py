"""The causes of refusal, from causes.txt, and the limits, from the Rattle sources."""
import os
import re
from typing import Callable, Dict, List, NamedTuple

from .level import HAS_TEXTS, ROOT

# Causes 26 to 28 count from level 14 on; the landing of C-14 adds the lines of the second file to causes.txt.
FILES = ("causes.txt", "tests/texts/causes.txt") if HAS_TEXTS else ("causes.txt",)
SOURCES = ("grammar/src/limits.rt", "spellings/src/lib.rt", "tokens/src/lib.rt", "expansion/src/lib.rt", "terms/src/lib.rt", "portions/src/lib.rt")
CONSTANT = re.compile(r"^(?:pub )?const ([A-Z_]+): [a-z0-9]+ = ([0-9_]+);", re.MULTILINE)


class Cause(NamedTuple):
    """One line of causes.txt."""
    number: int
    name: str
    values: List[str]
    words: str
    said: str
    example: str
    message: str
    told: str


def limits() -> Dict[str, int]:
    """Each limit by its name in the Rattle sources."""
    found: Dict[str, int] = {}
    for source in SOURCES:
        with open(os.path.join(ROOT, "crates", source), encoding="utf-8") as f:
            found.update((name, int(number.replace("_", ""))) for name, number in CONSTANT.findall(f.read()))
    return found


def with_limits(text: str, shown: Callable[[int], str]) -> str:
    """A text with the limits that it names."""
    known = limits()
    return re.sub(r"\{([A-Z_]+)\}", lambda m: shown(known[m.group(1)]), text)


def load() -> List[Cause]:
    lines = []
    for name in FILES:
        with open(os.path.join(ROOT, name), encoding="utf-8") as f:
            lines += [line.rstrip("\n").split(" | ") for line in f if line.strip() and not line.startswith("#")]
    causes = [Cause(int(p[0]), p[1], [] if p[2] == "-" else p[2].split(), *p[3:]) for p in lines]
    if [c.number for c in causes] != list(range(1, len(causes) + 1)):
        raise ValueError("causes.txt: the causes are not numbered 1, 2 and on")
    return causes


LIST = load()
CAUSES = {c.number: with_limits(c.told, "{:,}".format) for c in LIST}
