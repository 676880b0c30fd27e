"""The level: the last request of document 02 that has landed, 10 before the first. level.txt has it, for tests and tools."""
import os

ROOT = os.path.dirname(os.path.dirname(os.path.dirname(os.path.abspath(__file__))))


def present() -> int:
    """The level of level.txt; tests of a later one name it by VEGZUMP_LEVEL."""
    with open(os.path.join(ROOT, "level.txt"), encoding="ascii") as f:
        return int(os.environ.get("VEGZUMP_LEVEL") or f.read())


LEVEL = present()
# From level 14 on (document 02, C-14) a result may be a text, and an item a pattern place.
HAS_TEXTS = LEVEL >= 14
