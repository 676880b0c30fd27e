"""Places in texts, as a browser counts them.

Offsets are bytes in the library, characters in tools/phrasebook and units of 16 bits in a browser; they are converted here only.
"""
from typing import Any, Dict, Tuple

from phrasebook.source import Spot


def units(text: str) -> int:
    """The length of a text as a browser counts it."""
    return len(text) + sum(c > "\uffff" for c in text)


def of_spot(name: str, grammar: str, spot: Spot, said: str) -> Dict[str, Any]:
    """A spot of a grammar. If it stands in the grammar that is shown, the page is told the stretch of its text; else file and line only."""
    out = {"file": spot.path, "line": spot.line, "said": said, "where": "grammar" if spot.path == name else "other"}
    if spot.path == name:
        before = sum(units(line) + 1 for line in grammar.split("\n")[:spot.line - 1])
        start = before + units(spot.text[:spot.column - 1])
        marked = spot.text[spot.column - 1:spot.column - 1 + spot.width]
        out.update(start=start, end=start + max(1, units(marked)))
    return out


def of_stretch(formula: bytes, stretch: Tuple[int, int], said: str) -> Dict[str, Any]:
    """A stretch of a formula's bytes; it ends behind a character, also where the library stops at the first byte of one."""
    offset, width = stretch
    while formula[offset + width:offset + width + 1] and formula[offset + width] & 0xC0 == 0x80:
        width += 1
    start = units(formula[:offset].decode("utf-8", "replace"))
    marked = formula[offset:offset + width].decode("utf-8", "replace")
    return {"where": "formula", "start": start, "end": start + max(1, units(marked)), "said": said}
