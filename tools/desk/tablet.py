"""One page for a tablet: the packed table, the proved library in WebAssembly, formulas and the words of the causes, in one file that needs no server and no
network."""
import base64
import hashlib
import json
import os
import re
from typing import Any, Dict, List, Optional

from phrasebook import author, pack
from phrasebook.causes import CAUSES

from .engine import house_table, kinds

BUILD = "hosts/wasm/build"
MODULE, FACE = "vegzump.wasm", "vegzump.js"
POLICY = "default-src 'none'; script-src 'sha256-%s' 'wasm-unsafe-eval'; style-src 'sha256-%s'; base-uri 'none'; form-action 'none'"


def built() -> Optional[Dict[str, bytes]]:
    """The module and its face for JavaScript, as BUILD makes them in target/wasm (VEGZUMP_WASM_DIR names another folder); or nothing."""
    folder, out = os.environ.get("VEGZUMP_WASM_DIR") or os.path.join(author.ROOT, "target", "wasm"), {}
    for name in (MODULE, FACE):
        if not os.path.isfile(os.path.join(folder, name)):
            return None
        with open(os.path.join(folder, name), "rb") as f:
            out[name] = f.read()
    return out


def based(data: bytes) -> str:
    return base64.b64encode(data).decode("ascii")


def holding(name: str, packed: pack.Packed, formula: str, formulas: List[str], module: bytes) -> Dict[str, Any]:
    """What the page has beside its script."""
    return {"name": name, "table": based(packed.data), "house": based(house_table().data), "wasm": based(module), "kinds": kinds(packed),
            "formula": formula, "formulas": formulas, "causes": {str(n): words for n, words in CAUSES.items()}}


def page(parts: Dict[str, bytes], held: Dict[str, Any]) -> bytes:
    """The file. Its policy allows its own script and style, by their hash, and nothing else; `<` in what it holds cannot end the script."""
    script, style = b"\n".join(parts[name] for name in (FACE, "term.js", "tablet.js")), parts["style.css"]
    digests = tuple(based(hashlib.sha256(x).digest()) for x in (script, style))
    fill = {"POLICY": POLICY % digests, "STYLE": style.decode("utf-8"), "SCRIPT": script.decode("utf-8"),
            "HELD": json.dumps(held).replace("<", "\\u003c")}
    return re.sub(r"@@([A-Z]+)@@", lambda m: fill[m.group(1)], parts["tablet.html"].decode("utf-8")).encode("utf-8")
