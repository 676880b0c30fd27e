"""A printed term in the house's own notation, that of examples/house.grammar: `fun(_1) x(y(_1))` for mkTermFun(_1 mkTermApp(mkTermVar(x) ..)).

It helps to read a term and is outside the proof. Read as a formula of the house it gives the same term, unless it has new names, as `_1`, which are
no words, or names that are keywords of the house.
"""
import re
from typing import List, NamedTuple, Union

from .source import Trouble

PIECE = re.compile(r"([A-Za-z_][A-Za-z0-9_]*|[0-9]+)(\()?|\)")


class Node(NamedTuple):
    """A constructor with its arguments: names as they are printed, and constructors."""
    head: str
    parts: List[Union[str, "Node"]]


def read(term: str) -> Node:
    """The constructors of a printed term."""
    around = [Node("", [])]
    for m in PIECE.finditer(term):
        if m.group() == ")":
            around.pop()
        elif m.group(2):
            around[-1].parts.append(Node(m.group(1), []))
            around.append(around[-1].parts[-1])
        else:
            around[-1].parts.append(m.group(1))
    return around[0].parts[0]


def applied(node: Node) -> List[Union[str, Node]]:
    """A function reaches as far to the right as it can, so it stands in parentheses where something follows it."""
    return ["(", node, ")"] if node.head == "mkTermFun" else [node]


def pieces(node: Node) -> List[Union[str, Node]]:
    """What a constructor is written as, from the left."""
    p = node.parts
    if node.head == "mkTermFun":
        return ["fun(", p[0], ") ", p[1]]
    if node.head == "mkTermApp":
        return applied(p[0]) + ["(", p[1], ")"]
    if node.head == "mkTermDot":
        return applied(p[0]) + [".", p[1]]
    if node.head == "mkTermRcd":
        return ["{", p[0], "}"]
    if node.head == "mkFieldCons":
        return [p[0], " = ", p[1]] + ([" ", p[2]] if p[2].parts else [])
    return p


def text(term: str) -> str:
    """A printed term in the house's notation."""
    try:
        return written(read(term))
    except (IndexError, AttributeError):
        raise Trouble("this is no printed term: %s" % term.strip()[:60])


def written(root: Node) -> str:
    """Terms can be 16,384 constructors deep, so what is still to be written is a list and not a recursion."""
    out, ahead = [], [root]
    while ahead:
        piece = ahead.pop()
        if isinstance(piece, str):
            out.append(piece)
        else:
            ahead += reversed(pieces(piece))
    return "".join(out)
