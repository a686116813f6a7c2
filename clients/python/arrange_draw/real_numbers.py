"""Real numbers as they are typed for drawings, such as 1/2, phi - 1 or 2*sqrt(3)."""
from __future__ import annotations

import ast
import math
import operator
from typing import Callable, Dict, List, Tuple, Type

from arrange import BadInput

NAMES = {"phi": (1 + math.sqrt(5)) / 2, "pi": math.pi}
BINARY: Dict[Type[ast.operator], Callable[[float, float], float]] = {
    ast.Add: operator.add, ast.Sub: operator.sub, ast.Mult: operator.mul, ast.Div: operator.truediv, ast.Pow: operator.pow,
}


def real_rows(text: str) -> List[Tuple[float, ...]]:
    """Rows that are divided by commas, of numbers that are divided by blanks. phi is the golden ratio.

    >>> real_rows("1 0 -1/2, 0 2*sqrt(4) phi**2-phi")
    [(1.0, 0.0, -0.5), (0.0, 4.0, 1.0)]
    """
    return [tuple(real_number(it, f"row {k}") for it in row.split()) for k, row in enumerate(text.split(","), 1)]


def real_number(text: str, place: str) -> float:
    """A number: integers and decimals, phi and pi, square roots, and +, -, *, / and ** of these.

    >>> real_number("one", "row 1")
    Traceback (most recent call last):
        ...
    arrange.errors.BadInput: row 1: 'one' is no real number
    """
    try:
        value = round(_value(ast.parse(text, mode="eval").body), 12)
    except (SyntaxError, ValueError, TypeError, ZeroDivisionError, OverflowError, KeyError):
        raise BadInput(place, f"{text!r} is no real number") from None
    return value


def _value(tree: ast.expr) -> float:
    if isinstance(tree, ast.Constant) and type(tree.value) in (int, float):
        return float(tree.value)
    if isinstance(tree, ast.Name):
        return NAMES[tree.id]
    if isinstance(tree, ast.UnaryOp) and isinstance(tree.op, (ast.USub, ast.UAdd)):
        value = _value(tree.operand)
        return -value if isinstance(tree.op, ast.USub) else value
    if isinstance(tree, ast.BinOp) and type(tree.op) in BINARY:
        return BINARY[type(tree.op)](_value(tree.left), _value(tree.right))
    if isinstance(tree, ast.Call) and isinstance(tree.func, ast.Name) and tree.func.id == "sqrt" and len(tree.args) == 1:
        return math.sqrt(_value(tree.args[0]))
    raise ValueError
