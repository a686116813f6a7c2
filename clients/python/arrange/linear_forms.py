"""Linear forms typed as text, such as "x - y" or "x1 - 2/3*x2 + 1"."""
from __future__ import annotations

import re
from fractions import Fraction
from typing import Dict, Iterable, List, Optional, Sequence, Tuple, Union

from .errors import BadInput
from .fields import whole_number

MOST_VARIABLES = 10
Variables = Union[None, int, str, Sequence[str]]
NAME = re.compile(r"[A-Za-z][A-Za-z0-9_]*")
# A term, with the blanks behind it: its sign, its number, and its variable, which may be divided by a number.
TERM = re.compile(
    r"(?P<sign>[+-]?)\s*"
    r"(?:(?P<number>[0-9]+(?:\s*/\s*[0-9]+)?)\s*(?:\*\s*(?=[A-Za-z]))?)?"
    r"(?:(?P<name>[A-Za-z][A-Za-z0-9_]*)(?:\s*/\s*(?P<below>[0-9]+))?)?\s*"
)


def parse_form(text: str, variables: Sequence[str], place: str) -> Tuple[List[Fraction], Fraction]:
    """The coefficients of a form in the order of the variables, and its constant.

    >>> parse_form("x - 2*y + z/3 - 5", ("x", "y", "z"), "form 1")
    ([Fraction(1, 1), Fraction(-2, 1), Fraction(1, 3)], Fraction(-5, 1))
    >>> parse_form("x + w", ("x", "y"), "form 1")
    Traceback (most recent call last):
        ...
    arrange.errors.BadInput: form 1, column 5: there is no variable w among x, y
    """
    places: Dict[str, int] = {name: k for k, name in enumerate(variables)}
    coefficients = [Fraction(0)] * len(variables)
    constant = Fraction(0)
    for column, value, name in terms_of(text, place):
        if name is None:
            constant += value
        elif name in places:
            coefficients[places[name]] += value
        else:
            raise BadInput(f"{place}, column {column}", f"there is no variable {name} among {', '.join(variables)}")
    return coefficients, constant


def terms_of(text: str, place: str) -> List[Tuple[int, Fraction, Optional[str]]]:
    """The terms of a form: the column of the variable (of the number where there is none), the number, the variable."""
    terms: List[Tuple[int, Fraction, Optional[str]]] = []
    at = column_at(text, 0) - 1
    while at < len(text) or not terms:
        term = TERM.match(text, at)
        assert term is not None  # it matches nothing, too
        if not (term["number"] or term["name"]) or (terms and not term["sign"]):
            missing, where = ("term", term.end()) if term["sign"] or not terms else ("sign", at)
            raise BadInput(f"{place}, column {column_at(text, where)}", f"{text!r} has no {missing} there")
        column = term.start("name" if term["name"] else "number") + 1
        terms.append((column, _value_of(term, f"{place}, column {column}"), term["name"]))
        at = term.end()
    return terms


def column_at(text: str, at: int) -> int:
    """The column, from 1, of what stands at a place or behind the blanks there; at the end, one past the last of it."""
    behind = text[at:].lstrip()
    return len(text) - len(behind) + 1 if behind else len(text.rstrip()) + 1


def _value_of(term: re.Match[str], place: str) -> Fraction:
    """The number before the variable, with its sign, divided by the number behind the variable."""
    try:
        value = Fraction("".join((term["number"] or "1").split())) / int(term["below"] or 1)
    except ZeroDivisionError:
        raise BadInput(place, "a division by zero") from None
    return -value if term["sign"] == "-" else value


def numbered(count: int) -> Tuple[str, ...]:
    """The names x1, x2, .. of the program."""
    return tuple(f"x{k}" for k in range(1, count + 1))


def variables_of(variables: Variables, texts: Iterable[str]) -> Tuple[str, ...]:
    """The names of the variables that were given, as a list, a text or a number, or else those that the texts have.

    Names with one beginning and numbers, such as x1 and x3, stand for all from 1 to the greatest number. Others are
    taken in alphabetic order.

    >>> variables_of(None, ["x3 - x1"]), variables_of(None, ["z - x", "y"]), variables_of("a b", [])
    (('x1', 'x2', 'x3'), ('x', 'y', 'z'), ('a', 'b'))
    """
    if isinstance(variables, str):
        return named(re.split(r"[\s,]+", variables.strip()))
    if variables is None:
        return _variables_in(texts)
    if isinstance(variables, (list, tuple)):
        return named(list(map(str, variables)))
    return numbered(whole_number(variables, "variables"))


def named(names: Sequence[str]) -> Tuple[str, ...]:
    for k, name in enumerate(names, 1):
        if not NAME.fullmatch(name):
            raise BadInput(f"variable {k}", f"{name!r} is no name")
        if name in names[: k - 1]:
            raise BadInput(f"variable {k}", f"{name} stands there twice")
    return tuple(names)


def _variables_in(texts: Iterable[str]) -> Tuple[str, ...]:
    terms = (it for k, text in enumerate(texts, 1) for it in terms_of(text, f"form {k}"))
    return variables_among(name for _, _, name in terms if name)


def variables_among(given: Iterable[str]) -> Tuple[str, ...]:
    """The names of all variables where these are some: numbered ones up to the greatest number, others as they are."""
    names = sorted(set(given))
    parts = [re.fullmatch(r"([A-Za-z]+_?)([1-9][0-9]*)", name) for name in names]
    numbers = [int(part[2]) for part in parts if part]
    beginnings = {part[1] for part in parts if part}
    if len(numbers) == len(names) and len(beginnings) == 1:
        beginning = beginnings.pop()
        if max(numbers) > MOST_VARIABLES:
            raise BadInput("variables", f"{beginning}{max(numbers)} is the name of more than {MOST_VARIABLES} variables")
        return tuple(f"{beginning}{k}" for k in range(1, max(numbers) + 1))
    return tuple(names)
