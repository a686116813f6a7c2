"""The prime fields that the program knows, and numbers taken into them."""
from __future__ import annotations

import operator
from dataclasses import dataclass
from fractions import Fraction
from typing import Any, Union

from .errors import BadInput

PRIMES = (5, 7, 13, 31, 101, 251, 32003)


@dataclass(frozen=True)
class Field:
    """The field with `prime` elements.

    >>> Field(31).residue("-1/2")
    15
    >>> Field(11)
    Traceback (most recent call last):
        ...
    arrange.errors.BadInput: field: 11 is none of 5, 7, 13, 31, 101, 251, 32003
    """

    prime: int

    def __post_init__(self) -> None:
        prime = whole_number(self.prime, "field")
        object.__setattr__(self, "prime", prime)
        if prime not in PRIMES:
            raise BadInput("field", f"{prime} is none of {', '.join(map(str, PRIMES))}")

    def __str__(self) -> str:
        return f"field {self.prime}"

    def residue(self, number: Any, place: str = "number") -> int:
        """The residue of an integer or a fraction, from 0 to p - 1."""
        if characteristic(number) not in (0, self.prime):
            raise BadInput(place, f"{number} is of characteristic {characteristic(number)}, and not {self.prime}")
        value = rational(number, place)
        if value.denominator % self.prime == 0:
            raise BadInput(place, f"{value} has no residue at {self.prime}, which divides its denominator")
        return value.numerator * pow(value.denominator, -1, self.prime) % self.prime


FieldLike = Union[Field, int, Any]  # or a field of Sage or sympy


def field_of(field: FieldLike) -> Field:
    """A field given as itself, as its number of elements, or as a field of Sage or sympy, such as GF(31)."""
    if isinstance(field, Field):
        return field
    given: Any = field
    if not hasattr(given, "characteristic"):
        return Field(given)
    prime = int(given.characteristic())
    order = getattr(field, "order", None)
    if callable(order) and order() != prime:
        raise BadInput("field", f"{field} has not as many elements as its characteristic {prime}")
    return Field(prime)


def whole_number(number: Any, place: str) -> int:
    """An integer of Python, or of any system whose integers are one for Python."""
    try:
        return operator.index(number)
    except TypeError:
        raise BadInput(place, f"{number!r} is no integer") from None


def rational(number: Any, place: str) -> Fraction:
    """An exact number: an integer, a fraction, a text such as "-2/3", or a rational number or residue of Sage."""
    try:
        if isinstance(number, (int, str, Fraction)):
            return Fraction(number)
        if hasattr(number, "lift"):
            number = number.lift()
        if hasattr(number, "numerator") and hasattr(number, "denominator"):
            return Fraction(_part(number.numerator), _part(number.denominator))
        return Fraction(operator.index(number))
    except (TypeError, ValueError, ZeroDivisionError):
        raise BadInput(place, f"{number!r} is no integer and no fraction") from None


def characteristic(thing: Any) -> int:
    """The characteristic of the ring that something of Sage lies in, and 0 of a number of Python."""
    parent = getattr(thing, "parent", None)
    ring = parent() if callable(parent) else None
    return int(ring.characteristic()) if hasattr(ring, "characteristic") else 0


def _part(part: Any) -> int:
    """A numerator or denominator, which in Sage is asked for by a call."""
    return operator.index(part() if callable(part) else part)
