"""Polynomials in one variable over the integers, split into the linear factors that they have there."""
from __future__ import annotations

from dataclasses import dataclass
from fractions import Fraction
from typing import Dict, Iterator, List, Sequence, Tuple

from .errors import BadInput
from .polynomials import Polynomial, Text, polynomial_in_t


@dataclass(frozen=True, repr=False)
class Factored(Text):
    """A polynomial as a product of linear factors, with their powers, and of what is left.

    >>> factors = factored(polynomial_in_t([0, -6, 11, -6, 1]))
    >>> print(factors)
    t*(t - 1)*(t - 2)*(t - 3)
    >>> factors.roots
    {Fraction(0, 1): 1, Fraction(1, 1): 1, Fraction(2, 1): 1, Fraction(3, 1): 1}
    """

    linear: Tuple[Tuple[Polynomial, int], ...]
    rest: Polynomial

    def __repr__(self) -> str:
        return f"Factored({str(self)!r})"

    @property
    def roots(self) -> Dict[Fraction, int]:
        """The rational roots of the linear factors with their multiplicities."""
        return {-Fraction(it.coefficient(0), it.coefficient(1)): power for it, power in self.linear}

    def splits(self) -> bool:
        """Whether nothing is left but a number."""
        return self.rest.degree() == 0

    def product(self) -> Polynomial:
        return self.rest.ring.product([it ** power for it, power in self.linear]) * self.rest

    def text(self, system: str) -> str:
        times = " " if system == "latex" else "*"
        power_of = "^{{{}}}" if system == "latex" else "^{}"
        parts = [_bracketed(it, system) + (power_of.format(power) if power > 1 else "") for it, power in self.linear]
        if self.rest != self.rest.ring.number(1) or not parts:
            parts.append(_bracketed(self.rest, system))
        return times.join(parts)


def _bracketed(polynomial: Polynomial, system: str) -> str:
    text = polynomial.text(system)
    return f"({text})" if len(polynomial.terms) > 1 else text


def factored(polynomial: Polynomial) -> Factored:
    """The polynomial in factors t - a and 1 + a t for integers a, such as a characteristic or a Poincaré polynomial.

    >>> print(factored(polynomial_in_t([1, 6, 11, 6])), factored(polynomial_in_t([-19, 27, -9, 1])), sep=" | ")
    (t + 1)*(2*t + 1)*(3*t + 1) | (t - 1)*(t^2 - 8*t + 19)
    """
    if polynomial.ring.prime is not None or len(polynomial.ring.variables) != 1:
        raise BadInput("polynomial", f"{polynomial} is none in one variable over the integers")
    left = polynomial.coefficients()
    linear: Dict[Tuple[int, int], int] = {}
    for root in _integer_roots(left):
        left = _quotient(left, root)
        linear[-root, 1] = linear.get((-root, 1), 0) + 1
    for root in _integer_roots(left[::-1]):  # of the reversed polynomial: the inverses of roots
        left = _quotient(left[::-1], root)[::-1]
        linear[1, -root] = linear.get((1, -root), 0) + 1
    ring = polynomial.ring
    factors = [(ring.polynomial({(0,): low, (1,): high}), power) for (low, high), power in linear.items()]
    return Factored(tuple(factors), ring.polynomial({(k,): value for k, value in enumerate(left)}))


def _integer_roots(coefficients: Sequence[int]) -> Iterator[int]:
    """The integer roots, each as often as its multiplicity, from the least absolute value."""
    left = list(coefficients)
    for root in range(_bound(left) + 1):
        for signed in dict.fromkeys((root, -root)):
            while len(left) > 1 and _value(left, signed) == 0:
                left = _quotient(left, signed)
                yield signed


def _bound(coefficients: Sequence[int]) -> int:
    """A bound on the absolute value of integer roots, by Fujiwara: twice the greatest k-th root of a quotient."""
    lead, degree = abs(coefficients[-1]), len(coefficients) - 1
    bound = 0
    for k in range(1, degree + 1):
        while bound ** k * lead < abs(coefficients[degree - k]):
            bound += 1
    return 2 * bound


def _value(coefficients: Sequence[int], at: int) -> int:
    value = 0
    for it in reversed(coefficients):
        value = value * at + it
    return value


def _quotient(coefficients: Sequence[int], root: int) -> List[int]:
    """What is left of a polynomial that is divided by t minus its root."""
    carried, found = 0, []
    for it in reversed(coefficients[1:]):
        carried = carried * root + it
        found.append(carried)
    return found[::-1]
