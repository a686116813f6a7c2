"""Polynomials, vectors of them and elements of the exterior algebra, with the text that people and systems read."""
from __future__ import annotations

import re
from dataclasses import dataclass
from fractions import Fraction
from typing import Dict, Iterable, List, Mapping, Optional, Sequence, Tuple, Union

from .errors import BadInput

Exponents = Tuple[int, ...]


# ---- how each system writes


@dataclass(frozen=True)
class Style:
    """How a system writes a variable with a number, a power and a product."""

    numbered: str
    power: str = "^{}"
    times: str = "*"

    def name(self, variable: str) -> str:
        """The variable in this system, where x12 and x_12 count as the variable x with the number 12."""
        parts = re.fullmatch(r"([A-Za-z]+)_?([0-9]+)", variable)
        return self.numbered.format(*parts.groups()) if parts and self.numbered else variable

    def product(self, coefficient: int, factors: Sequence[Tuple[str, int]]) -> str:
        """A term without its sign, of a positive coefficient."""
        texts = [self.name(it) + (self.power.format(power) if power > 1 else "") for it, power in factors]
        return self.times.join(([str(coefficient)] if coefficient != 1 or not texts else []) + texts)

    def sum(self, terms: Sequence[Tuple[int, Sequence[Tuple[str, int]]]]) -> str:
        text = ""
        for coefficient, factors in terms:
            sign = ("-", "+")[coefficient > 0]
            text += f" {sign} " if text else "-" * (coefficient < 0)
            text += self.product(abs(coefficient), factors)
        return text or "0"


STYLES = {
    "plain": Style(""),
    "sage": Style(""),
    "macaulay2": Style("{}_{}"),
    "singular": Style("{}({})"),
    "latex": Style("{}_{{{}}}", "^{{{}}}", " "),
}


class Text:
    """What writes itself as `text(system)` in each of the styles."""

    def text(self, system: str) -> str:
        raise NotImplementedError

    def __str__(self) -> str:
        return self.text("plain")

    def latex(self) -> str:
        return self.text("latex")

    def macaulay2(self) -> str:
        return self.text("macaulay2")

    def singular(self) -> str:
        return self.text("singular")

    def sage(self) -> str:
        return self.text("sage")

    def _latex_(self) -> str:
        return self.latex()

    def _repr_latex_(self) -> str:
        return f"${self.latex()}$"


# ---- rings and polynomials


@dataclass(frozen=True)
class Ring(Text):
    """A polynomial ring over the field with `prime` elements, or over the integers where that is None.

    >>> ring = Ring(31, ("x1", "x2"))
    >>> ring.macaulay2(), ring.singular(), ring.sage()
    ('ZZ/31[x_1, x_2]', 'ring R = 31, (x(1), x(2)), dp;', "PolynomialRing(GF(31), ['x1', 'x2'])")
    """

    prime: Optional[int]
    variables: Tuple[str, ...]

    def text(self, system: str) -> str:
        names = [STYLES[system].name(it) for it in self.variables]
        joined = ", ".join(names)
        if system == "singular":
            return f"ring R = {'integer' if self.prime is None else self.prime}, ({joined}), dp;"
        if system == "sage":
            return f"PolynomialRing({'ZZ' if self.prime is None else f'GF({self.prime})'}, {names})"
        if system == "macaulay2":
            return f"{'ZZ' if self.prime is None else f'ZZ/{self.prime}'}[{joined}]"
        if system == "latex":
            return (r"\mathbb{Z}" if self.prime is None else rf"\mathbb{{F}}_{{{self.prime}}}") + f"[{joined}]"
        return f"{'Z' if self.prime is None else f'F{self.prime}'}[{joined}]"

    def signed(self, coefficient: int) -> int:
        """The coefficient as it is written: of least absolute value modulo the prime."""
        return coefficient if self.prime is None or 2 * coefficient < self.prime else coefficient - self.prime

    # ---- its elements

    def polynomial(self, terms: Mapping[Exponents, int]) -> Polynomial:
        """The polynomial with these terms, whose coefficients are any integers."""
        taken = ((it, value if self.prime is None else value % self.prime) for it, value in terms.items())
        return Polynomial(self, {it: value for it, value in taken if value})

    def number(self, value: int) -> Polynomial:
        return self.polynomial({(0,) * len(self.variables): value})

    def form(self, coefficients: Sequence[int]) -> Polynomial:
        """The linear form with these coefficients."""
        units = (tuple(int(j == k) for j in range(len(self.variables))) for k in range(len(self.variables)))
        return self.polynomial(dict(zip(units, coefficients)))

    def generators(self) -> Tuple[Polynomial, ...]:
        """The variables.

        >>> x, y = Ring(31, ("x", "y")).generators()
        >>> print((x + y) ** 2 - x * y, "|", (x ** 2 - y ** 2) // (x - y))
        x^2 + x*y + y^2 | x + y
        """
        size = len(self.variables)
        return tuple(self.form([int(j == k) for j in range(size)]) for k in range(size))

    def product(self, factors: Iterable[Polynomial]) -> Polynomial:
        result = self.number(1)
        for it in factors:
            result = result * it
        return result


@dataclass(frozen=True, repr=False)
class Polynomial(Text):
    """A polynomial as its `ring` and `terms`, from exponents to coefficients, without zeros.

    Modulo a prime the coefficients are residues. Where it is written they are of least absolute value, and the terms
    stand from the greatest in the graded reverse lexicographic order. It has sums, products, powers, and quotients and
    remainders by a polynomial whose greatest term has a coefficient with an inverse, such as a form.

    >>> square = Polynomial(Ring(31, ("x1", "x2")), {(1, 1): 1, (0, 2): 30})
    >>> print(square)
    x1*x2 - x2^2
    >>> square.latex(), square.macaulay2(), square.singular()
    ('x_{1} x_{2} - x_{2}^{2}', 'x_1*x_2 - x_2^2', 'x(1)*x(2) - x(2)^2')
    >>> square(5, 2), square.degree(), square.coefficient(0, 2)
    (6, 2, 30)
    """

    ring: Ring
    terms: Mapping[Exponents, int]

    def __hash__(self) -> int:
        return hash((self.ring, frozenset(self.terms.items())))

    def __repr__(self) -> str:
        return f"Polynomial({str(self)!r})"

    def __bool__(self) -> bool:
        return bool(self.terms)

    def __call__(self, *point: int) -> int:
        """The value at a point, a residue where the ring has a prime."""
        total = 0
        for exponents, coefficient in self.terms.items():
            for coordinate, exponent in zip(point, exponents):
                coefficient *= pow(coordinate, exponent, self.ring.prime)
            total += coefficient
        return total if self.ring.prime is None else total % self.ring.prime

    # ---- arithmetic

    def _other(self, other: Operand) -> Optional[Polynomial]:
        """The other operand as one of the ring, or None where it is of another type."""
        if isinstance(other, int):
            return self.ring.number(other)
        if isinstance(other, Polynomial):
            if other.ring != self.ring:
                raise BadInput("polynomial", f"{other} lies in {other.ring}, and {self} in {self.ring}")
            return other
        return None

    def __neg__(self) -> Polynomial:
        return self.ring.polynomial({it: -value for it, value in self.terms.items()})

    def __add__(self, other: Operand) -> Polynomial:
        added = self._other(other)
        if added is None:
            return NotImplemented
        terms = dict(self.terms)
        for exponents, value in added.terms.items():
            terms[exponents] = terms.get(exponents, 0) + value
        return self.ring.polynomial(terms)

    __radd__ = __add__

    def __sub__(self, other: Operand) -> Polynomial:
        subtracted = self._other(other)
        if subtracted is None:
            return NotImplemented
        return self + -subtracted

    def __rsub__(self, other: int) -> Polynomial:
        return -self + other

    def __mul__(self, other: Operand) -> Polynomial:
        factor = self._other(other)
        if factor is None:
            return NotImplemented
        terms: Dict[Exponents, int] = {}
        for exponents, value in self.terms.items():
            for more, times in factor.terms.items():
                both = tuple(a + b for a, b in zip(exponents, more))
                terms[both] = terms.get(both, 0) + value * times
        return self.ring.polynomial(terms)

    __rmul__ = __mul__

    def __pow__(self, exponent: int) -> Polynomial:
        if exponent < 0:
            raise BadInput("exponent", f"{exponent} is negative")
        return self.ring.product([self] * exponent)

    def __divmod__(self, divisor: Operand) -> Tuple[Polynomial, Polynomial]:
        """The quotient, and the remainder: no term of it is divisible by the greatest term of the divisor."""
        by = self._other(divisor)
        if by is None:
            return NotImplemented
        lead, inverse = by._lead()
        rest, quotient, remainder = self, self.ring.number(0), self.ring.number(0)
        while rest:
            greatest = rest.in_order()[0]
            term = self.ring.polynomial({greatest: rest.terms[greatest]})
            more = tuple(a - b for a, b in zip(greatest, lead))
            if min(more) < 0:
                remainder, rest = remainder + term, rest - term
            else:
                part = self.ring.polynomial({more: rest.terms[greatest] * inverse})
                quotient, rest = quotient + part, rest - part * by
        return quotient, remainder

    def _lead(self) -> Tuple[Exponents, int]:
        """The exponents of the greatest term, and the inverse of its coefficient."""
        if not self:
            raise ZeroDivisionError("division by the polynomial 0")
        lead = self.in_order()[0]
        value = self.terms[lead]
        if self.ring.prime is None and abs(value) != 1:
            raise BadInput("divisor", f"the coefficient {value} of its greatest term has no inverse in the integers")
        return lead, value if self.ring.prime is None else pow(value, -1, self.ring.prime)

    def __floordiv__(self, divisor: Operand) -> Polynomial:
        return divmod(self, divisor)[0]

    def __mod__(self, divisor: Operand) -> Polynomial:
        return divmod(self, divisor)[1]

    def derivative(self, variable: int) -> Polynomial:
        """The derivative by a variable, which is counted from 0.

        >>> x, y = Ring(31, ("x", "y")).generators()
        >>> print((x ** 2 * y + y).derivative(0))
        2*x*y
        """
        terms: Dict[Exponents, int] = {}
        for exponents, value in self.terms.items():
            if exponents[variable]:
                lower = tuple(it - (k == variable) for k, it in enumerate(exponents))
                terms[lower] = value * exponents[variable]
        return self.ring.polynomial(terms)

    # ---- what it is made of

    def linear_row(self) -> Optional[Tuple[List[int], int]]:
        """The coefficients of a form and its constant, or None where its degree is above 1.

        >>> (Ring(31, ("x", "y")).form([1, -1]) + 5).linear_row()
        ([1, 30], 5)
        """
        if self.degree() > 1:
            return None
        size = len(self.ring.variables)
        units = [tuple(int(j == k) for j in range(size)) for k in range(size)]
        return [self.coefficient(*it) for it in units], self.coefficient(*[0] * size)

    def is_homogeneous(self, degree: int) -> bool:
        """Whether each term has this degree, as is so of the polynomial 0."""
        return all(sum(it) == degree for it in self.terms)

    def degree(self) -> int:
        """The greatest degree of a term, and 0 of the polynomial 0."""
        return max((sum(it) for it in self.terms), default=0)

    def coefficient(self, *exponents: int) -> int:
        return self.terms.get(exponents, 0)

    def coefficients(self) -> List[int]:
        """Of a polynomial in one variable: its coefficients from degree 0 up to its degree."""
        return [self.coefficient(k) for k in range(self.degree() + 1)]

    def in_order(self) -> List[Exponents]:
        """The exponents of its terms, from the greatest in grevlex."""
        return sorted(self.terms, key=lambda it: (-sum(it), it[::-1]))

    def text(self, system: str) -> str:
        terms = []
        for exponents in self.in_order():
            powers = [(name, e) for name, e in zip(self.ring.variables, exponents) if e]
            terms.append((self.ring.signed(self.terms[exponents]), powers))
        return STYLES[system].sum(terms)


Operand = Union[int, Polynomial]


def polynomial_in_t(coefficients: Sequence[int]) -> Polynomial:
    """The polynomial over the integers with these coefficients, from degree 0 on.

    >>> print(polynomial_in_t([0, -1, 1]))
    t^2 - t
    """
    return Polynomial(Ring(None, ("t",)), {(k,): c for k, c in enumerate(coefficients) if c})


# ---- vectors


@dataclass(frozen=True, repr=False)
class GradedVector(Text):
    """A vector of polynomials with its degree."""

    degree: int
    entries: Tuple[Polynomial, ...]

    def __repr__(self) -> str:
        return f"GradedVector('{self.degree}: {self}')"

    def __call__(self, polynomial: Polynomial) -> Polynomial:
        """What it makes of a polynomial as a derivation: the sum of its entries times the derivatives.

        >>> x, y = Ring(31, ("x", "y")).generators()
        >>> print(GradedVector(1, (x, y))(x ** 2 + x * y))
        2*x^2 + 2*x*y
        """
        parts = (it * polynomial.derivative(k) for k, it in enumerate(self.entries))
        return sum(parts, polynomial.ring.number(0))

    def text(self, system: str) -> str:
        texts = [it.text(system) for it in self.entries]
        if system == "latex":
            return rf"\begin{{pmatrix}} {' & '.join(texts)} \end{{pmatrix}}"
        opening, closing = {"macaulay2": ("{", "}"), "singular": ("[", "]")}.get(system, ("(", ")"))
        return f"{opening}{', '.join(texts)}{closing}"


def matrix_text(vectors: Sequence[GradedVector], system: str) -> str:
    """The matrix of some vectors as a system reads it.

    They are its columns in Macaulay2 and Singular, whose maps and modules have generators as columns, and its rows in
    Sage and LaTeX.
    """
    rows = [[it.text(system) for it in vector.entries] for vector in vectors]
    if system == "singular":
        return ", ".join(it.text(system) for it in vectors)
    if system == "latex":
        return r"\begin{pmatrix} " + r" \\ ".join(" & ".join(row) for row in rows) + r" \end{pmatrix}"
    if system == "macaulay2":
        return "matrix {" + ", ".join("{" + ", ".join(column) + "}" for column in zip(*rows)) + "}"
    return "matrix([" + ", ".join("[" + ", ".join(row) + "]" for row in rows) + "])"


# ---- the exterior algebra


@dataclass(frozen=True, repr=False)
class ExteriorElement(Text):
    """An element of the exterior algebra: `terms` from rising tuples of generators to residues, without zeros.

    >>> element = ExteriorElement(31, {(1, 2): 30, (1, 3): 1, (): 4})
    >>> print(element)
    4 - e1*e2 + e1*e3
    >>> element.latex()
    '4 - e_{1} e_{2} + e_{1} e_{3}'
    """

    prime: Optional[int]
    terms: Mapping[Tuple[int, ...], int]

    def __hash__(self) -> int:
        return hash((self.prime, frozenset(self.terms.items())))

    def __repr__(self) -> str:
        return f"ExteriorElement({str(self)!r})"

    def __bool__(self) -> bool:
        return bool(self.terms)

    def text(self, system: str) -> str:
        signed = Ring(self.prime, ()).signed
        in_order = sorted(self.terms, key=lambda it: (len(it), it))
        return STYLES[system].sum([(signed(self.terms[it]), [(f"e{k}", 1) for k in it]) for it in in_order])
