"""Answers of freeness checked by this package's own arithmetic: nothing of them is taken from the program.

By Saito's criterion homogeneous logarithmic derivations, as many as there are variables, whose degrees have the sum of
the multiplicities, are a basis exactly where their determinant is not zero. That is shown by a point at which the matrix of
their values has an inverse, or by a cofactor matrix: one whose product with theirs is the identity times the product of
the forms with their multiplicities.
"""
from __future__ import annotations

from typing import Iterator, List, Optional, Sequence

from .answers import Freeness
from .polynomials import GradedVector, Polynomial, Ring

Matrix = Sequence[Sequence[Polynomial]]


def faults_of_basis(
    forms: Sequence[Polynomial], multiplicities: Sequence[int], basis: Sequence[GradedVector]
) -> Iterator[str]:
    """In words, why so many vectors are no homogeneous members of the module whose degrees have the right sum.

    >>> x, y = Ring(31, ("x", "y")).generators()
    >>> euler = GradedVector(1, (x, y))
    >>> list(faults_of_basis([x, y, x - y], [1, 1, 1], [euler, GradedVector(2, (x ** 2, x * y))]))
    []
    >>> list(faults_of_basis([x, y, x - y], [1, 1, 1], [euler, GradedVector(2, (x * y, x ** 2))]))
    ['member 2 makes of form 2, y, what is not divisible by it']
    """
    size = len(forms[0].ring.variables) if forms else len(basis)
    if len(basis) != size or any(len(it.entries) != size for it in basis):
        yield f"it has {len(basis)} members, and {size} are wanted, each with so many entries"
        return
    for k, member in enumerate(basis, 1):
        if not all(it.is_homogeneous(member.degree) for it in member.entries):
            yield f"member {k} is not homogeneous of degree {member.degree}"
        for i, (form, multiplicity) in enumerate(zip(forms, multiplicities), 1):
            if not is_divisible(member(form), form, multiplicity):
                power = f"by its power {multiplicity}" if multiplicity > 1 else "by it"
                yield f"member {k} makes of form {i}, {form}, what is not divisible {power}"
    total = sum(it.degree for it in basis)
    if total != sum(multiplicities):
        yield f"the degrees have the sum {total}, and the multiplicities {sum(multiplicities)}"


def is_divisible(polynomial: Polynomial, form: Polynomial, times: int) -> bool:
    """Whether a power of a form divides a polynomial."""
    for _ in range(times):
        polynomial, rest = divmod(polynomial, form)
        if rest:
            return False
    return True


def faults_of_values(forms: Sequence[Polynomial], freeness: Freeness, prime: int) -> Iterator[str]:
    """In words, why a point and a matrix don't show that the determinant of the basis is not zero."""
    point = freeness.point
    if point is None or len(point) != len(freeness.basis or ()):
        yield "it has no point with as many coordinates as there are variables"
        return
    for i, form in enumerate(forms, 1):
        if form(*point) % prime == 0:
            yield f"the point lies on hyperplane {i}"
    if not freeness.is_certified():
        yield "the matrix is not the inverse of the values of the basis at the point"


def faults_of_freeness(
    forms: Sequence[Polynomial], multiplicities: Sequence[int], freeness: Freeness, prime: int
) -> List[str]:
    """In words, why an answer that the module is free is not shown by what it says; nothing where it is."""
    if freeness.basis is None:
        return ["it has no basis"]
    faults = list(faults_of_basis(forms, multiplicities, freeness.basis))
    return faults or list(faults_of_values(forms, freeness, prime))


def faults_of_cofactor(
    forms: Sequence[Polynomial], multiplicities: Sequence[int], basis: Sequence[GradedVector], cofactor: Matrix,
    ring: Optional[Ring] = None,
) -> List[str]:
    """In words, why a basis and its cofactor matrix show no freeness: both products must be Q times the identity.

    Q is the product of the forms with their multiplicities, and the members of the basis are the rows of their matrix.
    The ring is that of the forms, and has to be given where there are none.

    >>> x, y = Ring(31, ("x", "y")).generators()
    >>> basis = [GradedVector(1, (x, y)), GradedVector(2, (x.ring.number(0), x * y - y ** 2))]
    >>> faults_of_cofactor([x, y, x - y], [1, 1, 1], basis, [[x * y - y ** 2, -y], [x.ring.number(0), x]])
    []
    """
    faults = list(faults_of_basis(forms, multiplicities, basis))
    size = len(basis)
    if len(cofactor) != size or any(len(row) != size for row in cofactor):
        return [*faults, f"the cofactor matrix has not {size} rows with as many entries"]
    if faults:
        return faults
    inside = ring or forms[0].ring
    whole = inside.product(form ** times for form, times in zip(forms, multiplicities))
    zero = inside.number(0)
    wanted = [[whole if i == j else zero for j in range(size)] for i in range(size)]
    rows = [it.entries for it in basis]
    for first, second in ((rows, cofactor), (cofactor, rows)):
        if product(first, second, inside) != wanted:
            order = "the basis and the cofactors" if first is rows else "the cofactors and the basis"
            faults.append(f"the product of {order} is not the product of the forms times the identity")
    return faults


def product(first: Matrix, second: Matrix, ring: Ring) -> List[List[Polynomial]]:
    """The product of two matrices of polynomials."""
    columns = list(zip(*second))
    return [[sum((a * b for a, b in zip(row, column)), ring.number(0)) for column in columns] for row in first]
