"""What the matroid and the forms say of the Orlik-Solomon algebra and of relations: ideals, formality, resonance."""
from __future__ import annotations

from dataclasses import dataclass
from typing import List, Sequence, Tuple

from .answers import Flat
from .polynomials import ExteriorElement
from .rows import echelon


def boundary(members: Sequence[int], prime: int) -> ExteriorElement:
    """The boundary of the product of generators e_i, in rising order.

    >>> print(boundary((1, 2, 3), 31))
    e1*e2 - e1*e3 + e2*e3
    """
    rest = [tuple(it for it in members if it != left) for left in members]
    return ExteriorElement(prime, {it: (-1) ** k % prime for k, it in enumerate(rest)})


def has_short_relations(rows: Sequence[Sequence[int]], pencils: Sequence[Sequence[int]], prime: int) -> bool:
    """Whether all relations of the forms come from those of three forms of a pencil, so the arrangement is formal.

    >>> has_short_relations([(1, 0), (0, 1), (1, 30)], [(1, 2, 3)], 31)
    True
    """
    relations = []
    for first, second, *others in pencils:
        for third in others:
            relation = [0] * len(rows)
            columns = [rows[it - 1] for it in (first, second, third)]
            for place, factor in zip((first, second, third), _relation(columns, prime)):
                relation[place - 1] = factor
            relations.append(relation)
    return echelon(relations, prime).rank == len(rows) - echelon(rows, prime).rank


def _relation(rows: Sequence[Sequence[int]], prime: int) -> Tuple[int, int, int]:
    """Factors of three rows of rank 2, no two of them proportional, whose combination is zero."""
    one, two, three = rows
    for i in range(len(one)):
        for j in range(i):
            minor = (one[i] * two[j] - one[j] * two[i]) % prime
            if minor:
                first = (three[i] * two[j] - three[j] * two[i]) * pow(minor, -1, prime) % prime
                second = (one[i] * three[j] - one[j] * three[i]) * pow(minor, -1, prime) % prime
                return first, second, prime - 1
    raise AssertionError("two rows of a pencil are proportional")


@dataclass(frozen=True)
class LocalComponent:
    """A local component of the resonance variety: weights with the sum 0 on a pencil, and 0 elsewhere.

    `weights` are some of these, and `cohomology` is what `aomoto` says of them, from degree 0 on.
    """

    pencil: Flat
    weights: Tuple[int, ...]
    cohomology: Tuple[int, ...]

    @property
    def dimension(self) -> int:
        return len(self.pencil.hyperplanes) - 1

    @property
    def depth(self) -> int:
        """The dimension of the cohomology in degree 1."""
        return self.cohomology[1]


def local_weights(pencil: Flat, count: int) -> List[int]:
    """Weights on a pencil with the sum 0: 1 on all but its last hyperplane.

    >>> local_weights(Flat(2, (1, 3, 4)), 5)
    [1, 0, 1, -2, 0]
    """
    weights = [0] * count
    for it in pencil.hyperplanes:
        weights[it - 1] = 1
    weights[pencil.hyperplanes[-1] - 1] = 1 - len(pencil.hyperplanes)
    return weights
