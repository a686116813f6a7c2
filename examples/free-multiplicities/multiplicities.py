"""Multiplicities on the braid arrangements, and what the literature knows of their freeness in characteristic 0.

The braid arrangement on the vertices 1, .., n has the hyperplane x_i = x_j for each pair i < j; it is called A2 for
n = 3, A3 for n = 4 and A4 for n = 5. A multiplicity has a whole number, at least 1, for each pair. It is free where the
module of logarithmic derivations with these multiplicities is. The exponents are those of that module without the one 0
that the diagonal gives: n - 1 numbers, whose sum is that of the multiplicity.

Known are three things.

- On A2 every multiplicity is free (rank two). With the entries p <= q <= r the exponents are p + q and r where
  r >= p + q, and otherwise the two whole numbers with the same sum that are nearest to each other (A. Wakamiko, On the
  exponents of 2-multiarrangements, 2007).
- A vertex l is free where m_jk >= m_jl + m_kl - 1 for all other j, k. With a free vertex m is free where it is free on
  the other vertices, and its exponents are theirs and the sum of all m_jl (T. Abe, H. Terao and M. Wakefield, The Euler
  multiplicity and addition-deletion theorems for multiarrangements, 2008).
- Where m_ij = n_i + n_j + e_ij with whole numbers n_i >= 0 and e_ij in {-1, 0, 1}, and the signed graph e is
  signed-eliminable, m is free. Where all n_i are at least 1, or no e_ij is -1, the exponents are the sum of all n_i
  plus, for each vertex after the first in an elimination order, the sum of the e_ij to the vertices before it (T. Abe,
  K. Nuida and Y. Numata, Signed-eliminable graphs and free multiplicities on the braid arrangement, 2009). Otherwise
  they may be others: 1 1 1 4 4 4 is 0 + 2 - 1 on the first three pairs and 2 + 2 on the others, and has the exponents
  3, 6, 6 of its free vertex, not 5, 5, 5.

On A3 there are no other free multiplicities (M. DiPasquale, C. Francisco, J. Mermin and J. Schweig, Free and non-free
multiplicities on the A3 arrangement, 2020).
"""
from __future__ import annotations

from dataclasses import dataclass
from functools import lru_cache
from itertools import combinations, permutations, product
from typing import Dict, Iterator, List, Optional, Sequence, Tuple

Pair = Tuple[int, int]
Exponents = Tuple[int, ...]
Signs = Tuple[int, ...]  # of each pair, in the order of pairs_of: -1, 0 or 1

SIGNED_GRAPH = "signed graph"
FREE_VERTEX = "free vertex"
BOTH = "both"
NEITHER = "neither"


@lru_cache(maxsize=None)
def pairs_of(vertices: int) -> Tuple[Pair, ...]:
    """The pairs of vertices in lexicographic order.

    >>> pairs_of(3)
    ((1, 2), (1, 3), (2, 3))
    """
    return tuple(combinations(range(1, vertices + 1), 2))


@lru_cache(maxsize=None)
def places_of(vertices: int) -> Dict[Pair, int]:
    """The place of each pair, named in either order, among pairs_of."""
    places = {pair: k for k, pair in enumerate(pairs_of(vertices))}
    return {**places, **{(b, a): k for (a, b), k in places.items()}}


@dataclass(frozen=True)
class Multiplicity:
    """A whole number for each pair of the vertices, in the order of pairs_of."""

    vertices: int
    entries: Tuple[int, ...]

    def of(self, i: int, j: int) -> int:
        return self.entries[places_of(self.vertices)[i, j]]

    def at(self, vertex: int) -> int:
        """The sum over the pairs with the vertex."""
        return sum(self.of(vertex, other) for other in range(1, self.vertices + 1) if other != vertex)

    def without(self, vertex: int) -> Multiplicity:
        """The multiplicity on the other vertices, which are numbered anew in their order.

        >>> Multiplicity(4, (1, 2, 3, 4, 5, 6)).without(2)
        Multiplicity(vertices=3, entries=(2, 3, 6))
        """
        kept = zip(pairs_of(self.vertices), self.entries)
        return Multiplicity(self.vertices - 1, tuple(entry for pair, entry in kept if vertex not in pair))

    def __str__(self) -> str:
        return " ".join(map(str, self.entries))


# ---- up to symmetry


@lru_cache(maxsize=None)
def moves_of(vertices: int) -> Tuple[Tuple[int, ...], ...]:
    """For each permutation of the vertices, the place from which each pair takes its entry."""
    places = places_of(vertices)
    orders = permutations(range(1, vertices + 1))
    return tuple(tuple(places[order[a - 1], order[b - 1]] for a, b in pairs_of(vertices)) for order in orders)


def up_to_symmetry(vertices: int, greatest: int) -> Iterator[Multiplicity]:
    """Of each orbit of the permutations of the vertices the lexicographically least, with entries 1 to greatest.

    >>> [str(it) for it in up_to_symmetry(3, 2)]
    ['1 1 1', '1 1 2', '1 2 2', '2 2 2']
    """
    moves = moves_of(vertices)
    count = len(pairs_of(vertices))
    weights = [_power(greatest, k) for k in reversed(range(count))]
    seen = bytearray(_power(greatest, count))
    for number, entries in enumerate(product(range(1, greatest + 1), repeat=count)):
        if seen[number]:
            continue
        for move in moves:
            seen[sum(weight * (entries[k] - 1) for weight, k in zip(weights, move))] = 1
        yield Multiplicity(vertices, entries)


def orbits(vertices: int, greatest: int) -> int:
    """How many orbits there are, by Burnside's lemma: the mean number of multiplicities that a permutation fixes.

    >>> orbits(4, 8), orbits(5, 3), orbits(5, 4)
    (12496, 792, 10688)
    """
    moves = moves_of(vertices)
    return sum(_power(greatest, _cycles(move)) for move in moves) // len(moves)


def _power(base: int, exponent: int) -> int:
    return int(base ** exponent)


def _cycles(move: Sequence[int]) -> int:
    left = set(range(len(move)))
    count = 0
    while left:
        count += 1
        place = next(iter(left))
        while place in left:
            left.remove(place)
            place = move[place]
    return count


# ---- free vertices


def free_vertices(m: Multiplicity) -> List[int]:
    """The vertices l with m_jk >= m_jl + m_kl - 1 for all other j, k.

    >>> free_vertices(Multiplicity(4, (1, 1, 1, 3, 4, 5)))
    [1]
    """
    vertices = range(1, m.vertices + 1)
    found = []
    for vertex in vertices:
        others = combinations((it for it in vertices if it != vertex), 2)
        if all(m.of(j, k) >= m.of(j, vertex) + m.of(k, vertex) - 1 for j, k in others):
            found.append(vertex)
    return found


def exponents_on_three(m: Multiplicity) -> Exponents:
    """The exponents on A2.

    >>> exponents_on_three(Multiplicity(3, (1, 2, 4))), exponents_on_three(Multiplicity(3, (2, 3, 4)))
    ((3, 4), (4, 5))
    """
    low, middle, high = sorted(m.entries)
    if high >= low + middle:
        return low + middle, high
    half = sum(m.entries) // 2
    return half, sum(m.entries) - half


def by_free_vertex(m: Multiplicity) -> Optional[Exponents]:
    """The exponents, where some vertex is free and the multiplicity on the others is known to be free."""
    for vertex in free_vertices(m):
        rest = known_exponents(m.without(vertex))
        if rest is not None:
            return tuple(sorted((*rest, m.at(vertex))))
    return None


# ---- signed graphs


@lru_cache(maxsize=None)
def elimination_order(vertices: int, signs: Signs) -> Optional[Tuple[int, ...]]:
    """An order of the vertices that eliminates a signed graph, or None where there is none.

    For each vertex k and all i, j before it: if e_ik = e_jk is not 0, then e_ij is the same; and if e_ik is not 0 and
    e_ij = -e_ik, then e_jk is not 0. With any vertex that may come last the others have such an order, if all have.

    >>> elimination_order(4, (1, 1, 1, 1, 1, 1)), elimination_order(4, (1, 0, 1, 1, 0, 1))
    ((1, 2, 3, 4), None)
    """
    left = list(range(1, vertices + 1))
    order: List[int] = []
    while left:
        last = next((it for it in reversed(left) if _may_be_last(it, left, vertices, signs)), None)
        if last is None:
            return None
        left.remove(last)
        order.append(last)
    return tuple(reversed(order))


def _may_be_last(k: int, among: Sequence[int], vertices: int, signs: Signs) -> bool:
    places = places_of(vertices)
    for i, j in permutations((it for it in among if it != k), 2):
        ik, jk, ij = signs[places[i, k]], signs[places[j, k]], signs[places[i, j]]
        if ik != 0 and (jk == ik != ij or ij == -ik and jk == 0):
            return False
    return True


def signed_exponents(weights: Sequence[int], signs: Signs, order: Sequence[int]) -> Exponents:
    """The exponents of n_i + n_j + e_ij, where the order eliminates the signed graph e."""
    places = places_of(len(order))
    degrees = [sum(signs[places[i, k]] for i in order[:at]) for at, k in enumerate(order)]
    return tuple(sorted(sum(weights) + degree for degree in degrees[1:]))


def decompositions(m: Multiplicity) -> Iterator[Tuple[Tuple[int, ...], Signs]]:
    """All n_i >= 0 and e_ij in {-1, 0, 1} with m_ij = n_i + n_j + e_ij.

    >>> for weights, signs in decompositions(Multiplicity(3, (1, 1, 4))):
    ...     print(weights, signs)
    (0, 2, 2) (-1, -1, 0)
    (0, 2, 1) (-1, 0, 1)
    (0, 1, 2) (0, -1, 1)
    """
    greatest = min(m.of(1, j) for j in range(2, m.vertices + 1)) + 1
    for first in range(greatest + 1):
        for more in product((-1, 0, 1), repeat=m.vertices - 1):
            weights = (first, *(m.of(1, j) - first - sign for j, sign in enumerate(more, 2)))
            entries = zip(pairs_of(m.vertices), m.entries)
            signs = tuple(entry - weights[a - 1] - weights[b - 1] for (a, b), entry in entries)
            if min(weights) >= 0 and -1 <= min(signs) and max(signs) <= 1:
                yield weights, signs


def comes_from_signed_graph(m: Multiplicity) -> bool:
    """Whether the multiplicity is n_i + n_j + e_ij with a signed-eliminable graph e.

    >>> [comes_from_signed_graph(Multiplicity(3, entries)) for entries in ((1, 1, 4), (1, 1, 9))]
    [True, False]
    """
    return any(elimination_order(m.vertices, signs) is not None for _, signs in decompositions(m))


def by_signed_graph(m: Multiplicity) -> Optional[Exponents]:
    """The exponents, where it comes from such a graph with all n_i at least 1, or without an e_ij that is -1."""
    for weights, signs in decompositions(m):
        order = elimination_order(m.vertices, signs) if min(weights) >= 1 or min(signs) >= 0 else None
        if order is not None:
            return signed_exponents(weights, signs, order)
    return None


# ---- together


@lru_cache(maxsize=None)
def known_exponents(m: Multiplicity) -> Optional[Exponents]:
    """The exponents in characteristic 0, or None where the literature gives none: on A3 it is not free then."""
    return exponents_on_three(m) if m.vertices == 3 else by_free_vertex(m) or by_signed_graph(m)


def kind_of(m: Multiplicity) -> str:
    """By which of the two theorems a multiplicity on A3 or A4 is free: by either, by both, or by neither.

    >>> kind_of(Multiplicity(4, (2,) * 6)), kind_of(Multiplicity(4, (1, 1, 1, 1, 3, 8)))
    ('signed graph', 'free vertex')
    """
    vertex, graph = by_free_vertex(m) is not None, comes_from_signed_graph(m)
    return (BOTH if graph else FREE_VERTEX) if vertex else (SIGNED_GRAPH if graph else NEITHER)
