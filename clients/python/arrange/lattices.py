"""The lattice of flats of an arrangement, and what it alone decides, worked out here from the flats that are given."""
from __future__ import annotations

from collections import Counter
from functools import cached_property
from importlib import import_module
from math import comb
from typing import Any, Counter as CounterOf, Dict, Hashable, Iterable, Iterator, List, Optional, Sequence, Tuple, Union

from .answers import Flat
from .errors import BadInput
from .fields import whole_number
from .polynomials import Polynomial, Ring, polynomial_in_t
from .shown import MOST_FLATS, picture, table

FlatLike = Union[Flat, Iterable[int]]
Sets = Tuple[int, ...]  # sets of hyperplanes as binary numbers: hyperplane i is the digit of 2 ** (i - 1)


class Lattice:
    """The lattice of flats: by inclusion of the hyperplanes through them, from the whole space to the centre.

    Where a flat is wanted, its hyperplanes will do, and any others that have the same closure.

    >>> from arrange import Arrangement
    >>> lattice = Arrangement.graphic(3, [(1, 2), (2, 3), (1, 3)]).lattice()
    >>> len(lattice), lattice.rank, lattice.join([1], [2]), lattice.mobius([1, 2])
    (5, 2, Flat(rank=2, hyperplanes=(1, 2, 3)), 2)
    """

    def __init__(self, flats: Iterable[Flat]) -> None:
        self.flats: Tuple[Flat, ...] = tuple(sorted(flats, key=lambda it: it.rank))
        self.rank = self.flats[-1].rank if self.flats else 0
        self._sets: Sets = tuple(set_of(it.hyperplanes) for it in self.flats)
        self._places = {it: k for k, it in enumerate(self._sets)}
        self._levels = [range(0)] * (self.rank + 1)
        at = 0
        for rank in range(self.rank + 1):
            count = sum(it.rank == rank for it in self.flats[at:])
            self._levels[rank] = range(at, at + count)
            at += count
        self._check()
        self._above: Dict[int, Dict[int, int]] = {}  # for a flat that was asked about: the values of the flats above it

    def _check(self) -> None:
        ends = (self._levels[0], self._levels[-1])
        is_one_each = all(len(it) == 1 for it in ends) and len(self._places) == len(self.flats)
        if not self.flats or not all(self._levels) or not is_one_each:
            raise BadInput("flats", "these are not all flats of an arrangement")

    # ---- its flats

    def __len__(self) -> int:
        return len(self.flats)

    def __iter__(self) -> Iterator[Flat]:
        return iter(self.flats)

    def __contains__(self, flat: object) -> bool:
        """Whether it is a flat of the lattice: a Flat, or the hyperplanes of one."""
        if isinstance(flat, Flat):
            return self._places.get(set_of(flat.hyperplanes)) is not None and flat in self.of_rank(flat.rank)
        return isinstance(flat, (tuple, list, set, frozenset)) and set_of(flat) in self._places

    def __repr__(self) -> str:
        return f"<Lattice of {len(self)} flats by rank: {', '.join(str(len(it)) for it in self._levels)}>"

    def of_rank(self, rank: int) -> Tuple[Flat, ...]:
        """The flats of a rank, none where the rank is none of the lattice's."""
        level = self.places_of_rank(rank)
        return self.flats[level.start:level.stop]

    @property
    def bottom(self) -> Flat:
        """The whole space, on no hyperplane."""
        return self.flats[0]

    @property
    def top(self) -> Flat:
        """The centre, on all hyperplanes."""
        return self.flats[-1]

    @property
    def hyperplanes(self) -> Tuple[int, ...]:
        return self.top.hyperplanes

    # ---- closure, join and meet

    def closure(self, members: FlatLike) -> Flat:
        """The least flat whose hyperplanes have all of these among them.

        >>> from arrange import Arrangement
        >>> Arrangement.type_a(3).lattice().closure([1, 4])
        Flat(rank=2, hyperplanes=(1, 2, 4))
        """
        return self.flats[self._closure(self._set(members))]

    def _set(self, members: FlatLike) -> int:
        numbers = members.hyperplanes if isinstance(members, Flat) else tuple(members)
        whole = self._sets[-1]
        for it in numbers:
            index = whole_number(it, "hyperplane")
            if index < 1 or not whole >> (index - 1) & 1:
                raise BadInput(f"hyperplane {it}", "it is none of the lattice's")
        return set_of(numbers)

    def _closure(self, members: int) -> int:
        """The place of the closure: from the bottom, by a flat above that has the next hyperplane that is missing."""
        known = self._places.get(members)
        if known is not None:
            return known
        at = 0
        while missing := members & ~self._sets[at]:
            least = missing & -missing
            at = next(k for k in self._upper[at] if self._sets[k] & least)
        return at

    def rank_of(self, members: FlatLike) -> int:
        """The rank of any hyperplanes."""
        return self.closure(members).rank

    def join(self, one: FlatLike, other: FlatLike) -> Flat:
        """The least flat above both."""
        return self.flats[self._closure(self._set(self.closure(one)) | self._set(self.closure(other)))]

    def meet(self, one: FlatLike, other: FlatLike) -> Flat:
        """The greatest flat below both."""
        return self.flats[self._places[self._set(self.closure(one)) & self._set(self.closure(other))]]

    def is_below(self, one: FlatLike, other: FlatLike) -> bool:
        """Whether the first is below the second or the same."""
        return not self._set(self.closure(one)) & ~self._set(self.closure(other))

    def places_of_rank(self, rank: int) -> range:
        """The places among all flats of those of a rank."""
        return self._levels[rank] if 0 <= rank <= self.rank else range(0)

    def join_places(self, one: int, other: int) -> int:
        """The place of the join of the flats at two places."""
        return self._closure(self._sets[one] | self._sets[other])

    # ---- covers

    @cached_property
    def _upper(self) -> List[List[int]]:
        """For each flat the places of those that cover it.

        The flats of the next rank that have a hyperplane are a row of bits, and the rows of the members of a base are
        intersected. One of these flats alone has a further hyperplane, so there is an intersection more for each cover.
        """
        upper: List[List[int]] = [[] for _ in self.flats]
        bases: List[Optional[int]] = [None] * len(self.flats)
        bases[0] = 0
        for level, above in zip(self._levels, self._levels[1:]):
            rows = bit_rows(self._sets[above.start:above.stop])
            for k in level:
                both = (1 << len(above)) - 1
                base = bases[k] or 0
                for hyperplane in digits(base):
                    both &= rows.get(hyperplane, 0)
                upper[k] = sorted(above.start + it for it in self._covers_among(both, rows, above.start, self._sets[k]))
                for it in upper[k]:
                    if bases[it] is None:
                        new = self._sets[it] & ~self._sets[k]
                        bases[it] = base | new & -new
        return upper

    def _covers_among(self, both: int, rows: Dict[int, int], start: int, below: int) -> Iterator[int]:
        """The places, within a rank that begins at the start, of the flats among `both` that cover a flat."""
        missing = self._sets[-1] & ~below
        while missing:
            place = (both & rows.get((missing & -missing).bit_length() - 1, 0)).bit_length() - 1
            if place < 0:
                raise BadInput("flats", "these are not all flats of an arrangement")
            yield place
            missing &= ~self._sets[start + place]

    @cached_property
    def _lower(self) -> List[List[int]]:
        lower: List[List[int]] = [[] for _ in self.flats]
        for k, those in enumerate(self._upper):
            for it in those:
                lower[it].append(k)
        return lower

    def covers(self) -> List[Tuple[Flat, Flat]]:
        """Each flat with each one that covers it."""
        return [(self.flats[k], self.flats[it]) for k, those in enumerate(self._upper) for it in those]

    def upper_covers(self, flat: FlatLike) -> List[Flat]:
        """The flats that cover a flat."""
        return [self.flats[it] for it in self._upper[self._closure(self._set(flat))]]

    def lower_covers(self, flat: FlatLike) -> List[Flat]:
        """The flats that a flat covers."""
        return [self.flats[it] for it in self._lower[self._closure(self._set(flat))]]

    # ---- the Möbius function

    def mobius(self, flat: FlatLike, upper: Optional[FlatLike] = None) -> int:
        """The value from the whole space to a flat; or from a flat to another one, 0 where that is not above it.

        By Weisner's theorem it is minus the sum of the values of the flats that the upper one covers and that miss a
        hyperplane of it.

        >>> from arrange import Arrangement
        >>> lattice = Arrangement.type_a(3).lattice()
        >>> lattice.mobius(lattice.top), lattice.mobius([1], lattice.top)
        (-6, 2)
        """
        one = self._closure(self._set(flat))
        if upper is None:
            return self._values_above(0)[one]
        return self._values_above(one).get(self._closure(self._set(upper)), 0)

    def _values_above(self, flat: int) -> Dict[int, int]:
        """The values from a flat to each one above it, by their places."""
        if flat not in self._above:
            values = {flat: 1}
            below = self._sets[flat]
            row = self._upper[flat]
            while row:
                for it in row:
                    new = self._sets[it] & ~below
                    least = new & -new
                    values[it] = -sum(values[k] for k in self._lower[it] if k in values and not self._sets[k] & least)
                row = sorted({k for it in row for k in self._upper[it]})
            self._above[flat] = values
        return self._above[flat]

    def whitney(self, kind: int = 1) -> List[int]:
        """The Whitney numbers by rank: of the first kind, sums of Möbius values, or of the second, how many flats.

        >>> from arrange import Arrangement
        >>> lattice = Arrangement.type_a(3).lattice()
        >>> lattice.whitney(1), lattice.whitney(2)
        ([1, -6, 11, -6], [1, 6, 7, 1])
        """
        return [self.doubly_indexed(0, rank, kind) for rank in range(self.rank + 1)]

    def doubly_indexed(self, low: int, high: int, kind: int = 1) -> int:
        """The sum of the Möbius values of all pairs of a flat of one rank below one of another; or their number."""
        if kind not in (1, 2):
            raise BadInput("kind", f"{kind!r} is none of 1 and 2")
        if not 0 <= low <= self.rank or not 0 <= high <= self.rank:
            return 0
        level = self._levels[high]
        rows = (self._values_above(it) for it in self._levels[low])
        return sum(value if kind == 1 else 1 for row in rows for it, value in row.items() if it in level)

    def characteristic(self) -> Polynomial:
        """The characteristic polynomial of the lattice, of degree its rank."""
        return polynomial_in_t(self.whitney()[::-1])

    # ---- modular flats

    def is_modular(self, flat: FlatLike) -> bool:
        """Whether r(F) + r(G) is r of the join and r of the meet for all flats G.

        By Brylawski it is enough that F meets all flats of the complementary rank and one more in a hyperplane.
        """
        return self._is_modular(self._closure(self._set(flat)), len(self) - 1)

    def _is_modular(self, flat: int, within: int) -> bool:
        """Whether a flat is modular among those below another one, which is above it."""
        rank = self.flats[within].rank - self.flats[flat].rank + 1
        if rank > self.flats[within].rank:
            return True
        own, whole = self._sets[flat], self._sets[within]
        return all(self._sets[it] & own for it in self._levels[rank] if not self._sets[it] & ~whole)

    def modular_flats(self) -> List[Flat]:
        return [flat for k, flat in enumerate(self.flats) if self._is_modular(k, len(self) - 1)]

    def modular_chain(self) -> Optional[List[Flat]]:
        """A maximal chain of modular flats, or None where the arrangement is not supersolvable.

        >>> from arrange import Arrangement
        >>> [str(it) for it in Arrangement.boolean(2).lattice().modular_chain()]
        ['0: {}', '1: {1}', '2: {1 2}']
        """
        chain = [len(self) - 1]
        while chain[-1]:
            below = (it for it in self._lower[chain[-1]] if self._is_modular(it, chain[-1]))
            found = next(below, None)
            if found is None:
                return None
            chain.append(found)
        return [self.flats[it] for it in chain[::-1]]

    def is_supersolvable(self) -> bool:
        return self.modular_chain() is not None

    # ---- numbers of the matroid

    def tutte(self) -> Polynomial:
        """The Tutte polynomial.

        >>> from arrange import Arrangement
        >>> print(Arrangement.type_a(3).lattice().tutte())
        x^3 + y^3 + 3*x^2 + 4*x*y + 3*y^2 + 2*x + 2*y
        """
        x, y = Ring(None, ("x", "y")).generators()
        total = x.ring.number(0)
        for (rank, size), many in self._ranked_sets().items():
            total = total + many * (x - 1) ** (self.rank - rank) * (y - 1) ** (size - rank)
        return total

    def _ranked_sets(self) -> Dict[Tuple[int, int], int]:
        """How many sets of hyperplanes have each rank and size: those that span a flat are counted by inversion."""
        totals: CounterOf[Tuple[int, int]] = Counter()
        for k, flat in enumerate(self.flats):
            for it, value in self._values_above(k).items():
                totals[self.flats[it].rank, len(flat.hyperplanes)] += value
        sizes = range(len(self.hyperplanes) + 1)
        counts: CounterOf[Tuple[int, int]] = Counter()
        for (rank, most), value in totals.items():
            for size in sizes[: most + 1]:
                counts[rank, size] += value * comb(most, size)
        return {it: many for it, many in sorted(counts.items()) if many}

    def beta(self) -> int:
        """Crapo's invariant. Of two hyperplanes or more it is 0 exactly where the arrangement is a product.

        It is how many bounded regions a real arrangement has where any one of its hyperplanes is at infinity.
        """
        total = sum(self.flats[it].rank * value for it, value in self._values_above(0).items())
        return -total if self.rank % 2 else total

    def components(self) -> List[Tuple[int, ...]]:
        """The hyperplanes of the irreducible factors, whose product the arrangement is.

        >>> from arrange import Arrangement
        >>> Arrangement.graphic(5, [(1, 2), (3, 4), (2, 3), (4, 2)]).lattice().components()
        [(1,), (2, 3, 4)]
        """
        parts = [1 << (it - 1) for it in self.hyperplanes]
        for cocircuit in self._fundamental_cocircuits():
            parts = [it for it in parts if not it & cocircuit] + [sum(it for it in parts if it & cocircuit)]
        return sorted(tuple(it + 1 for it in digits(part)) for part in parts)

    def is_irreducible(self) -> bool:
        return len(self.components()) == 1

    def base(self) -> Tuple[int, ...]:
        """The first hyperplanes that are independent, as many as the rank."""
        base, at = 0, 0
        while self.flats[at].rank < self.rank:
            missing = self._sets[-1] & ~self._sets[at]
            base |= missing & -missing
            at = self._closure(base)
        return tuple(it + 1 for it in digits(base))

    def _fundamental_cocircuits(self) -> Iterator[int]:
        """For each member of a base the hyperplanes outside the span of the other members."""
        base = set_of(self.base())
        for it in digits(base):
            yield self._sets[-1] & ~self._sets[self._closure(base & ~(1 << it))]

    # ---- flats that look alike

    def kinds(self) -> List[Tuple[Flat, ...]]:
        """The flats in parts by rank: those of a part are on as many hyperplanes, with as many covers in each part.

        It is the coarsest such partition. Flats that a symmetry exchanges are of one kind.

        >>> from arrange import Arrangement
        >>> [len(it) for it in Arrangement.type_a(3).lattice().kinds()]
        [1, 6, 3, 4, 1]
        """
        colours = [(flat.rank, len(flat.hyperplanes)) for flat in self.flats]
        kinds = _numbered(colours)
        while True:
            above = [tuple(sorted(kinds[it] for it in those)) for those in self._upper]
            below = [tuple(sorted(kinds[it] for it in those)) for those in self._lower]
            refined = _numbered(list(zip(kinds, above, below)))
            if max(refined) == max(kinds):
                break
            kinds = refined
        parts: Dict[int, List[Flat]] = {}
        for kind, flat in zip(kinds, self.flats):
            parts.setdefault(kind, []).append(flat)
        return sorted((tuple(it) for it in parts.values()), key=lambda it: (it[0].rank, len(it[0].hyperplanes)))

    # ---- for others

    def to_networkx(self) -> Any:
        """A graph of networkx: an edge for each cover, and for each flat its `rank` and its value as `mobius`."""
        graph = import_module("networkx").DiGraph()
        values = self._values_above(0)
        for k, flat in enumerate(self.flats):
            graph.add_node(flat, rank=flat.rank, mobius=values[k])
        graph.add_edges_from(self.covers())
        return graph

    def _repr_svg_(self) -> Optional[str]:
        return picture("lattice_picture", self.flats, "the arrangement") if len(self) <= MOST_FLATS else None

    def _repr_html_(self) -> str:
        ranks = range(self.rank + 1)
        return table(["rank", *ranks], [["flats", *self.whitney(2)], ["Möbius values", *self.whitney(1)]])


def _numbered(colours: Sequence[Hashable]) -> List[int]:
    """Colours as numbers, in the order in which they come first."""
    seen: Dict[Hashable, int] = {}
    return [seen.setdefault(it, len(seen)) for it in colours]


def set_of(members: Iterable[int]) -> int:
    """A set of hyperplanes as a binary number."""
    digits_of = 0
    for it in members:
        digits_of |= 1 << (it - 1)
    return digits_of


def digits(number: int) -> List[int]:
    """The places of the ones of a binary number, from 0.

    >>> digits(0b1101)
    [0, 2, 3]
    """
    found = []
    while number:
        least = number & -number
        found.append(least.bit_length() - 1)
        number ^= least
    return found


def bit_rows(sets: Sequence[int]) -> Dict[int, int]:
    """For each digit which of the sets have it, as a binary number."""
    rows: Dict[int, bytearray] = {}
    for k, it in enumerate(sets):
        for digit in digits(it):
            rows.setdefault(digit, bytearray(len(sets) // 8 + 1))[k // 8] |= 1 << k % 8
    return {digit: int.from_bytes(row, "little") for digit, row in rows.items()}
