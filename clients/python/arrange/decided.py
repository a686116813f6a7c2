"""What an arrangement has besides its questions: its lattice, arrangements made from it, what the answers decide."""
from __future__ import annotations

from fractions import Fraction
from typing import TYPE_CHECKING, Any, FrozenSet, Iterable, Iterator, List, Optional, Sequence, Tuple, Union, cast

from . import chains, rationals, verification
from .answers import Certificate, Flat, Freeness
from .builds import Build, Deleted, Forms, Restricted, Row
from .errors import BadInput
from .factors import Factored, factored
from .fields import whole_number
from .lattices import Lattice
from .linear_forms import numbered
from .matroids import LocalComponent, boundary, has_short_relations, local_weights
from .polynomials import ExteriorElement, Polynomial
from .program import ask
from .questions import Multiplicities, Question
from .rows import Residues, echelon, monic, trace_rows, traces

if TYPE_CHECKING:
    from .arrangements import Arrangement

FlatLike = Union[Flat, Iterable[int]]
AFFINE = "its hyperplanes are affine, and this is asked of central ones, such as its cone"


class Decided:
    """The part of an `Arrangement` that stands over its answers. Each method says which questions it asks."""

    @property
    def _arrangement(self) -> Arrangement:
        return cast("Arrangement", self)

    @property
    def _central(self) -> Arrangement:
        """The arrangement where its hyperplanes all go through the origin by what they are made of."""
        if self._arrangement.is_affine:
            raise BadInput("arrangement", AFFINE)
        return self._arrangement

    # ---- the lattice of flats

    def lattice(self) -> Lattice:
        """The lattice of flats.

        >>> from arrange import Arrangement
        >>> Arrangement.type_a(3).lattice()
        <Lattice of 15 flats by rank: 1, 6, 7, 1>
        """
        return Lattice(self._central.flats())

    def factored_characteristic(self) -> Factored:
        """The characteristic polynomial in its linear factors.

        >>> from arrange import Arrangement
        >>> print(Arrangement.type_b(3, 101).factored_characteristic())
        (t - 1)*(t - 3)*(t - 5)
        """
        return factored(self._arrangement.characteristic())

    def factored_poincare(self) -> Factored:
        """The Poincaré polynomial in its linear factors."""
        return factored(self._arrangement.poincare())

    def regions(self) -> int:
        """How many regions real hyperplanes with the same matroid cut the space into: the Poincaré polynomial at 1.

        >>> from arrange import Arrangement
        >>> Arrangement.type_a(3).regions(), Arrangement.type_a(3).bounded_regions()
        (24, 2)
        """
        return self._arrangement.poincare()(1)

    def bounded_regions(self) -> int:
        """How many of them are bounded where one hyperplane, whichever, is at infinity, and the centre a point.

        It is Crapo's invariant, from the characteristic polynomial: its derivative, without the factors t, at 1. Of
        affine hyperplanes it is how many of their own regions are, the absolute value of that polynomial at 1.
        """
        whole = self._arrangement.characteristic().coefficients()
        if self._arrangement.is_affine:
            return abs(sum(whole))
        least = next(k for k, it in enumerate(whole) if it)
        return abs(sum(k * it for k, it in enumerate(whole[least:])))

    # ---- arrangements that are made from it

    def _closure(self, flat: FlatLike) -> Tuple[int, ...]:
        """The hyperplanes whose forms lie in the span of those of a flat."""
        arrangement = self._central
        rows = arrangement.hyperplanes()
        span = echelon([rows[it - 1] for it in arrangement._members(flat)], arrangement.field.prime)
        return tuple(k for k, row in enumerate(rows, 1) if not any(span.rest(row)))

    def localize(self, flat: FlatLike) -> Arrangement:
        """The arrangement of the hyperplanes through a flat.

        >>> from arrange import Arrangement
        >>> print(*Arrangement.type_a(3, 31).localize([1, 4]), sep=", ")
        x1 - x2, x1 - x3, x2 - x3
        """
        return self._central.keep(self._closure(flat))

    def restrict_to(self, flat: FlatLike) -> Arrangement:
        """The arrangement that the others cut out of a flat, hyperplane by hyperplane in the coordinates of `restrict`.

        >>> from arrange import Arrangement
        >>> len(Arrangement.type_b(4, 101).restrict_to([5, 7]))
        4
        """
        arrangement = self._central
        prime = arrangement.field.prime
        rows: Sequence[Residues] = arrangement.hyperplanes()
        left = {rows[it - 1] for it in arrangement._members(flat)}
        while left:
            index = next(k for k, row in enumerate(rows, 1) if row in left)
            own = rows[index - 1]
            left = set(trace_rows([row for row in rows if row in left], own, prime))
            rows = trace_rows(rows, own, prime)
            arrangement = arrangement.restrict(index)
        return arrangement

    def ziegler_multiplicities(self, index: int) -> List[int]:
        """How many hyperplanes cut each one out of a hyperplane, in the order of `restrict`.

        >>> from arrange import Arrangement
        >>> Arrangement.type_a(3, 31).ziegler_multiplicities(1)
        [2, 2, 1]
        """
        rows = self._central.hyperplanes()
        places = traces(rows, rows[whole_number(index, "hyperplane") - 1], self._central.field.prime)
        found = [it for it in places if it is not None]
        return [found.count(k) for k in range(len(set(found)))]

    def essentialization(self) -> Arrangement:
        """The arrangement in as many of the variables as its rank, where its forms have the same relations.

        >>> from arrange import Arrangement
        >>> print(Arrangement.type_a(2, 31).essentialization())
        3 hyperplanes in x1, x2 over field 31: forms 2 [1 30, 1 0, 0 1]
        """
        arrangement = self._central
        rows, number = self._exact()
        columns = echelon(arrangement.hyperplanes(), arrangement.field.prime).columns()
        if not columns:
            raise BadInput("dimension", "an arrangement without hyperplanes has no essentialization in a variable")
        cut = tuple(tuple(row[k] for k in columns) for row in rows)
        names = tuple(arrangement.variables[k] for k in columns)
        return type(arrangement)(arrangement.field, Forms(len(columns), cut, False, number), names)

    def _exact(self) -> Tuple[Tuple[Row, ...], int]:
        """The forms as they were given, where they are rational; or residues, with their characteristic."""
        arrangement = self._central
        if _is_cut(arrangement.build) or _characteristic(arrangement.build):
            rows = arrangement.hyperplanes()
            return tuple(tuple(map(Fraction, row)) for row in rows), arrangement.field.prime
        return tuple(rationals.rational_rows(arrangement.build)), 0

    def _with(self, other: Arrangement) -> Tuple[Tuple[Row, ...], Tuple[Row, ...], int]:
        """The forms of two arrangements over one field, and the characteristic of all of them."""
        if other.field != self._central.field:
            raise BadInput("field", f"{other.field} is another one than {self._central.field}")
        (own, number), (theirs, other_number) = self._exact(), other._exact()
        return own, theirs, max(number, other_number)

    def product(self, other: Arrangement) -> Arrangement:
        """The product: both arrangements in variables of their own.

        >>> from arrange import Arrangement
        >>> print(Arrangement.boolean(1, 31).product(Arrangement.type_a(1, 31)))
        2 hyperplanes in x1, x2, x3 over field 31: forms 3 [1 0 0, 0 1 30]
        """
        arrangement = self._central
        own, theirs, number = self._with(other)
        left, right = arrangement.dimension, other.dimension
        rows = [(*row, *[Fraction(0)] * right) for row in own] + [(*[Fraction(0)] * left, *row) for row in theirs]
        apart = not set(arrangement.variables) & set(other.variables)
        names = arrangement.variables + other.variables if apart else numbered(left + right)
        return type(arrangement)(arrangement.field, Forms(left + right, tuple(rows), False, number), names)

    def union(self, other: Arrangement) -> Arrangement:
        """The hyperplanes of both, those of the second behind, where they are not among the first.

        >>> from arrange import Arrangement
        >>> print(Arrangement.forms("x, y", 31).union(Arrangement.forms("2*x, x - y", 31)))
        3 hyperplanes in x, y over field 31: forms 2 [1 0, 0 1, 1 30]
        """
        arrangement = self._central
        if other.dimension != arrangement.dimension:
            raise BadInput("dimension", f"{other.dimension} is another one than {arrangement.dimension}")
        own, theirs, number = self._with(other)
        known = arrangement.hyperplane_set()
        new = [row for row, it in zip(theirs, other.hyperplanes()) if monic(it, other.field.prime) not in known]
        build = Forms(arrangement.dimension, (*own, *new), False, number)
        return type(arrangement)(arrangement.field, build, arrangement.variables)

    def decone(self, index: int) -> List[Residues]:
        """The affine hyperplanes that the others are where the form of one is 1: rows that end in the constant.

        The form is solved for its last variable. The cone over them is the arrangement with that hyperplane last.

        >>> from arrange import Arrangement
        >>> Arrangement.forms("x, y, x - y", 31).decone(1)
        [(1, 0), (30, 1)]
        """
        arrangement = self._central
        check = arrangement._members([index])[0]
        rows, prime = arrangement.hyperplanes(), arrangement.field.prime
        own = rows[check - 1]
        last = max(k for k, it in enumerate(own) if it)
        found = []
        for row in rows[: check - 1] + rows[check:]:
            constant = row[last] * pow(own[last], -1, prime) % prime
            others = ((a - constant * b) % prime for k, (a, b) in enumerate(zip(row, own)) if k != last)
            found.append((*others, constant))
        return found

    # ---- as sets of hyperplanes

    def hyperplane_set(self) -> FrozenSet[Residues]:
        """The forms, each by its multiple whose first coefficient other than 0 is 1."""
        arrangement = self._arrangement
        return frozenset(monic(it, arrangement.field.prime) for it in arrangement._rows)

    def same_hyperplanes(self, other: Arrangement) -> bool:
        """Whether both have the same hyperplanes, in whatever order and by whatever forms.

        >>> from arrange import Arrangement
        >>> Arrangement.forms("x, y", 31).same_hyperplanes(Arrangement.forms("2*y, x", 31))
        True
        """
        return self.issubset(other) and other.issubset(self._arrangement)

    def issubset(self, other: Arrangement) -> bool:
        """Whether all its hyperplanes are among those of the other."""
        arrangement = self._arrangement
        one, two = ((it.field, it.dimension, it.is_affine) for it in (arrangement, other))
        return one == two and self.hyperplane_set() <= other.hyperplane_set()

    # ---- freeness

    def verify(self, answer: Union[Freeness, Certificate], multiplicities: Multiplicities = None) -> bool:
        """Whether an answer of `free` is shown by its basis, point and inverse, by this package's own arithmetic.

        >>> from arrange import Arrangement
        >>> A = Arrangement.type_b(3, 101)
        >>> A.verify(A.free()), A.delete(1).verify(A.free())
        (True, False)
        """
        return not self.faults(answer, multiplicities)

    def faults(self, answer: Union[Freeness, Certificate], multiplicities: Multiplicities = None) -> List[str]:
        """In words, what an answer of freeness does not show; nothing where it is right."""
        if not answer.is_free:
            raise BadInput("answer", "that it is not free has no certificate; one with a basis is wanted")
        arrangement = self._central
        forms = list(arrangement)
        given = 1 if multiplicities is None else multiplicities
        numbers = [given] * len(forms) if isinstance(given, int) else list(given)
        if len(numbers) != len(forms):
            raise BadInput("multiplicities", f"they are {len(numbers)}, and the hyperplanes {len(forms)}")
        if isinstance(answer, Certificate):
            return verification.faults_of_cofactor(forms, numbers, answer.basis, answer.cofactor, arrangement.ring)
        return verification.faults_of_freeness(forms, numbers, answer, arrangement.field.prime)

    def inductive_chain(self, most: int = chains.MOST_STATES) -> Optional[List[chains.ChainStep]]:
        """The hyperplanes in an order that shows inductive freeness, or None where it is not inductively free.

        `free` and `flats` are asked. Where more arrangements would have to be gone through than `most`, SearchStopped
        is raised.

        >>> from arrange import Arrangement
        >>> for step in Arrangement.forms("x, y, x - y", 31).inductive_chain():
        ...     print(step)
        hyperplane 3: exponents (1,), of the restriction ()
        hyperplane 2: exponents (1, 1), of the restriction (1,)
        hyperplane 1: exponents (1, 2), of the restriction (1,)
        """
        return chains.inductive_chain(self._central, most)

    def is_inductively_free(self) -> bool:
        return self.inductive_chain() is not None

    def free_chain(self, most: int = chains.MOST_STATES) -> Optional[List[Tuple[int, Tuple[int, ...]]]]:
        """The hyperplanes in an order in which the first k are free for each k, with the exponents; or None.

        `flats` is asked once, and `free` of each arrangement that is tried.
        """
        return chains.free_chain(self._central, most)

    # ---- over the rationals

    def has_good_reduction(self) -> bool:
        """Whether its rational forms have the same matroid, so that combinatorial answers are those over the rationals.

        >>> from arrange import Arrangement
        >>> Arrangement.forms("x, y, x + 32003*y", 31).has_good_reduction()
        True
        """
        return rationals.has_good_reduction(self._central)

    # ---- the Orlik-Solomon algebra and relations

    def orlik_solomon_generators(self) -> List[ExteriorElement]:
        """Generators of the ideal of the Orlik-Solomon algebra: the boundaries of the circuits.

        >>> from arrange import Arrangement
        >>> print(*Arrangement.forms("x, y, x - y", 31).orlik_solomon_generators())
        e1*e2 - e1*e3 + e2*e3
        """
        arrangement = self._central
        return [boundary(it, arrangement.field.prime) for it in arrangement.circuits()]

    def is_formal(self) -> bool:
        """Whether all relations of the forms are sums of those of three forms of rank 2.

        >>> from arrange import Arrangement
        >>> Arrangement.type_a(3).is_formal(), Arrangement.forms("x, y, z, x + y + z", 31).is_formal()
        (True, False)
        """
        arrangement = self._central
        pencils = [it.hyperplanes for it in arrangement.flats(rank=2)]
        return has_short_relations(arrangement.hyperplanes(), pencils, arrangement.field.prime)

    def local_resonance(self) -> List[LocalComponent]:
        """The local components of the resonance variety: one for each flat of rank 2 on three hyperplanes or more.

        >>> from arrange import Arrangement
        >>> [(str(it.pencil), it.depth) for it in Arrangement.forms("x, y, x - y", 31).local_resonance()]
        [('2: {1 2 3}', 1)]
        """
        arrangement = self._central
        pencils = [it for it in arrangement.flats(rank=2) if len(it.hyperplanes) > 2]
        weights = [local_weights(it, len(arrangement)) for it in pencils]
        answers = ask([Question.aomoto(arrangement, it) for it in weights])
        found = []
        for pencil, those, answer in zip(pencils, weights, answers):
            if not isinstance(answer.value, list):
                raise cast(Exception, answer.value)
            found.append(LocalComponent(pencil, tuple(those), tuple(cast(List[int], answer.value))))
        return found


def _is_cut(build: Build) -> bool:
    """Whether a restriction is among what it is made of."""
    return isinstance(build, Restricted) or isinstance(build, Deleted) and _is_cut(build.whole)


def _characteristic(build: Build) -> int:
    """The characteristic of the forms that it is made of."""
    if isinstance(build, (Deleted, Restricted)):
        return _characteristic(build.whole)
    return build.characteristic if isinstance(build, Forms) else 0
