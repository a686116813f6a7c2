"""Chains of free arrangements: inductive freeness, which the lattice decides, and free arrangements step by step."""
from __future__ import annotations

from dataclasses import dataclass
from typing import TYPE_CHECKING, Dict, FrozenSet, List, Optional, Tuple

from .answers import Freeness
from .errors import ArrangeError
from .lattices import Lattice
from .program import ask_one
from .questions import Question

if TYPE_CHECKING:
    from .arrangements import Arrangement

Exponents = Tuple[int, ...]
State = Tuple[int, FrozenSet[int]]  # a flat, and some flats that cover it: hyperplanes of the restriction to it
MOST_STATES = 50_000


class SearchStopped(ArrangeError):
    """A search went through as many arrangements as it may, and nothing is decided."""


@dataclass(frozen=True)
class ChainStep:
    """A hyperplane that is added, the exponents of the arrangement with it, and those of its restriction to it.

    Zeros among the exponents are left out.
    """

    hyperplane: int
    exponents: Exponents
    restricted: Exponents

    def __str__(self) -> str:
        return f"hyperplane {self.hyperplane}: exponents {self.exponents}, of the restriction {self.restricted}"


class InductiveSearch:
    """Which restrictions and deletions of an arrangement are inductively free, from its lattice of flats.

    Exponents go down from the whole arrangement: where one is free with exponents E, and a restriction has b
    hyperplanes fewer than it, then b is in E, E without b are the exponents of the restriction, and E with b - 1 in
    place of b those of the deletion. So all that is chosen are the hyperplanes.
    """

    def __init__(self, lattice: Lattice, most: int = MOST_STATES) -> None:
        self.lattice = lattice
        self.most = most
        self.chosen: Dict[State, Optional[int]] = {}
        self._joins: Dict[Tuple[int, int], int] = {}

    def is_free(self, state: State, exponents: Exponents) -> bool:
        """Whether what a state stands for is inductively free with these exponents."""
        if state in self.chosen:
            return self.chosen[state] is not None
        _, atoms = state
        if sum(exponents) != len(atoms):
            return False
        if len(self.chosen) >= self.most:
            raise SearchStopped(f"inductive freeness is not decided after {self.most} arrangements")
        found = None
        for atom in sorted(atoms):
            restricted = self.restricted(state, atom)
            fewer = len(atoms) - len(restricted[1])
            if fewer in exponents:
                below, deleted = exponents_after(exponents, fewer)
                if self.is_free(restricted, below) and self.is_free(self.deleted(state, atom), deleted):
                    found = atom
                    break
        self.chosen[state] = found if atoms else state[0]
        return found is not None or not atoms

    def restricted(self, state: State, atom: int) -> State:
        return atom, frozenset(self._join(atom, it) for it in state[1] if it != atom)

    def deleted(self, state: State, atom: int) -> State:
        return state[0], state[1] - {atom}

    def _join(self, one: int, other: int) -> int:
        pair = (one, other) if one < other else (other, one)
        if pair not in self._joins:
            self._joins[pair] = self.lattice.join_places(*pair)
        return self._joins[pair]

    def chain(self, exponents: Exponents) -> Optional[List[ChainStep]]:
        """The hyperplanes in an order in which each may be added, or None where the arrangement is not inductively free."""
        state: State = (0, frozenset(self.lattice.places_of_rank(1)))
        if not self.is_free(state, exponents):
            return None
        steps = []
        while state[1]:
            atom = self.chosen[state]
            assert atom is not None  # a state that is free and has hyperplanes has one to be deleted
            fewer = len(state[1]) - len(self.restricted(state, atom)[1])
            below, after = exponents_after(exponents, fewer)
            steps.append(ChainStep(self.lattice.flats[atom].hyperplanes[0], exponents, below))
            state, exponents = self.deleted(state, atom), after
        return steps[::-1]


def exponents_after(exponents: Exponents, fewer: int) -> Tuple[Exponents, Exponents]:
    """The exponents of the restriction, which has so many hyperplanes fewer, and of the deletion.

    >>> exponents_after((1, 2, 3), 3), exponents_after((1, 1), 1)
    (((1, 2), (1, 2, 2)), ((1,), (1,)))
    """
    left = list(exponents)
    left.remove(fewer)
    return tuple(left), tuple(sorted(left + [fewer - 1] * (fewer > 1)))


def essential_exponents(freeness: Freeness) -> Exponents:
    return tuple(it for it in freeness.exponents or () if it)


def inductive_chain(arrangement: Arrangement, most: int = MOST_STATES) -> Optional[List[ChainStep]]:
    """The hyperplanes in an order in which each may be added, or None where it is not inductively free.

    Each step is one of the addition theorem: the arrangement before it and the restriction are inductively free, with
    exponents that fit.
    """
    free = arrangement.free()
    if not free:
        return None
    return InductiveSearch(arrangement.lattice(), most).chain(essential_exponents(free))


def free_chain(arrangement: Arrangement, most: int = MOST_STATES) -> Optional[List[Tuple[int, Exponents]]]:
    """The hyperplanes in an order in which the first k are free for each k, each with the exponents then; or None.

    Each step is asked of the program. A hyperplane can be left out only where it has as many flats of rank 2 fewer than
    there are hyperplanes as an exponent says.
    """
    whole = arrangement.free()
    if not whole:
        return None
    pencils = [frozenset(it.hyperplanes) for it in arrangement.lattice().of_rank(2)]
    failed: Dict[FrozenSet[int], None] = {}
    path: List[Tuple[int, Exponents]] = []

    def descend(left: FrozenSet[int], exponents: Exponents) -> bool:
        if not left:
            return True
        if len(failed) >= most:
            raise SearchStopped(f"no chain of free arrangements was found after {most} arrangements")
        for index in sorted(left, reverse=True):
            fewer = len(left) - sum(index in it and len(it & left) > 1 for it in pencils)
            smaller = left - {index}
            if fewer in exponents and smaller not in failed:
                free = ask_one(Question.free(arrangement.keep(sorted(smaller))), Freeness)
                if free:
                    path.append((index, exponents))
                    if descend(smaller, essential_exponents(free)):
                        return True
                    path.pop()
                failed[smaller] = None
        return False

    everything = frozenset(range(1, len(arrangement) + 1))
    return path[::-1] if descend(everything, essential_exponents(whole)) else None
