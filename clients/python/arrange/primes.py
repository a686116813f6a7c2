"""One arrangement at several primes, side by side."""
from __future__ import annotations

import html
import warnings
from dataclasses import dataclass
from typing import Callable, Dict, FrozenSet, Iterable, Iterator, List, Mapping, Optional, Sequence, Tuple, Union

from .answers import Flat, Value
from .arrangements import Arrangement
from .errors import BadInput, Refusal
from .fields import Field
from .program import Program, ask
from .questions import Question
from .shown import table

Asked = Union[str, Callable[[Arrangement], Question]]
Faults = Dict[int, Union[BadInput, Refusal]]
Sets = FrozenSet[Tuple[int, ...]]


class MatroidDiffers(UserWarning):
    """The matroid of an arrangement is not the same at all primes, or could not be compared at all of them."""


@dataclass(frozen=True)
class Comparison:
    """The answers of one arrangement at several primes.

    `answers[prime]` has the answers by their questions' words. `groups` are the primes with one matroid each, the
    greatest group first. `faults` says at which primes there is no such arrangement, and why; `warnings` has in words
    what differs.
    """

    answers: Mapping[int, Mapping[str, Value]]
    groups: Tuple[Tuple[int, ...], ...]
    faults: Mapping[int, Union[BadInput, Refusal]]
    warnings: Tuple[str, ...]

    def is_same(self) -> bool:
        """Whether the matroid is the same at all primes that were given."""
        return not self.warnings

    def _repr_html_(self) -> str:
        words = list(dict.fromkeys(word for answers in self.answers.values() for word in answers))
        rows = [[prime, *(answers.get(word, "") for word in words)] for prime, answers in self.answers.items()]
        said = "".join(f"<p>{html.escape(it)}</p>" for it in self.warnings)
        return table(["prime", *words], rows) + said

    def __str__(self) -> str:
        lines = []
        for prime, answers in self.answers.items():
            lines += [f"at {prime}, {word}: {value}" for word, value in answers.items()]
        return "\n".join([*lines, *(f"warning: {it}" for it in self.warnings)])


def compare_primes(
    arrangement: Arrangement, primes: Iterable[int], questions: Sequence[Asked] = (), program: Optional[Program] = None
) -> Comparison:
    """Asks the same of an arrangement at each prime, and warns where its matroid differs between them.

    A question is its word, or a call such as `lambda A: Question.free(A, [2, 1, 1])`. The matroids are compared by the
    flats, or where these are too many by the circuits.

    >>> import warnings
    >>> A = Arrangement.forms(["x", "y", "x + y", "x - 4*y"], 31)
    >>> with warnings.catch_warnings(record=True):
    ...     print(compare_primes(A, [5, 7, 31], ["rank"]))
    at 7, rank: 2
    at 31, rank: 2
    warning: there is no such arrangement at 5: form 4: it is a multiple of form 3 over the field with 5 elements
    """
    at_primes: Dict[int, Arrangement] = {}
    faults: Faults = {}
    for chosen in map(Field, primes):
        prime = chosen.prime
        try:
            at_primes[prime] = arrangement.over(chosen)
        except BadInput as fault:
            faults[prime] = fault
    matroids = _matroids(at_primes, program, faults)
    asked = [(prime, made(A)) for prime, A in at_primes.items() if prime in matroids for made in map(_maker, questions)]
    answers: Dict[int, Dict[str, Value]] = {prime: {} for prime in matroids}
    for (prime, question), answer in zip(asked, ask([it for _, it in asked], program)):
        answers[prime][question.word] = answer.value
    said = tuple(_differences(matroids, faults))
    for words in said:
        warnings.warn(words, MatroidDiffers, stacklevel=2)
    return Comparison(answers, _groups(matroids), faults, said)


def _maker(question: Asked) -> Callable[[Arrangement], Question]:
    if callable(question):
        return question
    if question in ("triple", "normal", "aomoto", "hilbert", "ziegler") or not hasattr(Question, question):
        raise BadInput(f"question {question}", "give a call that makes it, such as lambda A: Question.triple(A, 1)")
    made: Callable[[Arrangement], Question] = getattr(Question, question)
    return made


# ---- matroids


@dataclass(frozen=True)
class Matroid:
    """What tells matroids apart: how many hyperplanes, and all flats or all circuits, or None where these are too many."""

    count: int
    kind: str
    sets: Optional[Sets]


def _matroids(at_primes: Mapping[int, Arrangement], program: Optional[Program], faults: Faults) -> Dict[int, Matroid]:
    """The matroids by primes. A prime at which the arrangement is refused goes to the faults."""
    found: Dict[int, Matroid] = {}
    for kind in ("flats", "circuits"):
        asked = [made(A) for A in at_primes.values() for made in (Question.hyperplanes, getattr(Question, kind))]
        values = [answer.value for answer in ask(asked, program)]
        for prime, forms, sets in zip(at_primes, values[::2], values[1::2]):
            if isinstance(forms, Refusal):
                faults[prime] = forms
            elif isinstance(forms, list):
                found[prime] = Matroid(len(forms), kind, _sets_of(sets))
        if any(it.sets is not None for it in found.values()):
            break
    return found


def _sets_of(value: Value) -> Optional[Sets]:
    if not isinstance(value, list):
        return None
    return frozenset(it.hyperplanes if isinstance(it, Flat) else it for it in value if isinstance(it, (Flat, tuple)))


def _groups(matroids: Mapping[int, Matroid]) -> Tuple[Tuple[int, ...], ...]:
    groups: Dict[Matroid, List[int]] = {}
    for prime, matroid in matroids.items():
        groups.setdefault(matroid, []).append(prime)
    return tuple(sorted((tuple(sorted(it)) for it in groups.values()), key=lambda it: (-len(it), it)))


def _differences(matroids: Mapping[int, Matroid], faults: Faults) -> Iterator[str]:
    """In words: where there is no arrangement, how each group differs from the greatest, what is not compared."""
    for prime, fault in faults.items():
        is_small = isinstance(fault, BadInput) and fault.place == "arrangement"
        said = "the program takes no such arrangement" if is_small else "there is no such arrangement"
        yield f"{said} at {prime}: {fault}"
    groups = _groups(matroids)
    for group in groups[1:]:
        yield _difference(group[0], matroids[group[0]], groups[0][0], matroids[groups[0][0]])
    for group in groups:
        matroid = matroids[group[0]]
        if len(group) > 1 and matroid.sets is None:
            yield f"the matroids at {', '.join(map(str, group))} are not compared: there are too many {matroid.kind}"


def _difference(prime: int, one: Matroid, other_prime: int, other: Matroid) -> str:
    if one.count != other.count:
        return f"the hyperplanes are {one.count} at {prime} and {other.count} at {other_prime}"
    if one.sets is None or other.sets is None:
        many, few = (prime, other_prime) if one.sets is None else (other_prime, prime)
        return f"there are too many {one.kind} at {many} and not at {few}"
    first = min(one.sets ^ other.sets, key=lambda it: (len(it), it))
    has, has_not = (prime, other_prime) if first in one.sets else (other_prime, prime)
    return f"the {one.kind} differ: {{{' '.join(map(str, first))}}} is one at {has} and not at {has_not}"
