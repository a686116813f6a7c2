"""Families of arrangements from the literature, each from its definition; and those of examples/gallery by name."""
from __future__ import annotations

import pathlib
import re
from itertools import combinations
from typing import Dict, Iterator, List, Optional, Sequence, Tuple

from .arrangements import GREATEST, Arrangement
from .errors import BadInput
from .fields import FieldLike, field_of, whole_number

Numbers = Tuple[int, ...]
MADE = re.compile(r"^\s*let\s+(\w+)\s*=\s*((?:forms|cone|type[ABD]|boolean|graphic)\b[^#\n]*)", re.M)


def generic(dimension: int, count: int, field: FieldLike = GREATEST) -> Arrangement:
    """Hyperplanes in general position: the values of polynomials at the places 1, 2, .., so any few are independent.

    >>> generic(3, 5, 31).lattice().whitney(2)
    [1, 5, 10, 1]
    """
    size = whole_number(dimension, "dimension")
    return Arrangement.forms([[at ** k for k in range(size)] for at in range(1, count + 1)], field, size)


# ---- deformations of the braid arrangement


def _differences(points: int, constants: Sequence[int], field: FieldLike) -> Arrangement:
    """The cone over x_i - x_j = c for i < j and each of the constants."""
    rows = []
    for i, j in combinations(range(points), 2):
        difference = [int(k == i) - int(k == j) for k in range(points)]
        rows += [[*difference, -constant] for constant in constants]
    return Arrangement.cone(rows, field, points)


def shi(points: int, field: FieldLike = GREATEST) -> Arrangement:
    """The cone over x_i - x_j = 0 and 1 for i < j.

    >>> print(shi(3).factored_characteristic())
    t*(t - 1)*(t - 3)^2
    """
    return _differences(points, (0, 1), field)


def catalan(points: int, field: FieldLike = GREATEST) -> Arrangement:
    """The cone over x_i - x_j = -1, 0 and 1 for i < j.

    >>> print(catalan(3).factored_characteristic())
    t*(t - 1)*(t - 4)*(t - 5)
    """
    return _differences(points, (-1, 0, 1), field)


def linial(points: int, field: FieldLike = GREATEST) -> Arrangement:
    """The cone over x_i - x_j = 1 for i < j.

    >>> print(linial(3).factored_characteristic())
    t*(t - 1)*(t^2 - 3*t + 3)
    """
    return _differences(points, (1,), field)


def semiorder(points: int, field: FieldLike = GREATEST) -> Arrangement:
    """The cone over x_i - x_j = -1 and 1 for i < j.

    >>> semiorder(3).regions() // 2
    19
    """
    return _differences(points, (-1, 1), field)


# ---- reflection arrangements


def weyl(name: str, field: FieldLike = GREATEST) -> Arrangement:
    """The reflection arrangement of a Cartan type, such as "F4" or "A2 x B3": the positive roots over the simple ones.

    >>> print(weyl("G2").factored_characteristic(), weyl("A1 x A2").factored_characteristic(), sep=" | ")
    (t - 1)*(t - 5) | (t - 1)^2*(t - 2)
    """
    whole: Optional[Arrangement] = None
    for part in re.split(r"\s*[x*]\s*", name.strip()):
        letter, digits = part[:1].upper(), part[1:].lstrip("_")
        if not digits.isdigit():
            raise BadInput("type", f"{name!r} is no Cartan type such as F4 or A2 x B3")
        factor = Arrangement.forms(positive_roots(cartan_matrix(letter, int(digits))), field)
        whole = factor if whole is None else whole.product(factor)
    assert whole is not None
    return whole


def cartan_matrix(letter: str, rank: int) -> List[List[int]]:
    """The Cartan matrix of an irreducible type, as Bourbaki numbers its simple roots."""
    least = {"A": 1, "B": 2, "C": 2, "D": 3, "E": 6, "F": 4, "G": 2}
    most = {"E": 8, "F": 4, "G": 2}
    if letter not in least or not least[letter] <= rank <= most.get(letter, rank):
        raise BadInput("type", f"{letter}{rank} is no Cartan type")
    entries = {(i, i): 2 for i in range(rank)}
    chain = [(i, i + 1) for i in range(rank - 1)]
    if letter == "D":
        chain = chain[:-1] + [(rank - 3, rank - 1)]
    if letter == "E":
        chain = [(0, 2), (1, 3), *((i, i + 1) for i in range(2, rank - 1))]
    for i, j in chain:
        entries[i, j] = entries[j, i] = -1
    double: Dict[str, Tuple[int, int, int]] = {
        "B": (rank - 2, rank - 1, -2), "C": (rank - 1, rank - 2, -2), "F": (1, 2, -2), "G": (1, 0, -3),
    }
    if letter in double:
        i, j, value = double[letter]
        entries[i, j] = value
    return [[entries.get((i, j), 0) for j in range(rank)] for i in range(rank)]


def positive_roots(cartan: Sequence[Sequence[int]]) -> List[Numbers]:
    """The positive roots over the simple ones, by reflections, from the simple ones on.

    >>> positive_roots([[2, -1], [-1, 2]])
    [(1, 0), (0, 1), (1, 1)]
    """
    size = len(cartan)
    roots = [tuple(int(i == j) for j in range(size)) for i in range(size)]
    known = set(roots)
    for root in roots:
        for i in range(size):
            pairing = sum(root[j] * cartan[j][i] for j in range(size))
            image = tuple(it - pairing * (j == i) for j, it in enumerate(root))
            if min(image) >= 0 and image not in known:
                known.add(image)
                roots.append(image)
    return roots


def monomial(order: int, part: int, rank: int, field: FieldLike) -> Arrangement:
    """The reflection arrangement of the group G(r, p, l): x_i - w x_j where w^r is 1, and x_i where p is not r.

    The field has to have the roots: r divides the number of its elements minus 1.

    >>> for part in (3, 1):
    ...     print(monomial(3, part, 3, 31).factored_characteristic())
    (t - 1)*(t - 4)^2
    (t - 1)*(t - 4)*(t - 7)
    """
    over = field_of(field)
    prime = over.prime
    if order < 1 or part < 1 or order % part:
        raise BadInput("group", f"of G({order}, {part}, {rank}) the second number does not divide the first")
    if (prime - 1) % order:
        raise BadInput("field", f"the field with {prime} elements has no root of 1 of order {order}")
    roots = [it for it in range(1, prime) if pow(it, order, prime) == 1]
    root = next(it for it in roots if len({pow(it, k, prime) for k in range(order)}) == order)
    axes = [[int(k == i) for k in range(rank)] for i in range(rank)] if part < order else []
    pairs = [
        [int(k == i) - pow(root, e, prime) * int(k == j) for k in range(rank)]
        for i, j in combinations(range(rank), 2) for e in range(order)
    ]
    return Arrangement.forms(axes + pairs, over, rank)


# ---- the gallery


def gallery_names() -> List[str]:
    """The names of the arrangements of the gallery, where the package stands in a checkout.

    They are those of its files, with the arrangement behind where a file has several.
    """
    return [name for name, _, _ in _gallery()]


def gallery(name: str, field: Optional[FieldLike] = None) -> Arrangement:
    """An arrangement of examples/gallery by its file, over the script's field or another one.

    >>> len(gallery("pappus")), len(gallery("ziegler-pair/second"))
    (9, 9)
    """
    for known, prime, build in _gallery():
        if known.lower() == name.lower():
            return _built(build, prime if field is None else field)
    raise BadInput("gallery", f"{name!r} is none of {', '.join(gallery_names()) or 'them: they stand in a checkout'}")


def _gallery() -> Iterator[Tuple[str, int, str]]:
    """Of each arrangement that a script of the gallery makes of nothing else: its name, the prime, how it is built."""
    folders = pathlib.Path(__file__).resolve().parents
    for file in sorted(it for folder in folders[:5] for it in (folder / "examples/gallery").glob("*.arr")):
        text = file.read_text(encoding="utf-8")
        prime = re.search(r"^\s*field\s+(\d+)", text, re.M)
        found = MADE.findall(text)
        for name, build in found:
            yield file.stem + f"/{name}" * (len(found) > 1), int(prime[1]) if prime else GREATEST.prime, build


def _built(build: str, field: FieldLike) -> Arrangement:
    """What stands behind `let X =` in a script, of those that are made of nothing else."""
    word, size, rest = (build.split(maxsplit=2) + [""])[:3]
    inside = rest.strip().strip("[]")
    if word == "graphic":
        return Arrangement.graphic(int(size), inside, field)
    if word in ("forms", "cone"):
        rows = [row.split() for row in inside.split(",") if row.strip()]
        return (Arrangement.cone if word == "cone" else Arrangement.forms)(rows, field, int(size))
    made = {
        "typeA": Arrangement.type_a, "typeB": Arrangement.type_b, "typeD": Arrangement.type_d, "boolean": Arrangement.boolean,
    }
    return made[word](int(size), field)
