"""Graphs as graph6, and all graphs on a few vertices up to isomorphism."""
from __future__ import annotations

from itertools import combinations, permutations
from typing import Dict, Iterable, Iterator, List, Set, Tuple

from arrange import BadInput

Edge = Tuple[int, int]
HEADER = ">>graph6<<"
MOST_VERTICES = 62  # what one byte of graph6 counts
MOST_LISTED = 6


def pairs(vertices: int) -> List[Edge]:
    """The pairs of vertices in the order of graph6: 1-2, 1-3, 2-3, 1-4, .."""
    return [(a, b) for b in range(2, vertices + 1) for a in range(1, b)]


def from_graph6(text: str, place: str = "graph6") -> Tuple[int, List[Edge]]:
    """The number of vertices and the edges, with vertices counted from 1.

    >>> from_graph6("Bw")
    (3, [(1, 2), (1, 3), (2, 3)])
    """
    values = [ord(letter) - 63 for letter in (text[len(HEADER):] if text.startswith(HEADER) else text)]
    if not values or not all(0 <= value <= 63 for value in values):
        raise BadInput(place, f"{text!r} is no graph6")
    vertices = values[0]
    if vertices > MOST_VERTICES:
        raise BadInput(place, f"{text!r} has more than {MOST_VERTICES} vertices")
    places = pairs(vertices)
    bits = [value >> k & 1 for value in values[1:] for k in range(5, -1, -1)]
    if not len(places) <= len(bits) < len(places) + 6 or any(bits[len(places):]):
        raise BadInput(place, f"{text!r} has the wrong length for {vertices} vertices")
    return vertices, [edge for edge, bit in zip(places, bits) if bit]


def to_graph6(vertices: int, edges: Iterable[Edge]) -> str:
    """The graph6 of a graph whose edges a-b have a < b.

    >>> to_graph6(3, [(1, 2), (1, 3), (2, 3)])
    'Bw'
    """
    there = set(edges)
    bits = [int(pair in there) for pair in pairs(vertices)]
    bits += [0] * (-len(bits) % 6)
    sixes = [bits[k:k + 6] for k in range(0, len(bits), 6)]
    return chr(63 + vertices) + "".join(chr(63 + int("".join(map(str, six)), 2)) for six in sixes)


def graphs_up_to_isomorphism(vertices: int) -> Iterator[List[Edge]]:
    """One graph of each kind, by the number of edges: the first of its kind among all subsets of the pairs.

    >>> [len(list(graphs_up_to_isomorphism(n))) for n in range(1, 5)]
    [1, 2, 4, 11]
    """
    if vertices > MOST_LISTED:
        raise BadInput("vertices", f"graphs on more than {MOST_LISTED} vertices are a matter for geng, of nauty")
    places = pairs(vertices)
    number: Dict[Edge, int] = {edge: k for k, edge in enumerate(places)}
    moves = []
    for images in permutations(range(1, vertices + 1)):
        moved = [tuple(sorted((images[a - 1], images[b - 1]))) for a, b in places]
        moves.append([number[a, b] for a, b in moved])
    for count in range(len(places) + 1):
        seen: Set[Tuple[int, ...]] = set()
        for chosen in combinations(range(len(places)), count):
            if chosen not in seen:
                seen.update(tuple(sorted(move[k] for k in chosen)) for move in moves)
                yield [places[k] for k in chosen]
