"""Arrangements, forms and graphs of Sage and networkx. They are known by what they can do, so neither is imported."""
from __future__ import annotations

from fractions import Fraction
from typing import Any, Dict, List, Sequence, Tuple

from .builds import Row
from .errors import BadInput
from .fields import characteristic, rational
from .linear_forms import parse_form


def rows_in(forms: Any) -> Any:
    """The rows of a matrix of sympy or an array of numpy, which are not gone over by rows; anything else itself."""
    return forms.tolist() if hasattr(forms, "tolist") and hasattr(forms, "shape") else forms


def is_of_sympy(form: Any) -> bool:
    """Whether it is an expression of sympy."""
    return hasattr(form, "free_symbols") and hasattr(form, "as_coefficients_dict")


def names_in(forms: Sequence[Any]) -> List[str]:
    """The names of the variables in expressions of sympy."""
    return [str(it) for form in forms for it in form.free_symbols]


def coefficients_of_sympy(form: Any, variables: Sequence[str], place: str) -> Tuple[List[Fraction], Fraction]:
    """The coefficients and the constant of an expression of sympy that is linear."""
    found = {str(it): value for it, value in form.expand().as_coefficients_dict().items()}
    constant = rational(found.pop("1", 0), f"{place}, constant")
    for name in found:
        if name not in variables:
            raise BadInput(place, f"its term in {name} is none in one of the variables {', '.join(variables)}")
    return [rational(found.get(name, 0), f"{place}, coefficient {j}") for j, name in enumerate(variables, 1)], constant


def has_variables(form: Any) -> bool:
    """Whether it is a polynomial of Sage, or one of its hyperplanes."""
    return hasattr(form, "parent") and (hasattr(form, "monomials") or _is_hyperplane(form))


def _is_hyperplane(form: Any) -> bool:
    return hasattr(form, "A") and hasattr(form, "b")


def characteristic_of_rows(rows: Sequence[Sequence[Any]]) -> int:
    """The characteristic of the numbers in rows: 0, or that of all residues among them."""
    found = 0
    for i, row in enumerate(rows, 1):
        for j, number in enumerate(row, 1):
            its = characteristic(number)
            if its and found and its != found:
                raise BadInput(f"form {i}, coefficient {j}", f"{number} is of characteristic {its}, and others of {found}")
            found = its or found
    return found


def ring_of(forms: Sequence[Any]) -> Tuple[Tuple[str, ...], int]:
    """The names of the variables of the ring in which all forms lie, and its characteristic."""
    ring = forms[0].parent()
    for i, form in enumerate(forms, 1):
        if not has_variables(form) or form.parent() != ring:
            raise BadInput(f"form {i}", f"{form} lies in another ring than form 1")
    return tuple(map(str, ring.variable_names())), characteristic(forms[0])


def coefficients_of(form: Any, variables: Sequence[str], place: str) -> Tuple[List[Fraction], Fraction]:
    """The coefficients and the constant of a hyperplane of Sage, or of a polynomial, which is read as it is written."""
    if _is_hyperplane(form):
        row = [rational(it, f"{place}, coefficient {j}") for j, it in enumerate(form.A(), 1)]
        return row, rational(form.b(), f"{place}, constant")
    return parse_form(str(form), variables, place)


def rows_of_sage(arrangement: Any) -> Tuple[Tuple[Row, ...], Tuple[str, ...], int]:
    """The rows of a central arrangement of Sage, the names of its variables, and the characteristic of its field."""
    try:
        hyperplanes = list(arrangement.hyperplanes())
        parent = arrangement.parent()
        variables = tuple(map(str, parent.variable_names()))
        number = int(arrangement.base_ring().characteristic())
    except AttributeError as missing:
        raise BadInput("arrangement", f"it is no hyperplane arrangement of Sage: {missing}") from None
    rows = []
    for i, hyperplane in enumerate(hyperplanes, 1):
        row, constant = coefficients_of(hyperplane, variables, f"hyperplane {i}")
        if constant:
            raise BadInput(f"hyperplane {i}", "it does not pass through the origin; the cone of the arrangement does")
        rows.append(tuple(row))
    return tuple(rows), variables, number


def edges_of_graph(graph: Any) -> Tuple[int, List[Tuple[int, int]]]:
    """The number of vertices of a graph of networkx or Sage, and its edges, where vertices are numbered in their order."""
    if hasattr(graph, "vertex_iterator") and hasattr(graph, "edge_iterator"):
        vertices, edges = list(graph.vertices(sort=True)), list(graph.edge_iterator(labels=False))
    elif hasattr(graph, "nodes") and hasattr(graph, "edges"):
        vertices, edges = list(graph.nodes), [edge[:2] for edge in graph.edges]
    else:
        raise BadInput("graph", f"{type(graph).__name__} is no graph of networkx or Sage")
    number: Dict[Any, int] = {vertex: k for k, vertex in enumerate(vertices, 1)}
    return len(vertices), [(number[a], number[b]) for a, b in edges]
