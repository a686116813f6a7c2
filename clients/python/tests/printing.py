"""Writes answers as the language says that they are printed: a second reading of it, for the tests."""
from arrange import (
    Certificate, ExteriorElement, Flat, Freeness, GradedVector, Limit, ModularChain, MultiRestriction, Polynomial, Refusal,
    Resolution, Triple,
)


def joined(numbers):
    return " ".join(map(str, numbers))


def set_text(members):
    return "{" + joined(members) + "}"


def grevlex_place(exponents):
    """Greater monomials first: the greater degree, then the smaller exponent at the last place where they differ."""
    return (-sum(exponents), tuple(reversed(exponents)))


def polynomial_text(polynomial):
    terms = []
    for exponents in sorted(polynomial.terms, key=grevlex_place):
        factors = [str(polynomial.terms[exponents])]
        factors += [f"x{i}" + (f"^{e}" if e > 1 else "") for i, e in enumerate(exponents, 1) if e > 0]
        terms.append("*".join(factors))
    return " + ".join(terms) or "0"


def vector_text(vector):
    return f"{vector.degree}: ({', '.join(map(polynomial_text, vector.entries))})"


def exterior_text(element):
    terms = sorted(element.terms, key=lambda it: (len(it), it))
    return " + ".join("*".join([str(element.terms[it]), *(f"e{i}" for i in it)]) for it in terms) or "0"


def body(word, value):
    """What stands behind the head, and the lines behind that."""
    if isinstance(value, Limit):
        return [f" limit {value.kind}"]
    if isinstance(value, Polynomial):
        return [" " + joined(value.coefficients())]
    if isinstance(value, Triple):
        return ["", *(f"{label}: {joined(getattr(value, label).coefficients())}" for label in ("whole", "deleted", "restricted"))]
    if isinstance(value, ExteriorElement):
        return [" " + exterior_text(value)]
    if isinstance(value, Certificate) and not value:
        return [f" none {value.generators}"]
    if isinstance(value, Certificate):
        cofactor = [f"({', '.join(map(polynomial_text, row))})" for row in value.cofactor]
        return [" yes", *map(vector_text, value.basis), "cofactor:", *cofactor]
    if isinstance(value, ModularChain) and not value:
        return [" no"]
    if isinstance(value, ModularChain):
        return [" yes", *map(item_text, value.flats), joined(["exponents:", *value.exponents])]
    if isinstance(value, MultiRestriction):
        head, *rest = body("free", value.freeness)
        forms = [f"{joined(form)}: {many}" for form, many in zip(value.forms, value.multiplicities)]
        return [f" {len(forms)} in {len(value.forms[0])}", *forms, f"free:{head}", *rest]
    if isinstance(value, Freeness) and not value:
        return [f" no {value.generators}"]
    if isinstance(value, Freeness):
        return [" yes", *map(vector_text, value.basis), f"point: {joined(value.point)}", "inverse:", *map(joined, value.inverse)]
    if isinstance(value, Resolution):
        lines = [f" {len(value.maps)}"]
        for k, it in enumerate(value.maps):
            lines += [f"betti {k}: {joined(it.betti)}", *map(vector_text, it.rows)]
        return lines
    if word in ("point", "aomoto", "hilbert"):
        return [" " + joined(value)]
    if word == "rank":
        return [f" {value}"]
    if word == "hyperplanes":
        return [f" {len(value)} in {len(value[0]) if value else 0}", *map(joined, value)]
    return [f" {len(value)}", *map(item_text, value)]


def item_text(item):
    if isinstance(item, Flat):
        return f"{item.rank}: {set_text(item.hyperplanes)}"
    return vector_text(item) if isinstance(item, GradedVector) else set_text(item)


def printed(answer):
    if isinstance(answer.value, Refusal):
        return f"refused line {answer.value.line}: {answer.value.words}\n"
    lines = body(answer.word, answer.value)
    if answer.value == []:  # of no hyperplanes the number of variables is not in the value
        lines[0] = lines[0].replace("0 in 0", answer.text[answer.text.index(":") + 2 : -1])
    return "".join(line + "\n" for line in [f"{answer.word} {answer.name}:{lines[0]}", *lines[1:]])
