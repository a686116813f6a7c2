"""The answers of a survey of multiplicities beside what the literature knows: a table in SQLite, and counts from it."""
from __future__ import annotations

import csv
import pathlib
import sqlite3
from typing import Dict, Iterable, List, NamedTuple, Optional, Sequence, Tuple

from multiplicities import Exponents, Multiplicity, kind_of, known_exponents, pairs_of

TABLE = "freeness"
FREE, NOT_FREE, VECTOR_END = "free A: yes", "free A: no ", "point:"
Row = Tuple[object, ...]

BY_PRIME = f"""
SELECT prime, greatest, count(*) AS asked, sum(free) AS free, sum(known IS NOT NULL) AS free_in_0,
       sum(free AND known IS NULL) AS only_here, sum(NOT free AND known IS NOT NULL) AS only_in_0,
       coalesce(sum(free AND exponents <> known), 0) AS other_exponents
FROM {TABLE} GROUP BY prime, greatest ORDER BY prime, greatest"""
BY_KIND = f"""
SELECT prime, greatest, kind, count(*) AS asked, sum(free) AS free,
       coalesce(sum(free AND exponents <> known), 0) AS other_exponents
FROM {TABLE} GROUP BY prime, greatest, kind ORDER BY prime, greatest, kind"""
DIFFERENCES = f"""
SELECT prime, multiplicity, kind, free, exponents, generators
FROM {TABLE} WHERE free <> (known IS NOT NULL) ORDER BY prime, number"""
WITHOUT_ANSWER = f"SELECT prime, multiplicity FROM {TABLE} WHERE free IS NULL ORDER BY number"


class Table(NamedTuple):
    """The names of some columns, and the rows."""

    columns: Sequence[str]
    rows: Sequence[Row]

    def write(self, file: pathlib.Path) -> None:
        with file.open("w", encoding="utf-8", newline="") as sheet:
            writer = csv.writer(sheet, lineterminator="\n")
            writer.writerow(self.columns)
            writer.writerows(self.rows)


def read_table(file: pathlib.Path) -> List[Dict[str, str]]:
    with file.open(encoding="utf-8", newline="") as sheet:
        return list(csv.DictReader(sheet))


def essential_forms(vertices: int) -> str:
    """The braid arrangement in the coordinates where the last vertex has 0, by the pairs in their order.

    >>> essential_forms(3)
    'forms 2 [1 -1, 1 0, 0 1]'
    """
    rows = []
    for a, b in pairs_of(vertices):
        rows.append(" ".join(str((k == a) - (k == b)) for k in range(1, vertices)))
    return f"forms {vertices - 1} [{', '.join(rows)}]"


def question_of(m: Multiplicity) -> str:
    return f"free [{m}]"


def multiplicity_of(question: str, vertices: int) -> Multiplicity:
    """The multiplicity that a question has.

    >>> str(multiplicity_of("free [1 2 3]", 3))
    '1 2 3'
    """
    return Multiplicity(vertices, tuple(map(int, question.removeprefix("free [").rstrip("]").split())))


def freeness_in(answer: str) -> Tuple[Optional[Exponents], int]:
    """The exponents that an answer tells, or None where it says no; and the number of generators.

    >>> freeness_in("free A: no 4\\n"), freeness_in("free A: yes\\n0: (1)\\npoint: 0\\ninverse:\\n1\\n")
    ((None, 4), ((0,), 1))
    """
    head, *lines = answer.splitlines()
    if head.startswith(NOT_FREE):
        return None, int(head[len(NOT_FREE):])
    if head != FREE:
        raise ValueError(f"{head!r} is no answer of free")
    end = next(k for k, line in enumerate(lines) if line.startswith(VECTOR_END))
    exponents = tuple(sorted(int(line.partition(":")[0]) for line in lines[:end]))
    return exponents, len(exponents)


def judge(database: pathlib.Path, vertices: int) -> None:
    """Adds the table to the database of a survey. Of a job without an answer it has no freeness."""
    connection = sqlite3.connect(database)
    found = connection.execute("SELECT number, prime, question, status, answer FROM results ORDER BY number")
    rows = [_judged(number, prime, multiplicity_of(question, vertices), status, answer)
            for number, prime, question, status, answer in found]
    with connection:
        connection.execute(f"DROP TABLE IF EXISTS {TABLE}")
        connection.execute(
            f"CREATE TABLE {TABLE} (number INTEGER PRIMARY KEY, prime INTEGER, multiplicity TEXT, greatest INTEGER, "
            "kind TEXT, known TEXT, free INTEGER, exponents TEXT, generators INTEGER)"
        )
        connection.executemany(f"INSERT INTO {TABLE} VALUES (?, ?, ?, ?, ?, ?, ?, ?, ?)", rows)
    connection.close()


def _judged(number: int, prime: int, m: Multiplicity, status: str, answer: str) -> Row:
    about = (number, prime, str(m), max(m.entries), kind_of(m), _shown(known_exponents(m)))
    if status != "answered":
        return (*about, None, None, None)
    exponents, generators = freeness_in(answer)
    return (*about, exponents is not None, _shown(exponents), generators)


def _shown(exponents: Optional[Exponents]) -> Optional[str]:
    return None if exponents is None else " ".join(map(str, exponents))


def ask(database: pathlib.Path, query: str) -> Table:
    connection = sqlite3.connect(database)
    found = connection.execute(query)
    table = Table([it[0] for it in found.description], found.fetchall())
    connection.close()
    return table


def markdown(columns: Sequence[str], rows: Iterable[Sequence[object]]) -> str:
    """A table as it stands in a page.

    >>> print(markdown(["prime", "free"], [(7, 3)]), end="")
    | prime | free |
    |---|---|
    | 7 | 3 |
    """
    lines = [columns, ["---"] * len(columns), *rows]
    parts = [" | ".join(map(str, line)) for line in lines]
    return "".join(f"|{it.replace(' ', '')}|\n" if set(it) <= set("-| ") else f"| {it} |\n" for it in parts)


def page_tables(folder: pathlib.Path) -> Dict[str, str]:
    """The tables of the page, by their names, from the counts in a folder: on A3 by prime, on A4 by prime and kind."""
    tables: Dict[str, str] = {}
    if (folder / "a3-counts.csv").exists():
        counts = ["asked", "free", "only_here", "only_in_0", "other_exponents"]
        rows = sums(read_table(folder / "a3-counts.csv"), ["prime"], counts)
        heads = ["prime", "asked", "free", "free here alone", "free in characteristic 0 alone", "other exponents"]
        tables["A3"] = markdown(heads, rows)
    if (folder / "a4-counts.csv").exists():
        rows = sums(read_table(folder / "a4-counts.csv"), ["prime", "kind"], ["asked", "free", "other_exponents"])
        tables["A4"] = markdown(["prime", "kind", "asked", "free", "other exponents"], rows)
    return tables


def sums(rows: Iterable[Dict[str, str]], keys: Sequence[str], counts: Sequence[str]) -> List[Tuple[object, ...]]:
    """The sums of some columns over the rows with the same keys, in the order in which the keys come."""
    found: Dict[Tuple[str, ...], List[int]] = {}
    for row in rows:
        here = found.setdefault(tuple(row[key] for key in keys), [0] * len(counts))
        for k, name in enumerate(counts):
            here[k] += int(row[name] or 0)
    return [(*key, *numbers) for key, numbers in found.items()]
