"""What a survey asks about: scripts, and lists of arrangements.

A folder gives its files of these kinds, in the order of their names:

- NAME.arr, a script;
- NAME.g6, a graph in graph6 in each line;
- NAME.list, an arrangement in each line, as it stands behind `let X =`, perhaps with a name and `=` before it. A range
  such as `typeA 1..5` stands for a line for each number.
"""
from __future__ import annotations

import pathlib
import re
from dataclasses import dataclass
from typing import Iterable, Iterator, List, Optional, Sequence

from arrange import BadInput

from .graphs import from_graph6

KINDS = (".arr", ".g6", ".list")
NAMED = re.compile(r"([A-Za-z][A-Za-z0-9_]*)\s*=\s*(.+)")
RANGE = re.compile(r"\b([0-9]+)\.\.([0-9]+)\b")
BUILDS = ("forms", "cone", "typeA", "typeB", "typeD", "boolean", "graphic")
LET = re.compile(r"\s*let\s+([A-Za-z][A-Za-z0-9_]*)\s*=")
FIELD = re.compile(r"(\s*field\s+)([0-9]+)(\s*(?:#.*)?)")
QUESTION = re.compile(r"\s*(?!field\b|let\b|limit\b)[A-Za-z]")


@dataclass(frozen=True)
class Source:
    """An arrangement or a script: where it comes from, its name, what stands behind `let A =`, or the script's text.

    The text of a script may be empty; of an arrangement there is none.
    """

    place: str
    name: str
    build: str = ""
    script: Optional[str] = None


def sources_of(paths: Sequence[str], builds: Iterable[str] = ()) -> List[Source]:
    """All that some folders and files hold, and some builds of the command line."""
    found = [it for path in paths for file in _files(pathlib.Path(path)) for it in _of_file(file)]
    found += [it for k, line in enumerate(builds, 1) for it in _of_build(line, f"--build {k}", f"build-{k}")]
    if not found:
        raise BadInput("sources", f"no file ends with {', '.join(KINDS)}, or all are empty: {' '.join(paths)}")
    return found


def _files(path: pathlib.Path) -> List[pathlib.Path]:
    if path.is_dir():
        return sorted(file for file in path.iterdir() if file.suffix in KINDS)
    if not path.exists() or path.suffix not in KINDS:
        raise BadInput(str(path), f"this is no folder, and no file that ends with {', '.join(KINDS)}")
    return [path]


def _of_file(file: pathlib.Path) -> Iterator[Source]:
    text = file.read_text(encoding="utf-8", errors="replace")
    if file.suffix == ".arr":
        yield Source(str(file), file.stem, script=text)
        return
    for number, line in enumerate(text.splitlines(), 1):
        place = f"{file}:{number}"
        line = line.split("#")[0].strip() if file.suffix == ".list" else line.strip()
        if line and file.suffix == ".list":
            yield from _of_build(line, place, f"{file.stem}-{number}")
        elif line:
            yield Source(place, line, graphic_build(line, place))


def graphic_build(text: str, place: str) -> str:
    """What stands behind `let X =` for a graph in graph6.

    >>> graphic_build("Bw", "here")
    'graphic 3 [1-2 1-3 2-3]'
    """
    vertices, edges = from_graph6(text, place)
    return f"graphic {vertices} [{' '.join(f'{a}-{b}' for a, b in edges)}]"


def _of_build(line: str, place: str, name: str) -> Iterator[Source]:
    named = NAMED.fullmatch(line)
    if named:
        name, line = named[1], named[2]
    if line.split()[0] not in BUILDS:
        raise BadInput(place, f"{line!r} begins with none of {', '.join(BUILDS)}")
    span = RANGE.search(line)
    if not span:
        yield Source(place, name, line)
        return
    for k in range(int(span[1]), int(span[2]) + 1):
        yield Source(place, f"{name}-{k}", line[:span.start()] + str(k) + line[span.end():])


# ---- scripts


def names_in(script: str) -> List[str]:
    return [found[1] for found in map(LET.match, script.splitlines()) if found]


def questions_in(script: str) -> int:
    return sum(bool(QUESTION.match(line)) for line in script.splitlines())


def without_questions(script: str) -> str:
    return "".join(line + "\n" for line in script.splitlines() if not QUESTION.match(line))


def field_of(script: str) -> int:
    """The prime of a script's field, or 0 where it has none."""
    found = next(filter(None, map(FIELD.fullmatch, script.splitlines())), None)
    return int(found[2]) if found else 0


def over(script: str, prime: int) -> str:
    """The script over another field."""
    return "".join(FIELD.sub(rf"\g<1>{prime}\g<3>", line) + "\n" for line in script.splitlines())
