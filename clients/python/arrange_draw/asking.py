"""The answers that a picture needs: those of the program about an arrangement of a script, or printed ones."""
from __future__ import annotations

import re
from dataclasses import dataclass
from typing import Dict, Iterable, List, Optional, Tuple, cast

from arrange import BadInput, Flat, Limit, Program, Refusal, Resolution, Value, read_answers

FIELD = re.compile(r"\s*field\s+([0-9]+)\s*(?:#.*)?")
LET = re.compile(r"\s*let\s+([A-Za-z][A-Za-z0-9_]*)\s*=")
KEPT = re.compile(r"\s*(?:field|let|limit)\b")


@dataclass(frozen=True)
class Answers:
    """The values by their questions' words, the name of the arrangement, and the prime where it is known."""

    name: str
    prime: Optional[int]
    values: Dict[str, Value]

    def hyperplanes(self) -> List[Tuple[int, ...]]:
        return cast(List[Tuple[int, ...]], self._value("hyperplanes"))

    def flats(self) -> List[Flat]:
        return cast(List[Flat], self._value("flats"))

    def resolution(self) -> Resolution:
        return cast(Resolution, self._value("resolve"))

    def _value(self, word: str) -> Value:
        if word not in self.values:
            raise BadInput("answers", f"there is no answer of {word} {self.name}")
        value = self.values[word]
        if isinstance(value, Limit):
            raise value
        return value


def asked(script: str, name: Optional[str], words: Iterable[str], program: Program, behind: str = "") -> Answers:
    """Asks the questions of one arrangement of a script, instead of the script's own."""
    kept = [line for line in script.splitlines() if KEPT.match(line)]
    named = _named([found[1] for found in map(LET.match, kept) if found], name, "script")
    questions = [f"{word} {named} {behind}".rstrip() for word in words]
    with program.run("\n".join([*kept, *questions]) + "\n") as run:
        answers = list(read_answers(run.lines))
        run.finish(1 if answers and isinstance(answers[-1].value, Refusal) else 0)
    for answer in answers:
        if isinstance(answer.value, Refusal):
            raise answer.value
    return Answers(named, _prime(kept), {it.word: it.value for it in answers})


def printed(text: str, name: Optional[str], prime: Optional[int]) -> Answers:
    """Reads printed answers, where the prime has to be told."""
    answers = [it for it in read_answers(text.splitlines(keepends=True), prime) if it.word]
    named = _named([it.name for it in answers], name, "answers")
    return Answers(named, prime, {it.word: it.value for it in answers if it.name == named})


def _prime(lines: Iterable[str]) -> Optional[int]:
    found = next(filter(None, map(FIELD.fullmatch, lines)), None)
    return int(found[1]) if found else None


def _named(names: List[str], name: Optional[str], where: str) -> str:
    """The name that is asked for, or the only one that there is."""
    there: Tuple[str, ...] = tuple(dict.fromkeys(names))
    if name is None and len(there) == 1:
        return there[0]
    if name in there and name is not None:
        return name
    wanted = "say which" if name is None else f"{name} is none of them"
    raise BadInput(where, f"it names {', '.join(there) or 'no arrangement'}; {wanted}")
