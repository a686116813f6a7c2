"""What can go wrong. Every exception of this package is an `ArrangeError`, and `str` says what happened."""
from __future__ import annotations

import signal as signals
from typing import Any, Dict, Optional, Tuple, Type

STATUSES = {
    1: "the script was refused",
    2: "the script could not be read to its end",
    3: "an answer could not be written",
    4: "the script has more than 1,048,576 bytes",
    5: "the program takes no such words",
    6: "memory was out",
    7: "the system did not give the words of the command line",
    8: "the program could not be built, or a file not be read",
}


class ArrangeError(Exception):
    """What went wrong, in words."""

    def __reduce__(self) -> Tuple[Any, ...]:
        """So that it can be copied, and come back from another process."""
        return _again, (type(self), self.args, self.__dict__)


def _again(kind: Type[ArrangeError], args: Tuple[Any, ...], state: Dict[str, Any]) -> ArrangeError:
    error = kind.__new__(kind, *args)
    error.__dict__.update(state)
    return error


class BadInput(ArrangeError, ValueError):
    """What was given is no lawful field, arrangement or question. It is said before the program is asked.

    >>> str(BadInput("form 2, column 5", "there is no variable w"))
    'form 2, column 5: there is no variable w'
    """

    def __init__(self, place: str, words: str) -> None:
        super().__init__(f"{place}: {words}")
        self.place = place
        self.words = words


class Limit(ArrangeError):
    """A question met a limit. A method raises it; among the answers of `ask` it is a value.

    `kind` is flats, circuits, nbc, aomoto, pairs, degree, chain or multiplicity, and `words` what the program printed.
    """

    def __init__(self, kind: str, asked: str) -> None:
        super().__init__(f"{asked}: limit {kind}")
        self.kind = kind
        self.asked = asked
        self.words = f"limit {kind}"

    def __eq__(self, other: object) -> bool:
        return isinstance(other, Limit) and (self.kind, self.asked) == (other.kind, other.asked)

    def __hash__(self) -> int:
        return hash((self.kind, self.asked))


class Refusal(ArrangeError):
    """The program refused a line. A method raises it; among the answers of `ask` it is a value.

    `line` is the number of the line in the script, `words` the cause, and `command` the line where it is known.
    """

    def __init__(self, line: int, words: str, command: Optional[str] = None) -> None:
        said = f"line {line}" if command is None else f"line {line}, {command!r}"
        super().__init__(f"{said}: refused, {words}")
        self.line = line
        self.words = words
        self.command = command

    def __eq__(self, other: object) -> bool:
        return isinstance(other, Refusal) and (self.line, self.words) == (other.line, other.words)

    def __hash__(self) -> int:
        return hash((self.line, self.words))


class ProgramError(ArrangeError):
    """The program could not be asked, or what it did gives no answer."""


class ProgramMissing(ProgramError):
    """There is no program at the path, it is not built, or it may not be run."""


class ProgramFailed(ProgramError):
    """The program ended with a status that tells of a fault, or by a signal. One of `status` and `signal` is None."""

    def __init__(self, path: str, code: int, said: str = "") -> None:
        self.status = code if code >= 0 else None
        self.signal = None if code >= 0 else -code
        self.words = words_of_end(code)
        behind = f"; it said: {said.strip()}" if said.strip() else ""
        super().__init__(f"{path}: {self.words}{behind}")


class ProgramMismatch(ProgramError):
    """The program wrote what this package cannot read. It may be older or newer than the package."""


class AnswerCutOff(ProgramError):
    """The output ended before the last answer did."""


class TimeOut(ProgramError):
    """The program took more than the given seconds, and was ended."""


def words_of_end(code: int) -> str:
    """What the exit code of a process means: a signal where it is negative.

    >>> words_of_end(6), words_of_end(-9)
    ('status 6, memory was out', 'ended by signal 9, SIGKILL')
    """
    if code < 0:
        try:
            return f"ended by signal {-code}, {signals.Signals(-code).name}"
        except ValueError:
            return f"ended by signal {-code}"
    return f"status {code}, {STATUSES.get(code, 'which the program does not have')}"
