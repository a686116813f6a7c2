"""The program: where it is, one run of it over a script, and the answers of a run."""
from __future__ import annotations

import contextlib
import io
import os
import pathlib
import shutil
import signal
import subprocess
import tempfile
import threading
from dataclasses import dataclass
from typing import Dict, Generator, Iterable, List, Optional, Type, TypeVar, Union

from .answers import Value
from .errors import AnswerCutOff, Limit, ProgramFailed, ProgramMissing, Refusal, TimeOut
from .fields import Field
from .printed import Known, Reader, unreadable
from .questions import Question, Script

# The refusals that a right script may meet, for what is not seen without the program.
LAWFUL = (
    "field not listed", "dimension", "bad index", "bad graph", "zero form", "repeated", "too many", "bad list", "bad limit",
    "not central",
)
Kind = TypeVar("Kind")


@dataclass(frozen=True)
class Program:
    """The program at a path, and after how many seconds a run of it is ended.

    Without a path it is the one that the environment variable ARRANGE names; else the built program of the checkout in
    which this package stands; else `arrange` on the PATH. Where that is the command PREFIX/bin/arrange, which explains
    refusals to people, the program itself is taken, PREFIX/libexec/arrange/arrange.
    """

    path: Union[str, os.PathLike[str], None] = None
    seconds: Optional[float] = None

    def place(self) -> str:
        """The path of the program, or ProgramMissing. A word without a slash is looked up on the PATH."""
        named = self.path or os.environ.get("ARRANGE")
        if named:
            return _found(os.fspath(named))
        folders = pathlib.Path(__file__).resolve().parents
        checkout = next((it for it in folders if (it / "crates.txt").is_file()), None)
        if checkout is None:
            return _found("arrange")
        built = checkout / "crates/arrange/out/arrange"
        if not built.exists():
            raise ProgramMissing(f"{built}: the program is not built; {checkout / 'arrange'} proves and builds it")
        return _found(str(built))

    def run(self, script: str) -> Run:
        """One process over a script, whose answers are read as they come."""
        return Run(self.place(), script, self.seconds)


def _found(name: str) -> str:
    if os.sep in name and os.path.isdir(name):
        raise ProgramMissing(f"{name}: this is a folder, and the program is a file in it")
    found = shutil.which(name)
    if found is None:
        why = "it may not be run" if os.path.exists(name) else "there is no such program; ARRANGE may name it"
        raise ProgramMissing(f"{name}: {why}")
    bare = pathlib.Path(found).resolve().parents[1] / "libexec/arrange/arrange"
    return str(bare) if os.access(bare, os.X_OK) else found


class Run:
    """One process of the program: `lines` as they come. It is ended where the block that uses it is left."""

    def __init__(self, path: str, script: str, seconds: Optional[float] = None) -> None:
        self.path = path
        self._late = False
        self._seconds = seconds
        self._said = tempfile.TemporaryFile()
        with tempfile.TemporaryFile() as file:
            file.write(script.encode())
            file.seek(0)
            try:
                self._process = subprocess.Popen(
                    [path], stdin=file, stdout=subprocess.PIPE, stderr=self._said, start_new_session=True
                )
            except OSError as fault:
                self._said.close()
                raise ProgramMissing(f"{path}: it cannot be run, {fault.strerror}") from None
        assert self._process.stdout is not None
        self.lines = io.TextIOWrapper(self._process.stdout, encoding="ascii", errors="replace", newline="\n")
        self._timer = None if seconds is None else threading.Timer(seconds, self._end_late)
        if self._timer is not None:
            self._timer.start()

    def _end_late(self) -> None:
        self._late = True
        self._kill()

    def _kill(self) -> None:
        """Ends the process, and what it has started where it is a script; but not once its end was waited for."""
        if self._process.returncode is None:
            os.killpg(self._process.pid, signal.SIGKILL)

    def __enter__(self) -> Run:
        return self

    def __exit__(self, *_: object) -> None:
        if self._timer is not None:
            self._timer.cancel()
        self._kill()
        self._process.wait()
        self.lines.close()
        self._said.close()

    def finish(self, status: int = 0) -> None:
        """Waits for the end, and raises what it tells where that is not the status."""
        for line in self.lines:
            raise unreadable(line, "the end of the answers")
        code = self._process.wait()
        if self._late and code < 0:
            raise TimeOut(f"{self.path}: it took more than {self._seconds} seconds, and was ended")
        if code != status:
            self._said.seek(0)
            raise ProgramFailed(self.path, code, self._said.read().decode(errors="replace"))


# ---- the answers of a run


@dataclass(frozen=True)
class Answer:
    """A question with its answer, and the text that the program printed."""

    question: Question
    value: Value
    text: str


def ask(questions: Iterable[Question], program: Optional[Program] = None) -> Generator[Answer, None, None]:
    """The answers, in the order of the questions, each as soon as it is printed.

    The questions over one field stand in one script, or in as many as their bytes need. A `Limit` and a `Refusal` are
    values here; what is behind a refused question is asked again in a new run. Runs over several fields go side by side.
    """
    everything = list(questions)
    by_field: Dict[Field, List[Question]] = {}
    for question in everything:
        by_field.setdefault(question.arrangement.field, []).append(question)
    streams = {field: _answers_over(field, those, program or _default) for field, those in by_field.items()}
    try:
        for question in everything:
            yield next(streams[question.arrangement.field])
    finally:
        for stream in streams.values():
            stream.close()


def ask_one(question: Question, kind: Type[Kind], program: Optional[Program] = None) -> Kind:
    """The answer of one question, which is of the kind. A Limit or a Refusal is raised."""
    (answer,) = ask([question], program)
    if isinstance(answer.value, (Limit, Refusal)):
        raise answer.value
    assert isinstance(answer.value, kind)
    return answer.value


_default = Program()


def use(program: Program) -> None:
    """Takes a program for all questions where none is named."""
    global _default
    _default = program


def _answers_over(field: Field, questions: List[Question], program: Program) -> Generator[Answer, None, None]:
    done = 0
    while done < len(questions):
        script = Script(field)
        for question in questions[done:]:
            if not script.take(question):
                break
        with contextlib.closing(_answers_of(script, program)) as answers:
            for answer in answers:
                done += 1
                yield answer


def _answers_of(script: Script, program: Program) -> Generator[Answer, None, None]:
    """The answers of one run, up to the first refusal. The last is given when the run has ended as it should."""
    with program.run(script.text()) as run:
        reader = Reader(run.lines)
        for k in range(len(script.asked)):
            try:
                answer = _next_answer(reader, script, k)
            except AnswerCutOff:
                run.finish()
                raise
            refused = isinstance(answer.value, Refusal)
            if refused or k + 1 == len(script.asked):
                run.finish(1 if refused else 0)
            yield answer
            if refused:
                return


def _next_answer(reader: Reader, script: Script, k: int) -> Answer:
    question, name, number = script.asked[k]
    arrangement = question.arrangement
    printed = reader.answer(Known(arrangement.field.prime, arrangement.variables, arrangement.build.count()))
    if printed is None:
        raise AnswerCutOff(f"the output ended where the answer of {question.line(name)!r} is wanted")
    value = printed.value
    if isinstance(value, Refusal):
        first = script.asked[k - 1][2] + 1 if k else 1
        if not first <= value.line <= number or not value.words.startswith(LAWFUL):
            raise unreadable(printed.text.rstrip("\n"), f"the answer of {question.line(name)!r}")
        return Answer(question, Refusal(value.line, value.words, script.lines[value.line - 1]), printed.text)
    if (printed.word, printed.name) != (question.word, name):
        raise unreadable(printed.text.split("\n")[0], f"the answer of {question.line(name)!r}")
    return Answer(question, value, printed.text)
