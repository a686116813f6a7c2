"""The jobs of a survey: each an arrangement, a prime and a question, or a script with its own questions."""
from __future__ import annotations

import json
import pathlib
from dataclasses import asdict, dataclass, replace
from typing import Iterator, List, Sequence

from arrange import BadInput
from arrange.fields import PRIMES
from arrange.questions import WORDS

from .sources import Source, field_of, names_in, over, questions_in, without_questions

PLAN = "plan.jsonl"
SCRIPTS = "scripts"
OWN = "its own"  # the question of a script whose own questions are asked


@dataclass(frozen=True)
class Job:
    """What one script asks: its number, where its arrangement comes from, and the script with so many questions.

    `build` is what stands behind `let A =`, or empty where the arrangement comes from a script; `name` is that of the
    arrangement in the script, or empty where a script's own questions are asked.
    """

    number: int
    source: str
    arrangement: str
    build: str
    prime: int
    question: str
    asked: int
    script: str
    name: str

    def file(self) -> str:
        """Where the script stands where the job is asked alone."""
        return f"{SCRIPTS}/j{self.number:06}.arr"

    def before(self) -> str:
        """The script without the line of the question."""
        return self.script[: self.script.rindex("\n", 0, -1) + 1]

    def head(self, name: str) -> str:
        """How the answer begins where the arrangement has the name."""
        return f"{self.question.split()[0]} {name}"


def questions_of(text: str) -> List[str]:
    """The questions of the command line, split at `;`, or those of a file, one in each line.

    >>> questions_of("free; triple 1")
    ['free', 'triple 1']
    """
    questions = [" ".join(it.split()) for it in text.replace("\n", ";").split(";") if it.strip()]
    for question in questions:
        if question.split()[0] not in WORDS:
            raise BadInput("questions", f"{question!r} begins with none of {', '.join(WORDS)}")
    return questions


def primes_of(text: str) -> List[int]:
    primes = [it.strip() for it in text.split(",") if it.strip()]
    for prime in primes:
        if prime not in map(str, PRIMES):
            raise BadInput("primes", f"{prime} is none of {', '.join(map(str, PRIMES))}")
    return [int(it) for it in primes]


def jobs_of(sources: Sequence[Source], primes: Sequence[int], questions: Sequence[str]) -> List[Job]:
    """The jobs in the order of the sources, then of the primes, then of the questions. A script may ask nothing."""
    jobs: List[Job] = []
    for source in sources:
        if source.script is None and not (primes and questions):
            raise BadInput(source.place, "an arrangement of a list needs --primes and --ask")
        for job in _jobs_of_one(source, primes, questions):
            jobs.append(replace(job, number=len(jobs) + 1))
    return jobs


def _jobs_of_one(source: Source, primes: Sequence[int], questions: Sequence[str]) -> Iterator[Job]:
    """The jobs of a source, without their numbers."""
    if source.script is None:
        for prime in primes:
            head = f"field {prime}\nlet A = {source.build}\n"
            for question in questions:
                script = head + asking(question, "A")
                yield Job(0, source.place, source.name, source.build, prime, question, 1, script, "A")
        return
    own = field_of(source.script)
    for prime in primes or [own]:
        script = over(source.script, prime) if prime != own else source.script
        if not questions and questions_in(script):
            yield Job(0, source.place, source.name, "", prime, OWN, questions_in(script), script, "")
        for name in names_in(script) if questions else ():
            for question in questions:
                text = without_questions(script) + asking(question, name)
                yield Job(0, source.place, f"{source.name}.{name}", "", prime, question, 1, text, name)


def silent(sources: Sequence[Source], jobs: Sequence[Job]) -> List[str]:
    """The scripts that ask nothing: of which there is no job."""
    asking_ones = {job.source for job in jobs}
    return [source.place for source in sources if source.place not in asking_ones]


def asking(question: str, name: str) -> str:
    """The line that asks a question about an arrangement.

    >>> asking("triple 1", "A")
    'triple A 1\\n'
    """
    word, _, rest = question.partition(" ")
    return f"{word} {name} {rest}".rstrip() + "\n"


# ---- in a folder


@dataclass(frozen=True)
class Plan:
    """The jobs of a survey, and how many of them may stand in one script."""

    jobs: List[Job]
    together: int


def write_plan(plan: Plan, folder: pathlib.Path) -> None:
    """Writes the plan, or finds the same plan there. Another plan in the folder is left as it is."""
    file = folder / PLAN
    lines = [json.dumps({"together": plan.together}), *(json.dumps(asdict(job)) for job in plan.jobs)]
    text = "".join(line + "\n" for line in lines)
    if file.exists():
        if file.read_text(encoding="utf-8") != text:
            raise BadInput(str(folder), "another survey is there; name another folder, or remove this one")
        return
    folder.mkdir(parents=True, exist_ok=True)
    new = file.with_name(PLAN + "-new")
    new.write_text(text, encoding="utf-8")
    new.replace(file)


def read_plan(folder: pathlib.Path) -> Plan:
    file = folder / PLAN
    if not file.exists():
        raise BadInput(str(folder), f"there is no survey in it: {PLAN} is missing")
    head, *jobs = file.read_text(encoding="utf-8").splitlines()
    return Plan([Job(**json.loads(it)) for it in jobs], json.loads(head)["together"])
