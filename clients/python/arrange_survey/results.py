"""The results of a survey: one table, in SQLite and as CSV."""
from __future__ import annotations

import csv
import pathlib
import sqlite3
from collections import Counter
from dataclasses import asdict, dataclass, fields
from typing import Dict, Iterable, Iterator, List, Optional

from arrange import ArrangeError, Limit, Refusal, read_answers

from .batches import Batch, batches_of
from .plan import Job, Plan
from .running import Ended, batch_answers, ended_scripts, output_of

DATABASE = "results.sqlite"
TABLE = "results"
SHEET = "results.csv"
TIME, MEMORY, REFUSED = 124, 6, 1
MOST_SIGNAL = 64  # a shell tells of a signal by 128 and its number
STATUSES = ("answered", "limit", "refused", "time", "memory", "killed", "failed", "unreadable", "not run")


@dataclass(frozen=True)
class Result:
    """A job with its answer. The answer is what its script prints; where the status is not `answered` it may be a part.

    The time and the exit status are those of the run that answered it, together with other jobs or alone.
    """

    number: int
    source: str
    arrangement: str
    build: str
    prime: int
    question: str
    script: str
    answer: str
    status: str
    seconds: Optional[float]
    exit: Optional[int]
    machine: str
    began: Optional[float]
    said: str
    together: Optional[int]


def collect(plan: Plan, folder: pathlib.Path) -> List[Result]:
    """Reads the logs and outputs of a survey, and writes the table."""
    ended = ended_scripts(folder)
    results = [it for batch in batches_of(plan.jobs, plan.together) for it in _results(batch, ended, folder)]
    results.sort(key=lambda it: it.number)
    _write_sheet(results, folder / SHEET)
    _write_database(results, folder / DATABASE)
    return results


def _results(batch: Batch, ended: Dict[str, Ended], folder: pathlib.Path) -> Iterator[Result]:
    """The results of a batch: what its run has answered, and the others by what became of them alone."""
    end = ended.get(batch.file())
    if end is None or len(batch.jobs) == 1:
        yield from (_result(job, batch.file(), end, folder) for job in batch.jobs)
        return
    said = output_of(batch.file(), folder, ".err").strip()
    answers = batch_answers(batch, folder, end)
    for job, answer in zip(batch.jobs, answers):
        status = status_of_text(answer, job.asked, job.prime)
        yield _row(job, answer, status, end, said, len(answers))
    for job in batch.jobs[len(answers):]:
        yield _result(job, job.file(), ended.get(job.file()), folder)


def _result(job: Job, file: str, end: Optional[Ended], folder: pathlib.Path) -> Result:
    """The result of a job that was run by itself in the script, or was not run."""
    if end is None:
        return _row(job, "", "not run", None, "", None)
    answer = output_of(file, folder)
    said = output_of(file, folder, ".err").strip()
    return _row(job, answer, status_of(end, answer, job.asked, job.prime), end, said, 1)


def _row(job: Job, answer: str, status: str, end: Optional[Ended], said: str, together: Optional[int]) -> Result:
    what = (job.number, job.source, job.arrangement, job.build, job.prime, job.question, job.script, answer, status)
    if end is None:
        return Result(*what, None, None, "", None, "", None)
    return Result(*what, end.seconds, end.status, end.machine, end.began, said, together)


def status_of(end: Ended, answer: str, asked: int, prime: int) -> str:
    """What became of a job that was run by itself: answered, only where each of its questions has an answer."""
    if end.status == TIME:
        return "time"
    if end.status == MEMORY:
        return "memory"
    if end.signal or 128 < end.status <= 128 + MOST_SIGNAL:
        return "killed"
    if end.status not in (0, REFUSED):
        return "failed"
    return status_of_text(answer, asked, prime, end.status == REFUSED)


def status_of_text(answer: str, asked: int, prime: int, is_refused: bool = False) -> str:
    """What a printed text tells of a job that asked so much, where its run ended well or with a refusal."""
    try:
        values = [it.value for it in read_answers(answer.splitlines(keepends=True), prime or None)]
    except ArrangeError:
        return "unreadable"
    if is_refused:
        return "refused" if values and isinstance(values[-1], Refusal) else "unreadable"
    if len(values) != asked or any(isinstance(it, Refusal) for it in values):
        return "unreadable"
    return "limit" if any(isinstance(it, Limit) for it in values) else "answered"


def _write_sheet(results: Iterable[Result], sheet: pathlib.Path) -> None:
    with sheet.open("w", encoding="utf-8", newline="") as file:
        writer = csv.DictWriter(file, [it.name for it in fields(Result)])
        writer.writeheader()
        writer.writerows(asdict(it) for it in results)


def _write_database(results: Iterable[Result], database: pathlib.Path) -> None:
    """Writes the table anew."""
    names = [it.name for it in fields(Result)]
    kinds = dict.fromkeys(("prime", "exit", "together"), "INTEGER")
    kinds |= {"number": "INTEGER PRIMARY KEY", "seconds": "REAL", "began": "REAL"}
    columns = ", ".join(f"{name} {kinds.get(name, 'TEXT')}" for name in names)
    connection = sqlite3.connect(database)
    with connection:
        connection.execute(f"DROP TABLE IF EXISTS {TABLE}")
        connection.execute(f"CREATE TABLE {TABLE} ({columns})")
        places = ", ".join(f":{name}" for name in names)
        connection.executemany(f"INSERT INTO {TABLE} VALUES ({places})", [asdict(it) for it in results])
    connection.close()


def summary(results: List[Result]) -> str:
    """How many jobs have each status, how many runs there were, and the seconds of all of them and of the longest."""
    counts: Dict[str, int] = Counter(it.status for it in results)
    parts = [f"{counts[status]} {status}" for status in STATUSES if counts.get(status)]
    text = f"{len(results)} jobs: {', '.join(parts)}"
    runs = {(it.machine, it.began, it.seconds, it.together): it for it in results if it.together}
    if runs:
        longest = max(runs.values(), key=lambda it: it.seconds or 0)
        others = f" and {longest.together - 1} more" if longest.together and longest.together > 1 else ""
        which = f"{longest.question} of {longest.arrangement} at {longest.prime}{others}"
        text += f"; {len(runs)} runs with answers, {sum(it.seconds or 0 for it in runs.values()):.1f} seconds"
        text += f", the longest {longest.seconds:.1f} ({which})"
    return text
