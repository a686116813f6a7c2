"""Batches: many jobs of a prime in one script, and the answers of each in what that script printed.

A run of the program costs some milliseconds before it answers anything. So jobs that have the field, and where they
come from scripts all lines but the question, in common are asked in one script. An arrangement of a list has a name of
its own there, `A` with its job's number, and the question is the job's:

    field 31                     free A1: yes
    let A1 = typeA 2             ..
    free A1                      rank A2: 2
    let A2 = boolean 2
    rank A2

The printed text is split at the heads of the answers. What a run has not answered, since it was ended or refused, is
asked again: each job by a run of its own.
"""
from __future__ import annotations

from dataclasses import dataclass
from typing import Dict, Iterable, List, Sequence, Tuple

from .plan import SCRIPTS, Job, asking

MOST = 100  # jobs of one script, where no other number is named
SHARES = 64  # into at least so many scripts a survey is cut before more than one job stands in a script
MOST_BYTES = 1_000_000  # of one script; the program takes 1,048,576
REFUSED = "refused line "


@dataclass(frozen=True)
class Batch:
    """Jobs that one run answers: its number, the script, and how each answer begins, up to the colon of its head."""

    number: int
    jobs: Tuple[Job, ...]
    script: str
    heads: Tuple[str, ...]

    def file(self) -> str:
        return f"{SCRIPTS}/b{self.number:06}.arr"


def jobs_together(jobs: int) -> int:
    """How many jobs a script has where that is left open: few where there are few, so that all processors have some.

    >>> [jobs_together(count) for count in (1, 128, 24692)]
    [1, 2, 100]
    """
    return max(1, min(MOST, jobs // SHARES))


def batches_of(jobs: Iterable[Job], most: int) -> List[Batch]:
    """The jobs in batches of at most so many, in their order. A script's own questions stand alone."""
    groups: List[List[Job]] = []
    growing: Dict[Tuple[int, str], List[Job]] = {}
    sizes: Dict[Tuple[int, str], int] = {}
    for job in jobs:
        if not job.name:
            groups.append([job])
            continue
        key = (job.prime, "" if job.build else job.before())
        if key not in growing or len(growing[key]) == most or sizes[key] + len(job.script) > MOST_BYTES:
            growing[key] = []
            sizes[key] = len(key[1])
            groups.append(growing[key])
        growing[key].append(job)
        sizes[key] += len(job.script)
    return [_batch(number, group) for number, group in enumerate(groups, 1)]


def _batch(number: int, jobs: Sequence[Job]) -> Batch:
    """One script for all. A single job has its own script."""
    if len(jobs) == 1:
        return Batch(number, tuple(jobs), jobs[0].script, (jobs[0].head(jobs[0].name),))
    lines = [f"field {jobs[0].prime}\n" if jobs[0].build else jobs[0].before()]
    names: Dict[str, str] = {}
    heads = []
    for job in jobs:
        name = job.name
        if job.build:
            if job.build not in names:
                names[job.build] = f"A{job.number}"
                lines.append(f"let {names[job.build]} = {job.build}\n")
            name = names[job.build]
        lines.append(asking(job.question, name))
        heads.append(job.head(name))
    return Batch(number, tuple(jobs), "".join(lines), tuple(heads))


def split_answers(text: str, heads: Sequence[str], is_whole: bool) -> List[str]:
    """The answers in a printed text up to the first that is missing or may be cut off, by how each must begin.

    Where the text is not whole its last answer may go on: only what stands before the next head or a refusal counts.

    >>> split_answers("rank A1: 2\\nflats A2: 1\\n0: {}\\n", ["rank A1", "flats A2"], True)
    ['rank A1: 2\\n', 'flats A2: 1\\n0: {}\\n']
    >>> split_answers("rank A1: 2\\nflats A2: 1\\n0: {}\\n", ["rank A1", "flats A2"], False)
    ['rank A1: 2\\n']
    """
    answers: List[List[str]] = []
    for line in text.splitlines(keepends=True):
        if line.startswith(REFUSED) and line.endswith("\n"):
            return ["".join(it) for it in answers]
        if len(answers) < len(heads) and line.startswith(heads[len(answers)] + ":"):
            answers.append([line])
        elif answers:
            answers[-1].append(line)
        else:
            return []
    if not is_whole or answers and not answers[-1][-1].endswith("\n"):
        answers = answers[:-1]
    return ["".join(it) for it in answers]


def answers_in(batch: Batch, text: str, is_whole: bool) -> List[str]:
    """The answers of the first jobs of a batch, each as its own script prints it: the name in the head is put back."""
    found = split_answers(text, batch.heads, is_whole)
    pairs = zip(batch.jobs, batch.heads, found)
    return [job.head(job.name) + answer[len(head):] for job, head, answer in pairs]
