"""The jobs of a survey run by GNU parallel: on this machine, on several by ssh, or in parts as tasks of Slurm.

First the batches are run, and then, each by itself, the jobs that their batch has not answered. Each of the two has its
list of scripts and its log, and so has each part.
"""
from __future__ import annotations

import os
import pathlib
import re
import shutil
import subprocess
from dataclasses import dataclass, field
from typing import Dict, List, Optional, Sequence, Set, Tuple

from arrange import ArrangeError, BadInput, Program

from .batches import Batch, answers_in, batches_of
from .interrupts import in_session
from .plan import SCRIPTS, Job, Plan

OUTPUT = "output"
JOBS = "jobs"
LOG = "joblog"
ALONE = "-alone"
AFTER = 5  # seconds from the signal that ends a job to the one that kills it
LIMITED = 'ulimit -v "$1" && exec timeout -k {after} "$2" "$3" < "$4"'


class NoParallel(ArrangeError):
    """GNU parallel is not there."""


@dataclass(frozen=True)
class Running:
    """How the scripts are run: how many at once, the limits of each, and on which machines."""

    at_once: str = "100%"
    seconds: float = 60
    megabytes: int = 2000
    nice: int = 0
    machines: Sequence[str] = ()
    part: Tuple[int, int] = (1, 1)
    again: bool = False
    bar: bool = True
    program: Optional[str] = None
    more: Sequence[str] = field(default_factory=tuple)


def part_of(text: str) -> Tuple[int, int]:
    """Which part of the batches a run takes.

    >>> part_of("3/16")
    (3, 16)
    """
    found = re.fullmatch(r"([0-9]+)/([0-9]+)", text)
    if not found or not 1 <= int(found[1]) <= int(found[2]):
        raise BadInput("part", f"{text!r} is not K/N with K from 1 to N")
    return int(found[1]), int(found[2])


def run_jobs(plan: Plan, folder: pathlib.Path, how: Running) -> int:
    """Runs what the logs do not have yet, and gives how many of the part's jobs are not settled at the end."""
    _check_parallel()
    k, parts = how.part
    mine = batches_of(plan.jobs, plan.together)[k - 1::parts]
    ending = "" if parts == 1 else f".{k}-of-{parts}"
    scripts = {batch.file(): batch.script for batch in mine}
    repeated = {batch.file() for batch in mine if len(batch.jobs) == 1} if how.again else set()
    left = _run_scripts(scripts, folder, ending, how, repeated)
    ended = ended_scripts(folder)
    if left:
        return sum(len(batch.jobs) for batch in mine if batch.file() not in ended)
    alone = {job.file(): job.script for batch in mine for job in unanswered(batch, folder, ended[batch.file()])}
    return _run_scripts(alone, folder, ALONE + ending, how, set(alone) if how.again else set()) if alone else 0


def unanswered(batch: Batch, folder: pathlib.Path, end: Ended) -> Sequence[Job]:
    """The jobs that a batch of several, which has ended so, has not answered. They are asked alone."""
    return batch.jobs[len(batch_answers(batch, folder, end)):] if len(batch.jobs) > 1 else ()


def batch_answers(batch: Batch, folder: pathlib.Path, end: Ended) -> List[str]:
    """The answers of the first jobs of a batch. Where its run ended badly the last is left out: it may be cut off."""
    return answers_in(batch, output_of(batch.file(), folder), end.status == end.signal == 0)


def _run_scripts(
    scripts: Dict[str, str], folder: pathlib.Path, ending: str, how: Running, repeated: Set[str]
) -> int:
    """Runs the scripts that the log does not have yet, and gives how many it has not at the end.

    Those to be repeated are run again where they did not end with status 0.
    """
    files = folder / (JOBS + ending)
    files.write_text("".join(file + "\n" for file in scripts), encoding="utf-8")
    log = folder / (LOG + ending)
    (folder / SCRIPTS).mkdir(exist_ok=True)
    for file in _make_ready(list(scripts), folder, log, repeated):
        (folder / file).write_text(scripts[file], encoding="utf-8")
    environment = {**os.environ, "PARALLEL_SHELL": "/bin/sh"}
    status = in_session([*command_of(how, log.name), "::::", files.name], folder, environment)
    left = len(scripts) - len(_logged(log))
    if left and status > 101:
        raise ArrangeError(f"GNU parallel ended with status {status}, and {left} scripts are left")
    return left


def _make_ready(files: Sequence[str], folder: pathlib.Path, log: pathlib.Path, repeated: Set[str]) -> List[str]:
    """Takes away what a cut left: the beginning of a last line in the log, and outputs of scripts that the log has not.

    GNU parallel would take these scripts for done. It gives the scripts that are to be run.
    """
    (folder / OUTPUT).mkdir(exist_ok=True)
    logged = _logged(log)
    done = {k for k, end in logged.items() if end.status == end.signal == 0 or files[k - 1] not in repeated}
    if log.exists():
        head, *lines = log.read_text(encoding="utf-8").splitlines(keepends=True) or [""]
        head = head if head.endswith("\n") else ""
        kept = [line for line in lines if line.endswith("\n") and int(line.split("\t")[0]) in done]
        short = log.with_name(log.name + "-short")
        short.write_text("".join([head, *kept]), encoding="utf-8")
        short.replace(log)
    left = [file for k, file in enumerate(files, 1) if k not in done]
    for file in left:
        for tail in ("", ".err", ".seq"):
            (folder / OUTPUT / (pathlib.Path(file).stem + tail)).unlink(missing_ok=True)
    return left


def command_of(how: Running, log: str) -> List[str]:
    """The command line of GNU parallel, but for its input."""
    words = ["parallel", "--jobs", how.at_once, "--joblog", log, "--resume", "--results", f"{OUTPUT}/{{/.}}"]
    words += ["--bar"] if how.bar else []
    words += ["--nice", str(how.nice)] if how.nice else []
    for machine in how.machines:
        words += ["--sshlogin", machine]
    if how.machines:
        words += ["--transferfile", "{}", "--cleanup", "--workdir", "..."]
    here = not how.machines or how.program is None
    program = str(pathlib.Path(Program(how.program).place()).resolve()) if here else str(how.program)
    limits = f"{how.megabytes * 1024} {how.seconds:g} {_quoted(program)} {{}}"
    return [*words, *how.more, f"sh -c {_quoted(LIMITED.format(after=AFTER))} limited {limits}"]


def _quoted(text: str) -> str:
    return "'" + text.replace("'", "'\\''") + "'"


def _check_parallel() -> None:
    found = shutil.which("parallel")
    said = subprocess.run([found, "--version"], capture_output=True, text=True).stdout if found else ""
    if not said.startswith("GNU parallel"):
        where = "`apt-get install parallel` has it, and https://www.gnu.org/software/parallel/"
        raise NoParallel(f"GNU parallel is not there; {where}")


# ---- what the logs and outputs have


@dataclass(frozen=True)
class Ended:
    """How a run ended: its exit status, the signal where one ended it, its seconds, its machine, and when it began."""

    status: int
    signal: int
    seconds: float
    machine: str
    began: float


def ended_scripts(folder: pathlib.Path) -> Dict[str, Ended]:
    """The runs in all logs of a survey, by their scripts. Of a script that was run again the last run counts."""
    ended: Dict[str, Ended] = {}
    for log in sorted(folder.glob(LOG + "*")):
        listed = folder / (JOBS + log.name[len(LOG):])
        files = listed.read_text(encoding="utf-8").split() if listed.exists() else []
        for number, line in _logged(log).items():
            ended[files[number - 1]] = line
    return ended


def output_of(file: str, folder: pathlib.Path, tail: str = "") -> str:
    """What the run of a script printed, or with the tail `.err` what it said on standard error."""
    output = folder / OUTPUT / (pathlib.Path(file).stem + tail)
    return output.read_text(encoding="utf-8", errors="replace") if output.exists() else ""


def _logged(log: pathlib.Path) -> Dict[int, Ended]:
    """The whole lines of a log by the number of the script in its list."""
    lines: Dict[int, Ended] = {}
    text = log.read_text(encoding="utf-8") if log.exists() else ""
    for line in text.splitlines(keepends=True)[1:]:
        parts = line.split("\t")
        if len(parts) >= 9 and line.endswith("\n"):
            lines[int(parts[0])] = Ended(int(parts[6]), int(parts[7]), float(parts[3]), parts[1], float(parts[2]))
    return lines
