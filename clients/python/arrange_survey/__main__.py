"""arrange-survey: asks the same questions of many arrangements at several primes."""
from __future__ import annotations

import argparse
import pathlib
import sys
from typing import List, Optional

from arrange import ArrangeError, BadInput

from .batches import jobs_together
from .plan import Plan, jobs_of, primes_of, questions_of, read_plan, silent, write_plan
from .results import DATABASE, SHEET, collect, summary
from .running import Running, part_of, run_jobs
from .sources import sources_of

EPILOG = """\
sources: a folder, or files NAME.arr (a script), NAME.g6 (a graph in graph6 in each line), NAME.list (an arrangement in
each line, as behind `let X =`; a range such as `typeA 1..5` stands for one of each number).

examples:
  arrange-survey clients/survey/graphs-5-6 --primes 31,32003 --ask 'free; poincare' --out /tmp/graphs
  arrange-survey examples/gallery --out /tmp/gallery --seconds 10 --jobs 2
  arrange-survey --build 'typeA 1..5' --build 'boolean 2..6' --primes 101 --ask characteristic --out /tmp/families
  arrange-survey lists --primes 31 --ask free --out /tmp/far --machine 4/node1 --machine 8/node2 --program arrange

The same command goes on where it was cut off. The table stands in OUT/results.sqlite and OUT/results.csv."""


def parser() -> argparse.ArgumentParser:
    words = argparse.ArgumentParser(
        "arrange-survey", epilog=EPILOG,
        description="Asks the same questions of many arrangements at several primes, by GNU parallel.",
        formatter_class=argparse.RawDescriptionHelpFormatter,
    )
    add = words.add_argument
    add("sources", nargs="*", metavar="FOLDER", help="folders or files with scripts or lists of arrangements")
    add("--build", action="append", default=[], metavar="'typeA 1..5'", help="an arrangement, or a range of them")
    add("--primes", default="", metavar="P,P", help="the fields; of a script its own where they are left out")
    add("--ask", default="", metavar="'Q; Q'", help="the questions; of a script its own where they are left out")
    add("--questions", type=pathlib.Path, metavar="FILE", help="a file with a further question in each line")
    add("--together", type=int, metavar="N", help="at most so many jobs in a script (1 to 100, by how many there are)")
    add("--out", required=True, type=pathlib.Path, metavar="OUT", help="the folder of the survey")
    add("--only", choices=("plan", "run", "collect"), help="one step alone; run and collect take the plan in OUT")
    add = words.add_argument_group("the limits of a job").add_argument
    add("--seconds", type=float, default=60, help="of time (60)")
    add("--megabytes", type=int, default=2000, help="of memory (2000)")
    add = words.add_argument_group("where and how the jobs are run").add_argument
    add("--jobs", default="100%", help="how many at once on a machine, or a share of its processors (100%%)")
    add("--machine", action="append", default=[], metavar="[N/]HOST", help="a machine as of parallel's --sshlogin")
    add("--program", metavar="PATH", help="the program, instead of the one of ARRANGE; on a machine its path there")
    add("--nice", type=int, default=0, help="the niceness of the jobs (0)")
    add("--part", default="1/1", metavar="K/N", help="run part K of N, as a task of a Slurm array does")
    add("--again", action="store_true", help="run again what did not end with status 0")
    add("--quiet", action="store_true", help="no progress bar")
    add("--parallel", action="append", default=[], metavar="WORD", help="a further word for parallel")
    return words


def planned(options: argparse.Namespace) -> Plan:
    """The plan that the words ask for, which is written, or found in the folder."""
    sources = sources_of(options.sources, options.build)
    more = options.questions.read_text(encoding="utf-8") if options.questions else ""
    jobs = jobs_of(sources, primes_of(options.primes), questions_of(f"{options.ask};{more}"))
    if not jobs:
        raise BadInput("sources", "none of them asks anything")
    if options.together is not None and options.together < 1:
        raise BadInput("--together", f"{options.together} is less than 1")
    plan = Plan(jobs, options.together or jobs_together(len(jobs)))
    write_plan(plan, options.out)
    print(f"{len(jobs)} jobs over {len(sources)} sources, in {options.out}")
    for place in silent(sources, jobs):
        print(f"{place} asks nothing")
    return plan


def survey(options: argparse.Namespace) -> int:
    """Plans, runs and collects, or does one of these alone. The exit status is 3 where jobs are left."""
    plan = read_plan(options.out) if options.only in ("run", "collect") else planned(options)
    left = 0
    if options.only in (None, "run"):
        how = Running(
            options.jobs, options.seconds, options.megabytes, options.nice, options.machine, part_of(options.part),
            options.again, sys.stderr.isatty() and not options.quiet, options.program, options.parallel,
        )
        left = run_jobs(plan, options.out, how)
    if options.only in (None, "collect"):
        print(summary(collect(plan, options.out)))
        print(f"{options.out / DATABASE} and {options.out / SHEET} have the table")
    return 3 if left else 0


def main(words: Optional[List[str]] = None) -> int:
    options = parser().parse_args(words)
    try:
        return survey(options)
    except (ArrangeError, OSError) as fault:
        print(f"arrange-survey: {fault}", file=sys.stderr)
        return 1


if __name__ == "__main__":
    sys.exit(main())
