"""Surveys: the same questions of many arrangements at several primes, on many processors or machines."""
from .batches import Batch, batches_of, split_answers
from .graphs import from_graph6, graphs_up_to_isomorphism, to_graph6
from .interrupts import Interrupted
from .plan import Job, Plan, jobs_of, read_plan, write_plan
from .results import Result, collect
from .running import NoParallel, Running, run_jobs
from .sources import Source, sources_of

__all__ = [
    "Batch", "Interrupted", "Job", "NoParallel", "Plan", "Result", "Running", "Source", "batches_of", "collect",
    "from_graph6", "graphs_up_to_isomorphism", "jobs_of", "read_plan", "run_jobs", "sources_of", "split_answers",
    "to_graph6", "write_plan",
]
