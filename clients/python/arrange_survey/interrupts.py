"""A command in a session of its own, which is ended with all that it has started where this process is interrupted."""
from __future__ import annotations

import contextlib
import os
import pathlib
import signal
import subprocess
import threading
import time
from types import FrameType
from typing import Dict, Iterator, List, Optional, Sequence

from arrange import ArrangeError

INTERRUPTS = (signal.SIGINT, signal.SIGTERM, signal.SIGHUP)
GRACE = 5.0  # seconds that the command has to end what it has started
STEP = 0.02


class Interrupted(ArrangeError):
    """The survey was interrupted, and nothing that it has started goes on."""


def in_session(command: Sequence[str], folder: pathlib.Path, environment: Dict[str, str]) -> int:
    """Runs a command, and gives its exit status, or 128 and the number of the signal that ended it.

    Interrupted by one of the signals, it ends the command and every process of the session, and raises Interrupted.
    """
    with _raised():
        process = subprocess.Popen(
            command, cwd=folder, env=environment, stdin=subprocess.DEVNULL, stdout=subprocess.DEVNULL,
            start_new_session=True,
        )
        try:
            os.waitid(os.P_PID, process.pid, os.WEXITED | os.WNOWAIT)
        finally:
            _end(process)
    return process.returncode if process.returncode >= 0 else 128 - process.returncode


@contextlib.contextmanager
def _raised() -> Iterator[None]:
    """The signals raise Interrupted within, where this is the main thread; elsewhere they are left as they are."""
    if threading.current_thread() is not threading.main_thread():
        yield
        return
    former = {number: signal.signal(number, _raise) for number in INTERRUPTS}
    try:
        yield
    finally:
        for number, handler in former.items():
            signal.signal(number, handler)


def _raise(number: int, frame: Optional[FrameType]) -> None:
    for other in INTERRUPTS:
        signal.signal(other, signal.SIG_IGN)
    raise Interrupted("interrupted; the same command goes on where it was cut off")


def _end(process: subprocess.Popen[bytes]) -> None:
    """Ends the command where it goes on, then what is left of its session; and takes its status.

    The status is taken last: until then no other session can have the number.
    """
    process_ended = os.waitid(os.P_PID, process.pid, os.WEXITED | os.WNOWAIT | os.WNOHANG) is not None
    if not process_ended:
        os.kill(process.pid, signal.SIGTERM)
    until = time.monotonic() + GRACE
    while not process_ended and time.monotonic() < until:
        time.sleep(STEP)
        process_ended = os.waitid(os.P_PID, process.pid, os.WEXITED | os.WNOWAIT | os.WNOHANG) is not None
    while left := _members(process.pid):
        for member in left:
            with contextlib.suppress(ProcessLookupError):
                os.kill(member, signal.SIGKILL)
        time.sleep(STEP)
    process.wait()


def _members(session: int) -> List[int]:
    """The processes of a session that have not ended, as /proc tells them."""
    members = []
    for stat in pathlib.Path("/proc").glob("[0-9]*/stat"):
        try:
            state, _, _, its_session = stat.read_text(encoding="utf-8", errors="replace").rpartition(")")[2].split()[:4]
        except (OSError, ValueError):
            continue
        if int(its_session) == session and state not in "ZX":
            members.append(int(stat.parent.name))
    return members
