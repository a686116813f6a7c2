"""Runs the program over a script, says in words what an exit status means, and explains refusals on standard error.

    launcher.py PROGRAM [FILE | sample K] 3<&0 </dev/null     runs the program at that path
    launcher.py - [FILE | sample K]                           only says what is wrong with the words, by the status too

The script is read from descriptor 3, for Python does not start where standard input is a folder. What the program
writes goes to standard output byte for byte, and its exit status is that of this command.
"""
from __future__ import annotations

import errno
import os
import re
import signal
import stat
import sys
import tempfile
from dataclasses import dataclass
from typing import List, Optional, Sequence, Set, Tuple

sys.dont_write_bytecode = True
from refusals import explained  # noqa: E402

INPUT = 3
MOST_BYTES = 1_048_576
READ_FAILED, WRITE_FAILED, WORDS_REFUSED, NO_WORDS, NOT_RUN = 2, 3, 5, 7, 8
MEANINGS = {
    2: "the script could not be read to its end",
    3: "an answer could not be written",
    4: "the script has more than 1,048,576 bytes",
    5: "the words are not the name of one file, or `sample` and a number from 0 to 9999",
    6: "memory was out; what was written is the beginning of the answers",
    7: "the system did not give the words of the command line, or one of them is no UTF-8",
    8: "the program could not be built or run, or a file not be read or installed",
    127: "the program could not be run",
}


def say(*lines: str) -> None:
    """Writes lines to standard error, where there is one."""
    try:
        os.write(2, "".join(f"{it}\n" for it in lines).encode("utf-8", "replace"))
    except OSError:
        pass


def ends(status: int, why: str = "") -> int:
    """Says what an exit status other than 0 and 1 means, and answers it."""
    if status > 1:
        unknown = f"it was ended by signal {status - 128}" if status > 128 else "an unknown status"
        say(f"arrange: status {status}: {why or MEANINGS.get(status, unknown)}")
    return status


# ---- the words


class Refused(Exception):
    """Words that name nothing to run: the exit status, and why."""

    def __init__(self, status: int, why: str) -> None:
        super().__init__(why)
        self.status = status


def look(words: Sequence[str]) -> Optional[str]:
    """The file that the words name, or None where they are none or those of a sample. Raises Refused."""
    if len(words) == 1 and os.path.exists(words[0]):
        return _readable(words[0])
    if any("\udc80" <= letter <= "\udcff" for word in words for letter in word):
        raise Refused(NO_WORDS, MEANINGS[NO_WORDS])
    if not words:
        return None
    if words[0] == "sample" and len(words) == 2:
        if re.fullmatch(r"0|[1-9][0-9]{0,3}", words[1], re.ASCII):
            return None
        why = f"the number of a sample is 0 to 9999 in decimal without leading zeros, and not `{words[1]}`"
        raise Refused(WORDS_REFUSED, why)
    if words[0] == "sample":
        raise Refused(WORDS_REFUSED, "`sample` takes one number from 0 to 9999")
    if len(words) > 1:
        raise Refused(WORDS_REFUSED, "one script is answered at a time: give the name of one file, or `sample K`")
    if words[0].startswith("-"):
        raise Refused(WORDS_REFUSED, f"there is no option `{words[0]}`; `--help` lists what there is")
    if "/" in words[0] or words[0].endswith(".arr"):
        raise Refused(NOT_RUN, f"there is no file {words[0]}")
    raise Refused(WORDS_REFUSED, f"`{words[0]}` is no file here and no word of this command; `--help` lists them")


def _readable(name: str) -> str:
    if os.path.isdir(name):
        raise Refused(NOT_RUN, f"{name} is a folder, and a script is a file")
    if not os.access(name, os.R_OK):
        raise Refused(NOT_RUN, f"{name} may not be read")
    return name


# ---- a run


@dataclass(frozen=True)
class Input:
    """A descriptor to read from, or None where it is closed; and where to begin, if it can be read again."""

    descriptor: Optional[int]
    begins: Optional[int] = None

    def text(self) -> Optional[bytes]:
        """What was read, or None where it is gone."""
        if self.descriptor is None or self.begins is None:
            return None
        return os.pread(self.descriptor, MOST_BYTES + 1, self.begins)


def is_open(descriptor: int) -> bool:
    try:
        os.fstat(descriptor)
    except OSError as fault:
        if fault.errno != errno.EBADF:
            raise
        return False
    return True


def closed_streams() -> Set[int]:
    """Which of the three streams are closed. /dev/null is then put in their places, so that no other file is."""
    closed = set()
    for stream in (0, 1, 2):
        if not is_open(stream):
            closed.add(stream)
            os.open(os.devnull, os.O_RDWR)
    return closed


def kept_input(given: int) -> Input:
    """The input, copied where it can be read only once. Raises EOFError where it can't be read to its end."""
    if stat.S_ISREG(os.fstat(given).st_mode):
        return Input(given, os.lseek(given, 0, os.SEEK_CUR))
    try:
        piece = os.read(given, 65536)
    except OSError:
        return Input(given)  # nothing was taken, and the program meets the same fault
    copy, size = os.open(tempfile.gettempdir(), os.O_TMPFILE | os.O_RDWR), 0
    while piece:
        os.write(copy, piece)
        size += len(piece)
        try:
            piece = os.read(given, 65536) if size <= MOST_BYTES else b""
        except OSError:
            raise EOFError from None
    os.lseek(copy, 0, os.SEEK_SET)
    return Input(copy, 0)


def started(program: str, words: Sequence[str], source: Optional[int], sink: int, closed: Set[int]) -> int:
    """The process of a run that reads from one descriptor and writes to another; those that were closed stay so."""
    process = os.fork()
    if process:
        return process
    try:
        os.dup2(sink, 1)
        if source is None:
            os.close(0)
        else:
            os.dup2(source, 0)
        for stream in closed - {0}:
            os.close(stream)
        for number in (signal.SIGPIPE, signal.SIGXFSZ):
            signal.signal(number, signal.SIG_DFL)
        os.execv(program, [program, *words])
    finally:
        os._exit(127)


def write_all(piece: bytes) -> None:
    while piece:
        piece = piece[os.write(1, piece) :]


def passed_on(source: int) -> Tuple[bytes, bool]:
    """Writes all that comes to standard output. Answers its end, with the last line, and whether all was written."""
    last = b""
    while True:
        piece = os.read(source, 65536)
        if not piece:
            return last, True
        last = (last + piece)[-4096:]
        try:
            write_all(piece)
        except OSError:
            return last, False


def ended(process: int) -> int:
    """The exit status, of a process that a signal ended 128 and the signal's number."""
    status = os.waitpid(process, 0)[1]
    return os.WEXITSTATUS(status) if os.WIFEXITED(status) else 128 + os.WTERMSIG(status)


def run(program: str, words: Sequence[str], given: Optional[int], closed: Set[int]) -> int:
    """Runs the program over an input, and explains a refusal. Answers the exit status."""
    kept = Input(given)
    if not words and given is not None:
        try:
            kept = kept_input(given)
        except EOFError:
            return ends(READ_FAILED)
    if 1 in closed:
        return ends(ended(started(program, words, kept.descriptor, 1, closed)))
    source, sink = os.pipe()
    process = started(program, words, kept.descriptor, sink, closed)
    try:
        os.close(sink)
        last, whole = passed_on(source)
        os.close(source)
        if not whole:
            os.kill(process, signal.SIGKILL)
            ended(process)
            return ends(WRITE_FAILED)
        status = ended(process)
    except KeyboardInterrupt:
        os.kill(process, signal.SIGKILL)
        return 130
    if status == 1:
        explain(kept.text(), last)
    return ends(status)


def explain(text: Optional[bytes], written: bytes) -> None:
    lines = written.decode("latin-1").splitlines()
    if text is None or not lines:
        return
    try:
        said = explained(text, lines[-1])
    except (IndexError, ValueError, KeyError):
        said = []
    if said:
        say(f"arrange: {said[0]}", *said[1:])


def main(words: List[str]) -> int:
    """The exit status of a run. Descriptor 3 is what was standard input; none where that was closed."""
    program, words = words[0], words[1:]
    given = INPUT if is_open(INPUT) else None
    closed = closed_streams()
    try:
        file = look(words)
        if program == "-":
            return 0
        if not os.access(program, os.X_OK) or os.path.isdir(program):
            raise Refused(NOT_RUN, f"there is no program {program} that may be run")
        if file is not None:
            words, given = [], os.open(file, os.O_RDONLY)
    except Refused as refused:
        return ends(refused.status, str(refused))
    except OSError as fault:
        return ends(NOT_RUN, f"{fault.filename}: {fault.strerror}")
    return run(program, words, given, closed)


if __name__ == "__main__":
    sys.exit(main(sys.argv[1:]) if len(sys.argv) > 1 else __doc__)
