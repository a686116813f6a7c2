"""Programs that are not there, are killed, stop half-way or speak another language: stand-ins, which are small scripts."""
import os
import pathlib
import stat
import tempfile
import time
import unittest
from unittest import mock

from arrange import (
    AnswerCutOff, Arrangement, Flat, Limit, Limits, Program, ProgramError, ProgramFailed, ProgramMismatch, ProgramMissing, Question,
    Refusal, Resolution, TimeOut, ask, use,
)
from arrange.program import ask_one

LINE = Arrangement.forms(["x"], 31)


class StandIn(unittest.TestCase):
    def setUp(self):
        folder = tempfile.TemporaryDirectory()
        self.addCleanup(folder.cleanup)
        self.folder = pathlib.Path(folder.name)

    def program(self, text, seconds=None, mode=stat.S_IRWXU):
        """A program that is a shell script with this text."""
        path = self.folder / "stand-in"
        path.write_text("#!/bin/sh\n" + text)
        path.chmod(mode)
        return Program(str(path), seconds)

    def prints(self, text, behind="exit 0"):
        """A program that reads the script, prints the text, and goes on with shell commands."""
        (self.folder / "text").write_text(text)
        return self.program(f"cat > {self.folder}/script\ncat {self.folder}/text\n{behind}\n")

    def flats(self, program):
        return ask_one(Question.flats(LINE), list, program)

    def fails(self, kind, program, *words):
        with self.assertRaises(kind) as caught:
            self.flats(program)
        for word in words:
            self.assertIn(word, str(caught.exception))
        self.assertIsInstance(caught.exception, ProgramError)
        return caught.exception


FLATS = "flats A1: 2\n0: {}\n1: {1}\n"
PLACES = (0, 5, 11, 12, 14, 18, 24)  # within words, and within and between lines; test_printed has all places


class Missing(StandIn):
    def test_no_such_file(self):
        self.fails(ProgramMissing, Program(str(self.folder / "none")), "none", "no such program")

    def test_a_folder(self):
        self.fails(ProgramMissing, Program(str(self.folder)), "folder")

    def test_not_executable(self):
        self.fails(ProgramMissing, self.program("exit 0", mode=stat.S_IRUSR), "may not be run")

    def test_no_program_at_all(self):
        path = self.folder / "empty"
        path.write_bytes(b"\x7fELF")
        path.chmod(stat.S_IRWXU)
        self.fails(ProgramMissing, Program(str(path)), "cannot be run")

    def test_environment(self):
        with mock.patch.dict(os.environ, {"ARRANGE": str(self.folder / "absent")}):
            self.fails(ProgramMissing, Program(), "absent")

    def test_not_built(self):
        (self.folder / "clients/python/arrange").mkdir(parents=True)
        (self.folder / "crates.txt").touch()
        with mock.patch.dict(os.environ), mock.patch("arrange.program.__file__", str(self.folder / "clients/python/arrange/program.py")):
            os.environ.pop("ARRANGE", None)
            self.fails(ProgramMissing, Program(), "is not built")

    def test_installed(self):
        """The command that is installed has its program beside it, wherever it is named or found."""
        for name in ("bin/arrange", "libexec/arrange/arrange"):
            path = self.folder / name
            path.parent.mkdir(parents=True)
            path.write_text("#!/bin/sh\nexit 0\n")
            path.chmod(stat.S_IRWXU)
        bare = str((self.folder / "libexec/arrange/arrange").resolve())
        self.assertEqual(Program(str(self.folder / "bin/arrange")).place(), bare)
        self.assertEqual(Program(bare).place(), bare)
        with mock.patch.dict(os.environ, {"ARRANGE": "arrange", "PATH": str(self.folder / "bin")}):
            self.assertEqual(Program().place(), bare)
        os.unlink(bare)
        self.assertEqual(Program(str(self.folder / "bin/arrange")).place(), str(self.folder / "bin/arrange"))

    def test_could_not_be_built(self):
        failed = self.fails(ProgramFailed, self.program("echo 'a build needs rt' >&2\nexit 8"), "could not be built", "a build needs rt")
        self.assertEqual((failed.status, failed.signal), (8, None))


class Right(StandIn):
    def test_answer(self):
        self.assertEqual(self.flats(self.prints(FLATS)), [Flat(0, ()), Flat(1, (1,))])
        self.assertEqual((self.folder / "script").read_text(), "field 31\nlet A1 = forms 1 [1]\nflats A1\n")

    def test_as_they_come(self):
        program = self.program("cat > /dev/null\necho 'rank A1: 1'\nsleep 300\n")
        answers = ask([Question.rank(LINE), Question.flats(LINE)], program)
        begun = time.monotonic()
        self.assertEqual(next(answers).value, 1)
        answers.close()
        self.assertLess(time.monotonic() - begun, 200)

    def test_input_is_not_read(self):
        self.assertEqual(self.flats(self.program(f"printf '{FLATS}'".replace("\n", "\\n"))), [Flat(0, ()), Flat(1, (1,))])


class WorkedRows(StandIn):
    """Answers about derivations, by methods, with the names of the arrangement's variables."""

    def test_free(self):
        program = self.prints("free A1: yes\n1: (1*x1, 1*x2)\n2: (0, 1*x1*x2 + 30*x2^2)\npoint: 1 2\ninverse:\n1 1\n0 15\n")
        use(program)
        self.addCleanup(use, Program())
        free = Arrangement.forms(["a", "b", "a - b"], 31).free([1, 1, 1], Limits(degree=9))
        self.assertEqual([str(it) for it in free.basis], ["(a, b)", "(0, a*b - b^2)"])
        self.assertEqual((free.exponents, free.is_certified()), ((1, 2), True))
        script = "field 31\nlet A1 = forms 2 [1 0, 0 1, 1 30]\nlimit degree 9\nfree A1 [1 1 1]\n"
        self.assertEqual((self.folder / "script").read_text(), script)

    def test_resolve(self):
        rows = "1: (1*x1, 1*x2, 1*x3)\n2: (0, 1*x1*x2 + 1*x2^2, 1*x2*x3)\n2: (0, 0, 1*x1*x3 + 1*x2*x3 + 1*x3^2)\n2: (0, 1*x2*x3, 30*x2*x3)\n"
        text = f"resolve A1: 2\nbetti 0: 0 1 3\n{rows}betti 1: 0 0 0 1\n3: (0, 1*x3, 30*x2, 30*x1 + 30*x2)\n"
        planes = Arrangement.forms(["x", "y", "z", "x + y + z"], 31)
        resolution = ask_one(Question.resolve(planes), Resolution, self.prints(text))
        self.assertEqual(resolution.betti(), {(0, 1): 1, (0, 2): 3, (1, 3): 1})
        self.assertEqual(str(resolution.maps[1].rows[0]), "(0, z, -y, -x - y)")
        for wrong in (text.replace("betti 0: 0 1 3", "betti 0: 0 2 2"), text.replace("0, 1*x3, 30*x2,", "0, 1*x3,"), text.replace("x3", "x4")):
            with self.assertRaises(ProgramMismatch):
                ask_one(Question.resolve(planes), Resolution, self.prints(wrong))


class Ended(StandIn):
    def test_killed_before(self):
        failed = self.fails(ProgramFailed, self.program("kill -9 $$"), "signal 9", "SIGKILL")
        self.assertEqual((failed.status, failed.signal), (None, 9))

    def test_killed_within(self):
        for k in PLACES:
            self.fails(ProgramFailed, self.prints(FLATS[:k], "kill -11 $$"), "SIGSEGV")

    def test_killed_behind(self):
        self.fails(ProgramFailed, self.prints(FLATS, "kill -15 $$"), "SIGTERM")

    def test_cut_off(self):
        for k in PLACES:
            self.fails(AnswerCutOff, self.prints(FLATS[:k]), "ended")

    def test_memory(self):
        failed = self.fails(ProgramFailed, self.prints("", "exit 6"), "memory was out")
        self.assertEqual(failed.status, 6)

    def test_statuses(self):
        for status in (1, 2, 3, 4, 5, 7, 99):
            self.assertEqual(self.fails(ProgramFailed, self.prints("", f"exit {status}")).status, status)
            self.assertEqual(self.fails(ProgramFailed, self.prints(FLATS, f"exit {status}")).status, status)

    def test_answers_before_the_end_stand(self):
        answers = ask([Question.rank(LINE), Question.flats(LINE)], self.prints("rank A1: 1\nflats A1: 2\n", "exit 6"))
        self.assertEqual(next(answers).value, 1)
        with self.assertRaises(ProgramFailed):
            next(answers)

    def test_time(self):
        begun = time.monotonic()
        self.fails(TimeOut, self.program("sleep 300", seconds=0.2), "0.2 seconds")
        self.assertLess(time.monotonic() - begun, 200)


class OtherLanguage(StandIn):
    def test_refusals_that_a_right_program_does_not_give(self):
        for words in ("syntax 1", "not known", "unknown name A1", "name taken A1", "field twice", "no field"):
            self.fails(ProgramMismatch, self.prints(f"refused line 3: {words}\n", "exit 1"), words, "older or newer")

    def test_refusal_of_another_line(self):
        for line in (0, 4):
            self.fails(ProgramMismatch, self.prints(f"refused line {line}: dimension\n", "exit 1"))

    def test_refusal_with_another_status(self):
        self.fails(ProgramFailed, self.prints("refused line 3: dimension\n", "exit 2"))

    def test_other_answers(self):
        for text in ("usage: program\n", "rank A1: 1\n", FLATS.replace("A1", "A2"), FLATS + "2: {1}\n", FLATS + FLATS, "\n" + FLATS):
            self.fails(ProgramMismatch, self.prints(text))

    def test_answers_of_another_arrangement(self):
        plane = Arrangement.forms(["x", "y"], 31)
        for question, text in (
            (Question.point(plane), "point A1: 1\n"), (Question.point(plane), "point A1: 1 31\n"),
            (Question.hyperplanes(plane), "hyperplanes A1: 1 in 2\n1 0\n"), (Question.hyperplanes(plane), "hyperplanes A1: 2 in 3\n1 0 0\n0 1 0\n"),
            (Question.circuits(plane), "circuits A1: 1\n{1 2 3}\n"), (Question.normal(plane, "e1"), "normal A1: 1*e3\n"),
            (Question.der(plane), "der A1: 1\n1: (1*x1, 0, 0)\n"),
        ):
            with self.subTest(text=text), self.assertRaises(ProgramMismatch):
                list(ask([question], self.prints(text)))

    def test_bytes(self):
        (self.folder / "text").write_bytes(b"flats A1: \xff\n")
        self.fails(ProgramMismatch, self.program(f"cat {self.folder}/text"))


class Batches(StandIn):
    """Many questions in one run, one of which is refused."""

    def test_behind_a_refusal(self):
        program = self.program(
            f"cat > {self.folder}/script\n"
            f"cat {self.folder}/script >> {self.folder}/scripts\n"
            f"if grep -q restrict {self.folder}/script; then echo 'rank A1: 3'; echo 'refused line 5: bad index 9'; exit 1; fi\n"
            "echo 'rank A1: 1'\n"
        )
        plane = Arrangement.boolean(3, 31)
        questions = [Question.rank(plane), Question.rank(plane.restrict(1).restrict(9)), Question.rank(LINE)]
        values = [it.value for it in ask(questions, program)]
        self.assertEqual(values, [3, Refusal(5, "bad index 9"), 1])
        self.assertEqual(values[1].command, "let A3 = restrict A2 9")
        first = "field 31\nlet A1 = boolean 3\nrank A1\nlet A2 = restrict A1 1\nlet A3 = restrict A2 9\nrank A3\nlet A4 = forms 1 [1]\nrank A4\n"
        self.assertEqual((self.folder / "scripts").read_text(), first + "field 31\nlet A1 = forms 1 [1]\nrank A1\n")

    def test_raised_by_a_method(self):
        with self.assertRaises(Refusal) as caught:
            self.flats(self.prints("refused line 3: dimension\n", "exit 1"))
        self.assertEqual((caught.exception.line, caught.exception.words, caught.exception.command), (3, "dimension", "flats A1"))
        with self.assertRaises(Limit) as met:
            self.flats(self.prints("flats A1: limit flats\n"))
        self.assertEqual(met.exception.kind, "flats")

    def test_limits_in_a_script(self):
        program = self.prints("der A1: limit pairs\nrank A1: 1\nder A1: limit degree\nder A1: limit degree\n")
        few = Limits(pairs=0)
        low = Limits(degree=1)
        questions = [Question.der(LINE, limits=few), Question.rank(LINE), Question.der(LINE, None, low), Question.der(LINE, None, low)]
        self.assertEqual([it.value for it in ask(questions, program)][1:3], [1, Limit("degree", "der A1")])
        lines = (self.folder / "script").read_text().splitlines()
        self.assertEqual(lines[2:], ["limit pairs 0", "der A1", "rank A1", "limit pairs 100000", "limit degree 1", "der A1", "der A1"])

    def test_fields_side_by_side(self):
        program = self.program("sed -n 's/^field /rank A1: /p'\n")
        primes = (31, 101, 7)
        values = [it.value for it in ask([Question.rank(LINE.over(p)) for p in primes], program)]
        self.assertEqual(values, list(primes))

    def test_nothing_to_ask(self):
        self.assertEqual(list(ask([], Program("/no/program"))), [])


if __name__ == "__main__":
    unittest.main()
