"""What went wrong can be shown, compared, and brought from one process to another."""
import copy
import pickle
import unittest

from arrange import AnswerCutOff, ArrangeError, BadInput, Limit, ProgramError, ProgramFailed, ProgramMissing, Refusal

ERRORS = [
    BadInput("form 2", "zero"), Limit("flats", "flats A"), Refusal(3, "bad list", "free A [1]"), Refusal(3, "bad list"),
    ProgramFailed("/bin/arrange", -9), ProgramFailed("/bin/arrange", 6, "no memory\n"), ProgramMissing("none"), AnswerCutOff("the end"),
]


class Errors(unittest.TestCase):
    def test_copies(self):
        for error in ERRORS:
            for other in (pickle.loads(pickle.dumps(error)), copy.copy(error), copy.deepcopy(error)):
                self.assertEqual((type(other), str(other), vars(other)), (type(error), str(error), vars(error)))

    def test_words(self):
        shown = [str(it) for it in ERRORS]
        self.assertEqual(shown[:4], [
            "form 2: zero", "flats A: limit flats", "line 3, 'free A [1]': refused, bad list", "line 3: refused, bad list",
        ])
        self.assertEqual(shown[4], "/bin/arrange: ended by signal 9, SIGKILL")
        self.assertEqual(shown[5], "/bin/arrange: status 6, memory was out; it said: no memory")

    def test_kinds(self):
        self.assertTrue(all(isinstance(it, ArrangeError) for it in ERRORS))
        self.assertEqual([isinstance(it, ProgramError) for it in ERRORS], [False] * 4 + [True] * 4)
        self.assertIsInstance(ERRORS[0], ValueError)
        self.assertEqual(len({Limit("flats", "A"), Limit("flats", "A"), Limit("nbc", "A")}), 2)
        self.assertNotEqual(Refusal(3, "dimension"), Refusal(4, "dimension"))


if __name__ == "__main__":
    unittest.main()
