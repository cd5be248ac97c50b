import pathlib
import tempfile
import unittest

from tests import program, put

mistakes = program("tools/mistakes")
REMARK = "kob: -: line 5: no such step\n  svc tock\n      ^^^^\n  expected: ..\n"


class Mistakes(unittest.TestCase):
    def test_the_word_above_the_carets_is_named(self) -> None:
        self.assertEqual(mistakes.named(REMARK), "tock")
        self.assertEqual(mistakes.named("kob: -: line 5: more\n  svc\n     ^\n"), "(end)")
        self.assertIsNone(mistakes.named("kob: -: line 5: no such step\n"))

    def test_a_mistake_has_its_fault_its_line_and_its_word(self) -> None:
        right = (1, "fault line 5 BadStep\n", REMARK)
        heads = "fault line 5 ", "kob: -: line 5: "
        self.assertIsNone(mistakes.difference(right, *heads, "tock"))
        for output, word in (
            (right, "svc"),
            ((0, *right[1:]), "tock"),
            ((1, "1 ok\nfault line 5 BadStep\n", REMARK), "tock"),
            ((1, "fault line 5 BadStep\n2 more\n", REMARK), "tock"),
            ((1, right[1], REMARK.replace("line 5", "line 4")), "tock"),
        ):
            self.assertIsNotNone(mistakes.difference(output, *heads, word))

    def test_a_note_is_a_line_of_the_remark(self) -> None:
        right = (1, "fault line 5 BadStep\n", f"{REMARK}  nearest: tick\n")
        heads = "fault line 5 ", "kob: -: line 5: "
        self.assertIsNone(mistakes.difference(right, *heads, "tock", "nearest: tick"))
        self.assertIsNotNone(mistakes.difference(right, *heads, "tock", "nearest: tic"))
        self.assertIsNotNone(mistakes.difference(right, *heads, "svc", "nearest: tick"))

    def test_a_case_is_a_word_and_a_line_and_maybe_a_note(self) -> None:
        with tempfile.TemporaryDirectory() as folder:
            put(pathlib.Path(folder), {"cases": "# a remark\ntock\tsvc tock now\tnearest: tick\n(end)\tsvc\n"})
            found = list(mistakes.cases(pathlib.Path(folder) / "cases"))
        self.assertEqual(found, [("tock", "svc tock now", "nearest: tick"), ("(end)", "svc", "")])
