import pathlib
import tempfile
import unittest
from unittest import mock

from tests import program, put

planted = program("tools/planted")


class Planted(unittest.TestCase):
    def test_scenes_that_print_something_else_catch_it(self) -> None:
        lines = ["case one.txt status=0 output=expected", "case two-b.txt status=0 output=differs"]
        self.assertEqual(planted.verdict("\n".join(lines)), "caught by two-b.txt")
        self.assertEqual(planted.verdict(lines[0]), "NOT CAUGHT")
        self.assertEqual(planted.verdict("error: it does not compile"), "not applicable")

    def test_an_edit_of_the_gate_comes_before_another(self) -> None:
        with tempfile.TemporaryDirectory() as folder:
            room = pathlib.Path(folder)
            put(room, {"crates/a/must-fail/one.edit": "", "mutants/a/one.edit": "", "mutants/a/two.edit": ""})
            with mock.patch.multiple(planted, TOP=room, CRATES=room / "crates"):
                self.assertEqual(planted.edit_of("a/one"), room / "crates/a/must-fail/one.edit")
                self.assertEqual(planted.edit_of("a/two"), room / "mutants/a/two.edit")
                self.assertIsNone(planted.edit_of("a/three"))
