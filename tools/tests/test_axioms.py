import pathlib
import unittest
from unittest import mock

from tests import program

axioms = program("tools/axioms")
SAID = """statements std: modules loaded=12 of 40
statements uuid: modules loaded=0 of 3
statements kob_names: modules loaded=4 of 4
  write                     reached
  rattle_errno              reached
  read                      declared
logic=proved functions=3 threads=
"""


class Axioms(unittest.TestCase):
    def listed(self, said: str) -> list[str]:
        with mock.patch.object(axioms, "is_port", lambda it: it == "uuid"):
            return list(axioms.listed(said))

    def test_what_the_prover_says_is_listed(self) -> None:
        self.assertEqual(
            self.listed(SAID),
            [
                "assumed, 2 C functions: write, rattle_errno",
                "taken from the kit, 2 libraries: std 12, uuid* 0",
                "proved here, 1 libraries: kob_names",
                "logic=proved functions=3 threads=",
            ],
        )
        self.assertEqual(self.listed("")[0], "assumed, 0 C functions: none")
        self.assertEqual(self.listed("")[-1], "the prover said nothing")

    def test_a_program_is_proved_if_the_last_line_says_so(self) -> None:
        lasts = {"logic=proved functions=3": True, "logic=open goals=1": False, "": False}
        for last, is_proved in lasts.items():
            with mock.patch.object(axioms, "checked", lambda _: last), mock.patch("builtins.print"):
                self.assertEqual(axioms.is_proved("kob"), is_proved)

    def test_the_programs_are_the_crates_with_a_main(self) -> None:
        with mock.patch.object(axioms, "crates", lambda: {"kob_names": [], "kob": []}):
            self.assertEqual(axioms.programs(), ["kob"])
        self.assertTrue(pathlib.Path(axioms.CRATES / "kob/src/main.rt").exists())
