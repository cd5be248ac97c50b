import contextlib
import io
import os
import pathlib
import tempfile
import unittest

from sochullwa import playing
from sochullwa.playing import Player
from tests import put

PROGRAM = """#!/bin/sh
[ "$1" = fail ] && { echo failed >&2; exit 3; }
[ "$1" = limit ] && { ulimit -v; exit; }
echo "words $*"
cat
"""


class Playing(unittest.TestCase):
    def setUp(self) -> None:
        room = tempfile.TemporaryDirectory()
        self.addCleanup(room.cleanup)
        self.room = pathlib.Path(room.name)
        put(self.room, {"bin/it": PROGRAM})
        self.player = Player(self.room / "bin/it", ("first",))

    def test_a_program_gets_its_words_and_its_input(self) -> None:
        found = self.player.play(["second"], self.room, b"text")
        self.assertEqual(found, (0, "words first second\ntext", ""))
        self.assertEqual(Player(self.player.program).play(["fail"], self.room), (3, "", "failed\n"))

    def test_a_program_gets_so_much_memory_and_no_output(self) -> None:
        found = Player(self.player.program).play(["limit"], self.room, limit=1 << 30)
        self.assertEqual(found[1], "1048576\n")
        status, printed, told = self.player.play([], self.room, close=1)
        self.assertEqual((status == 0, printed, bool(told)), (False, "", True))

    def test_what_takes_as_long_as_it_may_not_differs(self) -> None:
        with contextlib.redirect_stdout(io.StringIO()):
            found = self.player.timed("it", 10, ["second"], self.room)
            self.assertEqual(found, (0, "words first second\n", ""))
            self.assertEqual(self.player.timed("it", 0, ["second"], self.room), ())

    def test_cases_that_differ_are_counted(self) -> None:
        put(self.room / "cases/right", {"args": "a\nb", "stdin": "in", "stdout": "words a b\nin"})
        put(self.room / "cases/status", {"args": "fail", "status": "3", "stderr": "failed\n"})
        put(self.room / "cases/wrong", {"args": "a", "stdout": "words b\n"})

        def too_slow(player: Player, room: pathlib.Path) -> tuple[playing.Outcome, playing.Outcome]:
            return (), player.play([], room)

        with contextlib.redirect_stdout(io.StringIO()) as said:
            differing = playing.run(self.player, self.room / "cases", Player.stored, [too_slow])
        self.assertEqual(differing, 2)
        lines = said.getvalue().splitlines()
        self.assertEqual(lines[0], "kob prints something else for wrong")
        self.assertEqual(lines[1], "  standard output: 'words a\\n' in place of 'words b\\n'")
        self.assertEqual(lines[2], "kob prints something else for too_slow")
        self.assertEqual(lines[3:], ["it played 4 cases, 2 of them differ"])

    def test_without_a_case_something_is_wrong(self) -> None:
        (self.room / "none").mkdir()
        with contextlib.redirect_stdout(io.StringIO()):
            self.assertEqual(playing.run(self.player, self.room / "none", Player.stored, []), 1)

    def test_a_given_program_takes_the_place_of_both_builds(self) -> None:
        self.assertEqual([it.name for it in playing.builds("kob")], ["kob", "kob.by-rattle"])
        self.assertEqual(playing.builds("kob", "bin/kob"), [pathlib.Path(os.getcwd()).resolve() / "bin/kob"])
