import contextlib
import io
import unittest
from typing import Any

from tests import program

refuse = program(".ci/refuse")
OUTPUT = b"1 ok records\nrecord one\n2 idle\n"
STOPPED = {b"stopped after 0\n", b"1 ok records\nrecord one\nstopped after 1\n"}


def ran(status: int | None, output: bytes, refused: int = 1) -> Any:
    return refuse.Ran(status, output, "", 3, refused, 0, 0)


class Refuse(unittest.TestCase):
    def test_an_output_may_stop_before_each_reply(self) -> None:
        self.assertEqual(refuse.fronts(OUTPUT), STOPPED)

    def test_a_run_prints_all_or_stops_with_status_two(self) -> None:
        for run, is_right in (
            (ran(0, OUTPUT, refused=0), True),
            (ran(2, b""), True),
            (ran(2, b"1 ok records\nrecord one\nstopped after 1\n"), True),
            (ran(2, b"1 ok records\nstopped after 1\n"), False),
            (ran(2, OUTPUT), False),
            (ran(2, b"", refused=0), False),
            (ran(0, b""), False),
            (ran(1, b""), False),
            (ran(None, b""), False),
        ):
            self.assertEqual(refuse.is_right(run, OUTPUT, STOPPED), is_right, run)

    def test_each_allocation_is_refused_in_four_ways_and_each_size_once(self) -> None:
        cuts = list(refuse.cut(2))
        self.assertEqual(len(cuts), 2 * 4 + 26)
        self.assertEqual(cuts[1], ("allocation 1 and one more", {"first": 1, "times": 2}))
        self.assertEqual(cuts[8], ("allocations of 1 bytes and more", {"least": 1}))

    def test_silence_after_replies_is_noticed(self) -> None:
        early, late = ran(2, b"stopped after 0\n"), ran(2, b"")
        one, other = {"first": 1, "times": 1}, {"first": 2, "times": 1}
        self.assertEqual(refuse.late_silence([(one, early), (other, late)]), [late])
        self.assertEqual(refuse.late_silence([(one, late), (other, early)]), [])
        self.assertEqual(refuse.late_silence([(one, early), ({"first": 2, "times": 2}, late)]), [])
        self.assertEqual(refuse.late_silence([({"least": 1}, early), ({"least": 8}, late)]), [])

    def test_what_scenarios_come_to_is_counted(self) -> None:
        counts = refuse.Counts()
        with contextlib.redirect_stdout(io.StringIO()) as said:
            counts.tell("it", [("one", ran(2, b"")), ("two", ran(0, b"x", 2))], 1, [("two", ran(0, b"x", 2))])
        self.assertEqual((counts.refused, counts.wrong), (3, 1))
        first = "it: 3 allocations refused, 1 of them while it made ready, 1 wrong answers\n"
        self.assertEqual(said.getvalue(), f"{first}    two: status 0, 'x'\n")
