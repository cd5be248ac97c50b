import contextlib
import io
import pathlib
import random
import tempfile
import unittest

from tests import program, put

measure = program("bench/measure.py")
event = program("bench/event.py")
policies = program("bench/policies.py")
scene = program("bench/scene.py")
workloads = program("bench/workloads.py")


class Measure(unittest.TestCase):
    def test_a_workload_is_a_script_in_two_parts(self) -> None:
        work = next(it for it in workloads.WORKLOADS if it.name == "delete-topic, with a group each")
        first = ["super User:root", *(f"User:root h create-topic t00000{i} 1" for i in range(2))]
        first += [f"User:root h commit g00000{i} t00000{i} 0 0" for i in range(2)]
        whole = first + [f"User:root h delete-topic t00000{i}" for i in range(2)]
        wanted = ["".join(f"{line}\n" for line in part).encode() for part in (first, whole)]
        self.assertEqual(work.texts(2), wanted)

    def test_work_grows_with_n(self) -> None:
        for work in workloads.WORKLOADS:
            few, many = work.texts(1_000), work.texts(2_000)
            self.assertLess(len(few[0]), len(few[1]), work.name)
            self.assertLess(len(few[1]), len(many[1]), work.name)

    def test_names_are_spread_over_those_that_are_there(self) -> None:
        self.assertEqual(workloads.turns(12, 100, "{i}"), ["0", *map(str, range(10, 100, 10)), "0", "10"])

    def test_the_table_ends_with_the_mean_of_its_ratios(self) -> None:
        rows = [["one", "10", "2.00"], ["two", "20", "8.00"], ["three", "30", ""]]
        lines = measure.table(["work", "n", "times"], rows).splitlines()
        self.assertEqual(lines[:3], ["| work | n | times |", "|---|---|---|", "| one | 10 | 2.00 |"])
        self.assertEqual(lines[-1], "| geometric mean |  | 4.00 |")
        self.assertEqual(measure.table(["work", "n"], [["one", "10"]]).splitlines()[-1], "| one | 10 |")

    def test_a_ratio_has_two_figures(self) -> None:
        cells = [measure.times(*it) for it in ((3.0, 2.0), (0.13, 100.0), (0.0, 1.0), (1.0, 0.0))]
        self.assertEqual(cells, ["1.50", "0.0013", "", ""])

    def test_a_run_has_its_output_and_its_status(self) -> None:
        with tempfile.TemporaryDirectory() as folder:
            put(pathlib.Path(folder), {"bin/right": "#!/bin/sh\ncat\n", "bin/wrong": "#!/bin/sh\nexit 1\n"})
            self.assertEqual(measure.run(pathlib.Path(folder) / "bin/right", b"12345")[2], 5)
            with self.assertRaises(SystemExit):
                measure.run(pathlib.Path(folder) / "bin/wrong", b"")


MASSIF = """heap_tree=empty
#-----------
heap_tree=peak
n2: 130 (heap allocation functions) malloc/new/new[], --alloc-fns, etc.
 n1: 100 0x1: sqlite::insert (in threads)
  n0: 100 0x2: threads::Consuming::run (in threads)
 n2: 30 0x3: std::alloc (in threads)
  n0: 20 0x4: kob_shared::Kept::serve (in threads)
  n0: 10 0x5: elsewhere (in threads)
#-----------
heap_tree=empty
"""


class Event(unittest.TestCase):
    def test_the_calls_are_of_the_stages_of_four_runs(self) -> None:
        runs = [[20, 40, 60, 7], [0, 0, 0, 8], [200, 400, 600, 0], [0, 0, 0, 9]]
        self.assertEqual(event.of_calls(10, runs), [2, 20, 4, 6, 60, 7, 8, 9])
        self.assertEqual(len(event.CALLS), 8)
        works = [(8, 8, 8, 1, 100, 0), (8, 4, 0, 1, 100, 0), (8, 8, 8, 1, 100, 1), (8, 4, 0, 1, 100, 1)]
        self.assertEqual(event.works(8, 100), works)

    def test_a_program_that_does_less_than_it_is_told_is_refused(self) -> None:
        lines = "record 8 1\ntick 4 2\nintake 0 3\nsweep 4 5\n"
        with tempfile.TemporaryDirectory() as folder:
            put(pathlib.Path(folder), {"bin/it": f"#!/bin/sh\nprintf '{lines}'\n"})
            made = pathlib.Path(folder) / "bin/it"
            self.assertEqual(event.run(made, (8, 4, 0, 1, 100, 0))[0], [1, 2, 3, 5])
            for work in ((8, 4, 4, 1, 100, 0), (8, 4, 0, 0, 100, 0)):
                with self.assertRaises(SystemExit):
                    event.run(made, work)
            put(pathlib.Path(folder), {"bin/it": "#!/bin/sh\necho plan 4 0\necho lock 40 25\n"})
            self.assertEqual(event.least(made, ("lock", 100, 2, 10), 40, 2)[0], 25)
            with self.assertRaises(SystemExit):
                event.least(made, ("lock", 100, 2, 10), 80, 1)
            with self.assertRaises(SystemExit):
                event.told(made, ("pipeline", 100, 2, 10))

    def test_bytes_are_counted_by_the_first_place_that_fits(self) -> None:
        found = {place: held for place, held in event.by_place(MASSIF).items() if held}
        self.assertEqual(found, {"inbox": 100, "journal": 20, "other": 10})

    def test_a_table_has_the_growth_of_each_call(self) -> None:
        with contextlib.redirect_stdout(io.StringIO()) as said:
            event.table("microseconds", [10, 20], [[[4.0] * 8, [8.0] * 8], [[2.0] * 8, [2.0] * 8]])
        lines = said.getvalue().splitlines()
        self.assertEqual(lines[0], "| Call | n | microseconds, ours | C | times | growth of ours; of C |")
        self.assertEqual(lines[2], "| record | 10; 20 | 4; 8 | 2; 2 | 2.0, 4.0 | 2.0; 1.0 |")

    def test_the_programs_stand_in_folders_of_their_own(self) -> None:
        with tempfile.TemporaryDirectory() as folder:
            files = {str(it.relative_to(folder)) for it in event.placed(folder, "event").parent.rglob("*.*")}
        own = {"src/main.rt", "src/line.rt", "proofs/send/Invariants.antt", "proofs/Lib.antt"}
        self.assertEqual(files, {f"event/{it}" for it in own})


class Lists(unittest.TestCase):
    def test_a_list_has_so_many_bindings(self) -> None:
        rows = [row for heading in policies.headings(240, random.Random(1)) for row in heading[3]]
        self.assertEqual(len(rows), 240)
        self.assertLessEqual(len({row[0] for row in rows}), 20)
        with contextlib.redirect_stdout(io.StringIO()) as said:
            policies.main(["24", "2"])
        self.assertEqual(said.getvalue().count(" \t(principal=User:svc"), 24)

    def test_a_scene_has_four_steps_for_each_event(self) -> None:
        lines = scene.scene(8).removeprefix(scene.HEAD).splitlines()
        steps = ["svc tick", "con tick", "con tick"]
        record = "svc record 00000000-0000-0000-0000-00000000000{0} orders {0} OrderPaid {{}} order {0} paid"
        self.assertEqual(lines, [record.format(0), *steps, record.format(1), *steps])
