import json
import os
import pathlib
import subprocess
import tempfile
import unittest
from unittest import mock

from tests import program, put

gate = program("tools/gate")
CHECK = ["/kit/bin/rattle", "check", "--crate-name"]


class Gate(unittest.TestCase):
    def test_a_process_works_for_a_crate(self) -> None:
        with tempfile.TemporaryDirectory() as folder:
            put(pathlib.Path(folder), {"kob_a/must-fail/one.edit": "", "kob_a/must-fail/two.edit": ""})
            with mock.patch.object(gate, "CRATES", pathlib.Path(folder)):
                for words, work in (
                    ([*CHECK, "kob_a", "-o", "out"], ("kob_a", "proof")),
                    ([*CHECK, "kob_a_tests", "--test", "-o", "out"], ("kob_a", "tests")),
                    ([*CHECK, "kob_a", "--incremental", "/tmp/seed"], ("kob_a", "second")),
                    ([*CHECK, "kob_a", "--incremental", "/tmp/1"], ("kob_a", "two")),
                    ([*CHECK, "kob_a"], ("kob_a", "one")),
                    (["/kit/bin/rattle", "build", "--crate-name", "kob_a"], ("kob_a", "proof")),
                    (["crates/kob_a/out/kob_a.by-rattle"], ("kob_a", "run")),
                    (["crates/kob_a/out/kob_a_tests"], ("kob_a", "run")),
                    (["/bin/sh", "-c", "rattle"], None),
                ):
                    self.assertEqual(gate.work_of(words), work, words)

    def test_what_runs_below_a_process_is_found(self) -> None:
        with tempfile.TemporaryDirectory() as folder:
            program_file = pathlib.Path(folder) / "kob_it"
            program_file.symlink_to("/bin/sleep")
            with subprocess.Popen([program_file, "30"]) as running:
                found = gate.processes(os.getpid())
                elsewhere = gate.processes(running.pid + 1_000_000)
                running.kill()
        works = {number: work for (number, _), (work, _) in found.items()}
        self.assertEqual((works, elsewhere), ({running.pid: ("kob_it", "run")}, {}))

    def test_a_module_belongs_to_a_function_of_the_crate(self) -> None:
        for module, function in {
            "Rattle-kob_a-proofs.tree.Tree.add.Goals.oantt": "tree::Tree::add",
            "Rattle-kob_a-proofs.contracts.tree.Tree.add.TheThird.oantt": "tree::Tree::add",
            "Rattle-kob_a-specs.Marks.oantt": "Marks",
            "Rattle-kob_a-proofs.Symbol.oantt": "links",
            "Rattle-kob_b-proofs.tree.Tree.add.Goals.oantt": None,
            "Rattle-kob_a-proofs.tree.Tree.add.Goals.tmp": None,
        }.items():
            self.assertEqual(gate.function_of("kob_a", module), function)

    def test_time_is_divided_by_when_modules_were_written(self) -> None:
        functions = gate.Functions()
        one, two = (f"Rattle-kob_a-proofs.{it}.Goals.oantt" for it in ("one", "two"))
        functions.divide("kob_a", [], 3.0)
        functions.divide("kob_a", [(100.0, one)], 5.0)
        self.assertEqual(functions.seconds, {gate.FRONT: 5.0, "one": 0.0})
        functions.divide("kob_a", [(101.0, two), (104.0, one)], 13.0)
        self.assertEqual(functions.seconds, {gate.FRONT: 5.0, "one": 6.0, "two": 2.0})

    def test_what_a_run_spent_takes_the_place_of_what_was_known(self) -> None:
        known = {"kob_a": {**dict.fromkeys(gate.KINDS, 7), "at": "before"}}
        spent = [(("kob_a", "proof"), 10.4), (("kob_a", "proof"), 1.0), (("kob_a", "two"), 3.0)]
        spent += [(("kob_b", "run"), 0.2)]
        found = gate.renewed(known, spent, {"kob_a": [(1.24, "f"), (2.0, "g")]})
        found["kob_a"].pop("at"), found["kob_b"].pop("at")
        kinds = {"proof": 11, "tests": 7, "second": 7, "edits": 3, "run": 7}
        self.assertEqual(found["kob_a"], {**kinds, "each": {"two": 3}, "functions": {"g": 2.0, "f": 1.2}})
        self.assertEqual(found["kob_b"], dict.fromkeys(gate.KINDS, 0))
        self.assertEqual(json.loads(json.dumps(found)), found)

    def test_the_dearest_crate_stands_first(self) -> None:
        none = dict.fromkeys(gate.KINDS, 0)
        known = {
            "kob_a": {**none, "proof": 60, "functions": {"f": 2.4, "g": 0.9}},
            "kob_b": {**none, "proof": 30, "tests": 90, "edits": 30, "each": {"two": 10, "one": 20}},
        }
        self.assertEqual(
            gate.table(known).splitlines(),
            [
                "| Crate | Proof | Tests' proof | Second proof | Mutants | Runs |",
                "|---|---|---|---|---|---|",
                "| `kob_b` | 30 | 90 |  | 20 one, 10 two |  |",
                "| `kob_a` | 60 |  |  |  |  |",
                "| all, 4 minutes | 1.5 | 1.5 | 0.0 | 0.5 | 0.0 |",
            ],
        )
        self.assertEqual(gate.dearest(known).splitlines()[2:], ["| `kob_a` | 2 f |"])
