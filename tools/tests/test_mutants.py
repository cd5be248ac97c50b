import dataclasses
import pathlib
import tempfile
import unittest
from unittest import mock

from sochullwa.edits import Change, Edit, Function
from sochullwa.evidence import MADE
from tests import program, put

mutants = program("tools/mutants")


def edit(name: str, *functions: str, file: str = "src/a.rt") -> Edit:
    of = tuple(Function(it, file, 10, 20) for it in functions)
    return Edit(pathlib.Path(f"{name}.edit"), (Change(file, "old", "new"),), of or None, {})


SOURCE = "pub fn f() -> u8 {\n    1\n}\n\npub fn g() -> u8 {\n    2\n}\n\npub fn h() -> u8 {\n    3\n}\n"
# A prover that sees the mutants of f and g, the second only by its stored answer, and those of k. Of k a goal
# is open, as it is, without its stored answer; one mutant leaves another open.
PROVER = """
answers=proofs/a/g/Answers.antt
grep -q wrong_f src/a.rt && echo 'src/a.rt:2:5: error: the goal is open' && exit 1
grep -q wrong_g src/a.rt && [ -e $answers ] && echo "$answers:1:1: error: no" && exit 1
[ -e $answers ] && exit 0
grep -q wrong_more src/a.rt && echo 'note: src/a.rt:14:9: it is not proved that it holds (`returns-in-one`)'
grep -q 'fn k' src/a.rt && echo 'note: src/a.rt:14:5: it is not proved that it holds (`returns-2`)' && exit 1
exit 0
"""


class Mutants(unittest.TestCase):
    def test_each_edit_is_tried_until_something_clear_is_said_of_it(self) -> None:
        with tempfile.TemporaryDirectory() as folder:
            room = pathlib.Path(folder)
            put(room, {"crates/kob_a/src/a.rt": SOURCE, "crates/kob_a/proofs/a/g/Answers.antt": ""})
            for name, digit in (("f", 1), ("g", 2), ("h", 3), ("gone", 4)):
                text = f"file: src/a.rt\nold:     {digit}\nnew:     wrong_{name}\n"
                put(room, {f"mutants/kob_a/{name}.edit": text})
            put(room, {"mutants/kob_a/rule.edit": "file: src/a.rt\nold:     3\nnew:     Err(AllocError)\n"})
            files = sorted((room / "mutants/kob_a").glob("*.edit"))
            calls: list[list[str]] = []

            def command(crate: str, kept: pathlib.Path, functions: list[str]) -> list[str]:
                calls.append(functions)
                return ["sh", "-c", PROVER]

            with mock.patch.object(mutants, "CRATES", room / "crates"):
                with mock.patch.object(mutants.proving, "command", command):
                    found = {at.stem: verdict[0] for at, verdict in mutants.tried("kob_a", files)}
        wanted = {"gone": "not applicable", "rule": "rule", "f": "clause", "g": "PROVED", "h": "PROVED"}
        self.assertEqual(found, wanted)
        # (all in one check; then g alone, without its answers, and h alone)
        self.assertEqual(calls, [["a::f", "a::g", "a::h"], ["a::g"], ["a::g"], ["a::h"]])

    def test_a_goal_that_only_the_mutant_leaves_open_refuses_it(self) -> None:
        with tempfile.TemporaryDirectory() as folder:
            room = pathlib.Path(folder)
            put(room, {"crates/kob_a/src/a.rt": SOURCE + "\npub fn k() -> u8 {\n    4\n}\n"})
            for name in ("more", "same"):
                put(room, {f"{name}.edit": f"file: src/a.rt\nold:     4\nnew:     wrong_{name}\n"})
            with mock.patch.object(mutants, "CRATES", room / "crates"):
                with mock.patch.object(mutants.proving, "command", lambda *_: ["sh", "-c", PROVER]):
                    for name, wanted in (("more", "clause"), ("same", "stored")):
                        made = mutants.edits.read(room / f"{name}.edit", room / "crates/kob_a")
                        (room / name).mkdir()
                        self.assertEqual(mutants.renewed("kob_a", made, room / name)[0], wanted)

    def test_a_round_has_each_function_once(self) -> None:
        one, two, three = edit("one", "f"), edit("two", "f", "g"), edit("three", "h")
        outside, last = edit("outside"), edit("last", "g")
        found = list(mutants.rounds([one, two, three, outside, last]))
        self.assertEqual(found, [[one, three, last], [two], [outside]])

    def test_a_round_that_begins_outside_of_functions_is_of_one_edit(self) -> None:
        outside, one = edit("outside"), edit("one", "f")
        self.assertEqual(list(mutants.rounds([outside, one])), [[outside], [one]])

    def test_an_edit_by_type_is_alone_in_its_round(self) -> None:
        one, two, three = edit("one", "f"), edit("two", "g"), edit("three", "h")
        two = dataclasses.replace(two, is_by_type=True)
        self.assertEqual(list(mutants.rounds([one, two, three])), [[one, three], [two]])
        self.assertEqual(list(mutants.rounds([two, one, three])), [[two], [one, three]])

    def test_each_answer_of_the_prover_is_a_verdict(self) -> None:
        goal = "src/a.rt:12:5: error: the goal is open"
        stored = "proofs/a/f/Answers.antt:3:1: error: the value is another"
        for status, lines, verdict in (
            (1, [goal], ("clause", goal)),
            (1, ["src/a.rt:12:5: note: a large solution", goal], ("clause", goal)),
            (1, [stored], ("stored", stored)),
            (1, ["src/a.rt:40:5: error: the goal is open"], ("undecided", "")),
            (-1, [goal], ("undecided", "")),
            (0, [], ("PROVED", "")),
            (2, ["src/a.rt: error: no such name"], ("not applicable", "src/a.rt: error: no such name")),
            (1, ["error[E0425]: no such name"], ("not applicable", "error[E0425]: no such name")),
        ):
            self.assertEqual(mutants.verdict(edit("it", "a::f"), status, lines), verdict)
        self.assertEqual(mutants.verdict(edit("it"), 1, [stored])[0], "stored")

    def test_an_edit_by_type_is_refused_where_types_are_at_odds(self) -> None:
        types = "src/a.rt:12:5: error[mismatched-types]: expected `AllocError`, found an integer"
        count = "src/a.rt:12:5: error[mismatched-argument-count]: `f` takes 2 arguments"
        name = "src/a.rt:12:5: error[unknown-name]: cannot find value `it` in this scope"
        goal = "src/a.rt:12:5: error: the goal is open"
        by_type = dataclasses.replace(edit("it", "a::f"), is_by_type=True)
        for status, lines, verdict in (
            (1, [types], ("type", types)),
            (1, [count], ("type", count)),
            (1, [types, name], ("not applicable", types)),
            (1, [name], ("not applicable", name)),
            (1, [goal], ("clause", goal)),
            (0, [], ("PROVED", "")),
        ):
            self.assertEqual(mutants.verdict(by_type, status, lines), verdict)
        self.assertEqual(mutants.verdict(edit("it", "a::f"), 1, [types]), ("not applicable", types))

    def test_only_a_refusal_of_the_present_text_counts(self) -> None:
        with tempfile.TemporaryDirectory() as folder:
            put(pathlib.Path(folder), {"crate/it.edit": "file: src/a.rt\n"})
            at = pathlib.Path(folder) / "crate/it.edit"
            for verdict, text, is_refused in (
                ("clause", mutants.sum_of(at), True),
                ("rule", mutants.sum_of(at), True),
                ("type", mutants.sum_of(at), True),
                ("stored", mutants.sum_of(at), False),
                ("clause", "0", False),
            ):
                known = {"crate/it.edit": {"verdict": verdict, "text": text}}
                self.assertEqual(mutants.is_refused(known, at), is_refused)
            self.assertFalse(mutants.is_refused({}, at))

    def test_what_is_kept_is_of_edits_that_are_there(self) -> None:
        with tempfile.TemporaryDirectory() as folder:
            room = pathlib.Path(folder)
            put(room, {"crate/it.edit": ""})
            known = {"crate/it.edit": {"verdict": "clause"}, "crate/gone.edit": {"verdict": "PROVED"}}
            with mock.patch.multiple(mutants, MUTANTS=room, TRIED=room / "tried.json"):
                mutants.keep(known)
            wanted = '{\n"crate/it.edit": {"verdict": "clause"}\n}\n'
            self.assertEqual((room / "tried.json").read_text(), wanted)

    def test_an_edit_that_makes_an_error_breaks_the_rule(self) -> None:
        for may, text, is_broken in (
            (0, "fn f() {}", False),
            (0, "Err(AllocError)", True),
            (1, "Err(AllocError)", False),
            (1, "Err(AllocError)?; Err(AllocError)", True),
            (0, "use std::alloc::AllocError as Refused;", True),
        ):
            made = Edit(pathlib.Path("it.edit"), (), (), {"src/a.rt": text})
            with mock.patch.dict(MADE, {"kob_a/src/a.rt": (may, "it")} if may else {}, clear=True):
                self.assertEqual(mutants.breaks_the_rule("kob_a", made), is_broken)
