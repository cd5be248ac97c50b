import pathlib
import tempfile
import unittest

from sochullwa import edits
from sochullwa.edits import Change, Function
from tests import put

SOURCE = """//! Marks.

pub fn last(marks: &[u64]) -> u64 {
    marks.len() as u64
}

impl<T> Iterator for Iter<T> {
    #[tactic(auto)]
    fn next(&mut self) -> Option<T> {
        let mark = self.first + 1;
        self.mark = mark;
        None
    }
}
"""
NEXT = Function("IterIterator::next", "src/marks.rt", 8, 13)
EDIT = "file: src/marks.rt\nold:         let mark = self.first + 1;\nnew:         let mark = self.first;\n"


class Edits(unittest.TestCase):
    def read(self, text: str, source: str = SOURCE) -> edits.Edit | None:
        with tempfile.TemporaryDirectory() as folder:
            room = pathlib.Path(folder)
            put(room, {"crate/src/marks.rt": source, "name.edit": text})
            return edits.read(room / "name.edit", room / "crate")

    def test_an_edit_has_its_changes_files_and_functions(self) -> None:
        found = self.read(EDIT + "old:     marks.len() as u64\nnew:     0\n")
        assert found and found.functions
        self.assertEqual([it.new for it in found.changes], ["        let mark = self.first;", "    0"])
        self.assertEqual(found.functions, (NEXT, Function("marks::last", "src/marks.rt", 3, 5)))
        changed = SOURCE.replace("self.first + 1", "self.first").replace("marks.len() as u64", "0")
        self.assertEqual(found.texts, {"src/marks.rt": changed})

    def test_a_text_that_does_not_stand_once_makes_no_edit(self) -> None:
        self.assertIsNone(self.read(EDIT.replace("first", "second")))
        self.assertIsNone(self.read("file: src/marks.rt\nold: self\nnew: it\n"))
        self.assertIsNone(self.read(EDIT.replace("src/marks.rt", "src/gone.rt")))

    def test_a_change_outside_of_functions_has_none(self) -> None:
        found = self.read("file: src/marks.rt\nold: //! Marks.\nnew: //! Mark.\n")
        assert found
        self.assertIsNone(found.functions)

    def test_an_edit_says_that_the_compiler_refuses_it(self) -> None:
        for text, is_by_type in ((EDIT, False), (EDIT + "by: type\n", True), ("by: type\n" + EDIT, True)):
            found = self.read(text)
            assert found
            self.assertEqual((found.is_by_type, len(found.changes)), (is_by_type, 1))

    def test_an_impl_is_called_as_the_prover_calls_it(self) -> None:
        for head, name in {
            " Tree": "Tree",
            " Tree<Item>": "Tree+Item",
            "<L: Line> Reader<Lossy<L>>": "Reader+Lossy+L",
            "<'a, T> Iterator for Iter<'a, T>": "IterIterator",
            " From<AllocError> for Fault": "FaultFromAllocError",
        }.items():
            self.assertEqual(edits.owner_name(head.strip()), name)

    def test_a_function_is_blamed_for_its_own_goals(self) -> None:
        for line, is_blamed in {
            "src/marks.rt:10:9: error: not proved": True,
            "./src/marks.rt:3:1: error: not proved": False,
            "src/other.rt:10:9: error: not proved": False,
            "src/marks.rt:10:9: it": False,
            "fn crate::IterIterator::next: no proof: `search` did not prove it": True,
            "fn crate::Iter::next: no proof: `search` did not prove it": False,
            "note: proofs/marks/IterIterator/next/Answers.antt:3:1: here": True,
            "proofs/marks/IterIterator/next/Answers.antt:3:1: error: record `Goals` has no step": False,
        }.items():
            self.assertEqual(NEXT.is_blamed(line), is_blamed, line)

    def test_an_edit_follows_a_name_that_was_changed(self) -> None:
        renamed = SOURCE.replace("mark", "place").replace("first", "start")
        wanted = "file: src/marks.rt\nold:         let place = self.start + 1;\n"
        wanted += "new:         let place = self.start;\n"
        self.assertEqual(edits.repaired(EDIT, {"src/marks.rt": renamed}), wanted)
        by_type = edits.repaired("by: type\n" + EDIT, {"src/marks.rt": renamed})
        self.assertEqual(by_type, wanted + "by: type\n")

    def test_an_edit_follows_a_function_to_its_file(self) -> None:
        moved = {"src/marks.rt": "//! Marks.\n", "src/iter.rt": SOURCE.replace("mark", "place")}
        self.assertEqual(edits.repaired(EDIT, moved), EDIT.replace("marks", "iter").replace("mark", "place"))

    def test_nothing_is_made_of_a_text_that_differs_in_more_than_names(self) -> None:
        self.assertEqual(edits.repaired(EDIT, {"src/marks.rt": SOURCE.replace("+ 1", "- 1")}), "")
        self.assertEqual(edits.repaired(EDIT, {"src/marks.rt": SOURCE}), "")
        line = "        let {} = self.first + 1;\n"
        twice = SOURCE.replace(line.format("mark"), line.format("it") * 2)
        self.assertEqual(edits.repaired(EDIT, {"src/marks.rt": twice}), "")

    def test_changes_may_be_of_several_files(self) -> None:
        text = "file: src/a.rt\nold: one\nnew:\nfile: src/b.rt\nold: a: b\nnew: c: d\n"
        self.assertEqual(list(edits.changes(text))[1], Change("src/b.rt", "a: b", "c: d"))
        self.assertEqual(list(edits.changes(text))[0], Change("src/a.rt", "one", ""))
