import collections
import pathlib
import tempfile
import unittest

from sochullwa import callers

SOURCE = """
use crate::other::{inner, outer};

/// It calls helper().
pub fn shown(kind: Kind)
    ensures { result ≡ case_of kind }
{
    match kind {
        Kind::Plain => case_of(),
        Kind::Other => {
            counted()
        }
    }
    helper();
    again();
    again();
}

fn case_of() {}

fn counted() {
    for it in all() {}
}

fn helper()
    requires { helper ≡ helper }
{
    inner();
}

pub(crate) fn inner() {}

fn again() {}

#[test]
fn it_is_tried() {
    helper_of_tests();
}
"""


class Callers(unittest.TestCase):
    def test_contracts_imports_and_comments_call_nothing(self) -> None:
        text = callers.without_clauses(SOURCE)
        self.assertEqual(text.count("helper()"), 2)
        self.assertNotIn("crate::other", text)
        self.assertNotIn("case_of kind", text)

    def test_each_private_function_has_its_kind(self) -> None:
        found = list(callers.called_once([SOURCE]))
        self.assertEqual(found, ["case", "loop", "other", "other", ""])

    def test_the_files_of_a_crate_are_counted_together(self) -> None:
        with tempfile.TemporaryDirectory() as folder:
            crate = pathlib.Path(folder)
            (crate / "src/below").mkdir(parents=True)
            (crate / "src/one.rt").write_text("fn first() {\n    second();\n}\n")
            (crate / "src/below/two.rt").write_text("pub(crate) fn second() {\n    first();\n    first();\n}\n")
            self.assertEqual(callers.counts(crate), collections.Counter({"": 1, "other": 1}))
