import pathlib
import tempfile
import unittest

from sochullwa import tables

PAGE = "Before.\n<!-- begin: bench/it --write -->\nold\n<!-- end of bench/it -->\nAfter.\n"


class Tables(unittest.TestCase):
    def test_a_table_has_a_line_below_its_heads(self) -> None:
        self.assertEqual(tables.heading("a", "b"), "| a | b |\n|---|---|")
        self.assertEqual(tables.row(1, "", 2.5), "| 1 |  | 2.5 |")

    def test_a_text_takes_the_place_between_the_marks(self) -> None:
        with tempfile.TemporaryDirectory() as folder:
            page = pathlib.Path(folder) / "page.md"
            page.write_text(PAGE)
            tables.put(page, "bench/it", "\nnew\n\n")
            self.assertEqual(page.read_text(), PAGE.replace("old", "new"))
            with self.assertRaises(LookupError):
                tables.put(page, "bench/other", "new")
            page.write_text(PAGE.replace("end of", "End of"))
            with self.assertRaises(LookupError):
                tables.put(page, "bench/it", "new")
