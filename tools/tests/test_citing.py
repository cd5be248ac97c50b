import pathlib
import tempfile
import unittest
from unittest import mock

from sochullwa import citing
from tests import put

FILES = {
    "crates/kob_low/specs/Marks.antt": (
        "-- Marks.\nuse Rattle.std.specs.Prelude.{List}\n\n-- the first\nabbrev pub first : Nat\nfirst = zero\n\n"
        "module _ where\n  -- after it\n  pub record Next (mark : Nat) : Type 0 where\n"
        "    pub is : mark >> first\n\n"
        "abbrev pub ◌>>◌ : Nat → Nat\none >> other = one\n\nabbrev pub unused : Nat\nunused = first\n"
    ),
    "crates/kob_low/specs/Passed.antt": "pub use Rattle.kob_low.specs.Marks.{Next as Later}\n",
    "crates/kob_high/specs/deep/Uses.antt": (
        "use Rattle.kob_low.specs.Passed.{Later, gone}\nuse Rattle.kob_low.specs.Marks as marks\n\n"
        "abbrev pub both : Nat → Type 0\nboth\n    : Later marks.first\n\nabbrev pub None : Nat\nNone = zero\n"
    ),
    "crates/kob_high/src/laws.rt": (
        "//! Laws.\nghost use Rattle.kob_high.specs.deep.Uses.{both};\n\npub fn law()\n    ensures { both value }\n{\n}\n"
    ),
}


class Citing(unittest.TestCase):
    def setUp(self) -> None:
        room = tempfile.TemporaryDirectory()
        self.addCleanup(room.cleanup)
        self.room = pathlib.Path(room.name)
        put(self.room, FILES)
        for name, value in {"TOP": self.room, "CRATES": self.room / "crates"}.items():
            change = mock.patch.object(citing, name, value)
            change.start()
            self.addCleanup(change.stop)
        self.source = self.room / "crates/kob_high/src/laws.rt"

    def test_definitions_have_their_lines_without_comments(self) -> None:
        found = citing.declared_in(self.room / "crates/kob_low/specs/Marks.antt")
        lines = [("first", 5), ("Next", 10), ("◌>>◌", 13), ("unused", 16)]
        self.assertEqual([(it.name, it.line) for it in found.values()], lines)
        self.assertEqual(found["first"].text, "abbrev pub first : Nat\nfirst = zero")

    def test_what_is_cited_is_found_through_names_of_its_own(self) -> None:
        found = citing.behind(self.source, "pub fn law()\n    ensures { both value }\n")
        self.assertEqual([it.name for it in found], ["both", "Next", "first", "◌>>◌"])
        self.assertEqual(citing.sizes(found), "kob_low 6, kob_high 3")

    def test_a_name_that_is_not_imported_is_none(self) -> None:
        self.assertEqual(citing.behind(self.source, "Later first gone None marks.first"), [])

    def test_tables_count_and_link(self) -> None:
        both = "```contract crates/kob_high/specs/deep/Uses.antt both\nboth : Later marks.first\n```\n"
        law = "```contract crates/kob_high/src/laws.rt law\nensures { both value }\n```\n"
        page = self.room / "docs/PAGE.md"
        wanted = (
            "| Contract | Definitions | Lines | Lines by crate |\n|---|---|---|---|\n"
            "| `law` | 4 | 9 | kob_low 6, kob_high 3 |\n\n"
            "| Crate | Cited above and not quoted |\n|---|---|\n{}"
        )
        link = "[`{}`](../crates/{}#L{})".format
        high = link("both", "kob_high/specs/deep/Uses.antt", 4)
        self.assertEqual(citing.tables(page, law), wanted.format(f"| kob_high | {high} |\n"))
        low = [link("Next", "kob_low/specs/Marks.antt", 10), link("first", "kob_low/specs/Marks.antt", 5)]
        self.assertEqual(citing.tables(page, law + both), wanted.format(f"| kob_low | {', '.join(low)} |\n"))

    def test_a_file_that_no_public_contract_rests_on_is_uncited(self) -> None:
        low = self.room / "crates/kob_low/specs"
        put(self.room, {"crates/kob_low/specs/Inner.antt": "-- Inner.\n\nabbrev pub inner : Nat\ninner = zero\n"})
        put(self.room, {"crates/kob_low/specs/Lib.antt": "pub mod Inner\n"})
        self.assertEqual(list(citing.uncited(["kob_low", "kob_high"])), [low / "Inner.antt"])
        private = "ghost use Rattle.kob_low.specs.Inner.{inner};\n\nfn private()\n    ensures { inner }\n{\n}\n"
        put(self.room, {"crates/kob_high/src/private.rt": private})
        self.assertEqual(list(citing.uncited(["kob_low", "kob_high"])), [low / "Inner.antt"])
        put(self.room, {"crates/kob_high/src/private.rt": private.replace("fn p", "pub fn p")})
        self.assertEqual(list(citing.uncited(["kob_low", "kob_high"])), [])

    def test_the_clauses_of_public_functions_alone_are_read(self) -> None:
        source = "pub fn one()\n    requires { a {b} c }\n    ensures named { d }\n{\n    e\n}\n\nfn two()\n    ensures { f }\n{\n}\n"
        self.assertEqual(citing.public_clauses(source), "{ a {b} c }\n{ d }")
