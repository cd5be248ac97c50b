import contextlib
import io
import pathlib
import subprocess
import tempfile
import unittest
from unittest import mock

from sochullwa import citing, quoting, repository
from tests import program, put

guide = program("tools/guide")
PAGES = ("README.md", "CONTRIBUTING.md", "CHANGELOG.md", "SECURITY.md", "docs/PAGE.md", "bench/README.md")
# A small repository, to which a page is added.
FILES = {
    **{name: "# Page\n" for name in PAGES},
    "crates.txt": "# name: libraries\nkob_low: uuid\nkob: kob_low\n",
    "crates/kob_low/src/lib.rt": (
        "//! Marks.\n\npub struct Mark(u64);\n\nimpl Mark {\n    /// The next.\n"
        "    pub fn next(&self) -> Mark\n        ensures { result.0 ≡ self.0 + 1 }\n"
        "    {\n        Mark(self.0 + 1)\n    }\n}\n"
    ),
    "crates/kob_low/specs/Marks.antt": (
        "-- Marks.\npub first : Nat\nfirst = 0\n\npub record Row : Type where\n  at : Nat\n"
    ),
    "crates/kob/src/main.rt": "fn main() {\n    start();\n}\n",
    "crates/kob/proofs/Lib.antt": "lemma : Nat\n",
    "examples/one.txt": "first line\n",
    "mutants/kob/wrong.edit": "file: src/main.rt\n",
    "mutants/kob/new.edit": "file: src/main.rt\n",
    "mutants/kob/changed.edit": "file: src/main.rt\n",
    # (the first is the sum of "file: src/main.rt\n"; the second is that of another text)
    "mutants/tried.json": '{"kob/wrong.edit": {"verdict": "clause", "text": "a4447d7191afa0b7"}, '
    '"kob/changed.edit": {"verdict": "clause", "text": "0"}, '
    '"kob/gone.edit": {"verdict": "stored", "text": "0"}}',
    "docs/pictures/two.dot": "digraph {}\n",
}


class Guide(unittest.TestCase):
    def setUp(self) -> None:
        room = tempfile.TemporaryDirectory()
        self.addCleanup(room.cleanup)
        self.room = pathlib.Path(room.name)
        put(self.room, FILES)
        text = self.room / "docs/pictures/two.dot"
        told = subprocess.run(["sha256sum", text], capture_output=True, text=True, check=True).stdout
        picture = f"<svg/>\n<!-- drawn of two.dot, {told.split()[0]} -->\n"
        put(self.room, {"docs/pictures/two.svg": picture})
        subprocess.run(["git", "init", "-q", "."], cwd=self.room, check=True)
        for module in (repository, quoting, citing, guide):
            change = mock.patch.object(module, "TOP", self.room)
            change.start()
            self.addCleanup(change.stop)
        for module in (quoting, citing):
            change = mock.patch.object(module, "CRATES", self.room / "crates")
            change.start()
            self.addCleanup(change.stop)

    def guide(self, *words: str) -> tuple[int, str]:
        subprocess.run(["git", "add", "-A"], cwd=self.room, check=True)
        with contextlib.redirect_stdout(io.StringIO()) as said, contextlib.redirect_stderr(said):
            status = guide.main(list(words))
        return status, said.getvalue()

    def refused(self, page: str, difference: str) -> None:
        """The page of these lines is refused, for this alone."""
        put(self.room, {"docs/PAGE.md": page})
        self.assertEqual(self.guide(), (1, f"docs/PAGE.md {difference}\n"))

    def written(self, page: str, wanted: str) -> None:
        """The page is refused, and written as wanted."""
        self.refused(page, "differs from what it quotes: tools/guide --write")
        self.assertEqual(self.guide("--write"), (0, ""))
        self.assertEqual((self.room / "docs/PAGE.md").read_text(), wanted)
        self.assertEqual(self.guide(), (0, ""))

    def test_pages_that_agree_are_passed(self) -> None:
        page = "# Page\n\n## One part\n\nIt has [a link](#one-part), [another](../README.md), `first`\n"
        page += "and `crates/kob`.\n"
        put(self.room, {"docs/PAGE.md": page})
        self.assertEqual(self.guide(), (0, ""))
        self.assertEqual(self.guide("--wrong")[0], 2)

    def test_blocks_hold_what_they_quote(self) -> None:
        blocks = {
            "script one.txt": "first line\n",
            "output examples/one.txt": "first line\n",
            "contract crates/kob_low/src/lib.rt next": (
                "pub fn next(&self) -> Mark\n    ensures { result.0 ≡ self.0 + 1 }\n"
            ),
            "function crates/kob_low/src/lib.rt next": (
                "/// The next.\npub fn next(&self) -> Mark\n"
                "    ensures { result.0 ≡ self.0 + 1 }\n{\n    Mark(self.0 + 1)\n}\n"
            ),
            "contract crates/kob_low/specs/Marks.antt first": "pub first : Nat\nfirst = 0\n",
            "contract crates/kob_low/specs/Marks.antt Row": "pub record Row : Type where\n  at : Nat\n",
            "files Mark": "kob_low: specs/Marks.antt, src/lib.rt\n",
            "files Mark in kob_low kob": "kob_low: specs/Marks.antt, src/lib.rt\n",
            "layers crates.txt": " 2  kob\n 1  low\n",
            "edits mutants": "kob 3\nall 3\n",
            "tried mutants/tried.json": (
                f"{'':32}{'clause':>13}{'untried':>13}\n"
                f"{'kob':32}{1:>13}{2:>13}\n{'all':32}{1:>13}{2:>13}\n"
            ),
            "lines crates.txt": (
                f"{'lines':32}{'code':>13}{'contracts':>13}{'definitions':>13}{'proofs':>13}\n"
                f"{'kob_low':32}{7:>13}{1:>13}{4:>13}{0:>13}\n"
                f"{'kob':32}{3:>13}{0:>13}{0:>13}{1:>13}\n"
            ),
            "sizes crates.txt": (
                f"{'lines, in thousands':32}{'code':>13}{'contracts':>13}{'definitions':>13}{'proofs':>13}\n"
                f"{'texts, scenes and programs':32}{'0.0':>13}{'0.0':>13}{'0.0':>13}{'0.0':>13}\n"
                f"{'all others':32}{'0.0':>13}{'0.0':>13}{'0.0':>13}{'0.0':>13}\n"
                f"{'all':32}{'0.0':>13}{'0.0':>13}{'0.0':>13}{'0.0':>13}\n"
            ),
        }
        page = "".join(f"```{head}\n{{}}```\n\n" for head in blocks)
        self.written(page.format(*["other\n"] * len(blocks)), page.format(*blocks.values()))

    def test_a_block_of_what_is_not_there_is_refused(self) -> None:
        for head, lacking in {
            "files nowhere at all in kob": "no file has nowhere at all",
            "contract crates/kob/src/main.rt gone": "crates/kob/src/main.rt has no gone",
            "function crates/kob/src/main.rt gone": "crates/kob/src/main.rt has no gone",
        }.items():
            self.refused(f"```{head}\n```\n", f"quotes what is not there: {lacking}")
        put(self.room, {"docs/PAGE.md": "```script gone.txt\n```\n"})
        self.assertIn("docs/PAGE.md quotes what is not there: ", self.guide()[1])

    def test_a_link_to_a_line_leads_to_the_name(self) -> None:
        line = "[`Mark::next`](../crates/kob_low/src/lib.rt#L{})\n"
        self.written(line.format(1), line.format(7))
        gone = "[`Mark::gone`](../crates/kob_low/src/lib.rt#L1)\n"
        put(self.room, {"docs/PAGE.md": gone})
        text = "docs/PAGE.md quotes what is not there: ../crates/kob_low/src/lib.rt does not declare gone\n"
        self.assertIn(text, self.guide()[1])

    def test_names_of_an_index_are_links(self) -> None:
        table = "| What | Contract | Crate |\n|---|---|---|\n| it | {} | kob_low |\n"
        index = f"<!-- index -->\n{table}<!-- end of index -->\n"
        link = "[`Mark::next`](../crates/kob_low/src/lib.rt)"
        self.written(index.format("`Mark::next`"), index.format(link))
        put(self.room, {"docs/PAGE.md": index.format("`Mark::next`, `gone`")})
        text = "docs/PAGE.md quotes what is not there: no crate of its row in PAGE.md declares gone\n"
        self.assertIn(text, self.guide()[1])

    def test_what_quotations_cite_is_linked(self) -> None:
        text = "two : Nat\ntwo = first\n"
        put(self.room, {"crates/kob_low/specs/Uses.antt": f"use Rattle.kob_low.specs.Marks.{{first}}\n\n{text}"})
        page = f"```contract crates/kob_low/specs/Uses.antt two\n{text}```\n\n"
        page += "<!-- cited -->\n{}<!-- end of cited -->\n"
        table = "\n| Contract | Definitions | Lines | Lines by crate |\n|---|---|---|---|\n\n"
        table += "| Crate | Cited above and not quoted |\n|---|---|\n"
        link = "[`first`](../crates/kob_low/specs/Marks.antt#L2)"
        self.written(page.format(""), page.format(f"{table}| kob_low | {link} |\n\n"))
        moved = "[`gone`](../crates/kob_low/specs/Marks.antt#L9)\n"
        self.written(page.format(moved), page.format(f"{table}| kob_low | {link} |\n\n"))

    def test_contents_list_the_headings(self) -> None:
        page = "<!-- contents -->\n{}<!-- end of contents -->\n\n## Its `first` part\n\n"
        page += "```text\n## none\n```\n"
        self.written(page.format(""), page.format("\n- [Its `first` part](#its-first-part)\n\n"))
        self.refused("Line.\n" * 151, "has more than 150 lines and no contents")

    def test_a_link_that_leads_nowhere_is_refused(self) -> None:
        self.refused("[it](gone.md)\n", "links to gone.md, which is not there")
        self.refused("[it](#gone)\n", "links to #gone, which is not there")
        self.refused("[it](../README.md#gone)\n", "links to ../README.md#gone, which is not there")

    def test_a_name_or_a_path_that_stands_nowhere_is_refused(self) -> None:
        self.refused("It calls `strange_function`.\n", "names strange_function, which stands nowhere")
        self.refused("It reads crates/gone/lib.rt there.\n", "names crates/gone/lib.rt, which stands nowhere")
        put(self.room, {"docs/PAGE.md": "# Page\n", "CHANGELOG.md": "`strange_function` is gone.\n"})
        self.assertEqual(self.guide(), (0, ""))

    def test_a_picture_of_another_text_is_refused(self) -> None:
        put(self.room, {"docs/pictures/two.dot": "digraph { a }\n"})
        said = "docs/pictures/two.svg is not drawn of its text: tools/guide --draw\n"
        self.assertEqual(self.guide(), (1, said))

    def test_commands_print_what_stands_below_them(self) -> None:
        put(self.room, {"bin/kob": "#!/bin/sh\necho played $*\n"})
        for printed, status in (("played it", 0), ("no", 1)):
            put(self.room, {"README.md": f"```sh\nbin/kob it\n```\n\n```output it\n{printed}\n```\n"})
            found, said = self.guide("--play", "--with", str(self.room / "bin/kob"))
            last = f"1 commands of the pages were run, {status} print something else"
            self.assertEqual((found, said.splitlines()[-1]), (status, last))
        put(self.room, {"README.md": "# Page\n"})
        self.assertEqual(self.guide("--play", "--with", str(self.room / "bin/kob"))[0], 1)
