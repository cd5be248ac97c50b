import gzip
import io
import tarfile
import unittest

from tests import program

release = program("tools/release")
OPTIONS = {"play": {"--help", "--json"}, "export": {"--help"}}
KNOWN = (["play", "export"], ["play", "export", "limits"], OPTIONS)
BASH = """task=$1
subjects="play export limits"
if [ "$task" = play ]; then words="--help --json"
elif [ "$task" = export ]; then words="--help"
else words="play export"; fi
"""
MAN = "Options --version, \\-\\-help and \\-\\-json.\n.B kob play\n.B kob export\n"


class Release(unittest.TestCase):
    def test_the_least_version_of_the_c_library_is_the_highest_that_is_named(self) -> None:
        self.assertEqual(release.glibc([b"\0GLIBC_2.4\0GLIBC_2.14\0", b"GLIBC_2.9"]), "2.14")
        self.assertEqual(release.glibc([b""]), "2.2")

    def test_an_archive_depends_on_names_bytes_and_modes_alone(self) -> None:
        one = {"b": (b"two", 0o755), "a": (b"one", 0o644)}
        other = dict(sorted(one.items()))
        made = release.tar(one, 1_700_000_000, "kob")
        self.assertEqual(made, release.tar(other, 1_700_000_000, "kob"))
        with tarfile.open(fileobj=io.BytesIO(gzip.decompress(made))) as read:
            found = [(it.name, it.mode, it.mtime, it.uid) for it in read.getmembers()]
        self.assertEqual(found, [("kob/a", 0o644, 1_700_000_000, 0), ("kob/b", 0o755, 1_700_000_000, 0)])

    def test_an_archive_has_its_links_behind_its_files(self) -> None:
        made = release.tar({"b": (b"two", 0o644)}, 1_700_000_000, "kob", {"a": "share/a"})
        with tarfile.open(fileobj=io.BytesIO(gzip.decompress(made))) as read:
            found = [(it.name, it.linkname) for it in read.getmembers()]
        self.assertEqual(found, [("kob/b", ""), ("kob/a", "share/a")])

    def test_scenes_and_lists_are_named_where_they_lie_in_a_release(self) -> None:
        for text, wanted in (
            ("play crates/kob/data/first_scene.txt", "play examples/scenes/first_scene.txt"),
            ("crates/kob/cases/policies/page/list.txt:9", "examples/policies/page/list.txt:9"),
            ("(../crates/kob/src/main.rt)", "(../crates/kob/src/main.rt)"),
        ):
            self.assertEqual(release.moved(text), wanted)

    def test_scenes_and_lists_that_pages_name_are_found(self) -> None:
        cases: list[tuple[str, list[str]]] = [
            ("`first_scene.txt`", ["data/first_scene.txt", "data/first_scene.txt.stdout"]),
            ("play crates/kob/data/first_scene.txt.", ["data/first_scene.txt", "data/first_scene.txt.stdout"]),
            (
                "crates/kob/cases/scenes/json/scene.txt",
                ["cases/scenes/json/scene.txt", "cases/scenes/json/stdout"],
            ),
            ("your.txt, examples/kafka_acls_line.txt and kafka_acls_line.txt", []),
        ]
        for text, wanted in cases:
            self.assertEqual(release.shown([text]), [f"crates/kob/{it}" for it in wanted])

    def test_a_link_to_a_file_that_a_release_lacks_is_its_text(self) -> None:
        there = ["README.md", "docs/GUIDE.md", "docs/guide/RULES.md", "examples/scenes/a.txt"]
        for page, text, wanted in (
            ("README.md", "[the guide](docs/GUIDE.md#start)", "[the guide](docs/GUIDE.md#start)"),
            ("README.md", "[docs/THEOREMS.md](docs/THEOREMS.md#5-delivery), ", "docs/THEOREMS.md, "),
            ("docs/guide/RULES.md", "[x](../GUIDE.md) [`f`](../../src/f.rt#L1)", "[x](../GUIDE.md) `f`"),
            ("docs/GUIDE.md", "[all](../examples/scenes) [here](#a) [out](https://x.org)", None),
        ):
            self.assertEqual(release.without_dead_links(page, text, there), wanted or text)

    def test_options_are_those_of_the_program(self) -> None:
        text = "kafka-acls --list --add, kob play --json, \\-\\-trace and -l skip; no--option"
        self.assertEqual(release.options_in(text), {"--json", "--trace", "--skip"})

    def test_completions_have_the_commands_options_and_subjects_of_help(self) -> None:
        name = "release/completions/kob.bash"
        for text, wrong in (
            (BASH, []),
            (BASH.replace("--help --json", "--help"), [f"{name} and kob help play differ: --json"]),
            (BASH.replace("limits", "more"), [f"{name} does not have the subjects play export limits"]),
            (
                BASH.replace("export", "other"),
                [
                    f"{name} has no command export",
                    f"{name} and kob help export differ: --help",
                    f"{name} does not have the subjects play export limits",
                ],
            ),
        ):
            self.assertEqual(list(release.completed("kob.bash", text, KNOWN)), wrong)

    def test_the_man_page_has_the_commands_and_options_of_help(self) -> None:
        self.assertEqual(list(release.manual(MAN, KNOWN)), [])
        self.assertEqual(
            list(release.manual(MAN.replace("json", "trace").replace("kob export", "kob other"), KNOWN)),
            ["release/kob.1 and kob help differ: --json --trace", "release/kob.1 has no kob export"],
        )
