import contextlib
import io
import pathlib
import tempfile
import unittest
from typing import Any
from unittest import mock

from sochullwa.repository import TOP
from tests import program, put

start = program("tools/start")


class Start(unittest.TestCase):
    def setUp(self) -> None:
        room = tempfile.TemporaryDirectory()
        self.addCleanup(room.cleanup)
        self.room = pathlib.Path(room.name)
        put(self.room, {"kit/rlibs/uuid.rlib/format": "", "crates/kob_low/specs/Marks.antt": "-- Marks.\n"})
        put(self.room, {"crates/kob_low/src/lib.rt": "fn low", "crates/kob_low/out/lib": "built"})
        put(self.room / "example", {"uses": "kob_low uuid\n", "main.rt.txt": "fn main", "stdout": "done\n"})
        changes: dict[str, Any] = {
            "EXAMPLE": self.room / "example",
            "CRATES": self.room / "crates",
            "below": lambda named: [it for it in named if it.startswith("kob_")],
            "libraries": lambda name: ["uuid", "gone"],
        }
        for change in (
            mock.patch.multiple(start, **changes),
            mock.patch.object(start.proving, "kit", lambda: self.room / "kit"),
        ):
            change.start()
            self.addCleanup(change.stop)

    def test_a_repository_has_the_program_and_its_libraries(self) -> None:
        made = self.room / "shop"
        self.assertEqual(start.make(made), ["gone"])
        self.assertEqual((made / "crates.txt").read_text(), "kob_low: uuid gone\nshop: kob_low uuid\n")
        files = {str(it.relative_to(made)) for it in made.rglob("*") if it.is_file()}
        own = {"crates.txt", "HANDLES", ".gitignore", "LICENSE", "NOTICE", "ORIGIN"}
        own |= {"crates/shop/src/main.rt", "crates/shop/stdout"}
        self.assertEqual(files, own | {"crates/kob_low/src/lib.rt", "crates/kob_low/specs/Marks.antt"})
        self.assertIn(" are of Sochullwa, commit ", (made / "ORIGIN").read_text())

    def test_a_name_that_is_none_or_is_taken_is_refused(self) -> None:
        names = ("Shop", "my-shop", "9shop", "kob_names", "kit")
        for place in (*(str(self.room / it) for it in names), str(TOP / "shop")):
            with self.assertRaises(SystemExit):
                start.start(place)
        self.assertFalse((TOP / "shop").exists())
        self.assertFalse((self.room / "Shop").exists())

    def test_a_program_that_is_begun_is_run(self) -> None:
        put(self.room, {"bin/rt": f"#!/bin/sh\necho $PWD $* > {self.room}/ran\nexit 3\n"})
        how = {"PATH": f"{self.room / 'bin'}:/usr/bin:/bin"}
        with (
            mock.patch.dict(start.subprocess.os.environ, how),
            contextlib.redirect_stderr(io.StringIO()) as said,
        ):
            self.assertEqual(start.main([str(self.room / "shop")]), 3)
        self.assertEqual((self.room / "ran").read_text(), f"{self.room}/shop/crates/shop try\n")
        self.assertIn(f"cd {self.room}/shop/crates/shop && rt try\n", said.getvalue())

    def test_a_program_that_prints_something_else_is_wrong(self) -> None:
        put(self.room, {"bin/right": "#!/bin/sh\necho done\n", "bin/wrong": "#!/bin/sh\necho done\nexit 1\n"})
        put(self.room, {"bin/rt": "#!/bin/sh\necho main.rt is formatted anew\n"})
        how = {"PATH": f"{self.room / 'bin'}:/usr/bin:/bin"}
        with mock.patch.dict(start.subprocess.os.environ, how):
            found = list(start.wrong_things(lambda _: self.room / "bin/right"))
            self.assertEqual(found, ["gone is in no line of crates.txt", "main.rt is formatted anew"])
            found = list(start.wrong_things(lambda _: self.room / "bin/wrong"))
        self.assertEqual(found[2:], ["examples/service prints 'done\\n', with status 1"])
