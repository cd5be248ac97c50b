import contextlib
import io
import pathlib
import tempfile
import unittest
from typing import Any
from unittest import mock

from tests import program

quick = program("tools/quick")


class Quick(unittest.TestCase):
    def test_an_optimised_program_takes_the_place_of_the_first(self) -> None:
        levels = []
        with tempfile.TemporaryDirectory() as folder, contextlib.redirect_stderr(io.StringIO()) as said:

            def compiled(module: pathlib.Path, level: str, room: pathlib.Path) -> pathlib.Path:
                levels.append((level, (pathlib.Path(folder) / "bin/kob").exists()))
                (room / "program").write_text(f"{module} at {level}")
                return room / "program"

            changes: dict[str, Any] = {"TOP": pathlib.Path(folder), "compiled": compiled}
            changes["module"] = lambda name, *_: name
            with mock.patch.multiple(quick, **changes):
                quick.build("kob")
            self.assertEqual((pathlib.Path(folder) / "bin/kob").read_text(), "kob at -O1")
        self.assertEqual(levels, [("-O0", False), ("-O1", True)])
        self.assertEqual(said.getvalue().count("bin/kob "), 2)

    def test_a_name_of_no_program_is_refused_before_any_is_built(self) -> None:
        for name in ("kobb", "kob_names"):
            with (
                mock.patch.object(quick.sys, "argv", ["quick", "kob", name]),
                mock.patch.object(quick, "build", mock.Mock()) as build,
                contextlib.redirect_stderr(io.StringIO()) as said,
                self.assertRaises(SystemExit),
            ):
                quick.main()
            build.assert_not_called()
            self.assertIn(f"{name} is no program of crates/", said.getvalue())
