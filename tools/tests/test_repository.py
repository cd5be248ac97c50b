import contextlib
import io
import os
import pathlib
import tempfile
import unittest
from unittest import mock

from sochullwa import repository
from tests import put


class Repository(unittest.TestCase):
    def test_a_list_has_its_crates_in_order(self) -> None:
        text = "# name: libraries\nlow: thiserror\nhigh tests_may=Threads+Wait: low uuid # more\n\nalone:\n"
        wanted = [("low", ["thiserror"]), ("high", ["low", "uuid"]), ("alone", [])]
        self.assertEqual(list(repository.listed(text).items()), wanted)

    def test_below_are_the_libraries_of_the_repository_once(self) -> None:
        uses = {"low": ["uuid"], "middle": ["low", "uuid"], "other": [], "high": ["middle", "low"]}
        with tempfile.TemporaryDirectory() as folder:
            for name in uses:
                (pathlib.Path(folder) / name).mkdir()
            with mock.patch.object(repository, "CRATES", pathlib.Path(folder)):
                with mock.patch.object(repository, "crates", lambda: uses):
                    self.assertEqual(repository.below(["high", "uuid"]), ["high", "middle", "low"])

    def test_a_check_that_passed_is_made_again_when_a_file_changed(self) -> None:
        calls: list[int] = []

        def check() -> int:
            calls.append(1)
            return 1 if len(calls) == 1 else 0

        with tempfile.TemporaryDirectory() as folder, contextlib.redirect_stdout(io.StringIO()) as said:
            room = pathlib.Path(folder)
            put(room, {"bin/rt": "#!/bin/sh\necho kit", "file": "one"})
            how = {"PATH": f"{room / 'bin'}:{os.environ['PATH']}"}
            with mock.patch.dict(os.environ, how), mock.patch.object(repository, "kept", room.joinpath):
                statuses = [repository.once("it", [room / "file"], check) for _ in range(3)]
                self.assertEqual((statuses, len(calls)), ([1, 0, 0], 2))
                (room / "file").write_text("two")
                self.assertEqual((repository.once("it", [room / "file"], check), len(calls)), (0, 3))
        self.assertEqual(said.getvalue(), "it: nothing of it changed since it passed here\n")
