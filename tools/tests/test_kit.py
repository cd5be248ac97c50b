import os
import pathlib
import subprocess
import tempfile
import unittest
from typing import Any
from unittest import mock

from sochullwa import compiling, proving
from tests import put

USES = {"low": ["uuid"], "high": ["low"]}


class Kit(unittest.TestCase):
    """What is told to a prover and a compiler, in the place of which stand small scripts."""

    def setUp(self) -> None:
        room = tempfile.TemporaryDirectory()
        self.addCleanup(room.cleanup)
        self.room = pathlib.Path(room.name)
        self.kit = self.room / "kit"
        put(self.kit, {"START-HERE.md": "", "bin/rt": f"#!/bin/sh\necho {self.kit}/START-HERE.md\n"})
        for name, uses in {"std": "dep core\n", "core": "", "uuid": "dep std\ndep core\n"}.items():
            put(self.kit, {f"rlibs/{name}.rlib/format": uses})
        put(self.room, {"crates/low/src/lib.rt": "", "crates/high/src/main.rt": ""})
        proving.kit.cache_clear()
        self.addCleanup(proving.kit.cache_clear)
        changes: list[Any] = [mock.patch.dict(os.environ, {"PATH": f"{self.kit}/bin:{os.environ['PATH']}"})]
        for module in (proving, compiling):
            changes.append(mock.patch.object(module, "is_own", lambda it: it in USES))
            changes.append(mock.patch.object(module, "libraries", lambda it: USES[it]))
        changes.append(mock.patch.object(proving, "CRATES", self.room / "crates"))
        for it in changes:
            it.start()
            self.addCleanup(it.stop)

    def test_without_the_kit_it_is_said_what_is_missing(self) -> None:
        with (
            mock.patch.dict(os.environ, {"PATH": str(self.room)}),
            self.assertRaisesRegex(SystemExit, "no command rt: this needs the Rattle kit"),
        ):
            proving.kit()

    def test_a_library_is_built_where_its_folder_is(self) -> None:
        self.assertEqual(proving.unbuilt(["low", "uuid"]), ["low"])
        proving.built("low").mkdir(parents=True)
        self.assertEqual(proving.unbuilt(["low", "uuid"]), [])

    def test_a_check_names_libraries_and_functions(self) -> None:
        proving.built("low").mkdir(parents=True)
        found, kit = proving.command("high", pathlib.Path("/kept"), ["f", "g"]), self.kit
        low = self.room / "crates/low/out/rlib/low.rlib"
        self.assertEqual(found[:5], ["rattle", "check", "--crate-name", "high", "src/main.rt"])
        self.assertEqual(found[5:9], ["--extern", f"std={kit}/rlibs/std.rlib", "--extern", f"low={low}"])
        folders = ["-L", f"dependency={kit}/rlibs", "-L", f"dependency={low.parent}"]
        self.assertEqual(found[9:13], folders)
        self.assertEqual(found[-6:], ["--incremental", "/kept", "--only", "f", "--only", "g"])
        self.assertEqual(proving.command("low", pathlib.Path("/kept"))[4], "src/lib.rt")

    def test_a_program_that_is_not_proved_is_not_built(self) -> None:
        put(self.kit, {"bin/rattle": '#!/bin/sh\necho "$1 fails"\nexit 1\n'})
        with self.assertRaisesRegex(SystemExit, "high was not built: rattle check says check fails"):
            proving.program(self.room, "high", [])
        put(self.kit, {"bin/rattle": "#!/bin/sh\n", "bin/rattle-link": '#!/bin/sh\necho "$@" >>linked\n'})
        self.assertEqual(proving.program(self.room, "high", []), self.room / "high")
        linked = (self.room / "linked").read_text().splitlines()
        self.assertEqual([it.split()[5] for it in linked], ["high", "high.by-rattle"])

    def test_the_libraries_of_the_kit_are_named_with_those_below(self) -> None:
        found = compiling.of_kit(["low", "uuid"], ["low"])
        names = [it.partition("=")[0] for it in found if it != "--lib"]
        self.assertEqual(names, ["std:core", "uuid:std,core", "core:"])

    def test_an_unproved_program_says_so(self) -> None:
        version = '"kob 0.3.0, commit ------------, proved"'
        put(self.room, {"source/version.rt": version, "source/main.rt": "fn main"})
        with mock.patch.object(compiling, "commit", lambda: "abc-dirty"):
            copy = compiling.stamped(self.room / "source", self.room / "copy")
        self.assertEqual((copy / "version.rt").read_text(), '"kob 0.3.0, commit abc-dirty, unproved"')
        self.assertEqual((copy / "main.rt").read_text(), "fn main")

    def test_the_compiler_keeps_the_large_module_alone(self) -> None:
        put(self.kit, {"toolchain/lib/a": "", "toolchain/bin/ld": ""})
        put(self.kit, {"toolchain/bin/clang": "#!/bin/sh\necho clang $1\n"})
        put(self.room, {"small.bc": "x" * 4096, "large.bc": "x" * 4097})
        tools, kept = compiling.toolchain(self.room / "tools", self.room / "kept.bc"), self.room / "kept.bc"
        for name, status in (("small.bc", 0), ("large.bc", 1)):
            self.assertFalse(kept.exists())
            ran = subprocess.run([tools / "bin/clang", self.room / name], capture_output=True, check=False)
            self.assertEqual(ran.returncode, status)
        self.assertEqual(kept.stat().st_size, 4097)
        self.assertTrue((tools / "bin/ld").is_symlink())
