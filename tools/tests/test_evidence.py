import contextlib
import io
import pathlib
import tempfile
import unittest
from unittest import mock

from sochullwa.evidence import MADE, values
from tests import program, put

evidence = program("tools/evidence")

REFUSED = (
    "fn f() -> Result<u8, AllocError> {\n    Err(AllocError)\n}",
    "    return Err(AllocError);",
    "    let n = one.checked_add(other).ok_or(AllocError)?;",
    "    read(text).map_err(|_| AllocError)",
    "        Err(Fault::Memory(_)) => Err(AllocError),",
    "        None => Fault::Memory(AllocError),",
    "    let refused = AllocError;",
    "    read(line).or(Err(AllocError))?;",
    "use std::alloc::AllocError as Refused;",
    "use std::alloc::{AllocError as Refused, Global};",
    "pub use std::alloc::AllocError as Refused;\n\nfn f() -> Refused {\n    Refused\n}",
    "type Refused = AllocError;",
    "use crate::Fault::Memory;\n\nfn f() -> Fault {\n    Memory(AllocError)\n}",
    "        None => { Memory(AllocError) }",
    "    let fault = if is_full { Full } else {\n        Memory(AllocError)\n    };",
    "pub enum Fault {\n    Memory(AllocError),\n}\n\nfn f() -> Fault {\n    Fault::Memory(AllocError)\n}",
    "pub enum Fault {\n    Memory(AllocError),\n}\n\nfn f() -> Fault {\n    Memory(AllocError)\n}",
    "    Report::OutOfMemory { name, refused: AllocError }",
    "    sum_of(usize::MAX, 1)?;",
    "    sum_of(\n        18_446_744_073_709_551_615,\n        1,\n    )?;",
    "    let room: Vec<u8> = Vec::with_capacity(alloc, usize::MAX)?;",
    "    out.reserve(isize::MAX as usize)?;",
    "    Report::OutOfMemory {\n        refused: AllocError,\n        name,\n    }",
)
PASSED = (
    "use std::alloc::{AllocError, Global};",
    "pub enum Fault {\n    #[error(\"out of memory\")]\n    Memory(AllocError),\n    Full,\n}",
    "pub enum Fault {\n    Full,\n    Memory(#[from(alloc)] AllocError),\n}",
    "impl From<AllocError> for Fault {\n    fn from(refused: AllocError) -> Fault {\n"
    "        Fault::Memory(refused)\n    }\n}",
    "        Err(AllocError) => Ok(()),",
    "    let Err(AllocError) = read(text) else {",
    "    parts.push(part).map_err(AllocError::from)?;",
    "fn f() -> Result<Vec<(u8, u8)>, AllocError> {",
    "fn f(\n) -> Result<(), AllocError>\n    ensures { IfOk result P }",
    "// Err(AllocError)",
    "pub(crate) struct Stopped {\n    name: u8,\n    refused: AllocError,\n}",
    "pub enum Report<'a> {\n    OutOfMemory { name: &'a str, refused: AllocError },\n}",
    "pub enum Report<'a> {\n    /// Of a file.\n    OutOfMemory(&'a str, AllocError),\n}",
    "fn f(refused: AllocError, name: u8) -> Report {",
    "    let refused: AllocError = error.into();",
    "    let key = Vec::with_capacity(alloc, sum_of(texts, 3)?)?;",
    "    self.entries.reserve(1)?;\n    let last = u64::MAX;",
)


class Evidence(unittest.TestCase):
    def test_each_value_is_found(self) -> None:
        for text in REFUSED:
            with self.subTest(text):
                self.assertEqual(len(values(text)), 1)

    def test_a_type_a_pattern_and_a_path_are_no_values(self) -> None:
        for text in PASSED:
            with self.subTest(text):
                self.assertEqual(values(text), [])

    def test_a_file_makes_the_error_as_often_as_it_may(self) -> None:
        twice = "fn f() {\n    Err(AllocError)\n}\n\nfn g() {\n    Err(AllocError)\n}\n"
        with tempfile.TemporaryDirectory() as folder:
            room = pathlib.Path(folder)
            put(room, {"kob_a/src/a.rt": twice, "kob_b/src/b.rt": "", "kob_tests_b/src/b.rt": twice})
            beyond = "crates/kob_a/src/a.rt writes AllocError as a value on line 2, 6; it may"
            for made, lines in (
                ({"kob_a/src/a.rt": (2, "it")}, []),
                ({"kob_a/src/a.rt": (1, "it")}, [f"{beyond} 1 times"]),
                ({}, [f"{beyond} 0 times"]),
                (
                    {"kob_a/src/a.rt": (3, "it")},
                    ["crates/kob_a/src/a.rt writes AllocError as a value 2 times, and MADE says 3"],
                ),
                (
                    {"kob_a/src/a.rt": (2, "it"), "kob_b/src/b.rt": (1, "it"), "kob_c/src/c.rt": (1, "it")},
                    [
                        "crates/kob_b/src/b.rt writes AllocError as a value 0 times, and MADE says 1",
                        "crates/kob_c/src/c.rt writes AllocError as a value 0 times, and MADE says 1",
                    ],
                ),
            ):
                with mock.patch.object(evidence, "CRATES", room), mock.patch.dict(MADE, made, clear=True):
                    with contextlib.redirect_stdout(io.StringIO()) as said:
                        self.assertEqual(evidence.main(), 1 if lines else 0)
                self.assertEqual(said.getvalue().splitlines(), lines)

    def test_a_value_has_its_line(self) -> None:
        self.assertEqual(values("// AllocError\nlet it = \"AllocError\";\nErr(AllocError)\n"), [3])
