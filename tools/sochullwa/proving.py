"""Checks and builds over the libraries that `rt ci`, run at the top before, left in crates/*/out."""
import functools
import pathlib
import shutil
import subprocess
from collections.abc import Iterable, Sequence

from sochullwa.repository import CRATES, Words, is_own, libraries


@functools.cache
def kit() -> pathlib.Path:
    """The folder of the kit."""
    if not shutil.which("rt"):
        raise SystemExit("there is no command rt: this needs the Rattle kit (README.md, Requirements)")
    page = subprocess.run(["rt", "doc"], capture_output=True, text=True, check=True).stdout
    return pathlib.Path(page.split()[0]).parent


def built(name: str) -> pathlib.Path:
    """Where a library of the repository is kept once it is built."""
    return CRATES / name / "out" / "rlib" / f"{name}.rlib"


def unbuilt(named: Iterable[str]) -> list[str]:
    """Those libraries of the repository that are named and not built."""
    return [it for it in named if is_own(it) and not built(it).is_dir()]


def words(crate: str, root: str, named: Sequence[str]) -> list[str]:
    """What a check or a build of a crate is told: its name, its first file, and the libraries that it
    names."""
    own = {it.name: built(it.name) for it in CRATES.iterdir() if built(it.name).is_dir()}
    told = ["--crate-name", crate, root]
    for name in ("std", *named):
        told += ["--extern", f"{name}={own.get(name, kit() / 'rlibs' / f'{name}.rlib')}"]
    for folder in (kit() / "rlibs", *(it.parent for it in own.values())):
        told += ["-L", f"dependency={folder}"]
    return [*told, "--antt-project", f"{kit()}/rattle/logic/antt-project.json", "--links", f"{crate}="]


def command(crate: str, kept: pathlib.Path, functions: Iterable[str] = ()) -> list[str]:
    """The check of these functions of a crate, each given by the end of its path, or of all. What is proved
    is kept in a folder. It is run in a folder that has the crate's src, specs and proofs."""
    root = "src/main.rt" if (CRATES / crate / "src/main.rt").exists() else "src/lib.rt"
    told = [*words(crate, root, libraries(crate)), "--logic-built", f"{kit()}/logic_built"]
    only = (word for it in functions for word in ("--only", it))
    return ["rattle", "check", *told, "--incremental", str(kept), *only]


def program(
    folder: pathlib.Path, crate: str, named: Sequence[str], backends: Sequence[str] = ("llvm", "rattle")
) -> pathlib.Path:
    """Proves a program that stands in a folder of its own over the libraries that it names, and gives its
    file as the first of these compilers builds it. What Rattle's own compiler makes beside LLVM has the
    ending .by-rattle: there each function can be told from its frames."""
    told, for_target = words(crate, "src/main.rt", named), ["--toolchain", f"{kit()}/toolchain"]
    steps = [["rattle", "check", *told, "--logic-built", f"{kit()}/logic_built", "-o", "checked"]]
    for backend in backends:
        made = crate + ("" if backend == backends[0] else ".by-rattle")
        how = ["--crate-checked", "checked", *for_target, "--backend", backend, "-o", f"{made}.o"]
        linked = ["rattle-link", "--target", "x86_64-unknown-linux-gnu", *for_target, "-o", made, f"{made}.o"]
        linked += [f"{kit()}/c/libos_c.a", f"{kit()}/c/liblibc_c.a"]
        steps += [["rattle", "build", *told, *how], linked]
    for step in steps:
        whole: Words = [kit() / "bin" / step[0], *step[1:]]
        ran = subprocess.run(whole, cwd=folder, capture_output=True, text=True, check=False)
        if ran.returncode:
            said = (ran.stdout + ran.stderr)[-2000:]
            raise SystemExit(f"{crate} was not built: {step[0]} {step[1]} says {said}")
    return folder / crate
