"""The repository: its crates, its commit, and what is kept of it on one machine."""
import hashlib
import os
import pathlib
import platform
import re
import subprocess
from collections.abc import Callable, Iterable

TOP = pathlib.Path(__file__).resolve().parents[2]
CRATES = TOP / "crates"
PARTS = ("src", "specs", "proofs")
# What a program is called with.
Words = list[str | pathlib.Path]


def listed(text: str) -> dict[str, list[str]]:
    """The crates of a list such as crates.txt, in its order, each with the libraries that it uses."""
    rows = (line.split("#")[0].partition(":") for line in text.splitlines())
    return {head.split()[0]: used.split() for head, _, used in rows if head.strip()}


def sum_of(file: pathlib.Path) -> str:
    """A short sum of a file, which tells its texts apart."""
    return hashlib.sha256(file.read_bytes()).hexdigest()[:16]


def crates() -> dict[str, list[str]]:
    return listed((TOP / "crates.txt").read_text())


def libraries(crate: str) -> list[str]:
    return crates()[crate]


def is_own(name: str) -> bool:
    """Whether a library is one of this repository, and none of the kit."""
    return (CRATES / name).is_dir()


def below(named: Iterable[str]) -> list[str]:
    """The libraries of the repository among those that are named, and all below these."""
    found, uses = list(dict.fromkeys(it for it in named if is_own(it))), crates()
    for name in found:
        found += [it for it in dict.fromkeys(uses[name]) if is_own(it) and it not in found]
    return found


def made_of(named: Iterable[str], *beside: pathlib.Path) -> list[pathlib.Path]:
    """The files that a program over these libraries is built of: those of its own folders, of all libraries
    below it, and of this package."""
    folders = [CRATES / it / part for it in sorted(below(named)) for part in PARTS]
    folders += [TOP / "tools/sochullwa", *beside]
    files = (it for folder in folders for it in folder.rglob("*") if it.is_file())
    return sorted(it for it in files if it.suffix != ".pyc")


def git(*words: str) -> str:
    return subprocess.run(["git", *words], cwd=TOP, capture_output=True, text=True, check=True).stdout.strip()


def commit(*form: str) -> str:
    """The commit that stands here, with `-dirty` if a file differs; `unknown` where git knows none."""
    words = ["git", "describe", "--always", "--dirty", "--exclude=*", *form]
    ran = subprocess.run(words, cwd=TOP, capture_output=True, text=True, check=False)
    return ran.stdout.strip() or "unknown"


def machine() -> str:
    """The processors of this machine."""
    model = re.search(r"model name\s*: (.*)", pathlib.Path("/proc/cpuinfo").read_text())
    return f"{os.cpu_count()} processors of {model[1] if model else platform.machine()}"


def kept(name: str) -> pathlib.Path:
    """Where a file is kept that is of this clone alone."""
    return TOP / git("rev-parse", "--git-path", name)


def once(name: str, files: Iterable[pathlib.Path], check: Callable[[], int]) -> int:
    """Runs a check, unless the kit and these files are as they were when it last passed here; its status."""
    version = subprocess.run(["rt", "version"], capture_output=True, check=True).stdout
    sums = b"".join(hashlib.sha256(it.read_bytes()).digest() for it in files)
    file, now = kept(f"{name}.sum"), hashlib.sha256(version + sums).hexdigest()
    if file.exists() and file.read_text() == now:
        print(f"{name}: nothing of it changed since it passed here")
        return 0
    status = check()
    if status == 0:
        file.write_text(now)
    return status
