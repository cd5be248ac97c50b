"""Plays a program that was built, and compares what it does with what it has to do.

A case is a folder: `args`, a word a line; `stdin`, `stdout` and `stderr`, each empty where there is none;
`status`, 0 where there is none; and the files that the program reads. Or it is a function that makes such
files in a folder, as for texts that are too large to be kept, or for a system that refuses something.
"""
import argparse
import dataclasses
import os
import pathlib
import resource
import subprocess
import tempfile
from collections.abc import Callable, Iterable, Sequence

from sochullwa.repository import CRATES, Words

# Status, standard output and standard error; other values where a case tells something else.
Outcome = tuple[object, ...]
Output = tuple[int, str, str]


def builds(name: str, given: str | None = None) -> list[pathlib.Path]:
    """The program as each of two compilers built it, or the file that is given in its place."""
    made = CRATES / name / "out" / name
    return [pathlib.Path(given).resolve()] if given else [made, made.with_name(f"{name}.by-rattle")]


def spent() -> float:
    """The processor seconds of the programs that were played."""
    used = resource.getrusage(resource.RUSAGE_CHILDREN)
    return used.ru_utime + used.ru_stime


@dataclasses.dataclass(frozen=True)
class Player:
    """A built program, with the words that each of its calls begins with."""

    program: pathlib.Path
    first: tuple[str, ...] = ()

    def play(
        self,
        words: Iterable[str],
        room: pathlib.Path,
        stdin: bytes = b"",
        limit: int | None = None,
        close: int | None = None,
    ) -> Output:
        """What the program prints in a folder, with at most so many bytes of memory, or with a closed
        stream."""

        def prepared() -> None:
            if limit:
                resource.setrlimit(resource.RLIMIT_AS, (limit, limit))
            if close is not None:
                os.close(close)

        whole: Words = [self.program, *self.first, *words]
        run = subprocess.run(
            whole, cwd=room, input=stdin, capture_output=True, timeout=60, preexec_fn=prepared
        )
        return run.returncode, run.stdout.decode(), run.stderr.decode()

    def timed(self, what: str, most: float, words: Iterable[str], room: pathlib.Path) -> Outcome:
        """What the program prints, or nothing where it takes as many processor seconds as it may not."""
        before = spent()
        found = self.play(words, room)
        took = spent() - before
        print(f"{what} took {took:.2f} processor seconds, of {most} that they may take")
        return found if took < most else ()

    def stored(self, folder: pathlib.Path) -> tuple[Output, Output]:
        """What a case prints, and what it has to print."""

        def text(name: str, other: str = "") -> str:
            return (folder / name).read_bytes().decode() if (folder / name).exists() else other

        due = int(text("status", "0")), text("stdout"), text("stderr")
        plain = dataclasses.replace(self, first=())
        return plain.play(text("args").splitlines(), folder, text("stdin").encode()), due


Case = Callable[[Player, pathlib.Path], tuple[Outcome, Outcome]]


def told(program: str, name: str, found: Outcome, due: Outcome) -> int:
    """Prints what differs; 1 if anything does."""
    if found == due:
        return 0
    print(f"{program} prints something else for {name}")
    for what, one, other in zip(("status", "standard output", "standard error"), found, due):
        if one != other:
            print(f"  {what}: {str(one)[:400]!r} in place of {str(other)[:400]!r}")
    return 1


def run(player: Player, kept: pathlib.Path, stored: Case, made: Sequence[Case]) -> int:
    """Plays the cases of a folder and those that are made; how many differ, or 1 where none is kept."""
    folders = sorted(it for it in kept.iterdir() if it.is_dir())
    differing = sum(told("kob", it.name, *stored(player, it)) for it in folders)
    for make in made:
        with tempfile.TemporaryDirectory() as room:
            differing += told("kob", make.__name__, *make(player, pathlib.Path(room)))
    print(f"{player.program.name} played {len(folders) + len(made)} cases, {differing} of them differ")
    return differing + (not folders)


def main(doc: str | None, run_with: Callable[[pathlib.Path], int]) -> int:
    """The words `--run [--with FILE]` of a program that plays kob; 1 if anything differs."""
    parser = argparse.ArgumentParser(description=doc, formatter_class=argparse.RawDescriptionHelpFormatter)
    parser.add_argument("--run", action="store_true", required=True)
    parser.add_argument("--with", dest="given")
    return 1 if sum([run_with(it) for it in builds("kob", parser.parse_args().given)]) else 0
