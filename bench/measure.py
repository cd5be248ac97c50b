#!/usr/bin/env -S python3 -B
"""What each kind of work costs the program that plays scripts.

    bench/measure.py [COLUMN ..] [--only WORD] [--program PROGRAM] [--jobs N] [--write]

A workload is a script in two parts: what is there before, and the work. Each number is that of the whole
script less that of the first part alone. COLUMN is one or more of (none: seconds and memory)

  seconds       processor seconds of the work at n, 2n and 4n, and its growth for each doubling: 2 is linear
  memory        bytes by which the most memory grows for one more of the work, from n to 2n; bytes of script
                and of output for it
  instructions  instructions of the work at n and their growth, by `valgrind --tool=callgrind`: the same on
  each run
  allocations   allocations and reallocations for one more of the work, by `valgrind --trace-malloc=yes`
  peer          beside bench/peer, an unproved Rust program that prints the same and is built here by `cargo
                build --release`: its seconds at 4n, and how many times those the proved program takes;
                instructions for one more of the work, ours and its, and how many times

--only takes the workloads with WORD in their name. PROGRAM is crates/kob_run/out/kob_run if none is given, as
`rt run` in crates/kob_run builds it. --jobs measures N kinds of work side by side, which changes no count of
instructions, bytes or allocations. --write puts the table into bench/README.md, with the commit, the date and
the machine. Seconds are the least of at least five runs, of programs in turn, or of those that 60 seconds
allow. No contract speaks of cost; docs/DECISIONS.md has the goals.
"""
import argparse
import concurrent.futures
import dataclasses
import datetime
import itertools
import math
import os
import pathlib
import re
import subprocess
import sys
import tempfile
import time
from collections.abc import Callable, Iterable, Sequence

TOP = pathlib.Path(__file__).resolve().parent.parent
sys.path.append(str(TOP / "tools"))
from sochullwa import tables
from sochullwa.repository import commit, machine
from workloads import WORKLOADS, Workload

README = TOP / "bench" / "README.md"
RUNS, SECONDS, MOST = 5, 2, 60


def peak_of(process: int) -> int:
    """The most bytes that a process had in memory, as last reported before its end."""
    peak = 0
    while True:
        found = re.search(r"VmHWM:\s*(\d+)", pathlib.Path(f"/proc/{process}/status").read_text())
        if not found:
            return peak
        peak = int(found[1]) * 1024
        time.sleep(0.001)


# Processor seconds, the most bytes of memory and the bytes of output of a run.
Run = tuple[float, int, int]


def run(program: pathlib.Path, script: bytes) -> Run:
    with tempfile.TemporaryFile() as given, tempfile.TemporaryFile() as printed:
        given.write(script)
        given.seek(0)
        process = subprocess.Popen([program], stdin=given, stdout=printed)
        peak = peak_of(process.pid)
        _, status, usage = os.wait4(process.pid, 0)
        process.returncode = os.waitstatus_to_exitcode(status)
        if process.returncode != 0:
            sys.exit(f"{program}: status {process.returncode}, and 0 was expected")
        return usage.ru_utime + usage.ru_stime, peak, printed.seek(0, os.SEEK_END)


def least(calls: Sequence[tuple[pathlib.Path, bytes]]) -> list[float]:
    """The least seconds of each program with its script; they are run in turn."""
    rounds: list[list[float]] = []
    spent = 0.0
    while (len(rounds) < RUNS or spent < SECONDS) and spent < MOST:
        rounds.append([run(program, script)[0] for program, script in calls])
        spent += sum(rounds[-1])
    return [min(of_one) for of_one in zip(*rounds)]


Programs = Sequence[pathlib.Path]


def seconds(programs: Programs, workload: Workload) -> list[str]:
    found = []
    for n in (workload.n * times for times in (1, 2, 4)):
        ready, whole = least([(programs[0], script) for script in workload.texts(n)])
        found.append(whole - ready)
    growth = [f"{later / earlier:.1f}" if earlier > 0 else "" for earlier, later in itertools.pairwise(found)]
    return [", ".join(f"{it:.3f}" for it in found), ", ".join(growth)]


def memory(programs: Programs, workload: Workload) -> list[str]:
    rows = []
    for count in (workload.n, 2 * workload.n):
        script = workload.texts(count)[1]
        rows.append((len(script), *min(run(programs[0], script)[1:] for _ in range(3))))
    return [f"{(more - less) / workload.n:,.1f}" for less, more in zip(*rows)]


def valgrind(options: Sequence[str], program: pathlib.Path, script: bytes) -> bytes:
    """What valgrind says of a run."""
    words = ["valgrind", *options, str(program)]
    ran = subprocess.run(words, input=script, stdout=subprocess.DEVNULL, stderr=subprocess.PIPE, check=True)
    return ran.stderr


def collected(program: pathlib.Path, workload: Workload, n: int) -> int:
    """The instructions of the work alone."""
    options, counts = ["--tool=callgrind", "--callgrind-out-file=/dev/null"], []
    for script in workload.texts(n):
        counts += [int(it) for it in re.findall(rb"Collected : (\d+)", valgrind(options, program, script))]
    before, whole = counts
    return whole - before


def instructions(programs: Programs, workload: Workload) -> list[str]:
    once, twice = (collected(programs[0], workload, times * workload.n) for times in (1, 2))
    return [f"{once:,}", f"{twice / once:.2f}"]


def allocations(programs: Programs, workload: Workload) -> list[str]:
    n, counts = workload.n if "one line" in workload.name else max(1, workload.n // 20), []
    for count in (n, 2 * n):
        said = valgrind(["--trace-malloc=yes"], programs[0], workload.texts(count)[1])
        found = re.findall(rb"(malloc|calloc|realloc|memalign)\(", said)
        counts.append((len(found) - found.count(b"realloc"), found.count(b"realloc")))
    return [f"{(more - less) / n:,.2f}" for less, more in zip(*counts)]


def peer(programs: Programs, workload: Workload) -> list[str]:
    before, whole = workload.texts(4 * workload.n)
    printed = [subprocess.run([it], input=whole, capture_output=True, check=True).stdout for it in programs]
    if printed[0] != printed[1]:
        sys.exit(f"{workload.name}: the programs print different replies")
    taken = least([(it, script) for script in (before, whole) for it in programs])
    ours, other = taken[2] - taken[0], taken[3] - taken[1]
    beside = [f"{other:.3f}", times(ours, other)]
    if max(taken[:2]) > SECONDS:
        return [*beside, "", "", ""]  # (what is there before would take an hour to count)
    n = max(1, workload.n // 10)
    ours, other = (collected(it, workload, n) / n for it in programs)
    return [*beside, f"{ours:,.0f}", f"{other:,.0f}", times(ours, other)]


def times(ours: float, other: float) -> str:
    ratio = ours / other if ours > 0 and other > 0 else 0
    return (f"{ratio:.2f}" if ratio >= 0.1 else f"{ratio:.2g}") if ratio else ""


def mean(cells: Iterable[str]) -> str:
    """The geometric mean of the numbers among cells."""
    numbers = [float(it) for it in cells if it]
    return f"{math.prod(numbers) ** (1 / len(numbers)):.2f}" if numbers else ""


@dataclasses.dataclass(frozen=True)
class Column:
    """What is measured of each workload: the heads of its cells, and the cells."""

    heads: tuple[str, ...]
    cells: Callable[[Programs, Workload], list[str]]


COLUMNS = {
    "seconds": Column(("seconds at n, 2n, 4n", "growth"), seconds),
    "memory": Column(("bytes of script", "of memory", "of output"), memory),
    "instructions": Column(("instructions at n", "growth"), instructions),
    "allocations": Column(("allocations", "reallocations"), allocations),
    "peer": Column(
        ("peer, seconds at 4n", "times", "instructions of one, ours", "the peer's", "times as many"), peer
    ),
}


def table(heads: Sequence[str], rows: Sequence[Sequence[str]]) -> str:
    """The rows of all workloads, with the geometric mean of how many times something is taken, if that is in
    it."""
    columns = ([row[at] if name.startswith("times") else "" for row in rows] for at, name in enumerate(heads))
    means = [mean(column) for column in columns]
    last = [["geometric mean", *means[1:]]] if any(means) else []
    return "\n".join([tables.heading(*heads), *(tables.row(*row) for row in [*rows, *last])])


def built(folder: str) -> pathlib.Path:
    """The peer."""
    words = ["cargo", "build", "--release", "--offline", "--quiet", "--target-dir", folder]
    subprocess.run(words, cwd=TOP / "bench" / "peer", check=True)
    return pathlib.Path(folder) / "release" / "peer"


def head() -> str:
    """What a table was measured of, when, and where."""
    return f"Commit {commit()}, {datetime.date.today()}, {machine()}."


def main() -> None:
    form = argparse.RawDescriptionHelpFormatter
    parser = argparse.ArgumentParser(description=__doc__, formatter_class=form)
    parser.add_argument("columns", nargs="*", choices=[*COLUMNS, []])
    parser.add_argument("--only", default="")
    parser.add_argument("--program", type=pathlib.Path, default=TOP / "crates/kob_run/out/kob_run")
    parser.add_argument("--jobs", type=int, default=1)
    parser.add_argument("--write", action="store_true")
    given = parser.parse_args()
    if not given.program.exists():
        sys.exit(f"{given.program} is not there: build it by `rt run` in crates/kob_run")
    names = given.columns or ["seconds", "memory"]
    columns = [COLUMNS[it] for it in names]
    with tempfile.TemporaryDirectory() as folder, concurrent.futures.ThreadPoolExecutor(given.jobs) as pool:
        programs = [given.program.resolve(), *([built(folder)] if "peer" in names else [])]

        def row(workload: Workload) -> list[str]:
            cells = [cell for column in columns for cell in column.cells(programs, workload)]
            print(workload.name, *cells, sep="  ", flush=True)
            return [workload.name, f"{workload.n:,}", *cells]

        rows = list(pool.map(row, (it for it in WORKLOADS if given.only in it.name)))
    heads = ["work", "n", *(it for column in columns for it in column.heads)]
    if given.write:
        tables.put(README, "bench/measure.py", f"{head()}\n\n{table(heads, rows)}")


if __name__ == "__main__":
    main()
