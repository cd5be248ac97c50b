#!/usr/bin/env -S python3 -B
"""Microseconds, instructions and bytes of an event's way, beside a C program over Debian's SQLite.

    bench/event.py [N] [--bytes BYTES] [--instructions ROWS] [--long ROWS] [--threads EVENTS] [--write]
    bench/event.py --check

N is 16,000 if none is given, and the others are 100, 2,000, 250 and 4,000; 0: none.

An event is recorded with its business row (`Outbox::record`), sent by a router over a line to a broker
(`Router::tick`), taken in by a consumer that fetches 100 records at once (`Consumer::tick`), and swept
(`Outbox::sweep`): once with no row that waits, and once with half the rows waiting. Each event has an
aggregate of its own and --bytes of payload. Ids are spread; records and intakes are also run with ids that
rise.

event/main.txt and event/line.txt are one program, event/threads.txt and event/sessions.txt are two others.
All are proved and built over the libraries that `rt ci`, run at the top before, left in crates/*/out. event/peer.c has the same tables
and statements over SQLite in memory, by the package libsqlite3-dev; without it, its columns stay empty. It
prepares each statement once, and ours finds it by its text at each call. It asks its tables for the last
number, the mark and the last place, which ours keeps beside them: a record takes it four statements and ours
three, a tick five and two, an intake two and one. Its broker is a plain list, with no rights, no sequences
and no noted calls. Its sweep is one DELETE.

Microseconds are by the clock, of one run at N, 2N and 4N. Instructions are those between two readings of the
clock, by `valgrind --tool=callgrind`, at --instructions, twice and four times as many rows. Growth is a
call's cost among twice the rows by its cost before: 1 says that it does not grow with the rows, and a sweep's
is 2 where it is linear. Bytes are by how much the most that the program had in memory grows from N to 4N
events, for each stage. --long measures the same with payloads of 100,000 bytes, at this number of rows, twice
and four times as many.

--threads measures a pipeline of four services, of this number of events each, and two consumers, which begin
once all is sent; at twice and four times as many, and the instructions of a quarter of them. Then it measures
one broker under one lock, with 1 to 16 sessions that each produce a record and fetch it, by turns.
Microseconds are the least of five runs. Then a consumer polls a topic without records, a hundred times a
second for a day, made without waiting: after each 10,000 calls its line is changed and the journal is handed
out, and both are dropped. Under the lock is what callgrind counts in `Kept::serve`, of one
session's instructions. Bytes by place are what massif finds in memory when there is the most, by the function
that allocated it, of the program as Rattle's own compiler builds it; the services have ended then, and their
outboxes are gone.

--write puts what is printed into bench/README.md, with the commit, the date and the machine. --check builds
the programs without proofs, as tools/quick does, and runs them with few events; status 1 if one does
something else than it is told. What passed is kept in .git/event.sum, and not done again while nothing of it
changes.
"""
import argparse
import contextlib
import io
import itertools
import os
import pathlib
import re
import shutil
import subprocess
import sys
import tempfile
from collections.abc import Sequence

import measure
from sochullwa import proving, tables
from sochullwa.compiling import unproved
from sochullwa.repository import TOP, Words, made_of, once

SOURCES = {
    "event": {
        "src/main.rt": "main.txt",
        "src/line.rt": "line.txt",
        "proofs/send/Invariants.antt": "invariants.txt",
    },
    "threads": {"src/main.rt": "threads.txt"},
    "sessions": {"src/main.rt": "sessions.txt"},
}
# The polls of a day, a hundred a second, of a topic with so many partitions. The first poll of each asks for
# its committed offset.
DAY = 8_640_000
PARTITIONS = 16
# The libraries of each program.
BROKER = ["kob_names", "kob_rights", "kob_broker", "anyhow"]
DELIVERY = [*BROKER, "kob_outbox", "kob_router", "kob_inbox", "uuid"]
NEEDS = {
    "event": DELIVERY,
    "threads": [*DELIVERY, "kob_shared", "kob_connections", "kob_pipeline", "kob_endpoints"],
    "sessions": [*BROKER, "kob_shared"],
}
CALLS = (
    "record",
    "record, ids rise",
    "tick",
    "intake",
    "intake, ids rise",
    "sweep, none waits",
    "sweep, half waits",
    "the same, ids rise",
)
SERVICES, CONSUMERS, SESSIONS, RUNS = 4, 2, (1, 2, 4, 8, 16), 5
Work = Sequence[object]


# Where a pipeline keeps an event, by the functions on the way to an allocation, the innermost first: the
# first that fits.
PLACES = {
    "plan": "threads::(plan|service|consumer)",
    "inbox": "sqlite.*Consuming::run",
    "outbox and spent ids": "sqlite.*Posting::run",
    "rows read at the end": "(Posting|Consuming)::close",
    "log": "prepare_effect.*Sender::deliver",
    "notes": "prepare_effect.*Desk::call|^(?!.*Kept::serve).*Desk::call",
    "calls of the lines": "^(?!.*Desk::call).*DeskLine",
    "journal": "Kept::serve|Sender::deliver",
}


def placed(folder: str, name: str) -> pathlib.Path:
    """The sources and proofs of a program, in a folder of its own."""
    own = pathlib.Path(folder) / name
    for place, text in SOURCES[name].items():
        (own / place).parent.mkdir(parents=True, exist_ok=True)
        shutil.copy(TOP / "bench" / "event" / text, own / place)
    (own / "proofs").mkdir(exist_ok=True)
    (own / "proofs/Lib.antt").touch()
    return own


def ours(folder: str, name: str) -> pathlib.Path:
    """Proves and builds a program over the libraries that `rt ci` built."""
    if lacking := proving.unbuilt(NEEDS[name]):
        sys.exit(f"not built: {' '.join(lacking)}; run `rt ci` at the top before")
    return proving.program(placed(folder, name), name, NEEDS[name])


def peer(folder: str) -> pathlib.Path | None:
    """Builds the C program, or says that there is no SQLite."""
    made = pathlib.Path(folder) / "peer"
    words: Words = ["cc", "-O2", "-o", made, TOP / "bench" / "event" / "peer.c", "-lsqlite3"]
    if subprocess.run(words, stderr=subprocess.DEVNULL, check=False).returncode:
        print("no C program: libsqlite3-dev is not there\n")
        return None
    return made


def works(n: int, size: int) -> list[tuple[int, ...]]:
    """What a program is run with: all rows are sent and swept, or half of them, with ids that are spread and
    with ids that rise."""
    return [(n, sent, sent if sent == n else 0, 1, size, rises) for rises in (0, 1) for sent in (n, n // 2)]


def of_calls(n: int, runs: Sequence[Sequence[int]]) -> list[float]:
    """The cost of each of CALLS, from that of the stages of the four runs."""
    whole, half, rising, rising_half = runs
    once_each = [whole[0] / n, rising[0] / n, whole[1] / n, whole[2] / n, rising[2] / n]
    return [*once_each, whole[3], half[3], rising_half[3]]


def words_of(program: pathlib.Path, work: Work) -> list[str]:
    return [str(program), *map(str, work)]


def most_of(process: int) -> int:
    """The most bytes that a process had in memory until now."""
    high = re.search(r"VmHWM:\s*(\d+)", pathlib.Path(f"/proc/{process}/status").read_text())
    return int(high[1]) * 1024 if high else 0


def run(program: pathlib.Path, work: Sequence[int]) -> tuple[list[int], list[int]]:
    """The microseconds of each stage, and the most bytes in memory at the end of each but the last."""
    lines, most = [], []
    with subprocess.Popen(
        words_of(program, work), stdout=subprocess.PIPE, stderr=subprocess.DEVNULL, text=True
    ) as process:
        for line in process.stdout or ():
            lines.append(line.split())
            if len(lines) < 4:
                most.append(most_of(process.pid))
    recorded, sent, taken, sweeps = work[:4]
    if process.returncode or [int(it[1]) for it in lines] != [recorded, sent, taken, sent if sweeps else 0]:
        sys.exit(f"{program} {work}: {lines}")
    return [int(it[2]) for it in lines], most


def instructions(
    program: pathlib.Path, work: Work, stages: int = 4, options: Sequence[str] = ()
) -> list[int]:
    """The instructions of each stage. Each reading of the clock ends a part, and there are two a stage."""
    with tempfile.TemporaryDirectory() as folder:
        words = ["valgrind", "--tool=callgrind", *options, "--dump-before=*clock_gettime*"]
        words += [f"--callgrind-out-file={folder}/part", *words_of(program, work)]
        subprocess.run(words, check=True, stdout=subprocess.DEVNULL, stderr=subprocess.DEVNULL)
        parts = (pathlib.Path(folder) / f"part.{2 * stage}" for stage in range(1, stages + 1))
        texts = [it.read_text() for it in parts]
    return [int(re.findall(r"^(?:totals|summary): (\d+)", it, re.M)[0]) for it in texts]


def heading(*columns: str) -> None:
    print(tables.heading(*columns))


def row(*cells: object) -> None:
    print(tables.row(*cells), flush=True)


def growth(costs: Sequence[float]) -> list[float]:
    return [later / before for before, later in itertools.pairwise(costs)]


def grown_by(most: Sequence[int]) -> list[int]:
    """By how many bytes memory grew in each stage."""
    return [later - before for before, later in itertools.pairwise([0, *most])]


def table(unit: str, counts: Sequence[int], costs: Sequence[Sequence[Sequence[float]]]) -> None:
    """A line for each call, with its costs at each number of rows, by the programs."""
    heading("Call", "n", f"{unit}, ours", "C", "times", "growth of ours; of C")
    for place, call in enumerate(CALLS):
        columns = [[at[place] for at in of] for of in costs]
        told = ["; ".join(f"{it:,.0f}" for it in column) for column in columns]
        times = ", ".join(f"{it / beside:.1f}" for it, beside in zip(*columns)) if columns[1:] else ""
        grown = "; ".join(", ".join(f"{it:.1f}" for it in growth(column)) for column in columns)
        rows = "; ".join(f"{it:,}" for it in counts)
        row(call, rows, *told, *[""] * (2 - len(told)), times, grown)
    print()


def calls(programs: Sequence[pathlib.Path], n: int, counted: int, size: int) -> None:
    """Prints what the calls cost."""
    if n:
        counts = [n, 2 * n, 4 * n]
        found = [[[run(program, work) for work in works(it, size)] for it in counts] for program in programs]
        costs = [
            [of_calls(it, [micros for micros, _ in runs]) for it, runs in zip(counts, of)] for of in found
        ]
        table("microseconds", counts, costs)
        heading("Bytes an event", "outbox", "log", "inbox")
        for name, of in zip(("ours", "C"), found):
            few, many = grown_by(of[0][0][1]), grown_by(of[2][0][1])
            row(name, *(f"{(b - a) / (3 * n):,.0f}" for a, b in zip(few, many)))
        print()
    if counted and shutil.which("valgrind"):
        counts = [counted, 2 * counted, 4 * counted]
        costs = [
            [of_calls(it, [instructions(program, work) for work in works(it, size)]) for it in counts]
            for program in programs
        ]
        table("instructions", counts, costs)


def told(program: pathlib.Path, work: Work) -> tuple[int, int, int]:
    """What a program in threads did, in how many microseconds, and by how many bytes its memory grew."""
    with subprocess.Popen(words_of(program, work), stdout=subprocess.PIPE, text=True) as process:
        lines, ready = [], 0
        for line in process.stdout or ():
            lines.append(line.split())
            if lines[-1][0] == "plan":
                ready = most_of(process.pid)
        _, status, usage = os.wait4(process.pid, 0)
        process.returncode = os.waitstatus_to_exitcode(status)
    if process.returncode or lines[-1][0] != work[0]:
        sys.exit(f"{program} {work}: {lines}")
    return int(lines[-1][1]), int(lines[-1][2]), usage.ru_maxrss * 1024 - ready


def least(program: pathlib.Path, work: Work, due: int, runs: int = RUNS) -> tuple[int, int]:
    """The fewest microseconds and bytes of some runs, each of which has to do this much."""
    found = [told(program, work) for _ in range(runs)]
    if any(done != due for done, _, _ in found):
        sys.exit(f"{program} {work}: {found}, and {due} was expected")
    return min(micros for _, micros, _ in found), min(grown for _, _, grown in found)


def pipelines(program: pathlib.Path, n: int, size: int) -> None:
    """Prints what a pipeline costs for an event, and how it grows; instructions of a quarter of the
    events."""
    rows: list[tuple[float, int]] = []
    heading("Events of a pipeline in threads", "microseconds an event", "growth")
    for it in (n, 2 * n, 4 * n):
        work = ("pipeline", size, SERVICES, CONSUMERS, it)
        micros, high = least(program, work, CONSUMERS * SERVICES * it)
        rows.append((micros / it / SERVICES, high))
        growth = f"{rows[-1][0] / rows[-2][0]:.2f}" if rows[1:] else ""
        row(f"{SERVICES * it:,}", f"{rows[-1][0]:.1f}", growth)
    grown = (rows[2][1] - rows[0][1]) / (3 * n * SERVICES)
    print(f"\nMemory grows by {grown:,.0f} bytes for one more event.\n")
    if shutil.which("valgrind"):
        heading("Events of a pipeline in threads", "instructions an event", "growth")
        before = 0.0
        for it in (n // 4, n // 2, n):
            work = ("pipeline", size, SERVICES, CONSUMERS, it)
            counted = instructions(program, work, 1)[0] / it / SERVICES
            row(f"{SERVICES * it:,}", f"{counted:,.0f}", f"{counted / before:.2f}" if before else "")
            before = counted
        print()


def by_place(said: str) -> dict[str, int]:
    """How many bytes each of PLACES has when there is the most in memory, by what massif says."""
    found = dict.fromkeys([*PLACES, "other"], 0)
    way: list[str] = []
    for tree in re.findall(r"heap_tree=peak\n(.*?)(?:#-----|\Z)", said, re.S)[:1]:
        for depth, below_it, held, name in re.findall(r"^( *)n(\d+): (\d+) (.*)$", tree, re.M):
            way[len(depth) :] = [name]
            if below_it == "0":
                fits = (place for place, form in PLACES.items() if re.search(form, " ".join(way)))
                found[next(fits, "other")] += int(held)
    return found


def places(program: pathlib.Path, n: int, size: int) -> None:
    """Prints how many bytes of an event each place has when a pipeline has the most in memory."""
    with tempfile.TemporaryDirectory() as folder:
        words = ["valgrind", "--tool=massif", "--depth=40", "--threshold=0", "--peak-inaccuracy=0"]
        by_rattle = program.with_name(f"{program.name}.by-rattle")
        work = words_of(by_rattle, ("pipeline", size, SERVICES, CONSUMERS, n))
        words += [f"--massif-out-file={folder}/out", *work]
        subprocess.run(words, check=True, stdout=subprocess.DEVNULL, stderr=subprocess.DEVNULL)
        found = by_place((pathlib.Path(folder) / "out").read_text())
    heading("Place, at the end of the pipeline", "bytes an event")
    for place, held in found.items():
        row(place, f"{held / n / SERVICES:,.0f}")
    print()


def sessions(program: pathlib.Path, turns: int, size: int) -> None:
    """Prints what sessions do under one lock, and how much of their work is under it."""
    heading("Sessions under one lock", "entries a second", "times those of one")
    first = 0.0
    for it in SESSIONS:
        micros, _ = least(program, ("lock", size, it, turns // it), 2 * (turns // it) * it)
        rate = 2 * (turns // it) * it / micros * 1_000_000
        first = first or rate
        row(it, f"{rate:,.0f}", f"{rate / first:.2f}")
    if shutil.which("valgrind"):
        each, collect = turns // 16, ("--toggle-collect=*Kept::serve*",)
        work = ("lock", size, 1, each)
        counts = (instructions(program, work, 1, options)[0] for options in ((), collect))
        whole, held = (f"{it / 2 / each:,.0f}" for it in counts)
        print(f"\nAn entry takes {whole} instructions, {held} of them under the lock.\n")


def days(program: pathlib.Path, polls: int) -> None:
    """Prints what an idle consumer holds after so many polls, and after a tenth of them."""
    heading("Polls of an idle consumer, by line and journal of 10,000 calls", "microseconds a poll", "bytes held at most")
    for it in (polls // 10, polls):
        micros, most = least(program, ("days", it, 10_000), it - PARTITIONS, 1)
        row(f"{it:,}", f"{micros / it:.1f}", f"{most:,}")
    print()


def check() -> int:
    """Builds the programs without proofs, and runs each with few events; the exit status is 0 if they do as
    told."""
    with tempfile.TemporaryDirectory(prefix="event-") as folder:
        event, threads, sharing = (
            unproved(name, placed(folder, name) / "src", NEEDS[name], pathlib.Path(folder) / f"{name}-room")
            for name in SOURCES
        )
        for work in works(50, 100):
            run(event, work)
        least(threads, ("pipeline", 100, SERVICES, CONSUMERS, 20), CONSUMERS * SERVICES * 20, 1)
        least(sharing, ("lock", 100, 2, 20), 2 * 2 * 20, 1)
        least(threads, ("days", 1_000, 100), 1_000 - PARTITIONS, 1)
    print("the programs of bench/event were built and run")
    return 0


class Both(io.StringIO):
    """What is printed, kept and printed."""

    def write(self, text: str) -> int:
        print(text, end="", file=sys.__stdout__, flush=True)
        return super().write(text)


def measured(given: argparse.Namespace) -> str:
    """Prints all that is asked for; what was printed."""
    said = Both()
    with tempfile.TemporaryDirectory() as folder, contextlib.redirect_stdout(said):
        print(f"Payloads of {given.bytes:,} bytes:\n")
        if given.n or given.instructions or given.long:
            programs = [it for it in (ours(folder, "event"), peer(folder)) if it]
            calls(programs, given.n, given.instructions, given.bytes)
            if given.long:
                print("Payloads of 100,000 bytes:\n")
                calls(programs, given.long, 0, 100_000)
        if given.threads:
            program = ours(folder, "threads")
            pipelines(program, given.threads, given.bytes)
            sessions(ours(folder, "sessions"), 16 * given.threads, given.bytes)
            days(program, DAY)
            if shutil.which("valgrind"):
                places(program, given.threads // 4, given.bytes)
    return said.getvalue()


def main() -> int:
    form = argparse.RawDescriptionHelpFormatter
    parser = argparse.ArgumentParser(description=__doc__, formatter_class=form)
    parser.add_argument("n", nargs="?", type=int, default=16_000)
    for name, default in (("bytes", 100), ("instructions", 2_000), ("long", 250), ("threads", 4_000)):
        parser.add_argument(f"--{name}", type=int, default=default)
    parser.add_argument("--write", action="store_true")
    parser.add_argument("--check", action="store_true")
    given = parser.parse_args()
    if given.check:
        needs = sorted({need for needs in NEEDS.values() for need in needs})
        return once("event", [pathlib.Path(__file__), *made_of(needs, TOP / "bench/event")], check)
    text = measured(given)
    if given.write:
        tables.put(measure.README, "bench/event.py", f"{measure.head()}\n\n{text}")
    return 0


if __name__ == "__main__":
    sys.exit(main())
