#!/usr/bin/env -S python3 -B
"""Times a scene of many steps.

Usage: bench/scene.py [STEPS]     (none: 100000)

Half of the steps are of a service, half of a consumer: for each event a record and a tick, then two ticks of
the consumer, which takes it in and commits. The built kob plays them. The seconds and the last line that it
prints are printed; status 1 if it failed.
"""
import pathlib
import resource
import subprocess
import sys

TOP = pathlib.Path(__file__).resolve().parent.parent
PROGRAM = TOP / "crates" / "kob" / "out" / "kob"
HEAD = """super User:root
User:root h create-topic outbox.event.orders 1
service svc User:root h partitions 1
consumer con User:root h group g max 10 reads outbox.event.orders:0
svc tick
con tick
"""


def scene(steps: int) -> str:
    """A scene of so many steps behind its first three."""
    lines = [HEAD]
    for event in range(steps // 4):
        name, order = f"00000000-0000-0000-0000-{event:012x}", event % 100
        lines.append(f"svc record {name} orders {order} OrderPaid {{}} order {order} paid\n")
        lines.append("svc tick\ncon tick\ncon tick\n")
    return "".join(lines)


def main(words: list[str]) -> int:
    steps = int(words[0]) if words else 100_000
    before = resource.getrusage(resource.RUSAGE_CHILDREN)
    ran = subprocess.run([PROGRAM, "play"], input=scene(steps), capture_output=True, text=True, check=False)
    after = resource.getrusage(resource.RUSAGE_CHILDREN)
    seconds = after.ru_utime + after.ru_stime - before.ru_utime - before.ru_stime
    memory, last = after.ru_maxrss // 1024, "".join(ran.stdout.splitlines()[-1:])
    print(f"{steps} steps: {seconds:.1f} seconds of a processor, {memory} MiB; {last}")
    return 1 if ran.returncode else 0


if __name__ == "__main__":
    sys.exit(main(sys.argv[1:]))
