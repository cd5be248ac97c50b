#!/usr/bin/env -S python3 -B
"""Makes a list of N bindings as a cluster has them: about 12 a principal, 20 hosts, patterns all different.

    bench/policies.py N [SEED]      writes what `kafka-acls --list` prints
"""
import random
import sys
from collections.abc import Iterator

KINDS = [
    (45, "TOPIC", "LITERAL", "team{t}.app{i}.events", ["READ", "DESCRIBE"]),
    (20, "TOPIC", "PREFIXED", "team{t}.app{i}.", ["READ", "WRITE", "CREATE", "DESCRIBE"]),
    (20, "GROUP", "LITERAL", "cg-{i}", ["READ"]),
    (10, "TRANSACTIONAL_ID", "PREFIXED", "tx-{i}-", ["WRITE", "DESCRIBE"]),
    (5, "CLUSTER", "LITERAL", "kafka-cluster", ["IDEMPOTENT_WRITE"]),
]


Row = tuple[str, str, str, str]


def headings(count: int, rng: random.Random) -> Iterator[tuple[str, str, str, list[Row]]]:
    """Headings with their bindings (principal, host, operation, permission), `count` bindings in all."""
    principals = max(1, count // 12)
    made = 0
    place = 0
    while made < count:
        _, kind, pattern, name, operations = rng.choices(KINDS, [row[0] for row in KINDS])[0]
        rows = []
        for operation in operations[: count - made]:
            host = "*" if rng.random() < 0.9 else f"10.0.0.{rng.randrange(20)}"
            permission = "ALLOW" if rng.random() < 0.97 else "DENY"
            rows.append((f"User:svc{place % principals}", host, operation, permission))
        made += len(rows)
        yield kind, pattern, name.format(t=place % 17, i=place), rows
        place += 1


def main(words: list[str]) -> int:
    rng = random.Random(int(words[1]) if words[1:] else 1)
    for kind, pattern, name, rows in headings(int(words[0]), rng):
        resource = f"resourceType={kind}, name={name}, patternType={pattern}"
        print(f"Current ACLs for resource `ResourcePattern({resource})`: ")
        for principal, host, operation, permission in rows:
            rule = f"host={host}, operation={operation}, permissionType={permission}"
            print(f" \t(principal={principal}, {rule})")
        print()
    return 0


if __name__ == "__main__":
    sys.exit(main(sys.argv[1:]))
