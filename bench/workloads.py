"""The kinds of work that measure.py measures, as scripts of any size."""
import dataclasses
import functools
import itertools
from collections.abc import Callable

ROOT = "User:root h"
# A name of 32 bytes, and one of those that are picked to hash alike.
PLAIN, PICKED = "outbox.event.abvqmfSXhkB{i:08}", "{picked}"
CHARACTERS = "abcdefghijklmnopqrstuvwxyzABCDEFGHIJKLMNOPQRSTUVWXYZ0123456789-_"
PRIME, MASK = 0x0100_0000_01B3, 2**17 - 1
LETTERS = "abcdefghijklmnopqrstuvwxyz" * 5
Script = list[str]


@functools.cache
def ends() -> dict[int, str]:
    """By the last bits of the FNV-1a hash of what is before them, three letters with which those bits are 0."""
    back = pow(PRIME, -1, MASK + 1)
    found = {}
    for letters in itertools.product(CHARACTERS, repeat=3):
        bits = 0
        for letter in reversed(letters):
            bits = (bits * back & MASK) ^ ord(letter)
        found[bits] = "".join(letters)
    return found


@dataclasses.dataclass(frozen=True)
class Picked:
    """A name for a number. The maps of the broker guess all these names at one place."""

    number: int

    def __format__(self, _: str) -> str:
        for tries in itertools.count():
            name = f"outbox.event.abvqmfS{self.number:08}{CHARACTERS[tries]}"
            bits = 0xCBF2_9CE4_8422_2325
            for byte in name.encode():
                bits = (bits ^ byte) * PRIME & 2**64 - 1
            if bits & MASK in ends():
                return name + ends()[bits & MASK]
        raise AssertionError(self.number)


def lines(count: int, form: str) -> Script:
    """So many lines, `{i}` their number; ROOT asks where nobody else is named."""
    asker = "" if form.startswith("User:") else f"{ROOT} "
    return [asker + form.format(i=i, picked=Picked(i)) for i in range(count)]


def topics(count: int, form: str = "create-topic t{i:06} 1") -> Script:
    return lines(count, form)


def creations(count: int, binding: str = "ALLOW User:u{i:06} * Write Topic LITERAL t{i:06}") -> Script:
    return lines(count, f"create-acl {binding}")


def commits(count: int, group: str, topic: str = "t000000") -> Script:
    return lines(count, f"commit {group} {topic} 0 0")


def turns(count: int, among: int, form: str) -> Script:
    """So many lines by turns over ten of so many, spread over them all."""
    numbers = [i * among // 10 for i in range(10)]
    return [form.format(i=i, picked=Picked(i)) for i in itertools.islice(itertools.cycle(numbers), count)]


def pairs(count: int, *forms: str) -> Script:
    """So many times these requests, one after another."""
    return [f"{ROOT} {form.format(i=i)}" for i in range(count) for form in forms]


def of_others(count: int) -> Script:
    """Bindings of as many principals, half of them on a name and half on every name, and one of
    User:asker."""
    half = creations(count // 2, "ALLOW User:a{i:06} * Write Topic LITERAL orders")
    other = creations(count // 2, "ALLOW User:b{i:06} * Write Topic LITERAL *")
    return [*half, *other, *creations(1, "ALLOW User:asker * Write Topic PREFIXED o")]


def nested() -> Script:
    """A hundred prefixes of one name, and another right on the shortest."""
    prefixes = ("a" * length for length in range(1, 101))
    made = [creations(1, f"ALLOW User:u * Read Topic PREFIXED {it}")[0] for it in prefixes]
    return [*made, *creations(1, "ALLOW User:u * Write Topic PREFIXED a")]


def splits(count: int) -> Script:
    """Bindings whose principal, host and name make the same letters when they are joined."""
    places = itertools.islice(itertools.combinations(range(1, len(LETTERS)), 2), count)
    forms = (f"ALLOW User:{LETTERS[:a]} {LETTERS[a:b]} Write Topic LITERAL {LETTERS[b:]}" for a, b in places)
    return [creations(1, it)[0] for it in forms]


def members(option: str, count: int, start: str) -> str:
    return " ".join(f"{option} {start}{i:03}" for i in range(count))


def batch(count: int, size: int) -> str:
    """A request for a batch of so many records of so many bytes."""
    return f"produce t000000 0 - {' '.join(['x' * size] * count)}"


def additions(count: int) -> Script:
    """One line that makes so many bindings."""
    names = members("--allow-principal", count // 1_000, "User:p"), members("--topic", 100, "t")
    return [f"{ROOT} acl --add {' '.join(names)} {members('--allow-host', 10, 'h')}"]


def listings(count: int) -> Script:
    """One line that asks for so many listings."""
    names = members("--topic", count // 100, "t"), members("--principal", 100, "User:p")
    return [f"{ROOT} acl --list {' '.join(names)}"]


HALVES = (
    "ALLOW User:u{i:06} * Read Topic LITERAL orders",
    "ALLOW User:u{i:06} * Write Topic LITERAL orders",
)
EIGHT_BYTES = batch(1_000, 8)
ASKER = "User:asker h produce orders 0 - v"
TEN_THOUSAND = 10_000


@dataclasses.dataclass(frozen=True)
class Workload:
    """A kind of work: its size n, and for such a size what is there before, and the work."""

    name: str
    n: int
    before: Callable[[int], Script]
    work: Callable[[int], Script]

    def texts(self, n: int) -> list[bytes]:
        """The first part and the whole script."""
        first = [f"super {ROOT[:-2]}", *self.before(n)]
        return ["".join(line + "\n" for line in part).encode() for part in (first, [*first, *self.work(n)])]


def nothing(_: int) -> Script:
    return []


def one_topic(_: int) -> Script:
    return topics(1)


def one_producer(_: int) -> Script:
    return [*topics(1), f"{ROOT} init-producer"]


def groups(form: str) -> Callable[[int], Script]:
    """Ten thousand groups with a commit each on one topic."""
    return lambda _: [*topics(1), *commits(TEN_THOUSAND, form)]


def of_groups(form: str) -> Callable[[int], Script]:
    return lambda n: turns(n, TEN_THOUSAND, f"{ROOT} commit {form} t000000 0 0")


WORKLOADS = [
    Workload("produce, one record of 100 bytes", 25_000, one_topic, lambda n: lines(n, batch(1, 100))),
    Workload("produce, one record of 1,000 bytes", 4_000, one_topic, lambda n: lines(n, batch(1, 1_000))),
    Workload("produce, 100 records of 50 bytes", 400, one_topic, lambda n: lines(n, batch(100, 50))),
    Workload("produce, one record of one byte", 50_000, one_topic, lambda n: lines(n, batch(1, 1))),
    Workload("produce, idempotent", 20_000, one_producer, lambda n: lines(n, "produce t000000 0 0:0:{i} x")),
    Workload(
        "idempotent produces and reads of commits, by turns",
        10_000,
        lambda n: [*one_producer(n), *commits(1, "g")],
        lambda n: pairs(n, "produce t000000 0 0:0:{i} x", "committed g t000000 0"),
    ),
    Workload(
        "produce, to 10 of 10,000 topics",
        20_000,
        lambda n: topics(TEN_THOUSAND),
        lambda n: turns(n, TEN_THOUSAND, ROOT + " produce t{i:06} 0 - v"),
    ),
    Workload(
        "produce, under n super users",
        1_000,
        lambda n: [*(f"super User:s{i:06}" for i in range(n)), *topics(1)],
        lambda n: lines(2_000, batch(1, 1)),
    ),
    Workload(
        "fetch, 1,000 records of 50 bytes",
        100,
        lambda n: [*topics(1), *lines(1, batch(1_000, 50))],
        lambda n: lines(n, "fetch t000000 0 0 1000"),
    ),
    Workload(
        "fetch, 1,000 records of 2,097 bytes",
        20,
        lambda n: [*topics(1), *lines(1, batch(1_000, 2_097))],
        lambda n: lines(n, "fetch t000000 0 0 1000"),
    ),
    Workload(
        "fetch, one record of n bytes that are printed as escapes",
        20_000,
        lambda n: [*topics(1), *lines(1, f"produce t000000 0 - {'%00' * n}")],
        lambda n: lines(1, "fetch t000000 0 0 1"),
    ),
    Workload("commit, of 10 of 10,000 groups", 20_000, groups("g{i:06}"), of_groups("g{i:06}")),
    Workload("commit, first of a group", 2_500, one_topic, lambda n: commits(n, PLAIN)),
    Workload(
        "commit, first of a group with a picked name",
        2_500,
        one_topic,
        lambda n: commits(n, PICKED),
    ),
    Workload(
        "commit, of 10 of 10,000 groups with long names",
        20_000,
        groups(PLAIN),
        of_groups(PLAIN),
    ),
    Workload(
        "commit, of 10 of 10,000 groups with picked names",
        20_000,
        groups(PICKED),
        of_groups(PICKED),
    ),
    Workload(
        "commit and delete-group, by turns",
        2_500,
        one_topic,
        lambda n: pairs(n, "commit g{i:06} t000000 0 0", "delete-group g{i:06}"),
    ),
    Workload(
        "commit, on one more of 1,000 partitions",
        50_000,
        lambda n: [f"{ROOT} create-topic t 1000"],
        lambda n: [f"{ROOT} commit g{i // 1000:04} t {i % 1000} 0" for i in range(n)],
    ),
    Workload(
        "create-topic, one partition", 2_500, nothing, lambda n: topics(n, f"create-topic {PLAIN} 1")
    ),
    Workload(
        "create-topic, with a picked name",
        2_500,
        nothing,
        lambda n: topics(n, f"create-topic {PICKED} 1"),
    ),
    Workload(
        "create-topic, 1,000 partitions", 500, nothing, lambda n: topics(n, "create-topic t{i:06} 1000")
    ),
    Workload("create-acl", 10_000, nothing, creations),
    Workload("create-acl, on one name", 10_000, nothing, lambda n: creations(n, HALVES[0])),
    Workload("create-acl, texts that join to the same letters", 2_000, nothing, splits),
    Workload("acl --add, one line of n bindings", 10_000, nothing, additions),
    Workload("acl --list, one line of n listings", 10_000, nothing, listings),
    Workload(
        "decision, on one of 10,000 names",
        20_000,
        lambda n: creations(TEN_THOUSAND),
        lambda n: turns(n, TEN_THOUSAND, "User:u{i:06} h produce t{i:06} 0 - v"),
    ),
    Workload(
        "decision, bindings of 1,000 principals on the name",
        20_000,
        lambda n: creations(1_000, HALVES[1]),
        lambda n: turns(n, 1_000, "User:u{i:06} h produce orders 0 - v"),
    ),
    Workload(
        "decision, among 10 bindings of others",
        20_000,
        lambda n: of_others(10),
        lambda n: lines(n, ASKER),
    ),
    Workload(
        "decision, among 100,000 bindings of others",
        20_000,
        lambda n: of_others(99_998),
        lambda n: lines(n, ASKER),
    ),
    Workload(
        "decision, under 100 nested prefixes",
        5_000,
        lambda n: nested(),
        lambda n: lines(n, f"User:u h produce {'a' * 100} 0 - v"),
    ),
    Workload("metadata of n topics, four times", 2_500, topics, lambda n: lines(4, "metadata")),
    Workload(
        "metadata of n topics, beside 90,000 bindings of others",
        2_500,
        lambda n: [*of_others(90_000), *topics(n, "create-topic o{i:06} 1")],
        lambda n: lines(1, "User:asker h metadata"),
    ),
    Workload(
        "delete-acls, one by one",
        2_000,
        creations,
        lambda n: lines(n, "delete-acls Topic t{i:06} LITERAL - - - -"),
    ),
    Workload(
        "delete-acls, by principal among 20,000",
        2_000,
        lambda _: creations(20_000),
        lambda n: lines(n, "delete-acls - - - User:u{i:06} - - -"),
    ),
    Workload(
        "delete-acls, later half of one name's 2n",
        10_000,
        lambda n: [*creations(n, HALVES[0]), *creations(n, HALVES[1])],
        lambda n: lines(1, "delete-acls Topic orders LITERAL - - Write -"),
    ),
    Workload(
        "delete-group",
        2_000,
        lambda n: [*topics(1), *commits(n, "g{i:06}")],
        lambda n: lines(n, "delete-group g{i:06}"),
    ),
    Workload("delete-topic", 2_000, topics, lambda n: lines(n, "delete-topic t{i:06}")),
    Workload(
        "delete-topic, with a group each",
        2_000,
        lambda n: [*topics(n), *commits(n, "g{i:06}", "t{i:06}")],
        lambda n: lines(n, "delete-topic t{i:06}"),
    ),
    Workload(
        "delete-topic, beside n groups on another",
        2_000,
        lambda n: [f"{ROOT} create-topic o 1", *topics(n), *commits(n, "g{i:06}", "o")],
        lambda n: lines(n, "delete-topic t{i:06}"),
    ),
    Workload(
        "1,000 records, deleted behind each batch",
        100,
        one_topic,
        lambda n: pairs(n, EIGHT_BYTES, "delete-records t000000 0 -1"),
    ),
    Workload(
        "1,000 records, kept", 100, one_topic, lambda n: pairs(n, EIGHT_BYTES, "list-offsets t000000 0 -1")
    ),
]
