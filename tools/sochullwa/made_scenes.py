"""The scenes of crates/kob/data that are not written by hand, with their outputs: those of the model, and
others."""
import pathlib
import re
import shlex
from collections.abc import Iterator, Sequence

from sochullwa.model import Consumer, Scene, Service, check, law, pair, play, uuid
from sochullwa.repository import CRATES, TOP

KOB = CRATES / "kob"
EVENTS = range(1, 10_000)

# Both sides of each limit that takes a long line.


def batch(records: Sequence[str]) -> str:
    return f"produce t 0 - {' '.join(records)}"


def on_a_topic(comment: str, *steps: tuple[str, str]) -> Scene:
    """A topic t of one partition, and requests of the super user with their answers."""
    made = Scene(comment, "super User:root")
    made.topic("t")
    for command, answer in steps:
        made.root(command, answer)
    return made


def batch_of_1000_records() -> Scene:
    return on_a_topic(
        "A batch has 1 to 1,000 records.",
        (batch(["v"] * 1001), "refused 42 INVALID_REQUEST TooManyRecords"),
        (batch(["v"] * 1000), "ok offset 0"),
    )


def fetch_of_1000_records() -> Scene:
    return on_a_topic(
        "A fetch returns at most 1,000 records, whatever it asks for.",
        (batch(["v"] * 1000), "ok offset 0"),
        (batch(["last"]), "ok offset 1000"),
        ("fetch t 0 1 1000", "ok records" + "".join(f" {at}:v" for at in range(1, 1000)) + " 1000:last"),
        ("fetch t 0 0 1001", "ok records" + "".join(f" {at}:v" for at in range(1000))),
    )


def deletions_across_a_chunk() -> Scene:
    return on_a_topic(
        "Records are deleted up to an offset within a chunk of 256, and the start never goes back.",
        (batch([f"v{at}" for at in range(300)]), "ok offset 0"),
        ("delete-records t 0 260", "ok start 260"),
        ("fetch t 0 259 1", "refused 1 OFFSET_OUT_OF_RANGE OutOfRange"),
        ("fetch t 0 260 2", "ok records 260:v260 261:v261"),
        ("delete-records t 0 301", "refused 1 OFFSET_OUT_OF_RANGE OutOfRange"),
        ("delete-records t 0 100", "ok start 260"),
        ("list-offsets t 0 -2", "ok offset 260"),
        ("list-offsets t 0 -1", "ok offset 300"),
        ("delete-records t 0 300", "ok start 300"),
        ("fetch t 0 300 1", "ok records"),
        ("fetch t 0 299 1", "refused 1 OFFSET_OUT_OF_RANGE OutOfRange"),
        ("produce t 0 - next", "ok offset 300"),
        ("fetch t 0 300 1", "ok records 300:next"),
        ("delete-records t 0 -1", "ok start 301"),
        ("fetch t 0 301 1", "ok records"),
    )


def names() -> Scene:
    comment = "Names at their limits and past them, and the order of the refusals of a creation."
    made, long = Scene(comment, "super User:root"), "a" * 249
    made.root("create-acl allow User:a * Create Cluster literal kafka-cluster", "ok serials 1")
    for who, name, count, answer in (
        ("User:a", long, 1, "ok created"),
        ("User:a", long + "a", 1, "refused 17 INVALID_TOPIC_EXCEPTION BadTopicName"),
        ("User:b", long + "a", 1, "denied 29 TOPIC_AUTHORIZATION_FAILED no-allow,no-allow"),
        ("User:root", "a", 0, "refused 37 INVALID_PARTITIONS BadPartitions"),
        ("User:root", long, 1, "refused 36 TOPIC_ALREADY_EXISTS TopicExists"),
    ):
        made.step(f"{who} h create-topic {name} {count}", answer)
    group, refused = "g" * 256, "refused 24 INVALID_GROUP_ID BadGroupName"
    for command in (f"commit {group} {long} 0 1", f"committed {group} {long} 0", f"delete-group {group}"):
        made.root(command, refused)
    right = f"create-acl allow User:a * Read Topic literal {'a' * 256}"
    made.root(right, "refused 42 INVALID_REQUEST NameTooLong")
    return made


COLUMNS = {"aggregatetype": "orders", "aggregateid": "42", "type": "OrderPaid", "payload": "{}"}
COLUMNS |= {"kind": "order", "key": "42", "state": "paid"}


def columns(scene: Scene, answer: str, event: int, **texts: str) -> None:
    """A service records an event with other texts for some columns."""
    scene.step(f"svc record {uuid(event)} {' '.join((COLUMNS | texts).values())}", answer)


def limit_columns() -> Scene:
    comment = "Texts of an outbox at their limit of 255 bytes and past it"
    made = Scene(f"{comment}, in characters of one byte and of two.")
    made.lines.append("service svc User:svc h partitions 1")
    limited = ("kind", "key", "aggregatetype", "aggregateid", "type")
    for column in limited:
        for text in ("a" * 256, "é" * 128):
            columns(made, f"refused BadField {column}", 1, **{column: text})
    for number, column in enumerate(limited, 1):
        columns(made, f"ok recorded {number}", number, **{column: "é" * 127 + "a"})
    return made


def shown_byte(byte: int) -> str:
    """A byte of a record's key as a FETCH prints it."""
    return chr(byte) if 0x21 <= byte <= 0x7E and chr(byte) not in "%=" else f"%{byte:02x}"


def key_of_all_characters() -> Scene:
    """The key of a record is the aggregate's id, here each character up to U+00BF but the zero byte: 255
    bytes."""
    comment = "An aggregate's id of 255 bytes, each character up to U+00BF but the zero byte once"
    made = Scene(f"{comment}, is its records' key.", "super User:root")
    made.root("create-topic outbox.event.orders 1", "ok created")
    made.lines.append("service svc User:root h partitions 1")
    made.lines.append("consumer con User:root h group g max 10 reads outbox.event.orders:0")
    text = "".join(map(chr, range(1, 0xC0))).encode()
    columns(made, "ok recorded 1", 1, aggregateid="".join(f"%{byte:02X}" for byte in text))
    key, taken = "".join(map(shown_byte, text)), ("placed 0", "took 1", "committed", "idle")
    sent, shown = ("moved 1", "idle"), ("ok inbox 1",)
    for step, answers in (("svc run", sent), ("con run", taken), ("con inbox", shown)):
        made.lines.append(step)
        for answer in answers:
            made.says(answer)
    made.printed.append(f"row 1 {uuid(1)} outbox.event.orders 0 0 {key}={{}}")
    made.root("fetch outbox.event.orders 0 0 1", f"ok records 0:{key}={{}}")
    return made


def journal_across_a_chunk() -> Scene:
    """A journal of more than 256 entries: a request and two steps of a consumer in turn."""
    comment = "A journal is printed in order across the edge of a chunk, which is 256 entries."
    made = Scene(comment, "super User:root")
    calls: list[tuple[str, str, str]] = []

    def request(words: str, answer: str) -> None:
        made.root(words, answer)
        calls.append(("-", words, answer))

    def step(shown: str, words: str, answer: str) -> None:
        made.step("con tick", shown)
        calls.append(("con", words, answer))

    request("create-topic t 1", "ok created")
    made.lines.append("consumer con User:root h group g max 10 reads t:0")
    step("placed 0", "committed g t 0", "ok commit -1")
    for at in range(90):
        request("produce t 0 - v", f"ok offset {at}")
        step("took 1", f"fetch t 0 {at} 10", f"ok records {at}:v")
        step("committed", f"commit g t 0 {at + 1}", "ok committed")
    made.step("journal", f"ok journal {len(calls)}")
    for place, (who, words, answer) in enumerate(calls):
        made.printed.append(f"entry {place} {who} User:root h {words} {answer}")
    return made


# Mishaps, one at a time: each has a service, a topic and a consumer of its own in one scene.


def mishaps(steps: Sequence[str]) -> Iterator[tuple[str, int]]:
    """Each loss on each tick, and a restart between any two steps."""
    for at, step in enumerate(steps):
        yield from ((loss, at) for loss in ("lose-request", "lose-reply") if step.startswith("tick"))
        if at:
            yield "restart", at


def shown(scene: Scene, service: Service, consumer: Consumer) -> None:
    """What is left of a pair."""
    scene.records(service.topic)
    scene.committed(consumer.name, service.topic)
    service.shows()
    consumer.shows()
    law(service, consumer)
    check(service, consumer)


def sweep_of_a_router(comment: str, steps: Sequence[str]) -> Scene:
    made, events = Scene(comment, "super User:root"), iter(EVENTS)
    for number, (mishap, at) in enumerate(mishaps(steps)):
        service, consumer = pair(made, number)
        play(service, steps, events, mishap, at)
        play(consumer, ["tick"] * 3)
        shown(made, service, consumer)
    return made


def sweep_of_a_consumer(comment: str, steps: Sequence[str]) -> Scene:
    made, events = Scene(comment, "super User:root"), iter(EVENTS)
    for number, (mishap, at) in enumerate(mishaps(steps)):
        service, consumer = pair(made, number)
        play(service, ["record", "tick", "record", "tick"], events)
        play(consumer, steps, events, mishap, at)
        shown(made, service, consumer)
    return made


def withdrawal() -> Scene:
    """The right to write is taken away before each call of a router, and given back before another, or
    never."""
    comment = "A right to write that goes while a router sends, and comes back or not."
    made, events, serial = Scene(comment, "super User:root"), iter(EVENTS), 0
    cases = [(goes, back) for goes in range(4) for back in (*range(goes + 1, 5), None)]
    for number, (goes, back) in enumerate(cases):
        name, who = f"outbox.event.k{number}", f"s{number}"
        made.topic(name)
        made.allowed.add(name)
        write = f"ALLOW User:{who} * Write Topic LITERAL {name}"
        other = f"ALLOW User:{who} * IdempotentWrite Cluster LITERAL kafka-cluster"
        made.root(f"create-acl {write}", f"ok serials {serial + 1}")
        made.root(f"create-acl {other}", f"ok serials {serial + 2}")
        held, serial = serial + 1, serial + 2
        service = Service(made, who, name)
        # (a tick without rows asks for the producer id, so that the right can go between that call and the
        # first batch)
        play(service, ["tick"] * (goes > 0) + ["record", "record"], events)
        for call in range(4):
            if call == goes:
                made.root(f"delete-acls Topic {name} literal User:{who} - Write -", "ok bindings 1")
                made.printed.append(f"binding {held} {write}")
                made.allowed.discard(name)
            if call == back:
                serial += 1
                made.root(f"create-acl {write}", f"ok serials {serial}")
                made.allowed.add(name)
            service.tick()
        made.records(name)
        service.shows()
    return made


ONE = "One mishap at a time of a"
REPEATS = (
    f"{ONE} router whose second batch is repeated. A batch whose reply alone is lost stands once in the topic"
    "; after a restart it stands there twice, and once in the inbox."
)
AT_ONCE = f"{ONE} router that sends each event at once; a loss leaves the last one waiting."
TAKES = f"{ONE} consumer: position, records, commit."
RESTARTS = f"{ONE} consumer that restarts between its records and their commit."


# What the program printed once, as lines of a script.


def read_back() -> Scene:
    """The lines `kafka-acls.sh ..` of an export. They make the bindings that the exported scene lists at its
    end."""
    exported = (KOB / "exports" / "export_bindings.txt").read_text().splitlines()
    listed = (KOB / "data" / "export_bindings.txt.stdout").read_text().splitlines()
    bindings = [it for it in listed[-10:] if it.startswith("binding ")]
    comment = "The lines of an export, after a principal and a host, make the bindings that"
    made = Scene(f"{comment} export_bindings.txt lists.", "super User:root")
    for serial, line in enumerate((it for it in exported if it.startswith("kafka-acls.sh ")), 1):
        words = [it.replace("%", "%25").replace(" ", "%20") for it in shlex.split(line)]
        made.root(" ".join(["acl", *words[1:]]), f"ok serials {serial}")
    made.root("acl --list", f"ok bindings {len(bindings)}")
    made.printed += bindings
    return made


ENTRY = re.compile(r"entry \d+ \S+ (.*?) ((?:ok|denied|refused) .*)")


def journal_read_back() -> Scene:
    """The entries of a journal. They get the replies that the entries have, and make the same journal."""
    printed = (KOB / "data" / "journal_has_each_request.txt.stdout").read_text().splitlines()
    entries = printed[1 + next(at for at, it in enumerate(printed) if " ok journal " in it) :]
    comment = "The requests that journal_has_each_request.txt prints in its journal get the same replies"
    made = Scene(f"{comment}, and make the same journal.", "super User:root")
    for line in entries:
        if found := ENTRY.fullmatch(line):
            made.step(found[1], found[2])
        else:
            made.printed.append(line)
    made.step("journal", f"ok journal {made.number}")
    made.printed += entries
    return made


def scenes() -> dict[str, Scene]:
    """All of them, by name."""
    repeating = ["record", "record", "tick", "tick lose-reply", "tick", "tick"]
    restarting = ["tick", "tick", "restart", "tick", "tick", "tick"]
    return {
        "limit_batch_of_1000_records": batch_of_1000_records(),
        "limit_fetch_of_1000_records": fetch_of_1000_records(),
        "limit_deletions_across_a_chunk": deletions_across_a_chunk(),
        "limit_names": names(),
        "limit_columns": limit_columns(),
        "limit_key_of_all_characters": key_of_all_characters(),
        "limit_journal_across_a_chunk": journal_across_a_chunk(),
        "sweep_router_that_repeats": sweep_of_a_router(REPEATS, repeating),
        "sweep_router_that_sends_at_once": sweep_of_a_router(AT_ONCE, ["record", "tick"] * 2),
        "sweep_consumer": sweep_of_a_consumer(TAKES, ["tick"] * 3),
        "sweep_consumer_that_restarts": sweep_of_a_consumer(RESTARTS, restarting),
        "sweep_withdrawn_right": withdrawal(),
        "export_read_back": read_back(),
        "journal_read_back": journal_read_back(),
    }


def written() -> dict[str, str]:
    """The files of data/ that are not written by hand, by name."""
    found = {}
    for example in sorted((TOP / "examples").glob("*.txt")):
        found[example.name] = example.read_text()
        found[f"{example.name}.stdout"] = pathlib.Path(f"{example}.stdout").read_text()
    for name, scene in scenes().items():
        found |= {f"{name}.txt": scene.text, f"{name}.txt.stdout": scene.output}
    return found


def stored(texts: dict[str, str]) -> dict[str, str]:
    """The files of the crate's stored run, from all texts of data/."""
    given = sorted(it for it in texts if it.endswith(".txt"))
    played = "".join(f"== {it}\n{texts[it + '.stdout']}" for it in given)
    return {"args": "".join(f"{it}\n" for it in ["play", *given]), "stdout": played}
