import unittest

from sochullwa.model import Consumer, Scene, check, law, pair, play

# Event 1 is sent. The reply to the record of event 2 is lost; the router restarts, gets another producer id,
# and sends it again. The consumer takes the three records in at once, and skips the last. Event 3 waits in
# the outbox.
LINES = """# One.
super User:root
User:root h create-topic outbox.event.k0 1
User:root h create-acl allow User:s0 * Write Topic literal outbox.event.k0
User:root h create-acl allow User:s0 * IdempotentWrite Cluster literal kafka-cluster
User:root h create-acl allow User:c0 * Read Topic literal outbox.event.k0
User:root h create-acl allow User:c0 * Read Group literal c0
service s0 User:s0 h partitions 1
consumer c0 User:c0 h group c0 max 10 reads outbox.event.k0:0
s0 record 00000000-0000-0000-0000-000000000001 k0 42 OrderPaid {} order 42 paid
s0 tick
s0 record 00000000-0000-0000-0000-000000000001 k0 42 OrderPaid {} order 42 paid
s0 record 00000000-0000-0000-0000-000000000002 k0 42 OrderPaid {} order 42 paid
s0 tick lose-reply
s0 restart
s0 tick
s0 record 00000000-0000-0000-0000-000000000003 k0 42 OrderPaid {} order 42 paid
s0 tick lose-request
c0 tick
c0 tick
c0 tick
c0 inbox
s0 sweep
s0 outbox
User:root h fetch outbox.event.k0 0 0 10
User:root h committed c0 outbox.event.k0 0
law s0 c0
check s0 c0
"""
PRINTED = """1 ok created
2 ok serials 1
3 ok serials 2
4 ok serials 3
5 ok serials 4
6 ok recorded 1
7 moved 1
8 refused DuplicateId
9 ok recorded 2
10 repeat
11 ok restarted
12 moved 2
13 ok recorded 3
14 repeat
15 placed 0
16 took 3
17 committed
18 ok inbox 2
row 1 00000000-0000-0000-0000-000000000001 outbox.event.k0 0 0 42={}
row 2 00000000-0000-0000-0000-000000000002 outbox.event.k0 0 1 42={}
19 ok swept 2
20 ok mark 2 waiting 1
row 3 00000000-0000-0000-0000-000000000003 k0 42 OrderPaid {}
21 ok records 0:42={} 1:42={} 2:42={}
22 ok commit 3
23 law holds, 2 of 3 rows, in order
24 delivered 2 of 3 waiting 1 lost 0
waits 00000000-0000-0000-0000-000000000003 k0 42 row 3 in the outbox
doubled 00000000-0000-0000-0000-000000000002 k0 42 row 2 in outbox.event.k0 0 at 2, entry 9 by producer 1, \
first entry 7 by producer 0
"""


class Model(unittest.TestCase):
    def test_a_lost_reply_and_a_restart_put_an_event_there_twice(self) -> None:
        scene = Scene("One.", "super User:root")
        service, consumer = pair(scene, 0)
        play(service, ["record", "tick"], iter([1]))
        service.record(1)
        play(service, ["record", "tick lose-reply", "restart", "tick"], iter([2]))
        play(service, ["record", "tick lose-request"], iter([3]))
        play(consumer, ["tick"] * 3)
        consumer.shows()
        service.sweeps()
        service.shows()
        scene.records(service.topic)
        scene.committed("c0", service.topic)
        law(service, consumer)
        check(service, consumer)
        self.assertEqual(scene.text, LINES)
        self.assertEqual(scene.output, PRINTED)

    def test_a_repeated_batch_stands_there_once_and_is_swept_once(self) -> None:
        scene = Scene("One.", "super User:root")
        service, _ = pair(scene, 0)
        play(service, ["tick", "record", "tick lose-reply", "tick", "tick"], iter([1]))
        service.sweeps()
        service.sweeps()
        answers = ["idle", "ok recorded 1", "repeat", "moved 1", "idle", "ok swept 1", "ok swept 0"]
        self.assertEqual([it.partition(" ")[2] for it in scene.printed[-7:]], answers)
        self.assertEqual(scene.topics[service.topic], [1])

    def test_without_the_right_a_tick_stops(self) -> None:
        scene = Scene("One.", "super User:root")
        service, _ = pair(scene, 0)
        scene.allowed.clear()
        play(service, ["record", "tick"], iter([1]))
        stopped = "stopped denied 29 TOPIC_AUTHORIZATION_FAILED no-allow needs Write Topic outbox.event.k0"
        self.assertEqual(scene.printed[-1], f"7 {stopped}")

    def test_a_consumer_that_restarts_before_its_commit_skips_what_it_has(self) -> None:
        scene = Scene("One.", "super User:root")
        service, consumer = pair(scene, 0)
        play(service, ["record", "tick"], iter([1]))
        play(consumer, ["tick", "tick", "restart", "tick", "tick", "tick"])
        answers = ["placed 0", "took 1", "ok restarted", "placed 0", "took 1", "committed"]
        self.assertEqual([it.partition(" ")[2] for it in scene.printed[-6:]], answers)
        self.assertEqual(consumer.inbox, [(1, 0)])

    def test_a_lost_event_has_no_expected_output(self) -> None:
        scene = Scene("One.", "super User:root")
        service, consumer = pair(scene, 0)
        play(service, ["record", "tick"], iter([1]))
        consumer.position = 1
        with self.assertRaises(AssertionError):
            check(service, consumer)

    def test_a_variant_overrides_one_rule(self) -> None:
        class Forgetful(Consumer):
            variant = " no memory"

            def is_new(self, event: int) -> bool:
                return True

        scene = Scene("One.", "super User:root")
        service, _ = pair(scene, 0)
        consumer = Forgetful(scene, "other", service.topic)
        self.assertTrue(scene.lines[-1].endswith(":0 no memory"))
        play(service, ["record", "tick"], iter([1]))
        play(consumer, ["tick", "tick", "restart", "tick", "tick"])
        self.assertEqual(consumer.inbox, [(1, 0), (1, 0)])
