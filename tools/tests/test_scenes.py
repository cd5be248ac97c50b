import pathlib
import tempfile
import unittest

from sochullwa import made_scenes
from sochullwa.model import Scene
from sochullwa.playing import Player
from tests import program, put

scenes = program("tools/scenes")


class Scenes(unittest.TestCase):
    def test_each_tick_meets_each_loss_and_each_step_a_restart_before_it(self) -> None:
        lost = [("lose-request", 1), ("lose-reply", 1), ("restart", 1), ("restart", 2)]
        self.assertEqual(list(made_scenes.mishaps(["record", "tick", "record"])), lost)

    def test_a_byte_of_a_key_is_shown_as_a_fetch_prints_it(self) -> None:
        shown = [made_scenes.shown_byte(it) for it in b"a %=\xc3"]
        self.assertEqual(shown, ["a", "%20", "%25", "%3d", "%c3"])

    def test_a_columns_text_stands_in_its_place(self) -> None:
        scene = Scene("One.")
        made_scenes.columns(scene, "ok recorded 1", 1, key="x")
        line = "svc record 00000000-0000-0000-0000-000000000001 orders 42 OrderPaid {} order x paid"
        self.assertEqual((scene.lines[1:], scene.printed), ([line], ["1 ok recorded 1"]))

    def test_the_stored_run_has_the_scenes_by_name(self) -> None:
        texts = {"b.txt": "", "b.txt.stdout": "1 two\n", "a.txt": "", "a.txt.stdout": "1 one\n"}
        wanted = {"args": "play\na.txt\nb.txt\n", "stdout": "== a.txt\n1 one\n== b.txt\n1 two\n"}
        self.assertEqual(made_scenes.stored(texts), wanted)

    def test_a_scene_with_workers_is_no_script(self) -> None:
        self.assertTrue(scenes.OF_SCENES.search("super User:root\nservice svc User:svc h partitions 1\n"))
        self.assertTrue(scenes.OF_SCENES.search("journal\n"))
        self.assertFalse(scenes.OF_SCENES.search("User:root h create-topic journal 1\n# service\n"))

    def test_carets_stand_below_the_last_word(self) -> None:
        self.assertEqual(scenes.below_the_last("service a bb"), "  service a bb\n            ^^\n")
        self.assertEqual(scenes.below_the_last("x" * 201), f"  {'x' * 200}\n  {'^' * 200}\n")

    def test_a_case_knows_what_a_program_has_to_print(self) -> None:
        with tempfile.TemporaryDirectory() as folder:
            room = pathlib.Path(folder)
            put(room, {"bin/kob": "#!/bin/sh\necho 'error: the words' >&2\necho more >&2\nexit 1\n"})
            player = Player(room / "bin/kob", ("play",))
            found, due = scenes.wrong_option(player, room)
            self.assertEqual(found, (1, "", "error: the words"))
            self.assertNotEqual(found, due)
            found, due = scenes.past_the_limit(player, room)
            self.assertEqual(due, (1, "", "kob: scene.txt: has more than 16,777,216 bytes\n"))
            self.assertEqual((room / "scene.txt").stat().st_size, 16_777_217)
            scenes.at_the_limit(player, room)
            self.assertEqual((room / "scene.txt").stat().st_size, 16_777_216)
