import unittest

from tests import program

policies = program("tools/policies")
FAULT = "kob: a.txt: line 3: no such operation\n  may x\n      ^\n  expected: may ..\n"


class Policies(unittest.TestCase):
    def test_a_listing_has_five_bindings_on_a_topic(self) -> None:
        text, places = policies.listing(6)
        lines = text.splitlines()
        self.assertEqual(places, [2, 3, 4, 5, 6, 9])
        self.assertEqual([at for at, it in enumerate(lines, 1) if it.startswith("Current ACLs")], [1, 8])
        self.assertEqual(lines[6], "")
        self.assertEqual(lines[8], "\t(principal=User:u0, host=*, operation=READ, permissionType=ALLOW)")
        self.assertIn("permissionType=DENY", lines[1])
        self.assertIn("name=t1,", lines[7])

    def test_an_answer_names_the_binding_that_decides(self) -> None:
        self.assertEqual(policies.answer(7, "  "), "  no deny:8\n")
        self.assertEqual(policies.answer(8), "yes allow:9\n")
        line = "  binding 9 ALLOW User:u3 * Read Topic LITERAL t1 list.txt:13\n"
        self.assertEqual(policies.binding(8, 13), line)

    def test_an_access_is_in_the_form_of_the_log(self) -> None:
        denied = "INFO Principal = User:u3 is Denied operation = READ from host = h "
        self.assertIn(denied, policies.access(8, False))
        self.assertIn("DEBUG Principal = User:u3 is Allowed ", policies.access(8, True))
        self.assertIn("on resource = Topic:LITERAL:t1 for request = Fetch", policies.access(8, True))

    def test_remarks_on_the_answers_are_left_out(self) -> None:
        printed = "a.txt fault line 3 BadOperation\nleft out one\nleft out two\n"
        counted = "kob: bindings left out: 2; --skip answers without them\n"
        self.assertEqual(policies.remarks(printed, FAULT + counted), "")
        self.assertEqual(policies.remarks(printed, f"{FAULT}{counted}other\n"), "other\n")

    def test_a_remark_of_another_form_stays(self) -> None:
        printed = "a.txt fault line 3 BadOperation\n"
        for told in (
            "",
            FAULT.replace("line 3", "line 4"),
            FAULT.replace("  expected", "  instead"),
            FAULT.splitlines(keepends=True)[0],
        ):
            self.assertEqual(policies.remarks(printed, told), told)
        counted = "kob: bindings left out: 3; --skip answers without them\n"
        self.assertEqual(policies.remarks("left out one\n", counted), counted)
