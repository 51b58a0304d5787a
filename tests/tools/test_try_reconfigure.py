"""What tools/try_reconfigure.py reads in a list of actions: a right one passes, and each planted fault is noticed."""

import importlib.util
import sys
import unittest
from unittest import mock

from tests.carry.shapes import REBOUND, WEB
from tests.test_words import TOP

FOUND = importlib.util.spec_from_file_location("try_reconfigure", TOP / "tools" / "try_reconfigure.py")
tried = sys.modules["try_reconfigure"] = importlib.util.module_from_spec(FOUND)
FOUND.loader.exec_module(tried)
UNIVERSE = {
    "types": [
        {"name": "Db", "initial": "off", "states": [{"name": "off", "provide": [], "require": []}, {"name": "on", "provide": ["sql"], "require": []}]},
        {"name": "Web", "initial": "off", "states": [{"name": "off", "provide": [], "require": []}, {"name": "run", "provide": [], "require": ["sql"]}]},
    ]
}
WISHES = ["rebind 0", "retire 1"]


class ReadingTest(unittest.TestCase):
    def look(self, text, wishes=WISHES, targets=("Web:run",)):
        """Reads a list as it has to be after WEB."""
        case = tried.Case(mock.Mock(), UNIVERSE, WEB, list(targets))
        found = tried.Wishes(wishes, case.there)
        more = tried.actions_of(tried.lines_of(text)[5:])
        end = case.there.after(more)
        tried.check_wishes_can_be_met(found, case.there)
        tried.check_what_stood(found, case, more, end)
        tried.check_the_new(found, case, more)
        tried.check_tidy(found, case, end)

    def test_a_right_list(self):
        self.look(REBOUND)
        self.look(WEB, wishes=[])

    def test_planted_faults(self):
        for text, wishes, said in (
            (REBOUND.replace("10 delete 1 after 9\n", ""), WISHES, "what leaves is there at the end"),
            (REBOUND.replace("9 unbind sql 0 1\n10 delete 1 after 9\n", ""), WISHES, "what leaves is there"),
            (REBOUND.replace("6 new 2 Db\n", "6 new 3 Db\n7 new 2 Db\n"), WISHES, r"\[3\] serve nothing at the end"),
            (REBOUND.replace("end\n", "11 delete 0\nend\n"), WISHES, "0 was to stay in Web:run"),
            (REBOUND.replace("6 new 2 Db\n", "6 unbind sql 0 1\n7 new 2 Db\n"), WISHES, "of what stays, after something has gone"),
            (REBOUND.replace("6 new 2 Db\n", "6 move 0 run off\n7 new 2 Db\n"), WISHES, "of what stood"),
            (REBOUND, ["keep 1"], "of what nobody lets be bound anew"),
            (REBOUND, ["keep 0", "retire 1"], "a wish is for what leaves"),
            (WEB.replace("end\n", "6 new 2 Web\n7 bind sql 2 1\n8 move 2 off run\nend\n"), [], "though all is there and stays"),
            (WEB.replace("end\n", "6 new 1 Db\nend\n"), ["keep all"], "of what stood"),
        ):
            with self.subTest(text=text, wishes=wishes), self.assertRaisesRegex(tried.Otherwise, said):
                self.look(text, wishes)

    def test_answers_that_refuse(self):
        there = tried.Case(mock.Mock(), UNIVERSE, WEB, []).there
        for lines, line in ((["retire 1", "keep 0"], "kept 0 on 1\n"), (["keep 7"], "absent 7\n"), (["avoid Db:off"], "unavoidable Db:on\n")):
            tried.check_refusal(line, 1, tried.Wishes(lines, there), there)
        for lines, line in (([], "unavoidable Web:run\n"), (["keep 7"], "absent 0\n"), (["retire 1", "keep 0"], "unmet 0 sql\n")):
            with self.subTest(lines=lines), self.assertRaises(tried.Otherwise):
                tried.check_refusal(line, 1, tried.Wishes(lines, there), there)


if __name__ == "__main__":
    unittest.main()
