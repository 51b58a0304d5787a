"""A changed description, with all that it does to what stands: instances that are changed in place by make and ninja, and half-made ones."""

import json
import os
import shutil
import subprocess

from tests.carry.shapes import LINE, call
from tests.carry.test_up import UpCase
from tests.effort import DEADLINE
from tests.real import command

# A server on a database that is on a disk; the sketch of it, and of what it may become.
DISK, DB, WEB = "disk: off > on(+room)", "db: off > made > on(-room +sql)", "web: off > on(-sql +http)"
LB = "lb: off > on(-http +site)"


def document(*lines):
    """The document of a sketch of these lines, which have no counts."""
    types = []
    for line in lines:
        name, _, path = line.partition(": ")
        states = []
        for text in path.split(" > "):
            state, _, ports = text.rstrip(")").partition("(")
            found = {"name": state}
            for key, sign in (("provide", "+"), ("require", "-")):
                own = [port[1:] for port in ports.split() if port[0] == sign]
                found |= {key: own} if own else {}
            states.append(found)
        for one, other in zip(states, states[1:]):
            one["next"] = [other["name"]]
        types.append({"name": name, "initial": states[0]["name"], "states": states})
    return json.dumps({"aeolus": 1, "types": types}) + "\n"


OLD = document(DISK, DB, WEB, LB)


class ChangedCase(UpCase):
    """Calls of `up` with the program itself."""

    def setUp(self):
        super().setUp()
        self.universe.write_text(OLD)
        program = command(self.top)
        if program is None:
            self.skipTest("there is no program yet: ./metis or rt ci builds it")
        os.environ["METIS_COMMAND"] = str(program)

    def first(self, **options):
        self.stands("lb:on", **options)
        self.did()

    def change(self, *lines):
        self.universe.write_text(document(*lines))

    def again(self):
        """What was done again, by the files of the folder."""
        return sorted(path.name for path in (self.folder / "again").iterdir())


class InPlaceTest(ChangedCase):
    """The server takes from the disk as well, and the balancer says of it what it did not say: both are in use, and are done again."""

    CHANGES = (DISK, DB, "web: off > on(-sql -room +http)", LB)

    def test_what_changes_takes_what_it_lacks_and_is_done_again(self):
        self.first()
        self.change(*self.CHANGES)
        shown, _ = self.stands("lb:on")
        self.assertIn("changed  web#3 (on): needs room; its steps are done again while lb#0 takes from it", shown)
        self.assertEqual(self.did(), ["web-3 bind", "web-3 move"])
        self.assertEqual((self.folder / "universe.json").read_text(), document(*self.CHANGES))
        self.assertEqual(call("status", self.folder, "--json")[0], 0)

    def test_in_order_side_by_side_and_by_each_engine(self):
        for engine in ("make", "ninja"):
            with self.subTest(engine):
                shutil.rmtree(self.folder, ignore_errors=True)
                self.universe.write_text(OLD)
                self.first(more=["--yes", "--engine", engine])
                # The disk and the database give what they gave, and need one thing less or more: three are done again.
                self.change(DISK, "db: off > made(-room) > on(-room +sql)", "web: off > on(-room +http)", "lb: off > on(-http -sql +site)")
                fails = self.commands(LINE + '[ "$METIS_AGAIN$METIS_NAME" != "yesweb-3" ] || [ -e "$TOP/may" ]\n')
                (self.top / "may").unlink(missing_ok=True)
                more = ["--yes", "--again", "--engine", engine]
                self.assertEqual(self.up("lb:on", more=more, commands=fails)[0], 1)
                # What changed stands still, with the mark that it is to be done again: nothing was let go.
                self.assertEqual([each for each in self.did() if "unbind" in each or "delete" in each], [])
                rows = json.loads(call("status", self.folder, "--json")[1])["actions"]
                self.assertEqual([(row["instance"], row["stage"]) for row in rows if row.get("again")][-2:], [("web#3", "failed"), ("lb#0", "waiting")])
                self.assertIn("failed   web#3: off -> on (again)", call("status", self.folder)[1])
                words = {"make": ["make", "-s", "-C"], "ninja": ["ninja", "-C"]}[engine]
                # The engine alone goes on with it, as with any step, and lets go at last what is not needed.
                (self.top / "may").touch()
                done = subprocess.run([*words, self.folder], capture_output=True, text=True, check=False, timeout=DEADLINE)
                self.assertEqual(done.returncode, 0, done.stdout + done.stderr)
                did = self.did()
                self.assertEqual((did[-1], did.index("web-3 move") < did.index("lb-0 move")), ("web-3 unbind", True))
                # The next call of `up` finds nothing to do but to make the list one of the description alone.
                self.stands("lb:on", more=more, commands=fails)
                self.assertEqual(self.did(), [])

    def test_before_it_is_done_again_nothing_goes_by_hand_either(self):
        self.first()
        self.change(DISK, DB, "web: off > on(-room +http)", LB)
        fails = self.commands(LINE + '[ -z "$METIS_AGAIN" ]\n')
        self.assertEqual(self.up("lb:on", more=["--yes", "--delete", "db"], commands=fails)[0], 1)
        words = next(line.split(" ") for line in (self.folder / "jobs").read_text().splitlines() if " unbind 3 " in line)
        done = subprocess.run(["./run", *words], cwd=self.folder, capture_output=True, text=True, check=False)
        self.assertEqual((done.returncode, "is to be done again before" in done.stderr), (75, True))
        # What is taken away as a whole need not be mended before.
        self.did()
        self.assertEqual(call("down", self.folder, "--yes")[0], 0)
        self.assertEqual(self.did().count("web-3 delete"), 1)

    def test_a_protected_one_is_changed_by_name(self):
        self.first()
        (self.folder / "request.json").write_text(json.dumps({**json.loads((self.folder / "request.json").read_text()), "protect": ["web"]}))
        self.change(*self.CHANGES)
        status, shown, said = self.up("lb:on")
        self.assertIn("its steps are done again while lb#0 takes from it, protected", shown)
        reason = "web#3 is protected and would be changed in place, and --yes does not agree to that: --change web#3"
        self.assertEqual((status, said, self.did()), (1, f"metis: {reason}\n", []))
        self.stands("lb:on", more=["--yes", "--change", "web#3"])
        self.assertEqual(self.did(), ["web-3 bind", "web-3 move"])


class NamesTest(ChangedCase):
    def test_a_state_and_a_type_have_another_name(self):
        self.first()
        self.change(DISK, DB, WEB.replace("on(", "up("), LB)
        reason = "web has no state on any more; if up is its new name, say so: --renamed web:on=up"
        self.assertIn(reason, self.up("lb:on")[2])
        self.stands("lb:on", more=["--yes", "--renamed", "web:on=up"])
        self.change(DISK, DB, WEB.replace("web", "site").replace("on(", "up("), LB)
        self.stands("lb:on", more=["--yes", "--renamed", "web=site"])
        self.assertEqual((self.did(), (self.folder / "names").read_text()), ([], "3 web-3\n"))
        # It keeps the name by which it was made, also where others are told of it.
        self.assertEqual(call("retry", self.folder, "site#3")[0], 0)
        self.make()
        self.assertEqual([line.split()[1:3] for line in self.trace()][0], ["web-3", "move"])
        self.assertIn("[http=web-3]", self.trace()[-1])

    def test_the_past_has_the_last_ten(self):
        self.first()
        for number in range(12):
            self.change(DISK, DB, WEB.replace("on(", f"on{number}("), LB)
            before = "on" if number == 0 else f"on{number - 1}"
            self.stands("lb:on", more=["--yes", "--renamed", f"web:{before}=on{number}"])
        self.assertEqual(sorted(int(each.name) for each in (self.folder / "past").iterdir()), list(range(3, 13)))
        # The numbers of what is gone are known all the same.
        self.assertEqual((self.folder / "free").read_text(), "4\n")


class HalfMadeTest(ChangedCase):
    """The first `up` stops in the middle of the database, and the description is mended."""

    def stopped(self):
        fails = self.commands(LINE + '[ "$METIS_NAME.$METIS_TO" != db-2.on ]\n')
        self.assertEqual(self.up("lb:on", commands=fails)[0], 1)
        self.did()

    def test_it_goes_on_where_the_description_was_mended(self):
        self.stopped()
        self.change(DISK, DB, "web: off > on(-sql -room +http)", LB)
        shown, _ = self.stands("lb:on")
        self.assertIn("goes on  db#2 (made to on)", shown)
        self.assertNotIn("going", shown)
        did = self.did()
        self.assertEqual((did[0], did.count("db-2 move"), [each for each in did if "delete" in each]), ("db-2 move", 1, []))

    def test_what_is_left_over_goes_by_name_alone(self):
        self.stopped()
        self.change(DISK, "pg: off > on(-room +sql)", WEB, LB)
        status, shown, said = self.up("lb:on")
        self.assertIn("going    db#2 (made): half made, the description has no db any more", shown)
        self.assertEqual((status, "would be deleted with all data" in said, self.did()), (1, True, []), said)


class HostsTest(ChangedCase):
    """What stands, or was begun, stays on its host, and what is new gets what room is left."""

    def hosts(self, text):
        (self.top / "hosts").write_text(f"metis hosts 1\n{text}end\n")

    def where(self):
        """The host of each instance, as the jobs of the folder say it."""
        rows = [line.split(" ") for line in (self.folder / "jobs").read_text().splitlines()]
        return {f"{row[6]}#{row[5]}": row[3] for row in rows}

    def test_what_stopped_goes_on_where_it_was_begun(self):
        self.hosts("host left 2\nhost right 9\n")
        fails = self.commands(LINE + '[ "$METIS_NAME.$METIS_TO" != db-2.on ]\n')
        more = ["--yes", "--hosts", self.top / "hosts"]
        self.assertEqual(self.up("lb:on", more=more, commands=fails)[0], 1)
        before = self.where()
        self.assertEqual(before, {"lb#0": "left", "disk#1": "left", "db#2": "right", "web#3": "right"})
        self.stands("lb:on", more=more)
        self.assertEqual(self.where(), before)

    def test_what_is_new_gets_what_is_left(self):
        self.hosts("host left 3\nhost right 9\n")
        more = ["--yes", "--hosts", self.top / "hosts"]
        self.first(more=more)
        before = self.where()
        self.assertEqual(before, {"lb#0": "left", "disk#1": "left", "db#2": "left", "web#3": "right"})
        # First fit from nothing, in the order of a list of what stands, would put the balancer elsewhere than where it stands.
        self.change("cache: off > on(+cache)", DISK, DB, "web: off > on(-sql -cache +http)", LB)
        self.stands("lb:on", more=more)
        self.assertEqual(self.where(), {**before, "cache#4": "right"})
        marks = {path.name: path.read_text().split("\n")[2] for path in (self.folder / "done").iterdir()}
        self.assertEqual(marks["0.1"], "on left 127.0.1.1")
        self.hosts("host left 2\nhost right 9\n")
        self.change(DISK, DB, WEB, LB)
        said = self.up("lb:on", more=[*more, "--delete", "all"])[2]
        self.assertIn("host left has room for 2, and what stands on it takes 3", said)
