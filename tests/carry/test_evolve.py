"""A list of what stands in place of the history; what a changed description means for it; and a folder that goes over to another list."""

import builtins
import os
import pathlib
import shutil
import tempfile
import unittest

from metis_planner.carry import forms, going_over, halfway, rebase, turnover
from metis_planner.carry.folder import Folder
from metis_planner.carry.halfway import Half, Stopped
from metis_planner.carry.rebase import Means
from metis_planner.carry.stands import stands_in
from metis_planner.carry.steps import steps_of
from metis_planner.carry.ways import Way
from metis_planner.text import plans
from metis_planner.text.actions import line_of
from metis_planner.text.configurations import after
from metis_planner.text.documents import ComponentType, State
from tests.carry.shapes import plan_text

DB = ComponentType("Db", (State("off", next=("on",)), State("on", ("sql",))))
WEB = ComponentType("Web", (State("off", next=("run",)), State("run", ("http",), {"sql": 1})))
# A second database takes the place of the first one, which goes.
LINES = ("new 0 Web", "new 1 Db", "move 1 off on", "bind sql 0 1 after 3", "move 0 off run", "new 2 Db", "move 2 off on")
HISTORY = plan_text(*LINES, "bind sql 0 2 after 7", "unbind sql 0 1", "delete 1 after 9")
SHORT = plan_text("new 2 Db", "move 2 off on", "new 0 Web", "bind sql 0 2 after 2", "move 0 off run")
# What a process may be ended before.
CALLS = ("rename", "replace", "mkdir", "rmdir", "unlink", "fsync", "open")


def actions(text):
    return plans.plan_of(text, "a plan").actions


def no_helpers(made, ports):
    raise rebase.NoList(f"nothing makes {ports}")


class RebaseTest(unittest.TestCase):
    def test_what_is_gone_is_left_out(self):
        done = actions(HISTORY)
        found = rebase.rebased((DB, WEB), after(done, (DB, WEB)), rebase.paths_in(done, {"Db": DB, "Web": WEB}), Means(no_helpers, 3))
        self.assertEqual(list(map(line_of, found.actions)), list(map(line_of, actions(SHORT))))

    def test_a_helper_is_made_and_deleted_where_the_way_needs_one(self):
        tool = ComponentType("Tool", (State("off", next=("on",)), State("on", ("k",))))
        app = ComponentType("App", (State("new", next=("set",)), State("set", (), {"k": 1}, ("run",)), State("run", ("http",))))
        lines = ("new 0 App", "new 1 Tool", "move 1 off on", "bind k 0 1", "move 0 new set", "move 0 set run", "unbind k 0 1", "delete 1")
        done = actions(plan_text(*lines))
        made = actions(plan_text("new 0 App", "new 5 Tool", "move 5 off on"))[1:]
        found = rebase.rebased(
            (tool, app), after(done, (tool, app)), rebase.paths_in(done, {"App": app, "Tool": tool}), Means(lambda _, ports: made, 9)
        )
        texts = list(map(line_of, found.actions))
        self.assertEqual(texts[:3] + texts[-1:], ["new 9 Tool", "move 9 off on", "new 0 App", "delete 9"])
        self.assertEqual(found.helpers, (9,))


class FormsTest(unittest.TestCase):
    def fates(self, *types):
        there = after(actions(SHORT), (DB, WEB))
        return {it.who: (it.fate, it.more, it.less) for it in forms.changes_in(there, types)}

    def test_what_a_description_means(self):
        more = ComponentType("Web", (State("off", next=("run",)), State("run", ("http",), {"sql": 1, "cache": 1})))
        free = ComponentType("Web", (State("off", next=("run",)), State("run", ("http",))))
        dumb = ComponentType("Db", (State("off", next=("on",)), State("on", ("rows",))))
        self.assertEqual(self.fates(DB, WEB)["Web#0"], ("same", {}, ()))
        self.assertEqual(self.fates(DB, more)["Web#0"], ("changed", {"cache": 1}, ()))
        self.assertEqual(self.fates(DB, free)["Web#0"], ("changed", {}, ("sql",)))
        self.assertEqual(self.fates(dumb, WEB)["Db#2"][0], "replaced")
        self.assertEqual(self.fates(WEB)["Db#2"][0], "replaced")


DISK = ComponentType("Disk", (State("off", next=("on",)), State("on", ("room",))))
HALF = ("new 0 Db", "move 0 off set", "new 1 Web")
REST = ("move 0 set on", "bind sql 1 0 after 3", "move 1 off run")


def database(**required):
    """A database in two steps, which require something."""
    own = [{port: 1 for port in required.get(name, ())} for name in ("set", "on")]
    return ComponentType("Db", (State("off", next=("set",)), State("set", (), own[0], ("on",)), State("on", ("sql",), own[1])))


class HalfwayTest(unittest.TestCase):
    """A database was being set up, and a server of it waited, when the plan stopped."""

    def setUp(self):
        self.steps = steps_of(plans.plan_of(plan_text(HALF[0], HALF[1], REST[0], HALF[2], "bind sql 1 0 after 3", REST[2]), "a plan"), "a plan")
        self.marks = {step.key: None for step in self.steps if step.line in HALF}
        self.done = [step.action for step in self.steps if step.key in self.marks]
        self.rest = [step.action for step in self.steps if step.key not in self.marks]

    def halves(self, *types, begun=(), helpers=()):
        ends = halfway.ends_in(self.steps, self.marks, begun, {}, {"Db": "off", "Web": "off"})
        there = after(self.done, (database(), WEB))
        stopped = Stopped(there, self.done, ends, {0: "Db", 1: "Web"}, helpers)
        return halfway.halves_in(stopped, (database(), WEB), types, {})

    def gone_on(self, *types, base=HALF, helpers=no_helpers):
        going = self.halves(*types).going
        found = halfway.gone_on(types, actions(plan_text(*base)), going, self.rest, Means(helpers, 9))
        return list(map(line_of, found.actions)), found.left

    def test_the_end_is_the_state_that_the_plan_was_to_bring_it_to(self):
        self.assertEqual(self.halves(database(), WEB).going, {0: Half(0, "Db", "set", "set", "on"), 1: Half(1, "Web", "off", "off", "run")})
        del self.marks["1.1"], self.done[-1]
        self.assertEqual(list(self.halves(database(), WEB).going), [0])
        self.assertEqual(self.halves(database(), WEB, begun={"1.1"}).going[1], Half(1, "Web", None, "off", "run"))

    def test_it_goes_back_where_its_state_has_changed(self):
        self.assertEqual(self.halves(database(set=("room",)), WEB).going[0].point, "off")
        gone = ComponentType("Db", (State("off", next=("on",)), State("on", ("sql",))))
        self.assertTrue(self.halves(gone, WEB).going[0].is_back)

    def test_an_end_that_is_gone_is_said_with_what_looks_like_it(self):
        named = ComponentType("Db", (State("off", next=("set",)), State("set", next=("up",)), State("up", ("sql",))))
        self.assertIn("--renamed Db:on=up", self.halves(named, WEB).left[0])
        self.assertEqual(self.halves(WEB).left[0], "the description has no Db any more")

    def test_what_it_lacks_is_made_and_the_rest_of_the_plan_is_followed(self):
        made = actions(plan_text(*HALF, "new 5 Disk", "move 5 off on"))[3:]
        lines, left = self.gone_on(database(on=("room",)), WEB, DISK, helpers=lambda _, ports: made)
        self.assertEqual(lines, ["new 9 Disk", "move 9 off on", "bind room 0 9", *(line.partition(" after")[0] for line in REST)])
        self.assertEqual(left, {})

    def test_another_one_that_is_half_made_goes_on_before(self):
        self.rest = self.rest[1:] + self.rest[:1]
        self.assertEqual(self.gone_on(database(), WEB)[0], [line.partition(" after")[0] for line in REST])

    def test_what_finds_no_way_is_left_and_the_others_go_on(self):
        lines, left = self.gone_on(database(), ComponentType("Web", (WEB.states[0], State("run", ("http",), {"sql": 1, "room": 1}))))
        self.assertEqual((lines, list(left)), (["move 0 set on"], [1]))

    def test_a_binding_that_waits_is_let_go_where_its_provider_has_another_port(self):
        there = after(actions(plan_text(*HALF, "move 0 set on", "bind sql 1 0 after 4")), (database(), WEB))
        loose = halfway.loose_in(there, {1}, {1: "off"}, forms.by_name((database(), WEB)))
        self.assertEqual(loose, {("sql", 1, 0)})
        rows = ComponentType("Db", (*database().states[:2], State("on", ("rows",))))
        there.bindings -= loose
        for kind, cut in ((database(), set()), (rows, {("sql", 1, 0)})):
            self.assertEqual(halfway.cut_in(loose, forms.changes_in(there, (kind, WEB)), (kind, WEB)), cut)

    def test_what_lacks_something_comes_behind_who_has_it(self):
        there = after(actions(plan_text("new 0 Web", "new 1 Db", "move 1 off on")), (DB, WEB))
        there.instances[0].state = "run"
        paths = {0: ("off", "run"), 1: ("off", "on")}
        found = rebase.rebased((DB, WEB), there, paths, Means(no_helpers, 2, is_completing=True))
        self.assertEqual(list(map(line_of, found.actions))[2:4], ["new 0 Web", "bind sql 0 1"])

    def test_the_log_of_what_was_begun_goes_with_it(self):
        top = pathlib.Path(tempfile.mkdtemp())
        self.addCleanup(shutil.rmtree, top)
        folder = Folder(str(top))
        folder.make()
        folder.write_plan(plan_text(*HALF, REST[0], "bind sql 1 0 after 4", REST[2]), ())
        (top / "universe.json").write_text('{"aeolus":1,"types":[{"name":"Db","initial":"off","states":[{"name":"off"}]}]}\n')
        for step in folder.steps():
            if step.action.number <= 4:
                (top / "log" / step.key).write_text(f"{step.line}\n")
            if step.action.number < 4:
                (top / "done" / step.key).write_text(f"{step.line}\n1.0 2.0\non : :\n")
        way = Way("{}", plans.plan_of(plan_text(*HALF), "a plan"), 3, logs={0: {"move 0 set on": "0.3"}}, ends={0: "on"})
        with folder.held():
            going_over.go_over(folder, stands_in(folder), way)
        self.assertEqual((folder.ends(), (top / "log" / "began.0.0").read_text()), ({0: "on"}, "move 0 set on\n"))
        (top / "universe.json").write_text('{"aeolus":1,"types":[{"name":"Db","initial":"off","states":[{"name":"off"}]}]}\n')
        stands = stands_in(folder)
        self.assertEqual((stands.began, stands.ends), ({0: {"move 0 set on": "began.0.0"}}, {0: "on"}))
        way = Way("{}", plans.plan_of(plan_text(*HALF, "move 0 set up"), "a plan"), 3, logs=stands.began)
        with folder.held():
            going_over.go_over(folder, stands, way)
        self.assertEqual((folder.ends(), (top / "log" / "0.3").read_text()), ({}, "move 0 set on\n"))


class TurnoverTest(unittest.TestCase):
    def made(self, path):
        folder = Folder(str(path))
        folder.make()
        folder.write_plan(HISTORY, ())
        for step in folder.steps():
            (path / "done" / step.key).write_text(f"{step.line}\n1.0 2.0\non : :\n")
            (path / "log" / step.key).write_text(f"{step.line}\n")
        return folder

    def go_over(self, path):
        folder = Folder(str(path))
        with folder.held():
            if folder.text() != SHORT:
                steps = steps_of(plans.plan_of(SHORT, "a plan"), "a plan")
                turnover.turn_to(folder, SHORT, (), turnover.origins(folder.steps(), folder.marks(), steps, len(steps)))

    def ended(self, path, number):
        """Whether a process that goes over was ended before this call to the system."""
        child = os.fork()
        if child == 0:
            left = [number]

            def counted(call):
                def counting(*words, **more):
                    left[0] -= 1
                    if left[0] < 0:
                        os._exit(9)
                    return call(*words, **more)

                return counting

            for name in CALLS:
                setattr(os, name, counted(getattr(os, name)))
            builtins.open = counted(builtins.open)
            self.go_over(path)
            os._exit(0)
        return os.waitstatus_to_exitcode(os.waitpid(child, 0)[1]) == 9

    def test_at_no_moment_a_mark_is_lost_or_doubled(self):
        top = pathlib.Path(tempfile.mkdtemp())
        self.addCleanup(shutil.rmtree, top)
        number, texts = 0, set()
        while True:
            path = top / str(number)
            self.made(path)
            is_ended = self.ended(path, number)
            folder = Folder(str(path))
            texts.add(folder.text())
            self.assertEqual(len(folder.done(folder.steps())), len(folder.steps()))
            logs = {each.read_text() for each in path.rglob("log/*")}
            self.assertEqual(len(logs), len(LINES) + 3)
            if not is_ended:
                break
            number += 1
        self.assertEqual(texts, {HISTORY, SHORT})
