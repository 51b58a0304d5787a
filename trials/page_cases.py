"""The pages that are tried: plans of the examples and some odd ones, each with what Python and the program say of it."""

import dataclasses
import json
import pathlib
import subprocess
import sys

from metis_planner import program
from metis_planner.carry.placement import held, read_placement
from metis_planner.carry.steps import steps_of
from metis_planner.page.changes import change_in
from metis_planner.text.actions import line_of
from metis_planner.text.plans import plan_at
from trials.trial import TOP, expect

EXAMPLES = TOP / "examples"
# Two that ask for several of a port, and names that stand in every script's objects.
REPLICAS = """{"aeolus":2,"types":[
  {"name":"Web","initial":"off","states":[{"name":"off","next":["run"]},{"name":"run","provide":["http","https"]}]},
  {"name":"Probe","initial":"off","states":[{"name":"off","next":["up"]},
    {"name":"up","require":[{"port":"http","count":2},"https"],"next":["idle"]},{"name":"idle"}]}]}
"""
ODD = """{"aeolus":1,"types":[
  {"name":"__proto__","initial":"2","states":[{"name":"1","provide":["constructor"]},{"name":"2","next":["1"]}]},
  {"name":"constructor","initial":"valueOf","states":[{"name":"valueOf","next":["toString"]},
    {"name":"toString","require":["constructor"]}]}]}
"""
# A change that keeps the database and the balancer, which is bound to the new version before it lets the old one go.
CHANGED = """{"aeolus":1,"types":[
  {"name":"Db","initial":"off","states":[{"name":"off","next":["on"]},{"name":"on","provide":["sql"]}]},
  {"name":"Web1","initial":"off","states":[{"name":"off","next":["run"]},
    {"name":"run","provide":["http"],"require":["sql"]}]},
  {"name":"Web2","initial":"off","states":[{"name":"off","next":["run"]},
    {"name":"run","provide":["http"],"require":["sql"]}]},
  {"name":"Lb","initial":"off","states":[{"name":"off","next":["up"]},{"name":"up","require":["http"]}]}]}
"""
BEFORE = (
    "new 0 Lb",
    "new 1 Web1",
    "new 2 Db",
    "move 2 off on",
    "bind sql 1 2",
    "move 1 off run",
    "bind http 0 1",
    "move 0 off up",
)
CHANGE = ("new 3 Web2", "bind sql 3 2", "move 3 off run", "bind http 0 3", "unbind http 0 1", "delete 1")
# The wishes by which the program plans it.
WISHES = "metis wishes 1\navoid Web1\nrebind 0\nend\n"
WAITS = {5: "4", 7: "6", 10: "4", 12: "11", 14: "13"}
# Room for five where six are made, so that the second double has to wait until the first one is deleted.
HOSTS = "metis hosts 1\nhost left 3\nhost right 2\nend\n"


@dataclasses.dataclass(frozen=True)
class Case:
    """A universe with the targets of a plan, and those of a rollout, if there is one."""

    name: str
    universe: str
    targets: tuple[str, ...]
    later: tuple[str, ...] | None = None
    hosts: str = ""


CASES = (
    Case("web", "web.json", ("Web:run",)),
    Case("service", "service.json", ("Svc:c",)),
    Case("server", "server.json", ("server:running", "server:configured")),
    Case("crossed, one doubled", "crossed.json", ("A:a3", "B:b3")),
    Case("replicas", REPLICAS, ("Probe:idle",)),
    Case("odd names", ODD, ("constructor:toString",)),
    Case("blog", "blog.json", ("haproxy:run",)),
    Case("blog rolled out", "blog.json", ("haproxy:run",), ("haproxy:run", "wordpress:run")),
    Case("blog taken down", "blog.json", ("haproxy:run",), ()),
    Case("balanced, three of a kind", "balanced.json", ("Balancer:up",)),
    Case("lvm2", "lvm2.json", ("port:lvm2",)),
    Case("shop", "shop/shop.json", ("project:up",)),
    Case("wordpress", "wordpress.json", ("port:wordpress",)),
)


def placed_case() -> Case:
    universe, targets = doubles_universe(2)
    return Case("two doubles on two hosts", universe, targets, hosts=HOSTS)


def metis(*words: object, text: str | None = None) -> str:
    """What the program prints."""
    return program.ask(list(map(str, words)), text).text


def said(*words: object) -> tuple[int, str, str]:
    """The status, standard output and standard error of `metis page ..`."""
    done = subprocess.run(
        [sys.executable, "-m", "metis_planner", "page", *map(str, words)],
        cwd=TOP,
        capture_output=True,
        text=True,
        check=False,
    )
    return done.returncode, done.stdout, done.stderr


def plan_text(lines: tuple[str, ...], after: dict[int, str]) -> str:
    made = sum(line.startswith("new ") for line in lines)
    rows = [f"{n} {line}{f' after {after[n]}' if n in after else ''}\n" for n, line in enumerate(lines, 1)]
    return f"metis plan 1\ninstances {made} actions {len(lines)} dups 0\n{''.join(rows)}end\n"


def doubles_universe(count: int) -> tuple[str, tuple[str, ...]]:
    """A universe in which so many pairs need a double each, as those of `metis load`."""
    types: list[dict[str, object]] = []
    for n in range(count):
        before = {"require": [f"z{n - 1:03}"]} if n else {}
        left = [
            {"name": "a0", "next": ["a1"]},
            {"name": "a1", "provide": [f"x{n:03}"], **before, "next": ["a2"]},
            {"name": "a2", "require": [f"y{n:03}"], "next": ["a3"]},
            {"name": "a3"},
        ]
        right = [
            {"name": "b0", "next": ["b1"]},
            {"name": "b1", "provide": [f"y{n:03}"], "next": ["b2"]},
            {"name": "b2", "require": [f"x{n:03}"], "next": ["b3"]},
            {"name": "b3", "provide": [f"z{n:03}"]},
        ]
        types += [
            {"name": f"left{n:03}", "initial": "a0", "states": left},
            {"name": f"right{n:03}", "initial": "b0", "states": right},
        ]
    targets = [f"{side}{n:03}:{state}" for n in range(count) for side, state in (("left", "a3"), ("right", "b3"))]
    return json.dumps({"aeolus": 1, "types": types}), tuple(targets)


class Tried:
    """A case with its texts in files, its page, and what Python says that each of its actions waits for."""

    def __init__(self, case: Case, top: pathlib.Path, *more: object) -> None:
        slug = case.name.replace(" ", "-").replace(",", "")
        self.case, self.top = case, top
        self.universe = EXAMPLES / case.universe
        if case.universe.startswith("{"):
            self.universe = top / f"{slug}.json"
            self.universe.write_text(case.universe)
        text, words = metis("plan", self.universe, *case.targets), list(more)
        old = 0
        if case.later is not None:
            path = top / f"{slug}.old.txt"
            path.write_text(text)
            old = len(plan_at(str(path)).actions)
            text = metis("rollout", self.universe, path, *case.later)
            words += ["--from", path]
        self.write(slug, text, words, old)

    def write(self, slug: str, text: str, words: list[object], old: int) -> None:
        self.path = self.top / f"{slug}.txt"
        self.path.write_text(text)
        self.plan = plan_at(str(self.path))
        steps = steps_of(self.plan, str(self.path))
        if self.case.hosts:
            hosts = self.top / f"{slug}.hosts"
            hosts.write_text(self.case.hosts)
            placed = self.top / f"{slug}.placed"
            placed.write_text(metis("place", self.universe, self.path, hosts))
            expect("hold " in placed.read_text(), "nothing waits for room")
            steps = held(read_placement(str(placed), self.plan), steps)
            words += ["--placement", placed]
        self.size = len(steps)
        self.waits = [{number - 1 for number in step.waits} for step in steps]
        self.start = old
        if old:
            found = change_in(steps, old)
            for k in range(found.fresh, found.end):
                self.waits[k] |= set(range(found.old, found.fresh))
        status, page, notes = said(self.path, "--universe", self.universe, *words)
        expect(status == 0 and not notes, f"{self.case.name}: {notes}")
        self.page = self.top / f"{slug}.html"
        self.page.write_text(page)

    def moments(self) -> list[list[int]]:
        """Every set of actions that some order has done, each in the order of the text."""
        found: set[frozenset[int]] = {frozenset()}
        level = list(found)
        while level:
            following = {
                moment | {k} for moment in level for k in range(self.size) if k not in moment and self.waits[k] <= moment
            }
            level = list(following - found)
            found |= following
        return sorted(sorted(moment) for moment in found)

    def shown(self, order: list[int]) -> list[tuple[set[tuple[str, ...]], set[tuple[str, ...]]]]:
        """What `metis sim` shows after each of these actions: the instances and the bindings."""
        actions = [line_of(self.plan.actions[k]) for k in order]
        script = "".join(f"{line}\nshow\n" for line in actions)
        lines = metis("sim", self.universe, "-", text=script).splitlines()
        found, at = [], 0
        for action in actions:
            expect(lines[at] == "ok", f"{action}: {lines[at]}")
            words = lines[at + 1].split()
            count = int(words[1]) + int(words[3])
            rows = {tuple(line.split()) for line in lines[at + 2 : at + 2 + count]}
            found.append(({row for row in rows if len(row) == 2}, {row for row in rows if len(row) == 3}))
            at += 2 + count
        return found


class Changed(Tried):
    """A change of what stands that keeps some of it, written by hand, replayed by the program, and with wishes."""

    def __init__(self, top: pathlib.Path) -> None:
        self.case, self.top, self.universe = Case("changed", CHANGED, ()), top, top / "changed.json"
        self.universe.write_text(CHANGED)
        before = top / "changed.old.txt"
        before.write_text(plan_text(BEFORE, WAITS))
        text = plan_text((*BEFORE, *CHANGE), WAITS)
        expect(metis("replay", self.universe, "-", text=text).startswith("good"), "the change is no run")
        wishes = top / "changed.wishes"
        wishes.write_text(WISHES)
        self.write("changed", text, ["--from", before, "--wishes", wishes], len(BEFORE))
