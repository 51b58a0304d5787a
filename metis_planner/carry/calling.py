"""A call of `up` over a folder: what was asked for, and how the folder is written and carried out for it."""

import dataclasses
import pathlib
from collections.abc import Collection, Iterable, Mapping, Sequence

from metis_planner.answers import Refused
from metis_planner.carry import going_over
from metis_planner.carry.ahead import UNIVERSE, answered
from metis_planner.carry.commands import Commands, Rule
from metis_planner.carry.compose import COMMANDS
from metis_planner.carry.course import Aim
from metis_planner.carry.exporting import carried_out, checked_rules, exported, possible_in
from metis_planner.carry.folder import Folder, written
from metis_planner.carry.judging import Judge
from metis_planner.carry.rebase import NoList
from metis_planner.carry.request import Request, is_begun, keep_request
from metis_planner.carry.seating import Hosts, hosts_of, placement_text
from metis_planner.carry.stands import Stands, first_free, stands_in, types_of
from metis_planner.carry.steps import Step, steps_of
from metis_planner.carry.ways import Way
from metis_planner.carry.writing import write_whole
from metis_planner.text import plans
from metis_planner.text.actions import Action, New
from metis_planner.text.reading import read_text
from metis_planner.text.terminal import say

MOST_OF_HOSTS = 65_536


def made_in(steps: Iterable[Step]) -> set[int]:
    """The instances that some steps make."""
    return {step.action.instance for step in steps if isinstance(step.action, New)}


@dataclasses.dataclass
class Call:
    """What was asked for, over which folder, with the description and the commands as they are now."""

    request: Request
    folder: Folder
    judge: Judge
    universe: str
    commands: Commands
    sum: str = ""  # of what was shown of it
    lost: dict[int, str] = dataclasses.field(default_factory=dict)  # what stands by its marks and not by its checks, and why
    hosts: dict[int, str] = dataclasses.field(default_factory=dict)  # of what stands, or was begun

    @property
    def aim(self) -> Aim:
        return Aim(self.universe, self.request.targets, self.request.wishes_said(), self.request.renamed)

    def is_begun(self, part: str = "") -> bool:
        return is_begun(self.request, self.folder, self.universe, part)

    def rules(self, steps: Sequence[Step], done: Mapping[str, object]) -> list[tuple[Step, Rule | None]]:
        """The rule of each step, by the commands as they are now; refused before anybody is asked."""
        possible = possible_in(self.folder, self.universe, steps)
        return list(checked_rules(self.request, self.commands, possible, steps, done))

    def losing(self, going: Sequence[str]) -> tuple[str, ...]:
        """Of the instances that go, those whose deletion may lose data."""
        place = {each: self.commands.patterns.first(f"{each.rpartition('#')[0]}: delete") for each in going}
        return tuple(each for each, found in place.items() if found is None or self.commands.rules[found].loses_data)

    def placement(self, actions: Sequence[Action], universe: str, made: Collection[int]) -> str | None:
        """The placement of a list of which these instances were made; nothing if there are no hosts.

        What counts as made and stands on no host is only on the way to a list of what stands, and never will be anywhere.
        """
        if not self.request.hosts:
            return None
        path, plan = self.judge.path(universe), self.judge.path(written(plans.Plan(tuple(actions), ())))
        names = {path: self.request.universe, plan: "the plan"}
        if not self.hosts:
            return answered(["place"], [path, plan, self.request.hosts], names)
        # The program says what is wrong with the hosts, by a plan that does nothing.
        answered(["place"], [path, self.judge.path(written(plans.Plan((), ()))), self.request.hosts], names)
        hosts = Hosts.of(read_text(self.request.hosts, MOST_OF_HOSTS))
        return placement_text(hosts, actions, self.hosts, set(made) - set(self.hosts))

    def export(self, actions: Sequence[Action], text: str, universe: str, part: str = "") -> None:
        """Writes a list into the folder, and notes for what it is."""
        marks = self.folder.marks() if self.folder.has_plan() else {}
        steps = steps_of(plans.plan_of(text, "the plan"), "the plan")
        placement = self.placement(actions, universe, made_in(step for step in steps if step.key in marks))
        plan, path = (pathlib.Path(self.judge.path(each)) for each in (text, universe))
        place = pathlib.Path(self.judge.path(placement)) if placement else None
        project = self.request.project
        request = dataclasses.replace(self.request, commands=self.judge.path(project.commands)) if project else self.request
        exported(request, plan, path, place, lambda: self.note(universe, part))

    def note(self, universe: str, part: str = "") -> None:
        """Notes in the folder over which universe its list is, and for what it was made. The folder's lock is held."""
        write_whole(self.folder.path / UNIVERSE, universe)
        if self.request.project:
            write_whole(self.folder.path / COMMANDS, self.request.project.commands)
        keep_request(self.request, self.folder, self.universe, part, self.sum)

    def kept_universe(self) -> str:
        """The universe over which the folder's list is."""
        return (self.folder.path / UNIVERSE).read_text(errors="surrogateescape")

    def turn_to(self, stands: Stands, way: Way, names: Mapping[str, str], part: str = "") -> None:
        """The folder goes over to a list, and is written for it."""
        self.hosts |= hosts_of(self.folder)
        with self.folder.held():
            if stands_in(self.folder) != stands:
                raise Refused(f"{self.request.to}: something was done in it while this was planned; call it again")
            going_over.go_over(self.folder, stands, way, names)
        self.export(way.plan.actions, written(way.plan), way.universe, part)

    def carry_out(self, part: str = "") -> int:
        """The status of the engine. What it has done is another list where somebody else went over to one meanwhile."""
        status = carried_out(self.request, self.folder)
        if not self.is_begun(part):
            raise Refused(f"{self.request.to}: somebody else has planned something else in it meanwhile; call it again")
        return status

    def finish(self) -> int:
        """Carries the rest out, and makes the folder's list one of what stands."""
        status = self.carry_out()
        if status == 0:
            self.settle()
        return 1 if status else 0

    def settle(self) -> None:
        """All is done: the folder's list becomes one of what stands, over the description alone, without what is gone."""
        project = self.request.project
        if project and not project.is_whole:
            self.universe = project.again().document
        stands = stands_in(self.folder)
        kept = self.kept_universe()
        if stands is None or self.universe == kept and not going_over.has_gone(stands):
            return
        reasons = []
        for universe in dict.fromkeys((self.universe, kept)):
            try:
                over = stands._replace(types=types_of(universe))
                way = going_over.compacted(over, universe, self.judge, first_free(self.folder))
            except NoList as why:
                reasons.append(str(why))
                continue
            self.turn_to(stands, way, {})
            return
        say(f"the plan in {self.request.to} keeps what is gone, since no other list was found: {reasons[-1]}")
