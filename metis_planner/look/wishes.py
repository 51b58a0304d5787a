"""Why a wish cannot be met, or is none: which line of the text says it, what is near, and what to do."""

from collections.abc import Sequence

from metis_planner.answers import Refused
from metis_planner.look.standing import left_by, plan_of, types_at, who
from metis_planner.look.wrong import Call, listed, shown
from metis_planner.program import UNIVERSE
from metis_planner.text import plans, verdicts
from metis_planner.text.actions import Delete
from metis_planner.text.configurations import Configuration
from metis_planner.text.reading import read_text
from metis_planner.text.wishes import MOST_BYTES, Wish, wishes_in

KINDS = ("absent", "kept", "unavoidable", "unmet", "needs")


class Asked:
    """A call of `reconfigure`: its wishes, and what stands after its plan."""

    def __init__(self, call: Call, plan: plans.Plan) -> None:
        self.call, self.plan = call, plan
        self.types = types_at(call.files[UNIVERSE])
        self.standing = left_by(plan, self.types)
        self.wishes = wishes_in(read_text(call.files["WISHES"], MOST_BYTES))

    def at(self, wish: Wish) -> str:
        return f"{shown(self.call.files['WISHES'])}:{wish.line}: {wish.text}"

    def wish_for(self, instance: int, *verbs: str) -> Wish | None:
        return next((wish for wish in self.wishes if wish.instance == instance and wish.verb in verbs), None)

    def why_it_goes(self, instance: int) -> Wish | None:
        """The wish by which an instance goes: one that retires it, or avoids the state in which it is."""
        retired = self.wish_for(instance, "retire")
        there = self.standing.instances.get(instance)
        return retired or (self.avoiding(there.type, there.state) if there else None)

    def avoiding(self, kind: str, state: str | None) -> Wish | None:
        return next((wish for wish in self.wishes if wish.avoids(kind, state)), None)

    def providers(self, port: str) -> list[tuple[str, str]]:
        """The states of the universe that provide a port, each with its type."""
        return [(kind.name, state.name) for kind in self.types for state in kind.states if port in state.provide]


def said(call: Call, found: verdicts.Verdict) -> list[str]:
    """What a 'no' of `reconfigure` means; in the numbers of the plan, if its files cannot be read again."""
    plan = plan_of(call)
    if plan is None:
        return [found.words]
    try:
        asked = Asked(call, plan)
    except Refused:
        return [found.words]
    if found.kind == "absent":
        return of_what_is_absent(asked, int(found.fields["instance"]))
    if found.kind == "kept":
        return of_what_is_kept(asked, int(found.fields["instance"]), int(found.fields["root"]))
    if found.kind == "unavoidable":
        return of_what_is_avoided(asked, str(found.fields["target"]))
    if found.kind == "unmet":
        return of_what_is_unmet(asked, int(found.fields["instance"]), str(found.fields["port"]))
    count = found.fields["count"]
    return [f"{count} targets are missing, and at most 256 are planned for at a time: ask for fewer, and then for the rest"]


def of_what_is_absent(asked: Asked, instance: int) -> list[str]:
    wish = asked.wish_for(instance, "keep", "rebind", "retire")
    where = f"{asked.at(wish)}: " if wish else ""
    path = shown(asked.call.files["PLAN"])
    gone = next((each for each in asked.plan.actions if isinstance(each, Delete) and each.instance == instance), None)
    why = f"step {gone.number} of {path} deletes {gone.type}#{instance}" if gone else f"{path} makes no instance {instance}"
    names = [who(each, asked.standing) for each in sorted(asked.standing.instances)]
    return [f"{where}{why}", f"what stands after it: {listed(names)}" if names else "nothing stands after it"]


def of_what_is_kept(asked: Asked, instance: int, root: int) -> list[str]:
    """A wish for something that stands on what goes, with the one that could let it stay."""
    wish = asked.wish_for(instance, "keep", "rebind")
    where = f"{asked.at(wish)}: " if wish else ""
    going = asked.why_it_goes(root)
    by = f", which goes by line {going.line}, {going.text}" if going else ", which goes"
    name, other = who(instance, asked.standing), who(root, asked.standing)
    if instance == root:
        line = f" {going.line}, {going.text}" if going else " another"
        return [f"{where}{name} is to stay, and goes by line{line}", "take one of the two lines out"]
    last = user_on_the_way(asked, instance, root)
    advice = f"rebind {last} in place of keep {last}" if asked.wish_for(last, "keep") else f"rebind {last}"
    return [
        f"{where}{name} stands on {other}{by}",
        f"to let {who(last, asked.standing)} be bound to another one in its place, say: {advice}",
    ]


def user_on_the_way(asked: Asked, instance: int, root: int) -> int:
    """The instance that is bound to the root and on which the other one stands, maybe over more; or that one itself."""
    users: dict[int, int] = {root: root}
    queue = [root]
    for provider in queue:
        for user in direct_users(asked.standing, provider):
            if user not in users:
                users[user] = user if provider == root else users[provider]
                queue.append(user)
    return users.get(instance, instance)


def direct_users(standing: Configuration, provider: int) -> list[int]:
    """Who stands on an instance: who is bound to it at a port that it requires."""
    return sorted({own for port, own, to in standing.bindings if to == provider and standing.required(own, port)})


def of_what_is_avoided(asked: Asked, target: str) -> list[str]:
    kind, _, state = target.partition(":")
    own = asked.avoiding(kind, state)
    if own:
        return [f"{asked.at(own)}: {target} is a target, and nothing that stays serves it", "take the line or the target out"]
    avoiding = [wish for wish in asked.wishes if wish.verb == "avoid"]
    which = listed(wish.text for wish in avoiding)
    where = f"{shown(asked.call.files['WISHES'])}:{avoiding[0].line}: " if avoiding else ""
    return [
        f"{where}{target} cannot be attained without what is avoided ({which}), and nothing that stays serves it",
        f"metis plan {shown(asked.call.files[UNIVERSE])} {target} shows what it is made of",
    ]


def of_what_is_unmet(asked: Asked, instance: int, port: str) -> list[str]:
    wish = asked.wish_for(instance, "rebind")
    where = f"{asked.at(wish)}: " if wish else ""
    name = who(instance, asked.standing)
    goes = [to for each, own, to in sorted(asked.standing.bindings) if (each, own) == (port, instance) and asked.why_it_goes(to)]
    from_whom = f", since {listed(who(to, asked.standing) for to in goes)} goes" if goes else ""
    providers = why_not(asked, asked.providers(port))
    return [f"{where}{name} has to take {port} from another{from_whom}, and none can be had", providers]


def why_not(asked: Asked, providers: Sequence[tuple[str, str]]) -> str:
    """What is to be said of the states that could provide a port: which wish avoids them."""
    avoided = [(f"{kind}:{state}", wish) for kind, state in providers if (wish := asked.avoiding(kind, state))]
    if not avoided:
        return f"{listed(f'{kind}:{state}' for kind, state in providers) or 'nothing'} provides it, and cannot be attained"
    lines = ", ".join(str(number) for number in sorted({wish.line for _, wish in avoided}))
    return f"{listed(pair for pair, _ in avoided)} would provide it, which line {lines} avoids"
