"""What stands before an action of a call's plan, with the names of its instances, for words about what the program said."""

from metis_planner.answers import Refused
from metis_planner.look.wrong import Call, rows_at
from metis_planner.text import configurations, plans
from metis_planner.text.configurations import Configuration
from metis_planner.text.documents import ComponentType
from metis_planner.text.reading import read_text
from metis_planner.text.universes import types_of

MOST_BYTES = 268_435_456


def types_at(path: str) -> tuple[ComponentType, ...]:
    rows = rows_at(path)
    return types_of(rows) if rows else ()


def plan_of(call: Call) -> plans.Plan | None:
    """The plan of a call, as it was handed in."""
    try:
        found = plans.read(read_text(call.files["PLAN"], MOST_BYTES))
    except (plans.NoText, Refused, KeyError):
        return None
    return found if isinstance(found, plans.Plan) else None


def left_by(plan: plans.Plan, types: tuple[ComponentType, ...]) -> Configuration:
    """What the plan leaves."""
    return configurations.after(plan.actions, types)


def who(instance: int, before: Configuration) -> str:
    standing = before.instances.get(instance)
    return f"{standing.type}#{instance}" if standing else f"instance {instance}"
