"""The actions of a plan: a type for each of the five that there are, so that a checker of types knows what each has.

Who treats the kinds in different ways says so by `match`, with `assert_never` behind the last of them: an action that is left out,
and a verb that is misspelt, are found by mypy.
"""

import dataclasses
from collections.abc import Mapping
from typing import ClassVar, Literal, assert_never

# The word by which a plan writes an action of each type, in the order in which the program takes their times.
Verb = Literal["new", "delete", "bind", "unbind", "move"]
VERBS: tuple[Verb, ...] = ("new", "delete", "bind", "unbind", "move")


@dataclasses.dataclass(frozen=True, slots=True)
class Numbered:
    """What each action has: its instance with the type of that, and its place in a plan."""

    instance: int  # whose action it is; of a binding the one that requires
    type: str
    number: int = dataclasses.field(default=0, kw_only=True)
    after: tuple[int, ...] = dataclasses.field(default=(), kw_only=True)  # those of other instances that it waits for


@dataclasses.dataclass(frozen=True, slots=True)
class New(Numbered):
    """Makes an instance."""

    verb: ClassVar[Literal["new"]] = "new"


@dataclasses.dataclass(frozen=True, slots=True)
class Delete(Numbered):
    """Deletes an instance."""

    verb: ClassVar[Literal["delete"]] = "delete"


@dataclasses.dataclass(frozen=True, slots=True)
class Bind(Numbered):
    """Binds an instance to one that provides a port."""

    verb: ClassVar[Literal["bind"]] = "bind"
    port: str
    provider: int
    provider_type: str


@dataclasses.dataclass(frozen=True, slots=True)
class Unbind(Numbered):
    """Lets a binding go."""

    verb: ClassVar[Literal["unbind"]] = "unbind"
    port: str
    provider: int
    provider_type: str


@dataclasses.dataclass(frozen=True, slots=True)
class Move(Numbered):
    """Brings an instance from one state to the next."""

    verb: ClassVar[Literal["move"]] = "move"
    start: str
    end: str


Action = New | Delete | Bind | Unbind | Move


def line_of(action: Action) -> str:
    """An action as a plan writes it, without its number and without what it waits for."""
    match action:
        case New():
            return f"new {action.instance} {action.type}"
        case Delete():
            return f"delete {action.instance}"
        case Bind() | Unbind():
            return f"{action.verb} {action.port} {action.instance} {action.provider}"
        case Move():
            return f"move {action.instance} {action.start} {action.end}"
        case _:
            assert_never(action)


def in_words(action: Action) -> str:
    """An action in words, as `Web#0 takes sql from Db#1`."""
    who = f"{action.type}#{action.instance}"
    match action:
        case New():
            return f"make {who}"
        case Delete():
            return f"delete {who}"
        case Move():
            return f"{who}: {action.start} -> {action.end}"
        case Bind():
            return f"{who} takes {action.port} from {action.provider_type}#{action.provider}"
        case Unbind():
            return f"{who} lets {action.port} of {action.provider_type}#{action.provider} go"
        case _:
            assert_never(action)


def with_numbers(action: Action, number_of: Mapping[int, int]) -> Action:
    """An action by other numbers of its instances."""
    own = number_of.get(action.instance, action.instance)
    match action:
        case New() | Delete() | Move():
            return dataclasses.replace(action, instance=own)
        case Bind() | Unbind():
            return dataclasses.replace(action, instance=own, provider=number_of.get(action.provider, action.provider))
        case _:
            assert_never(action)
