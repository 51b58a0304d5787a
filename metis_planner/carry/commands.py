"""The commands file: what each step of a plan means on a real system. docs/EXPORTERS.md has its form."""

import dataclasses
import difflib
import hashlib
import os.path
import re
import shutil
import subprocess
import tomllib
from collections.abc import Iterable
from typing import Any, TypeVar

from metis_planner.answers import Refused
from metis_planner.carry import ansible
from metis_planner.carry.patterns import Patterns
from metis_planner.carry.possible import PossibleActions
from metis_planner.text import plans
from metis_planner.text.reading import read_text

MOST_BYTES = 4_194_304
MOST_SECONDS = 1_000_000
# A step that hangs ends some time, if nobody says otherwise.
DEFAULT_SECONDS = 3_600
MOST_RETRIES = 1_000
VARIABLE = re.compile(r"[A-Za-z_][A-Za-z0-9_]{0,63}")
OWN_VARIABLES = "METIS_"
INSTANCE = re.compile(rf"({plans.NAME.pattern})#({plans.NUMBER.pattern})")
ADDRESS = re.compile(r"[A-Za-z0-9_.:@/\[\]-]{1,255}")
SHELLS = {"sh", "dash", "bash", "ksh", "zsh"}
KEYS = {"shell", "timeout", "env", "hosts", "instance", "step", "inventory"}
STEP_KEYS = {"when", "run", "check", "playbook", "timeout", "retries", "pause", "lock", "keeps"}
HOST_KEYS = {"address", "via"}
KINDS = {str: "text", int: "whole number", list: "list", dict: "table"}
LONGEST_SLUG = 60
LENGTH_OF_A_SUM = 12


@dataclasses.dataclass(frozen=True)
class Rule:
    """What is to be done for the actions that a pattern fits."""

    number: int
    when: str
    run: str
    check: str  # a command that says whether what the step brought about still stands
    playbook: str  # of Ansible, in place of `run`; it is run here, and reaches the host by itself
    timeout: int
    retries: int
    pause: int
    lock: str
    keeps: bool = False  # of a deletion: that no data is lost by it

    @property
    def slug(self) -> str:
        """A name for the file of its script."""
        words = re.sub(r"[^A-Za-z0-9]+", "-", self.when.replace("*", "any")).strip("-")
        return f"{self.number}-{words[:LONGEST_SLUG]}"

    @property
    def script(self) -> str:
        """In braces it is read as a whole before it is run, and it cannot read what stands behind it as its input."""
        body = ansible.script(self.playbook) if self.playbook else self.run.rstrip()
        return f"# {self.when}\n{{\n:\n{body}\n}} </dev/null\n"

    @property
    def check_script(self) -> str:
        return f"# {self.when}: does it stand?\n{{\n:\n{self.check.rstrip()}\n}} </dev/null\n"

    @property
    def sum(self) -> str:
        """What tells the script from another one: it stands in the marks of what it did."""
        return hashlib.sha256((self.run + "\0" + self.playbook).encode()).hexdigest()[:LENGTH_OF_A_SUM]

    @property
    def does_nothing(self) -> bool:
        return not (self.run.strip() or self.check.strip() or self.playbook)

    @property
    def loses_data(self) -> bool:
        """Whether data may be lost by it, where it is for a deletion."""
        return not (self.keeps or self.does_nothing)


@dataclasses.dataclass(frozen=True)
class Host:
    """By which command a shell on a host is reached, and what others call the host."""

    name: str
    address: str
    via: tuple[str, ...]


@dataclasses.dataclass(frozen=True)
class Commands:
    """What a commands file says: the shell, variables, hosts and steps, and where Ansible's inventory is."""

    shell: tuple[str, ...]
    inventory: str
    variables: dict[str, str]
    hosts: dict[str, Host]
    rules: tuple[Rule, ...]
    patterns: Patterns = dataclasses.field(repr=False, compare=False)
    instances: dict[str, dict[str, str]] = dataclasses.field(default_factory=dict)  # variables of single instances

    def check_fits(self, possible: PossibleActions) -> None:
        """Refuses what is for nothing that may happen."""
        self.patterns.check_fits(possible)
        for name in self.instances:
            kind = name.rpartition("#")[0]
            if kind not in possible.moves:
                near = difflib.get_close_matches(kind, possible.moves, 1, 0.6)
                raise Refused(f"instance {name}: there is no type {kind}{f'; did you mean {near[0]}?' if near else ''}")

    def check_hosts(self, hosts: Iterable[str]) -> None:
        for host in hosts:
            if host not in self.hosts:
                raise Refused(f"the placement names the host {host}, of which the commands say nothing")
            if host[0] in "-@" and any(rule.playbook for rule in self.rules):
                raise Refused(f"the host {host}: a step has a playbook, and Ansible takes no host that begins with {host[0]}")


def read_commands(path: str) -> Commands:
    text = read_text(path, MOST_BYTES)
    try:
        return commands_of(tomllib.loads(text))
    except (tomllib.TOMLDecodeError, RecursionError, Refused) as fault:
        raise Refused(f"{path}: {fault}") from fault


def commands_of(table: dict[str, Any]) -> Commands:
    check_keys(table, KEYS, "the file")
    timeout = number_of(table, "timeout", MOST_SECONDS, DEFAULT_SECONDS, "the file")
    shell = words_of(table.get("shell", ["sh", "-eu"]), "shell")
    rows: list[Any] = asked(table, "step", list, [], "the file")
    rules = tuple(rule_of(row, number, timeout) for number, row in enumerate(rows, 1))
    found = Commands(
        shell=shell,
        inventory=asked(table, "inventory", str, "", "the file"),
        variables=variables_of(asked(table, "env", dict, {}, "the file"), "env"),
        instances=instances_of(asked(table, "instance", dict, {}, "the file")),
        hosts=hosts_of(asked(table, "hosts", dict, {}, "the file")),
        rules=rules,
        patterns=Patterns([rule.when for rule in rules]),
    )
    for rule in rules:
        check_script(shell[0], rule)
    return found


Kind = TypeVar("Kind")


def asked(table: dict[str, Any], key: str, kind: type[Kind], otherwise: Kind, place: str) -> Kind:
    """The value of a key, which is of this kind."""
    value = table.get(key, otherwise)
    if not isinstance(value, kind) or isinstance(value, bool):
        raise Refused(f"{place}: {key} is no {KINDS[kind]}")
    return value


def check_keys(table: dict[str, Any], known: set[str], place: str) -> None:
    for key in table:
        if key not in known:
            raise Refused(f"{place}: nothing is known of {plans.shown(key)}; there are {', '.join(sorted(known))}")


def number_of(table: dict[str, Any], key: str, most: int, otherwise: int, place: str) -> int:
    value = asked(table, key, int, otherwise, place)
    if not 0 <= value <= most:
        raise Refused(f"{place}: {key} is not from 0 to {most}")
    return value


def words_of(value: object, place: str) -> tuple[str, ...]:
    """A command and its words. One that began with a dash would be an option of what calls it."""
    if not isinstance(value, list) or not value or not all(isinstance(each, str) and each for each in value):
        raise Refused(f"{place} is no list of words")
    if any(not each.isprintable() for each in value):
        raise Refused(f"{place} has a word with a character that is not printed")
    if value[0].startswith("-"):
        raise Refused(f"{place}: no command begins with -")
    return tuple(value)


def rule_of(table: object, number: int, timeout: int) -> Rule:
    place = f"step {number}"
    if not isinstance(table, dict):
        raise Refused(f"{place} is no table")
    check_keys(table, STEP_KEYS, place)
    if "when" not in table:
        raise Refused(f"{place} has no when")
    if ("run" in table) == ("playbook" in table):
        raise Refused(f"{place} has {'both run and' if 'run' in table else 'neither run nor'} playbook")
    texts = {key: asked(table, key, str, "", place) for key in ("run", "check", "playbook")}
    for key, text in texts.items():
        if "\0" in text or "\r" in text:
            raise Refused(f"{place}: {key} has a byte that no script has")
    if not texts["playbook"].isprintable() or texts["playbook"].startswith("-"):
        raise Refused(f"{place}: playbook is no name of a file")
    lock = asked(table, "lock", str, "", place)
    if lock and not VARIABLE.fullmatch(lock):
        raise Refused(f"{place}: lock is no word of letters, digits and _")
    keeps = table.get("keeps", False)
    if not isinstance(keeps, bool) or keeps and not str(table["when"]).endswith(": delete"):
        raise Refused(f"{place}: keeps is true or false, and for a deletion")
    return Rule(
        number=number,
        when=asked(table, "when", str, "", place),
        **texts,
        timeout=number_of(table, "timeout", MOST_SECONDS, timeout, place),
        retries=number_of(table, "retries", MOST_RETRIES, 0, place),
        pause=number_of(table, "pause", MOST_SECONDS, 1, place),
        lock=lock,
        keeps=keeps,
    )


def variables_of(table: dict[str, Any], place: str) -> dict[str, str]:
    for key, value in table.items():
        if not VARIABLE.fullmatch(key) or key.startswith(OWN_VARIABLES):
            raise Refused(f"{place}: {plans.shown(key)} is no name for a variable of yours")
        if not isinstance(value, str) or "\0" in value:
            raise Refused(f"{place}: {key} is no text")
    return dict(table)


def instances_of(table: dict[str, Any]) -> dict[str, dict[str, str]]:
    """The variables of single instances, as those of services that never had a METIS_NAME."""
    found = {}
    for name, each in table.items():
        if not INSTANCE.fullmatch(name) or not isinstance(each, dict):
            raise Refused(f'instance: {plans.shown(name)} is no table of an instance, such as [instance."db#1"]')
        found[name] = variables_of(each, f"instance {name}")
    return found


def hosts_of(table: dict[str, Any]) -> dict[str, Host]:
    hosts = {}
    for name, each in table.items():
        if not plans.NAME.fullmatch(name) or not isinstance(each, dict):
            raise Refused(f"hosts: {plans.shown(name)} is no table with the name of a host")
        place = f"host {name}"
        check_keys(each, HOST_KEYS, place)
        address = asked(each, "address", str, name, place)
        if not ADDRESS.fullmatch(address) or "address" in each and address.startswith("-"):
            raise Refused(f"{place}: address is no word")
        hosts[name] = Host(name, address, words_of(each["via"], f"{place}: via") if "via" in each else ())
    return hosts


def check_script(shell: str, rule: Rule) -> None:
    """What a shell says of a script that it cannot read, before anything is done."""
    if rule.does_nothing or os.path.basename(shell) not in SHELLS or not shutil.which(shell):
        return
    done = subprocess.run([shell, "-n"], input=rule.script, capture_output=True, encoding="utf-8", errors="replace", check=False)
    if done.returncode:
        raise Refused(f"step {rule.number} ({rule.when}): {done.stderr or 'no script'}")
    if rule.check:
        check_script(shell, dataclasses.replace(rule, run=rule.check, check="", playbook=""))
