"""Prints an inventory for Ansible of the hosts that a placement names, as the commands file says how they are reached."""

import argparse

from metis_planner.answers import Answer, Refused
from metis_planner.carry import ansible
from metis_planner.carry.commands import read_commands
from metis_planner.text import over_plans, plans
from metis_planner.text.reading import read_text


def hosts_in(path: str) -> list[str]:
    """The hosts of a placement, in the order in which it names them."""
    lines = read_text(path, plans.MOST_BYTES).splitlines()
    found = [each[2] for line in lines if (each := over_plans.ON.fullmatch(line))]
    if not lines or not lines[-1].startswith("placed "):
        raise Refused(f"{path}: not what `metis place` prints")
    return list(dict.fromkeys(found))


def add_arguments(parser: argparse.ArgumentParser) -> None:
    parser.add_argument("placement", metavar="PLACEMENT", help="what `metis place` printed")
    parser.add_argument("--commands", metavar="FILE", required=True, help="what says how the hosts are reached (TOML)")


def run(arguments: argparse.Namespace) -> Answer:
    commands = read_commands(arguments.commands)
    hosts = hosts_in(arguments.placement)
    commands.check_hosts(hosts)
    known = commands.hosts
    addresses = {name: host.address for name, host in known.items()}
    return Answer(ansible.inventory(hosts, addresses, {name: host.via for name, host in known.items()}))
