"""Writes what carries a plan out into its folder: the script that does one action, and the commands as files."""

import hashlib
import os
import pathlib
import re
import shlex
from collections.abc import Mapping
from typing import TYPE_CHECKING

from metis_planner.answers import Refused
from metis_planner.carry import ansible
from metis_planner.carry.commands import Commands, Host
from metis_planner.carry.engines import ENGINES
from metis_planner.carry.folder import EXPORT, INVENTORY, JOBS, STEPS, Folder
from metis_planner.carry.writing import write_whole

if TYPE_CHECKING:
    from metis_planner.carry.export import Export

TEMPLATE = pathlib.Path(__file__).resolve().parent / "run.sh"
RUN, ENVIRONMENT, INSTANCE = "run", "environment", "instance"
SECONDS_OF_A_CHECK = 10
GRACE = 30  # how many seconds more the way to a host gets than what is run on it
LENGTH_OF_A_FOLDER = 12
HOLE = re.compile(r"@([A-Z]+)@(\n?)")
# What ssh is told if `via` does not say it: a link that is down ends a step, and does not hold it for ever.
OPTIONS_OF_SSH = {"ConnectTimeout": "10", "ServerAliveInterval": "15", "ServerAliveCountMax": "3"}


def write_folder(folder: Folder, export: "Export", text: str, name: str) -> None:
    """`run` comes first and what an engine reads comes last: until all is there, the one refuses what the other says."""
    write_whole(folder.path / RUN, script(folder, export))
    make_executable(folder.path / RUN)
    write_steps(folder.path / STEPS, export.commands)
    write_whole(folder.path / JOBS, "".join(f"{job.words}\n" for job in export.jobs()))
    write_whole(folder.path / INVENTORY, inventory_of(export))
    folder.write_plan(export.plan_text, export.rollouts)
    write_whole(folder.path / EXPORT, f"{export.digest}\n")
    write_whole(folder.path / name, text)
    folder.drop_files(ENGINES.files(), but=name, digest=export.digest)


def inventory_of(export: "Export") -> str:
    """Ansible's inventory of the hosts of the placement, for playbooks of which the commands name no other."""
    hosts = export.commands.hosts
    addresses = {name: host.address for name, host in hosts.items()}
    return ansible.inventory(export.hosts.values(), addresses, {name: host.via for name, host in hosts.items()})


def make_executable(path: pathlib.Path) -> None:
    try:
        path.chmod(0o700)
    except OSError as fault:
        raise Refused(f"{path}: {fault.strerror}") from fault


def write_steps(path: pathlib.Path, commands: Commands) -> None:
    exports = [exports_in(commands.variables)]
    inventory = shlex.quote(os.path.abspath(commands.inventory)) if commands.inventory else f'"$METIS_FOLDER/{INVENTORY}"'
    exports.append(f"METIS_INVENTORY={inventory}\n")
    exports_of = {place: exports_in(each) for place, each in enumerate(commands.instances.values(), 1)}
    files = {ENVIRONMENT: "".join(exports)} | {f"{rule.slug}.sh": rule.script for rule in commands.rules}
    files |= {f"{rule.slug}.check.sh": rule.check_script for rule in commands.rules if rule.check.strip()}
    files |= {f"{INSTANCE}.{place}": text for place, text in exports_of.items()}
    for name, text in files.items():
        write_whole(path / name, text)
    for other in path.iterdir():
        if other.name not in files:
            other.unlink()


def exports_in(variables: Mapping[str, str]) -> str:
    return "".join(f"export {key}={shlex.quote(value)}\n" for key, value in variables.items())


def way_to(host: Host) -> tuple[str, ...]:
    """The command by which a host is reached; of ssh with options by which a link that is down is noticed."""
    if pathlib.PurePath(host.via[0]).name != "ssh":
        return host.via
    said = " ".join(host.via).lower()
    more = [word for key, value in OPTIONS_OF_SSH.items() if key.lower() not in said for word in ("-o", f"{key}={value}")]
    return (host.via[0], *more, *host.via[1:])


def script(folder: Folder, export: "Export") -> str:
    """The script `run`, with what differs from step to step and from host to host."""
    commands = export.commands
    rules = [
        f"{rule.number}) step={rule.slug}.sh limit={rule.timeout} retries={rule.retries} pause={rule.pause} "
        f"lock={rule.lock} sum={rule.sum} check={f'{rule.slug}.check.sh' if rule.check.strip() else ''} "
        f"here={'yes' if rule.playbook else ''} ;;\n"
        for rule in commands.rules
        if not rule.does_nothing
    ]
    hosts = commands.hosts.values()
    filled = {
        "ACTIONS": str(len(export.steps)),
        "EXPORT": export.digest,
        "RULES": "".join(rules),
        "HOSTS": "".join(f"'{host.name}') via={shlex.quote(shlex.join(way_to(host)))} ;;\n" for host in hosts if host.via),
        "ADDRESSES": "".join(f"  '{host.name}') address={shlex.quote(host.address)} ;;\n" for host in hosts),
        "SOURCES": "".join(f"  '{name}') source='{source}' ;;\n" for name, source in sorted(export.sources.items())),
        "SUMS": "".join(f"  '{name}') sum_of_type='{each}' ;;\n" for name, each in sorted(export.sums.items())),
        "NAMES": "".join(f"  {each}) name='{name}' && return ;;\n" for each, name in sorted(folder.names().items())),
        "INSTANCES": "".join(f"  '{name}') more=steps/{INSTANCE}.{each} ;;\n" for each, name in enumerate(commands.instances, 1)),
        "SHELL": shlex.join(commands.shell),
        "SHELLWORD": shlex.quote(shlex.join(commands.shell)),
        "GRACE": str(GRACE),
        "CHECK": str(SECONDS_OF_A_CHECK),
        "FOLDER": hashlib.sha256(os.fsencode(folder.path.resolve())).hexdigest()[:LENGTH_OF_A_FOLDER],
        "AGAIN": " ".join(sorted(export.again)),
        "TEARDOWN": "yes" if export.leaves_nothing else "",
    }
    return HOLE.sub(
        lambda found: filled[found[1]] + ("" if filled[found[1]].endswith("\n") else found[2]), TEMPLATE.read_text()
    )
