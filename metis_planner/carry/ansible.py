"""Ansible as the hand of a step: the script that runs a playbook for one action, and an inventory of a placement.

make keeps the order, since Ansible knows no graph. A playbook gets the variables of the step in lower case, and is limited to
the host of its instance.
"""

import re
import shlex
from collections.abc import Iterable, Mapping

# The variables of a step that a playbook gets, as metis_name and so on.
VARIABLES = (
    "ACTION",
    "VERB",
    "AGAIN",
    "TEARDOWN",
    "BOUND",
    "INSTANCE",
    "TYPE",
    "NAME",
    "FROM",
    "TO",
    "HOST",
    "ADDRESS",
    "PORT",
    "PROVIDER",
    "PROVIDER_TYPE",
    "PROVIDER_NAME",
    "PROVIDER_HOST",
    "PROVIDER_ADDRESS",
)
# A user and an address, as ssh takes them in one word.
REACHED = re.compile(r"([A-Za-z0-9_.][A-Za-z0-9_.\\-]*@)?[A-Za-z0-9_.\[][A-Za-z0-9_.:\[\]-]*")
# Where a step runs that has no host.
HERE = "localhost"


def extra_variables() -> str:
    """A shell word that is the variables as JSON: none of their values has a character that JSON would have to escape."""
    members = [f'\\"metis_{name.lower()}\\":\\"${{METIS_{name}-}}\\"' for name in VARIABLES]
    return f'"{{{",".join(members)}}}"'


def script(playbook: str) -> str:
    """What a step with a playbook runs. `ANSIBLE_PLAYBOOK` and `ANSIBLE_OPTIONS` may say more: another command, or --check."""
    words = ["${ANSIBLE_PLAYBOOK:-ansible-playbook}", '-i "$METIS_INVENTORY"', f'-l "${{METIS_HOST:-{HERE}}}"']
    words += [f"-e {extra_variables()}", "${ANSIBLE_OPTIONS-}", shlex.quote(playbook)]
    return " ".join(words)


def inventory(hosts: Iterable[str], address_of: Mapping[str, str], via_of: Mapping[str, tuple[str, ...]]) -> str:
    """An inventory of hosts. One that is reached by ssh has its user and address from there; one without a way is this machine.

    Ansible reads a value as a template, so what is no name there (`ssh HOST sudo sh`) is none here, and the host's address is taken.
    """
    lines = ["[metis]"]
    for name in sorted(set(hosts)):
        via = via_of.get(name, ())
        if not via:
            lines.append(f"{name} ansible_connection=local")
        elif via[0].rpartition("/")[2] == "ssh" and REACHED.fullmatch(via[-1]):
            user, at, address = via[-1].rpartition("@")
            lines.append(f"{name} ansible_host={address}" + (f" ansible_user={user}" if at else ""))
        else:
            lines.append(f"{name} ansible_host={address_of.get(name, name)}")
    return "\n".join([*lines, "", "[local]", f"{HERE} ansible_connection=local", ""])
