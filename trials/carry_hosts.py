#!/usr/bin/env python3
"""Carries a plan out on three hosts, by ssh and by Ansible, and cuts the link midway: python3 -m trials carry_hosts

The hosts are network namespaces of this machine, each with an sshd and a folder of its own. It wants root, and Debian's
openssh-server, iproute2 and ansible-core (without the last one that part is skipped by name). What is done by ssh, by playbooks
and after a cut has to be the same. The last line says that it was.
"""

import contextlib
import os
import pathlib
import shutil
import subprocess
import sys
import tempfile
import time
from collections.abc import Iterator, Sequence

from trials.trial import TOP, Failed, expect

HOSTS = {"left": "10.203.1.2", "middle": "10.203.2.2", "right": "10.203.3.2"}
# How many instances each has room for: the blog has four.
ROOM = {"left": 2, "middle": 1, "right": 1}
SSHD = """\
Port 22
ListenAddress {address}
HostKey {top}/{name}/key
PidFile {top}/{name}/pid
AuthorizedKeysFile {top}/id.pub
StrictModes no
PasswordAuthentication no
UsePAM no
"""
HEAD = """
timeout = 30
[env]
STANDS = "{top}/stands"
{hosts}
[[step]]
when = "*: bind *"
run = ""
[[step]]
when = "*: unbind *"
run = ""
"""
HOST = """
[hosts.{name}]
address = "{address}"
via = [{ssh}, "root@{address}"]
"""
BY_SSH = """
[[step]]
when = "*: new"
run = 'mkdir -p "$STANDS/$METIS_HOST/$METIS_NAME"; ip -br -4 address show up | grep -q "$METIS_ADDRESS/"'
[[step]]
when = "*: * -> *"
run = 'sleep 1; touch "$STANDS/$METIS_HOST/$METIS_NAME/$METIS_TO"'
check = 'test -e "$STANDS/$METIS_HOST/$METIS_NAME/$METIS_TO"'
[[step]]
when = "*: delete"
run = 'rm -r "$STANDS/$METIS_HOST/$METIS_NAME"'
"""
BY_ANSIBLE = """
[[step]]
when = "*: new"
playbook = "{top}/new.yml"
[[step]]
when = "*: * -> *"
playbook = "{top}/move.yml"
[[step]]
when = "*: delete"
playbook = "{top}/delete.yml"
"""
PLAYBOOKS = {
    "new.yml": "path: '{top}/stands/{{{{ metis_host }}}}/{{{{ metis_name }}}}', state: directory",
    "move.yml": "path: '{top}/stands/{{{{ metis_host }}}}/{{{{ metis_name }}}}/{{{{ metis_to }}}}', state: touch",
    "delete.yml": "path: '{top}/stands/{{{{ metis_host }}}}/{{{{ metis_name }}}}', state: absent",
}
PLAYBOOK = "- hosts: all\n  gather_facts: false\n  tasks:\n    - ansible.builtin.file: {{{task}}}\n"


def run(*words: object, **more: object) -> subprocess.CompletedProcess[str]:
    return subprocess.run(list(map(str, words)), capture_output=True, text=True, check=False, **more)  # type: ignore[call-overload]


def must(*words: object) -> str:
    done = run(*words)
    expect(done.returncode == 0, f"{' '.join(map(str, words))}: {done.stderr}")
    return str(done.stdout)


def metis(*words: object) -> str:
    return must(TOP / "metis", *words)


def link_of(name: str) -> tuple[str, str]:
    """The two ends of a host's link: here, and there."""
    return f"m{name[:5]}0", f"m{name[:5]}1"


@contextlib.contextmanager
def host(name: str, address: str, top: pathlib.Path) -> Iterator[None]:
    """A network namespace with an sshd, for a while."""
    here, there = link_of(name)
    space, folder = f"metis-{name}", top / name
    folder.mkdir()
    must("ssh-keygen", "-q", "-t", "ed25519", "-N", "", "-f", folder / "key")
    (folder / "sshd").write_text(SSHD.format(address=address, top=top, name=name))
    must("ip", "netns", "add", space)
    try:
        must("ip", "link", "add", here, "type", "veth", "peer", "name", there, "netns", space)
        must("ip", "address", "add", f"{address[:-1]}1/24", "dev", here)
        must("ip", "link", "set", here, "up")
        must("ip", "-n", space, "address", "add", f"{address}/24", "dev", there)
        must("ip", "-n", space, "link", "set", there, "up")
        must("ip", "-n", space, "link", "set", "lo", "up")
        pathlib.Path("/run/sshd").mkdir(exist_ok=True)
        daemon = subprocess.Popen(["ip", "netns", "exec", space, "/usr/sbin/sshd", "-D", "-f", folder / "sshd"])
        try:
            yield
        finally:
            daemon.terminate()
            daemon.wait()
    finally:
        run("ip", "link", "delete", here)
        run("ip", "netns", "delete", space)


def options(top: pathlib.Path) -> list[str]:
    said = {"IdentityFile": top / "id", "StrictHostKeyChecking": "no", "UserKnownHostsFile": "/dev/null", "LogLevel": "ERROR"}
    return ["-o", "ConnectTimeout=3", *(word for key, value in said.items() for word in ("-o", f"{key}={value}"))]


def written(top: pathlib.Path, steps: str) -> pathlib.Path:
    ssh = ", ".join(f'"{word}"' for word in ["ssh", *options(top)])
    path = top / "commands.toml"
    hosts = "".join(HOST.format(name=name, address=address, ssh=ssh) for name, address in HOSTS.items())
    path.write_text(HEAD.format(top=top, hosts=hosts) + steps.replace("{top}", str(top)))
    return path


def hosts_text(top: pathlib.Path) -> pathlib.Path:
    path = top / "hosts.txt"
    path.write_text("metis hosts 1\n" + "".join(f"host {name} {room}\n" for name, room in ROOM.items()) + "end\n")
    return path


def brought_up(top: pathlib.Path, name: str, steps: str, more: Sequence[str] = ()) -> tuple[pathlib.Path, int]:
    folder = top / name
    commands = written(top, steps)
    words = ["up", TOP / "examples" / "blog.json", "haproxy:run", "--commands", commands, "--to", folder, "--yes"]
    return folder, run(TOP / "metis", *words, "--hosts", hosts_text(top), *more).returncode


def standing(top: pathlib.Path) -> list[str]:
    return sorted(str(path.relative_to(top / "stands")) for path in (top / "stands").rglob("*") if path.is_dir())


def taken_down(top: pathlib.Path, folder: pathlib.Path) -> None:
    metis("down", folder, "--yes")
    expect(not [path for path in standing(top) if "/" in path], f"left: {standing(top)}")


def by_ssh(top: pathlib.Path) -> str:
    folder, status = brought_up(top, "ssh", BY_SSH)
    expect(status == 0, "it does not come up by ssh")
    metis("verify", folder)
    done = metis("done", folder)
    expect(len([path for path in standing(top) if "/" in path]) == 4, standing(top))
    taken_down(top, folder)
    return done


def with_a_cut(top: pathlib.Path) -> str:
    """The link of a host is down for a while in the middle: the step there is not done twice at once, and make goes on."""
    steps = BY_SSH.replace("sleep 1;", 'echo "$METIS_NAME in $(date +%s.%N)" >>"$STANDS/times"; sleep 4;').replace(
        "$METIS_TO\"'\ncheck", '$METIS_TO"; echo "$METIS_NAME out $(date +%s.%N)" >>"$STANDS/times"\'\ncheck'
    )
    folder = top / "cut"
    commands = written(top, steps)
    words = ["up", TOP / "examples" / "blog.json", "haproxy:run", "--commands", commands, "--to", folder, "--yes"]
    job = subprocess.Popen(
        list(map(str, [TOP / "metis", *words, "--hosts", hosts_text(top)])), stdout=subprocess.DEVNULL, stderr=subprocess.DEVNULL
    )
    time.sleep(3)
    for name in HOSTS:
        must("ip", "link", "set", link_of(name)[0], "down")
    time.sleep(2)
    job.terminate()
    subprocess.run(["pkill", "-f", f"make -s -j8 -C {folder}"], check=False)
    job.wait()
    for name in HOSTS:
        must("ip", "link", "set", link_of(name)[0], "up")
    for _ in range(20):
        if run("make", "-s", "-j8", "-k", "-C", folder).returncode == 0:
            break
        time.sleep(1)
    expect(run("make", "-q", "-C", folder).returncode == 0, metis("status", folder))
    check_never_twice_at_once(top / "stands" / "times")
    done = metis("done", folder)
    taken_down(top, folder)
    return done


def check_never_twice_at_once(path: pathlib.Path) -> None:
    """Each step that began on a host ended there before it began once more."""
    open_: set[str] = set()
    for line in path.read_text().splitlines():
        name, what, _ = line.split()
        expect((name in open_) == (what == "out"), f"{name} ran beside itself:\n{path.read_text()}")
        (open_.add if what == "in" else open_.discard)(name)
    path.unlink()


def by_ansible(top: pathlib.Path) -> str:
    for name, task in PLAYBOOKS.items():
        (top / name).write_text(PLAYBOOK.format(task=task.format(top=top)))
    os.environ["ANSIBLE_SSH_ARGS"] = " ".join(options(top))
    folder, status = brought_up(top, "ansible", BY_ANSIBLE)
    expect(status == 0, run(TOP / "metis", "log", folder, "1").stdout)
    done = metis("done", folder)
    expect(len([path for path in standing(top) if "/" in path]) == 4, standing(top))
    taken_down(top, folder)
    return done


def main() -> int:
    missing = [name for name in ("ip", "ssh", "ssh-keygen", "make") if shutil.which(name) is None]
    if missing or os.geteuid() or not os.access("/usr/sbin/sshd", os.X_OK):
        print(f"not run: {', '.join(missing) or 'root, and sshd'} is wanted", file=sys.stderr)
        return 2
    with tempfile.TemporaryDirectory(prefix="metis-hosts-") as name, contextlib.ExitStack() as stack:
        top = pathlib.Path(name)
        top.chmod(0o755)
        (top / "stands").mkdir()
        try:
            must("ssh-keygen", "-q", "-t", "ed25519", "-N", "", "-f", top / "id")
            for each, address in HOSTS.items():
                stack.enter_context(host(each, address, top))
            time.sleep(1)
            first = by_ssh(top)
            print("by ssh: up, verified and down", flush=True)
            expect(with_a_cut(top) == first, "another end after a cut")
            print("a link that was cut midway: resumed, and no step beside itself", flush=True)
            if shutil.which("ansible-playbook") is None:
                print("by Ansible: not run, since ansible-core is not there")
            else:
                expect(by_ansible(top) == first, "another end by Ansible")
                print("by Ansible: up and down", flush=True)
        except Failed as failed:
            print(f"FAILED: {failed}")
            return 1
    print("all ended alike")
    return 0


if __name__ == "__main__":
    sys.exit(main())
