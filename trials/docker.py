#!/usr/bin/env python3
"""Brings Compose projects up by a real Docker: python3 -m trials docker FOLDER

FOLDER is a new one, or one of an earlier call, for Docker's data. It wants root, Debian 12's docker.io, iptables, debootstrap and
iproute2, and Compose 2 at FOLDER/cli/cli-plugins/docker-compose (docker-compose 2.26 of Debian 13 runs on Debian 12). The daemon has a
network namespace of its own, and listens at a socket in FOLDER alone; it is ended by its number.

Each project comes up by `metis up compose.yaml --yes`, and then `docker compose up -d` must make no container anew. Edits are one
`up` each: what is not concerned keeps its container and goes on, and rows of the database stay. What fails is mended and gone on
with. `down` leaves no container, network or volume. --plant NAME puts a fault back that the printed commands had, and has to fail.
"""

import argparse
import os
import pathlib
import random
import shutil
import signal
import subprocess
import sys
import time
from collections.abc import Callable

from trials import docker_adopt, docker_edits
from trials.docker_engine import Engine, Trial, Value, changed, project_of_readme
from trials.trial import Failed, expect

SEED, KILLS, ROUNDS = 11, 25, 3
# By name a text of the commands, and what stands in its place where the fault is put back.
PLANTS = {
    "health": ('await_health "$found" it\n', ":\n"),
    "lock": ('lock = "compose"\n', ""),
    "folder": ('(cd "$PROJECT" && exec', "(exec"),
    "again": ('if [ "$METIS_AGAIN" = yes ]; then\n    #', "if false; then\n    #"),
    "delete": ('  docker network rm "$id" >/dev/null', '  docker compose rm --force "$METIS_TYPE"'),
    "replicas": (
        'for id in $(ids "$METIS_NAME"); do\n  docker stop',
        'for id in $(containers "$service" | cut -d " " -f 2); do\n  docker stop',
    ),
    "claim": ('  case $METIS_TYPE in *@next) ;; *) take ;; esac\n', ""),
    "pull": ("if is_there; then exit; fi\n", ""),
}


def project(**more: object) -> Value:
    """A database whose health is awaited, a migration whose end is, and a web server."""
    check = {"test": ["CMD-SHELL", "pg_isready -h 127.0.0.1 -U postgres"], "interval": "1s", "timeout": "10s", "retries": 60}
    services: Value = {
        "db": {"image": "trial-pg", "volumes": ["data:/var/lib/postgresql/data"], "healthcheck": check},
        "migrate": {"image": "trial-app:1", "command": "migrate", "depends_on": {"db": {"condition": "service_healthy"}}},
        "web": {
            "image": "trial-app:1",
            "command": "web",
            "deploy": {"replicas": 1},
            "depends_on": {"migrate": {"condition": "service_completed_successfully"}},
        },
    }
    return {"services": {**services, **more}, "volumes": {"data": {}}}


def apart() -> Value:
    """Replicas, a name that Metis writes otherwise, an image that is built, and a service in the namespace of another one."""
    found = project(
        network={
            "image": "trial-app:1",
            "command": "web",
            "deploy": {"replicas": 3},
            "depends_on": {"migrate": {"condition": "service_completed_successfully"}},
        },
        built={"build": ".", "command": ["sleep", "100000"], "init": True},
        side={"image": "trial-app:1", "entrypoint": ["sleep", "100000"], "network_mode": "service:built"},
    )
    return found


def readme(engine: Engine) -> None:
    """README's project, by `up`, and by the commands that `make --skeleton` prints for it."""
    trial = Trial(engine, "readme", project_of_readme())
    trial.is_up()
    expect(trial.rows() == 1, f"the migration ran {trial.rows()} times")
    trial.compose_makes_nothing()
    trial.is_down()
    shutil.rmtree(trial.folder)
    for name, words in (
        ("u.json", ("import", "compose", trial.top / "compose.yaml")),
        ("plan.txt", ("plan", "u.json", "project:up")),
        ("commands.toml", ("make", "--skeleton", "plan.txt", "--universe", "u.json")),
    ):
        (trial.top / name).write_text(trial.said(engine.metis, *words))
    trial.said(engine.metis, "make", "plan.txt", "--universe", "u.json", "--commands", "commands.toml", "--to", trial.folder)
    trial.said("make", "-s", "-j8", "-C", trial.folder)
    trial.is_as_compose_has_it()
    trial.compose_makes_nothing()
    trial.said("docker", "compose", "down", "-v", "-t", "1")


def edits(engine: Engine) -> None:
    """A change of one service is one of its containers, and of no other; the volume and its rows stay."""
    value = project()
    trial = Trial(engine, "edits", value)
    trial.is_up()
    expect(trial.rows() == 1, f"the migration ran {trial.rows()} times")
    services = value["services"]
    for label, service, key, told, concerned in (
        ("environment", "web", "environment", {"A": "1"}, {"web-1"}),
        ("image", "web", "image", "trial-app:2", {"web-1"}),
        ("more replicas", "web", "deploy", {"replicas": 3}, {"web-2", "web-3"}),
        ("database", "db", "environment", {"B": "1"}, {"db-1"}),
    ):
        before = trial.containers()
        services[service][key] = told
        trial.write(value)
        trial.is_up()
        found = changed(before, trial.containers())
        expect(found == concerned, f"{label}: {sorted(found)} changed, and {sorted(concerned)} are concerned")
        expect(trial.rows() == 1, f"{label}: {trial.rows()} rows")
        expect("nothing is to be done" in trial.up("--dry-run").stdout, f"{label}: a second call would do something")
    trial.is_down()


def mended(engine: Engine) -> None:
    """A failing health check and a failing migration end the call; mended, the same database goes on."""
    value = project()
    services = value["services"]
    check = services["db"]["healthcheck"]
    services["db"]["healthcheck"] = {**check, "test": ["CMD", "false"], "retries": 2}
    trial = Trial(engine, "mended", value)
    done = trial.up()
    expect(done.returncode == 1 and "unhealthy" in done.stderr + done.stdout, f"a failing check: {done.stderr[-500:]}")
    services["db"]["healthcheck"] = check
    services["migrate"]["environment"] = {"FAIL": "yes"}
    trial.write(value)
    done = trial.up()
    expect(done.returncode == 1 and "ended with 3" in done.stderr + done.stdout, f"a failing migration: {done.stderr[-500:]}")
    database = trial.containers()["db-1"]
    del services["migrate"]["environment"]
    trial.write(value)
    trial.is_up()
    expect(trial.containers()["db-1"] == database and trial.rows() == 1, "the database is another one")
    trial.is_down()


def resumed(engine: Engine) -> None:
    """A migration that failed by what is outside of the file is taken up again when that is mended."""
    trial = Trial(engine, "resumed", project())
    services = project()
    services["services"]["migrate"]["command"] = "migrate"
    services["services"]["migrate"]["volumes"] = ["./flag:/flag:ro"]
    services["services"]["migrate"]["entrypoint"] = ["sh", "-c", "test -e /flag/good || exit 3; exec sh /app.sh migrate"]
    (trial.top / "flag").mkdir()
    trial.write(services)
    expect(trial.up().returncode == 1, "the migration has not failed")
    (trial.top / "flag/good").touch()
    trial.said("make", "-s", "-j8", "-C", trial.folder)
    trial.is_up()
    expect(trial.rows() == 1, f"the migration ran {trial.rows()} times")
    trial.is_down()


def killed(engine: Engine) -> None:
    """`up` and all in its session are killed at any moment, and called again; what is up is edited, until all kills are done."""
    draw = random.Random(SEED)
    for turn in range(ROUNDS):
        value = apart()
        trial = Trial(engine, f"killed{turn}", value)
        kills, edited = KILLS // ROUNDS + (turn < KILLS % ROUNDS), 0
        for _ in range(kills):
            while not is_killed(trial, draw):
                edited += 1
                value["services"]["network"]["environment"] = {"A": str(edited)}
                trial.write(value)
        for _ in range(20):  # what was killed may still be at work
            done = trial.up()
            if done.returncode == 0:
                break
            time.sleep(2)
        trial.is_up()
        expect(trial.rows() == 1, f"killed {kills} times: the migration ran {trial.rows()} times")
        trial.compose_makes_nothing()
        print(f"  killed {kills} times, with {edited} edits", flush=True)
        trial.is_down()


def is_killed(trial: Trial, draw: random.Random) -> bool:
    """Whether a call of `up` was killed; else it was at its end before."""
    words, quiet = [str(trial.engine.metis), "up", "compose.yaml", "--yes"], subprocess.DEVNULL
    call = subprocess.Popen(words, cwd=trial.top, env=trial.engine.environment, stdout=quiet, stderr=quiet, start_new_session=True)
    try:
        call.wait(draw.uniform(1, 8))
        return False
    except subprocess.TimeoutExpired:
        os.killpg(call.pid, draw.choice((signal.SIGKILL, signal.SIGTERM, signal.SIGINT)))
        call.wait()
        return True


def lost(engine: Engine) -> None:
    """What was stopped or removed by hand is said, and made again."""
    trial = Trial(engine, "lost", project(), is_elsewhere=True)
    trial.is_up()
    before = trial.containers()
    trial.run("docker", "rm", "-f", f"{trial.name}-web-1")
    done = trial.up()
    expect("lost     web" in done.stdout and done.returncode == 0, f"a container that is gone: {done.stdout[-500:]}{done.stderr[-500:]}")
    trial.is_as_compose_has_it()
    expect(changed(before, trial.containers()) == {"web-1"}, "more than what is gone is made again")
    trial.is_down()


def replicas(engine: Engine) -> None:
    """What stands apart comes up; fewer replicas take just as many away; an image that is built is there."""
    value = apart()
    trial = Trial(engine, "replicas", value)
    trial.is_up()
    before = trial.containers()
    services = value["services"]
    services["network"]["deploy"] = {"replicas": 1}
    trial.write(value)
    trial.is_up()
    gone = changed(before, trial.containers())
    expect(len(gone) == 2 and all(each.startswith("network-") for each in gone), f"fewer replicas: {sorted(gone)}")
    trial.is_down()


PARTS: dict[str, Callable[[Engine], None]] = {
    **{each.__name__: each for each in (readme, edits, mended, resumed, lost, replicas)},
    **docker_adopt.PARTS,
    **docker_edits.PARTS,
    "killed": killed,
}


def main() -> int:
    parser = argparse.ArgumentParser(description=__doc__, formatter_class=argparse.RawDescriptionHelpFormatter)
    parser.add_argument("folder", metavar="FOLDER")
    parser.add_argument("--part", choices=PARTS, action="append", help="this part alone")
    parser.add_argument("--plant", choices=PLANTS, help="put this fault back, and fail")
    arguments = parser.parse_args()
    engine = Engine(pathlib.Path(arguments.folder).absolute())
    try:
        engine.begin()
        engine.images()
        if arguments.plant:
            engine.plant(*PLANTS[arguments.plant])
        for name in arguments.part or PARTS:
            PARTS[name](engine)
            print(f"{name}: as it should be", flush=True)
    except Failed as failed:
        print(f"not as it should be: {failed}")
        return 1
    finally:
        engine.end()
    return 0


if __name__ == "__main__":
    sys.exit(main())
