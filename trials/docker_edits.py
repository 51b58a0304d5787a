"""Edits of Compose projects, each by one `metis up`: what is concerned is made anew, and nothing else."""

import json
from collections.abc import Callable, Sequence
from typing import Any, NamedTuple

from trials.docker_engine import SPACE, Engine, Trial, Value, changed, project_of
from trials.trial import expect


class Edit(NamedTuple):
    """An edit: keys of the project with what stands there afterwards (None: nothing), and whose containers it concerns."""

    label: str
    told: dict[str, Any]
    concerned: str
    words: Sequence[str] = ()


def put(value: Value, told: dict[str, Any]) -> None:
    for place, new in told.items():
        *path, last = place.split(".")
        at = value
        for name in path:
            at = at.setdefault(name, {})
        if new is None:
            del at[last]
        else:
            at[last] = new


def do(trial: Trial, value: Value, edit: Edit) -> None:
    """One edit by one call: then all is as the file says, a second call does nothing, and rows stay."""
    before, rows = trial.containers(), trial.rows()
    put(value, edit.told)
    trial.write(value)
    trial.is_up(*edit.words)
    found = changed(before, trial.containers())
    expect(found == set(edit.concerned.split()), f"{edit.label}: {sorted(found)} changed, and {edit.concerned} are concerned")
    fresh = int("migrate-1" in found)
    expect(trial.rows() == rows + fresh, f"{edit.label}: {trial.rows()} rows, and there were {rows}")
    expect("nothing is to be done" in trial.up("--dry-run").stdout, f"{edit.label}: a second call would do something")
    print(f"  {edit.label}: {edit.concerned or 'nothing'}", flush=True)


STARTED, HEALTHY, COMPLETED = ({"condition": f"service_{each}"} for each in ("started", "healthy", "completed_successfully"))
SLEEP = {"image": "trial-app:1", "entrypoint": ["sleep", "100000"]}
SERVICES = "services"
FIRST = (
    Edit("environment", {"services.web.environment": {"A": "1"}}, "web-1"),
    Edit("command", {"services.web.command": ["web", "again"]}, "web-1"),
    Edit("published port", {"services.web.ports": ["127.0.0.1:8091:8000"]}, "web-1"),
    Edit("image", {"services.web.image": "trial-app:2"}, "web-1"),
    Edit("image of the migration", {"services.migrate.image": "trial-app:2"}, "migrate-1"),
    Edit("volumes added", {"services.web.volumes": ["more:/more", "/anonymous"], "volumes.more": {}}, "web-1"),
)
LATER = (
    Edit("health check of the database", {"services.db.healthcheck.retries": 61}, "db-1"),
    Edit("environment of the database", {"services.db.environment": {"A": "1"}}, "db-1"),
    Edit("more replicas", {"services.worker.deploy.replicas": 4}, "worker-3 worker-4"),
    Edit(
        "replicas and environment", {"services.worker.deploy.replicas": 5, "services.worker.environment": {"A": "1"}},
        "worker-1 worker-2 worker-3 worker-4 worker-5",
    ),
    Edit("a service", {"services.cache": SLEEP}, "cache-1"),
    Edit(
        "a service that an old one waits for",
        {"services.queue": {**SLEEP, "ports": ["8092:8000"]}, "services.web.depends_on.queue": STARTED},
        "queue-1 web-1",
    ),
    Edit(
        "two services swap ports",
        {"services.web.ports": ["8092:8000"], "services.queue.ports": ["127.0.0.1:8091:8000"]},
        "queue-1 web-1",
    ),
    Edit("less is waited for", {"services.web.depends_on.queue": None}, "web-1"),
    Edit("another condition", {"services.web.depends_on.db": HEALTHY}, "web-1"),
    Edit("what is followed", {"services.web.depends_on.db": {**HEALTHY, "restart": True}}, "web-1"),
    Edit("it follows", {"services.db.environment": {"A": "2"}}, "db-1 web-1"),
    Edit(
        "a network",
        {"networks": {"front": {}}, "services.web.networks": ["default", "front"], "services.cache.networks": ["front"]},
        "cache-1 web-1",
    ),
    Edit("no network", {"networks": None, "services.web.networks": None, "services.cache.networks": None}, "cache-1 web-1"),
    Edit("a service less", {"services.cache": None}, "cache-1"),
)


def tiers(engine: Engine) -> None:
    """A database, a migration, a web server and workers."""
    engine.tag("trial-app:1", "trial-tag:1")
    original, value = project_of("tiers"), project_of("tiers")
    trial = Trial(engine, "tiers", value)
    trial.is_up()
    expect(trial.rows() == 1, f"the migration ran {trial.rows()} times")
    for edit in FIRST:
        do(trial, value, edit)
    answers(engine, 8091, "of version 2")
    trial.said("docker", "compose", "exec", "-T", "web", "touch", "/more/x", "/anonymous/x")
    do(trial, value, Edit("volumes are kept", {"services.web.environment": {"A": "2"}}, "web-1"))
    trial.said("docker", "compose", "exec", "-T", "web", "ls", "/more/x", "/anonymous/x")
    for edit in LATER:
        do(trial, value, edit)
    fewer(trial, value)
    without_volume(trial, value)
    engine.tag("trial-app:2", "trial-tag:1")
    do(trial, value, Edit("the image's name is another one's", {}, "worker-1 worker-2"))
    trial.compose_makes_nothing()
    by_hand(trial, value)
    taken_port(engine, trial, value)
    bad_check(trial, value)
    back(trial, original)
    trial.is_down()


def answers(engine: Engine, port: int, text: str) -> None:
    done = engine.run("nsenter", f"--net={SPACE}", "curl", "-sf", "--retry", "9", "--retry-all-errors", f"http://127.0.0.1:{port}/")
    expect(text in done.stdout, f"port {port} answers {done.stdout!r}, not {text!r}")


def fewer(trial: Trial, value: Value) -> None:
    """A lower count takes just as many away, whichever."""
    before = trial.containers()
    put(value, {"services.worker.deploy.replicas": 2})
    trial.write(value)
    trial.is_up()
    after = trial.containers()
    gone = set(before) - set(after)
    expect(changed(before, after) == gone and len(gone) == 3, f"fewer replicas: {sorted(changed(before, after))}")
    print(f"  fewer replicas: {' '.join(sorted(gone))}", flush=True)


def without_volume(trial: Trial, value: Value) -> None:
    """A volume that the file has no more is deleted only where it is named."""
    before = trial.containers()
    put(value, {"services.web.volumes": None, "volumes.more": None})
    trial.write(value)
    done = trial.up()
    expect(done.returncode == 1 and "--delete volume/more" in done.stderr, f"a volume goes: {done.stderr[-500:]}")
    expect(trial.containers() == before, "a volume goes: something was done")
    trial.is_up("--delete", "volume/more")
    expect(changed(before, trial.containers()) == {"web-1"}, "a volume goes: more than web changed")
    print("  a volume goes: web-1", flush=True)


def by_hand(trial: Trial, value: Value) -> None:
    """What was edited and brought up by Compose, stopped, or taken down by hand."""
    put(value, {"services.web.environment": {"A": "3"}})
    trial.write(value)
    trial.said("docker", "compose", "up", "-d")
    before = trial.containers()
    trial.is_up()
    expect(trial.containers() == before, "edited and up by Compose: something was made anew")
    ids = {key: each[0] for key, each in before.items()}
    trial.said("docker", "stop", *ids.values())
    trial.is_up()
    expect({key: each[0] for key, each in trial.containers().items()} == ids, "all stopped: something was made anew")
    trial.said("docker", "compose", "down")
    trial.is_up()
    print("  up by Compose, all stopped, down by Compose: as it should be", flush=True)


def taken_port(engine: Engine, trial: Trial, value: Value) -> None:
    """A port that a stranger has is a failure, and then the call goes on."""
    before = trial.containers()
    stranger = engine.run("docker", "run", "-d", "-p", "8099:80", "--entrypoint", "sleep", "trial-app:1", "100000").stdout.strip()
    put(value, {"services.web.ports": ["8099:8000"]})
    trial.write(value)
    trial.fails(because="port is already allocated")
    trial.said("docker", "rm", "-f", stranger)
    trial.is_up()
    expect(changed(before, trial.containers()) == {"web-1"}, "a stranger's port: more than web changed")
    print("  a stranger's port, and no more: web-1", flush=True)


def bad_check(trial: Trial, value: Value) -> None:
    """A health check that fails ends the call each time, and touches nothing else; mended, all goes on."""
    before, rows = trial.containers(), trial.rows()
    test = value[SERVICES]["db"]["healthcheck"]["test"]
    put(value, {"services.db.healthcheck.test": ["CMD", "false"], "services.db.healthcheck.retries": 2})
    trial.write(value)
    for _ in range(2):
        trial.fails(because="unhealthy")
        expect(changed(before, trial.containers()) <= {"db-1", "web-1"}, "a failing check: more than the database changed")
    put(value, {"services.db.healthcheck.test": test, "services.db.healthcheck.retries": 60})
    trial.write(value)
    trial.is_up()
    expect(trial.rows() == rows, f"a failing check, mended: {trial.rows()} rows, and there were {rows}")
    print("  a failing health check, mended: as it should be", flush=True)


def back(trial: Trial, original: Value) -> None:
    """All edits back at once."""
    rows = trial.rows()
    trial.write(original)
    trial.is_up()
    expect(trial.rows() in (rows, rows + 1), f"all edits back: {trial.rows()} rows, and there were {rows}")
    trial.compose_makes_nothing()
    print("  all edits back: as it should be", flush=True)


IN_A_SHOP = (
    Edit("command of replicas", {"services.api.command": ["web", "again"]}, "api-1 api-2"),
    Edit("more replicas", {"services.worker.deploy.replicas": 5}, "worker-4 worker-5"),
    Edit("health check of the database", {"services.db.healthcheck.retries": 61}, "db-1"),
    Edit("a service less", {"services.smoke": None}, "smoke-1"),
)


def shop(engine: Engine) -> None:
    """Ten services, of which six have one image."""
    value = project_of("shop")
    trial = Trial(engine, "shop", value)
    trial.is_up()
    answers(engine, 8082, "of version 1")
    for edit in IN_A_SHOP:
        do(trial, value, edit)
    before, rows = trial.containers(), trial.rows()
    own = [name for name, told in value[SERVICES].items() if told["image"] == "trial-app:1"]
    put(value, {f"services.{name}.image": "trial-app:2" for name in own})
    trial.write(value)
    trial.is_up()
    found = {key.rpartition("-")[0] for key in changed(before, trial.containers())}
    expect(found == set(own), f"the image of {own}: {sorted(found)} changed")
    expect(trial.rows() == rows + 1, "the migration of the next image has not run")
    trial.compose_makes_nothing()
    trial.is_down()


def names(engine: Engine) -> None:
    """A profile, an external volume, a name of a container, an override, variables of an env-file, a service `network`."""
    value = project_of("names")
    engine.run("docker", "volume", "create", "trial-kept")
    trial = Trial(engine, "names", value)
    trial.told = {"COMPOSE_PROFILES": "debug"}
    trial.is_up(COMPOSE_PROFILES="debug")
    expect("debug-1" in trial.containers(), "a profile that is on has no container")
    trial.is_up()
    expect("debug-1" in trial.containers(), "a profile is not kept with the folder")
    do(trial, value, Edit("name of a container", {"services.db.container_name": "trial-another"}, "db-1"))
    do(trial, value, Edit("a service `network`", {"services.network.environment.A": "1"}, "network-1"))
    for label, name, text, concerned in (
        ("an env-file", ".env", "OF_ENV_FILE=1\n", "db-1"),
        ("an override", "compose.override.yaml", "services: {network: {environment: {B: '2'}}}\n", "network-1"),
    ):
        (trial.top / name).write_text(text)
        do(trial, value, Edit(label, {}, concerned))
    before = trial.containers()
    trial.told = {}
    trial.is_up(COMPOSE_PROFILES="")
    expect(changed(before, trial.containers()) == {"debug-1"}, "a profile off: more than its service goes")
    trial.is_down()
    expect(engine.run("docker", "volume", "inspect", "trial-kept").returncode == 0, "down takes an external volume")


IN_SPACES = (
    Edit("command of one that others stand on", {"services.app.command": ["sleep", "200000"]}, "app-1 side-1 tail-1"),
    Edit("one that stands on it", {"services.side.environment": {"A": "1"}}, "side-1"),
    # What was awaited in two ways is awaited in one: for Metis the job is another one, and runs again.
    Edit("another condition", {"services.watcher.depends_on.once": COMPLETED}, "once-1 once-2 watcher-1"),
    Edit("no volumes of another one", {"services.tail.volumes_from": None}, "tail-1"),
)


def spaces(engine: Engine) -> None:
    """Images that are built, and services in the namespaces of others."""
    value = project_of("spaces")
    trial = Trial(engine, "spaces", value)
    trial.is_up()
    for edit in IN_SPACES:
        before = trial.containers()
        put(value, edit.told)
        trial.write(value)
        trial.is_up()
        found = changed(before, trial.containers())
        expect(found == set(edit.concerned.split()), f"{edit.label}: {sorted(found)} changed")
        print(f"  {edit.label}: {edit.concerned}", flush=True)
    (trial.top / "Dockerfile").write_text("FROM base:12\nENV A=2\n")
    before = trial.containers()
    trial.said("docker", "compose", "build", "--quiet")
    trial.is_up()
    found = changed(before, trial.containers())
    expect(found == {"app-1", "side-1", "tail-1", "watcher-1"}, f"built by hand: {sorted(found)} changed")
    trial.is_down()


# nginx looks names up again where it is told to.
RELOADED = """
[[step]]
when = "proxy: bind api/healthy"
run = '''
eval "$FUNCTIONS"
for id in $(ids "$METIS_NAME"); do
  case $(state "$id") in 'running '*) docker kill -s HUP "$id" >/dev/null ;; esac
done
'''
"""


def rollout(engine: Engine) -> None:
    """The next form of an interface, to which a proxy that has a port of the host is bound anew."""
    value = project_of("shop")
    trial = Trial(engine, "rollout", value)
    one, two = trial.top / "compose.yaml", trial.top / "two.yaml"
    put(value, {"services.api.image": "trial-app:2"})
    two.write_text(json.dumps({"name": trial.name, **value}))
    words = ("import", "compose", one, "--next", two, "--replace-data", "--rebind", "w.txt")
    (trial.top / "u.json").write_text(trial.said(engine.metis, *words))
    (trial.top / "plan.txt").write_text(trial.said(engine.metis, "plan", "u.json", "project:up"))
    head, mark, steps = trial.said(engine.metis, "make", "--skeleton", "plan.txt", "--universe", "u.json").partition("[[step]]")
    (trial.top / "k.toml").write_text(head + RELOADED.lstrip() + "\n" + mark + steps)
    up = (engine.metis, "up", "u.json", "project:up", "--commands", "k.toml", "--to", trial.folder, "--yes")
    trial.said(*up)
    before = trial.containers()
    one.write_text(two.read_text())
    trial.said(*up, "--wishes", "w.txt", "--delete", "all")
    found = {key.rpartition("-")[0] for key in changed(before, trial.containers())}
    expect(found == {"api"}, f"a rollout: {sorted(found)} changed")
    answers(engine, 8082, "of version 2")
    trial.is_as_compose_has_it()
    trial.said("docker", "compose", "down", "-v", "-t", "1")


PARTS: dict[str, Callable[[Engine], None]] = {each.__name__: each for each in (tiers, shop, names, spaces, rollout)}
