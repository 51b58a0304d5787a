"""A Docker of a trial's own, with images that begin as real ones do, and Compose projects that Metis brings up by it."""

import itertools
import json
import os
import pathlib
import shutil
import subprocess
import time
from collections.abc import Iterator, Mapping
from typing import Any, NamedTuple

import yaml

from trials.trial import TOP, expect

Value = dict[str, Any]
PROJECTS = pathlib.Path(__file__).resolve().parent / "docker_projects"
LABEL = "com.docker.compose"

NAMESPACE = "metis-docker"
SPACE = f"/run/netns/{NAMESPACE}"
PACKAGES = "ca-certificates,curl,procps,python3,redis-server,nginx-light,postgresql,postgresql-client,gosu"
PG = """FROM base:12
COPY entry.sh /entry.sh
ENTRYPOINT ["sh", "/entry.sh"]
STOPSIGNAL SIGINT
"""
PG_ENTRY = """set -eu
data=/var/lib/postgresql/data bin=/usr/lib/postgresql/15/bin
mkdir -p $data /var/run/postgresql
chown postgres:postgres $data /var/run/postgresql
chmod 700 $data
if [ ! -s $data/PG_VERSION ]; then
  gosu postgres $bin/initdb -D $data -A trust >/dev/null
  echo 'host all all all trust' >>$data/pg_hba.conf
fi
exec gosu postgres $bin/postgres -D $data -c listen_addresses='*' -c fsync=off
"""
# One image for all that a shop runs: what it needs has to be there when it starts.
APP = """FROM base:12
COPY app.sh /app.sh
ENTRYPOINT ["sh", "/app.sh"]
STOPSIGNAL SIGKILL
"""
APP_SH = """set -eu
ask() { psql -h "${DB:-db}" -U postgres -Atqc "$1"; }
is_migrated() { test "$(ask 'select count(*) from migrated')" -gt 0; }
if [ -n "${REDIS-}" ]; then redis-cli -h "$REDIS" ping | grep -q PONG; fi
case $1 in
migrate)
  if [ -n "${FAIL-}" ]; then exit 3; fi
  ask 'create table if not exists migrated (at timestamp default now())'
  ask 'insert into migrated default values'
  ;;
web)
  is_migrated
  mkdir -p /pages
  echo "of version ${VERSION-1}" >/pages/index.html
  exec python3 -m http.server --directory /pages 8000
  ;;
worker)
  is_migrated
  exec sleep 100000
  ;;
once) exit 0 ;;
esac
"""
REDIS = """FROM base:12
CMD ["redis-server", "--bind", "0.0.0.0", "--protected-mode", "no", "--save", ""]
"""
# It looks up the interface when it starts, as nginx does.
NGINX = """FROM base:12
RUN rm -f /etc/nginx/sites-enabled/* && echo 'server { listen 80; location / { proxy_pass http://api:8000; } }' >/etc/nginx/conf.d/x.conf
CMD ["nginx", "-g", "daemon off;"]
STOPSIGNAL SIGQUIT
"""


class Engine:
    """A Docker of its own."""

    def __init__(self, folder: pathlib.Path) -> None:
        self.folder = folder
        more = {"DOCKER_HOST": f"unix://{folder}/run/docker.sock", "DOCKER_CONFIG": f"{folder}/cli", "DOCKER_BUILDKIT": "0"}
        self.environment = {**os.environ, **more, "METIS_LOCKS": str(folder)}
        self.daemon: subprocess.Popen[bytes] | None = None
        self.metis = TOP / "metis"

    def plant(self, old: str, new: str) -> None:
        """Has a fault in the commands from here on, in a copy of the checkout."""
        copy = self.folder / "planted"
        shutil.rmtree(copy, ignore_errors=True)
        shutil.copytree(TOP, copy, ignore=shutil.ignore_patterns(".git", "out"))
        path = copy / "metis_planner/carry/skeletons/compose.toml"
        text = path.read_text()
        expect(old in text, f"nothing to put {new!r} in the place of")
        path.write_text(text.replace(old, new))
        self.metis = copy / "metis"

    def run(self, *words: object, at: pathlib.Path | None = None, **more: str) -> subprocess.CompletedProcess[str]:
        environment = {**self.environment, **more}
        return subprocess.run(list(map(str, words)), cwd=at or self.folder, env=environment, capture_output=True, text=True, check=False)

    def begin(self) -> None:
        for each in ("run", "cli/cli-plugins"):
            (self.folder / each).mkdir(parents=True, exist_ok=True)
        if not (self.folder / "cli/config.json").is_file():
            (self.folder / "cli/config.json").write_text("{}")
        expect((self.folder / "cli/cli-plugins/docker-compose").is_file(), "Compose 2 is not there")
        if not pathlib.Path(SPACE).exists():
            subprocess.run(["ip", "netns", "add", NAMESPACE], check=True)
        subprocess.run(["nsenter", f"--net={SPACE}", "ip", "link", "set", "lo", "up"], check=True)
        words = ["nsenter", f"--net={SPACE}", "unshare", "-m", "--propagation", "private", "dockerd"]
        words += ["-H", self.environment["DOCKER_HOST"], "--data-root", f"{self.folder}/data", "--exec-root", f"{self.folder}/exec"]
        with open(self.folder / "dockerd.log", "ab") as log:
            words += ["--pidfile", f"{self.folder}/run/dockerd.pid"]
            self.daemon = subprocess.Popen(words, stdout=log, stderr=log, start_new_session=True)
        while self.run("docker", "version").returncode:
            expect(self.daemon.poll() is None, "dockerd ended: see dockerd.log")
            time.sleep(1)

    def end(self) -> None:
        if self.daemon:
            self.daemon.terminate()
            self.daemon.wait()

    def images(self) -> None:
        if self.run("docker", "image", "inspect", "base:12").returncode:
            root = self.folder / "root"
            if not (root / "usr").is_dir():
                subprocess.run(["debootstrap", "--variant=minbase", f"--include={PACKAGES}", "bookworm", str(root)], check=True)
            words = ["tar", "-C", str(root), "--exclude=./proc/*", "--exclude=./sys/*", "-c", "."]
            packed = subprocess.Popen(words, stdout=subprocess.PIPE)
            subprocess.run(["docker", "import", "-", "base:12"], stdin=packed.stdout, env=self.environment, check=True)
            expect(packed.wait() == 0, "tar failed")
        self.build("trial-pg", {"Dockerfile": PG, "entry.sh": PG_ENTRY})
        self.build("trial-app:1", {"Dockerfile": APP, "app.sh": APP_SH})
        self.build("trial-app:2", {"Dockerfile": APP + "ENV VERSION=2\n", "app.sh": APP_SH})
        self.build("shop", {"Dockerfile": 'FROM trial-app:1\nCMD ["web"]\n'})
        self.build("shop-migrate", {"Dockerfile": 'FROM trial-app:1\nCMD ["migrate"]\n'})
        self.tag("trial-pg", "postgres:16")
        self.build("trial-redis", {"Dockerfile": REDIS})
        self.build("trial-nginx", {"Dockerfile": NGINX})

    def tag(self, image: str, name: str) -> None:
        expect(self.run("docker", "tag", image, name).returncode == 0, f"{image} does not get the name {name}")

    def build(self, tag: str, files: dict[str, str]) -> None:
        at = self.folder / "build"
        shutil.rmtree(at, ignore_errors=True)
        at.mkdir()
        for name, text in files.items():
            (at / name).write_text(text)
        done = self.run("docker", "build", "-q", "-t", tag, ".", at=at)
        expect(done.returncode == 0, done.stderr)


class Found(NamedTuple):
    """A container, as `docker inspect` has it."""

    identity: str
    started: str
    value: Value

    @property
    def state(self) -> str:
        return str(self.value["State"]["Status"])

    def label(self, name: str) -> str:
        return str(self.value["Config"]["Labels"].get(f"{LABEL}.{name}", ""))


def project_of(name: str) -> Value:
    """A project of those beside this file."""
    value: Value = yaml.safe_load((PROJECTS / f"{name}.yaml").read_text())
    return {key: each for key, each in value.items() if not key.startswith("x-")}


def project_of_readme() -> Value:
    """The first project that README shows."""
    lines = (TOP / "README.md").read_text().splitlines()
    begin = lines.index("    services:")
    value: Value = yaml.safe_load("\n".join(itertools.takewhile(str.strip, lines[begin:])))
    return value


class Trial:
    """A project in a folder of its own."""

    def __init__(self, engine: Engine, name: str, value: Value, is_elsewhere: bool = False) -> None:
        self.engine, self.name = engine, f"trial-{name}"
        self.top = engine.folder / "projects" / self.name
        # Compose finds the file of the project from a folder within it, and not from elsewhere.
        self.folder = engine.folder / "elsewhere" / self.name if is_elsewhere else self.top / ".metis"
        self.words = ("--to", self.folder) if is_elsewhere else ()
        shutil.rmtree(self.folder, ignore_errors=True)
        self.told: dict[str, str] = {}  # with what Compose is called, and Metis is not
        self.top.mkdir(parents=True, exist_ok=True)
        if any(self.top.iterdir()):
            self.run("docker", "compose", "-p", self.name, "down", "-v", "-t", "1", "--remove-orphans")
        built = self.run("docker", "images", "--format", "{{.Repository}}:{{.Tag}}", "--filter", f"reference={self.name}-*").stdout.split()
        if built:
            self.run("docker", "image", "rm", "--force", *built)
        shutil.rmtree(self.top, ignore_errors=True)
        self.top.mkdir(parents=True)
        self.folder.parent.mkdir(exist_ok=True)
        (self.top / "Dockerfile").write_text("FROM base:12\n")
        self.write(value)

    def write(self, value: Value) -> None:
        (self.top / "compose.yaml").write_text(json.dumps({"name": self.name, **value}))

    def run(self, *words: object, **more: str) -> "subprocess.CompletedProcess[str]":
        return self.engine.run(*words, at=self.top, **{**self.told, **more})

    def said(self, *words: object) -> str:
        done = self.run(*words)
        expect(done.returncode == 0, f"{self.name}: {' '.join(map(str, words))}: {done.stderr[-500:]}")
        return done.stdout

    def up(self, *words: object, **more: str) -> "subprocess.CompletedProcess[str]":
        return self.engine.run(self.engine.metis, "up", "compose.yaml", "--yes", *self.words, *words, at=self.top, **more)

    def is_up(self, *words: object, **more: str) -> str:
        """What `up` says, when it has brought the project to what the file says."""
        done = self.up(*words, **more)
        expect(done.returncode == 0, f"{self.name}: {done.stdout[-800:]}{done.stderr[-800:]}")
        self.is_as_compose_has_it()
        return done.stdout + done.stderr

    def fails(self, *words: object, because: str) -> None:
        """`up` ends with a failure that is said."""
        done = self.up(*words)
        said = done.stdout + done.stderr
        expect(done.returncode == 1 and because in said, f"{self.name}: not {because}: {done.returncode}, {said[-800:]}")

    def found(self) -> dict[str, Found]:
        """Its containers by service and number."""
        words = ("docker", "ps", "-aq", "--no-trunc", "--filter", f"label={LABEL}.project={self.name}")
        ids = self.said(*words).split()
        values = json.loads(self.said("docker", "inspect", *ids)) if ids else []
        all_found = (Found(each["Id"], each["State"]["StartedAt"], each) for each in values)
        return {f"{each.label('service')}-{each.label('container-number')}": each for each in all_found}

    def containers(self) -> dict[str, tuple[str, str]]:
        """By service and number the identity of each container, and when it was started."""
        return {key: each[:2] for key, each in self.found().items()}

    def is_as_compose_has_it(self) -> None:
        """Docker has what the file says, Compose would make nothing anew, and the checks say that all stands."""
        done = self.run("docker", "compose", "--dry-run", "up", "-d")
        said = done.stdout + done.stderr
        bad = [line for line in said.splitlines() if any(word in line for word in ("Recreate", "Creating", "Error", "Removed"))]
        expect(not bad and done.returncode == 0, f"{self.name}: Compose would do: {bad or said[-500:]}")
        told = json.loads(self.said("docker", "compose", "config", "--format", "json"))["services"]
        faults = list(faults_in(self.found(), told, self.image_of))
        expect(not faults, f"{self.name}: not as the file says: {faults}")
        verified = self.run(self.engine.metis, "verify", self.folder)
        expect(verified.returncode == 0, f"{self.name}: verify says that something is lost: {verified.stdout}{verified.stderr}")

    def image_of(self, service: str, told: Value) -> str:
        return self.said("docker", "image", "inspect", "-f", "{{.Id}}", told.get("image") or f"{self.name}-{service}").strip()

    def compose_makes_nothing(self) -> None:
        """A real `docker compose up -d` leaves each container; what has ended is started again, as Compose does."""
        before = self.found()
        self.said("docker", "compose", "up", "-d")
        after = self.found()
        other = {key for key in {*before, *after} if key not in before or key not in after or before[key].identity != after[key].identity}
        again = {key for key in before if before[key].state == "running" and before[key].started != after[key].started}
        expect(not other and not again, f"{self.name}: Compose made {sorted(other)} anew, and started {sorted(again)} again")

    def rows(self) -> int:
        """How often the migration ran, by what is in the database."""
        words = ("docker", "compose", "exec", "-T", "db", "psql", "-U", "postgres", "-h", "127.0.0.1", "-Atc")
        return int(self.run(*words, "select count(*) from migrated").stdout.strip() or -1)

    def is_down(self) -> None:
        done = self.run(self.engine.metis, "down", self.folder, "--yes")
        expect(done.returncode == 0, f"{self.name}: down: {done.stdout[-800:]}{done.stderr[-800:]}")
        for kind in ("container ls -a", "network ls", "volume ls"):
            left = self.run("docker", *kind.split(), "-q", "--filter", f"label={LABEL}.project={self.name}").stdout.split()
            expect(not left, f"{self.name}: down leaves of {kind}: {left}")


def replicas_of(told: Value) -> int:
    return int((told.get("deploy") or {}).get("replicas", told.get("scale", 1)))


def faults_in(found: Mapping[str, Found], services: Mapping[str, Value], image_of: Any) -> Iterator[str]:
    """Where Docker's containers are not as `docker compose config` has it."""
    for key, each in found.items():
        told = services.get(each.label("service"))
        if told is None:
            yield f"{key}: there is no such service"
            continue
        yield from (f"{key}: {fault}" for fault in faults_of(each.value, told, image_of(each.label("service"), told)))
    for name, told in services.items():
        count = sum(each.label("service") == name for each in found.values())
        if count != replicas_of(told):
            yield f"{name}: {count} containers, not {replicas_of(told)}"


def faults_of(value: Value, told: Value, image: str) -> Iterator[str]:
    """Where a container is not as its service."""
    its = value["Config"]
    if value["State"]["Status"] != "running" and (value["State"]["Status"], value["State"]["ExitCode"]) != ("exited", 0):
        yield f"it is {value['State']['Status']} {value['State']['ExitCode']}"
    if value["Image"] != image:
        yield "its image is another one"
    if told.get("command") and its["Cmd"] != told["command"]:
        yield f"its command is {its['Cmd']}"
    for name, text in (told.get("environment") or {}).items():
        if f"{name}={text}" not in its["Env"]:
            yield f"it has not {name}={text}"
    test = (told.get("healthcheck") or {}).get("test")
    if test and (its.get("Healthcheck") or {}).get("Test") != test:
        yield f"its health check is {its.get('Healthcheck')}"
    ports = {f"{port['target']}/{port.get('protocol', 'tcp')}": port.get("published") for port in told.get("ports", [])}
    have = {port: bound[0]["HostPort"] for port, bound in (value["HostConfig"]["PortBindings"] or {}).items()}
    if ports != have:
        yield f"its ports are {have}, not {ports}"
    kept = {mount["target"] for mount in told.get("volumes", []) if mount["type"] == "volume"}
    if not kept <= {mount["Destination"] for mount in value["Mounts"]}:
        yield f"its volumes are not at {sorted(kept)}"
    if "volumes_from" not in told and len(value["Mounts"]) != len(told.get("volumes", [])):
        yield f"it has {len(value['Mounts'])} mounts"
    networks = {} if told.get("network_mode") else told.get("networks") or {"default": None}
    if not told.get("network_mode") and len(value["NetworkSettings"]["Networks"]) != len(networks):
        yield f"its networks are {sorted(value['NetworkSettings']['Networks'])}"


def changed(before: Mapping[str, tuple[str, str]], after: Mapping[str, tuple[str, str]]) -> set[str]:
    """The containers that are others, or were started again, or are there no more."""
    return {key for key in {*before, *after} if before.get(key) != after.get(key)}
