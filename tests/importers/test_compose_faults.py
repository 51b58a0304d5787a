"""Projects with which Compose itself fails: there is no document for one, and the line says what is wrong.

`python3 -m trials compose_faults` shows the same projects to docker-compose, where it is there.
"""

import json
import pathlib
import tempfile
import unittest

from metis_planner.answers import Refused
from metis_planner.importers import compose
from metis_planner.importers.compose import input, keys

SPECIFICATION = pathlib.Path("/usr/lib/python3/dist-packages/compose/config/compose_spec.json")


def service(**more):
    return {"services": {"web": {"image": "w", **more}, "db": {"image": "d"}}}


# What is wrong with each project, as the line says it.
FAULTS = {
    "service web: Compose has no key 'dependson' here; did you mean 'depends_on'?": service(dependson=["db"]),
    "service web: Compose has no key 'comand' here; did you mean 'command'?": service(comand="x"),
    "FILE: Compose has no key 'volume' here; did you mean 'volumes'?": {**service(), "volume": {"v": {}}},
    "service web, healthcheck: Compose has no key 'tests' here; did you mean 'test'?": service(
        healthcheck={"tests": ["CMD", "x"]}
    ),
    "service web, deploy: Compose has no key 'replica' here; did you mean 'replicas'?": service(deploy={"replica": 2}),
    "service web, depends_on, db: Compose has no key 'conditions' here; did you mean 'condition'?": service(
        depends_on={"db": {"conditions": "service_healthy"}}
    ),
    "service web, volumes: Compose has no key 'readonly' here; did you mean 'read_only'?": service(
        volumes=[{"type": "bind", "source": "/x", "target": "/y", "readonly": True}]
    ),
    "volume v: Compose has no key 'drivers' here; did you mean 'driver'?": {**service(), "volumes": {"v": {"drivers": "x"}}},
    "service web: no secret login is defined": service(secrets=["login"]),
    "service web: no secret key is defined": service(secrets=[{"source": "key", "target": "/k"}]),
    "service web: no config site is defined": service(configs=["site"]),
    "service web: it has both 'network_mode' and 'networks', and Compose takes one of them": {
        **service(network_mode="host", networks=["front"]),
        "networks": {"front": {}},
    },
    "service web: 'scale' is 3 and 'deploy.replicas' 2, and Compose takes one": service(scale=3, deploy={"replicas": 2}),
    "service web: the name same is that of the container of db already": {
        "services": {"web": {"image": "w", "container_name": "same"}, "db": {"image": "d", "container_name": "same"}}
    },
    "service web: it has neither an image nor a build": {"services": {"web": {"command": "x"}}},
    "FILE: no name of a service, which has letters, digits, ., - and _: we b": {"services": {"we b": {"image": "w"}}},
    "FILE: no name of a volume, which has letters, digits, ., - and _: a/b": {**service(), "volumes": {"a/b": {}}},
    "FILE: no name of a project, which has small letters, digits, - and _: My Shop": {**service(), "name": "My Shop"},
    "service web: no name of a container: -x": service(container_name="-x"),
    "service web: 'depends_on' has twice: db": service(depends_on=["db", "db"]),
    "service web: 'networks' has twice: front": {**service(networks=["front", "front"]), "networks": {"front": {}}},
    "volume rows: it is external, so Compose takes no 'driver' for it": {
        **service(),
        "volumes": {"rows": {"external": True, "driver": "local"}},
    },
    "network front: it is external, so Compose takes no 'driver' for it": {
        **service(),
        "networks": {"front": {"external": True, "driver": "bridge"}},
    },
    "the variable METIS_NEVER is not set: say it": service(environment={"X": "${METIS_NEVER:?say it}"}),
    "the variable METIS_NEVER is not set: it is required": service(command=["run", "${METIS_NEVER?}"]),
    "service web: its image is no text, and wants quotes: 1.1": service(image=1.10),
    "service web, depends_on: db has no condition, and Compose wants one": service(depends_on={"db": {}}),
    "service web, volumes: the type of one is none of bind, volume, tmpfs, cluster, npipe, image: None": service(
        volumes=[{"source": "/x", "target": "/y"}]
    ),
    "secret login: exactly one of file, environment has to be there": {**service(), "secrets": {"login": {}}},
    "service web: the test of its healthcheck has to begin with one of NONE, CMD, CMD-SHELL: curl": service(
        healthcheck={"test": ["curl", "x"]}
    ),
}
# What Compose takes, beside each of the faults above.
SOUND = (
    service(depends_on=["db"], environment={"X": "${METIS_NEVER:-y} $(date) $1"}, command="echo $$HOME"),
    {**service(**{"x-more": 1}), "x-common": {"anything": 1}},
    service(healthcheck={"test": ["CMD", "x"], "start_interval": "1s"}, deploy={"replicas": 2}, scale=2),
    {**service(secrets=["login"], configs=[{"source": "site"}]), "secrets": {"login": {"file": "x"}}, "configs": {"site": {"content": "x"}}},
    service(network_mode="host", volumes=[{"type": "bind", "source": "/x", "target": "/y", "read_only": True}]),
    {"services": {"web": {"build": "."}, "off": {"profiles": ["p"], "networks": ["nowhere"]}}},
    {**service(), "volumes": {"rows": {"external": True, "name": "other"}}, "networks": {"front": None}},
    {"services": {"a": {"image": "w", "container_name": "same"}, "b": {"image": "w", "container_name": "same", "profiles": ["p"]}}},
    {"services": {"tunnel": {"provider": {"type": "x"}}, "web": {"image": "w", "depends_on": ["tunnel"]}}},
)


def read(project, folder):
    path = pathlib.Path(folder) / "project.json"
    path.write_text(json.dumps(project))
    return compose.Plan([input.read_project(str(path))])


class FaultsTest(unittest.TestCase):
    def setUp(self):
        folder = tempfile.TemporaryDirectory()
        self.addCleanup(folder.cleanup)
        self.folder = folder.name

    def test_each_is_refused_with_its_line(self):
        for line, project in FAULTS.items():
            with self.subTest(line), self.assertRaises(Refused) as caught:
                read(project, self.folder)
            self.assertEqual(str(caught.exception).replace(f"{self.folder}/project.json", "FILE"), line)

    def test_what_compose_takes_is_taken(self):
        for project in SOUND:
            with self.subTest(project):
                read(project, self.folder).document()

    def test_what_is_off_may_lack_what_it_names(self):
        off = {"image": "w", "profiles": ["p"], "volumes": ["rows:/r"], "secrets": ["s"]}
        project = {"services": {"web": {"image": "w"}, "off": off}}
        read(project, self.folder).document()
        path = pathlib.Path(self.folder) / "project.json"
        with self.assertRaisesRegex(Refused, "^service off: no volume rows is defined$"):
            compose.Plan([input.read_project(str(path))], ["p"])

    def test_a_name_of_the_project_from_a_variable(self):
        (pathlib.Path(self.folder) / ".env").write_text("COMPOSE_PROJECT_NAME=My_Shop\n")
        with self.assertRaisesRegex(Refused, "no name of a project, which has small letters, digits, - and _: My_Shop$"):
            read(service(), self.folder)


@unittest.skipUnless(SPECIFICATION.exists(), "the schema of docker-compose is not there (apt-get install docker-compose)")
class SpecificationTest(unittest.TestCase):
    """All keys of the schema that docker-compose brings are known."""

    def setUp(self):
        self.schema = json.loads(SPECIFICATION.read_text())

    def keys_of(self, definition, *path):
        found = self.schema["definitions"][definition]
        for each in path:
            found = found["properties"][each]
        return set(found["properties"])

    def test_keys(self):
        self.assertLessEqual(set(self.schema["properties"]), keys.PROJECT)
        self.assertLessEqual(self.keys_of("service"), keys.SERVICE)
        self.assertLessEqual(self.keys_of("healthcheck"), keys.BELOW_SERVICE["healthcheck"])
        self.assertLessEqual(self.keys_of("deployment"), keys.BELOW_SERVICE["deploy"])
        for path in ("restart_policy", "resources", "placement"):
            self.assertLessEqual(self.keys_of("deployment", path), keys.BELOW_SERVICE[f"deploy.{path}"])
        for kind, known in keys.OF_KIND.items():
            self.assertLessEqual(self.keys_of(kind[:-1]), known)

    def test_keys_of_lists(self):
        told = self.schema["definitions"]["service"]["properties"]
        for path in ("ports", "volumes", "secrets", "configs"):
            each = next(form for form in told[path]["items"]["oneOf"] if form["type"] == "object")
            self.assertLessEqual(set(each["properties"]), keys.BELOW_SERVICE[f"{path}.[]"])
        build = next(form for form in told["build"]["oneOf"] if form["type"] == "object")
        self.assertLessEqual(set(build["properties"]), keys.BELOW_SERVICE["build"])
