import contextlib
import json
import pathlib
import tempfile
import unittest
import unittest.mock

from metis_planner.answers import Refused
from metis_planner.importers import compose
from metis_planner.importers.compose import input, variables
from tests.importers.shapes import shape

try:
    import yaml
except ImportError:
    yaml = None

EXAMPLES = pathlib.Path(__file__).resolve().parents[2] / "examples"


def project_of(services, **more):
    with tempfile.TemporaryDirectory() as folder:
        path = pathlib.Path(folder) / "project.json"
        path.write_text(json.dumps({"name": "test", "services": services, **more}))
        return input.read_project(str(path))


def imported(services, profiles=(), given=(), **more):
    return shape(compose.universe([project_of(services, **more)], profiles, given))


def alone(**more):
    """A service without networks, so that a universe is short."""
    return {"image": "i", "network_mode": "none", **more}


def waiting(**conditions):
    return alone(depends_on={other: {"condition": condition} for other, condition in conditions.items()})


def thing(name):
    return {name: ["absent > there", f"there +{name} > absent"]}


def service(name, needs=(), last="started", things=("image/i",)):
    """A service that comes to one milestone."""
    low = "".join(f" -{each}" for each in things)
    high = low + "".join(f" -{each}" for each in needs)
    states = ["absent > created", f"created{low} > started > absent"]
    if last == "started":
        return {name: [*states, f"started +{name}/started{high} > created"]}
    return {name: [*states, f"started{high} > {last} > created", f"{last} +{name}/{last}{high} > created"]}


def project(*needs):
    return {"project": ["down > up", " ".join(["up", *(f"-{each}" for each in needs), "> down"])]}


class ServicesTest(unittest.TestCase):
    def test_networks_volumes_and_images(self):
        found = imported(
            {
                "a": {
                    "image": "x/y:1",
                    "networks": {"front": None, "outside": {}},
                    "volumes": [
                        {"type": "volume", "source": "data", "target": "/d"},
                        {"type": "bind", "source": "/etc", "target": "/e"},
                        {"type": "tmpfs", "target": "/t"},
                        "data:/again",
                        "kept:/k:ro",
                        "./here:/h",
                        "/anonymous",
                        "anonymous/too",
                    ],
                },
                "b": {"build": {"context": "."}},
            },
            networks={"front": {}, "outside": {"external": True}},
            volumes={"data": {}, "kept": {"external": True}},
        )
        expected = {
            **service("a", things=("network/front", "volume/data", "image/x/y_1")),
            **service("b", things=("network/default", "image/test-b")),
            **thing("image/test-b"),
            **thing("image/x/y_1"),
            **thing("network/default"),
            **thing("network/front"),
            **thing("volume/data"),
            **project("a/started", "b/started"),
        }
        self.assertEqual(found, expected)

    def test_one_letter_before_a_colon_is_a_drive_as_for_compose(self):
        found = imported({"a": alone(volumes=["c:/here:/h"])})
        self.assertEqual(found["a"], service("a")["a"])

    def test_a_list_of_depends_on_waits_for_the_start(self):
        found = imported({"a": alone(depends_on=["b"]), "b": alone()})
        expected = {
            **service("a", ["b/started"]),
            **service("b"),
            **thing("image/i"),
            **project("a/started", "b/started"),
        }
        self.assertEqual(found, expected)

    def test_a_later_milestone_is_the_last_state(self):
        found = imported(
            {
                "a": waiting(b="service_healthy", c="service_completed_successfully"),
                "b": alone(),
                "c": waiting(b="service_healthy"),
            }
        )
        expected = {
            **service("a", ["b/healthy", "c/completed"]),
            **service("b", last="healthy"),
            **service("c", ["b/healthy"], last="completed"),
            **thing("image/i"),
            **project("a/started", "b/healthy", "c/completed"),
        }
        self.assertEqual(found, expected)

    def test_two_milestones_that_are_asked_for_stand_apart(self):
        found = imported({"a": waiting(c="service_started"), "b": waiting(c="service_healthy"), "c": alone()})
        expected = {
            **service("a", ["c/started"]),
            **service("b", ["c/healthy"]),
            **service("c"),
            "c/healthy": ["awaited > healthy", "healthy +c/healthy -c/started > awaited"],
            **thing("image/i"),
            **project("a/started", "b/started", "c/healthy"),
        }
        self.assertEqual(found, expected)

    def test_what_compose_starts_first_by_itself(self):
        found = imported(
            {
                "a": alone(links=["b:db"], volumes_from=["c:ro", "container:z"], ipc="service:d", pid="host"),
                "b": alone(),
                "c": alone(),
                "d": alone(),
                "e": {"image": "i", "network_mode": "service:d"},
            }
        )
        waits = ["b/started", "c/started", "d/started"]
        # The container of one in a namespace of another one, or with its volumes, can only be made where that one is.
        created = "created -image/i -c/started -d/started > started > absent"
        self.assertEqual(found["a"], ["absent > created", created, *service("a", waits)["a"][2:]])
        created = "created -image/i -d/started > started > absent"
        self.assertEqual(found["e"], ["absent > created", created, *service("e", ["d/started"])["e"][2:]])

    def test_what_a_service_says_itself_counts_before_that(self):
        found = imported({"a": {**waiting(b="service_healthy"), "links": ["b"]}, "b": alone()})
        self.assertEqual(found["a"], service("a", ["b/healthy"])["a"])

    def test_two_later_milestones_stand_apart_too(self):
        conditions = {"a": "service_healthy", "b": "service_completed_successfully"}
        found = imported({**{name: waiting(c=each) for name, each in conditions.items()}, "c": alone()})
        expected = {
            **service("a", ["c/healthy"]),
            **service("b", ["c/completed"]),
            **service("c"),
            "c/healthy": ["awaited > healthy", "healthy +c/healthy -c/started > awaited"],
            "c/completed": ["awaited > completed", "completed +c/completed -c/started > awaited"],
            **thing("image/i"),
            **project("a/started", "b/started", "c/healthy", "c/completed"),
        }
        self.assertEqual(found, expected)

    def test_a_cycle_is_the_planners_to_refuse(self):
        found = imported({"a": alone(depends_on=["b"]), "b": alone(depends_on=["a"])})
        self.assertEqual(found["a"], service("a", ["b/started"])["a"])
        self.assertEqual(found["b"], service("b", ["a/started"])["b"])

    def test_services_with_names_that_are_taken(self):
        found = imported({"project": alone(), "port": alone(depends_on=["project"]), "volume": alone()})
        self.assertEqual(list(found), ["service/port", "service/project", "service/volume", "image/i", "project"])
        self.assertEqual(found["service/port"], service("service/port", ["service/project/started"])["service/port"])


class ReplicasTest(unittest.TestCase):
    def test_they_are_a_count(self):
        found = imported(
            {
                "a": waiting(b="service_healthy", c="service_started"),
                "b": alone(deploy={"replicas": 3}),
                "c": alone(scale=2),
            }
        )
        self.assertEqual(found["a"], service("a", ["b/healthy*3", "c/started*2"])["a"])
        self.assertEqual(found["project"], project("a/started", "b/healthy*3", "c/started*2")["project"])

    def test_all_of_them_are_waited_for_where_a_milestone_stands_apart(self):
        found = imported(
            {"a": waiting(c="service_started"), "b": waiting(c="service_healthy"), "c": alone(deploy={"replicas": 3})}
        )
        self.assertEqual(found["c/healthy"][1], "healthy +c/healthy -c/started*3 > awaited")
        self.assertEqual(found["b"], service("b", ["c/healthy"])["b"])
        self.assertEqual(found["project"], project("a/started", "b/started", "c/healthy")["project"])

    def test_none_at_all(self):
        found = imported({"a": alone(depends_on=["b"]), "b": alone(deploy={"replicas": 0})})
        self.assertEqual(found, {**service("a"), **thing("image/i"), **project("a/started")})

    def test_more_than_128_are_cut_into_parts(self):
        services = {f"s{number}": alone(deploy={"replicas": 16}) for number in range(9)}
        found = imported(services)
        self.assertEqual(found["project"], project("project/part-1", "project/part-2")["project"])


class FailingTest(unittest.TestCase):
    """There is no plan where Compose would fail, or wait for ever."""

    def refused(self, services, **more):
        with self.assertRaises(Refused) as caught:
            imported(services, **more)
        return str(caught.exception)

    def test_a_health_that_is_never_checked(self):
        reason = "service a: it waits for b to be healthy, whose healthcheck is off"
        for check in ({"disable": True}, {"disable": "true"}, {"test": ["NONE"]}, {"test": "NONE"}):
            self.assertEqual(self.refused({"a": waiting(b="service_healthy"), "b": alone(healthcheck=check)}), reason)
        imported({"a": waiting(b="service_healthy"), "b": alone(healthcheck={"test": "x", "disable": "false"})})
        imported({"a": waiting(b="service_started"), "b": alone(healthcheck={"disable": True})})

    def test_one_that_never_completes(self):
        for told in (
            {"restart": "always"},
            {"restart": "unless-stopped"},
            {"deploy": {"restart_policy": {"condition": "any"}}},
        ):
            reason = self.refused({"a": waiting(b="service_completed_successfully"), "b": alone(**told)})
            self.assertRegex(
                reason, "^service a: it waits for b to complete, which starts again whenever it ends [(]restart: "
            )
        for told in (
            {"restart": "no"},
            {"restart": "on-failure:3"},
            {"restart": "always", "deploy": {"restart_policy": {"condition": "none"}}},
        ):
            imported({"a": waiting(b="service_completed_successfully"), "b": alone(**told)})

    def test_one_that_depends_on_itself(self):
        for told in ({"depends_on": ["a"]}, {"links": ["a:x"]}, {"network_mode": "service:a"}):
            self.assertEqual(self.refused({"a": {"image": "i", **told}}), "service a: it depends on itself")

    def test_replicas_with_one_name(self):
        services = {"a": alone(container_name="x", deploy={"replicas": 2})}
        self.assertEqual(self.refused(services), "service a: 2 replicas cannot all have the name x")

    def test_what_it_can_do_without_does_not_hold_it_up(self):
        need = {"b": {"condition": "service_healthy", "required": "false"}}
        found = imported({"a": alone(depends_on=need), "b": alone(healthcheck={"disable": True})})
        self.assertEqual(found["a"], service("a")["a"])


class FlagTest(unittest.TestCase):
    def test_words_in_quotes(self):
        tables = {"networks": {"n": {"external": "false"}, "m": {"external": "True"}}}
        found = imported({"a": {"image": "i", "networks": ["n", "m"]}}, **tables)
        self.assertIn("network/n", found)
        self.assertNotIn("network/m", found)
        with self.assertRaisesRegex(Refused, "^network n: 'external' is neither true nor false: maybe$"):
            imported({"a": alone()}, networks={"n": {"external": "maybe"}})


class BuildTest(unittest.TestCase):
    def test_an_image_that_is_built_on_that_of_another_service(self):
        for contexts in ({"base": "service:b", "files": "./x"}, ["base=service:b"]):
            services = {
                "a": {"build": {"context": ".", "additional_contexts": contexts}, "network_mode": "none"},
                "b": {"build": ".", "network_mode": "none", "profiles": ["off"]},
            }
            found = imported(services)
            self.assertEqual(found["image/test-a"], ["absent > there", "there +image/test-a -image/test-b > absent"])
            self.assertEqual(found["image/test-b"], thing("image/test-b")["image/test-b"])
            self.assertNotIn("b", found)

    def test_what_is_built_is_none_that_another_service_names(self):
        found = imported({"app": {"build": ".", "network_mode": "none"}, "other": alone(image="app")})
        self.assertEqual([name for name in found if name.startswith("image/")], ["image/app", "image/test-app"])

    def test_one_that_nobody_defines(self):
        with self.assertRaisesRegex(Refused, "^service a: it is built on b, which nobody defines$"):
            imported({"a": {"build": {"additional_contexts": {"x": "service:b"}}}})


class VariablesTest(unittest.TestCase):
    def text(self, text, **values):
        return variables.Variables(values).inside(text)

    def test_values(self):
        for text, expected in {
            "a$B-${B}-$$B": "ab-b-$B",
            "${X:-${B}c}": "bc",
            "${E-x}${E:-y}": "y",
            "${B:+there}${X+gone}": "there",
            "${B:?no}": "b",
        }.items():
            self.assertEqual(self.text(text, B="b", E=""), expected, text)
        self.assertEqual(self.text({"$B": ["$B", 1, None]}, B="b"), {"$B": ["b", 1, None]})

    def test_what_is_not_set_stays_and_is_kept(self):
        found = variables.Variables({})
        self.assertEqual(found.inside(["x:$T", "y:${T}"]), ["x:$T", "y:${T}"])
        self.assertEqual(list(found.notes()), ["the variable T is not set, and stays as it stands in: $T"])

    def test_refused(self):
        for text, reason in {
            "${T:?say which}": "the variable T is not set: say which",
            "a$-": "no variable behind the $ in: a$-; $$ says one",
            "${T": "no brace closes the variable in: ${T",
            "${9}": "no variable: ${9}",
            "${X:-" * 30 + "}" * 30: "variables inside variables too deeply",
        }.items():
            with self.assertRaises(Refused) as caught:
                self.text(text)
            self.assertEqual(str(caught.exception), reason)

    def test_a_project_with_what_lies_beside_it(self):
        with tempfile.TemporaryDirectory() as folder:
            path = pathlib.Path(folder) / "compose.yaml"
            path.write_text(
                json.dumps({"services": {"a": alone(image="x:${METIS_TAG}", environment=["Y=$METIS_UNLOOKED"])}})
            )
            (path.parent / ".env").write_text("# a file\nexport METIS_TAG='7' \n")
            (path.parent / "compose.override.yml").write_text("services: {}\n")
            project = input.read_project(str(path))
        self.assertEqual(project.services["a"].image, "x:7")
        self.assertEqual(len(project.notes), 1)
        self.assertRegex(
            project.notes[0], "compose.override.yml lies beside it, and is not read; `docker compose config`"
        )


class ProfilesTest(unittest.TestCase):
    SERVICES = {
        "a": alone(depends_on={"b": {"condition": "service_started", "required": False}}),
        "b": alone(profiles=["debug"]),
    }

    def test_off(self):
        self.assertEqual(imported(self.SERVICES), {**service("a"), **thing("image/i"), **project("a/started")})

    def test_on(self):
        found = imported(self.SERVICES, ["debug"])
        self.assertEqual(found["a"], service("a", ["b/started"])["a"])
        self.assertEqual(found["project"], project("a/started", "b/started")["project"])
        self.assertEqual(imported(self.SERVICES, ["*"]), found)


SHOP = {
    "db": {"image": "p", "networks": ["n"], "volumes": ["vol:/d"]},
    "web": {"image": "w:1", "networks": ["n", "m"], "depends_on": {"db": {"condition": "service_healthy"}}},
}
SHOP_TABLES = {"networks": {"n": {}, "m": {}}, "volumes": {"vol": {}}}


class GivenTest(unittest.TestCase):
    def test_a_volume(self):
        found = imported(SHOP, given=["volume/vol"], **SHOP_TABLES)
        self.assertEqual(found["db"], service("db", last="healthy", things=("network/n", "image/p"))["db"])
        self.assertNotIn("volume/vol", found)

    def test_a_service_stands_with_all_that_it_needs(self):
        found = imported(SHOP, given=["db"], **SHOP_TABLES)
        expected = {
            **service("web", things=("network/m", "image/w_1")),
            **thing("image/w_1"),
            **thing("network/m"),
            **project("web/started"),
        }
        self.assertEqual(found, expected)

    def test_no_such_thing(self):
        with self.assertRaises(Refused) as caught:
            imported(SHOP, given=["volume/w"], **SHOP_TABLES)
        reason = "--given volume/w: the project has no service, network, volume or image of this name"
        self.assertEqual(str(caught.exception), reason)


class NextTest(unittest.TestCase):
    def test_what_is_the_same_is_there_once(self):
        first = project_of({"db": alone(), "api": alone(depends_on=["db"]), "web": alone(depends_on=["api"])})
        second = project_of(
            {
                "db": alone(),
                "api": {**alone(depends_on=["db"]), "image": "j"},
                "web": alone(depends_on=["api"]),
                "new": alone(depends_on=["web"]),
            }
        )
        found = shape(compose.universe([first, second]))
        expected = {
            **service("api", ["db/started"]),
            **service("db"),
            **service("web", ["api/started"]),
            **thing("image/i"),
            **project("api/started", "db/started", "web/started"),
            "api@next": [
                each.replace("+api/started", "+api/started@next")
                for each in service("api", ["db/started"], things=("image/j",))["api"]
            ],
            **service("new", ["web/started@next"]),
            "web@next": [each.replace("/started", "/started@next") for each in service("web", ["api/started"])["web"]],
            **thing("image/j"),
            "project@next": project("api/started@next", "db/started", "new/started", "web/started@next")["project"],
        }
        self.assertEqual(found, expected)

    def test_the_same_project_twice_has_a_target_for_each(self):
        both = [project_of({"a": alone()}), project_of({"a": alone()})]
        expected = {
            **service("a"),
            **thing("image/i"),
            **project("a/started"),
            "project@next": project("a/started")["project"],
        }
        self.assertEqual(shape(compose.universe(both)), expected)


DATA = {
    "db": alone(image="d:1", volumes=["vol:/d"]),
    "api": alone(image="a:1", depends_on=["db"], volumes=["vol:/d:ro"]),
}


class DataTest(unittest.TestCase):
    """A later form of a project takes away no data."""

    def plan(self, second, **options):
        first = project_of(DATA, volumes={"vol": {}})
        return compose.Plan([first, project_of(second, volumes={"vol": {}, "more": {}})], **options)

    def test_volumes_and_who_writes_to_them_are_given(self):
        plan = self.plan({"db": {**DATA["db"], "image": "d:2"}, "api": {**DATA["api"], "image": "a:2"}})
        found = shape(plan.document())
        self.assertEqual(sorted(found), ["api", "api@next", "image/a_1", "image/a_2", "project", "project@next"])
        self.assertEqual(found["api"], service("api", things=("image/a_1",))["api"])
        reason = "given, since it holds data: db, volume/vol; --replace-data takes it as all else"
        self.assertEqual(list(plan.notes()), [reason])
        self.assertIn("where db, volume/vol stands", json.loads(plan.document())["comment"])

    def test_unless_asked_for(self):
        plan = self.plan({"db": {**DATA["db"], "image": "d:2"}}, replaces_data=True)
        self.assertTrue({"db", "db@next", "volume/vol"} <= set(shape(plan.document())))
        reason = "db@next writes to volume/vol while db, which writes there too, still stands"
        self.assertEqual(list(plan.notes()), [reason])

    def test_what_is_new_is_made(self):
        plan = self.plan({**DATA, "new": alone(volumes=["more:/m"])})
        self.assertIn("volume/more", shape(plan.document()))

    def test_what_a_host_has_once(self):
        web = alone(
            ports=["127.0.0.1:80:80", "90", "53:53/udp", {"target": 1, "published": "443"}], container_name="web"
        )
        first, second = project_of({"web": web}), project_of({"web": {**web, "image": "j"}})
        reason = "web and web@next both take port 127.0.0.1:80, port 443, port 53/udp, the name web, so they cannot stand on one host at once"
        self.assertEqual(list(compose.Plan([first, second]).notes()), [reason])
        self.assertEqual(list(compose.Plan([first, first]).notes()), [])

    def test_a_port_that_replicas_share(self):
        plan = compose.Plan([project_of({"a": alone(ports=["80:80"], scale=2), "b": alone(ports=["80:1"])})])
        self.assertEqual(list(plan.notes()), ["port 80 is taken by 3 containers, of a, b: one host has it once"])

    def test_a_health_that_only_an_image_can_check(self):
        plan = compose.Plan([project_of({"a": waiting(b="service_healthy"), "b": alone()})])
        self.assertEqual(list(plan.notes()), ["b has no healthcheck here: it gets healthy if its image has one"])


class RefusedTest(unittest.TestCase):
    def refused(self, services, **more):
        with self.assertRaises(Refused) as caught:
            imported(services, **more)
        return str(caught.exception)

    def refused_text(self, text):
        with tempfile.TemporaryDirectory() as folder:
            path = pathlib.Path(folder) / "compose.yaml"
            path.write_bytes(text)
            with self.assertRaises(Refused) as caught:
                input.read_project(str(path))
            return str(caught.exception).replace(str(path), "FILE")

    def test_a_service_that_nobody_defines(self):
        reason = "service a: it depends on b, which nobody defines"
        self.assertEqual(self.refused({"a": alone(depends_on=["b"])}), reason)

    def test_a_service_that_is_off(self):
        services = {"a": alone(depends_on=["b"]), "b": alone(profiles=["debug"])}
        self.assertEqual(
            self.refused(services), "service a: it depends on b, which is off; --profile debug switches it on"
        )

    def test_a_condition_that_there_is_not(self):
        reason = "service a: no condition service_ready, for b"
        self.assertEqual(self.refused({"a": waiting(b="service_ready"), "b": alone()}), reason)

    def test_networks_and_volumes_that_nobody_defines(self):
        self.assertEqual(self.refused({"a": {"networks": ["n"]}}), "service a: no network n is defined")
        self.assertEqual(self.refused({"a": {"volumes": ["vol:/d"]}}), "service a: no volume vol is defined")

    def test_values_of_other_forms(self):
        for told, reason in {
            "replicas": ({"deploy": {"replicas": "${N}"}}, "service a: its replicas are no whole number: ${N}"),
            "deploy": ({"deploy": 3}, "service a: 'deploy' is no mapping"),
            "volumes": ({"volumes": "v:/d"}, "service a: 'volumes' is no list"),
            "depends_on": ({"depends_on": "b"}, "service a: 'depends_on' is no list"),
            "a condition": ({"depends_on": {"b": "healthy"}}, "service a, depends_on: 'b' is no mapping"),
            "extends": ({"extends": "b"}, "service a: it extends another one; `docker compose config` resolves that"),
        }.values():
            self.assertEqual(self.refused({"a": told}), reason)
        self.assertEqual(self.refused({"a": ["b"]}), "service a: no mapping")

    def test_too_many_replicas(self):
        reason = "project asks for 17 providers of a/started, and Metis takes at most 16"
        self.assertEqual(self.refused({"a": alone(deploy={"replicas": 17})}), reason)

    def test_no_project(self):
        self.assertEqual(self.refused_text(b"[]"), "FILE: no Compose project, since it has no services")
        self.assertEqual(self.refused_text(b'{"services": {}}'), "FILE: no Compose project, since it has no services")
        self.assertEqual(self.refused_text(b'{"services": [1]}'), "FILE: 'services' is no mapping")
        include = b'{"include": ["x"], "services": {"a": {}}}'
        self.assertEqual(
            self.refused_text(include), "FILE: it includes other files; `docker compose config` resolves them"
        )

    def test_no_text(self):
        self.assertEqual(self.refused_text(b"\xff"), "FILE: no UTF-8 text")

    def test_no_such_file(self):
        with self.assertRaisesRegex(Refused, "^/nowhere/compose.yaml: No such file or directory$"):
            input.read_project("/nowhere/compose.yaml")

    @unittest.skipUnless(yaml, "PyYAML is not there")
    def test_no_yaml(self):
        reason = self.refused_text(b"services:\n  a: {image: x\n  b: [\n")
        self.assertRegex(reason, "^FILE: no YAML: line [34]: ")

    def test_yaml_without_pyyaml(self):
        with without_yaml():
            reason = self.refused_text(b"services: {a: {image: x}}\n")
        self.assertEqual(
            reason,
            "FILE: no JSON, and PyYAML is not there to read YAML; "
            "`docker compose config --format json` prints a project as JSON",
        )


@contextlib.contextmanager
def without_yaml():
    """As if PyYAML were not there: its import fails."""
    with unittest.mock.patch.dict("sys.modules", {"yaml": None}):
        yield


@unittest.skipUnless(yaml, "PyYAML is not there")
class ExampleTest(unittest.TestCase):
    def test_the_universe_of_the_example_is_its_project(self):
        path = EXAMPLES / "shop"
        document = compose.universe([input.read_project(str(path / "compose.yaml"))])
        self.assertEqual(document, (path / "shop.json").read_text())

    def test_the_universe_of_the_rollout_is_its_two_projects(self):
        path = EXAMPLES / "shop"
        projects = [input.read_project(str(path / name)) for name in ("compose.yaml", "next.yaml")]
        given = ["db", "network/front", "image/nginx:1.26"]
        self.assertEqual(compose.universe(projects, given=given), (path / "rollout.json").read_text())
