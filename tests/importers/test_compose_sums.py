"""What tells the containers of a service of a Compose project from those of another form of it, and what of the project is the
same though it is written otherwise.
"""

import json
import unittest

from metis_planner.importers import compose
from metis_planner.importers.compose import input
from tests.importers.shapes import shape
from tests.importers.test_compose import alone, imported, project, project_of, service, thing, waiting


def sums(services, **more):
    types = json.loads(compose.universe([project_of(services, **more)]))["types"]
    return {kind["name"]: kind["sum"] for kind in types if "sum" in kind}


def sum_of(**more):
    return sums({"a": alone(**more)})["a"]


class SumTest(unittest.TestCase):
    def test_each_setting_of_the_container_makes_another_one(self):
        settings = (
            {},
            {"command": ["serve"]},
            {"environment": {"A": "1"}},
            {"ports": ["80:80"]},
            {"healthcheck": {"test": ["CMD", "true"]}},
            {"image": "j"},
            {"deploy": {"resources": {"limits": {"cpus": "1"}}}},
            {"restart": "always"},
        )
        found = [sum_of(**each) for each in settings]
        self.assertEqual(len(set(found)), len(settings))

    def test_what_is_none_of_its_containers_makes_none(self):
        same = sum_of(environment={"A": "1", "B": "2"}, deploy={"labels": {"x": "y"}})
        for more in ({"pull_policy": "always"}, {"build": {"context": "."}}, {"scale": 1}):
            self.assertEqual(sum_of(environment={"B": "2", "A": "1"}, deploy={"labels": {"x": "y"}}, **more), same, more)
        self.assertEqual(sum_of(environment={"A": "1", "B": "2"}, deploy={"replicas": 2, "labels": {"x": "y"}}), same)

    def test_keys_that_are_no_texts(self):
        one, other = (input.own_sum({"labels": labels}) for labels in ({1: "a", "x": "b"}, {"x": "b", "1": "a"}))
        self.assertEqual(one, other)

    def test_whose_end_is_awaited(self):
        found = sums({"a": waiting(b="service_completed_successfully"), "b": alone()})
        self.assertRegex(found["b"], "^own:[0-9a-f]{12} - once$")
        self.assertRegex(found["a"], "^own:[0-9a-f]{12} -$")

    def test_who_follows_another_one_is_another_one_where_that_is(self):
        def found(command, **more):
            return sums({"a": alone(command=command), "b": alone(**more), "c": alone(network_mode="service:b")})

        for more in ({"network_mode": "service:a"}, {"volumes_from": ["a"]}, {"links": ["a"]}):
            one, other = found("x", **more), found("y", **more)
            self.assertRegex(one["b"], " with=a:[0-9a-f]{12}$")
            self.assertTrue(all(one[name] != other[name] for name in "abc"), more)
        one, other = (
            found(each, depends_on={"a": {"condition": "service_started", "restart": True}}) for each in ("x", "y")
        )
        self.assertNotEqual(one["b"], other["b"])
        one, other = (found(each, depends_on=["a"]) for each in ("x", "y"))
        self.assertEqual(one["b"], other["b"])

    def test_a_milestone_of_its_own_is_awaited_again_with_its_service(self):
        def found(command):
            services = {"a": waiting(c="service_started"), "b": waiting(c="service_healthy"), "c": alone(command=command)}
            return sums(services)["c/healthy"]

        self.assertNotEqual(found("x"), found("y"))

    def test_services_that_follow_each_other_in_a_circle_or_a_long_row_end(self):
        circle = {"a": alone(links=["b"]), "b": alone(links=["a"])}
        self.assertEqual(len(sums(circle)), 2)
        row = {f"s{number}": alone(links=[f"s{number + 1}"]) for number in range(500)}
        self.assertEqual(len(sums({**row, "s500": alone()})), 501)


class NextTest(unittest.TestCase):
    def test_a_change_of_the_command_is_a_change(self):
        both = [project_of({"a": alone(command=each), "b": alone()}) for each in ("x", "y")]
        found = shape(compose.universe(both))
        self.assertIn("a@next", found)
        self.assertNotIn("b@next", found)

    def test_other_replicas_replace_nobody(self):
        both = [project_of({"a": alone(depends_on=["b"]), "b": alone(scale=count)}) for count in (3, 2)]
        expected = {
            **service("a", ["b/started*2"]),
            **service("b"),
            **thing("image/i"),
            **project("a/started", "b/started*3"),
            "project@next": project("a/started", "b/started*2")["project"],
        }
        self.assertEqual(shape(compose.universe(both)), expected)

    def test_an_image_of_a_second_type_keeps_its_own_name(self):
        def with_base(base):
            build = {"context": ".", "additional_contexts": {"x": f"service:{base}"}}
            services = {"a": alone(image="r.example:5000/a:1", build=build), "b": alone(image="b"), "c": alone(image="c")}
            return project_of(services)

        types = json.loads(compose.universe([with_base("b"), with_base("c")]))["types"]
        sources = {kind["name"]: kind.get("source") for kind in types}
        self.assertEqual(sources["image/r.example_5000/a_1@next"], "image/r.example:5000/a:1@next")


class WaitTest(unittest.TestCase):
    def test_each_healthcheck_is_awaited(self):
        services = {
            "a": alone(healthcheck={"test": ["CMD", "true"]}),
            "b": alone(healthcheck={"disable": True}),
            "c": alone(),
        }
        found = shape(compose.Plan([project_of(services)], is_all_awaited=True).document())
        self.assertEqual(found["project"], project("a/healthy", "b/started", "c/started")["project"])
        self.assertEqual(imported(services)["project"], project("a/started", "b/started", "c/started")["project"])


if __name__ == "__main__":
    unittest.main()
