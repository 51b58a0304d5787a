"""A later form of a project starts nothing a second time on the data of what stands."""

import json
import unittest

from metis_planner.importers import compose
from tests.importers.shapes import shape
from tests.importers.test_compose import alone, project_of

KEPT = "given, since it holds data: {}; --replace-data takes it as all else"


class DataTest(unittest.TestCase):
    def plan(self, first, second, tables, **options):
        return compose.Plan([project_of(first, **tables), project_of(second, **tables)], **options)

    def both(self, mount, tables=None, **options):
        """The plan for a database that gets a new image, and keeps its data by this mount."""
        db = alone(image="d:1", volumes=[mount])
        api = alone(image="a:1", depends_on=["db"])
        second = {"db": {**db, "image": "d:2"}, "api": {**api, "image": "a:2"}}
        return self.plan({"db": db, "api": api}, second, tables or {}, **options)

    def test_what_keeps_its_data_outside_of_the_project_is_given(self):
        external = {"volumes": {"rows": {"external": True}}}
        for mount, tables in (
            ("rows:/rows", external),
            ({"type": "volume", "source": "rows", "target": "/rows"}, external),
            ("./rows:/rows", {}),
            ("/srv/rows:/rows:rw,z", {}),
            ("~/rows:/rows", {}),
            ({"type": "bind", "source": "/srv/rows", "target": "/rows"}, {}),
        ):
            with self.subTest(mount):
                plan = self.both(mount, tables)
                found = shape(plan.document())
                self.assertEqual(sorted(found), ["api", "api@next", "image/a_1", "image/a_2", "project", "project@next"])
                self.assertEqual(list(plan.notes()), [KEPT.format("db")])
                self.assertIn("where db stands", json.loads(plan.document())["comment"])

    def test_what_is_only_read_or_no_data_is_made_anew(self):
        for mount in ("/srv/pages:/srv:ro", "/var/run/docker.sock:/var/run/docker.sock", "/dev/fuse:/dev/fuse", "/rows",
                      {"type": "bind", "source": "/srv/pages", "target": "/x", "read_only": True},
                      {"type": "tmpfs", "target": "/x"}):
            with self.subTest(mount):
                plan = self.both(mount)
                self.assertIn("db@next", shape(plan.document()))
                self.assertEqual(list(plan.notes()), [])

    def test_a_long_volume_that_is_only_read(self):
        mount = {"type": "volume", "source": "rows", "target": "/rows", "read_only": True}
        plan = self.both(mount, {"volumes": {"rows": {}}})
        self.assertIn("db@next", shape(plan.document()))
        self.assertEqual(list(plan.notes()), [KEPT.format("volume/rows")])

    def test_who_takes_the_volumes_of_another_service_writes_to_them(self):
        db = alone(volumes=["/srv/rows:/rows"])
        services = {"db": db, "saver": alone(image="s:1", volumes_from=["db"]), "reader": alone(volumes_from=["db:ro"])}
        plan = self.plan(services, {**services, "saver": alone(image="s:2", volumes_from=["db"])}, {})
        self.assertEqual(plan.kept, ["db", "saver"])

    def test_what_stands_below_is_named(self):
        db = alone(volumes=["/srv/rows:/rows"], depends_on=["base"])
        services = {"db": db, "base": alone(image="b:1"), "web": alone(image="w:1")}
        plan = self.plan(services, {**services, "web": alone(image="w:2")}, {})
        self.assertEqual(list(plan.notes()), [KEPT.format("db, and what that depends on: base")])

    def test_a_second_one_of_another_name_on_the_same_data_is_told(self):
        for mount, tables, place in (
            ("/srv/rows:/rows", {}, "/srv/rows"),
            ("rows:/rows", {"volumes": {"rows": {"external": True}}}, "volume/rows"),
            ("rows:/rows", {"volumes": {"rows": {}}}, "volume/rows"),
        ):
            plan = self.plan({"db": alone(volumes=[mount])}, {"rows": alone(volumes=[mount])}, tables)
            self.assertIn(f"rows writes to {place} while db, which writes there too, still stands", list(plan.notes()))

    def test_so_it_is_where_data_is_replaced(self):
        plan = self.both("/srv/rows:/rows", replaces_data=True)
        self.assertIn("db@next", shape(plan.document()))
        self.assertEqual(list(plan.notes()), ["db@next writes to /srv/rows while db, which writes there too, still stands"])
