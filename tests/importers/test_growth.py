"""Input of a few megabytes that took minutes, or much memory, before what it says was bounded."""

import json
import unittest.mock

from metis_planner.importers.debian.barred import Barred
from tests.effort import LATER, soon
from tests.importers.test_hostile import HostileCase, ended


class GrowthTest(HostileCase):
    """Input of a few megabytes that took minutes before what it says was bounded."""

    def stanza(self, name, **fields):
        return f"Package: {name}\nVersion: 1\n" + "".join(f"{key}: {told}\n" for key, told in fields.items()) + "\n"

    def test_many_that_bar_a_name_that_many_provide(self):
        bars = [self.stanza(f"e{number}", Essential="yes", Conflicts=f"x (>= {number})") for number in range(500)]
        provides = [self.stanza(f"p{number}", Provides="x (= 9999)") for number in range(60_000)]
        index = self.file("".join([*bars, *provides, self.stanza("a", Depends="x")]))
        reason = "more than 500000 ways to meet the dependences and conflicts of these packages"
        self.assertEqual(self.refused("import", "debian", "--index", index, "a", most=LATER), reason)
        bars = [self.stanza(f"e{number}", Essential="yes", Conflicts="x") for number in range(500)]
        index = self.file("".join([*bars, *provides, self.stanza("a", Depends="x")]))
        gone_through = []

        def bar(barred, names, really=Barred.bar):
            names = list(names)
            gone_through.extend(names)
            really(barred, names)

        with unittest.mock.patch.object(Barred, "bar", bar):
            self.assertRegex(self.refused("import", "debian", "--index", index, "a", most=LATER), "^e0 and p0 conflict")
        # All of them have one relation, and what it bars is gone through once.
        self.assertLess(len(gone_through), 2 * len(provides))

    def test_records_and_names_without_end(self):
        index = self.file(b"".join(b"Package: p%d\n\n" % number for number in range(400_000)))
        reason = "more than 300000 records in one index"
        self.assertEqual(self.refused("import", "debian", "--index", index, "a", most=LATER), reason)
        named = ",".join(f"x{number}" for number in range(20_000))
        index = self.file("".join(self.stanza(f"p{number}", Provides=named) for number in range(20)))
        self.assertEqual(self.refused("import", "debian", "--index", index, "a"), "more than 300000 names that packages provide")

    def test_a_stanza_with_one_character_beyond_the_first_plane(self):
        index = self.file("Package: a\nDescription: " + "x" * 6_000_000 + "\U0001f600\n")
        self.assertEqual(self.refused("import", "debian", "--index", index, "a"), "file: a stanza of more than 4194304 bytes")

    def test_units(self):
        folder = self.folder / "etc/systemd/system"
        (folder / "t.target.d").mkdir(parents=True)
        words = "import", "systemd", "--root", self.folder, "t.target"
        for path in ("/a" * 5_000, "/a" * 1_000_000):
            (folder / "t.target").write_text(f"[Unit]\nDefaultDependencies=no\nRequiresMountsFor={path}\n")
            self.assertEqual(ended(*words)[0], 0)
        names = " ".join(f"u{number}.service" for number in range(200_000))
        (folder / "t.target").write_text(f"[Unit]\nAfter={names}\n")
        self.assertEqual(self.refused(*words), "t.target: with the units before it more than 50000 words of settings")
        (folder / "t.target").write_text("[Unit]\n")
        (folder / "big").write_text("[Unit]\n" + "X=\n" * 1_000_000)
        for number in range(20):
            (folder / f"t.target.d/{number}.conf").symlink_to("../big")
        self.assertRegex(self.refused(*words, most=LATER), "[.]conf: with the unit files before it more than 8388608 bytes$")

    def test_names_of_many_dashes(self):
        folder = self.folder / "etc/systemd/system"
        folder.mkdir(parents=True)
        names = ["a-" * 100 + f"{number}@x.service" for number in range(300)]
        (folder / "t.target").write_text(f"[Unit]\nDefaultDependencies=no\nWants={' '.join(names)}\n")
        for name in names:
            (folder / name.replace("@x", "@")).write_text("[Unit]\nDefaultDependencies=no\n")
        with soon():
            self.assertEqual(ended("import", "systemd", "--root", self.folder, "t.target")[0], 0)

    def test_webhooks_and_commands(self):
        rule = {"apiGroups": ["*"], "operations": ["*"], "resources": ["*"]}
        hooks = [{"rules": [rule], "clientConfig": {"service": {"name": f"s{n}", "namespace": "n"}}} for n in range(300)]
        version = "admissionregistration.k8s.io/v1"
        told = {"kind": "MutatingWebhookConfiguration", "apiVersion": version, "metadata": {"name": "w"}, "webhooks": hooks}
        pods = [{"kind": "Pod", "apiVersion": "v1", "metadata": {"name": f"p{n}"}, "spec": {}} for n in range(600)]
        file = self.file(json.dumps({"kind": "List", "items": [told, *pods]}))
        reason = "300 webhooks and 601 objects, and at most 100000 times one is asked about one"
        self.assertEqual(self.refused("import", "kubernetes", file), reason)
        pods[0]["spec"] = {"initContainers": [{"command": ["po " * 300_000]}]}
        file = self.file(json.dumps({"kind": "List", "items": pods}))
        self.assertRegex(self.refused("import", "kubernetes", file), "the commands of init containers have more than 524288 characters$")

    def test_variables(self):
        for command, reason in (
            ("$A" * 7_000_000, "more than 100000 variables"),
            ("${A:-" * 30 + "x" + "}" * 30, "variables inside variables too deeply"),
        ):
            project = json.dumps({"services": {"a": {"image": "i", "command": command}}})
            self.assertEqual(self.refused("import", "compose", self.file(project)), reason)
        (self.folder / ".env").write_text("A0=xx\n" + "".join(f"A{at + 1}=$A{at}$A{at}\n" for at in range(40)))
        project = self.file('{"services": {"a": {"image": "i"}}}')
        self.assertRegex(self.refused("import", "compose", project), "variables whose values have more than 4194304 characters together$")

    def test_values_of_json(self):
        project = self.file(b'{"services": {"a": {"x-x": [' + b"[]," * 4_000_000 + b"[]]}}}")
        self.assertEqual(self.refused("import", "compose", project), "file: more than 1000000 values")

    def test_volumes_from_each_other(self):
        services = {f"s{n}": {"image": "i", "volumes_from": [f"s{m}" for m in range(n + 1, min(n + 12, 200))]} for n in range(200)}
        project = self.file(json.dumps({"services": services}))
        self.assertEqual(ended("import", "compose", project, "--next", project)[0], 0)
