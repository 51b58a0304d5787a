"""What `metis lint` finds in sources that are wrong on purpose, in each of its forms."""

import json
import pathlib
import tempfile
import unittest

from tests.test_words import run

try:
    import yaml
except ImportError:
    yaml = None

POD = """apiVersion: v1
kind: Pod
metadata: {name: web, namespace: default}
spec:
  containers:
  - name: c
    image: nginx
    envFrom: [{configMapRef: {name: settings}}]
"""
SETTINGS = """---
apiVersion: v1
kind: ConfigMap
metadata: {name: settings, namespace: default}
"""
INGRESS = """---
apiVersion: networking.k8s.io/v1
kind: Ingress
metadata: {name: front, namespace: default}
spec:
  defaultBackend:
    service: {name: wbe, port: {number: 80}}
"""
LACKING = "Pod/default/web needs ConfigMap/default/settings, which nothing gives"
UNKNOWN = "Ingress/default/front names Service/default/wbe, which is not here"
CIRCLE = {"services": {"shop": {"image": "s", "depends_on": ["mail"]}, "mail": {"image": "m", "depends_on": ["shop"]}}}


LONG = "x" * 70
SHARED_PORT = {"services": {"a": {"image": "i", "ports": ["80:80"]}, "b": {"image": "i", "ports": ["80:81"]}}}


@unittest.skipIf(yaml is None, "PyYAML is not there")
class ManifestsTest(unittest.TestCase):
    def setUp(self):
        folder = tempfile.TemporaryDirectory()
        self.addCleanup(folder.cleanup)
        self.file = pathlib.Path(folder.name, "all.yaml")

    def linted(self, text, *words):
        self.file.write_text(text)
        status, out, said = run("-m", "metis_planner", "lint", "kubernetes", str(self.file), *words)
        self.assertEqual(said, "")
        return status, out.replace(str(self.file), "FILE")

    def test_what_is_lacking_is_an_error_and_ends_with_1(self):
        self.assertEqual(self.linted(POD), (1, f"FILE:8: {LACKING}\n"))

    def test_a_long_name_stands_as_it_is_in_the_source(self):
        text = POD.replace("name: web", f"name: {LONG}").replace("name: settings", f"name: {LONG}-settings")
        said = f"Pod/default/{LONG} needs ConfigMap/default/{LONG}-settings, which nothing gives"
        self.assertEqual(self.linted(text), (1, f"FILE:8: {said}\n"))

    def test_a_milestone_has_the_place_of_its_object(self):
        hook = POD.replace("{name: web, namespace: default}", "{name: web, namespace: default, annotations: {argocd.argoproj.io/sync-wave: '1'}}")
        self.assertEqual(self.linted(hook + SETTINGS.replace("settings", "others"))[1][:7], "FILE:8:")

    def test_many_causes_are_told_at_once_and_the_program_is_asked_once(self):
        count = 150
        text = "".join(POD.replace("name: web", f"name: web{at}").replace("name: settings", f"name: s{at}") + "---\n" for at in range(count))
        status, out = self.linted(text)
        self.assertEqual((status, out.count("which nothing gives")), (1, count))

    def test_a_service_that_is_not_there_is_told_once(self):
        rule = "{apiGroups: ['*'], apiVersions: ['*'], operations: [CREATE], resources: [pods]}"
        hook = "apiVersion: admissionregistration.k8s.io/v1\nkind: ValidatingWebhookConfiguration\nmetadata: {name: w}\n"
        hook += f"webhooks: [{{name: a.b.c, clientConfig: {{service: {{name: nope, namespace: default}}}}, rules: [{rule}]}}]\n"
        self.assertEqual(self.linted(hook)[1].count("Service/default/nope"), 1)

    def test_strict(self):
        text = POD + SETTINGS + INGRESS
        self.assertEqual(self.linted(text, "--strict"), (1, f"FILE:19: warning: {UNKNOWN}\n"))
        self.assertEqual(self.linted(POD + SETTINGS, "--strict"), (0, ""))

    def test_a_report_for_gitlab(self):
        status, out = self.linted(POD + INGRESS, "--format", "gitlab")
        error, warning = json.loads(out)
        self.assertEqual((status, error["location"]), (1, {"path": "FILE", "lines": {"begin": 8}}))
        self.assertEqual((error["description"], error["severity"], warning["severity"]), (LACKING, "major", "minor"))
        self.assertEqual(len({error["fingerprint"], warning["fingerprint"]}), 2)
        self.assertEqual(json.loads(self.linted(POD + SETTINGS, "--format", "gitlab")[1]), [])

    def test_what_is_no_manifest_is_a_finding_with_its_line(self):
        status, out = self.linted("kind: [\n", "--format", "json")
        (found,) = json.loads(out)
        self.assertEqual((status, found["rule"], found["file"], found["level"]), (1, "refused", "FILE", "error"))
        self.assertGreaterEqual(found["line"], 1)

    def test_what_is_whole_says_nothing(self):
        self.assertEqual(self.linted(POD + SETTINGS), (0, ""))

    def test_a_name_of_nothing_is_a_warning_and_ends_with_0(self):
        self.assertEqual(self.linted(POD + SETTINGS + INGRESS), (0, f"FILE:19: warning: {UNKNOWN}\n"))

    def test_errors_come_first(self):
        self.assertEqual(self.linted(POD + INGRESS), (1, f"FILE:8: {LACKING}\nFILE:15: warning: {UNKNOWN}\n"))

    def test_json(self):
        status, out = self.linted(POD + INGRESS, "--format", "json")
        lacking = {"rule": "missing", "level": "error", "component": "Pod/default/web", "message": LACKING, "file": "FILE", "line": 8}
        unknown = {"rule": "note", "level": "warning", "message": UNKNOWN, "file": "FILE", "line": 15}
        self.assertEqual((status, json.loads(out)), (1, [lacking, unknown]))

    def test_commands_of_a_workflow(self):
        said = f"::error file=FILE,line=8::{LACKING}\n::warning file=FILE,line=15::{UNKNOWN}\n"
        self.assertEqual(self.linted(POD + INGRESS, "--format", "github"), (1, said))

    def test_sarif(self):
        status, out = self.linted(POD + INGRESS, "--format", "sarif")
        (found,) = json.loads(out)["runs"]
        places = [each["locations"][0]["physicalLocation"] for each in found["results"]]
        self.assertEqual([each["region"]["startLine"] for each in places], [8, 15])
        self.assertEqual([each["level"] for each in found["results"]], ["error", "warning"])
        known = {rule["id"] for rule in found["tool"]["driver"]["rules"]}
        self.assertLessEqual({each["ruleId"] for each in found["results"]}, known)


class UnitsTest(unittest.TestCase):
    def test_what_systemd_has_itself_is_given_and_others_are_named(self):
        with tempfile.TemporaryDirectory() as folder:
            units = pathlib.Path(folder, "etc/systemd/system")
            units.mkdir(parents=True)
            (units / "a.service").write_text("[Unit]\nRequires=network-online.target b.service\n[Service]\nExecStart=/bin/true\n")
            words = ["-m", "metis_planner", "lint", "systemd", "--root", folder, "a.service"]
            status, out, said = run(*words)
            self.assertEqual((status, out.replace(folder, "ROOT"), said), (1, "ROOT/etc/systemd/system/a.service:2: a.service needs b.service, which nothing gives\n", ""))
            self.assertEqual(run(*words, "--given", "b.service"), (0, "", ""))


class ProjectTest(unittest.TestCase):
    def test_a_circle_is_told_once(self):
        with tempfile.TemporaryDirectory() as folder:
            file = pathlib.Path(folder, "compose.json")
            file.write_text(json.dumps(CIRCLE, indent=1))
            status, out, _ = run("-m", "metis_planner", "lint", "compose", str(file))
        self.assertEqual((status, out.count("\n")), (1, 1), out)
        self.assertIn("these wait for one another in a circle: ", out)
        self.assertIn("mail for shop", out)
        self.assertIn("shop for mail", out)

    def test_a_source_that_is_none_is_refused(self):
        self.assertEqual(run("-m", "metis_planner", "lint", "compose", text="{")[0], 1)


class PackagesTest(unittest.TestCase):
    def test_a_package_whose_name_has_a_plus(self):
        with tempfile.TemporaryDirectory() as folder:
            index = pathlib.Path(folder) / "Packages"
            index.write_text("Package: g++\nVersion: 1\nArchitecture: amd64\n\nPackage: c\nVersion: 1\nDepends: d\nArchitecture: amd64\n")
            self.assertEqual(run("-m", "metis_planner", "lint", "debian", "--index", str(index), "g++"), (0, "", ""))
            status, out, _ = run("-m", "metis_planner", "lint", "debian", "--index", str(index), "c")
            self.assertEqual((status, out), (1, "c needs d, which nothing gives\n"))


class NotedTest(unittest.TestCase):
    def linted(self, project, *words):
        with tempfile.TemporaryDirectory() as folder:
            file = pathlib.Path(folder, "compose.json")
            file.write_text(json.dumps(project, indent=1))
            status, out, said = run("-m", "metis_planner", "lint", "compose", str(file), *words)
            return status, out.replace(str(file), "FILE"), said

    def test_what_nobody_defines_is_a_finding_at_its_line(self):
        project = {"services": {"a": {"image": "i"}, "b": {"image": "i", "depends_on": ["nobody"]}}}
        self.assertEqual(self.linted(project), (1, "FILE:1: service b: it depends on nobody, which nobody defines\n", ""))

    def test_all_that_is_refused_is_told_and_an_import_tells_the_first(self):
        text = "services:\n  a:\n    image: i\n    depends_on: [mail]\n  b:\n    image: i\n    networks: [n]\n  c: {image: i, networks: [m]}\n"
        with tempfile.TemporaryDirectory() as folder:
            file = pathlib.Path(folder, "compose.yaml")
            file.write_text(text)
            status, out, said = run("-m", "metis_planner", "lint", "compose", str(file))
            lines = [line.removeprefix(f"{file}:") for line in out.splitlines()]
            self.assertEqual((status, said), (1, ""))
            self.assertEqual(
                lines,
                ["4: service a: it depends on mail, which nobody defines", "5: service b: no network n is defined", "8: service c: no network m is defined"],
            )
            first = run("-m", "metis_planner", "import", "compose", str(file))
            self.assertEqual(first, (1, "", "metis: service a: it depends on mail, which nobody defines\n"))

    def test_a_port_of_the_host_that_is_taken_twice_is_a_warning(self):
        status, out, said = self.linted(SHARED_PORT)
        self.assertEqual((status, said), (0, ""))
        self.assertRegex(out, "^FILE:[0-9]+: warning: port 80.* is taken by 2 containers, of a, b: one host has it once\n$")

    def test_a_file_that_is_not_there_is_no_finding(self):
        status, out, said = run("-m", "metis_planner", "lint", "compose", "/nowhere/compose.yaml", "--format", "json")
        self.assertEqual((status, out, said), (1, "", "metis: /nowhere/compose.yaml: No such file or directory\n"))


if __name__ == "__main__":
    unittest.main()
