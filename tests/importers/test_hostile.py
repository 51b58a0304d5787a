"""Input that is no good on purpose: each ends soon, with status 1 and one line that a terminal can show."""

import contextlib
import io
import json
import os
import pathlib
import subprocess
import sys
import tempfile
import unittest
import unittest.mock

from metis_planner import cli as program
from metis_planner.answers import Refused
from metis_planner.importers import kubernetes
from metis_planner.importers.kubernetes import input
from metis_planner.text.terminal import plain
from tests.effort import SOON, soon
from tests.test_words import TOP

try:
    import yaml
except ImportError:
    yaml = None

ESCAPE = "\x1b[31mred\x07\u202e"


def ended(*words):
    """The status of a run in this process, what it printed, and what it said."""
    out, err = io.StringIO(), io.StringIO()
    with contextlib.redirect_stdout(out), contextlib.redirect_stderr(err):
        with unittest.mock.patch.object(sys, "argv", ["metis", *map(str, words)]):
            try:
                status = program.main()
            except SystemExit as end:
                status = end.code
    return status, out.getvalue(), err.getvalue()


class HostileCase(unittest.TestCase):
    def setUp(self):
        folder = tempfile.TemporaryDirectory()
        self.addCleanup(folder.cleanup)
        self.folder = pathlib.Path(folder.name)

    def file(self, text, name="file"):
        path = self.folder / name
        path.write_bytes(text if isinstance(text, bytes) else text.encode(errors="surrogatepass"))
        return path

    def refused(self, *words, most=SOON):
        """The one line with which a run ends, and soon."""
        with soon(most):
            status, printed, said = ended(*words)
        self.assertEqual((status, printed, said.count("\n")), (1, "", 1), said)
        self.assertTrue(said.startswith("metis: ") and said[:-1].isprintable(), said)
        return said.removeprefix("metis: ")[:-1].replace(str(self.folder) + "/", "")

    def fed(self, *words):
        """The one line with which a run ends that is fed bytes without an end."""
        with subprocess.Popen(["cat", "/dev/zero"], stdout=subprocess.PIPE) as endless:
            command = [sys.executable, "-m", "metis_planner", *words]
            done = subprocess.run(
                command, cwd=TOP, stdin=endless.stdout, stdout=subprocess.PIPE, stderr=subprocess.PIPE, text=True, check=False
            )
            endless.stdout.close()
            endless.kill()
        self.assertEqual((done.returncode, done.stdout, done.stderr.count("\n")), (1, "", 1), done.stderr)
        return done.stderr.removeprefix("metis: ")[:-1]


def in_depth(opening, count=200_000):
    return opening * count


def bomb(levels=30):
    """Nine aliases of nine aliases, and so on: 9^30 values, in a kilobyte."""
    lines = ["a0: &a0 [x, x, x, x, x, x, x, x, x]"]
    lines += [f"a{at}: &a{at} [{', '.join([f'*a{at - 1}'] * 9)}]" for at in range(1, levels)]
    return "\n".join([*lines, "services: {a: {image: i}}", ""])


class ComposeTest(HostileCase):
    def project(self, text, most=SOON):
        return self.refused("import", "compose", self.file(text if isinstance(text, str) else json.dumps(text)), most=most)

    def service(self, **told):
        return self.project({"services": {"a": told, "b": {}}})

    def test_values_of_other_forms(self):
        odd = [
            None,
            1,
            1.5,
            True,
            "x",
            [],
            {},
            [[]],
            [{}],
            {"b": []},
            {"b": {"condition": ["x"]}},
            {"b": {"condition": {}}},
        ]
        keys = "depends_on deploy networks volumes links volumes_from profiles image scale network_mode healthcheck".split()
        for key in keys:
            for value in odd:
                with self.subTest(key=key, value=value):
                    path = self.file(json.dumps({"services": {"a": {"image": "i", key: value}, "b": {"image": "i"}}}))
                    status, printed, said = ended("import", "compose", path)
                    self.assertIn(status, (0, 1))
                    self.assertEqual(status == 1, printed == "")
                    self.assertTrue(all(line.isprintable() for line in said.splitlines()), said)

    def test_a_condition_that_is_a_list(self):
        reason = self.service(depends_on={"b": {"condition": ["service_healthy"]}})
        self.assertEqual(reason, "service a: no condition ['service_healthy'], for b")

    def test_numbers_of_5000_digits(self):
        self.assertEqual(
            self.project('{"services": {"a": {"scale": %s}}}' % ("9" * 5000)), "file: a number of too many digits"
        )
        self.assertRegex(self.service(scale="9" * 5000), "^service a: its replicas are no whole number: 9+")

    def test_depth(self):
        self.assertEqual(self.project(in_depth('{"services":')), "file: nested too deeply")

    def test_a_key_that_stands_twice(self):
        reason = "file: the key 'a' stands twice in one mapping"
        self.assertEqual(self.project('{"services": {"a": {}, "b": {}, "a": {"image": "x"}}}'), reason)

    def test_control_characters(self):
        line = self.project({"services": {"a": {"image": "i", "depends_on": [ESCAPE]}}})
        self.assertEqual(line, "service a: it depends on \\x1b[31mred\\x07\\u202e, which nobody defines")
        self.assertIn("\\x1b[31m", self.refused("import", "compose", self.folder / ESCAPE))
        self.assertIn("\\udc80", self.refused("import", "compose", self.folder / "\udc80"))

    def test_a_surrogate_in_a_name(self):
        self.assertIn("\\udfff", self.project('{"services": {"\\udfff": {"image": "i"}}}'))
        status, printed, said = ended("import", "compose", self.file('{"services": {"a": {"image": "\\ud800"}}}'))
        self.assertEqual((status, said), (0, ""))
        self.assertIn('"image/_"', printed)

    def test_many_services(self):
        services = {
            f"s{number}": {"image": "i", "depends_on": [f"s{number - 1}"] if number else []} for number in range(20_000)
        }
        reason = "20000 services, and Metis takes at most 2000 pairs of type and state"
        self.assertEqual(self.project({"services": services}), reason)

    def test_an_endless_file(self):
        self.assertEqual(self.fed("import", "compose"), "-: more than 16777216 bytes")

    def test_a_folder(self):
        self.assertEqual(self.refused("import", "compose", self.file("x").parent / ""), f"{self.folder}: Is a directory")

    @unittest.skipUnless(yaml, "PyYAML is not there")
    def test_yaml(self):
        for text, reason in (
            (in_depth("["), "file: nested too deeply"),
            (in_depth("- "), "file: nested too deeply"),
            ("a: &a [*a]\n", "file: line 1: an alias that stands inside what it names"),
            (bomb(), "file: line 7: more than 1000000 values, with what aliases stand for"),
            (bomb().replace("[*", "{<<: [*").replace("]\nservices", "]}\nservices"), None),
            ("a: 1\nb: 2\na: 3\n", "file: line 3: the key 'a' stands twice in one mapping"),
            ("services: !!python/object/apply:os.system [ls]\n", None),
            ("? [a]\n: b\n", "file: line 1: a key that is no text"),
            ("a: \x1b\n", None),
            ("[" + "a," * 1_000_000 + "]", None),
            ("a: b\n---\nc: d\n", "file: 2 documents, where one is due"),
        ):
            with self.subTest(text=text[:60]):
                found = self.project(text)
                if reason:
                    self.assertEqual(found, reason)


class DebianTest(HostileCase):
    def index(self, *stanzas, name="a"):
        text = "\n\n".join(f"Package: {stanza}" for stanza in stanzas)
        return self.refused("import", "debian", "--index", self.file(text), name)

    def test_versions(self):
        self.assertEqual(self.index("a\nVersion: x:1"), "package a: no version: 'x:1'")
        self.assertEqual(self.index("a\nVersion: 1:2:\u0663"), "package a: no version: '1:2:\u0663'")
        self.assertRegex(self.index(f"a\nVersion: {'9' * 5000}:1"), "^package a: no version: '9+[.][.]'$")
        status, _, _ = ended("import", "debian", "--index", self.file(f"Package: a\nVersion: {'9' * 5000}\n"), "a")
        self.assertEqual(status, 0)

    def test_relations(self):
        self.assertEqual(self.index("a\nDepends: b (>= \u0663)"), "package a: no version: '\u0663'")
        self.assertEqual(self.index("a\nDepends: b\x1b[31m"), "package a: no relation to a package: 'b\\x1b[31m'")
        self.assertRegex(
            self.index(f"a\nDepends: {'(' * 100_000}"), "^package a: no relation to a package: '[(]+[.][.]'$"
        )

    def test_a_field_of_many_folded_lines(self):
        self.assertRegex(self.index("a\nDepends: b (" + "\n x" * 100_000), "^package a: no relation to a package")
        reason = "package a: a field Depends of more than 262144 characters"
        self.assertEqual(self.index("a\nDepends: b (" + "\n x" * 1_000_000), reason)

    def test_a_chain_of_many_packages(self):
        stanzas = [f"a{number}\nDepends: a{number + 1}" for number in range(30_000)]
        self.assertRegex(self.index(*stanzas, name="a0"), "^more than 2000 packages")

    def test_many_providers_of_one_name(self):
        stanzas = [f"a{number}\nProvides: x\nConflicts: x" for number in range(20_000)]
        found = self.index(*stanzas, "b\nDepends: x, a7", "c\nPre-Depends: d", "d\nPre-Depends: c", name="c")
        self.assertRegex(found, "^a cycle of Pre-Depends")

    def test_endless_files(self):
        with unittest.mock.patch("metis_planner.importers.debian.packages.MOST_INDEX", 1_000_000):
            reason = self.refused("import", "debian", "--index", self.file("x" * 1_000_001), "a")
        self.assertEqual(reason, "file: more than 1000000 bytes")

    def test_control_characters(self):
        line = self.refused("import", "debian", "--index", self.file("Package: a\n"), ESCAPE)
        self.assertEqual(line, "no package \\x1b[31mred\\x07\\u202e in the index (apt-get update renews it)")

    def test_words_that_do_not_fit(self):
        status, printed, said = ended("import", "debian", "--" + ESCAPE, "a")
        self.assertEqual((status, printed), (2, ""))
        self.assertTrue(all(line.isprintable() for line in said.splitlines()), said)


class SystemdTest(HostileCase):
    def unit(self, name, text):
        path = self.folder / "etc/systemd/system" / name
        path.parent.mkdir(parents=True, exist_ok=True)
        path.write_text(text)
        return path

    def ended(self, target):
        return ended("import", "systemd", "--root", self.folder, target)

    def test_names(self):
        self.unit("t.target", "[Unit]\n")
        for name in (
            "../../../../etc/passwd",
            "t.target/../t.target",
            "/etc/passwd.service",
            ESCAPE + ".target",
            "\udc80.target",
        ):
            line = self.refused("import", "systemd", "--root", self.folder, name)
            self.assertTrue(line.startswith("no name of a unit: "), line)

    def test_paths_in_place_of_names(self):
        names = f"../x.service /etc/x.service {ESCAPE}.service ..service .service a@b@c.service {'x' * 300}.service"
        self.unit("t.target", f"[Unit]\nDefaultDependencies=no\nWants={names}\nRequires=../y.service\n")
        status, printed, said = self.ended("t.target")
        self.assertEqual((status, len(json.loads(printed)["types"])), (0, 2))
        self.assertTrue(all(line.isprintable() for line in said.splitlines()), said)

    def test_links_that_never_end(self):
        os.symlink("b.target", self.unit("a", "").parent / "a.target")
        os.symlink("a.target", self.unit("b", "").parent / "b.target")
        self.assertEqual(
            self.refused("import", "systemd", "--root", self.folder, "a.target"), "a.target: a link that leads back to itself"
        )

    def test_no_file(self):
        for target in ("/dev/zero", "/proc/self/mem", "/"):
            path = self.unit("x", "").parent / "z.target"
            path.unlink(missing_ok=True)
            path.symlink_to(target)
            self.assertIn(
                "leads to no file that can be read", self.refused("import", "systemd", "--root", self.folder, "z.target")
            )

    def test_many_names(self):
        names = " ".join(f"u{number}.service" for number in range(30_000))
        self.unit("t.target", f"[Unit]\nDefaultDependencies=no\nWants={names}\n")
        self.assertEqual(self.ended("t.target")[0], 0)
        for number in range(2_100):
            self.unit(f"u{number}.service", "[Unit]\nDefaultDependencies=no\n")
        self.assertEqual(
            self.refused("import", "systemd", "--root", self.folder, "t.target"), "t.target pulls in more than 2000 units"
        )

    def test_a_long_line(self):
        self.unit("t.target", "[Unit]\n" + "Wants=\\\n" * 400_000 + "a.service")
        self.assertEqual(
            self.refused("import", "systemd", "--root", self.folder, "t.target"),
            "t.target: with the units before it more than 50000 words of settings",
        )
        self.unit("t.target", "[Unit]\n" + "Wants=\\\n" * 40_000 + "a.service")
        self.assertEqual(self.ended("t.target")[0], 0)


class KubernetesTest(HostileCase):
    POD = {
        "serviceAccountName": "a",
        "imagePullSecrets": [{"name": "s"}],
        "volumes": [
            {
                "name": "v",
                "secret": {"secretName": "s", "items": [{"key": "k"}]},
                "projected": {"sources": [{"secret": {"name": "s"}}]},
            }
        ],
        "initContainers": [
            {"name": "i", "command": ["nc", "s"], "args": ["x"], "env": [{"name": "A", "value": "s:1"}]}
        ],
        "containers": [
            {
                "name": "c",
                "envFrom": [{"secretRef": {"name": "s"}}],
                "env": [{"valueFrom": {"secretKeyRef": {"name": "s", "key": "k"}}}],
            }
        ],
    }

    def objects(self):
        def told(kind, version="v1", **more):
            metadata = {
                "name": "s",
                "namespace": "n",
                "labels": {"l": "1"},
                "annotations": {"helm.sh/hook": "pre-install", "helm.sh/hook-weight": "1"},
            }
            return {"apiVersion": version, "kind": kind, "metadata": metadata, **more}

        rule = {"apiGroups": ["*"], "operations": ["*"], "resources": ["*"], "scope": "*"}
        hook = {
            "rules": [rule],
            "clientConfig": {"service": {"name": "s", "namespace": "n"}},
            "namespaceSelector": {
                "matchLabels": {"l": "1"},
                "matchExpressions": [{"key": "l", "operator": "In", "values": ["1"]}],
            },
        }
        subjects = [{"kind": "ServiceAccount", "name": "a", "namespace": "n"}]
        definition = {
            "group": "g.io",
            "names": {"kind": "K", "plural": "ks"},
            "scope": "Namespaced",
            "conversion": {"strategy": "Webhook", "webhook": {"clientConfig": {"service": {"name": "s"}}}},
        }
        path = {"backend": {"service": {"name": "s"}}}
        return [
            told(
                "Deployment",
                "apps/v1",
                spec={"replicas": 1, "template": {"metadata": {"labels": {"l": "1"}}, "spec": self.POD}},
            ),
            told("CronJob", "batch/v1", spec={"jobTemplate": {"spec": {"template": {"spec": self.POD}}}}),
            told("Service", spec={"selector": {"l": "1"}}),
            told("Secret", data={"k": "x"}),
            told("ValidatingWebhookConfiguration", "admissionregistration.k8s.io/v1", webhooks=[hook]),
            told("CustomResourceDefinition", "apiextensions.k8s.io/v1", spec=definition),
            told("K", "g.io/v1", spec={}),
            told(
                "APIService",
                "apiregistration.k8s.io/v1",
                spec={"group": "g2.io", "service": {"name": "s", "namespace": "n"}},
            ),
            told(
                "RoleBinding", "rbac.authorization.k8s.io/v1", roleRef={"kind": "Role", "name": "r"}, subjects=subjects
            ),
            told(
                "Ingress",
                "networking.k8s.io/v1",
                spec={"ingressClassName": "i", "rules": [{"http": {"paths": [path]}}]},
            ),
            told("PersistentVolumeClaim", spec={"storageClassName": "s", "volumeName": "v"}),
            told("Certificate", "cert-manager.io/v1", spec={"secretName": "t"}),
        ]

    def test_values_of_other_forms(self):
        """In the place of each value in turn stands one of another form."""
        for at, whole in enumerate(self.objects()):
            for path in paths_in(whole):
                for odd in (None, 1, "x", [], {}, [[]], {"a": []}):
                    objects = self.objects()
                    put_at(objects[at], path, odd)
                    file = self.file(json.dumps({"kind": "List", "items": objects}))
                    with self.subTest(path=path, odd=odd), contextlib.suppress(Refused):
                        document, _ = kubernetes.universe(input.read_manifests([str(file)], "default"))
                        self.assertIn("types", json.loads(document))

    def test_control_characters(self):
        for told in (
            {"kind": ESCAPE},
            {"kind": "Pod", "apiVersion": ESCAPE},
            {"kind": "Pod", "apiVersion": "v1", "metadata": {"name": ESCAPE}},
        ):
            self.assertIn("\\x1b[31m", self.refused("import", "kubernetes", self.file(json.dumps(told))))
        self.assertIn(
            "\\x1b[31m",
            self.refused(
                "import", "kubernetes",
                self.file('{"kind": "Pod", "apiVersion": "v1", "metadata": {"name": "a"}}'),
                "--given",
                ESCAPE,
            ),
        )

    def test_sizes(self):
        self.assertEqual(self.fed("import", "kubernetes"), "-: more than 16777216 bytes")
        hooks = [{"clientConfig": {"service": {"name": "s", "namespace": "n"}}, "rules": []}] * 50_000
        told = {
            "kind": "ValidatingWebhookConfiguration",
            "apiVersion": "admissionregistration.k8s.io/v1",
            "metadata": {"name": "w"},
            "webhooks": hooks,
        }
        self.assertEqual(
            self.refused("import", "kubernetes", self.file(json.dumps(told))), "50000 webhooks, and at most 300 are asked"
        )
        command = ["x " * 1_000_000 + "a-" * 100_000 + "jobs pods " * 100_000]
        pod = {
            "kind": "Pod",
            "apiVersion": "v1",
            "metadata": {"name": "p"},
            "spec": {"initContainers": [{"command": command}]},
        }
        reason = "Pod/default/p: with those before it the commands of init containers have more than 524288 characters"
        self.assertEqual(self.refused("import", "kubernetes", self.file(json.dumps(pod))), reason)
        pod["spec"]["initContainers"][0]["command"] = [command[0][:100_000] + command[0][-30_000:]]
        self.assertEqual(ended("import", "kubernetes", self.file(json.dumps(pod)))[0], 0)

    @unittest.skipUnless(yaml, "PyYAML is not there")
    def test_yaml(self):
        self.assertEqual(
            self.refused("import", "kubernetes", self.file("kind: Pod\n---\n" + bomb())),
            "file: line 9: more than 1000000 values, with what aliases stand for",
        )
        self.assertEqual(
            self.refused("import", "kubernetes", self.file("---\n" * 1000)),
            f"{self.folder}/file: no manifests".replace(f"{self.folder}/", ""),
        )


def paths_in(value, path=()):
    """The place of each value in a value, as keys and numbers."""
    if path:
        yield path
    entries = value.items() if isinstance(value, dict) else enumerate(value) if isinstance(value, list) else ()
    for key, each in entries:
        yield from paths_in(each, (*path, key))


def put_at(value, path, odd):
    for key in path[:-1]:
        value = value[key]
    value[path[-1]] = odd


class FileKindsTest(HostileCase):
    """What is no regular file is refused by name, and never waited for."""

    def test_a_fifo(self):
        os.mkfifo(self.folder / "fifo")
        reason = "fifo: a FIFO, and no file that can be read"
        for words in (("compose",), ("kubernetes",), ("debian", "a", "--index"), ("debian", "a", "--index", self.index(), "--status")):
            self.assertEqual(self.refused("import", *words, self.folder / "fifo"), reason, words)

    def index(self):
        return self.file("Package: a\nVersion: 1\nArchitecture: amd64\n", "index")

    def test_a_device(self):
        for device in ("/dev/zero", "/dev/null", "/dev/tty"):
            reason = f"{device}: a device, and no file that can be read"
            self.assertEqual(self.refused("import", "compose", device), reason)
            self.assertEqual(self.refused("import", "debian", "a", "--index", device), reason)

    def test_a_file_of_variables(self):
        os.mkfifo(self.folder / ".env")
        project = self.file('{"services": {"a": {"image": "i"}}}', "project.json")
        self.assertEqual(ended("import", "compose", project)[0], 0)

    def test_a_unit(self):
        folder = self.folder / "etc/systemd/system"
        folder.mkdir(parents=True)
        os.mkfifo(folder / "t.target")
        reason = "t.target: /etc/systemd/system/t.target leads to no file that can be read"
        self.assertEqual(self.refused("import", "systemd", "--root", self.folder, "t.target"), reason)

    def test_a_pipe_that_a_shell_hands_over_is_read(self):
        command = f"{sys.executable} -m metis_planner import compose <(echo '{OutputTest.PROJECT}')"
        done = subprocess.run(["bash", "-c", command], cwd=TOP, capture_output=True, text=True, check=False)
        self.assertEqual((done.returncode, done.stderr), (0, ""))


class OutputTest(HostileCase):
    PROJECT = '{"services": {"a": {"image": "i"}}}'

    def run_to(self, out):
        command = [sys.executable, "-m", "metis_planner", "import", "compose", str(self.file(self.PROJECT))]
        return subprocess.run(command, cwd=TOP, stdout=out, stderr=subprocess.PIPE, text=True, check=False)

    @unittest.skipUnless(os.path.exists("/dev/full"), "there is no full disk")
    def test_a_full_disk(self):
        with open("/dev/full", "w") as full:
            done = self.run_to(full)
        self.assertEqual((done.returncode, done.stderr), (1, "metis: standard output: No space left on device\n"))

    def test_nobody_reads(self):
        read, write = os.pipe()
        os.close(read)
        done = self.run_to(write)
        os.close(write)
        self.assertEqual((done.returncode, done.stderr), (1, ""))

    def test_no_standard_output(self):
        command = f"{sys.executable} -m metis_planner import compose {self.file(self.PROJECT)} >&-"
        done = subprocess.run(["sh", "-c", command], cwd=TOP, stderr=subprocess.PIPE, text=True, check=False)
        self.assertEqual((done.returncode, done.stderr), (1, "metis: standard output is closed\n"))


class PlainTest(unittest.TestCase):
    def test_one_line_without_what_a_terminal_obeys(self):
        self.assertEqual(plain("a\nb\tc\x1b\x7f\x9b"), "a b c\\x1b\\x7f\\x9b")
        self.assertEqual(plain("x" * 10_000), "x" * 1_000 + " ..")
