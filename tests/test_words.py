import json
import pathlib
import subprocess
import sys
import tempfile
import unittest

TOP = pathlib.Path(__file__).resolve().parents[1]


def run(*words, text=""):
    done = subprocess.run(
        [sys.executable, *words], cwd=TOP, input=text, stdout=subprocess.PIPE, stderr=subprocess.PIPE, text=True, check=False
    )
    return done.returncode, done.stdout, done.stderr


class ImportersTest(unittest.TestCase):
    def test_a_project_on_standard_input(self):
        project = json.dumps({"services": {"a": {"image": "i", "network_mode": "host"}}})
        status, document, notes = run("-m", "metis_planner", "import", "compose", text=project)
        self.assertEqual((status, notes), (0, ""))
        self.assertEqual([each["name"] for each in json.loads(document)["types"]], ["a", "image/i", "project"])

    def test_notes_go_to_standard_error(self):
        with tempfile.TemporaryDirectory() as folder:
            index = pathlib.Path(folder) / "Packages"
            index.write_text("Package: a\nVersion: 1\nArchitecture: amd64\nDepends: b\n")
            status, document, notes = run("-m", "metis_planner", "import", "debian", "--index", str(index), "a")
        self.assertEqual(status, 0)
        self.assertEqual(len(json.loads(document)["types"]), 1)
        self.assertEqual(notes, "metis: a depends on b, which nothing provides: there will be no plan\n")

    def test_bad_input_gets_one_line_and_status_1(self):
        with tempfile.TemporaryDirectory() as folder:
            index = pathlib.Path(folder) / "Packages"
            stanzas = [f"Package: {one}\nVersion: 1\nPre-Depends: {other}\n" for one, other in ("ab", "ba")]
            index.write_text("\n".join([*stanzas, "Package: c\nVersion: 1\nDepends: d e\n"]))
            undefined = '{"services": {"a": {"image": "i", "depends_on": ["b"]}}}'
            for words, text, reason in (
                (["debian", "--index", str(index), "x"], "", "no package x in the index (apt-get update renews it)"),
                (
                    ["debian", "--index", str(index), "a"],
                    "",
                    "a cycle of Pre-Depends: a pre-depends on b, which needs a first; the cycle is a, b",
                ),
                (["debian", "--index", str(index), "c"], "", "package c: no relation to a package: 'd e'"),
                (["compose"], undefined, "service a: it depends on b, which nobody defines"),
                (["compose"], "[1]", "-: no Compose project, since it has no services"),
                (["compose", "--given", "b"], undefined.replace('["b"]', "[]"), None),
                (["systemd", "--root", folder, "x.target"], "", None),
            ):
                status, document, line = run("-m", "metis_planner", "import", *words, text=text)
                self.assertEqual((status, document, line.count("\n")), (1, "", 1), words)
                self.assertTrue(line.startswith("metis: "), line)
                if reason:
                    self.assertEqual(line, f"metis: {reason}\n")

    def test_a_reason_of_many_lines_becomes_one(self):
        status, _, line = run("-m", "metis_planner", "import", "compose", "--given", "a\nb", text='{"services": {"a": {"image": "i"}}}')
        self.assertEqual(status, 1)
        self.assertEqual(
            line, "metis: --given a b: the project has no service, network, volume or image of this name\n"
        )
