"""What `metis make --skeleton` prints: the commands of the importer's engine for what the plan and its universe have, and no others."""

import json
import os
import pathlib
import re
import subprocess
import sys
import tomllib
import unittest

from metis_planner.carry import skeleton
from metis_planner.carry.commands import commands_of
from metis_planner.importers import compose
from tests.carry.shapes import WEB, FolderCase, call
from tests.importers.test_compose import alone, project_of, waiting
from tests.test_words import TOP

SERVICES = {
    "web": waiting(migrate="service_completed_successfully"),
    "migrate": waiting(db="service_healthy"),
    "db": alone(healthcheck={"test": ["CMD", "true"]}),
}
APART = {"a": waiting(c="service_started"), "b": waiting(c="service_healthy"), "c": alone()}
# Each of these is a plan of a Compose project, though none brings it up as a whole.
PARTS = (
    "1 new 0 image/i\n2 move 0 absent there\n",
    "1 new 0 web\n2 move 0 absent created\n3 move 0 created started\n",
    "1 new 0 project@next\n2 move 0 down up\n",
)
KUBERNETES = "1 new 0 Namespace/shop\n2 move 0 absent there\n"


def plan_of(actions):
    count = actions.count("\n")
    return f"metis plan 1\ninstances 1 actions {count} dups 0\n{actions}end\n"


def whens(text):
    return [step["when"] for step in tomllib.loads(text)["step"]]


class SkeletonCase(FolderCase):
    def setUp(self):
        super().setUp()
        before = os.getcwd()
        os.chdir(self.top)
        self.addCleanup(os.chdir, before)

    def printed(self, plan, *words):
        pathlib.Path("plan.txt").write_text(plan)
        status, out, err = call("make", "plan.txt", "--skeleton", *words)
        self.assertEqual((status, err), (0, ""))
        commands_of(tomllib.loads(out))
        return out

    def universe(self, services, **more):
        pathlib.Path("u.json").write_text(compose.universe([project_of(services, **more)]))
        return ("--universe", "u.json")


class FamilyTest(SkeletonCase):
    def test_a_part_of_a_compose_project_is_one(self):
        for part in PARTS:
            self.assertIn("docker compose", self.printed(plan_of(part)), part)

    def test_the_comment_of_a_universe_says_whose_it_is(self):
        plan = plan_of("1 new 0 web\n")
        self.assertNotIn("docker compose", self.printed(plan))
        self.assertIn("docker compose", self.printed(plan, *self.universe(SERVICES)))

    def test_kubernetes_is_no_compose(self):
        self.assertIn("kubectl", self.printed(plan_of(KUBERNETES)))

    def test_what_no_importer_made_is_to_be_filled_in(self):
        text = self.printed(WEB)
        self.assertIn("Db: off -> on", whens(text))
        self.assertIn(skeleton.TO_FILL_IN, [step["run"].strip() for step in tomllib.loads(text)["step"]])

    def test_a_move_that_the_package_does_not_know_is_to_be_filled_in(self):
        steps = tomllib.loads(self.printed(plan_of("1 new 0 image/i\n2 move 0 absent there\n3 move 0 there signed\n")))["step"]
        self.assertEqual([step["run"].strip() for step in steps if step["when"] == "image/i: there -> signed"], [skeleton.TO_FILL_IN])


class FitTest(SkeletonCase):
    def test_what_fits_nothing_in_the_universe_is_left_out(self):
        plan = plan_of("1 new 0 image/i\n2 move 0 absent there\n")
        found = {name: whens(self.printed(plan, *self.universe(each))) for name, each in (("row", SERVICES), ("apart", APART))}
        self.assertIn("*: started -> completed", found["row"])
        self.assertNotIn("*: started -> completed", found["apart"])
        self.assertIn("*: awaited -> healthy", found["apart"])
        self.assertNotIn("*: awaited -> healthy", found["row"])
        self.assertNotIn("network/*: delete", found["row"])

    def test_what_is_printed_is_taken(self):
        for services in (SERVICES, APART):
            words = self.universe(services)
            plan = subprocess.run([TOP / "metis", "plan", "u.json", "project:up"], capture_output=True, text=True, check=True).stdout
            pathlib.Path("steps.toml").write_text(self.printed(plan, *words))
            status, _, err = call("make", "plan.txt", "--commands", "steps.toml", "--to", f"f{len(services)}{services is APART}", *words)
            self.assertEqual((status, err), (0, ""))

    def test_the_folder_is_that_of_the_file_which_the_document_names(self):
        (self.top / "in \U0001f40b").mkdir()
        for name, more in (("compose.yaml", {}), ("other.yaml", {"COMPOSE_FILE": str(self.top / "in \U0001f40b/other.yaml")})):
            path = self.top / "in \U0001f40b" / name
            path.write_text(json.dumps({"name": "shop", "services": {"web": alone()}}))
            status, document, _ = call("import", "compose", path)
            self.assertEqual(status, 0)
            pathlib.Path("u.json").write_text(document)
            env = tomllib.loads(self.printed(plan_of("1 new 0 web\n"), "--universe", "u.json"))["env"]
            self.assertEqual({key: env[key] for key in env if key != "FUNCTIONS"}, {"PROJECT": str(path.parent), **more})

    def test_the_folder_of_the_project_is_filled_in_where_that_is_the_current_one(self):
        self.assertIn('PROJECT = "/WHOLE/PATH"', self.printed(plan_of(PARTS[0])))
        pathlib.Path("compose.yaml").write_text("")
        self.assertEqual(tomllib.loads(self.printed(plan_of(PARTS[0])))["env"]["PROJECT"], os.getcwd())


class FileTest(unittest.TestCase):
    def test_the_shell_reads_each_file_and_what_its_steps_share(self):
        for name in ("compose", "kubernetes", "debian"):
            table = tomllib.loads(skeleton.whole_text(name))
            commands_of(table)
            for text in table.get("env", {}).values():
                if "\n" in text:
                    done = subprocess.run(["sh", "-n"], input=text, capture_output=True, text=True, check=False)
                    self.assertEqual((done.returncode, done.stderr), (0, ""), name)

    def test_a_step_uses_no_function_that_is_not_there(self):
        table = tomllib.loads(skeleton.whole_text("compose"))
        known = set(re.findall(r"^(\w+)\(\) \{", table["env"]["FUNCTIONS"], re.MULTILINE))
        self.assertLessEqual({"look_up", "await_health", "await_end", "is_same", "stop_holders"}, known)
        for step in table["step"]:
            for text in (step["run"], step.get("check", "")):
                if known & set(re.findall(r"\w+", text)) - {"containers", "state"}:
                    self.assertIn('eval "$FUNCTIONS"', text, step["when"])


class KubernetesTest(SkeletonCase):
    """The steps over a stand-in for kubectl, which records its calls and has the objects that were applied."""

    OBJECTS = (
        {"apiVersion": "v1", "kind": "Namespace", "metadata": {"name": "shop"}},
        {"apiVersion": "v1", "kind": "ConfigMap", "metadata": {"name": "settings", "namespace": "shop"}, "data": {}},
        {
            "apiVersion": "apps/v1",
            "kind": "Deployment",
            "metadata": {"name": "web", "namespace": "shop"},
            "spec": {"template": {"spec": {"containers": [{"name": "a", "envFrom": [{"configMapRef": {"name": "settings"}}]}]}}},
        },
        {"apiVersion": "batch/v1", "kind": "Job", "metadata": {"name": "once", "namespace": "shop"}, "spec": {}},
    )

    def setUp(self):
        super().setUp()
        top = self.top
        (top / "bin").mkdir()
        (top / "bin/kubectl").write_text(f"#!{sys.executable}\n{(TOP / 'tests/carry/kubectl_stand_in.py').read_text()}")
        (top / "bin/kubectl").chmod(0o755)
        (top / "there").mkdir()
        more = {"PATH": f"{top / 'bin'}:{os.environ['PATH']}", "STAND_IN": str(top)}
        self.environment = {**os.environ, **more}
        items = {"apiVersion": "v1", "kind": "List", "items": list(self.OBJECTS)}
        (top / "all.json").write_text(json.dumps(items))
        words = [TOP / "metis", "import", "kubernetes", "all.json", "--split", "m"]
        (top / "u.json").write_text(subprocess.run(words, capture_output=True, text=True, check=True).stdout)
        words = [TOP / "metis", "plan", "u.json", "manifests:up"]
        self.plan = subprocess.run(words, capture_output=True, text=True, check=True).stdout
        text = self.printed(self.plan, "--universe", "u.json")
        (top / "steps.toml").write_text(text.replace('"/WHOLE/PATH"', json.dumps(str(top / "m"))))

    def calls(self, *verbs):
        return [line for line in pathlib.Path("calls").read_text().splitlines() if line.split(" ")[0] in verbs]

    def made(self):
        status, _, err = call("make", "plan.txt", "--commands", "steps.toml", "--to", "f", "--universe", "u.json")
        self.assertEqual((status, err), (0, ""))
        return subprocess.run(["make", "-s", "-j8", "-C", "f"], env=self.environment, capture_output=True, text=True, check=False)

    def deleted(self):
        words = [TOP / "metis", "down", "f", "--universe", "u.json", "--commands", "steps.toml", "--yes"]
        return subprocess.run(words, env=self.environment, capture_output=True, text=True, check=False)

    def test_each_object_is_a_file_in_the_order_of_the_stream(self):
        names = pathlib.Path("m/order").read_text().split()
        self.assertEqual([json.loads(pathlib.Path("m", name).read_text()) for name in names], list(self.OBJECTS))

    def test_each_object_is_applied_once_and_in_the_order_of_the_plan(self):
        self.assertEqual(self.made().returncode, 0)
        applied = self.calls("apply")
        files = [re.search(r"/m/(\S+)", line)[1] for line in applied]
        self.assertEqual(sorted(files), sorted(pathlib.Path("m/order").read_text().split()))
        self.assertEqual(files[0], "Namespace_shop.json")
        order = self.calls("apply", "rollout")
        waits = [place for place, line in enumerate(order) if line.startswith("rollout status") and "Deployment_shop_web" in line]
        settings = [place for place, line in enumerate(order) if "apply" in line and "ConfigMap_shop_settings" in line]
        self.assertEqual((len(waits), len(settings)), (1, 1))
        self.assertLess(settings[0], waits[0])
        self.assertTrue(all(line.endswith(" -n shop") for line in applied[1:]), applied)

    def test_a_failed_job_ends_its_step_and_is_made_anew_where_that_is_done_again(self):
        pathlib.Path("failing").write_text("Job_shop_once.json")
        done = self.made()
        self.assertNotEqual(done.returncode, 0)
        self.assertIn("it is Failed", done.stderr)
        self.assertEqual(self.calls("replace"), [])
        pathlib.Path("failing").unlink()
        again = subprocess.run(["make", "-s", "-C", "f"], env=self.environment, capture_output=True, text=True, check=False)
        self.assertEqual(again.returncode, 0, again.stderr)
        self.assertEqual(len(self.calls("replace")), 1)

    def test_what_is_deleted_is_gone(self):
        self.assertEqual(self.made().returncode, 0)
        done = self.deleted()
        self.assertEqual(done.returncode, 0, done.stderr)
        self.assertEqual(list(pathlib.Path("there").iterdir()), [])
        self.assertEqual(len(self.calls("delete")), len(self.OBJECTS))

    def test_what_is_still_there_is_not_said_to_be_gone(self):
        self.assertEqual(self.made().returncode, 0)
        pathlib.Path("stubborn").write_text("ConfigMap_shop_settings.json")
        self.assertEqual(self.deleted().returncode, 1)
        self.assertEqual({each.name for each in pathlib.Path("there").iterdir()}, {"ConfigMap_shop_settings.json", "Namespace_shop.json"})


if __name__ == "__main__":
    unittest.main()
