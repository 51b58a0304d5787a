"""`metis up compose.yaml`, over a stand-in for docker that answers what it is asked: how the project is read, kept and told apart.

`trials/docker.py` brings projects up by a real Docker.
"""

import json
import os
import re
import subprocess
import tomllib

from metis_planner.answers import Refused
from metis_planner.carry import compose, forms
from metis_planner.text.documents import ComponentType, State
from metis_planner.text.configurations import Configuration, Standing
from tests.carry.shapes import FolderCase, call

DOCKER = """#!/bin/sh
cd "$STAND_IN"
echo "$* ${COMPOSE_PROFILES-}" >>calls
case "$*" in
"compose config --format json") cat project.json ;;
"compose config --hash *") cat hashes ;;
"compose version") cat version ;;
"image inspect"*) cat image ;;
"ps --all"*) cat containers ;;
*) echo "no such words: $*" >&2; exit 1 ;;
esac
"""


class ComposeCase(FolderCase):
    def setUp(self):
        super().setUp()
        (self.top / "bin").mkdir()
        (self.top / "bin/docker").write_text(DOCKER)
        (self.top / "bin/docker").chmod(0o755)
        (self.top / "shop").mkdir()
        self.file = self.top / "shop/compose.yaml"
        self.file.write_text("")
        texts = {"hashes": "db 1111\nweb 2222\n", "image": "sha256:abcdefabcdefabcdef\n", "containers": "", "version": "2.26.1\n"}
        self.write(project=self.project(), **texts)
        before = dict(os.environ)
        self.addCleanup(lambda: (os.environ.clear(), os.environ.update(before)))
        os.environ.update(PATH=f"{self.top / 'bin'}:{os.environ['PATH']}", STAND_IN=str(self.top))
        os.environ.pop("COMPOSE_PROFILES", None)

    def project(self, name="shop"):
        services = {"db": {"image": "db", "network_mode": "none"}, "web": {"build": {"context": "."}, "network_mode": "none"}}
        services["web"]["depends_on"] = {"db": {"condition": "service_started", "required": True, "restart": True}}
        return {"name": name, "services": services}

    def write(self, **texts):
        for name, text in texts.items():
            path = self.top / ("project.json" if name == "project" else name)
            path.write_text(json.dumps(text) if name == "project" else text)

    def types(self):
        return {kind["name"]: kind for kind in json.loads(compose.project_at(str(self.file)).document)["types"]}

    def up(self, *words):
        return call("up", self.file, *words)


class ReadTest(ComposeCase):
    def test_a_sum_is_the_hash_of_compose_and_the_identity_of_the_image(self):
        types = self.types()
        self.assertEqual(types["db"]["sum"], "1111 abcdefabcdef")
        self.assertRegex(types["web"]["sum"], "^2222 abcdefabcdef with=db:[0-9a-f]{12}$")
        self.assertIn("image/shop-web", types)

    def test_an_image_that_is_not_there_has_no_identity(self):
        (self.top / "image").unlink()
        project = compose.project_at(str(self.file))
        self.assertFalse(project.is_whole)
        self.assertEqual({kind["name"]: kind for kind in json.loads(project.document)["types"]}["db"]["sum"], "1111 -")

    def test_the_commands_name_the_folder_and_the_project(self):
        os.environ["COMPOSE_PROFILES"] = 'a"b'
        table = tomllib.loads(compose.project_at(str(self.file)).commands)
        self.assertEqual(table["env"]["PROJECT"], str(self.file.parent))
        self.assertEqual(table["env"]["COMPOSE_PROJECT_NAME"], "shop")
        self.assertEqual(table["env"]["COMPOSE_PROFILES"], 'a"b')

    def test_a_file_of_another_name_is_named_to_compose(self):
        other = self.top / "shop/other.yaml"
        other.write_text("")
        self.assertEqual(compose.project_at(str(other)).kept["COMPOSE_FILE"], str(other))
        self.assertNotIn("COMPOSE_FILE", compose.project_at(str(self.file)).kept)

    def test_what_compose_says_against_the_file_is_said_in_a_line(self):
        (self.top / "project.json").unlink()
        status, out, err = self.up("--yes")
        self.assertEqual((status, out, err.count("\n")), (1, "", 1), err)
        self.assertIn("docker compose config --format json: ", err)

    def test_that_compose_is_not_there_is_said(self):
        for name in ("project.json", "version"):
            (self.top / name).unlink()
        status, out, said = self.up("--yes")
        self.assertEqual((status, out, said), (1, "", "metis: there is no `docker compose` here: install Docker Compose 2.22 or later\n"))


class UpTest(ComposeCase):
    def test_nothing_is_written_where_nobody_agrees(self):
        status, out, _ = self.up("--dry-run")
        self.assertEqual(status, 2)
        self.assertIn("web", out)
        self.assertFalse((self.file.parent / ".metis").exists())

    def test_what_runs_already_is_not_brought_up_beside_itself(self):
        self.write(containers="db 1 shop-db-1\nweb 1 shop-web-1\n")
        status, _, err = self.up("--yes")
        self.assertEqual(status, 1)
        self.assertIn("shop runs already", err)
        self.assertIn("shop-db-1, shop-web-1", err)
        self.assertIn(f"metis adopt {self.file}", err)

    def test_an_instance_has_the_container_of_its_service_with_the_least_number(self):
        self.write(containers="web 3 shop-web-3\nweb 1 shop-web-1\ndb 1 shop-db-1\n")
        project = compose.project_at(str(self.file))
        found, strays = compose.taken(project, [("web", "web-1"), ("db", "db-2"), ("image/db", "image_db-3"), ("db", "db-9")])
        self.assertEqual(found, {"web-1": "web 1\n", "db-2": "db 1\n"})
        self.assertEqual([each.name for each in strays], ["shop-web-3"])

    def test_variables_stay_with_the_folder(self):
        os.environ["COMPOSE_PROFILES"] = "debug"
        project = compose.project_at(str(self.file))
        folder = self.top / "f"
        folder.mkdir()
        (folder / compose.COMMANDS).write_text(project.commands)
        del os.environ["COMPOSE_PROFILES"]
        kept = compose.kept_in(str(folder))
        self.assertEqual(kept["COMPOSE_PROFILES"], "debug")
        compose.project_at(str(self.file), kept)
        self.assertTrue((self.top / "calls").read_text().splitlines()[-1].endswith(" debug"))

    def test_each_health_check_is_awaited_from_then_on(self):
        project = self.project()
        project["services"]["web"]["healthcheck"] = {"test": ["CMD", "true"]}
        self.write(project=project)
        self.assertNotIn(": started -> healthy", self.up("--dry-run")[1])
        self.assertIn(": started -> healthy", self.up("--dry-run", "--wait")[1])
        found = compose.project_at(str(self.file), {}, is_all_awaited=True)
        (self.top / "f").mkdir()
        (self.top / "f" / compose.COMMANDS).write_text(found.commands)
        self.assertIn(": started -> healthy", self.up("--dry-run", "--to", self.top / "f")[1])
        self.assertEqual(found.again().document, found.document)
        status, _, said = call("up", "u.json", "A:on", "--commands", "c", "--to", "f", "--wait")
        self.assertEqual((status, said), (1, "metis: --wait is for a Compose file\n"))

    def test_a_folder_of_any_name_is_told_to_the_steps(self):
        shop = self.top / "in \U0001f40b\x7f"
        self.file.parent.rename(shop)
        project = compose.project_at(str(shop / "compose.yaml"))
        self.assertEqual(tomllib.loads(project.commands)["env"]["PROJECT"], str(shop))

    def test_a_damaged_commands_file_is_refused_in_a_line(self):
        folder = self.top / "f"
        folder.mkdir()
        for text in (b"[env\n", b"\xff\xfe", b"timeout = 1\n", b"env = 3\n"):
            (folder / compose.COMMANDS).write_bytes(text)
            with self.subTest(text), self.assertRaisesRegex(Refused, "^[^\n]*/commands.toml: "):
                compose.kept_in(str(folder))

    def test_no_name_of_a_service_is_an_option_of_compose(self):
        project = self.project()
        project["services"]["--force-recreate"] = {"image": "db", "network_mode": "none"}
        self.write(project=project, hashes="db 1111\nweb 2222\n--force-recreate 3333\n")
        status, out, said = self.up("--yes")
        self.assertEqual((status, out), (1, ""))
        self.assertIn("the name of service --force-recreate begins with a dash", said)
        self.assertFalse((self.top / "shop/.metis").exists())

    def test_another_project_or_daemon_is_refused(self):
        project = compose.project_at(str(self.file))
        project.check_kept({}, "f")
        project.check_kept(project.kept, "f")
        for key, value in (("COMPOSE_PROJECT_NAME", "other"), ("PROJECT", "/x"), ("DOCKER_HOST", "unix:///y")):
            with self.assertRaisesRegex(Refused, f"f is of another project or daemon: {key} was {value}"):
                project.check_kept({**project.kept, key: value}, "f")


# One container each of web and db, which depend on each other as above; what was created last has the settings of now.
CONTAINERS = """#!/bin/sh
cd "$STAND_IN"
echo "$*" >>calls
case "$*" in
"ps "*"service=web "*) echo "1 aaaa running" ;;
"ps "*"service=db "*) echo "1 bbbb running" ;;
*"inspect -f {{.Name}} aaaa") echo /shop-web-1 ;;
*"inspect -f "*config-hash*" aaaa") cat of-web ;;
*"inspect -f "*service*" shop-db-1") echo db ;;
*"inspect -f "*service*" shop-web-1") echo web ;;
"image inspect "*) echo image ;;
*" config --hash web") echo "web 2222" ;;
*" config --hash db") cat hash-of-db ;;
*" config web") printf 'services:\\n  db:\\n    image: db\\n  web:\\n    image: web\\n' ;;
*" --dry-run create "*) echo " Container shop-db-1  Recreate"; echo " Container shop-web-1  Recreate" ;;
*" create "*) echo "2222 image web /shop-web-1" >of-web ;;
*) echo "no such words: $*" >&2; exit 1 ;;
esac
"""


def step_of(when, hashes, folder, key="run"):
    """The command of a step, or its check, and the variables of all of them."""
    table = tomllib.loads(compose.commands_of({"PROJECT": folder, "COMPOSE_PROJECT_NAME": "shop", "HASHES": hashes}))
    return next(step[key] for step in table["step"] if step["when"] == when), table["env"]


class MadeAnewTest(ComposeCase):
    """The step that makes a container anew while another one that it depends on has other settings, too."""

    def setUp(self):
        super().setUp()
        (self.top / "bin/docker").write_text(CONTAINERS)
        self.write(**{"of-web": "old image web /shop-web-1\n", "hash-of-db": "db 1111\n"})

    def step(self, hashes):
        """How the step of web ends, and what it says."""
        script, env = step_of("*: absent -> created", hashes, str(self.file.parent))
        (self.top / "containers").unlink()
        (self.top / "containers").mkdir()
        (self.top / "containers/web-1").write_text("web 1\n")
        told = {"METIS_NAME": "web-1", "METIS_TYPE": "web", "METIS_SOURCE": "web", "METIS_AGAIN": "yes"}
        env = {**os.environ, **env, **told, "METIS_SUM": "2222 image with=db:0"}
        done = subprocess.run(["sh", "-ec", script], cwd=self.top, env=env, capture_output=True, text=True, check=False)
        return done.returncode, done.stdout + done.stderr

    def creations(self):
        calls = (self.top / "calls").read_text().splitlines()
        return [line for line in calls if " create " in line and "--dry-run" not in line]

    def test_what_was_planned_too_has_steps_of_its_own(self):
        self.assertEqual(self.step("db=1111 web=2222"), (0, "shop-web-1 has other settings or another image\n"))
        self.assertEqual(self.creations(), ["compose --ansi never create --scale db=1 --scale web=1 web"])

    def test_what_was_edited_after_it_was_planned_is_not_left_stopped(self):
        self.write(**{"hash-of-db": "db 3333\n"})
        status, said = self.step("db=1111 web=2222")
        self.assertEqual(status, 1)
        self.assertIn("db was edited after this was planned: call metis up\n", said)
        self.assertEqual(self.creations(), [])


class AwaitedAgainTest(ComposeCase):
    """The step that awaits an end, done a second time."""

    def calls_where(self, state):
        answers = f'case "$*" in "ps "*) echo "1 aaaa running" ;; "inspect "*) echo "{state}" ;; "wait "*) echo 0 ;; esac'
        (self.top / "bin/docker").write_text(f'#!/bin/sh\necho "$1" >>"$STAND_IN/calls"\n{answers}\n')
        script, env = step_of("*: started -> completed", "", str(self.file.parent))
        folder = self.top / "f"
        (folder / "containers").mkdir(parents=True, exist_ok=True)
        (folder / "containers/migrate-1").write_text("migrate 1\n")
        told = {"METIS_NAME": "migrate-1", "METIS_SOURCE": "migrate", "METIS_SUM": "", "METIS_AGAIN": "yes"}
        (self.top / "calls").unlink(missing_ok=True)
        subprocess.run(["sh", "-ec", script], cwd=folder, env={**os.environ, **env, **told}, check=True)
        return (self.top / "calls").read_text().split()

    def test_what_failed_is_started_again(self):
        self.assertEqual(self.calls_where("exited 3 unchecked no"), ["ps", "inspect", "start", "wait"])

    def test_what_runs_still_or_ended_well_does_not_run_twice(self):
        for state in ("running 0 unchecked no", "exited 0 unchecked no"):
            self.assertEqual(self.calls_where(state), ["ps", "inspect", "wait"])


class StartedTest(ComposeCase):
    """Whether a container that has ended counts as started."""

    def is_started(self, state, sum_of_it="1111 x", ports=0):
        answers = [
            "#!/bin/sh",
            'case "$*" in',
            '"ps "*) echo "1 aaaa exited" ;;',
            f'*PortBindings*) echo {ports} ;;',
            '*config-hash*) echo "1111 x image /shop-web-1" ;;',
            '"image inspect "*) echo x ;;',
            f'*) echo "{state}" ;;',
            "esac",
        ]
        (self.top / "bin/docker").write_text("\n".join(answers) + "\n")
        folder = self.top / "f"
        (folder / "containers").mkdir(parents=True, exist_ok=True)
        (folder / "containers/web-1").write_text("web 1\n")
        script, env = step_of("*: created -> started", "", str(self.file.parent), "check")
        told = {**os.environ, **env, "METIS_NAME": "web-1", "METIS_SOURCE": "web", "METIS_SUM": sum_of_it}
        return subprocess.run(["sh", "-ec", script], cwd=folder, env=told, stdout=subprocess.DEVNULL, check=False).returncode == 0

    def test_what_runs_or_is_a_job_that_ended_well_is_started(self):
        self.assertTrue(self.is_started("running 0 healthy no"))
        self.assertTrue(self.is_started("exited 0 unchecked no"))
        self.assertTrue(self.is_started("exited 0 unhealthy no", "1111 x once"))

    def test_a_server_that_was_stopped_is_not(self):
        self.assertFalse(self.is_started("exited 0 unhealthy no"))
        self.assertFalse(self.is_started("exited 0 unchecked always"))
        self.assertFalse(self.is_started("exited 0 unchecked no", ports=1))
        self.assertFalse(self.is_started("exited 3 unchecked no"))


class ImageTest(ComposeCase):
    """The step of an image asks no registry for another one than its own, and builds what is built."""

    def calls_for(self, image):
        services = ("  db:", "    image: db", "  two:", "    build:", "      context: .", "    image: own", "  web:", "    build: {}")
        config = "\\n".join(("services:", *services, "networks:", ""))
        answers = [
            "#!/bin/sh",
            'cd "$STAND_IN"',
            'case "$*" in',
            f'"compose --ansi never config") printf "{config}" ;;',
            '"image inspect "*) test -e there || { [ "$3" = db ] && test ! -e lacks; } ;;',
            '*) shift 3; echo "$*" >>calls; if [ "$1" = build ] || [ -e lacks ]; then : >there; fi ;;',
            "esac",
        ]
        (self.top / "bin/docker").write_text("\n".join(answers) + "\n")
        for name in ("calls", "there"):
            (self.top / name).unlink(missing_ok=True)
        script, env = step_of("image/*: absent -> there", "", str(self.file.parent))
        told = {**os.environ, **env, "METIS_SOURCE": f"image/{image}", "METIS_SUM": ""}
        subprocess.run(["sh", "-ec", script], cwd=self.top, env=told, check=True)
        return (self.top / "calls").read_text().splitlines() if (self.top / "calls").exists() else []

    def test_what_is_there_is_not_asked_for(self):
        self.assertEqual(self.calls_for("db"), [])

    def test_what_lacks_is_pulled_alone(self):
        self.write(lacks="")
        self.assertEqual(self.calls_for("db"), ["pull --quiet --ignore-buildable db"])

    def test_what_is_built_is_built_alone(self):
        for image, service in (("shop-web", "web"), ("own", "two")):
            self.assertEqual(self.calls_for(image), [f"pull --quiet --ignore-buildable {service}", f"build --quiet {service}"])


class BoundAnewTest(ComposeCase):
    """An edit of what is waited for needs no word about who is bound anew."""

    def test_a_milestone_that_nobody_awaits_beside_the_start_any_more(self):
        project = self.project()
        services = project["services"]
        services["more"] = {"image": "more", "network_mode": "none", "depends_on": {"db": {"condition": "service_completed_successfully"}}}
        self.write(project=project, hashes="db 1111\nweb 2222\nmore 3333\n")
        before = compose.project_at(str(self.file))
        self.assertIn("db/completed", self.types())
        self.stands_all(before)
        services["web"]["depends_on"]["db"]["condition"] = "service_completed_successfully"
        self.write(project=project, hashes="db 1111\nweb 4444\nmore 3333\n")
        status, out, said = self.up("--dry-run")
        self.assertEqual(status, 2, said)
        self.assertIn("change web#", out)

    def stands_all(self, project):
        """The folder as it is when all of a project was brought up."""
        folder = self.file.parent / compose.FOLDER
        document, commands = self.top / "u.json", self.top / "c.toml"
        document.write_text(project.document)
        env = "\n".join(f'{key} = {json.dumps(value)}' for key, value in project.kept.items())
        steps = "".join(f"[[step]]\nwhen = '*: {each}'\nrun = ''\n" for each in ("new", "* -> *", "bind *"))
        commands.write_text(f"[env]\n{env}\n{steps}")
        status, _, said = call("up", document, compose.TARGET, "--commands", commands, "--to", folder, "--yes")
        self.assertEqual(status, 0, said)
        (folder / compose.COMMANDS).write_text(project.commands)


class ReboundTest(FolderCase):
    """A rollout in which what waits for a changed service stays, as where it has a port of the host."""

    def services(self, image):
        api = {"image": image, "deploy": {"replicas": 2}, "network_mode": "none"}
        proxy = {"image": "proxy", "ports": ["80:80"], "depends_on": {"api": {"condition": "service_started"}}, "networks": ["n"]}
        return {"name": "shop", "services": {"api": api, "proxy": proxy}, "networks": {"n": {}}}

    def rolled(self, *words):
        for name, image in (("one.yaml", "api:1"), ("two.yaml", "api:2")):
            (self.top / name).write_text(json.dumps(self.services(image)))
        status, document, _ = call("import", "compose", self.top / "one.yaml", "--next", self.top / "two.yaml", *words)
        self.assertEqual(status, 0)
        (self.top / "u.json").write_text(document)
        verbs = ("new", "* -> *", "bind *", "unbind *", "delete")
        (self.top / "c.toml").write_text("".join(f"[[step]]\nwhen = '*: {each}'\nrun = ''\n" for each in verbs))

    def up(self, *words):
        status, out, said = call("up", self.top / "u.json", *words, "--commands", self.top / "c.toml", "--to", self.top / "f")
        self.assertIn(status, (0, 2), said)
        return out

    def test_the_proxy_stays_and_is_bound_to_the_next_interface(self):
        wishes = self.top / "w.txt"
        self.rolled("--rebind", wishes)
        self.up("project:up", "--yes")
        shown = self.up("project:up", "--wishes", wishes, "--dry-run")
        self.assertRegex(shown, r"kept     proxy#\d+")
        self.assertRegex(shown, r"proxy#\d+ takes api/started from api@next#\d+")
        self.assertEqual(len(set(re.findall(r"going    (api#\d+)", shown))), 2)
        self.assertEqual(len(re.findall(r"new      api@next#", shown)), 2)
        self.assertNotIn("proxy@next", shown)

    def test_without_it_the_proxy_is_made_anew(self):
        self.rolled()
        self.up("project:up", "--yes")
        self.assertIn("new      proxy@next#", self.up("project@next:up", "--dry-run"))

    def test_it_is_for_a_next_form(self):
        (self.top / "one.yaml").write_text(json.dumps(self.services("api:1")))
        status, out, said = call("import", "compose", self.top / "one.yaml", "--rebind", self.top / "w.txt")
        self.assertEqual((status, out, said), (1, "", "metis: --rebind is for --next\n"))


class SumTest(FolderCase):
    def change(self, had, has):
        states = (State("a", next=("b",)), State("b"))
        before, after = ((ComponentType("A", states, each),) for each in (had, has))
        there = Configuration(before)
        there.instances = {0: Standing("A", "b")}
        return forms.changes_in(there, after, before)[0].fate

    def test_another_sum_is_a_change_in_place(self):
        self.assertEqual(self.change("1 x", "2 x"), forms.CHANGED)
        self.assertEqual(self.change("1 x", "1 y"), forms.CHANGED)
        self.assertEqual(self.change("1 x", "1 x once"), forms.CHANGED)
        self.assertEqual(self.change("1 x", "1 x"), forms.SAME)

    def test_what_was_not_known_is_no_change(self):
        self.assertEqual(self.change("1 -", "1 y"), forms.SAME)
        self.assertEqual(self.change("2 -", "1 y"), forms.CHANGED)
