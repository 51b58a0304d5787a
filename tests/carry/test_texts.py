"""No text becomes a command: each hostile value in each place that reaches a shell, an engine, ssh, Ansible or Slurm.

A value gets to its step as it is, or it is refused in a line. That a text was run shows in a file PWNED, and that a script was cut
off in a step that did not say what it saw.
"""

import contextlib
import json
import os
import pathlib
import shlex
import shutil
import subprocess
import unittest

from metis_planner.carry import script
from tests.carry.shapes import FolderCase, call, plan_text
from tests.effort import DEADLINE
from tests.test_words import TOP

HOSTILE = (
    "\\0047;touch PWNED;:\\0047",
    "CORP\\carol",
    "CORP\\nora",
    "\\\\",
    "a\\",
    "'",
    "';touch PWNED;'",
    '"',
    '";touch PWNED;"',
    "$(touch PWNED)",
    "`touch PWNED`",
    "${PATH}",
    "$dollar",
    "; touch PWNED",
    "& touch PWNED",
    "| touch PWNED",
    "%",
    "%s%n",
    "w%pct$dollar",
    "# x",
    "* ?",
    "~",
    "!!",
    "{a,b}",
    "{{ 1 }}",
    "a b",
    "é",
    "-rf",
    "-n",
    "--",
    "=x",
    "a\ntouch PWNED",
    "a\n",
    "\udcff",
    "\udcff'",
)
# Two dashes alone are no value to the reader of the words.
PATHS = tuple(value for value in HOSTILE if value != "--")
SHELLS = ("dash", "bash")
ENGINES = ("make", "ninja")
# What a step saw: each value and a byte that is in none of them.
SAYS = "{{ for each in {words}; do printf '%s\\0' \"$each\"; done >\"$TOP/saw.$METIS_INSTANCE\"; }}\n"


class TextCase(FolderCase):
    def setUp(self):
        super().setUp()
        if not all(map(shutil.which, (*SHELLS, "ninja"))):
            self.skipTest("dash, bash and ninja are not all there")
        here = pathlib.Path.cwd()
        self.addCleanup(os.chdir, here)
        os.chdir(self.top)

    def environment(self, shell):
        """All that is called `sh` is this shell."""
        place = self.top / "shells" / shell
        place.mkdir(parents=True, exist_ok=True)
        if not (place / "sh").exists():
            (place / "sh").symlink_to(shutil.which(shell))
        return {**os.environ, "PATH": f"{place}:{os.environ['PATH']}"}

    def carried_out(self, engine, shell, folder=None):
        """Carries the folder out by an engine, where this shell runs the script of an action and those of the steps."""
        folder = os.fsencode(folder or self.folder)
        with open(os.path.join(folder, b"run"), "r+b") as run:
            text = run.read()
            run.seek(0)
            run.write(text.replace(b"#!/bin/sh\n", b"#!" + os.fsencode(shutil.which(shell)) + b"\n", 1))
            run.truncate()
        words = [engine, "-C", folder] if engine == "ninja" else [engine, "-s", "-C", folder]
        done = subprocess.run(words, env=self.environment(shell), capture_output=True, check=False, timeout=DEADLINE)
        self.assertEqual(done.returncode, 0, (done.stdout, done.stderr))

    def each(self):
        for engine in ENGINES:
            for shell in SHELLS:
                with self.subTest(engine=engine, shell=shell):
                    yield engine, shell
                    self.check_nothing_ran()
                    for path in self.top.glob("saw.*"):
                        path.unlink()
                    with contextlib.suppress(FileNotFoundError):
                        shutil.rmtree(self.folder)

    def check_nothing_ran(self):
        found = [name for _, folders, files in os.walk(os.fsencode(self.top)) for name in (*folders, *files)]
        self.assertEqual([name for name in found if b"PWNED" == name], [])

    def saw(self, instance):
        data = (self.top / f"saw.{instance}").read_bytes().decode("utf-8", "surrogateescape")
        return data.removesuffix("\0").split("\0")

    def steps(self, *words, more="", head=""):
        return (
            f'{head}[env]\nTOP = "{self.top}"\n{more}'
            f"[[step]]\nwhen = \"*: new\"\nrun = '''\n{SAYS.format(words=' '.join(words))}'''\n"
        )

    def is_taken(self, *words, **options):
        """Whether it is not refused. What is refused is refused in a line."""
        status, out, said = self.export(*words, **options)
        if status:
            self.assertEqual((status, out, said.count("\n")), (1, "", 1), said)
        return not status


class ValueTest(TextCase):
    def test_the_source_of_a_type(self):
        taken = [value for value in HOSTILE if value.isprintable() and "'" not in value]
        self.assertGreater(len(taken), 20)
        types = [{"name": f"T{place}", "source": value, "initial": "a", "states": [{"name": "a"}]} for place, value in enumerate(taken)]
        (self.top / "u.json").write_text(json.dumps({"aeolus": 1, "types": types}))
        plan = plan_text(*(f"new {place} T{place}" for place in range(len(taken))))
        for engine, shell in self.each():
            self.exported(plan, engine, self.steps('"$METIS_SOURCE"'), ["--universe", self.top / "u.json"])
            self.carried_out(engine, shell)
            self.assertEqual([self.saw(place) for place in range(len(taken))], [[value] for value in taken])

    def test_a_source_that_no_script_can_have_is_refused(self):
        for value in HOSTILE:
            if value.isprintable() and "'" not in value:
                continue
            types = [{"name": "T", "source": value, "initial": "a", "states": [{"name": "a"}]}]
            (self.top / "u.json").write_text(json.dumps({"aeolus": 1, "types": types}))
            with self.subTest(value=value):
                said = self.refused(plan_text("new 0 T"), commands=self.steps("x"), more=["--universe", self.top / "u.json"])
                self.assertRegex(said, "the source of T has characters that no step can be handed|half of a pair of escapes")

    def test_variables(self):
        values = [value for value in HOSTILE if value.isascii() or value.isprintable()]
        more = "".join(f"V{place} = {json.dumps(value, ensure_ascii=False)}\n" for place, value in enumerate(values))
        words = [f'"$V{place}"' for place in range(len(values))]
        for engine, shell in self.each():
            self.exported(plan_text("new 0 T"), engine, self.steps(*words, more=more))
            self.carried_out(engine, shell)
            self.assertEqual(self.saw(0), values)

    def test_a_name_is_refused_that_is_no_name(self):
        for value in HOSTILE:
            if value in ("-rf", "-n", "--"):
                continue
            for plan in (f"new 0 {value}", f"new 0 T\nmove 0 a {value}", f"new 0 T\nnew 1 T\nbind {value} 0 1"):
                with self.subTest(plan=plan):
                    (self.top / "plan").write_bytes(plan_text(*plan.split("\n", 1)).encode("utf-8", "surrogateescape"))
                    (self.top / "c.toml").write_text(self.steps("x"))
                    status, _, said = call("make", self.top / "plan", "--commands", self.top / "c.toml", "--to", self.folder, "--lax")
                    self.assertEqual((status, said.count("\n"), self.folder.exists()), (1, 1, False), said)

    def test_names_that_begin_with_a_dash(self):
        names = ["-rf", "-n", "--", "-c", "-q"]
        plan = plan_text(*(f"new {place} {name}" for place, name in enumerate(names)))
        for engine, shell in self.each():
            self.exported(plan, engine, self.steps('"$METIS_TYPE"', '"$METIS_NAME"'))
            self.carried_out(engine, shell)
            self.assertEqual([self.saw(place) for place in range(5)], [[name, f"x{name}-{place}"] for place, name in enumerate(names)])


class HostTest(TextCase):
    """Texts that reach a host: by `env`, and by a way that joins its words by blanks for a shell, as ssh does."""

    def far(self):
        place = self.top / "bin"
        place.mkdir()
        (place / "ssh").write_text('#!/bin/sh\nwhile [ "$1" = -o ]; do shift 2; done\nshift\nexec sh -c "$*"\n')
        (place / "ssh").chmod(0o755)
        return str(place / "ssh")

    def placed(self, count):
        lines = "".join(f"on {place} h{place}\n" for place in range(count))
        (self.top / "placed").write_text(f"{lines}placed {count} hosts {count}\n")
        return ["--placement", self.top / "placed"]

    def test_a_word_of_a_way(self):
        values = [value for value in HOSTILE if value.isprintable()]
        hosts = "".join(f"[hosts.h{place}]\nvia = {json.dumps(['env', f'LOGIN={value}'], ensure_ascii=False)}\n" for place, value in enumerate(values))
        plan = plan_text(*(f"new {place} T" for place in range(len(values))))
        for engine, shell in self.each():
            self.exported(plan, engine, self.steps('"$LOGIN"') + hosts, self.placed(len(values)))
            self.carried_out(engine, shell)
            self.assertEqual([self.saw(place) for place in range(len(values))], [[value] for value in values])

    def test_a_word_that_is_not_printed_or_is_an_option_is_refused(self):
        for via in (["env", "a\nb"], ["env", "a\x1b"], ["-a", "b"], ["--"]):
            hosts = f"[hosts.h0]\nvia = {json.dumps(via)}\n"
            with self.subTest(via=via):
                self.assertFalse(self.is_taken(plan_text("new 0 T"), commands=self.steps("x") + hosts, more=self.placed(1)))
        self.assertFalse(self.is_taken(plan_text("new 0 T"), commands='shell = ["-c"]\n' + self.steps("x")))

    def test_words_of_the_shell_here_over_a_way_and_over_ssh(self):
        values = [value for value in HOSTILE if value.isprintable()]
        head = f"shell = {json.dumps(['sh', '-eu', '-s', '--', *values], ensure_ascii=False)}\n"
        ways = (None, ["env"], [self.far(), "-o", "A=b", "h"])
        for engine, shell in self.each():
            hosts = "".join(f"[hosts.h{place}]\n" + (f"via = {json.dumps(via)}\n" if via else "") for place, via in enumerate(ways))
            self.exported(plan_text("new 0 T", "new 1 T", "new 2 T"), engine, self.steps('"$@"', head=head) + hosts, self.placed(3))
            self.carried_out(engine, shell)
            self.assertEqual([self.saw(place) for place in range(3)], [values] * 3)

    def test_an_address(self):
        for value in (*HOSTILE, "-oProxyCommand", "10.0.0.1", "[::1]:22"):
            if not (value.isascii() or value.isprintable()):
                continue
            hosts = f"[hosts.h0]\naddress = {json.dumps(value, ensure_ascii=False)}\n"
            with self.subTest(value=value):
                is_one = value in ("10.0.0.1", "[::1]:22")
                self.assertEqual(self.is_taken(plan_text("new 0 T"), commands=self.steps("x") + hosts, more=self.placed(1)), is_one)

    def test_an_inventory_has_no_word_that_is_no_address(self):
        for value in HOSTILE:
            if not value.isprintable():
                continue
            with self.subTest(value=value):
                hosts = f'[hosts.h0]\nvia = {json.dumps(["ssh", value], ensure_ascii=False)}\n'
                self.exported(plan_text("new 0 T"), commands=self.steps("x") + hosts, more=self.placed(1))
                self.assertIn("\nh0 ansible_host=h0\n", (self.folder / "inventory").read_text())


class FolderPathTest(TextCase):
    def in_folder(self, value, engine, commands, more=()):
        """Exports into a folder of this name in the folder where it is."""
        (self.top / "plan").write_text(plan_text("new 0 T"))
        (self.top / "c.toml").write_text(commands)
        status, _, said = call(engine, "plan", "--commands=c.toml", f"--to={value}", *more)
        self.assertEqual(status, 0, said)
        return self.top / value

    def test_the_path_of_a_folder(self):
        for engine in ENGINES:
            for place, value in enumerate(PATHS):
                with self.subTest(engine=engine, value=value):
                    folder = self.in_folder(value, engine, self.steps('"$METIS_FOLDER"'))
                    self.carried_out(engine, SHELLS[place % 2], folder)
                    self.assertEqual(self.saw(0), [str(folder)])
                    self.check_nothing_ran()
                    shutil.rmtree(folder)

    def test_the_path_of_a_folder_over_a_way(self):
        (self.top / "placed").write_text("on 0 h0\nplaced 1 hosts 1\n")
        hosts = '[hosts.h0]\nvia = ["env", "A=\\\\c"]\n'
        for place, value in enumerate(PATHS):
            with self.subTest(value=value):
                folder = self.in_folder(value, "make", self.steps('"$METIS_FOLDER"') + hosts, ["--placement=placed"])
                self.carried_out("make", SHELLS[place % 2], folder)
                self.assertEqual(self.saw(0), [str(folder)])
                self.check_nothing_ran()
                shutil.rmtree(folder)

    def test_a_copied_folder_has_its_own(self):
        self.exported(plan_text("new 0 T"), commands=self.steps('"$METIS_FOLDER"'))
        shutil.copytree(self.folder, self.top / "copy")
        shutil.move(self.folder, self.top / "moved")
        for name in ("copy", "moved"):
            self.carried_out("make", "dash", self.top / name)
            self.assertEqual(self.saw(0), [str(self.top / name)])

    def test_a_path_that_would_end_the_script_of_a_far_step(self):
        (self.top / "placed").write_text("on 0 h0\nplaced 1 hosts 1\n")
        commands = self.steps("x") + '[hosts.h0]\nvia = ["env"]\n'
        folder = self.in_folder("f", "make", commands, ["--placement=placed"])
        digest = (folder / "Makefile").read_text().split("METIS_EXPORT := ")[1].split("\n")[0]
        worse = folder.rename(self.top / f"x\n{digest}.step\n{digest}.far\ntouch PWNED\n")
        done = subprocess.run(["make", "-s", "-C", worse], capture_output=True, text=True, check=False)
        self.assertEqual(done.returncode, 2)
        self.assertIn("the path of the folder has a word that ends a script", done.stderr)
        self.check_nothing_ran()

    def test_up_goes_into_a_folder_whose_name_begins_with_a_dash(self):
        (self.top / "u.sketch").write_text("T: off > on(+p)\n")
        commands = self.steps('"$METIS_FOLDER"').replace("*: new", "*: * -> *")
        (self.top / "-c").write_text(commands + '[[step]]\nwhen = "*: new"\nrun = ""\n')
        for engine in ENGINES:
            words = [TOP / "metis", "up", "u.sketch", "T:on", "--commands=-c", "--to=-rf", f"--engine={engine}", "--yes"]
            with self.subTest(engine=engine):
                done = subprocess.run(words, capture_output=True, text=True, check=False)
                if "no program" in done.stderr or done.returncode == 70:
                    self.skipTest("no program that plans")
                self.assertEqual((done.returncode, self.saw(0)), (0, [str(self.top / "-rf")]), done.stderr)
                shutil.rmtree(self.top / "-rf")

    def test_where_locks_are(self):
        head, step = self.steps('"$METIS_TYPE"').split("[[step]]\n")
        for place, value in enumerate(HOSTILE):
            with self.subTest(value=value):
                (self.top / value).mkdir()
                self.exported(plan_text("new 0 T"), commands=f'{head}[[step]]\nlock = "apt"\n{step}')
                os.environ["METIS_LOCKS"] = value
                # A path from the folder in which the step is done.
                (self.folder / value).mkdir(exist_ok=True)
                self.carried_out("make", SHELLS[place % 2])
                self.assertEqual(self.saw(0), ["T"])
                [lock] = (self.folder / value).glob("metis-*/lock.apt*")
                self.check_nothing_ran()
                shutil.rmtree(self.top / value)
                shutil.rmtree(self.folder)


class AnsibleTest(TextCase):
    def test_a_playbook_and_an_inventory(self):
        fake = self.top / "play"
        fake.write_text(f'#!/bin/sh\n{{ for each in "$@"; do printf "%s\\0" "$each"; done; }} >{shlex.quote(str(self.top))}/saw.0\n')
        fake.chmod(0o755)
        os.environ["ANSIBLE_PLAYBOOK"] = str(fake)
        self.addCleanup(os.environ.pop, "ANSIBLE_PLAYBOOK")
        for place, value in enumerate(HOSTILE):
            if not value.isprintable():
                continue
            told = json.dumps(value, ensure_ascii=False)
            commands = f'inventory = {told}\n[[step]]\nwhen = "*: new"\nplaybook = {told}\n'
            with self.subTest(value=value):
                if not self.is_taken(plan_text("new 0 T"), commands=commands):
                    self.assertTrue(value.startswith("-"))
                    continue
                self.carried_out("make", SHELLS[place % 2])
                words = self.saw(0)
                self.assertEqual((words[1], words[-1]), (str(self.top / value), value))
                self.check_nothing_ran()
                shutil.rmtree(self.folder)

    def test_a_host_that_would_be_an_option_or_a_file_of_hosts(self):
        for host in ("-x", "@x"):
            (self.top / "placed").write_text(f"on 0 {host}\nplaced 1 hosts 1\n")
            commands = f'[[step]]\nwhen = "*: new"\nplaybook = "x.yml"\n[hosts."{host}"]\n'
            said = self.refused(plan_text("new 0 T"), commands=commands, more=["--placement", self.top / "placed"])
            self.assertIn(f"Ansible takes no host that begins with {host[0]}", said)


class SlurmTest(TextCase):
    def test_a_folder_and_titles(self):
        """`sbatch` runs what it is handed by a shell, as Slurm does, and keeps the names of the jobs."""
        place = self.top / "bin"
        place.mkdir()
        (place / "sbatch").write_text(
            '#!/bin/sh\nfor each in "$@"; do\n  case $each in\n  --job-name=*) printf "%s\\n" "${each#*=}" >>"$NAMES" ;;\n'
            '  --chdir=*) cd -- "${each#*=}" || exit ;;\n  --wrap=*) sh -c "${each#*=}" >/dev/null 2>&1 || exit ;;\n  esac\ndone\necho 1\n'
        )
        (place / "sbatch").chmod(0o755)
        plan = plan_text("new 0 -n", "new 1 @x", "bind -e 0 1 after 2")
        commands = self.steps('"$METIS_FOLDER"') + '[[step]]\nwhen = "*: bind *"\nrun = ""\n'
        for place_of, value in enumerate(HOSTILE):
            shell = SHELLS[place_of % 2]
            with self.subTest(value=value):
                (self.top / "names").unlink(missing_ok=True)
                self.folder = self.top / value
                self.exported(plan, "slurm", commands)
                found = self.environment(shell)
                environment = {**found, "PATH": f"{place}:{found['PATH']}", "NAMES": str(self.top / "names")}
                words = list(map(os.fsencode, (shell, self.folder / "submit")))
                done = subprocess.run(words, env=environment, capture_output=True, check=False, timeout=DEADLINE)
                self.assertEqual((done.returncode, self.saw(0)), (0, [str(self.folder)]), done.stderr)
                self.assertEqual((self.top / "names").read_text().split("\n")[:3], ["make -n#0", "make @x#1", "-n#0 takes -e from @x#1"])
                self.check_nothing_ran()
                shutil.rmtree(self.folder)


class TemplateTest(unittest.TestCase):
    def test_no_text_is_written_by_echo(self):
        """What a function writes into a script is written by `printf`: `echo` of dash takes a backslash for its own."""
        text = script.TEMPLATE.read_text()
        for name in ("step_script", "far_script"):
            body = text.split(f"\n{name}() {{")[1].split("\n}\n")[0]
            written = [line.strip() for line in body.split("\n") if line.strip().startswith(("echo", "printf"))]
            self.assertGreaterEqual(len(written), 4)
            self.assertEqual([line for line in written if line.startswith("echo") or not line.startswith("printf '%s\\n' ")], [])


if __name__ == "__main__":
    unittest.main()
