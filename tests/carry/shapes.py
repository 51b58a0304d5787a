"""What the tests share: plans, commands, and a folder in which the exporters are called."""

import contextlib
import io
import os
import pathlib
import shutil
import subprocess
import tempfile
import unittest
from unittest import mock

from metis_planner import cli
from metis_planner.carry import steps
from metis_planner.text import plans
from tests.effort import DEADLINE

# What `metis plan` prints for examples/crossed.json and A:a3 B:b3.
CROSSED = """metis plan 1
instances 3 actions 15 dups 1
1 new 0 A
2 move 0 a0 a1
3 new 1 B
4 move 1 b0 b1
5 bind y 0 1 after 4
6 move 0 a1 a2
7 move 0 a2 a3
8 unbind y 0 1
9 new 2 A
10 move 2 a0 a1
11 bind x 1 2 after 10
12 move 1 b1 b2 after 8
13 move 1 b2 b3
14 unbind x 1 2
15 delete 2 after 14
dup 1 A:a1 cycle 0.2 1.3 1.2 0.3
end
"""
PLACED = "on 0 left\non 1 left\non 2 right\nhold 9 after 4 6\nplaced 3 hosts 2\n"
# A server and its database; the rollout of the two, and what takes the rollout back.
WEB = """metis plan 1
instances 2 actions 5 dups 0
1 new 0 Web
2 new 1 Db
3 move 1 off on
4 bind sql 0 1 after 3
5 move 0 off run
end
"""
ROLLED = WEB.replace("instances 2 actions 5", "instances 4 actions 12").replace(
    "end\n",
    """6 new 2 Web
7 new 3 Db
8 move 3 off on
9 bind sql 2 3 after 8
10 move 2 off run
11 delete 0
12 delete 1 after 11
end
""",
)
# What `metis reconfigure` prints for the two and a second Web:run; and for a Web that is to take from another Db, of which the
# first one goes: it is bound to the new one before it lets the old one go.
WIDENED = WEB.replace("instances 2 actions 5", "instances 3 actions 8").replace(
    "end\n", "6 new 2 Web\n7 bind sql 2 1 after 3\n8 move 2 off run\nend\n"
)
REBOUND = WEB.replace("instances 2 actions 5", "instances 3 actions 10").replace(
    "end\n",
    """6 new 2 Db
7 move 2 off on
8 bind sql 0 2 after 7
9 unbind sql 0 1
10 delete 1 after 9
end
""",
)
TAKEN_DOWN = WEB.replace("actions 5", "actions 7").replace("end\n", "6 delete 0\n7 delete 1 after 6\nend\n")
LINE = (
    'echo "$METIS_ACTION $METIS_NAME $METIS_VERB ${METIS_PROVIDER_NAME-} [$METIS_BOUND] '
    '$METIS_HOST $METIS_ADDRESS ${VIA-}" >>"$TRACE"\n'
)
NEEDED = ("make", "flock", "timeout")
WHENS = ("*: new", "*: delete", "*: bind *", "*: unbind *", "*: * -> *")
# Lasts as long as a test lets it: until the file is removed, and at last with all that the test wrote.
HELD = 'while [ -e "$TOP/held" ]; do sleep 0.05; done\n'
HEAD = """
[env]
TRACE = "{top}/trace"
TOP = "{top}"
ODD = "it's $HOME `x` \\"\\\\ é"
[hosts.left]
address = "127.0.1.1"
[hosts.right]
via = ["env", "VIA=right"]
"""


def plan_text(*lines):
    """The text of a plan of these actions, without their numbers."""
    made = sum(line.startswith("new ") for line in lines)
    actions = "".join(f"{number} {line}\n" for number, line in enumerate(lines, 1))
    return f"metis plan 1\ninstances {made} actions {len(lines)} dups 0\n{actions}end\n"


def steps_of(text):
    return steps.steps_of(plans.read(text), "plan")


def call(*words, text=""):
    """What the exporters say to these words: the status, standard output and standard error."""
    out, err = io.StringIO(), io.StringIO()
    given = mock.Mock(buffer=io.BytesIO(text.encode()))
    with contextlib.redirect_stdout(out), contextlib.redirect_stderr(err), mock.patch("sys.stdin", given):
        with mock.patch("sys.argv", ["metis", *map(str, words)]):
            status = cli.main()
    return status, out.getvalue(), err.getvalue()


class FolderCase(unittest.TestCase):
    """A test with a folder `f`, to which plans are exported, and a trace that their steps write."""

    def setUp(self):
        if not all(map(shutil.which, NEEDED)):
            self.skipTest(f"{', '.join(NEEDED)} are not all there")
        self.top = pathlib.Path(tempfile.mkdtemp())
        self.addCleanup(shutil.rmtree, self.top)
        # Locks that go across folders are those of the test alone, or it would wait for what else the user carries out.
        locks = mock.patch.dict(os.environ, {"METIS_LOCKS": str(self.top)})
        locks.start()
        self.addCleanup(locks.stop)
        self.folder = self.top / "f"

    def commands(self, body=LINE, **options):
        lines = "".join(f"{key} = {value}\n" for key, value in options.items())
        return HEAD.format(top=self.top) + "".join(
            f"[[step]]\nwhen = \"{when}\"\n{lines}run = '''\n{body}'''\n" for when in WHENS
        )

    def export(self, plan, form="make", commands=None, more=()):
        (self.top / "plan").write_text(plan)
        (self.top / "c.toml").write_text(self.commands() if commands is None else commands)
        words = [form, self.top / "plan", "--commands", self.top / "c.toml", "--to", self.folder, *more]
        return call(*words)

    def exported(self, *words, **options):
        """Exports, and expects that this is done."""
        status, _, said = self.export(*words, **options)
        self.assertEqual(status, 0, said)
        return said

    def refused(self, *words, **options):
        """Exports, and expects that it is refused by one line."""
        status, out, said = self.export(*words, **options)
        self.assertEqual((status, out, said.count("\n")), (1, "", 1), said)
        return said

    def make(self, *words):
        words = ("make", "-s", "-C", self.folder, *words)
        done = subprocess.run(words, capture_output=True, text=True, check=False, timeout=DEADLINE)
        return done.returncode, done.stdout, done.stderr

    def hold(self):
        """What has HELD in it lasts until it is let go."""
        (self.top / "held").touch()

    def let_go(self):
        (self.top / "held").unlink()

    def trace(self):
        path = self.top / "trace"
        return path.read_text().splitlines() if path.exists() else []

    def numbers(self):
        """The actions in the order in which they were done."""
        return [int(line.split()[0]) for line in self.trace()]

    def marks(self, folder=None):
        return sorted(path.name for path in ((folder or self.folder) / "done").iterdir())
