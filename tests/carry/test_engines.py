"""The table of engines: one of another package does what those of Metis do, and the file `jobs` is read as it is written."""

import importlib
import os
import subprocess
import sys
from unittest import mock

from metis_planner.answers import Refused
from metis_planner.carry.jobs import JobLine
from tests.carry.shapes import WEB, FolderCase, call
from tests.carry.test_up import UpCase

# As another package would bring it: the steps one after the other, by a shell.
MODULE = """\
import argparse

from metis_planner.answers import Answer
from metis_planner.carry import export
from metis_planner.carry.engines import Engine
from metis_planner.carry.export import add_arguments


def run(arguments: argparse.Namespace) -> Answer:
    return export.run(arguments, ENGINE)


def text_of(found):
    yield 'cd "${0%/*}"\\n' + f"export METIS_EXPORT={found.digest}\\n"
    for job in found.jobs():
        yield f"[ -e done/{job.step.key} ] || ./run -q {job.words} || exit 1\\n"


ENGINE = Engine(file="tasks.sh", text_of=text_of, command=lambda folder, jobs: ["sh", f"{folder}/tasks.sh"])
"""
WITHOUT = MODULE.replace("ENGINE = Engine", "OTHER = Engine")


class OthersTest(UpCase):
    """Packages with engines, as they lie on the path of Python where they are installed."""

    def setUp(self):
        super().setUp()
        for name, module in (("tasks", MODULE), ("without", WITHOUT)):
            (self.top / f"engine_{name}.py").write_text(module)
            about = self.top / f"engine_{name}-1.dist-info"
            about.mkdir()
            (about / "METADATA").write_text(f"Metadata-Version: 2.1\nName: engine_{name}\nVersion: 1\n")
            (about / "entry_points.txt").write_text(f"[metis_planner.engines]\n{name} = engine_{name}\n")
        patch = mock.patch.object(sys, "path", [*sys.path, str(self.top)])
        patch.start()
        self.addCleanup(patch.stop)
        importlib.invalidate_caches()
        for name in ("engine_tasks", "engine_without"):
            self.addCleanup(sys.modules.pop, name, None)

    def test_up_carries_out_by_an_engine_of_another_package(self):
        self.stands("Web:run", more=("--yes", "--engine", "tasks"))
        self.assertTrue((self.folder / "tasks.sh").is_file())
        self.assertFalse((self.folder / "Makefile").exists())
        self.assertEqual(len((self.top / "trace").read_text().splitlines()), WEB.count("\n") - 3)

    def test_its_file_goes_where_another_engine_writes_anew(self):
        self.stands("Web:run", more=("--yes", "--engine", "tasks"))
        self.stands("Web:run", "Web:run")
        self.assertFalse((self.folder / "tasks.sh").exists())

    def test_its_word_writes_a_folder_that_its_engine_reads(self):
        (self.top / "plan").write_text(WEB)
        (self.top / "c.toml").write_text(self.commands())
        status, _, said = call("engine", "tasks", self.top / "plan", "--commands", self.top / "c.toml", "--to", self.folder)
        self.assertEqual((status, said), (0, ""))
        done = subprocess.run(["sh", self.folder / "tasks.sh"], check=False, env={**os.environ, "TOP": str(self.top)})
        self.assertEqual((done.returncode, self.left()), (0, []))

    def test_a_package_without_an_engine_is_refused_in_a_line_and_hinders_nobody(self):
        status, _, said = self.up("Web:run", more=("--yes", "--engine", "without"))
        self.assertEqual((status, said.count("\n")), (1, 1))
        self.assertIn("engine without: module 'engine_without' has no attribute 'ENGINE'", said)
        self.stands("Web:run")


class JobLineTest(FolderCase):
    def test_each_line_is_read_as_it_was_written(self):
        self.exported(WEB)
        lines = (self.folder / "jobs").read_text().splitlines()
        self.assertEqual([str(JobLine.read(line)) for line in lines], lines)
        move = JobLine.read(lines[4])
        self.assertEqual((move.verb, move.instance, move.more, move.bound), ("move", "0", ("off", "run"), ("sql=Db-1",)))

    def test_a_job_for_another_number_has_that_in_its_key_and_is_bound_as_it_is_said(self):
        line = JobLine.read("0.3 4 5 left move 0 Web off run sql=Db-1")
        self.assertEqual(str(line.for_instance(7, ["sql=Db-9"])), "7.0.3 4 5 left move 7 Web off run sql=Db-9")

    def test_a_line_of_fewer_words_is_refused(self):
        with self.assertRaises(Refused):
            JobLine.read("0.1 1 1 : new 0")
