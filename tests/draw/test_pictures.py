import fcntl
import json
import pathlib
import shutil
import subprocess
import unittest
import xml.dom.minidom

from metis_planner.draw.chart import CRITICAL, FRAMES, Chart
from tests.carry.shapes import CROSSED, REBOUND, ROLLED, WEB, FolderCase, call, plan_text
from tests.carry.test_commands import UNIVERSE

TOP = pathlib.Path(__file__).resolve().parents[2]
# What `metis waves` prints for WEB and 20 5 1 1 60.
WAVES = "1 at 0 to 60\n2 at 0 to 0\n3 at 20 to 20\n4 at 80 to 80\n5 at 81 to 81\nfinish 141\nchain 2 3 4 5\n"
NUMBERS = "20 5 1 1 60".split()


class PictureTest(FolderCase):
    def drawn(self, text, *words):
        (self.top / "text").write_text(text)
        return call(*[self.top / "text" if word == "-" else word for word in words])

    @unittest.skipUnless(shutil.which("dot"), "no Graphviz")
    def test_graphviz_takes_them(self):
        for text in (CROSSED, ROLLED, json.dumps(UNIVERSE), plan_text()):
            for more in ([], ["--instances"]):
                status, picture, said = self.drawn(text, "graph", "-", *more)
                self.assertEqual((status, said), (0, ""))
                done = subprocess.run(["dot", "-Tsvg"], input=picture, capture_output=True, text=True, check=False)
                self.assertEqual((done.returncode, done.stderr), (0, ""))
                xml.dom.minidom.parseString(done.stdout)

    def test_a_plan(self):
        picture = self.drawn(CROSSED, "graph", "-")[1]
        self.assertIn('label="A#2"', picture)
        self.assertIn('a10 [label="10 a0 → a1" fillcolor="#d9efd5"]', picture)
        self.assertIn("a9 -> a10 -> a15 [weight=4]\n", picture)
        self.assertIn("a8 -> a12 [style=dashed", picture)
        self.assertNotIn("a2 -> a5 [style", picture)
        self.assertEqual(picture.count("style=dashed"), 4)
        picture = self.drawn(CROSSED, "graph", "--as", "mermaid", "-")[1]
        self.assertIn("  a8 -.-> a12\n", picture)
        self.assertIn('  subgraph i2["A#2"]\n', picture)

    def test_instances(self):
        picture = self.drawn(CROSSED, "graph", "-", "--instances")[1]
        self.assertIn('i2 [label="A#2: a1, deleted" fillcolor="#f4c7b8"]', picture)
        self.assertIn('i1 -> i2 [label="x"]', picture)
        self.assertIn('  i1 -->|"x"| i2\n', self.drawn(CROSSED, "graph", "--as", "mermaid", "-", "--instances")[1])

    def test_what_a_change_keeps_and_makes_and_takes_away(self):
        (self.top / "old").write_text(WEB)
        more = ["--from", self.top / "old"]
        picture = self.drawn(REBOUND, "graph", "-", *more)[1]
        for name, colour in (("Web#0, kept", "#3c8d2f"), ("Db#1, going", "#b8431f"), ("Db#2, new", "#1f5fa8")):
            self.assertIn(f'label="{name}" labeljust=l style=rounded color="{colour}"', picture)
        # What is new stands, and what is kept is bound to it, before the old is let go.
        for line in ("a7 -> b0 ", "a8 -> b0 ", "b0 -> a9 "):
            self.assertEqual(picture.count(line), 1, line)
        self.assertNotIn("b0 -> a10 ", picture)
        boxes = self.drawn(REBOUND, "graph", "-", "--instances", *more)[1]
        self.assertIn('i0 [label="Web#0: run, kept" fillcolor="#d9efd5"]', boxes)
        self.assertIn('i1 [label="Db#1: on, going" fillcolor="#f4c7b8"]', boxes)
        self.assertIn('i2 [label="Db#2: on, new" fillcolor="#d7e8f7"]', boxes)
        for shape in ([], ["--instances"]):
            self.assertIn('["Db#2, new"]', self.drawn(REBOUND, "graph", "--as", "mermaid", "-", *shape, *more)[1])
        self.assertIn("it does not begin with the 5 actions of", self.drawn(CROSSED, "graph", "-", *more)[2])

    def test_what_is_too_much_is_refused(self):
        for words, reason in (
            (
                ["--most", "3"],
                "15 actions, and a picture of more than 3 is not read by anybody: draw it with --instances, or with --most 15",
            ),
            (["--instances", "--most", "2"], "3 instances, and a picture of more than 2"),
        ):
            status, picture, said = self.drawn(CROSSED, "graph", "-", *words)
            self.assertEqual((status, picture, said.count("\n")), (1, "", 1))
            self.assertIn(reason, said)
        self.assertIn(
            "3 states, and a picture of more than 2", self.drawn(json.dumps(UNIVERSE), "graph", "--as", "mermaid", "-", "--most", "2")[2]
        )

    def test_a_universe_with_a_port_that_nobody_provides(self):
        picture = self.drawn(json.dumps(UNIVERSE), "graph", "-")[1]
        self.assertIn('[label="p" shape=ellipse style=filled fillcolor="#d7e8f7"]', picture)
        self.assertIn('[label="q" shape=ellipse style=filled fillcolor="#f4c7b8"]', picture)
        self.assertIn('label="× 2"', picture)
        self.assertIn('s0_0 [label="a" fillcolor="#eeeeee" peripheries=2]', picture)
        picture = self.drawn(json.dumps(UNIVERSE), "graph", "--as", "mermaid", "-")[1]
        self.assertIn('s0_0(["a"])', picture)
        self.assertIn("-.->|× 2| s0_1", picture)

    def test_a_plan_on_standard_input(self):
        self.assertIn("a5", call("graph", "-", text=WEB)[1])
        self.assertIn("metis: -: line 1: no plan", call("graph", "-", text="\x1b[2J\n")[2])
        self.assertIn("has to wait for 3", call("graph", "-", text=WEB.replace(" after 3", ""))[2])


class ChartTest(FolderCase):
    def chart(self, waves=WAVES, numbers=NUMBERS, plan=WEB, more=()):
        (self.top / "p").write_text(plan)
        (self.top / "w").write_text(waves)
        return call("gantt", self.top / "p", self.top / "w", *numbers, *more)

    def test_of_waves(self):
        status, chart, said = self.chart(more=["--unit", "min"])
        self.assertEqual((status, said), (0, ""))
        xml.dom.minidom.parseString(chart)
        # Four bars of the chain, its sign, and the line and the number of the end.
        self.assertEqual(chart.count(CRITICAL), 4 + 1 + 2)
        self.assertIn(">141 min</text>", chart)
        self.assertIn("<title>3 Db#1: off -&gt; on: 20 to 80</title>", chart)
        self.assertIn("<title>1 make Web#0: 0 to 20, may start 60 later</title>", chart)
        self.assertEqual(chart, self.chart(more=["--unit", "min"])[1])

    def test_waves_of_something_else_are_refused(self):
        for waves, numbers, reason in (
            (WAVES, "20 5 1 1 61".split(), "action 4 starts at 80, which the plan and these five numbers do not give"),
            (
                WAVES.replace("finish 141", "finish 142"),
                NUMBERS,
                "it ends at 142, which the plan and these five numbers do not give",
            ),
            (WAVES.replace("5 at 81 to 81\n", ""), NUMBERS, "6 lines, where the plan has 5 actions"),
            (WAVES.replace("2 at 0", "3 at 0"), NUMBERS, "line 2: not '2 at E to L'"),
            (
                WAVES.replace("finish", "loose"),
                NUMBERS,
                "line 6: not 'finish T'",
            ),
            ("bad 1 A2 0\n", NUMBERS, "not what `metis waves` prints"),
            (WAVES, NUMBERS[:4], "a chart is made of a folder, or of a plan, its waves and the five numbers"),
        ):
            status, chart, said = self.chart(waves, numbers)
            self.assertEqual((status, chart, said.count("\n")), (1, "", 1))
            self.assertIn(reason, said)
        self.assertIn("--unit is no word", self.chart(more=["--unit", "<b>"])[2])
        self.assertIn("2 lanes, and a picture of more than 1", self.chart(more=["--most", "1"])[2])

    def test_of_what_really_happened(self):
        self.exported(WEB)
        self.assertIn("no action with a command is done there", call("gantt", self.folder)[2])
        self.make()
        self.exported(ROLLED)
        times = {"0.1": (0, 1), "1.1": (0, 3), "1.2": (3, 4), "0.2": (4, 5), "0.3": (5, 6.5)}
        times |= {"2.1": (7, 9), "3.1": (7, 8), "3.2": (8, 8.5), "2.2": (9, 9.1), "2.3": (9.1, 9.3), "0.4": (9.5, 10.5)}
        for key, (begun, ended) in times.items():
            (self.folder / "done" / key).write_text(f"\n{100 + begun:.3f} {100 + ended:.3f}\n")
        status, chart, said = call("gantt", self.folder)
        self.assertEqual((status, said), (0, ""))
        xml.dom.minidom.parseString(chart)
        red = [
            line.split("<title>")[1].split(" ")[0]
            for line in chart.splitlines()
            if "<title>" in line and CRITICAL in line
        ]
        # 11 waited for the barrier, and what ended last of the fresh ones is 10, behind 9, behind 6.
        self.assertEqual(red, ["6", "9", "10", "11"])
        self.assertIn(">10.5 s</text>", chart)

    def test_of_a_folder_what_failed_and_what_runs(self):
        commands = '[[step]]\nwhen = "*: off -> on"\nrun = "exit 3"\n[[step]]\nwhen = "*: new"\nrun = "true"\n'
        self.exported(WEB, commands=commands, more=["--lax"])
        self.make("-k")
        status, chart, said = call("gantt", self.folder)
        self.assertEqual((status, said), (0, ""))
        xml.dom.minidom.parseString(chart)
        titles = [line.split("<title>")[1].split("</title>")[0] for line in chart.splitlines() if "<title>" in line]
        (failed,) = [title for title in titles if title.startswith("3 Db#1: off -&gt; on")]
        self.assertTrue(failed.endswith(", failed"), failed)
        self.assertIn(FRAMES["failed"], next(line for line in chart.splitlines() if "<title>3 " in line))
        self.assertIn(">failed</text>", chart)
        self.assertNotIn("longest chain", chart)
        with open(self.folder / "log" / "1.2", "ab") as log:
            fcntl.flock(log, fcntl.LOCK_EX)
            chart = call("gantt", self.folder)[1]
        self.assertIn(FRAMES["running"], next(line for line in chart.splitlines() if "<title>3 " in line))

    def test_ticks_are_round_and_few(self):
        for finish, expected in (
            (0, []),
            (5, [0, 1, 2, 3, 4]),
            (141, [0, 20, 40, 60, 80, 100, 120]),
            (7_000_000, list(range(0, 7_000_000, 1_000_000))),
        ):
            chart = Chart([], "")
            chart.finish = finish
            self.assertEqual(chart.ticks(), expected)


if __name__ == "__main__":
    unittest.main()
