import base64
import fcntl
import hashlib
import html
import html.parser
import json
import os
import pathlib
import re
import shutil
import subprocess
import sys
import unittest
from unittest import mock

from metis_planner import program
from metis_planner.answers import Refused
from metis_planner.carry.folder import Folder
from metis_planner.carry.progress import Row, Stage
from metis_planner.carry.rollouts import Rollout
from metis_planner.page import changes, cause, progress, reasons, sheet, times, verdict
from metis_planner.text import plans
from tests.carry.shapes import CROSSED, PLACED, ROLLED, WEB, FolderCase, call, plan_text, steps_of

HERE = pathlib.Path(__file__).resolve().parent
PAGE = pathlib.Path(sheet.__file__).resolve().parent
DOCS = HERE.parents[1] / "docs"
AGAIN = "tools/draw_pages.py makes it anew, and python3 -m trials page_pictures --write from nothing"
HOSTILE = '"><img src=x></script x></script><script>window.hit=2</script><!-- &lt;'
UNIVERSE = {
    "aeolus": 1,
    "types": [
        {
            "name": "Web",
            "initial": "off",
            "states": [{"name": "off", "next": ["run"]}, {"name": "run", "require": ["sql"]}],
        },
        {"name": "Db", "initial": "off", "states": [{"name": "off", "next": ["on"]}, {"name": "on", "provide": ["sql"]}]},
    ],
}
# What `metis waves` prints for WEB and 20 5 1 1 60.
NUMBERS = "20 5 1 1 60".split()
WAVES = "1 at 0 to 60\n2 at 0 to 0\n3 at 20 to 20\n4 at 80 to 80\n5 at 81 to 81\nfinish 141\nchain 2 3 4 5\n"
# What it prints for a shop and its mail that wait for each other, and for a port that nothing provides.
WAITING = "metis why 1\nlacks Shop:up\nlines 2\nShop:up needs mail from Mail:up\nMail:up needs orders from Shop:up\nend\n"
NOTHING = "metis why 1\nlacks A:b\nlines 1\nA:b needs x from none\nend\n"
REFUSAL = "metis refusal 1\nlacks Shop:up\npairs 2\nShop:off\nMail:off\nend\n"
# A change that keeps Db#1: another Web is bound to it, and then the first goes.
OLD = ("new 0 Web", "new 1 Db", "move 1 off on", "bind sql 0 1 after 3", "move 0 off run")
CHANGED = plan_text(*OLD, "new 2 Web", "bind sql 2 1 after 3", "move 2 off run", "delete 0")


class Parts(html.parser.HTMLParser):
    """What a browser finds in a page: its scripts, styles and policy, and the text of each list item."""

    def __init__(self, text):
        super().__init__()
        self.found, self.kind, self.policy, self.items = {"script": [], "style": [], "li": []}, None, "", []
        self.feed(text)

    def handle_starttag(self, tag, attrs):
        if tag == "meta" and dict(attrs).get("http-equiv") == "Content-Security-Policy":
            self.policy = dict(attrs)["content"]
        if tag in self.found:
            self.kind = tag
            self.found[tag].append((dict(attrs), ""))

    def handle_endtag(self, tag):
        if tag == self.kind:
            self.kind = None

    def handle_data(self, data):
        if self.kind:
            attrs, text = self.found[self.kind][-1]
            self.found[self.kind][-1] = (attrs, text + data)

    @property
    def data(self):
        return json.loads(next(text for attrs, text in self.found["script"] if attrs.get("id") == "data"))


class PureTest(unittest.TestCase):
    @unittest.skipUnless(shutil.which("node"), "no node")
    def test_what_needs_no_browser(self):
        done = subprocess.run(["node", "--test", HERE], capture_output=True, text=True, check=False)
        self.assertEqual(done.returncode, 0, done.stdout[-4000:] + done.stderr[-2000:])
        counts = dict(re.findall(r"^# (tests|pass) (\d+)$", done.stdout, re.MULTILINE))
        self.assertGreaterEqual(int(counts["pass"]), 42)
        self.assertEqual(counts["pass"], counts["tests"])

    def test_limits(self):
        sources = [path for path in PAGE.iterdir() if path.suffix in (".js", ".css")]
        lines = [line for path in sources for line in path.read_text("utf-8").splitlines()]
        self.assertLessEqual(len(lines), 2000)
        self.assertEqual([line for line in lines if len(line) > 120], [])
        forbidden = re.compile(r"</script|<!--|innerHTML|eval\(")
        self.assertEqual([path.name for path in sources if forbidden.search(path.read_text("utf-8"))], [])


class PageCase(FolderCase):
    def path(self, name, text):
        path = self.top / name
        path.write_text(text)
        return path

    def page(self, *words):
        status, text, notes = call("page", *words)
        self.assertEqual(status, 0, notes)
        return text


class SheetTest(PageCase):
    def test_what_is_refused(self):
        web, rolled, crossed = self.path("web", WEB), self.path("rolled", ROLLED), self.path("crossed", CROSSED)
        waves, universe = self.path("waves", WAVES), self.path("universe", json.dumps(UNIVERSE))
        refusal, nothing = self.path("refusal", REFUSAL), self.path("nothing", NOTHING)
        for words, reason in (
            ((web, "--serve"), "no folder"),
            ((web, "--waves", waves, *"12345"), "do not give"),
            ((web, "--waves", waves, *"1234x"), "five numbers"),
            ((web, "--waves", waves, *"1234", "9999999999"), "five numbers"),
            ((crossed, "--universe", universe), "it has no type A"),
            ((rolled, "--from", crossed), "does not begin with"),
            ((web, "--most", "4"), "5 actions"),
            ((web, "--placement", web), "not what `metis place` prints"),
            ((refusal, "--why", nothing), "A:b is lacking, and not Shop:up"),
            ((refusal, "--why", web), "a plan, where"),
            ((refusal, "--from", web), "it is no plan"),
            ((self.top / "none",), "No such file"),
            ((universe,), "no plan"),
            ((self.path("wrong", WEB.replace(" after 3", "")),), "has to wait for 3"),
        ):
            status, text, notes = call("page", *words)
            self.assertEqual((status, text, notes.count("\n")), (1, "", 1), words)
            self.assertIn(reason, notes)

    def test_a_rollout_that_is_not_named(self):
        self.assertIn("say by --from OLD", call("page", self.path("rolled", ROLLED))[2])

    def test_only_its_own_scripts_count(self):
        for path in (self.path("web", WEB), self.path("why", WAITING)):
            text = self.page(path, "--title", HOSTILE)
            parts = Parts(text)
            self.assertIn(HOSTILE, html.unescape(text))
            for kind, directive in (("script", "script-src"), ("style", "style-src")):
                own = [text for attrs, text in parts.found[kind] if attrs.get("type") != "application/json"]
                digests = [base64.b64encode(hashlib.sha256(each.encode()).digest()).decode() for each in own]
                stated = re.search(rf"{directive} ([^;]*);", parts.policy)[1]
                self.assertEqual(stated, " ".join(f"'sha256-{digest}'" for digest in digests))
            self.assertIn("default-src 'none'", parts.policy)
            self.assertIn("connect-src 'none'", parts.policy)
            self.assertEqual(sum(attrs.get("type") == "application/json" for attrs, _ in parts.found["script"]), 1)
            self.assertEqual(text.count("<script"), len(parts.found["script"]))

    def test_the_pages_that_are_kept_are_as_they_would_be_made_now(self):
        for name, scripts in (("wordpress.html", sheet.OF_A_PLAN), ("lvm2.html", sheet.OF_REASONS)):
            text = (DOCS / name).read_text("utf-8")
            found = [text for attrs, text in Parts(text).found["script"] if "type" not in attrs]
            self.assertEqual(found, [(PAGE / f"{each}.js").read_text("utf-8") for each in scripts], f"{name}: {AGAIN}")
            self.assertIn((PAGE / "page.css").read_text("utf-8"), text, f"{name}: {AGAIN}")
            self.assertIn("by the proved program; metis ", text)
        body = sheet.filled("plan.html", {"WISHES": "", "DOUBLES": ""})
        self.assertIn(body, (DOCS / "wordpress.html").read_text("utf-8"), AGAIN)

    def test_what_docs_show_is_what_the_code_draws(self):
        words = [sys.executable, DOCS.parent / "tools" / "draw_pages.py", "--check"]
        done = subprocess.run(words, capture_output=True, text=True, check=False)
        self.assertEqual((done.returncode, done.stdout), (0, ""), done.stderr)

    def test_the_same_words_make_the_same_page(self):
        web = self.path("web", WEB)
        self.assertEqual(self.page(web), self.page(web))
        self.assertEqual(Parts(self.page(web)).data["actions"][3], ["bind", 0, [1, 3], "sql", 1])

    def test_a_sketch_stands_for_its_universe(self):
        sketch = self.path("web.sketch", "Web: off > run(-sql)\nDb: off > on(+sql)\n")
        with mock.patch.object(program, "command", side_effect=Refused("the command metis is not there")):
            data = Parts(self.page(self.path("web", WEB), "--universe", sketch)).data
        self.assertEqual(data["universe"][0], ["Web", [["off", [], []], ["run", [], [["sql", 1]]]]])

    def test_a_double_with_its_circle_in_words(self):
        text = self.page(self.path("crossed", CROSSED))
        self.assertIn("<summary>A#2 for a1</summary>", text)
        self.assertIn('<button class="ref" data-k="5">A#0: a1 -&gt; a2</button> <span class="no">waits for 2</span>', text)
        self.assertIn("waits for 1 again, in its own order</span>", text)


class VerdictTest(PageCase):
    def asked(self, answer, status=0, is_proved=True):
        """A page of a plan with its universe, where the program answers this."""
        words, read = self.top / "words", self.top / "read"
        script = self.path("metis", f"#!/bin/sh\ncat >{read}\necho \"$*\" >{words}\necho '{answer}'\nexit {status}\n")
        script.chmod(0o755)
        universe = self.path("universe", json.dumps(UNIVERSE))
        environment = mock.patch.dict(os.environ, {program.COMMAND: str(script)})
        with environment, mock.patch.object(verdict, "is_proved", lambda: is_proved):
            return call("page", self.path("web", WEB), "--universe", universe)

    def shown(self, text):
        return re.search(r'<p id="verdict" class="(\w+)">(.*)</p>', text).groups()

    def test_what_the_program_says(self):
        _, text, notes = self.asked("good standing 2 actions 5")
        said = "Checked when this page was made, by the proved program; metis replay says: good standing 2 actions 5"
        self.assertEqual(self.shown(text), ("good", said))
        self.assertEqual((notes, (self.top / "words").read_text()), ("", f"--plain replay {self.top / 'universe'} -\n"))
        self.assertEqual((self.top / "read").read_text(), WEB)
        text = self.asked("good standing 2 actions 5", is_proved=False)[1]
        self.assertIn("by a build of Metis that is not proved; metis replay says: good", self.shown(text)[1])

    def test_what_it_does_not_bear_out(self):
        for answer, status in (("bad 4 A4 1", 1), ("bad universe U1", 3), ("good standing 2 actions 5", 1), ("", 70)):
            _, text, notes = self.asked(answer, status)
            kind, said = self.shown(text)
            self.assertEqual(kind, "bad")
            self.assertIn("metis replay does not bear this out", said)
            self.assertIn("does not bear this out", notes)

    def test_that_nobody_was_asked_is_said(self):
        kind, said = self.shown(self.page(self.path("web", WEB)))
        self.assertEqual((kind, "no universe was named" in said), ("none", True))
        universe = self.path("universe", json.dumps(UNIVERSE))
        with mock.patch.object(program, "command", side_effect=Refused("the command metis is not there")):
            kind, said = self.shown(self.page(self.path("web", WEB), "--universe", universe))
        self.assertEqual((kind, "the command metis is not there" in said), ("none", True))


class ChangeTest(PageCase):
    def test_a_rollout(self):
        data = Parts(self.page(self.path("rolled", ROLLED), "--from", self.path("web", WEB))).data
        self.assertEqual(
            [(each["kind"], each["from"], each["to"], each["last"]) for each in data["phases"]],
            [("old", 0, 5, []), ("new", 5, 10, []), ("removal", 10, 12, [10, 8])],
        )
        self.assertEqual(data["roles"], [[2, "new"], [3, "new"], [0, "going"], [1, "going"]])

    def test_a_change_that_keeps_something(self):
        data = Parts(self.page(self.path("changed", CHANGED), "--from", self.path("web", WEB))).data
        phases = [(each["kind"], each["from"], each["to"]) for each in data["phases"]]
        self.assertEqual(phases, [("old", 0, 5), ("new", 5, 8), ("removal", 8, 9)])
        self.assertEqual(data["roles"], [[1, "kept"], [2, "new"], [0, "going"]])

    def test_the_wishes_and_the_lines_of_them_about_each_instance(self):
        words = (self.path("changed", CHANGED), "--from", self.path("web", WEB))
        for lines, about in (
            (("retire 0", "keep 1"), [[0, "retire 0"], [1, "keep 1"]]),
            (("retire 0", "keep all"), [[0, "retire 0"], [1, "keep all"]]),
            (("avoid Web:run", "avoid Web", "rebind 1"), [[0, "avoid Web, avoid Web:run"], [1, "rebind 1"]]),
            (("avoid Web:off", "avoid Mail"), []),
            ((), []),
        ):
            wishes = "\n".join(["metis wishes 1", *lines, "end", ""])
            text = self.page(*words, "--wishes", self.path("wishes", wishes))
            self.assertEqual(Parts(text).data["wishes"], about, lines)
            self.assertIn(f"<pre>{wishes}</pre>", text)
        text = self.page(*words)
        self.assertEqual((Parts(text).data["wishes"], 'id="wishes"' in text), ([], False))

    def test_an_instance_that_no_action_has_moved_is_in_its_initial_state(self):
        lines = ["new 0 Db", "new 1 Db", "move 1 off on", "delete 0"]
        path, wishes = self.path("more", plan_text(*lines)), self.path("wishes", "metis wishes 1\navoid Db:off\nend\n")
        data = Parts(self.page(path, "--from", self.path("old", plan_text(lines[0])), "--wishes", wishes)).data
        self.assertEqual(data["wishes"], [[0, "avoid Db:off"]])

    def test_wishes_that_are_not_those_of_the_plan(self):
        changed, web, wishes = self.path("changed", CHANGED), self.path("web", WEB), self.top / "wishes"
        for text, more, reason in (
            ("metis wishes 1\nkeep 0\nend\n", ("--from", web), f"{wishes}:2: keep 0: instance 0 is going in {changed}"),
            ("metis wishes 1\nretire 1\nend\n", ("--from", web), f"{wishes}:2: retire 1: instance 1 is kept"),
            ("metis wishes 1\navoid Db\nend\n", ("--from", web), f"{wishes}:2: avoid Db: instance 1 is kept"),
            ("metis wishes 1\nkeep 2\nend\n", ("--from", web), "no instance 2 stands before the change"),
            ("metis wishes 1\nkeep  1\nend\n", ("--from", web), f"{wishes}:2: no wish, which is keep Z"),
            ("metis wishes 1\nkeep 1\n", ("--from", web), "no text of wishes"),
            (WEB, ("--from", web), "no text of wishes"),
            ("metis wishes 1\nend\n", (), "say by --from OLD from which plan"),
        ):
            wishes.write_text(text)
            status, page, notes = call("page", changed, *more, "--wishes", wishes)
            self.assertEqual((status, page, notes.count("\n")), (1, "", 1), text)
            self.assertIn(reason, notes)

    def test_of_a_folder_the_wishes_by_which_it_was_planned(self):
        self.exported(WEB)
        self.make()
        self.exported(CHANGED)
        wishes, plan = "metis wishes 1\nretire 0\nkeep 1\nend\n", (self.folder / "plan.txt").read_bytes()
        for value, about in (
            ({"wishes": wishes, "plan": hashlib.sha256(plan).hexdigest()}, [[0, "retire 0"], [1, "keep 1"]]),
            ({"wishes": None, "plan": hashlib.sha256(plan).hexdigest()}, []),
            ({"wishes": wishes, "plan": hashlib.sha256(b"another").hexdigest()}, []),  # somebody has written it anew
        ):
            (self.folder / "request.json").write_text(json.dumps(value))
            text = self.page(self.folder)
            self.assertEqual((Parts(text).data["wishes"], f"<pre>{wishes}</pre>" in text), (about, bool(about)))
        status, _, notes = call("page", self.folder, "--wishes", self.path("wishes", wishes))
        self.assertEqual((status, notes.count("\n")), (1, 1))

    def test_hostile_wishes_are_shown_as_they_are(self):
        self.exported(WEB)
        value = {"wishes": HOSTILE, "plan": hashlib.sha256((self.folder / "plan.txt").read_bytes()).hexdigest()}
        (self.folder / "request.json").write_text(json.dumps(value))
        text = self.page(self.folder)
        self.assertIn(f"<pre>{html.escape(HOSTILE)}</pre>", text)
        self.assertEqual(text.count("<script"), len(Parts(text).found["script"]))

    def test_what_is_kept_and_bound_anew_is_bound_before_anything_goes(self):
        lines = ["new 0 Lb", "new 1 Web", "bind http 0 1 after 2", "new 2 Web"]
        lines += ["bind http 0 2 after 4", "unbind http 0 1", "delete 1 after 6"]
        self.assertEqual(changes.change_in(steps_of(plan_text(*lines)), 3), Rollout(3, 5, 7))

    def test_hosts_and_what_is_held(self):
        data = Parts(self.page(self.path("crossed", CROSSED), "--placement", self.path("placed", PLACED))).data
        self.assertEqual(data["hosts"], [[0, "left"], [1, "left"], [2, "right"]])
        self.assertEqual(data["holds"], [[9, [4, 6]]])


class TimesTest(PageCase):
    took = dict(zip(("new", "delete", "bind", "unbind", "move"), map(int, NUMBERS)))

    def test_as_the_program_has_them(self):
        words = ("--waves", self.path("waves", WAVES), *NUMBERS, "--unit", "min")
        data = Parts(self.page(self.path("web", WEB), *words)).data["times"]
        self.assertEqual((data["finish"], data["chain"], data["unit"]), (141, [2, 3, 4, 5], "min"))
        self.assertEqual(data["bars"], [[0, 20, 60], [0, 20, 0], [20, 80, 0], [80, 81, 0], [81, 141, 0]])
        steps = steps_of(WEB)
        found = times.scheduled(plans.read(WEB), [step.waits for step in steps], self.took)
        self.assertEqual(found.starts, ((0, 60), (0, 0), (20, 20), (80, 80), (81, 81)))
        self.assertEqual((found.finish, found.chain), (141, (2, 3, 4, 5)))

    def test_with_the_barrier_and_the_room_on_hosts(self):
        steps = steps_of(ROLLED)
        waits = times.all_waits(steps, [Rollout(5, 10, 12)], {})
        found = times.scheduled(plans.read(ROLLED), waits, self.took)
        # the old from 0 to 141, the new from 141 to 282, and then two deletions of 5 each
        self.assertEqual((found.finish, found.chain), (292, (2, 3, 4, 5, 7, 8, 9, 10, 11, 12)))
        self.assertEqual([start for start, _ in found.starts[5:]], [141, 141, 161, 221, 222, 282, 287])
        held = times.all_waits(steps_of(CROSSED), [], {9: (4, 6)})
        self.assertEqual(held[8], (4, 6))


class ReasonsTest(PageCase):
    def cause(self, text):
        return cause.Cause(plans.read(text))

    def test_circles(self):
        self.assertEqual(self.cause(WAITING).circles(), [["Shop:up", "Mail:up"]])
        self.assertEqual(self.cause(NOTHING).circles(), [])
        alone = "metis why 1\nlacks A:b\nlines 1\nA:b needs x from A:b\nend\n"
        self.assertEqual(self.cause(alone).circles(), [["A:b"]])
        lines = ["A:b needs x from B:b", "B:b needs y from C:b", "C:b needs z from B:b D:b", "D:b comes from D:b"]
        two = self.cause(f"metis why 1\nlacks A:b\nlines {len(lines)}\n" + "\n".join(lines) + "\nend\n")
        self.assertEqual(sorted(two.circles()), [["B:b", "C:b"], ["D:b"]])
        self.assertEqual([node.column for node in two.nodes], [0, 1, 2, 3])

    def test_a_long_way_round(self):
        count = 390
        lines = [f"A:s{n} comes from A:s{(n + 1) % count}" for n in range(count)]
        found = self.cause(f"metis why 1\nlacks A:s0\nlines {count}\n" + "\n".join(lines) + "\nend\n")
        self.assertEqual([len(each) for each in found.circles()], [count])

    def test_the_page(self):
        text = self.page(self.path("refusal", REFUSAL), "--why", self.path("why", WAITING))
        items = Parts(text).found["li"]
        sentences = ["Shop:up needs mail, provided by Mail:up alone", "Mail:up needs orders, provided by Shop:up alone"]
        self.assertEqual([text for _, text in items], sentences)
        self.assertEqual([attrs.get("class") for attrs, _ in items], ["ring", "ring"])
        self.assertEqual(len(re.findall(r'class="arrow ring"', text)), 4)  # two links, each in two pictures
        self.assertIn("How far one gets: 2 pairs can be attained", text)
        text = self.page(self.path("nothing", NOTHING))
        self.assertIn("Nothing provides x.", text)
        universe = self.path("universe", json.dumps(UNIVERSE))
        for said, count in ((WAITING, 2), (NOTHING, 0), ("attained\n", 0)):
            with mock.patch.object(program, "ask", lambda words, text=None: program.Said(said, 1)):
                text = self.page(self.path("refusal", REFUSAL), "--universe", universe)
            self.assertEqual(len(Parts(text).found["li"]), count)
        text = self.page(self.path("nothing", NOTHING))
        self.assertNotIn("A circle.", text)

    def test_labels_are_beside_their_arrows_and_within_the_picture(self):
        """Of names as Kubernetes has them: a label on an arrow back begins right of every box that it goes past."""
        one, two, three = (
            f"{kind}/default/argo-workflows-server:ready" for kind in ("PodDisruptionBudget", "Deployment", "ServiceAccount")
        )
        port = "budget/default/workflow-controller-and-more"
        back = [f"{each} needs {port} from {one}" for each in (two, three)]
        # One that the arrow goes past; and two side by side.
        for lines in ([f"{one} needs {port} from {two}", *back[:1]], [f"{one} needs {port} from {two} {three}", *back]):
            why = f"metis why 1\nlacks {one}\nlines {len(lines)}\n" + "\n".join(lines) + "\nend\n"
            text = self.page(self.path("why", why))
            pictures = re.findall(r'<svg class="(?:wide|narrow)".*?</svg>', text, re.DOTALL)
            self.assertEqual(len(pictures), 2)
            for svg in pictures:
                self.check_labels(svg, 2 * len(lines) - 2)
        self.assertIn("overflow-wrap: anywhere", re.search(r"\.pairs b \{(.*?)\}", (PAGE / "page.css").read_text())[1])

    def check_labels(self, svg, count):
        width = float(re.search(r'width="(\d+)"', svg)[1])
        places = re.findall(r'transform="translate\(([\d.]+),[\d.]+\)"><rect width="([\d.]+)"', svg)
        boxes = [float(x) + float(wide) for x, wide in places]
        tags = re.findall(r'<text class="tag[^"]*"[^>]* x="([\d.-]+)"[^>]*text-anchor="(\w+)">([^<]*)<', svg)
        self.assertEqual(len(tags), count)
        for x, anchor, label in tags:
            wide = reasons.CHARACTER * len(label)
            left = float(x) - (wide / 2 if anchor == "middle" else 0)
            self.assertGreaterEqual(left, 0)
            self.assertLessEqual(left + wide, width)
        aside = [float(x) for x, anchor, _ in tags if anchor == "start"]
        self.assertEqual([x > max(boxes) for x in aside], [True] * (count // 2))


class FollowedTest(PageCase):
    def state(self, with_logs=False):
        return progress.state_of(Folder(str(self.folder)), with_logs)

    def test_what_is_done_running_failed_and_stopped(self):
        steps = (("Db: off -> on", "echo '</script x><!-- why'; exit 3"), ("*: new", ""))
        text = "".join(f'[[step]]\nwhen = "{when}"\nrun = "{run}"\n' for when, run in steps)
        self.exported(WEB, commands=text, more=["--lax"])
        self.make("-k")
        state = self.state(True)
        self.assertEqual(state["done"], [1, 2])
        (begun,) = state["begun"]
        self.assertEqual((begun["number"], begun["status"], begun["said"]), (3, "failed", "failed with status 3"))
        self.assertIn("</script x><!-- why", begun["tail"])
        self.assertEqual(state["folder"], self.folder.name)
        text = self.page(self.folder, "--logs")
        self.assertEqual(Parts(text).data["live"]["begun"][0]["tail"], begun["tail"])
        self.assertEqual((text.count("</script"), "<!--" in text), (text.count("<script"), False))
        self.assertEqual(self.state()["begun"][0]["tail"], [])
        with open(self.folder / "log" / "1.2", "ab") as log:
            fcntl.flock(log, fcntl.LOCK_EX)
            self.assertEqual(self.state()["begun"][0]["status"], "running")
        start, end, _ = state["times"]["bars"][2]
        self.assertLess(start, end)
        with open(self.folder / "log" / "1.2", "wb") as log:
            log.write(b"== 2026-01-01T00:00:00Z 3 of 5: Db#1: off -> on, try 1 of 1\n")
        self.assertEqual(self.state()["begun"][0]["said"], "was begun and is not done")

    def test_words_to_copy_name_the_folder_as_one_word_of_a_shell(self):
        self.exported(WEB)
        odd = self.folder.rename(self.top / "a b; $(touch c)'")
        words = progress.state_of(Folder(str(odd)), False)["folder"]
        done = subprocess.run(["sh", "-c", f'printf "%s|" {words}'], cwd=self.top, capture_output=True, text=True, check=True)
        self.assertEqual((done.stdout, (self.top / "c").exists()), (f"{odd.name}|", False))

    def test_events_say_when(self):
        self.exported(WEB)
        lines = [("00.500", "begun"), ("07.250", "begun"), ("09.500", "failed")]
        text = "".join(
            f'{{"time":"2026-01-01T00:00:{time}Z","event":"{event}","action":3,"key":"1.2"}}\n' for time, event in lines
        )
        (self.folder / "events").write_text("x\n[]\n" + text + '{"time":"2026-01')
        row = Row(steps_of(WEB)[2], Stage.FAILED, status="3")
        spans = progress.open_spans([row], progress.moments_in(Folder(str(self.folder))))
        self.assertEqual([end - begin for begin, end in spans.values()], [2.25])
        self.assertEqual(list(spans), [3])

    def test_a_mark_without_what_it_waits_for_is_left_for_later(self):
        self.exported(WEB)
        (self.folder / "done" / "1.2").write_text("move 1 off on\n")
        self.assertEqual(self.state()["done"], [])
        (self.folder / "done" / "1.1").write_text("new 1 Db\n")
        self.assertEqual(self.state()["done"], [2, 3])

    def test_as_it_happened(self):
        took = {1: (5.0, 9.0), 2: None, 3: (1.0, 4.0), 4: None, 5: (9.5, 10.0)}
        self.assertEqual(progress.as_it_happened(steps_of(WEB), took), [2, 3, 1, 4, 5])
        found = progress.times_of(steps_of(WEB), took, {})
        self.assertEqual((found["bars"], found["finish"]), ([[4.0, 8.0, 0], None, [0.0, 3.0, 0], None, [8.5, 9.0, 0]], 9.0))

    def test_a_pause_is_folded(self):
        found = progress.times_of(steps_of(WEB), {1: (10.0, 20.0), 2: (3620.0, 3630.0)}, {})
        self.assertEqual([label for _, label in found["folds"]], ["60 min later"])
        self.assertLess(found["finish"], 30)

    def test_a_folder_takes_nothing_else(self):
        self.exported(WEB)
        status, _, notes = call("page", self.folder, "--from", self.folder / "plan.txt")
        self.assertEqual((status, notes.count("\n")), (1, 1))
        self.assertIn('"live"', self.page(self.folder))


class FirstSightTest(PageCase):
    def test_a_page_says_what_it_is_and_that_it_carries_nothing_out(self):
        self.exported(WEB)
        for path, begins, says in (
            (self.path("web", WEB), "A deployment plan", "nothing is carried out"),
            (self.path("why", WAITING), "Why there is no plan", "sentence"),
            (self.folder, "A deployment as it is carried out", "carries nothing out"),
        ):
            what = re.search(r'<p id="what">(.*?)</p>', self.page(path))[1]
            self.assertTrue(what.startswith(begins) and says in what, what)

    def test_of_a_folder_the_targets_of_its_own_plan(self):
        self.exported(WEB)
        own = hashlib.sha256((self.folder / "plan.txt").read_bytes()).hexdigest()
        for targets, plan, is_said in (
            (["Web:run"], own, True),
            (["Web:run"], "another", False),
            ("Web:run", own, False),
            ([HOSTILE], own, None),
        ):
            (self.folder / "request.json").write_text(json.dumps({"targets": targets, "plan": plan}))
            text = self.page(self.folder)
            self.assertEqual("; for " in text.split("<main>")[0].split('id="sum"')[1][:200], is_said is not False)
            self.assertEqual("; for Web:run<" in text, is_said is True)
            self.assertEqual(text.count("<script"), len(Parts(text).found["script"]))


if __name__ == "__main__":
    unittest.main()
