import pathlib
import tempfile
import unittest

from metis_planner.look.check import faults_and_notes, lines_of
from metis_planner.text.sketches import read_sketch
from metis_planner.text.universes import read_document
from tests.test_words import TOP, run

SHOP = """{"aeolus":1,"types":[
  {"name":"Db","initial":"off","states":[
    {"name":"off","next":["on"]},
    {"name":"on","provide":["sql"]}]},
  {"name":"Web","initial":"off","states":[
    {"name":"off","next":["run"]},
    {"name":"run","require":["sql"],"provide":["http"]}]}]}
"""
# What a first author gets wrong: what is changed in the shop, and what is said of it.
WRONG = (
    ('"require"', '"requires"', ["7:19: the key requires is not read; did you mean require?"]),
    (
        '"next":["run"]',
        '"nxt":["run"]',
        ["6:19: the key nxt is not read; did you mean next?", "7:13: Web:run: no move leads here from the initial state off"],
    ),
    (
        '"name":"Db"',
        '"nmae":"Db"',
        ['2:3: it needs a text "name" (bad universe U3 type 0)', "2:4: the key nmae is not read; did you mean name?"],
    ),
    (
        '"states":[\n    {"name":"off","next":["on"]}',
        '"state":[\n    {"name":"off","next":["on"]}',
        ['2:3: it needs a list "states" (bad universe U3 type 0)', "2:32: the key state is not read; did you mean states?"],
    ),
    ('["sql"],', '"sql",', ['7:29: "require" is a list, as ["sql"] (bad universe U6 type 1 state 1)']),
    ('["run"]', '["runn"]', ["6:27: next runn is none of the states of Web; did you mean run? (bad universe U10 type 1 state 0 entry 0)"]),
    ('"initial":"off","states":[\n    {"name":"off","next":["on"]}', '"initial":"of","states":[\n    {"name":"off","next":["on"]}', ["2:26: initial of is none of the states of Db; did you mean off? (bad universe U9 type 0)"]),
    ('["on"]},', '["on"]}', ["4:5: a comma is missing before this (bad universe U1)"]),
    ('["http"]}]}]}', '["http"],}]}]}', ["7:56: a comma too many stands before this (bad universe U1)"]),
    ('require":["sql"]', 'require":["slq"]', ["7:30: Web:run requires slq, and nobody provides it; did you mean sql?"]),
    ('require":["sql"]', 'require":[{"port":"sql","count":2}]', ['7:30: a count needs "aeolus":2 (bad universe U6 type 1 state 1)']),
    ('"name":"Web"', '"name":"my web"', ["5:11: 'my web' is no name: letters, digits and _ - . / @ are allowed (bad universe U4 type 1)"]),
    ('{"aeolus":1,', '{"version":1,', ['1:1: it needs "aeolus":1 or "aeolus":2, a whole number (bad universe U2)', "1:2: the key version is not read"]),
    (
        '{"name":"off","next":["run"]}',
        '{"name":"off","require":["sql"],"next":["run"]}',
        ["6:13: Web:off requires sql, so nothing can be made in it: begin in a state before it, which leads to off and requires nothing"],
    ),
    ('"name":"Web"', '"name":"port"', ["5:11: with a type of this name the word port:NAME asks for its state, and no word asks for a port"]),
    ('["on"]},', '["on"]},  // switched on', ["3:36: JSON has no comments (bad universe U1)"]),
)


def said(text, *targets):
    return [line.removeprefix("f:") for line in lines_of("f", faults_and_notes("f", read_document(text.encode()), list(targets)))]


class DocumentTest(unittest.TestCase):
    def test_nothing_to_say(self):
        self.assertEqual(said(SHOP), [])
        self.assertEqual(said(SHOP, "Web:run"), [])
        self.assertEqual(said(SHOP, "port:http"), [])

    def test_what_a_first_author_gets_wrong(self):
        for old, new, lines in WRONG:
            self.assertEqual(SHOP.count(old), 1, old)
            self.assertEqual(said(SHOP.replace(old, new)), lines)

    def test_types_that_nobody_needs(self):
        self.assertEqual(said(SHOP, "Db:on"), ["5:11: Web: nobody needs it, and no target names it"])
        self.assertEqual(said(SHOP, "port:sql"), ["5:11: Web: nobody needs it, and no target names it"])

    def test_targets_that_are_not_there(self):
        for target, line in (
            ("Wbe:run", "the target 'Wbe:run': there is no such type; did you mean Web?"),
            ("Web:rum", "the target 'Web:rum': its type has no such state; did you mean run?"),
            ("port:htp", "the target 'port:htp': there is no such port; did you mean http?"),
            ("Web", "the target Web: there is no such type; did you mean Web?"),
            ("\x1b:x", "the target '\\x1b:x': there is no such type"),
        ):
            self.assertEqual(said(SHOP, target), [f"1:1: {line}"])

    def test_a_port_that_is_required_and_not_provided_is_told_once(self):
        self.assertEqual(len(said(SHOP.replace('"provide":["http"]', '"provide":["http"],"next":["off"]').replace('"sql"]}]}', '"sql2"]}]}'))), 1)

    def test_no_more_lines_than_somebody_reads(self):
        ports = ",".join(f'"p{number}"' for number in range(128))
        lines = said(SHOP.replace('require":["sql"]', f'require":[{ports}]'))
        self.assertEqual((len(lines), lines[-1]), (101, " 28 more"))

    def test_the_examples(self):
        """Two of them are there to show a state that nothing leads to."""
        for path in sorted((TOP / "examples").rglob("*.json")):
            lines = lines_of(path.name, faults_and_notes(path.name, read_document(path.read_bytes()), []))
            self.assertTrue(all("no move leads here" in line for line in lines), lines)
            self.assertEqual(bool(lines), path.name in ("server.json", "service.json"), path.name)


class SketchTest(unittest.TestCase):
    def test_the_same_is_said_of_a_sketch(self):
        reading = read_sketch(b"db: off > on(+sql)\nweb: off(-sql) > run(-slq)\n")
        expected = [
            "f:2:6: web:off requires sql, so nothing can be made in it: begin in a state before it, which leads to off and requires nothing",
            "f:2:22: web:run requires slq, and nobody provides it; did you mean sql?",
        ]
        self.assertEqual(lines_of("f", faults_and_notes("f", reading, [])), expected)

    def test_faults_of_a_sketch(self):
        self.assertEqual(lines_of("f", faults_and_notes("f", read_sketch(b"a: b(\nc: d\n"), [])), ["f:1:5: this bracket is not closed"])


class CommandTest(unittest.TestCase):
    def checked(self, name, text, *targets):
        with tempfile.TemporaryDirectory() as folder:
            path = pathlib.Path(folder) / name
            path.write_text(text)
            status, lines, fault = run("-m", "metis_planner", "check", str(path), *targets)
        return status, lines.replace(str(path), "f"), fault

    def test_the_status_is_0_where_there_is_nothing_to_say(self):
        self.assertEqual(self.checked("shop.json", SHOP), (0, "", ""))
        self.assertEqual(self.checked("shop", "a: off > on\n", "a:on"), (0, "", ""))

    def test_lines_go_to_standard_output_with_status_1(self):
        expected = (1, "f:7:30: Web:run requires slq, and nobody provides it; did you mean sql?\n", "")
        self.assertEqual(self.checked("shop.json", SHOP.replace('require":["sql"]', 'require":["slq"]')), expected)

    def test_a_document_is_known_by_its_name_or_its_first_character(self):
        self.assertEqual(self.checked("empty.json", ""), (1, "f:1:1: the text ends where a value is due (bad universe U1)\n", ""))
        self.assertEqual(run("-m", "metis_planner", "check", "-", text=SHOP), (0, "", ""))
        self.assertEqual(run("-m", "metis_planner", "check", "-", text='[1]'), (1, "-:1:1: a universe is an object with the keys aeolus and types (bad universe U2)\n", ""))
        self.assertEqual(run("-m", "metis_planner", "check", "-", text="a: b\n"), (0, "", ""))

    def test_a_file_that_is_not_there(self):
        self.assertEqual(run("-m", "metis_planner", "check", "/nowhere"), (1, "", "metis: /nowhere: No such file or directory\n"))
