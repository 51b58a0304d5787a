import json
import pathlib
import tempfile
import unittest

from metis_planner.text.sketches import read_sketch, sketched, written
from metis_planner.text.universes import read_document
from tests.importers.shapes import shape
from tests.test_words import TOP, run


def made(text):
    return json.loads(written(read_sketch(text.encode()).rows))


def faults(text):
    """Line, column and reason of each fault, with what Metis would print for it."""
    reading = read_sketch(text.encode())
    return [(*reading.lines.place(fault.at), fault.reason, fault.line) for fault in reading.faults]


def back(value):
    return sketched(read_document(json.dumps(value).encode()).rows)


class ReadTest(unittest.TestCase):
    def test_a_line_a_type(self):
        text = "# a shop\n\ndb: off > on(+sql)   # its database\n web:absent>installed>running(-sql -cache +http)\n"
        value = made(text)
        self.assertEqual((value["aeolus"], [each["initial"] for each in value["types"]]), (1, ["off", "absent"]))
        expected = {"db": ["off > on", "on +sql"], "web": ["absent > installed", "installed > running", "running +http -sql -cache"]}
        self.assertEqual(shape(json.dumps(value)), expected)

    def test_several_paths(self):
        text = "proxy: off > plain(-http) > off, off > secured(-certificate -http)\n"
        expected = {"proxy": ["off > plain > secured", "plain -http > off", "secured -certificate -http"]}
        self.assertEqual(shape(json.dumps(made(text))), expected)

    def test_a_count_makes_version_2(self):
        value = made("b: off > up(-http*3 -sql*1)\n")
        self.assertEqual(value["aeolus"], 2)
        self.assertEqual(value["types"][0]["states"][1]["require"], [{"port": "http", "count": 3}, "sql"])

    def test_a_line_with_the_version(self):
        self.assertEqual(made("# of the next kind\naeolus 2 # says so\na: on\n")["aeolus"], 2)
        self.assertEqual(made("aeolus 1\n")["types"], [])

    def test_another_initial_state(self):
        value = made("a: on, *off > on\n")["types"][0]
        self.assertEqual((value["initial"], [state["name"] for state in value["states"]]), ("off", ["on", "off"]))

    def test_names_with_all_that_names_have(self):
        value = made("a-b_c.d/e@f: -x > y.z(+p-1 --q -r*2)\n")["types"][0]
        self.assertEqual((value["name"], value["initial"]), ("a-b_c.d/e@f", "-x"))
        self.assertEqual(value["states"][1]["require"], ["-q", {"port": "r", "count": 2}])

    def test_what_is_no_sketch(self):
        for text, line, column, reason in (
            ("", 1, 1, "there is no type: a line each, NAME: STATE > STATE(-port +port)"),
            ("a\n", 1, 2, "a colon is due behind the type's name: NAME: STATE > STATE(-port +port)"),
            ("a:\n", 1, 3, "a state's name is due here"),
            (": b\n", 1, 1, "a type's name is due here, and not ':'"),
            ("a: b >\n", 1, 7, "a state's name is due here"),
            ("a: b > > c\n", 1, 8, "a state's name is due here, and not '>'"),
            ("a: b c\n", 1, 6, "a > or a comma is due here, and not c"),
            ("a: b(x)\n", 1, 6, "+ (provides) or - (requires) is due before a port, and not x"),
            ("a: b(+x\n", 1, 5, "this bracket is not closed"),
            ("ok: a\na: b(+x # )\n", 2, 5, "this bracket is not closed"),
            ("a: b(+x*2)\n", 1, 8, "a count is a number behind a port that is required"),
            ("a: b(-x*)\n", 1, 8, "a count is a number behind a port that is required"),
            ("a: b(-x*2y)\n", 1, 8, "a count is a number behind a port that is required"),
            ("a: b(-x) > c, b(-x*2)\n", 1, 17, "x stands with another count already"),
            ("a: *b > *c\n", 1, 10, "b is the initial state already"),
            ("a: b\naeolus 2\n", 2, 8, "a colon is due behind the type's name: NAME: STATE > STATE(-port +port)"),
        ):
            self.assertEqual(faults(text), [(line, column, reason, "")], text)

    def test_each_line_that_is_wrong_has_a_fault(self):
        self.assertEqual([fault[:2] for fault in faults("a\nb: c\nd:\n")], [(1, 2), (3, 3)])

    def test_what_metis_would_refuse(self):
        for text, line, column, printed in (
            ("a: b\na: c\n", 2, 1, "U5 type 1 first 0"),
            ("a: b(-x*17)\n", 1, 6, "U13 type 0 state 0 entry 0"),
            ("a: b(-x*0)\n", 1, 6, "U13 type 0 state 0 entry 0"),
            ("a: é\n", 1, 4, "U7 type 0 state 0"),
            ("a: b(+%s)\n" % ("x" * 65), 1, 6, "U11 type 0 state 0 entry 0"),
            ("a: %s\n" % " > ".join(f"s{at}" for at in range(65)), 1, 1, "U12 states 65"),
        ):
            self.assertEqual([(*fault[:2], fault[3]) for fault in faults(text)], [(line, column, f"bad universe {printed}")], text)

    def test_a_count_under_version_1(self):
        expected = [(2, 6, "a count needs the line aeolus 2, or no such line", "")]
        self.assertEqual(faults("aeolus 1\na: b(-x*2)\n"), expected)


class WriteTest(unittest.TestCase):
    def test_states_stand_in_their_order_and_each_move_once(self):
        states = [{"name": "a", "next": ["c", "b"]}, {"name": "b", "next": ["a"]}, {"name": "c", "next": ["c"]}]
        self.assertEqual(back({"aeolus": 1, "types": [{"name": "T", "initial": "a", "states": states}]}), "T: a > b > a > c > c\n")

    def test_a_state_without_a_move_stands_alone(self):
        states = [{"name": "a"}, {"name": "b", "next": ["a"]}]
        self.assertEqual(back({"aeolus": 1, "types": [{"name": "T", "initial": "b", "states": states}]}), "T: a, *b > a\n")

    def test_ports_stand_where_the_state_stands_first(self):
        states = [{"name": "a", "provide": ["p", "p"], "require": ["r", "q"], "next": ["b"]}, {"name": "b", "next": ["a"]}]
        self.assertEqual(back({"aeolus": 1, "types": [{"name": "T", "initial": "a", "states": states}]}), "T: a(+p -r -q) > b > a\n")

    def test_the_greatest_of_several_counts(self):
        needs = [{"port": "p", "count": 2}, "q", {"port": "p", "count": 3}]
        states = [{"name": "a", "require": needs}]
        self.assertEqual(back({"aeolus": 2, "types": [{"name": "T", "initial": "a", "states": states}]}), "T: a(-p*3 -q)\n")

    def test_the_version_where_no_count_shows_it(self):
        row = {"name": "T", "initial": "a", "states": [{"name": "a"}]}
        self.assertEqual(back({"aeolus": 2, "types": [row]}), "aeolus 2\nT: a\n")
        self.assertEqual(back({"aeolus": 1, "types": []}), "aeolus 1\n")

    def test_each_example_goes_there_and_back(self):
        for path in sorted((TOP / "examples").rglob("*.json")):
            rows = read_document(path.read_bytes()).rows
            again = read_document(written(read_sketch(sketched(rows).encode()).rows).encode()).rows
            self.assertEqual(sketched(again), sketched(rows), path)
            self.assertEqual(shape(written(again)), shape(written(rows)), path)


class CommandTest(unittest.TestCase):
    def test_from_standard_input(self):
        status, document, fault = run("-m", "metis_planner", "sketch", text="a: off > on\n")
        self.assertEqual((status, fault), (0, ""))
        line = '{"name":"a","initial":"off","states":[{"name":"off","next":["on"]},{"name":"on"}]}'
        self.assertEqual(document, f'{{"aeolus":1,"comment":"made of a sketch","types":[\n{line}]}}\n')

    def test_the_sketch_of_a_document(self):
        status, sketch, fault = run("-m", "metis_planner", "sketch", "--from", "examples/web.json")
        self.assertEqual((status, sketch, fault), (0, "Db: off > on(+sql)\nWeb: off > run(-sql)\n", ""))

    def test_faults_get_one_line(self):
        with tempfile.TemporaryDirectory() as folder:
            path = pathlib.Path(folder) / "shop.json"
            path.write_text('{"aeolus":1,"types":[\n{"name":"A","initial":"b","states":[{"name":"a"}]}]}')
            for words, text, line in (
                ((), "a: b\nc\n", "metis: -:2:2: a colon is due behind the type's name: NAME: STATE > STATE(-port +port)\n"),
                (("--from", str(path)), "", f"metis: {path}:2:23: initial b is none of the states of A (bad universe U9 type 0)\n"),
                (("--from", "/nowhere"), "", "metis: /nowhere: No such file or directory\n"),
                ((), " " * 4_194_305, "metis: -: more than 4194304 bytes\n"),
            ):
                self.assertEqual(run("-m", "metis_planner", "sketch", *words, text=text), (1, "", line), words)
