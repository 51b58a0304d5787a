import json
import unittest

from metis_planner.text.universes import read_document

LONG = "x" * 65


def found(text):
    """The faults of a document: what Metis prints, and the line and column."""
    reading = read_document(text.encode() if isinstance(text, str) else text)
    return [(fault.line.removeprefix("bad universe "), *reading.lines.place(fault.at)) for fault in reading.faults]


def universe(*lines, version=1):
    """A document with a type a line, from the second line on."""
    return f'{{"aeolus":{version},"types":[\n' + ",\n".join(lines) + "]}"


def one_type(states, initial="a"):
    return universe(f'{{"name":"A","initial":"{initial}","states":[\n{states}]}}')


class FormTest(unittest.TestCase):
    def test_u1(self):
        self.assertEqual(found('{"aeolus":1,\n"types":[]'), [("U1", 1, 1)])
        self.assertEqual(found(b'{"aeolus":1,\n"types":["\xff"]}'), [("U1", 2, 11)])

    def test_u2(self):
        self.assertEqual(found(" [1]"), [("U2", 1, 2)])
        self.assertEqual(found('{"types":[],\n"aeolus":1.0}'), [("U2", 2, 10)])
        self.assertEqual(found('{"aeolus":true,"types":[]}'), [("U2", 1, 11)])
        self.assertEqual(found('{"aeolus":3}'), [("U2", 1, 11), ("U2", 1, 1)])
        self.assertEqual(found('{"aeolus":2,"types":{}}'), [("U2", 1, 21)])

    def test_u3(self):
        self.assertEqual(found(universe("7")), [("U3 type 0", 2, 1)])
        text = universe('{"name":"A","initial":"a","states":[{"name":"a"}]}', '{"name":1,"states":2}')
        self.assertEqual(found(text), [("U3 type 1", 3, 9), ("U3 type 1", 3, 1), ("U3 type 1", 3, 20)])

    def test_u6(self):
        self.assertEqual(found(one_type('{"name":"a"},\n7')), [("U6 type 0 state 1", 4, 1)])
        self.assertEqual(found(one_type('{"nmae":"a"}')), [("U6 type 0 state 0", 3, 1)])
        self.assertEqual(found(one_type('{"name":"a","next":"a"}')), [("U6 type 0 state 0", 3, 20)])
        self.assertEqual(found(one_type('{"name":"a","provide":[1]}')), [("U6 type 0 state 0", 3, 24)])
        self.assertEqual(found(one_type('{"name":"a","require":null}')), [("U6 type 0 state 0", 3, 23)])

    def test_u6_of_counts(self):
        need = '{"name":"A","initial":"a","states":[{"name":"a","require":[%s]}]}'
        self.assertEqual(found(universe(need % '{"port":"p","count":2}')), [("U6 type 0 state 0", 2, 60)])
        for entry, column in (('{"port":"p"}', 60), ('{"port":"p","count":-1}', 80), ('{"port":"p","count":2.0}', 80), ('{"count":2}', 60), ("7", 60)):
            self.assertEqual(found(universe(need % entry, version=2)), [("U6 type 0 state 0", 2, column)], entry)
        self.assertEqual(found(universe(need % '{"port":"p","count":18446744073709551616}', version=2)), [("U6 type 0 state 0", 2, 80)])

    def test_forms_come_before_what_the_rows_say(self):
        text = universe('{"name":"A B","initial":"a","states":[{"name":"a"}]}', "7")
        self.assertEqual(found(text), [("U3 type 1", 3, 1)])

    def test_too_long(self):
        self.assertEqual(read_document(b" " * 4_194_305).faults[0].line, "too long 2")
        self.assertEqual(found(" " * 4_194_304), [("U1", 1, 4_194_305)])


class RowsTest(unittest.TestCase):
    def test_names(self):
        text = universe('{"name":"A:","initial":"é","states":[{"name":"é","provide":["a b"],"require":["",\n"%s"]}]}' % LONG)
        expected = [
            ("U4 type 0", 2, 9),
            ("U7 type 0 state 0", 2, 46),
            ("U11 type 0 state 0 entry 0", 2, 61),
            ("U11 type 0 state 0 entry 1", 2, 79),
            ("U11 type 0 state 0 entry 2", 3, 1),
        ]
        self.assertEqual(found(text), expected)

    def test_a_name_that_is_there_already(self):
        row = '{"name":"A","initial":"a","states":[{"name":"a"},{"name":"b"},{"name":"a"}]}'
        expected = [("U8 type 0 state 2 first 0", 2, 71), ("U5 type 1 first 0", 3, 9), ("U8 type 1 state 2 first 0", 3, 71)]
        self.assertEqual(found(universe(row, row)), expected)

    def test_states_that_are_not_there(self):
        expected = [("U9 type 0", 2, 23), ("U10 type 0 state 0 entry 1", 3, 25)]
        self.assertEqual(found(one_type('{"name":"a","next":["a","b"]}', initial="c")), expected)

    def test_counts(self):
        needs = ",".join(f'{{"port":"p","count":{count}}}' for count in (0, 1, 16, 17))
        text = universe('{"name":"A","initial":"a","states":[{"name":"a","require":[%s]}]}' % needs, version=2)
        self.assertEqual(found(text), [("U13 type 0 state 0 entry 0", 2, 68), ("U13 type 0 state 0 entry 3", 2, 138)])

    def test_limits_of_a_type(self):
        states = [{"name": f"s{number}"} for number in range(65)]
        row = {"name": "A", "initial": "s0", "states": states}
        self.assertEqual(found(universe(json.dumps(row))), [("U12 states 65", 2, 10)])
        # A port that one list repeats counts once, with its greatest count; in another state it counts again.
        needs = [{"port": f"p{number}", "count": 16} for number in range(4)]
        states = [{"name": name, "require": [*needs, {"port": "p0", "count": 3}]} for name in "ab"]
        row = {"name": "A", "initial": "a", "states": states}
        self.assertEqual(found(universe(json.dumps(row), version=2)), [])
        row["states"].append({"name": "c", "require": ["q"]})
        self.assertEqual(found(universe(json.dumps(row), version=2)), [("U12 requires 129", 2, 10)])

    def test_limits_of_all_types(self):
        rows = [{"name": f"t{number}", "initial": "s0", "states": [{"name": f"s{at}"} for at in range(50)]} for number in range(41)]
        self.assertEqual(found(json.dumps({"aeolus": 1, "types": rows[:40]})), [])
        self.assertEqual(found(json.dumps({"aeolus": 1, "types": rows})), [("U12 pairs 2050", 1, 1)])
        rows = [{"name": f"t{number}", "initial": "s", "states": [{"name": "s", "provide": [f"p{number}.{at}" for at in range(100)]}]} for number in range(41)]
        self.assertEqual(found(json.dumps({"aeolus": 1, "types": rows[:40]})), [])
        self.assertEqual(found(json.dumps({"aeolus": 1, "types": rows})), [("U12 ports 4100", 1, 1)])


class KeysTest(unittest.TestCase):
    def notes(self, text):
        reading = read_document(text.encode())
        return [(*reading.lines.place(note.at), note.text()) for note in reading.notes]

    def test_keys_that_are_not_read(self):
        text = '{"aeolus":2,"Types":[],"types":[\n{"name":"A","initial":"a","state":[],"states":[\n{"name":"a","requires":["x"],"require":[\n{"port":"p","count":1,"min":2}]}]}]}'
        expected = [
            (1, 13, "the key Types is not read; did you mean types?"),
            (2, 27, "the key state is not read; did you mean states?"),
            (3, 13, "the key requires is not read; did you mean require?"),
            (4, 23, "the key min is not read"),
        ]
        self.assertEqual(self.notes(text), expected)

    def test_comments_and_schemas_are_meant(self):
        self.assertEqual(self.notes('{"$schema":"x","comment":["y"],"aeolus":1,"types":[]}'), [])

    def test_a_key_that_stands_twice(self):
        expected = [(2, 1, "the key aeolus stands here once more, and the last one counts")]
        self.assertEqual(self.notes('{"aeolus":1,\n"aeolus":2,"types":[]}'), expected)

    def test_a_name_is_shown_without_what_a_terminal_obeys(self):
        self.assertEqual(self.notes('{"aeolus":1,"types":[],"\\u001b[31m":1}'), [(1, 24, "the key '\\x1b[31m' is not read")])
