import json
import unittest

from metis_planner.text.places import Lines, NoJson, Object, read_json


def plain(node):
    """The value without its places, as Python's own reader gives it."""
    if isinstance(node.value, Object):
        return {member.name: plain(member.node) for member in node.value.members}
    return [plain(each) for each in node.value] if isinstance(node.value, tuple) else node.value


class JsonTest(unittest.TestCase):
    def test_values_are_those_of_python(self):
        for text in (
            ' {"a" : [1, -2, 0.5, 1e3, true, false, null, "", {}, []] }\n',
            '"\\" \\\\ \\/ \\b \\f \\n \\r \\t \\u0041 \\ud83d\\ude00"',
            '"\u00e9\U0001f600\x7f"',
            "12345678901234567890123",
        ):
            self.assertEqual(plain(read_json(text)), json.loads(text))

    def test_a_whole_number_has_no_point_no_exponent_and_no_sign_before_0(self):
        self.assertEqual([type(plain(read_json(text))) for text in ("1", "-1", "1.0", "1e0", "-0")], [int, int, float, float, float])

    def test_the_last_of_two_members_counts(self):
        root = read_json('{"a": 1, "a": 2}').value
        self.assertEqual((root.get("a").value, root.get("b")), (2, None))

    def test_each_value_has_its_place(self):
        root = read_json('{"a":\n [7,\n  "x"]}').value
        self.assertEqual([member.at for member in root.members], [1])
        self.assertEqual([(each.value, each.at) for each in root.get("a").value], [(7, 8), ("x", 13)])

    def test_lines_and_columns(self):
        lines = Lines("ab\n\ncd")
        self.assertEqual([lines.place(at) for at in (0, 1, 2, 3, 4, 6)], [(1, 1), (1, 2), (1, 3), (2, 1), (3, 1), (3, 3)])

    def test_what_is_no_json(self):
        for text, at, reason in (
            ("", 0, "the text ends where a value is due"),
            ("[1", 0, "the text ends, and the list that begins here is still open"),
            ('{"a": 1', 0, "the text ends, and the object that begins here is still open"),
            ('[1, "ab', 4, "the text that begins here has no quotes at its end"),
            ('["a\n"]', 1, "the text that begins here has no quotes at its end"),
            ("[1 2]", 3, "a comma is missing before this"),
            ('{"a": 1 "b": 2}', 8, "a comma is missing before this"),
            ("[1,]", 3, "a value is due here: is a comma too many before it?"),
            ('{"a": 1,}', 8, "a comma too many stands before this"),
            ('{"a" 1}', 5, "a colon is due here, behind the name 'a'"),
            ("{a: 1}", 1, "a name in double quotes is due here"),
            ("[a]", 1, "no value of JSON: a text stands in double quotes"),
            ("['a']", 1, "a text stands in double quotes"),
            ("[1] // no", 4, "the document has ended before this"),
            ("[1, // no\n2]", 4, "JSON has no comments"),
            ("\ufeff[]", 0, "a byte order mark stands before the document"),
            ("[1}", 2, "an open list ends with ]"),
            ('["\\x"]', 2, "an escape that JSON has not"),
            ('["a\tb"]', 3, "a control character in a text"),
            ('["\\ud83d"]', 2, "half of a pair of escapes"),
            ('["\\ud83d\\u0041"]', 2, "half of a pair of escapes"),
            ('["\\udc00"]', 2, "half of a pair of escapes"),
            ("1e400", 0, "the number is too large"),
            ("[01]", 2, "a comma is missing before this"),
            ("\f1", 0, "no value of JSON: a text stands in double quotes"),
        ):
            with self.assertRaises(NoJson, msg=text) as caught:
                read_json(text)
            self.assertEqual((caught.exception.at, caught.exception.reason), (at, reason), text)

    def test_how_deep_it_nests(self):
        read_json("[" * 127 + "]" * 127)
        with self.assertRaises(NoJson) as caught:
            read_json("[" * 128 + "]" * 128)
        self.assertEqual((caught.exception.at, caught.exception.reason), (127, "this nests deeper than 127"))
