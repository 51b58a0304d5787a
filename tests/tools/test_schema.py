import importlib.util
import json
import unittest

from tests.test_words import TOP

HAS_JSONSCHEMA = importlib.util.find_spec("jsonschema") is not None
STATE = {"name": "a", "provide": ["p"], "require": ["q"], "next": ["a"]}
# What stands at a path in a universe with one type and one state, and is wrong.
WRONG = (
    ([], []),
    (["aeolus"], 3),
    (["aeolus"], "1"),
    (["types"], {}),
    (["Types"], []),
    (["types", 0], 7),
    (["types", 0, "name"], "my web"),
    (["types", 0, "name"], "x" * 65),
    (["types", 0, "initial"], None),
    (["types", 0, "states"], []),
    (["types", 0, "states"], [{"name": f"s{number}"} for number in range(65)]),
    (["types", 0, "state"], []),
    (["types", 0, "states", 0, "requires"], ["q"]),
    (["types", 0, "states", 0, "provide"], "p"),
    (["types", 0, "states", 0, "next"], [1]),
    (["types", 0, "states", 0, "require"], [{"port": "q", "count": 2}]),
)
# The same under version 2.
WRONG_COUNTS = ({"port": "q"}, {"count": 2}, {"port": "q", "count": 0}, {"port": "q", "count": 17}, {"port": "q", "count": "2"}, {"port": "q", "count": 2, "min": 1})


def universe(version=1):
    return {"aeolus": version, "types": [{"name": "A", "initial": "a", "states": [dict(STATE)]}]}


def changed(path, value):
    root = universe()
    if not path:
        return value
    where = root
    for key in path[:-1]:
        where = where[key]
    where[path[-1]] = value
    return root


@unittest.skipUnless(HAS_JSONSCHEMA, "python3-jsonschema is not there")
class SchemaTest(unittest.TestCase):
    def setUp(self):
        import jsonschema

        schema = json.loads((TOP / "docs" / "universe.schema.json").read_text())
        jsonschema.Draft202012Validator.check_schema(schema)
        self.is_valid = jsonschema.Draft202012Validator(schema).is_valid

    def test_examples_are_valid(self):
        paths = sorted((TOP / "examples").rglob("*.json"))
        self.assertGreater(len(paths), 8)
        for path in paths:
            self.assertTrue(self.is_valid(json.loads(path.read_text())), path)

    def test_what_is_meant_is_valid(self):
        self.assertTrue(self.is_valid(universe()))
        self.assertTrue(self.is_valid({"$schema": "universe.schema.json", "comment": "none", **universe(2)}))
        value = universe(2)
        value["types"][0]["states"][0]["require"] = ["q", {"port": "q", "count": 16}]
        self.assertTrue(self.is_valid(value))

    def test_what_is_wrong_is_not(self):
        for path, value in WRONG:
            self.assertFalse(self.is_valid(changed(path, value)), path)
        for need in WRONG_COUNTS:
            value = universe(2)
            value["types"][0]["states"][0]["require"] = [need]
            self.assertFalse(self.is_valid(value), need)
