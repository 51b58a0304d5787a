import pathlib
import tempfile
import unittest

from metis_planner.answers import Refused
from metis_planner.text import reading

try:
    import yaml
except ImportError:
    yaml = None

TOP = pathlib.Path(__file__).resolve().parents[2]


def values(text):
    return reading.values_of(text, "F", "a hint")


def reason(text):
    try:
        values(text)
    except Refused as refused:
        return str(refused)
    raise AssertionError("it was read")


class BytesTest(unittest.TestCase):
    def test_no_more_than_is_allowed(self):
        with tempfile.TemporaryDirectory() as folder:
            path = pathlib.Path(folder) / "file"
            path.write_bytes(b"12345")
            self.assertEqual(reading.read_bytes(str(path), 5), b"12345")
            with self.assertRaisesRegex(Refused, "^.*/file: more than 4 bytes$"):
                reading.read_bytes(str(path), 4)

    def test_a_mark_of_byte_order_is_no_text(self):
        with tempfile.TemporaryDirectory() as folder:
            path = pathlib.Path(folder) / "file"
            path.write_bytes(b"\xef\xbb\xbf{}")
            self.assertEqual(reading.read_text(str(path)), "{}")


class JsonTest(unittest.TestCase):
    def test_a_value(self):
        self.assertEqual(values('{"a": [1, null, "x"]}'), [{"a": [1, None, "x"]}])

    def test_refused(self):
        self.assertEqual(reason('{"a": {"b": 1, "b": 2}}'), "F: the key 'b' stands twice in one mapping")
        self.assertEqual(reason("9" * 5000), "F: a number of too many digits")
        self.assertEqual(reason('{"a":' * 100_000), "F: nested too deeply")


@unittest.skipUnless(yaml, "PyYAML is not there")
class YamlTest(unittest.TestCase):
    def test_scalars(self):
        for text, expected in {
            "x": "x",
            "12": 12,
            "-1": -1,
            "1.5": 1.5,
            "1e3": 1000.0,
            "true": True,
            "False": False,
            "yes": "yes",
            "~": None,
            "null": None,
            "''": "",
            "'12'": "12",
            '"true"': "true",
            "22:22": "22:22",
            "2024-01-01": "2024-01-01",
            "!!str 5": "5",
            "!!int '5'": 5,
            "9" * 19: "9" * 19,
        }.items():
            self.assertEqual(values(f"a: {text}\n"), [{"a": expected}], text)
        self.assertEqual(values("a:\n"), [{"a": None}])

    def test_merged_mappings(self):
        text = "a: &a {x: 1, y: 2}\nb: &b {y: 3, z: 4}\nc: {<<: [*a, *b], x: 5}\nd: {'<<': 1}\n"
        found = values(text)[0]
        self.assertEqual((found["c"], found["d"]), ({"x": 5, "y": 2, "z": 4}, {"<<": 1}))

    def test_a_stream(self):
        self.assertEqual(values("a: 1\n---\n---\n- b\n"), [{"a": 1}, None, ["b"]])
        self.assertEqual(values("# nothing\n"), [])

    def test_refused(self):
        for text, expected in (
            ("a: 1\nb:\n  c: 1\n  c: 2\n", "F: line 4: the key 'c' stands twice in one mapping"),
            ("a: !own x\n", "F: line 1: the tag '!own' is not known here"),
            ("a: {<<: 1}\n", "F: line 1: '<<' of what is no mapping"),
            ("[a]: 1\n", "F: line 1: a key that is no text"),
        ):
            self.assertEqual(reason(text), expected)
        # PyYAML says more than the library of C behind it.
        self.assertRegex(reason("a: *b\n"), "^F: no YAML: line 1: found undefined alias")

    def test_what_pyyaml_reads_is_read(self):
        paths = [*TOP.glob("examples/**/*.yaml"), *TOP.glob("tests/importers/projects/*.yaml")]
        self.assertGreater(len(paths), 10)
        for path in paths:
            text = path.read_text()
            self.assertEqual(values(text), list(yaml.safe_load_all(text)), path)
