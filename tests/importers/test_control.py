import importlib
import io
import pathlib
import random
import shutil
import subprocess
import sys
import tempfile
import unittest
import unittest.mock

from metis_planner.importers.debian.control import (
    alternatives,
    NoControlFile,
    parts_of,
    records,
    Relation,
    relation,
    shown,
    stanzas,
    version_key,
)


class StanzasTest(unittest.TestCase):
    def test_fields_that_are_looked_at(self):
        text = "Package: a\nVersion: 1\nDescription: long\n and longer\n\nPackage: b\nDepends: a,\n c (>= 2)\n\n\n"
        self.assertEqual(
            list(stanzas(text)), [{"Package": "a", "Version": "1"}, {"Package": "b", "Depends": "a, c (>= 2)"}]
        )

    def test_a_stanza_without_a_package_is_none(self):
        self.assertEqual(list(stanzas("Version: 1\n\nPackage: a\n")), [{"Package": "a"}])

    def test_a_file_without_a_package_is_refused(self):
        for text in ("Version: 1\n", "root:x:0:0:root:/root:/bin/bash\n", "\n"):
            with self.assertRaisesRegex(NoControlFile, "^no control file of packages, since no stanza has a field Package$"):
                list(stanzas(text))
        self.assertEqual(list(stanzas("")), [])

    def test_lines_may_end_as_on_windows(self):
        text = "Package: a\nDepends: b,\n c\n\nPackage: d\nVersion: 1\n"
        for size in range(1, 30):
            with unittest.mock.patch("metis_planner.importers.debian.control.BLOCK", size):
                self.assertEqual(list(stanzas(text.replace("\n", "\r\n"))), list(stanzas(text)), size)

    def test_what_is_compressed_is_refused_by_name(self):
        text = b"Package: a\n"
        for module, name, command in (("gzip", "gzip", "zcat"), ("lzma", "xz", "xzcat"), ("bz2", "bzip2", "bzcat")):
            with self.assertRaisesRegex(NoControlFile, f"^it is compressed by {name}; `{command} FILE` prints it$"):
                list(records(io.BytesIO(importlib.import_module(module).compress(text))))

    @unittest.skipUnless(shutil.which("dpkg"), "dpkg is not there")
    def test_a_field_that_stands_twice_is_refused_as_dpkg_does(self):
        text = "Package: a\nStatus: install ok installed\nVersion: 1\nArchitecture: all\nMaintainer: x\nDescription: y\nDepends: b\n"
        with tempfile.TemporaryDirectory() as folder:
            for more, fits in (("", True), ("Depends: c\n", False)):
                pathlib.Path(folder, "status").write_text(f"{text}{more}\n")
                done = subprocess.run(["dpkg-query", f"--admindir={folder}", "-W", "a"], capture_output=True, check=False)
                self.assertEqual(done.returncode == 0, fits)
        self.assertEqual(len(list(stanzas(text))), 1)
        with self.assertRaisesRegex(NoControlFile, "^a stanza in which the field Depends stands twice$"):
            list(stanzas(f"{text}Depends: c\n"))


class RelationTest(unittest.TestCase):
    def test_forms(self):
        self.assertEqual(relation("a"), Relation("a", None, None, None))
        self.assertEqual(relation("python3:any (>= 3.11~)"), Relation("python3", "any", ">=", "3.11~"))
        self.assertEqual(relation("libstdc++6(=1)"), Relation("libstdc++6", None, "=", "1"))

    def test_alternatives_and_parts(self):
        self.assertEqual([each.name for each in alternatives("a | b (>> 1)")], ["a", "b"])
        self.assertEqual(parts_of("a, b | c,"), ["a", "b | c"])

    def test_no_relation(self):
        with self.assertRaisesRegex(NoControlFile, "no relation to a package: 'a b'"):
            relation("a b")
        with self.assertRaisesRegex(NoControlFile, "no version: 'x_y'"):
            relation("a (>= x_y)")

    def test_which_versions_are_allowed(self):
        for operator, allowed in {
            "<<": "1",
            "<=": "12",
            "<": "12",
            "=": "2",
            ">=": "23",
            ">": "23",
            ">>": "3",
        }.items():
            found = "".join(version for version in "123" if Relation("a", None, operator, "2").allows(version))
            self.assertEqual(found, allowed, operator)

    def test_no_version_meets_a_wish_without_one_alone(self):
        self.assertTrue(Relation("a", None, None, None).allows(None))
        self.assertFalse(Relation("a", None, ">=", "1").allows(None))


class VersionTest(unittest.TestCase):
    def test_ascending(self):
        # By Debian Policy 5.6.12; its own example is the row of tildes.
        rows = [
            "~~ ~~a ~ 0 a",
            "1.0~rc1 1.0 1.0-1 1.0-1+b1 1.0-1.1 1.0-2 1.0a 1.0.1 1.1 1.9 1.10 2",
            "2.0 1:1.0",
            "1.0-1~deb12u1 1.0-1",
            "1.2+dfsg-1 1.2.1-1",
        ]
        for row in rows:
            versions = row.split()
            for earlier, later in zip(versions, versions[1:]):
                self.assertLess(version_key(earlier), version_key(later), row)

    def test_the_same(self):
        for one, other in (("1.0", "0:1.0"), ("1.0", "1.0-0"), ("1.01", "1.1"), ("1.", "1.0")):
            self.assertEqual(version_key(one), version_key(other))

    def test_no_version(self):
        with self.assertRaises(NoControlFile):
            version_key("a:1")

    def test_what_dpkg_takes_for_none(self):
        for text in ("1-", "-1", "1:", ":1", "1:2:\u0663", "", "1 2", "2147483648:1", "1_2", "a\u00b2", "1~" * 300):
            with self.assertRaises(NoControlFile, msg=text):
                version_key(text)
        for text in ("2147483647:1", "1-2-3", "1:2:3", "9" * 5000, "1.0+b~1-x.y", "0~" * 250):
            version_key(text)

    def test_as_dpkg_has_them(self):
        # dpkg --compare-versions says each.
        for one, operator, other in (
            ("5.6-0~bpo12+1", "<<", "5.6"),
            ("0~git2020-1", "<<", "0"),
            ("7-0~6+", "<<", "7"),
            ("0-4", ">>", "0~+"),
            ("5.6-0~bpo12+1", "<<", "5.6-0"),
            ("1-0", "=", "1"),
            ("1-00", "=", "1-0"),
            ("1~", "<<", "1-0~"),
        ):
            self.assertTrue(Relation("a", None, operator, other).allows(one), (one, operator, other))


APT = """
import apt_pkg, sys
apt_pkg.init_system()
for line in sys.stdin:
    found = apt_pkg.version_compare(*line.split())
    print((found > 0) - (found < 0))
"""


def python_with_apt():
    """A Python that has python3-apt, or None: this one, or Debian's own."""
    for python in (sys.executable, "/usr/bin/python3"):
        try:
            subprocess.run([python, "-c", "import apt_pkg"], check=True, capture_output=True)
        except (OSError, subprocess.CalledProcessError):
            continue
        return python
    return None


PYTHON_WITH_APT = python_with_apt()


@unittest.skipUnless(PYTHON_WITH_APT, "python3-apt is not there")
class AptTest(unittest.TestCase):
    """The order of 100,000 drawn pairs is that of apt."""

    def drawn(self, draw):
        def part(most):
            return "".join(draw.choice("001~.+ab9") for _ in range(draw.randint(1, most)))

        epoch = draw.choice(["", "", "", "0:", "1:"])
        return epoch + part(6) + ("-" + part(4) if draw.random() < 0.5 else "")

    def test_pairs(self):
        draw = random.Random(1)
        pairs = [(self.drawn(draw), self.drawn(draw)) for _ in range(100_000)]
        text = "".join(f"{one} {other}\n" for one, other in pairs)
        told = subprocess.run([PYTHON_WITH_APT, "-c", APT], input=text, capture_output=True, text=True, check=True).stdout
        wrong = []
        for (one, other), expected in zip(pairs, map(int, told.split())):
            ours, theirs = version_key(one), version_key(other)
            if (ours > theirs) - (ours < theirs) != expected:
                wrong.append((one, other))
        self.assertEqual((len(told.split()), wrong), (len(pairs), []))


class RecordsTest(unittest.TestCase):
    """A file is read stanza by stanza, wherever a block ends."""

    def test_blocks(self):
        text = "Package: a\nDepends: b,\n c\n\nPackage: d\nVersion: \u00e9\n\n\nPackage: e\n"
        expected = [{"Package": "a", "Depends": "b, c"}, {"Package": "d", "Version": "\u00e9"}, {"Package": "e"}]
        for size in range(1, 30):
            with unittest.mock.patch("metis_planner.importers.debian.control.BLOCK", size):
                self.assertEqual(list(stanzas(text)), expected, size)

    def test_a_stanza_without_an_end(self):
        with unittest.mock.patch("metis_planner.importers.debian.control.MOST_STANZA", 100):
            with unittest.mock.patch("metis_planner.importers.debian.control.BLOCK", 10):
                list(stanzas("Package: " + "a" * 91))
                with self.assertRaisesRegex(NoControlFile, "^a stanza of more than 100 bytes$"):
                    list(stanzas("Package: " + "a" * 200))

    def test_fields(self):
        text = "Package: a\nDepends: c\n d\nUnknown: x\n y\nVersion : 1\nVersion\n z\nStatus:install ok installed\n"
        expected = {"Package": "a", "Depends": "c d", "Status": "install ok installed"}
        self.assertEqual(list(stanzas(text)), [expected])

    def test_what_is_shown_is_short(self):
        self.assertEqual(shown("x" * 60), repr("x" * 60))
        self.assertEqual(shown("x" * 61), repr("x" * 60 + ".."))
