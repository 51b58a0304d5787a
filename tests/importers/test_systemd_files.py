"""Unit files as systemd 252 reads them, byte by byte; `python3 -m trials systemd --cases` asks systemd itself about the same."""

import pathlib
import tempfile
import unittest

from metis_planner.answers import Refused
from metis_planner.importers import systemd
from metis_planner.importers.systemd.units import Folders, whole_lines
from tests.importers.shapes import shape
from tests.importers.test_systemd import active, imported, LIBRARY, service, unit


def names(found):
    return sorted(set(found) - {"boot"})


def imported_bytes(data, *others):
    """The names of what a target of these bytes pulls in, and the notes."""
    with tempfile.TemporaryDirectory() as folder:
        root = pathlib.Path(folder)
        (root / LIBRARY).mkdir(parents=True)
        (root / LIBRARY / "t.target").write_bytes(data)
        for name in others:
            (root / LIBRARY / name).write_text(service())
        document, notes = systemd.universe(Folders(root), "t.target")
        return names(shape(document)), list(notes)


class LinesTest(unittest.TestCase):
    def test_what_ends_a_line(self):
        for text, lines in {
            "a\nb": ["a", "b"],
            "a\r\nb": ["a", "b"],
            "a\n\rb": ["a", "b"],
            "a\rb": ["a", "b"],
            "a\0b": ["a", "b"],
            "a\r\n\0b": ["a", "b"],
            "a\\\r\nb": ["a b"],
            "a\\\rb": ["a b"],
            "a\\\n\nb": ["a", "b"],
            "a\\\r\n\r\nb": ["a", "b"],
            "a\\\\\nb": ["a\\\\", "b"],
            "a\\\n# c\nb": ["a b"],
        }.items():
            self.assertEqual(list(filter(None, whole_lines(text))), lines, repr(text))

    def test_a_file_with_carriage_returns(self):
        found, _ = imported_bytes(b"[Unit]\r\nWants=a.service \\\r\n b.service\r\n", "a.service", "b.service")
        self.assertEqual(found, ["a.service", "b.service", "t.target"])

    def test_a_line_that_is_no_utf8_drops_the_unit(self):
        text = unit("Wants=a.service", "")
        files = {"t.target": unit("Wants=u.service"), "a.service": service()}
        for line in (b"Description=caf\xe9\n", "Description=\ufffe\n".encode(), "Description=\ufdd0\n".encode()):
            with tempfile.TemporaryDirectory() as folder:
                root = pathlib.Path(folder)
                (root / LIBRARY).mkdir(parents=True)
                for name, told in files.items():
                    (root / LIBRARY / name).write_text(told)
                (root / LIBRARY / "u.service").write_bytes(text.encode() + line)
                document, notes = systemd.universe(Folders(root), "t.target")
            self.assertEqual(names(shape(document)), ["t.target"])
            self.assertIn(f"u.service: /{LIBRARY}/u.service has a line that is no UTF-8, so it is not read", list(notes))

    def test_a_comment_may_be_anything(self):
        found, notes = imported_bytes(b"[Unit]\n# caf\xe9\n; \xff\nWants=a.service\n", "a.service")
        self.assertEqual((found, notes), (["a.service", "t.target"], []))

    def test_a_drop_in_counts_up_to_such_a_line(self):
        with tempfile.TemporaryDirectory() as folder:
            root = pathlib.Path(folder)
            (root / LIBRARY / "t.target.d").mkdir(parents=True)
            (root / LIBRARY / "t.target").write_text(unit())
            for name in ("a.service", "b.service"):
                (root / LIBRARY / name).write_text(service())
            text = b"[Unit]\nWants=a.service\nDescription=\xff\nWants=b.service\n"
            (root / LIBRARY / "t.target.d/x.conf").write_bytes(text)
            document, _ = systemd.universe(Folders(root), "t.target")
        self.assertEqual(names(shape(document)), ["a.service", "t.target"])


class LinksTest(unittest.TestCase):
    def test_a_file_in_a_folder_of_links_counts_for_nothing(self):
        files = {"t.target": unit(), "a.service": service(), "b.service": service(), "t.target.wants/a.service": service()}
        found, _ = imported("t.target", files, [("t.target.wants/b.service", "../b.service")])
        self.assertEqual(names(found), ["b.service", "t.target"])

    def test_folders_of_what_upholds_are_of_later_versions(self):
        files = {"t.target": unit(), "a.service": service()}
        found, _ = imported("t.target", files, [("t.target.upholds/a.service", "../a.service")])
        self.assertEqual(names(found), ["t.target"])

    def test_names_in_a_circle_are_no_units(self):
        files = {"t.target": unit("Wants=a.service one.service\nAfter=two.service"), "a.service": service()}
        found, notes = imported("t.target", files, [("one.service", "two.service"), ("two.service", "one.service")])
        self.assertEqual(names(found), ["a.service", "t.target"])
        self.assertIn("one.service: a link that leads back to itself, so there is no such unit", notes)
        with self.assertRaisesRegex(Refused, "^one.service: a link that leads back to itself$"):
            imported("one.service", files, [("one.service", "two.service"), ("two.service", "one.service")])

    def test_a_name_that_the_machine_decides_is_told(self):
        for specifier in ("%m", "%b", "%v", "%H"):
            found, notes = imported("t.target", {"t.target": unit(f"Wants=a@{specifier}.service")})
            self.assertEqual(names(found), ["t.target"])
            reason = f"t.target: a@{specifier}.service is left out, since it has a specifier that the machine decides"
            self.assertEqual(notes, [reason])


class PathsTest(unittest.TestCase):
    MOUNT = "[Mount]\nWhat=/dev/s\nWhere=/srv\n"

    def after(self, path):
        files = {"t.target": unit("Wants=a.service"), "a.service": service(f"RequiresMountsFor={path}"), "srv.mount": self.MOUNT}
        return imported("t.target", files)[0]["a.service"]

    def test_a_path_that_is_too_long_for_the_kernel_is_none(self):
        behind = active("a.service", "srv.mount")["a.service"]
        self.assertEqual(self.after("/srv" + "/a" * 2045), behind)  # 4,094 bytes, and a NUL
        self.assertEqual(self.after("/srv" + "/a" * 2046), active("a.service")["a.service"])

    def test_a_mount_of_too_long_a_name_is_none(self):
        self.assertEqual(self.after("/srv/" + "/".join(["b" * 200] * 3)), active("a.service", "srv.mount")["a.service"])
