import os
import pathlib
import tempfile
import unittest

from metis_planner.answers import Refused
from metis_planner.importers import systemd
from metis_planner.importers.systemd.units import Folders
from tests.importers.shapes import shape

LIBRARY, LOCAL = "lib/systemd/system", "etc/systemd/system"
# Without default dependencies, so that a universe is short.
BARE = "DefaultDependencies=no\n"


def unit(text="", rest=""):
    return f"[Unit]\n{BARE}{text}\n{rest}"


def service(text=""):
    """A service without the socket of the journal."""
    return unit(text, "[Service]\nStandardOutput=null\n")


def imported(target, files, links=()):
    """The shape of the universe of a target, and the notes; files and links are below `lib` if no folder is named."""
    with tempfile.TemporaryDirectory() as folder:
        root = pathlib.Path(folder)
        for name, text in files.items():
            path = root / (name if "/systemd/system/" in name else f"{LIBRARY}/{name}")
            path.parent.mkdir(parents=True, exist_ok=True)
            path.write_text(text)
        for name, to in links:
            path = root / (name if "/systemd/system/" in name else f"{LIBRARY}/{name}")
            path.parent.mkdir(parents=True, exist_ok=True)
            os.symlink(to, path)
        document, notes = systemd.universe(Folders(root), target)
        return shape(document), list(notes)


def active(name, *after):
    required = "".join(f" -{each}" for each in after)
    return {name: ["inactive > active", f"active +{name}{required} > inactive"]}


def boot(*names):
    return {"boot": ["down > up", " ".join(["up", *(f"-{name}" for name in names), "> down"])]}


class OrderTest(unittest.TestCase):
    def test_after_and_before_among_what_is_pulled_in(self):
        found, notes = imported(
            "t.target",
            {
                "t.target": unit("Requires=a.service\nWants=b.service c.service"),
                "a.service": service("After=b.service x.service"),
                "b.service": service("Before=c.service"),
                "c.service": service(),
                "x.service": service(),
            },
        )
        expected = {
            **active("a.service", "b.service"),
            **active("b.service"),
            **active("c.service", "b.service"),
            **active("t.target"),
            **boot("a.service", "b.service", "c.service", "t.target"),
        }
        self.assertEqual(found, expected)
        self.assertEqual(notes, [])

    def test_a_target_comes_after_what_it_pulls_in_where_nothing_says_otherwise(self):
        defaults = "[Unit]\n"
        found, _ = imported(
            "t.target",
            {
                "t.target": defaults + "Wants=a.target b.target c.target",
                "a.target": defaults,
                "b.target": defaults + "After=t.target",
                "c.target": unit(),
            },
        )
        self.assertEqual(found["t.target"], active("t.target", "a.target")["t.target"])
        self.assertEqual(found["b.target"], active("b.target", "t.target")["b.target"])

    def test_defaults_of_services_sockets_and_timers(self):
        found, _ = imported(
            "t.target",
            {
                "t.target": unit(
                    "Wants=a.service s.socket w.timer basic.target sockets.target timers.target time-set.target"
                ),
                "a.service": "[Service]\nPrivateTmp=yes\nType=dbus\n",
                "s.socket": "[Socket]\nService=a.service\n",
                "w.timer": "[Timer]\nOnCalendar=daily\nUnit=a.service\n",
                **{f"{name}.target": unit() for name in ("basic", "sysinit", "sockets", "timers", "time-set")},
                "dbus.socket": unit(),
                "systemd-journald.socket": unit(),
            },
        )
        # Nothing pulls in the socket of the journal here, so nobody waits for it.
        self.assertEqual(
            found["a.service"],
            active("a.service", "basic.target", "dbus.socket", "s.socket", "sysinit.target", "w.timer")["a.service"],
        )
        self.assertEqual(found["s.socket"], active("s.socket", "sysinit.target")["s.socket"])
        self.assertEqual(found["w.timer"], active("w.timer", "sysinit.target", "time-set.target")["w.timer"])
        self.assertEqual(found["sockets.target"], active("sockets.target", "s.socket")["sockets.target"])
        self.assertEqual(found["timers.target"], active("timers.target", "w.timer")["timers.target"])

    def test_words_go_to_the_journal_where_nothing_else_is_said(self):
        files = {
            "t.target": unit("Wants=a.service b.service systemd-journald.socket"),
            "a.service": unit(),
            "b.service": service(),
            "systemd-journald.socket": unit(),
        }
        found, _ = imported("t.target", files)
        self.assertEqual(found["a.service"], active("a.service", "systemd-journald.socket")["a.service"])
        self.assertEqual(found["b.service"], active("b.service")["b.service"])

    def test_more_than_128_units_are_cut_into_parts(self):
        names = [f"u{number:03}.target" for number in range(128)]
        files = {"t.target": unit("Wants=" + " ".join(names)), **{name: unit() for name in names}}
        found, _ = imported("t.target", files)
        self.assertEqual(found["boot"], ["down > up", "up -boot/part-1 -boot/part-2 > down"])
        self.assertEqual(len(found), 132)


class FilesTest(unittest.TestCase):
    def test_folders_of_links_and_instances(self):
        found, _ = imported(
            "t.target",
            {
                "t.target": unit(),
                "a@.service": service("After=b@%i.service"),
                "b@.service": service("Before=%p@x.service"),
            },
            [
                (f"{LOCAL}/t.target.wants/a@one.service", "/lib/systemd/system/a@.service"),
                ("t.target.requires/b@one.service", "../b@.service"),
            ],
        )
        expected = {
            **active("a@one.service", "b@one.service"),
            **active("b@one.service"),
            **active("t.target"),
            **boot("a@one.service", "b@one.service", "t.target"),
        }
        self.assertEqual(found, expected)

    def test_another_name_is_the_same_unit(self):
        found, _ = imported(
            "default.target",
            {"t.target": unit("Wants=other.service"), "a.service": service("After=t.target")},
            [("default.target", "t.target"), ("other.service", "/lib/systemd/system/a.service")],
        )
        self.assertEqual(
            found, {**active("a.service", "t.target"), **active("t.target"), **boot("a.service", "t.target")}
        )

    def test_a_link_to_a_file_elsewhere(self):
        files = {"t.target": unit("Wants=a.service"), "opt/systemd/system/a.service": service("After=t.target")}
        found, _ = imported("t.target", files, [(f"{LOCAL}/a.service", "/opt/systemd/system/a.service")])
        self.assertEqual(found["a.service"], active("a.service", "t.target")["a.service"])

    def test_local_files_and_drop_ins(self):
        found, _ = imported(
            "t.target",
            {
                "t.target": unit("Wants=a.service b.service"),
                "a.service": service("After=b.service"),
                f"{LOCAL}/a.service": service("# After=b.service\nAfter = \\\n t.target"),
                "b.service": service("After=a.service"),
                "b.service.d/10.conf": "[Unit]\nAfter=c.service",
                f"{LOCAL}/b.service.d/10.conf": "[Unit]\nAfter=\nAfter=t.target",
                "service.d/20.conf": "[Unit]\nWants=c.service",
                "c.service": service(),
            },
        )
        # An empty assignment takes no order back.
        expected = {
            **active("a.service", "t.target"),
            **active("b.service", "a.service", "t.target"),
            **active("c.service"),
            **active("t.target"),
            **boot("a.service", "b.service", "c.service", "t.target"),
        }
        self.assertEqual(found, expected)

    def test_folders_of_other_names_templates_and_prefixes(self):
        names = ["alias", "template", "instance", "prefix", "far"]
        found, _ = imported(
            "t.target",
            {
                "t.target": unit("Wants=a-b@x.service c.service"),
                "a-b@.service": service(),
                "c.service": service(),
                "a-.service.d/x.conf": "[Unit]\nWants=prefix.service",
                **{f"{name}.service": service() for name in names},
                "instance@.service": service(),
            },
            [
                ("other.service", "c.service"),
                ("other.service.wants/alias.service", "/dev/null"),
                ("a-b@.service.wants/template.service", "/dev/null"),
                ("a-b@x.service.requires/instance@.service", "../instance@.service"),
                ("a-@x.service.wants/far.service", "../far.service"),
            ],
        )
        # What leads to /dev/null masks, in a folder of links too; a template stands for the instance of the unit.
        expected = ["a-b@x.service", "c.service", "far.service", "instance@x.service", "prefix.service", "t.target"]
        self.assertEqual(sorted(set(found) - {"boot"}), expected)

    def test_templates_by_another_name(self):
        found, _ = imported(
            "t.target",
            {
                "t.target": unit("Wants=auto@x.service"),
                "real@.service": service("Wants=of-%i.service"),
                "of-x.service": service(),
            },
            [("auto@.service", "real@.service")],
        )
        self.assertEqual(sorted(set(found) - {"boot"}), ["of-x.service", "real@x.service", "t.target"])

    def test_a_link_out_of_the_folders_with_another_name(self):
        files = {"t.target": unit("Wants=a.service"), "opt/systemd/system/b.service": service("After=t.target")}
        found, _ = imported("t.target", files, [(f"{LOCAL}/a.service", "/opt/systemd/system/b.service")])
        self.assertEqual(found["a.service"], active("a.service", "t.target")["a.service"])

    def test_links_end_at_the_root(self):
        found, notes = imported(
            "t.target",
            {"t.target": unit("Wants=a.service b.service"), "opt/systemd/system/a.service": service("After=t.target")},
            [
                ("a.service", "../../../../../../../../opt/systemd/system/a.service"),
                ("b.service", "../" * 30 + "etc/passwd"),
            ],
        )
        self.assertEqual(sorted(found), ["a.service", "boot", "t.target"])
        self.assertIn("b.service: /lib/systemd/system/b.service leads to no file that can be read", notes)

    def test_dangling_and_circular_links_are_notes(self):
        files = {"t.target": unit("Wants=a.service b.service")}
        links = [("a.service", "/opt/gone"), ("b.service", "/opt/round"), ("opt/systemd/system/x", "x"), ("y", "y")]
        found, notes = imported("t.target", files, links)
        self.assertEqual(sorted(found), ["boot", "t.target"])
        self.assertEqual(notes[0], "wanted, and not there: a.service, b.service")
        self.assertEqual(notes[1], "a.service: /lib/systemd/system/a.service leads to no file that can be read")

    def test_lines(self):
        text = '\ufeff[Unit]\nDefaultDependencies=no\nWants=a.service \\\n # no\n; no\n b.service \\\\\nWants="c.service"\n[Service]\nWants=d.service\n'
        files = {"t.target": text, **{f"{name}.service": service() for name in "abcd"}}
        found, _ = imported("t.target", files)
        self.assertEqual(sorted(found), ["a.service", "b.service", "boot", "t.target"])

    def test_a_line_that_begins_as_a_section(self):
        files = {
            "t.target": unit("Wants=a.service b.service"),
            "a.service": service() + "[Unit\n",
            "b.service": service(),
        }
        files["b.service.d/x.conf"] = "[Unit]\nWants=c.service\n[Unit\nWants=d.service\n"
        found, notes = imported("t.target", {**files, "c.service": service(), "d.service": service()})
        self.assertEqual(sorted(found), ["b.service", "boot", "c.service", "t.target"])
        self.assertIn(
            "a.service: /lib/systemd/system/a.service has a line that begins with [ and names no section, so it is not read",
            notes,
        )


class RulesTest(unittest.TestCase):
    """What systemd adds by itself; try_systemd.py compares more of it with systemd."""

    def active_after(self, name, text, *others, more=""):
        """What a unit of this text starts after, of units that the target pulls in beside it."""
        files = {other: unit() for other in others}
        files |= {"t.target": unit(f"Wants={name} {' '.join(others)} {more}"), name: text}
        found, notes = imported("t.target", files)
        return found[name][1].split()[2:-2], notes

    def test_asking_for_what_stands_pulls_nothing_in(self):
        files = {
            "t.target": unit("Wants=a.service"),
            "a.service": service("Requisite=b.service"),
            "b.service": service(),
        }
        found, notes = imported("t.target", files)
        self.assertEqual(sorted(found), ["a.service", "boot", "t.target"])
        self.assertEqual(
            notes, ["a.service asks for b.service to stand already, and nothing here starts that: it will fail"]
        )

    def test_mounts(self):
        sets = "local-fs.target remote-fs.target local-fs-pre.target remote-fs-pre.target network.target network-online.target".split()
        cases = {
            "srv-a.mount": ("Type=nfs", "-network-online.target -network.target -remote-fs-pre.target"),
            "srv-b.mount": ("Options=ro,_netdev", "-network-online.target -network.target -remote-fs-pre.target"),
            "srv-c.mount": ("Type=ext4", "-local-fs-pre.target"),
            "proc-d.mount": ("Type=x", ""),
            "run-e.mount": ("Type=tmpfs", "-local-fs-pre.target"),
        }
        for name, (text, expected) in cases.items():
            after, _ = self.active_after(name, f"[Mount]\nStandardOutput=null\n{text}", *sets)
            self.assertEqual(" ".join(after), expected, name)

    def test_a_path_that_has_to_be_mounted(self):
        files = {
            "t.target": unit("Wants=a.service"),
            "a.service": service("RequiresMountsFor=/srv/data/deep"),
            "srv-data.mount": unit(rest="[Mount]\nStandardOutput=null\n"),
        }
        found, _ = imported("t.target", files)
        self.assertEqual(found["a.service"], active("a.service", "srv-data.mount")["a.service"])

    def test_the_bus_and_temporary_folders(self):
        others = (
            "dbus.socket",
            "systemd-tmpfiles-setup.service",
            "systemd-remount-fs.service",
            "systemd-journald.socket",
        )
        for text, expected in {
            "BusName=a.b": "-dbus.socket",
            "Type=simple\nBusName=a.b": "",
            "DynamicUser=yes": "-systemd-tmpfiles-setup.service",
            "StateDirectory=x": "-systemd-remount-fs.service",
            "StandardOutput=\n": "-systemd-journald.socket",
            "StandardOutput=\nStandardInput=socket": "",
        }.items():
            after, _ = self.active_after("a.service", unit(rest=f"[Service]\nStandardOutput=null\n{text}\n"), *others)
            self.assertEqual(" ".join(after), expected, text)

    def test_what_only_a_unit_that_is_left_out_pulls_in(self):
        files = {
            "t.target": unit("Wants=a.service"),
            "a.service": service("Requires=n.service\nWants=b.service"),
            "b.service": service(),
        }
        found, _ = imported("t.target", files)
        self.assertEqual(sorted(found), ["boot", "t.target"])


class MissingTest(unittest.TestCase):
    def test_what_is_only_wanted_is_left_out(self):
        found, notes = imported(
            "t.target",
            {
                "t.target": unit("Wants=a.service m.service z.service"),
                "a.service": service("Requires=n.service\nWants=b.service"),
                "b.service": service("Requires=a.service"),
                "m.service": service(),
            },
            [(f"{LOCAL}/m.service", "/dev/null")],
        )
        self.assertEqual(found, {**active("t.target"), **boot("t.target")})
        expected = [
            "a.service requires n.service, which is not there or cannot start: left out",
            "b.service requires a.service, which is not there or cannot start: left out",
            "wanted, and not there: m.service, z.service",
        ]
        self.assertEqual(notes, expected)

    def test_what_the_target_requires_stays_as_a_port_that_nothing_provides(self):
        found, notes = imported(
            "t.target", {"t.target": unit("Requires=a.service"), "a.service": service("Requires=n.service")}
        )
        expected = {
            **active("a.service", "n.service"),
            **active("t.target", "a.service"),
            **boot("a.service", "t.target"),
        }
        self.assertEqual(found, expected)
        expected = [
            "a.service requires n.service, which is not there or cannot start",
            "t.target requires a.service, which is not there or cannot start",
        ]
        self.assertEqual(notes, expected)

    def test_devices_and_slices_are_given(self):
        needs = "Requires=dev-sda.device system.slice -.mount\nAfter=dev-sda.device"
        found, notes = imported("t.target", {"t.target": unit(needs)})
        self.assertEqual(found, {**active("t.target"), **boot("t.target")})
        self.assertEqual(notes, [])

    def test_conflicts_are_named(self):
        files = {"t.target": unit("Wants=a.service b.service"), "a.service": service("Conflicts=b.service x.service")}
        _, notes = imported("t.target", {**files, "b.service": service()})
        self.assertEqual(notes, ["conflicts between these units, which cannot be said: a.service with b.service"])

    def test_of_many_conflicts_the_first_are_named(self):
        files = {f"{each}.service": service("Conflicts=z.service") for each in "abcdefghijkl"}
        _, notes = imported("t.target", {"t.target": unit("Wants=z.service " + " ".join(files)), **files, "z.service": service()})
        self.assertRegex(notes[0], "^conflicts between these units, which cannot be said: a.service with z.service, b.service with .* and [0-9]+ more$")


class RefusedTest(unittest.TestCase):
    def refused(self, target, files, links=()):
        with self.assertRaises(Refused) as caught:
            imported(target, files, links)
        return str(caught.exception)

    def test_no_such_unit(self):
        self.assertRegex(
            self.refused("x.target", {"t.target": unit()}),
            "^no unit x.target in /etc/.*, /run/.*, /lib/systemd/system,",
        )

    def test_masked(self):
        reason = "t.target is masked, so it is never started"
        self.assertEqual(self.refused("t.target", {}, [("t.target", "/dev/null")]), reason)
        self.assertEqual(self.refused("t.target", {"t.target": ""}), reason)

    def test_no_name(self):
        for name in (
            "../../etc/passwd",
            "/etc/x.target",
            "x",
            "a@.service",
            "x.target.wants",
            "x\x1b.target",
            "a" * 260 + ".target",
        ):
            self.assertEqual(self.refused(name, {"t.target": unit()}), f"no name of a unit: {name}")

    def test_no_folder(self):
        with self.assertRaisesRegex(Refused, "^/nowhere/at/all: no folder$"):
            Folders("/nowhere/at/all")

    def test_links_in_a_circle(self):
        reason = self.refused("a.target", {}, [("a.target", "b.target"), ("b.target", "a.target")])
        self.assertEqual(reason, "a.target: a link that leads back to itself")
