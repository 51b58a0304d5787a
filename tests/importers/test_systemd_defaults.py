"""What systemd 252 adds to a unit by itself, one kind after the other.

The orders are those that systemd itself has for such units: `python3 -m trials systemd --cases` compares.
"""

import unittest

from metis_planner.importers.systemd.defaults import with_defaults
from metis_planner.importers.systemd.units import settings_in, Unit

KEYS = ("After", "Before", "Requires", "Wants", "RequiresMountsFor")
SLICE = {"After": ["system.slice"], "Requires": ["system.slice"]}


def added(name, text, with_slice=False, with_shutdown=False):
    """What a unit of this text gets, without its slice, the journal and what comes before the end unless asked for."""
    settings = {}

    class Lists(dict):
        def __missing__(self, key):
            self[key] = []
            return self[key]

    settings = Lists()
    assert settings_in(text, name.rpartition(".")[2], settings) == ""
    own = {key: list(words) for key, words in settings.items()}
    whole = with_defaults(Unit(name, settings))
    found = {}
    for key in KEYS:
        words = list(whole[key])
        for word in own.get(key, ()):
            words.remove(word)
        words = [word for word in words if with_slice or not word.endswith(".slice")]
        words = [word for word in words if with_shutdown or word != "shutdown.target"]
        if words:
            found[key] = words
    return found


def bare(text, *more):
    return "[Unit]\nDefaultDependencies=no\n" + text


QUIET = "[Service]\nStandardOutput=null\n"


class ProgramsTest(unittest.TestCase):
    def test_where_words_go(self):
        journal = {"After": ["systemd-journald.socket"]}
        for text, expected in {
            "": journal,
            "StandardOutput=inherit": journal,
            "StandardOutput=null": {},
            "StandardOutput=tty": {},
            "StandardOutput=journal+console": journal,
            "StandardOutput=kmsg": journal,
            "StandardOutput=syslog": journal,
            "StandardInput=tty": {},
            "StandardInput=tty-force": {},
            "StandardInput=socket": {},
            "StandardInput=fd:x": {},
            "StandardInput=null": journal,
            "StandardInput=socket\nStandardOutput=journal": journal,
            "StandardOutput=null\nStandardError=journal": journal,
            "StandardOutput=null\nStandardError=inherit": {},
            "StandardInput=tty\nStandardError=journal": journal,
            "StandardOutput=null\nLogNamespace=x": {
                "After": ["systemd-journald@x.socket", "systemd-journald-varlink@x.socket"],
                "Requires": ["systemd-journald@x.socket", "systemd-journald-varlink@x.socket"],
            },
        }.items():
            self.assertEqual(added("a.service", bare(f"[Service]\n{text}\n")), expected, text)

    def test_which_units_run_programs(self):
        journal = {"After": ["systemd-journald.socket"]}
        self.assertEqual(added("a.socket", bare("[Socket]\nListenStream=1\n")), {"Before": ["a.service"]})
        for key in ("ExecStartPre", "ExecStopPost"):
            self.assertEqual(added("a.socket", bare(f"[Socket]\n{key}=/bin/true\n")), {**journal, "Before": ["a.service"]})
        self.assertEqual(added("a.swap", bare("[Swap]\nWhat=/dev/x\n")), {**journal, "RequiresMountsFor": ["/dev/x"]})
        self.assertEqual(added("a.path", bare("[Path]\nExecStartPre=/bin/true\n")), {"Before": ["a.service"]})
        self.assertEqual(added("a.target", bare("")), {})
        self.assertEqual(added("a.timer", bare("[Timer]\nOnBootSec=1\n")), {"Before": ["a.service"]})

    def test_temporary_folders(self):
        private = {
            "After": ["tmp.mount", "systemd-tmpfiles-setup.service"],
            "Wants": ["tmp.mount"],
            "RequiresMountsFor": ["/var/tmp"],
        }
        for text in ("PrivateTmp=yes", "DynamicUser=yes", "PrivateTmp=no\nPrivateTmp=true"):
            self.assertEqual(added("a.service", bare(QUIET + text)), private, text)
        for text in ("PrivateTmp=no", "DynamicUser=no", ""):
            self.assertEqual(added("a.service", bare(QUIET + text)), {}, text)
        # A user of its own is a service's alone.
        self.assertEqual(added("a.swap", bare("[Swap]\nStandardOutput=null\nDynamicUser=yes\n")), {})
        self.assertEqual(added("a.swap", bare("[Swap]\nStandardOutput=null\nPrivateTmp=yes\n")), private)

    def test_folders_of_a_service(self):
        remount = ["systemd-remount-fs.service"]
        for key, folder, after in (
            ("RuntimeDirectory", "/run/x", []),
            ("ConfigurationDirectory", "/etc/x", []),
            ("StateDirectory", "/var/lib/x", remount),
            ("CacheDirectory", "/var/cache/x", remount),
            ("LogsDirectory", "/var/log/x", remount),
        ):
            expected = {"RequiresMountsFor": [folder], **({"After": after} if after else {})}
            self.assertEqual(added("a.service", bare(QUIET + f"{key}=x:y\n")), expected, key)

    def test_where_it_works(self):
        for key in ("WorkingDirectory", "RootDirectory"):
            self.assertEqual(added("a.service", bare(QUIET + f"{key}=/x\n{key}=/y\n")), {"RequiresMountsFor": ["/y"]}, key)
        self.assertEqual(added("a.service", bare(QUIET + "WorkingDirectory=~\n")), {})
        image = {"RequiresMountsFor": ["/x"], "After": ["systemd-udevd.service"]}
        self.assertEqual(added("a.service", bare(QUIET + "RootImage=/x\n")), image)
        self.assertEqual(added("a.service", bare(QUIET + "RootImage=/x\nRootImage=\n")), {})

    def test_the_bus_and_sockets(self):
        bus = {"After": ["dbus.socket"], "Requires": ["dbus.socket"]}
        self.assertEqual(added("a.service", bare(QUIET + "Type=dbus\n")), bus)
        self.assertEqual(added("a.service", bare(QUIET + "BusName=a.b\n")), bus)
        self.assertEqual(added("a.service", bare(QUIET + "Type=simple\nBusName=a.b\n")), {})
        self.assertEqual(added("a.service", bare(QUIET + "Type=simple\n")), {})
        sockets = {"After": ["x.socket"], "Wants": ["x.socket"]}
        self.assertEqual(added("a.service", bare(QUIET + "Sockets=x.socket\n")), sockets)
        self.assertEqual(added("a.swap", bare("[Swap]\nStandardOutput=null\nSockets=x.socket\n")), {})


class TriggersTest(unittest.TestCase):
    def before(self, name, text):
        return added(name, bare(text)).get("Before", [])

    def test_what_they_start(self):
        self.assertEqual(self.before("a.socket", "[Socket]\nService=b.service\n"), ["b.service"])
        self.assertEqual(self.before("a.socket", "[Socket]\nUnit=b.service\n"), ["a.service"])
        self.assertEqual(self.before("a.socket", "[Socket]\nAccept=yes\n"), [])
        self.assertEqual(self.before("a.socket", "[Socket]\nAccept=no\n"), ["a.service"])
        self.assertEqual(self.before("a.timer", "[Timer]\nUnit=b.target\n"), ["b.target"])
        self.assertEqual(self.before("a.path", "[Path]\nUnit=b.target\nUnit=c.target\n"), ["c.target"])
        self.assertEqual(self.before("a.path", "[Path]\nPathExists=/x\n"), ["a.service"])
        self.assertEqual(self.before("a.automount", "[Automount]\nWhere=/a\n"), ["a.mount"])
        self.assertEqual(self.before("a.service", "[Service]\n"), [])
        self.assertEqual(self.before("a.timer", "[Timer]\nAccept=yes\n"), ["a.service"])

    def test_paths(self):
        def paths(name, text):
            return added(name, bare(text)).get("RequiresMountsFor", [])

        text = "[Socket]\nListenStream=/x\nListenStream=80\nListenFIFO=/y\nExecStartPre=/bin/z\n"
        self.assertEqual(sorted(paths("a.socket", text)), ["/x", "/y"])
        self.assertEqual(sorted(paths("a.path", "[Path]\nPathExists=/x\nDirectoryNotEmpty=/y\n")), ["/x", "/y"])
        self.assertEqual(paths("a.path", "[Path]\nPathExists=/%i-100%%\n"), ["/-100%%"])
        self.assertEqual(paths("a.path", "[Path]\nPathExists=/%m\n"), [])
        self.assertEqual(paths("a.timer", "[Timer]\nPersistent=yes\n"), ["/var/lib/systemd/timers"])
        self.assertEqual(paths("a.timer", "[Timer]\nPersistent=no\n"), [])
        self.assertEqual(paths("a.service", QUIET + "Persistent=yes\nWhat=/x\n"), [])
        self.assertEqual(paths("a-b.automount", "[Automount]\n"), ["/a"])
        self.assertEqual(paths("a.automount", "[Automount]\nWhere=/x/y/\n"), ["/x"])
        self.assertEqual(paths("a.automount", "[Automount]\n"), ["/"])
        self.assertEqual(paths("-.automount", "[Automount]\n"), [])
        self.assertEqual(paths("a.swap", "[Swap]\nWhat=/x\nWhat=/y\n"), ["/y"])


class DefaultsTest(unittest.TestCase):
    def test_services(self):
        expected = {"After": ["sysinit.target", "basic.target"], "Requires": ["sysinit.target"]}
        self.assertEqual(added("a.service", QUIET), expected)
        self.assertEqual(added("a.service", bare(QUIET)), {})

    def test_what_triggers(self):
        sysinit = {"After": ["sysinit.target"], "Requires": ["sysinit.target"]}
        self.assertEqual(added("a.socket", "[Socket]\n"), {**sysinit, "Before": ["a.service", "sockets.target"]})
        self.assertEqual(added("a.path", "[Path]\n"), {**sysinit, "Before": ["a.service", "paths.target"]})
        self.assertEqual(added("a.timer", "[Timer]\nOnBootSec=1\n"), {**sysinit, "Before": ["a.service", "timers.target"]})
        clock = {**sysinit, "After": ["sysinit.target", "time-set.target", "time-sync.target"]}
        self.assertEqual(added("a.timer", "[Timer]\nOnCalendar=daily\n"), {**clock, "Before": ["a.service", "timers.target"]})
        found = added("a.automount", "[Automount]\nWhere=/a\n")
        self.assertEqual((found["After"], found["Before"]), (["local-fs-pre.target"], ["a.mount", "local-fs.target"]))
        self.assertEqual(added("a.swap", "[Swap]\nStandardOutput=null\n"), {"Before": ["swap.target"]})

    def test_the_end(self):
        for name in ("a.service", "a.target", "a.slice", "a.swap", "proc-x.mount"):
            self.assertIn("shutdown.target", added(name, "", with_shutdown=True)["Before"], name)
        self.assertNotIn("Before", added("-.slice", "", with_shutdown=True))
        self.assertNotIn("Before", added("a.service", bare(QUIET), with_shutdown=True))

    def test_slices(self):
        def slices(name, text=""):
            found = added(name, bare(text), with_slice=True)
            after = [word for word in found.get("After", ()) if word.endswith(".slice")]
            self.assertEqual(after, found.get("Requires", []))
            return after

        self.assertEqual(slices("a.service"), ["system.slice"])
        self.assertEqual(slices("a.socket"), ["system.slice"])
        self.assertEqual(slices("a.mount"), ["system.slice"])
        self.assertEqual(slices("a.swap"), ["system.slice"])
        self.assertEqual(slices("a.target"), [])
        self.assertEqual(slices("a.timer"), [])
        self.assertEqual(slices("a-b@x.service"), ["system-a\\x2db.slice"])
        self.assertEqual(slices("a@.service"), ["system-a.slice"])
        self.assertEqual(slices("a@x.service", "[Service]\nSlice=own.slice\n"), ["own.slice"])
        self.assertEqual(slices("a-b-c.slice"), ["a-b.slice"])
        self.assertEqual(slices("a.slice"), ["-.slice"])
        self.assertEqual(slices("-.slice"), [])


class MountsTest(unittest.TestCase):
    LOCAL = {"After": ["local-fs-pre.target"], "Before": ["local-fs.target"]}

    def added(self, name, options="", kind="ext4", what="/dev/x", where=""):
        text = f"[Mount]\nStandardOutput=null\nWhat={what}\n" + (f"Where={where}\n" if where else "")
        text += (f"Type={kind}\n" if kind else "") + (f"Options={options}\n" if options else "")
        return added(name, text)

    def test_of_this_machine(self):
        expected = {**self.LOCAL, "RequiresMountsFor": ["/srv", "/dev/x"]}
        self.assertEqual(self.added("srv-a.mount"), expected)
        self.assertEqual(self.added("srv-a.mount", kind=""), expected)
        self.assertEqual(self.added("x.mount", where="/srv/a/"), expected)
        self.assertEqual(self.added("srv-a.mount", kind="fuse.ntfs"), expected)
        self.assertEqual(self.added("srv-a.mount", kind="fuse"), expected)

    def test_of_the_network(self):
        expected = {
            "After": ["remote-fs-pre.target", "network.target", "network-online.target"],
            "Before": ["remote-fs.target"],
            "Wants": ["network-online.target"],
            "RequiresMountsFor": ["/srv"],
        }
        for kind in ("nfs", "cifs", "fuse.glusterfs", "fuse.sshfs", "smb3"):
            self.assertEqual(self.added("srv-a.mount", kind=kind), expected, kind)
        self.assertEqual(self.added("srv-a.mount", "ro,_netdev"), expected)
        bound = {**expected, "RequiresMountsFor": ["/srv", "/dev/x"]}
        self.assertEqual(self.added("srv-a.mount", "bind,_netdev"), bound)
        self.assertEqual(self.added("srv-a.mount", "loop,_netdev"), bound)

    def test_nobody_waits_for_one_that_may_fail(self):
        alone = {"After": ["local-fs-pre.target"], "RequiresMountsFor": ["/srv", "/dev/x"]}
        both = {**self.LOCAL, "RequiresMountsFor": ["/srv", "/dev/x"]}
        for options, expected in {"nofail": alone, "fail": both, "nofail,fail": both, "fail,nofail": alone, "ro": both}.items():
            self.assertEqual(self.added("srv-a.mount", options), expected, options)

    def test_what_stands_outside(self):
        for name, options in (("-.mount", ""), ("usr.mount", ""), ("etc.mount", ""), ("proc-x.mount", ""), ("sys.mount", ""),
                              ("dev-shm.mount", ""), ("run-initramfs-x.mount", ""), ("srv-a.mount", "x-initrd.mount")):
            found = self.added(name, options)
            self.assertEqual((found.get("After"), found.get("Before")), (None, None), name)
        for name in ("usr-local.mount", "etc-x.mount", "devices.mount", "run-x.mount", "proc2.mount"):
            self.assertEqual(self.added(name)["Before"], ["local-fs.target"], name)

    def test_the_root_and_what_lies_on_it(self):
        self.assertEqual(self.added("-.mount"), {"RequiresMountsFor": ["/dev/x"]})
        self.assertEqual(self.added("a.mount")["RequiresMountsFor"], ["/", "/dev/x"])

    def test_temporary_ones(self):
        found = self.added("srv-a.mount", kind="tmpfs", what="tmpfs")
        self.assertEqual(found, {"After": ["local-fs-pre.target", "swap.target"], "Before": ["local-fs.target"], "RequiresMountsFor": ["/srv"]})
        self.assertNotIn("swap.target", self.added("srv-a.mount")["After"])

    def test_quotas(self):
        services = ["systemd-quotacheck.service", "quotaon.service"]
        for option in ("usrquota", "grpquota", "quota", "usrjquota=a", "grpjquota=b"):
            found = self.added("srv-a.mount", f"ro,{option}")
            self.assertEqual((found["Wants"], found["Before"]), (services, ["local-fs.target", *services]), option)
        self.assertNotIn("Wants", self.added("srv-a.mount", "usrquota,bind"))
        self.assertNotIn("Wants", self.added("srv-a.mount", "noquota"))
        self.assertEqual(self.added("srv-a.mount", "usrquota,_netdev")["Wants"], ["network-online.target"])
