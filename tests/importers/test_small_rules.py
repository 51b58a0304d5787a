"""Rules of which each has one line in an importer, and that nothing else here would miss."""

import pathlib
import tempfile
import unittest
import unittest.mock
from typing import Any

from metis_planner.answers import Refused
from metis_planner.importers import systemd
from metis_planner.importers.compose.mounts import short_mount
from metis_planner.importers.compose.variables import Unset, Variables
from metis_planner.importers.debian import foreign
from metis_planner.importers.debian.choices import Choices
from metis_planner.importers.debian.control import stanzas
from metis_planner.importers.debian.installation import Installation
from metis_planner.importers.debian.packages import Pool, packages_of, standing_of
from metis_planner.importers.kubernetes.kinds import made_secret
from metis_planner.importers.kubernetes.waits import service_named
from metis_planner.importers.systemd import names, units
from metis_planner.importers.systemd.units import Folders
from tests.importers.test_kubernetes import imported, manifest, needs_of, read, service, webhook, workload
from tests.importers.test_systemd import LIBRARY, unit

ARCHITECTURE = "amd64"


def choices(index: str, status: str) -> Choices:
    standing = standing_of(list(stanzas(status)), ARCHITECTURE)
    pools = (Pool(packages_of(stanzas(index), ARCHITECTURE), ARCHITECTURE), Pool(standing.packages, ARCHITECTURE))
    return Choices(*pools, standing)


def stanza(name: str, version: str, **fields: str) -> str:
    more = "".join(f"{key.replace('_', '-')}: {value}\n" for key, value in fields.items())
    return f"Package: {name}\nVersion: {version}\nStatus: install ok installed\n{more}\n"


class DebianTest(unittest.TestCase):
    def test_what_stands_with_a_record_that_cannot_be_read_stays(self) -> None:
        found = choices(stanza("a", "2") + stanza("b", "2"), stanza("a", "1", Depends="x y") + stanza("b", "1"))
        self.assertEqual((found.stands("a"), found.stands("b")), (True, False))

    def test_one_of_another_architecture_has_to_be_for_lockstep_too(self) -> None:
        index = stanza("a", "1", Architecture=ARCHITECTURE, Multi_Arch="same")
        for theirs, count in (("same", 0), ("foreign", 1), ("no", 1)):
            found = choices(index, stanza("a", "1", Architecture="i386", Multi_Arch=theirs))
            self.assertEqual(len(list(foreign.faults(Installation(found, ["a"])))), count, theirs)


class ComposeTest(unittest.TestCase):
    def test_the_modes_of_a_mount_are_words(self) -> None:
        for mode, is_written in (("ro,z", False), ("z,ro", False), ("ro", False), ("rw,z", True), ("z", True)):
            mount = short_mount(f"data:/data:{mode}")
            assert mount is not None
            self.assertEqual(mount.is_written, is_written, mode)

    def test_what_is_not_used_need_not_be_set(self) -> None:
        text = "${A:-${B:?no}}"
        self.assertEqual(Variables({"A": "x"}, Unset.EMPTY).inside(text), "x")
        with self.assertRaisesRegex(Refused, "the variable B is not set: no"):
            Variables({}, Unset.EMPTY).inside(text)


class SystemdTest(unittest.TestCase):
    def setUp(self) -> None:
        kept = tempfile.TemporaryDirectory()
        self.addCleanup(kept.cleanup)
        self.root = pathlib.Path(kept.name)
        (self.root / LIBRARY).mkdir(parents=True)

    def write(self, name: str, text: str) -> None:
        path = self.root / LIBRARY / name
        path.parent.mkdir(exist_ok=True)
        path.write_text(text)

    def test_a_path_lies_on_the_root_too(self) -> None:
        self.assertEqual(list(names.mounts_above("/var/lib")), ["-.mount", "var.mount", "var-lib.mount"])

    def test_a_device_that_is_asked_for_may_be_there(self) -> None:
        for other, count in (("dev-sda.device", 0), ("x.service", 1)):
            self.write("t.target", unit(f"Requisite={other}"))
            notes = systemd.universe(Folders(self.root), "t.target")[1]
            self.assertEqual(sum("asks for" in note for note in notes), count, other)

    def test_a_drop_in_ends_in_conf(self) -> None:
        self.write("t.target", "[Unit]\n")
        for name in ("10.conf", "20.txt", "30.conf~"):
            self.write(f"t.target.d/{name}", f"[Unit]\nAfter=a{name[:2]}.service\n")
        found = Folders(self.root).load("t.target")
        assert found is not None
        self.assertEqual(found["After"], ["a10.service"])

    def test_a_file_that_is_too_long_is_not_read(self) -> None:
        self.write("t.target", "[Unit]\n" + "#\n" * 100)
        with unittest.mock.patch.object(units, "MOST_FILE", 100):
            self.assertIsNone(Folders(self.root).load("t.target"))
        self.assertIsNotNone(Folders(self.root).load("t.target"))


class KubernetesTest(unittest.TestCase):
    def services(self, **spec: Any) -> dict[tuple[str, str], Any]:
        (found,) = read(manifest("Service", "web", spec=spec))
        return {("n", "web"): found}

    def test_a_pod_has_a_name_behind_a_headless_service_alone(self) -> None:
        self.assertIsNone(service_named("web-0.web", "n", self.services()))
        found = service_named("web-0.web", "n", self.services(clusterIP="None"))
        assert found is not None
        self.assertEqual(found.name, "web")

    def late(self, claim: dict[str, str], user: dict[str, str]) -> list[str]:
        storage = manifest("StorageClass", "late", "storage.k8s.io/v1", None, volumeBindingMode="WaitForFirstConsumer")
        told = manifest("PersistentVolumeClaim", "data", annotations=claim, spec={"storageClassName": "late"})
        volumes = [{"name": "v", "persistentVolumeClaim": {"claimName": "data"}}]
        found, _ = imported(storage, told, workload(annotations=user, volumes=volumes))
        return needs_of(found, "PersistentVolumeClaim/n/data")

    def test_a_late_claim_waits_for_a_pod_where_the_next_step_waits_for_the_claim(self) -> None:
        wave = "argocd.argoproj.io/sync-wave"
        self.assertIn("Deployment/n/w", self.late({wave: "0"}, {wave: "1"}))
        # Helm goes on when a claim is applied.
        self.assertEqual(self.late({"helm.sh/hook": "pre-install"}, {}), [])

    def test_argo_deletes_a_hook_of_helm_at_the_end_alone(self) -> None:
        hook = {"helm.sh/hook": "pre-install", "helm.sh/hook-delete-policy": "hook-succeeded"}
        account = manifest("ServiceAccount", "a", annotations=hook)
        user = workload(annotations={"argocd.argoproj.io/sync-wave": "1"}, serviceAccountName="a")
        self.assertEqual(imported(account, user)[1], [])
        self.assertIn("which Helm deletes", imported(account, workload(serviceAccountName="a"))[1][0].replace("a hook that", "which"))

    def test_a_webhook_of_deletions_is_not_asked_at_first(self) -> None:
        for operations, count in ((["DELETE"], 0), (["CREATE"], 1), (["DELETE", "*"], 1)):
            told = webhook("s", resources=("configmaps",), groups=("",))
            told["webhooks"][0]["rules"][0]["operations"] = operations
            found, _ = imported(told, service("s", app="s"), workload(labels={"app": "s"}), manifest("ConfigMap", "c"))
            self.assertEqual(sum("Service/n/s" in each for each in needs_of(found, "ConfigMap/n/c")), 2 * count, operations)

    def test_a_webhook_whose_service_comes_later_does_not_wait_for_it(self) -> None:
        wave = "argocd.argoproj.io/sync-wave"
        for own, its, waits in (("0", "1", False), ("1", "0", True)):
            told = webhook("s", annotations={wave: own})
            behind = [manifest("Service", "s", annotations={wave: its}, spec={"selector": {"app": "s"}}), workload(labels={"app": "s"}, annotations={wave: its})]
            found, _ = imported(told, *behind)
            self.assertEqual("Service/n/s" in needs_of(found, "ValidatingWebhookConfiguration/w"), waits)

    def test_a_fetched_secret_without_a_name_has_that_of_its_object(self) -> None:
        for spec, name in (({}, "x"), ({"target": {}}, "x"), ({"target": {"name": "y"}}, "y")):
            (told,) = read(manifest("ExternalSecret", "x", "external-secrets.io/v1", spec=spec))
            self.assertEqual(list(made_secret(told)), [f"Secret/n/{name}"])


if __name__ == "__main__":
    unittest.main()
