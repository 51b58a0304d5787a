"""Input in which two lists are held against each other: small files that took minutes before the products were bounded."""

import json
from typing import Any

from tests.effort import soon
from tests.importers.test_hostile import HostileCase, ended

Told = dict[str, Any]


def manifest(kind: str, name: str, spec: Told | None = None, version: str = "v1", labels: Told | None = None, **more: Any) -> Told:
    metadata = {"name": name, **({"labels": labels} if labels else {})}
    return {"kind": kind, "apiVersion": version, "metadata": metadata, **({"spec": spec} if spec is not None else {}), **more}


def pod(name: str, labels: Told | None = None, **spec: Any) -> Told:
    return manifest("Pod", name, spec, labels=labels)


def stream(*manifests: Told) -> str:
    return json.dumps({"kind": "List", "items": list(manifests)})


class ProductsTest(HostileCase):
    def ends(self, text: str, reason: str = "") -> None:
        """A stream ends soon: with a document, or where a reason is given with a line that has it."""
        file = self.file(text)
        if reason:
            self.assertRegex(self.refused("import", "kubernetes", file), reason)
            return
        with soon():
            self.assertEqual(ended("import", "kubernetes", file)[0], 0)

    def test_a_key_of_a_file_of_variables(self) -> None:
        (self.folder / ".env").write_text("a" * 400_000 + "!=x\n")
        project = self.file('{"services": {"a": {"image": "i"}}}')
        with soon():
            self.assertEqual(ended("import", "compose", project)[0], 1)

    def test_services_in_a_chain(self) -> None:
        chain = {f"s{n}": {"image": "i", "volumes_from": [f"s{n + 1}"]} for n in range(6_000)} | {"s6000": {"image": "i"}}
        file = self.file(json.dumps({"services": chain}))
        reason = "6001 services, and Metis takes at most 2000 pairs of type and state"
        self.assertEqual(self.refused("import", "compose", file, "--next", file), reason)

    def test_keys_of_an_object_of_many_entries(self) -> None:
        settings = manifest("ConfigMap", "c", data={f"k{n}": "v" for n in range(60_000)})
        env = [{"name": f"e{n}", "valueFrom": {"configMapKeyRef": {"name": "c", "key": f"k{n}"}}} for n in range(20_000)]
        for part in ("containers", "initContainers"):
            self.ends(stream(settings, pod("p", **{part: [{"name": "c", "env": env, "command": ["true"]}]})))

    def test_one_object_as_environment_many_times(self) -> None:
        settings = manifest("ConfigMap", "c", data={f"k{n}": "v" for n in range(60_000)})
        source = [{"configMapRef": {"name": "c"}}] * 20_000
        self.ends(stream(settings, pod("p", initContainers=[{"name": "c", "envFrom": source, "command": ["nc $k1 80"]}])))
        many = " ".join(f"$k{n}" for n in range(500))
        reason = "500 variables of a command and 20000 sources of its environment are too many"
        self.ends(stream(settings, pod("p", initContainers=[{"name": "c", "envFrom": source, "command": [many]}])), reason)

    def test_labels_that_are_waited_for(self) -> None:
        words = "; ".join(f"kubectl wait po -l a{n}=b" for n in range(6_000))
        pods = [pod(f"p{n}", {"app": f"p{n}"}) for n in range(600)]
        self.ends(stream(pod("w", initContainers=[{"name": "c", "command": [words]}]), *pods))

    def test_selectors_of_many_words(self) -> None:
        pods = [pod(f"p{n}", {f"l{m}": "x" for m in range(200)}) for n in range(200)]
        services = [manifest("Service", f"s{n}", {"selector": {f"l{m}": "x" for m in range(200)}}) for n in range(200)]
        reason = "selectors of 80200 words and 200 workloads, and at most 5000000 times one is held against one"
        self.ends(stream(*pods, *services), reason)
        asked = [{"key": f"k{n}", "operator": "Exists"} for n in range(200)]
        budgets = [manifest("PodDisruptionBudget", f"b{n}", {"selector": {"matchExpressions": asked}}, "policy/v1") for n in range(200)]
        self.ends(stream(*pods, *budgets), "selectors of [0-9]+ words and 200 workloads")

    def test_rules_of_webhooks(self) -> None:
        rule = {"apiGroups": ["x"], "operations": ["CREATE"], "resources": ["y"]}
        hook = {"name": "w", "rules": [rule] * 20_000, "clientConfig": {"service": {"name": "s", "namespace": "n"}}}
        told = manifest("MutatingWebhookConfiguration", "w", None, "admissionregistration.k8s.io/v1", webhooks=[hook])
        self.ends(stream(told, *(pod(f"p{n}") for n in range(500))), "webhooks of [0-9]+ words and 501 objects")

    def test_packages_that_are_tried_again_and_again(self) -> None:
        names = range(4_000)
        recommended = ", ".join(f"r{number}" for number in names)
        index = f"Package: a\nVersion: 1\nRecommends: {recommended}\n\nPackage: z\nVersion: 1\n\n"
        index += "".join(f"Package: r{number}\nVersion: 1\nDepends: b{number}\n\nPackage: b{number}\nVersion: 1\nConflicts: a\n\n" for number in names)
        file = self.file(index)
        reason = "more than 3000 packages were tried that would come along, r3000 the last"
        self.assertEqual(self.refused("import", "debian", "--recommends", "--index", file, "a"), reason)

    def test_drop_ins_of_many_units(self) -> None:
        folder = self.folder / "etc/systemd/system"
        for name, count in (("a-.service.d", 1_000), ("service.d", 800)):
            (folder / name).mkdir(parents=True)
            for number in range(count):
                (folder / name / f"{number}.conf").write_text("[Unit]\n")
        units = [f"a-{number}.service" for number in range(300)]
        (folder / "t.target").write_text(f"[Unit]\nDefaultDependencies=no\nWants={' '.join(units)}\n")
        for name in units:
            (folder / name).write_text("[Unit]\nDefaultDependencies=no\n")
        reason = "with the units before it more than 50000 drop-ins and links beside units$"
        self.assertRegex(self.refused("import", "systemd", "--root", self.folder, "t.target"), reason)
