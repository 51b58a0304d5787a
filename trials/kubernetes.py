#!/usr/bin/env python3
"""Tries plans for manifests: python3 -m trials kubernetes [--metis PROGRAM] [--orders N] [--wait] [--given NAME] FILE ..

For each file a universe is made, the program plans for it, and for taking it down again (`rollout` without targets). Both
plans are gone through in the printed order and in N random ones (50) that keep the waits, beside a model of a cluster that
reads the manifests anew, and not by the importer. It refuses what a cluster refuses: an object in a namespace that is not
there, a custom resource whose definition is not established, what a webhook is asked about that stands while no pod is
ready behind its service; and pods are not ready without their secrets, settings, claims and accounts, nor before the
services and jobs that their init containers name. It also sees that hooks and waves come one after the other.
"""

import argparse
import collections
import pathlib
import random
import re
import sys
import tempfile

import yaml

TOP = pathlib.Path(__file__).resolve().parent.parent

from metis_planner.importers import kubernetes
from metis_planner.importers.kubernetes import input
from metis_planner.text import plans
from metis_planner.text.actions import Delete, Move, New
from trials.trying import printed, try_files

LAST = ("there", "ready", "complete", "established", "available")


def name_of(told):
    inside = told["metadata"].get("namespace")
    alone = told["kind"].startswith("Cluster") or told["kind"] in (
        "Namespace",
        "CustomResourceDefinition",
        "ValidatingWebhookConfiguration",
        "MutatingWebhookConfiguration",
        "APIService",
    )
    return "/".join([told["kind"], *([] if alone else [inside or "default"]), told["metadata"]["name"]])


def annotation(told, name):
    return str(told["metadata"].get("annotations", {}).get(name, ""))


def pod_of(told):
    spec = told.get("spec", {})
    return spec.get("template") or (told if told["kind"] == "Pod" else None)


def named_in(pod):
    """The objects that a pod's fields name, by kind and name."""
    text = yaml.safe_dump(pod["spec"])
    for kind, pattern in (
        ("Secret", r"secretKeyRef:\n\s+key: \S+\n\s+name: (\S+)|secretRef:\n\s+name: (\S+)|secretName: (\S+)"),
        (
            "ConfigMap",
            r"configMapRef:\n\s+name: (\S+)|configMap:\n(?:\s+items:\n(?:\s+- .*\n(?:\s+path: .*\n)?)+)?\s+name: (\S+)",
        ),
        ("PersistentVolumeClaim", r"claimName: (\S+)"),
        ("ServiceAccount", r"serviceAccountName: (\S+)"),
    ):
        for found in re.finditer(pattern, text):
            yield kind, next(filter(None, found.groups()))


def rank(told, has_waves):
    """The place of an object among the steps of Argo CD or Helm; None for a hook that is not run."""
    hook, argo_hook = annotation(told, "helm.sh/hook"), annotation(told, "argocd.argoproj.io/hook")
    if has_waves:
        phase = {"PreSync": 0, "PostSync": 2}.get(argo_hook, 1)
        return phase, int(annotation(told, "argocd.argoproj.io/sync-wave") or 0), ""
    if not hook:
        return 1, 0, ""
    phase = 0 if "pre-install" in hook else 2 if "post-install" in hook else None
    return (
        None if phase is None else (phase, int(annotation(told, "helm.sh/hook-weight") or 0), told["metadata"]["name"])
    )


class Cluster:
    """Objects in their states, and what was done that a cluster would not have taken."""

    def __init__(self, manifests, waits):
        self.told = manifests
        self.waits = waits
        self.has_waves = any("argocd.argoproj.io" in str(each["metadata"]) for each in manifests.values())
        self.ranks = {name: rank(each, self.has_waves) for name, each in manifests.items()}
        self.state = {}  # of each type: the state of its one instance
        self.type_of = {}
        self.faults = []

    def do(self, action):
        if isinstance(action, New):
            self.type_of[action.instance] = action.type
            self.state[action.type] = "absent"
        elif isinstance(action, Delete):
            name = self.type_of.pop(action.instance)
            self.check_delete(name)
            del self.state[name]
        elif isinstance(action, Move):
            self.state[action.type] = action.end
            self.check(action.type, action.end)

    def is_well(self, name):
        """Whether an object is in its last state, which may be a component of its own."""
        apart = [self.state.get(f"{name}@{state}") == state for state in LAST]
        return self.state.get(name) in LAST or any(apart)

    def is_applied(self, name):
        return self.state.get(name, "absent") != "absent"

    def check(self, component, state):
        name = component.partition("@")[0]
        told = self.told.get(name)
        if told is None:
            return
        if component == name and state in ("applied", "there"):
            self.check_applied(name, told)
        if state in LAST and pod_of(told) is not None and told["kind"] != "CronJob":
            self.check_pods(name, told)

    def fault(self, text):
        self.faults.append(text)

    def check_applied(self, name, told):
        inside = f"Namespace/{told['metadata'].get('namespace')}"
        if inside in self.told and not self.is_well(inside):
            self.fault(f"{name} before {inside}")
        group = told["apiVersion"].partition("/")[0]
        for definition, each in self.told.items():
            if each["kind"] == "CustomResourceDefinition" and (
                each["spec"]["group"],
                each["spec"]["names"]["kind"],
            ) == (group, told["kind"]):
                if not self.is_well(definition):
                    self.fault(f"{name} before {definition}")
        self.ask_webhooks(name, told, group if "/" in told["apiVersion"] else "", told["kind"].lower())
        self.check_steps(name)

    def ask_webhooks(self, name, told, group, kind):
        for hook_name, hook in self.told.items():
            for each in hook.get("webhooks", []) if self.is_applied(hook_name) else []:
                rules = [rule for rule in each["rules"] if group in rule["apiGroups"] or "*" in rule["apiGroups"]]
                is_asked = any(word.startswith(("*", kind)) for rule in rules for word in rule["resources"])
                skips = each.get("namespaceSelector", {}).get("matchExpressions", [])
                labels = (
                    self.told.get(f"Namespace/{told['metadata'].get('namespace')}", {})
                    .get("metadata", {})
                    .get("labels", {})
                )
                if is_asked and not any(skip["key"] in labels for skip in skips):
                    service = each["clientConfig"]["service"]
                    if not self.answers(service["namespace"], service["name"]):
                        self.fault(f"{name} is refused by {hook_name}, whose service does not answer")

    def answers(self, inside, service):
        """Whether a pod is ready behind a service."""
        selector = self.told[f"Service/{inside}/{service}"]["spec"]["selector"].items()
        return any(
            pod_of(told)
            and told["kind"] != "Job"
            and selector <= pod_of(told)["metadata"].get("labels", {}).items()
            and self.is_well(name)
            for name, told in self.told.items()
        )

    def check_pods(self, name, told):
        pod = pod_of(told)
        inside = told["metadata"].get("namespace", "default")
        for kind, each in named_in(pod):
            if not self.is_well(f"{kind}/{inside}/{each}"):
                self.fault(f"{name} runs without {kind} {each}")
        for container in pod["spec"].get("initContainers", []):
            words = re.findall(r"[\w-]+", str(container.get("command", "")) + str(container.get("args", "")))
            for word in words:
                if f"Service/{inside}/{word}" in self.told and not self.answers(inside, word):
                    self.fault(f"{name} runs before {word} answers")
                if f"Job/{inside}/{word}" in self.told and not self.is_well(f"Job/{inside}/{word}"):
                    self.fault(f"{name} runs before the job {word} is complete")
        self.ask_webhooks(name, told, "", "pods")

    def check_steps(self, name):
        own = self.ranks[name]
        for other, each in self.ranks.items():
            if each is not None and each < own:
                is_hook = each[0] != 1 and self.told[other]["kind"] in ("Job", "Pod")
                waits = self.has_waves or is_hook or (self.waits and each[0] == 1 and self.told[other]["kind"] != "Job")
                if not (self.is_well(other) if waits else self.is_applied(other)):
                    self.fault(f"{name} before {other}, of an earlier step")

    def check_delete(self, name):
        for other, told in self.told.items():
            pod = pod_of(told)
            if pod and self.is_well(other):
                inside = told["metadata"].get("namespace", "default")
                if name in [f"{kind}/{inside}/{each}" for kind, each in named_in(pod)]:
                    self.fault(f"{name} is taken away from {other}")


def run_orders(plan, cluster, orders):
    """The faults of the printed order and of random ones, how often each, and the last cluster."""
    faults = collections.Counter()
    for seed in [None, *range(orders)]:
        order = plan.actions if seed is None else plans.random_order(plan, random.Random(seed))
        here = cluster()
        for action in order:
            here.do(action)
        faults.update(here.faults)
    return faults, here


def try_file(path, arguments):
    """Lines on one file, and whether all was as a cluster would have it."""
    document, _ = kubernetes.universe(
        input.read_manifests([path], "default"), arguments.given, arguments.wait
    )
    told = [each for each in yaml.safe_load_all(pathlib.Path(path).read_text()) if each]
    manifests = {name_of(each): each for each in told if name_of(each) not in arguments.given}
    with tempfile.TemporaryDirectory() as folder:
        universe, plan = pathlib.Path(folder) / "universe.json", pathlib.Path(folder) / "plan.txt"
        universe.write_text(document)
        plan.write_text(printed(arguments.metis, "plan", universe, "manifests:up"))
        up = plans.read(plan.read_text())
        if not isinstance(up, plans.Plan):
            return [f"{path}: refused, {up.lacks} is not attained"], False
        down = plans.read(printed(arguments.metis, "rollout", universe, plan))
    faults, end = run_orders(up, lambda: Cluster(manifests, arguments.wait), arguments.orders)
    for name in manifests:
        if end.ranks[name] is not None and not end.is_well(name):
            faults[f"{name} is not well in the end"] += 1
    more, end = run_orders(down, lambda: Cluster(manifests, arguments.wait), arguments.orders)
    if end.state:
        more["something is left"] += 1
    faults += more
    lines = [f"{path}: {count} times {fault}" for fault, count in faults.items()]
    counts = f"{len(manifests)} objects, {len(up.actions)} actions up, {len(down.actions) - len(up.actions)} down"
    return [*lines, f"{path}: {counts}; {arguments.orders + 1} orders each, {sum(faults.values())} faults"], not faults


def main():
    parser = argparse.ArgumentParser(description=__doc__, formatter_class=argparse.RawDescriptionHelpFormatter)
    parser.add_argument("files", metavar="FILE", nargs="+")
    parser.add_argument("--metis", default=str(TOP / "metis"), metavar="PROGRAM")
    parser.add_argument("--orders", type=int, default=50, metavar="N")
    parser.add_argument("--wait", action="store_true")
    parser.add_argument("--given", action="append", default=[], metavar="NAME")
    arguments = parser.parse_args()
    return try_files(arguments.files, lambda path: try_file(path, arguments))


if __name__ == "__main__":
    sys.exit(main())
