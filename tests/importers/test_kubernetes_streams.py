"""Manifests as they come from charts and operators: scopes, waits, hooks, claims, and names that lead nowhere."""

import pathlib
import tempfile
import unittest

from metis_planner.answers import Refused
from metis_planner.importers import kubernetes
from metis_planner.importers.kubernetes import input
from tests.importers.test_kubernetes import definition, imported, job, manifest, needs_of, service, waiting, workload

try:
    import yaml
except ImportError:
    yaml = None

BEFORE = {"helm.sh/hook": "pre-install"}


def headless(name="pg", **more):
    return manifest("Service", name, spec={"selector": {"app": name}, "clusterIP": "None", **more})


def stateful(name="pg", **more):
    return workload("StatefulSet", name, labels={"app": name}, **more)


class ScopeTest(unittest.TestCase):
    def cluster(self, namespace, group="postgresql.cnpg.io", kind="Cluster"):
        return manifest(kind, "db", f"{group}/v1", namespace)

    def test_a_custom_kind_that_begins_with_cluster_lies_in_a_namespace(self):
        found, _ = imported(self.cluster("one"), self.cluster("two"))
        self.assertEqual(sorted(found), ["Cluster/one/db", "Cluster/two/db", "manifests"])

    def test_unless_it_is_known_not_to(self):
        found, _ = imported(self.cluster(None, "cert-manager.io", "ClusterIssuer"), self.cluster(None, "kyverno.io", "ClusterPolicy"))
        self.assertEqual(sorted(found), ["ClusterIssuer/db", "ClusterPolicy/db", "manifests"])
        found, _ = imported(self.cluster(None, "other.io", "ClusterIssuer"))
        self.assertIn("ClusterIssuer/default/db", found)

    def test_or_its_definition_says_so(self):
        own = definition("Cluster", "postgresql.cnpg.io", "clusters", scope="Cluster")
        found, _ = imported(own, self.cluster("one"))
        self.assertIn("Cluster/db", found)

    def test_a_kind_may_begin_with_a_small_letter(self):
        found, _ = imported(manifest("postgresql", "db", "acid.zalan.do/v1"), given=["kind/postgresql.acid.zalan.do"])
        self.assertEqual(found["postgresql/n/db"], ["absent > there", "there +postgresql/n/db > absent"])
        with self.assertRaisesRegex(Refused, "no kind of objects: -x"):
            imported(manifest("-x"))


class EndpointsTest(unittest.TestCase):
    APPLIED = ["absent > applied", "applied +StatefulSet/n/pg@applied +Service/n/pg@endpoints > absent"]
    READY = ["awaited > ready", "ready +StatefulSet/n/pg -StatefulSet/n/pg@applied > awaited"]

    def test_a_workload_without_replicas_answers_nothing(self):
        found, notes = imported(service("db", app="db"), workload("StatefulSet", "db", {"app": "db"}, replicas=0), workload(**waiting("db:1")))
        self.assertNotIn("+Service/n/db@endpoints", " ".join(found["StatefulSet/n/db"]))
        self.assertRegex(notes[0], "^Deployment/n/w needs Service/n/db@endpoints, which nothing here gives")

    def test_addresses_that_are_there_before_a_pod_is_ready(self):
        found, _ = imported(headless(publishNotReadyAddresses=True), stateful(), workload(**waiting("nc", "pg", "1")))
        self.assertEqual(found["StatefulSet/n/pg"], self.APPLIED)
        self.assertEqual(found["StatefulSet/n/pg@ready"], self.READY)
        self.assertEqual(needs_of(found, "Deployment/n/w"), ["Service/n/pg", "Service/n/pg@endpoints"])

    def test_so_it_is_where_the_last_milestone_stands_apart(self):
        after = {"helm.sh/hook": "post-install"}
        found, _ = imported(headless(publishNotReadyAddresses=True), stateful(), job(annotations=after))
        self.assertEqual(found["StatefulSet/n/pg"], self.APPLIED)
        self.assertEqual(found["StatefulSet/n/pg@ready"], self.READY)


class WaitsTest(unittest.TestCase):
    BOTH = ["Service/n/pg", "Service/n/pg@endpoints"]

    def waited(self, *words, settings=(), env=(), **more):
        container = {"name": "wait", "command": list(words), "env": list(env), **more}
        found, _ = imported(headless(), stateful(), *settings, workload(initContainers=[container]))
        return needs_of(found, "Deployment/n/w")

    def test_a_pod_behind_a_headless_service(self):
        for host in ("pg-0.pg", "pg-0.pg.n", "pg-0.pg.n.svc", "pg-0.pg.n.svc.cluster.local", "pg-0.pg.n.svc.own.example"):
            self.assertEqual(self.waited("nc", "-z", host, "5432"), self.BOTH, host)
        self.assertEqual(self.waited("nc", "-z", "pg-0.other", "5432"), [])

    def test_a_host_behind_its_option(self):
        for words in (("pg_isready", "-hpg"), ("sh", "-c", "until pg_isready -hpg -p 5432; do sleep 1; done")):
            self.assertEqual(self.waited(*words), self.BOTH, words)

    def test_a_host_that_settings_name(self):
        settings = [manifest("ConfigMap", "c", data={"DB_HOST": "pg", "WORKERS": "3", "OTHER": "pg"})]
        key = {"valueFrom": {"configMapKeyRef": {"name": "c", "key": "DB_HOST"}}}
        self.assertEqual(self.waited("w", settings=settings, env=[{"name": "HOST", **key}]), ["ConfigMap/n/c", *self.BOTH])
        whole = [{"configMapRef": {"name": "c"}}]
        for variable in ("$DB_HOST", "${DB_HOST}", "$(DB_HOST)"):
            found = self.waited("sh", "-c", f"nc -z {variable} 5432", settings=settings, envFrom=whole)
            self.assertEqual(found, ["ConfigMap/n/c", *self.BOTH], variable)
        prefixed = [{"prefix": "MY_", "configMapRef": {"name": "c"}}]
        found = self.waited("nc", "$(MY_DB_HOST)", "1", settings=settings, envFrom=prefixed)
        self.assertEqual(found, ["ConfigMap/n/c", *self.BOTH])
        self.assertEqual(self.waited("sh", "-c", "echo $WORKERS", settings=settings, envFrom=whole), ["ConfigMap/n/c"])

    def test_an_owner_of_files_is_no_host(self):
        for words in (
            ("chown", "-R", "pg:pg", "/data"),
            ("sh", "-c", "mkdir -p /x && chown pg:pg /x; chown -R pg /y"),
            ("sh", "-c", "adduser pg && su pg -c true"),
        ):
            self.assertEqual(self.waited(*words), [], words)
        self.assertEqual(self.waited("sh", "-c", "chown pg:pg /x; nc -z pg 5432"), self.BOTH)


class HooksTest(unittest.TestCase):
    POD = {"volumes": [{"name": "v", "secret": {"secretName": "s"}}]}
    POLICY = {**BEFORE, "helm.sh/hook-delete-policy": "hook-succeeded"}

    def test_what_helm_deletes_is_not_there_for_the_rest(self):
        found, notes = imported(manifest("Secret", "s", annotations=self.POLICY), workload(**self.POD))
        self.assertIn("Secret/n/s@deleted", needs_of(found, "Deployment/n/w"))
        self.assertEqual(notes, ["Deployment/n/w needs Secret/n/s, a hook that Helm deletes once it has succeeded: there will be no plan"])
        found, notes = imported(manifest("Secret", "s", annotations=self.POLICY), workload(**self.POD), given=["Secret/n/s"])
        self.assertEqual((needs_of(found, "Deployment/n/w"), notes), (["step/1"], []))

    def test_other_hooks_get_it(self):
        both = manifest("Secret", "s", annotations=self.POLICY), job(annotations=self.POLICY, **self.POD)
        found, notes = imported(*both)
        self.assertIn("Secret/n/s", needs_of(found, "Job/n/j"))
        self.assertEqual(notes, [])

    def test_what_is_only_made_anew_stays(self):
        for policy in ("before-hook-creation", "hook-failed"):
            hook = {**BEFORE, "helm.sh/hook-delete-policy": policy}
            found, notes = imported(manifest("Secret", "s", annotations=hook), workload(**self.POD))
            self.assertIn("Secret/n/s", needs_of(found, "Deployment/n/w"))
            self.assertEqual(notes, [])


class ClaimsTest(unittest.TestCase):
    """A claim that is bound by its first pod is not well before such a pod is there."""

    POD = {"volumes": [{"name": "v", "persistentVolumeClaim": {"claimName": "c"}}]}

    def wave(self, number):
        return {"argocd.argoproj.io/sync-wave": str(number)}

    def stream(self, mode, of_claim, of_pod):
        own = manifest("StorageClass", "late", "storage.k8s.io/v1", None, self.wave(0), volumeBindingMode=mode)
        claim = manifest("PersistentVolumeClaim", "c", annotations=self.wave(of_claim), spec={"storageClassName": "late"})
        return own, claim, workload(annotations=self.wave(of_pod), **self.POD)

    def test_in_a_wave_before_its_consumer(self):
        found, _ = imported(*self.stream("WaitForFirstConsumer", 1, 2))
        self.assertIn("Deployment/n/w", needs_of(found, "PersistentVolumeClaim/n/c"))

    def test_in_the_same_wave_or_bound_at_once(self):
        for told in (self.stream("WaitForFirstConsumer", 1, 1), self.stream("Immediate", 1, 2), self.stream("WaitForFirstConsumer", 2, 1)):
            found, _ = imported(*told)
            self.assertNotIn("Deployment/n/w", needs_of(found, "PersistentVolumeClaim/n/c"))


class NowhereTest(unittest.TestCase):
    """What names a service or a workload that is not there."""

    def ingress(self, name="api"):
        path = {"backend": {"service": {"name": name, "port": {"number": 80}}}}
        spec = {"defaultBackend": {"service": {"name": name}}, "rules": [{"http": {"paths": [path]}}]}
        return manifest("Ingress", "web", "networking.k8s.io/v1", spec=spec)

    def scaler(self, name="w", kind="Deployment"):
        target = {"apiVersion": "apps/v1", "kind": kind, "name": name}
        return manifest("HorizontalPodAutoscaler", "h", "autoscaling/v2", spec={"scaleTargetRef": target})

    def budget(self, **labels):
        return manifest("PodDisruptionBudget", "b", "policy/v1", spec={"selector": {"matchLabels": labels}})

    def notes(self, *manifests, **options):
        return [note.partition(": ")[2] for note in imported(*manifests, **options)[1]]

    def test_each_is_told(self):
        self.assertEqual(self.notes(self.ingress()), ["Ingress/n/web names Service/n/api, which is not here"] * 2)
        self.assertEqual(self.notes(self.scaler()), ["HorizontalPodAutoscaler/n/h names Deployment/n/w, which is not here"])
        self.assertEqual(self.notes(self.budget(app="x"), workload(labels={"app": "y"})), ["PodDisruptionBudget/n/b is about pods that no workload here makes"])
        hook = {"name": "w.own.io", "rules": [], "clientConfig": {"service": {"name": "s", "namespace": "n"}}, "failurePolicy": "Ignore"}
        told = manifest("ValidatingWebhookConfiguration", "w", "admissionregistration.k8s.io/v1", None, webhooks=[hook])
        self.assertEqual(self.notes(told), ["ValidatingWebhookConfiguration/w names Service/n/s, which is not here"])

    def test_what_is_there_or_given_is_not(self):
        self.assertEqual(self.notes(self.ingress(), service("api")), [])
        self.assertEqual(self.notes(self.ingress(), given=["Service/n/api"]), [])
        self.assertEqual(self.notes(self.scaler(), workload()), [])
        self.assertEqual(self.notes(self.scaler("x", "Rollout")), [])
        self.assertEqual(self.notes(self.budget(app="x"), workload(labels={"app": "x", "more": "y"})), [])

    @unittest.skipUnless(yaml, "PyYAML is not there")
    def test_with_file_and_line(self):
        text = "---\n# an ingress\napiVersion: networking.k8s.io/v1\nkind: Ingress\nmetadata: {name: web, namespace: n}\nspec:\n  rules:\n  - http:\n      paths:\n      - backend:\n          service:\n            name: api\n"
        with tempfile.TemporaryDirectory() as folder:
            path = pathlib.Path(folder) / "all.yaml"
            path.write_text(text)
            _, notes = kubernetes.universe(input.read_manifests([str(path)], "default"))
        self.assertEqual(notes[0], f"{path}:12: Ingress/n/web names Service/n/api, which is not here")
        self.assertEqual((notes[0].file, notes[0].line), (str(path), 12))


class FormsTest(unittest.TestCase):
    def test_a_list_in_a_list(self):
        inner = {"apiVersion": "v1", "kind": "List", "items": [manifest("Secret", "s"), manifest("ConfigMap", "c")]}
        found, _ = imported(inner, manifest("Secret", "t"))
        self.assertEqual(sorted(found), ["ConfigMap/n/c", "Secret/n/s", "Secret/n/t", "manifests"])
        for _ in range(20):
            inner = {"apiVersion": "v1", "kind": "List", "items": [inner]}
        with self.assertRaisesRegex(Refused, "lists in lists too deeply$"):
            imported(inner)

    def test_a_name_that_the_cluster_makes(self):
        told = manifest("Job", "x", "batch/v1", spec={})
        told["metadata"] = {"generateName": "migrate-", "namespace": "n"}
        _, notes = imported(told)
        self.assertRegex(notes[0], ": Job/n/migrate1 has a generateName, which `kubectl create` takes and `kubectl apply` refuses$")
        told["metadata"]["annotations"] = {"argocd.argoproj.io/hook": "PreSync"}
        self.assertEqual(imported(told)[1], [])


class EndsTest(unittest.TestCase):
    def test_a_pod_that_ends_is_complete(self):
        for policy, last in (("Never", "complete"), ("OnFailure", "complete"), ("Always", "ready"), (None, "ready")):
            spec = {"restartPolicy": policy} if policy else {}
            found, _ = imported(manifest("Pod", "p", spec=spec))
            self.assertEqual(found["Pod/n/p"][1], f"applied > {last} > absent", policy)

    def test_helm_waits_for_the_pods_of_its_hooks(self):
        hook = manifest("Pod", "p", annotations=BEFORE, spec={"restartPolicy": "Never"})
        found, _ = imported(hook, manifest("Secret", "s"))
        self.assertEqual(found["Pod/n/p"], ["absent > applied", "applied > complete > absent", "complete +Pod/n/p > applied"])
        self.assertEqual(needs_of(found, "step/1"), ["Pod/n/p"])
        self.assertEqual(needs_of(found, "Secret/n/s"), ["step/1"])


class RulesTest(unittest.TestCase):
    """What a webhook is asked about."""

    def asked(self, *objects, labels=None, **rule):
        told = {"apiGroups": ["*"], "operations": ["*"], "resources": ["*"], **rule}
        hook = {"name": "w.own.io", "rules": [told], "clientConfig": {"service": {"name": "s", "namespace": "own"}}}
        if labels:
            hook["namespaceSelector"] = {"matchLabels": labels}
        configuration = manifest("MutatingWebhookConfiguration", "w", "admissionregistration.k8s.io/v1", None, webhooks=[hook])
        found, _ = imported(configuration, manifest("Service", "s", namespace="own", spec={}), *objects)
        return [key for key in found if "Service/own/s" in needs_of(found, key) and key not in ("manifests", configuration["kind"] + "/w")]

    def test_the_scope_of_a_rule(self):
        objects = manifest("Secret", "x"), manifest("ClusterRole", "y", "rbac.authorization.k8s.io/v1", None)
        self.assertEqual(self.asked(*objects, scope="Namespaced"), ["Secret/n/x"])
        self.assertEqual(self.asked(*objects, scope="Cluster"), ["ClusterRole/y"])
        self.assertEqual(self.asked(*objects, scope="*"), ["Secret/n/x", "ClusterRole/y"])

    def test_a_namespace_by_its_own_labels(self):
        spaces = manifest("Namespace", "one", namespace=None, labels={"l": "1"}), manifest("Namespace", "two", namespace=None)
        self.assertEqual(self.asked(*spaces, labels={"l": "1"}), ["Namespace/one"])
        self.assertEqual(self.asked(*spaces, labels={"kubernetes.io/metadata.name": "two"}), ["Namespace/two"])


def hook(kind, name, phases, deletion="before-hook-creation,hook-succeeded", weight="0", **more):
    annotations = {"helm.sh/hook": phases, "helm.sh/hook-delete-policy": deletion, "helm.sh/hook-weight": weight}
    version = {"Job": "batch/v1", "Role": "rbac.authorization.k8s.io/v1"}.get(kind, "v1")
    return manifest(kind, name, version, annotations=annotations, **more)


def hook_job(name, phases, account="", weight="0", **pod):
    spec = {"template": {"metadata": {}, "spec": {**({"serviceAccountName": account} if account else {}), **pod}}}
    return hook("Job", name, phases, weight=weight, spec=spec)


class HooksOfHelmTest(unittest.TestCase):
    """What Helm does with hooks of several phases, and with hooks of one weight and name."""

    def lacking(self, *manifests):
        return [note for note in imported(*manifests)[1] if "there will be no plan" in note]

    def test_a_hook_of_two_phases_is_made_again_in_the_second(self):
        account = hook("ServiceAccount", "adm", "pre-install,post-install", weight="-1")
        self.assertEqual(self.lacking(account, hook_job("patch", "post-install", "adm")), [])
        # Not yet, for what comes before it there; nor in a phase that is none of its own; nor for what is no hook.
        self.assertEqual(len(self.lacking(account, hook_job("patch", "post-install", "adm", weight="-2"))), 1)
        early = hook("ServiceAccount", "adm", "pre-install")
        self.assertEqual(len(self.lacking(early, hook_job("patch", "post-install", "adm"))), 1)
        self.assertEqual(len(self.lacking(account, workload(serviceAccountName="adm"))), 1)

    def test_hooks_of_one_weight_and_name_go_by_the_order_in_which_kinds_are_installed(self):
        account, settings = hook("ServiceAccount", "app", "pre-install", ""), hook("ConfigMap", "app", "pre-install", "", data={"a": "b"})
        container = {"name": "c", "envFrom": [{"configMapRef": {"name": "app"}}]}
        found, notes = imported(account, settings, hook_job("app", "pre-install", "app", containers=[container]))
        order = [needs_of(found, f"step/{number}") for number in (1, 2)]
        self.assertEqual([step[-1].partition("/")[0] for step in order], ["ServiceAccount", "ConfigMap"])
        self.assertEqual([note for note in notes if "no plan" in note], [])


class TypedListTest(unittest.TestCase):
    def test_items_of_a_typed_list_need_not_say_their_kind(self):
        with tempfile.TemporaryDirectory() as folder:
            path = pathlib.Path(folder) / "all.json"
            path.write_text('{"apiVersion": "v1", "kind": "ConfigMapList", "items": [{"metadata": {"name": "a"}}, {"kind": "ConfigMap", "apiVersion": "v1", "metadata": {"name": "b"}}]}')
            self.assertEqual([each.key for each in input.read_manifests([str(path)], "n")], ["ConfigMap/n/a", "ConfigMap/n/b"])
            path.write_text('{"apiVersion": "v1", "kind": "List", "items": [{"metadata": {"name": "a"}}]}')
            with self.assertRaises(Refused):
                input.read_manifests([str(path)], "n")
