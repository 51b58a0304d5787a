import json
import pathlib
import tempfile
import unittest

from metis_planner.answers import Refused
from metis_planner.importers import kubernetes
from metis_planner.importers.kubernetes import input, webhooks
from tests.importers.shapes import shape

try:
    import yaml
except ImportError:
    yaml = None

EXAMPLES = pathlib.Path(__file__).resolve().parents[2] / "examples" / "kubernetes"


def manifest(kind, name="x", version="v1", namespace="n", annotations=None, labels=None, **more):
    metadata = {"name": name}
    if namespace:
        metadata["namespace"] = namespace
    if annotations:
        metadata["annotations"] = annotations
    if labels:
        metadata["labels"] = labels
    return {"apiVersion": version, "kind": kind, "metadata": metadata, **more}


def workload(kind="Deployment", name="w", labels=None, annotations=None, replicas=1, **pod):
    version = "batch/v1" if kind == "Job" else "apps/v1"
    template = {"metadata": {"labels": labels or {}}, "spec": pod}
    return manifest(kind, name, version, annotations=annotations, spec={"replicas": replicas, "template": template})


def job(name="j", annotations=None, **pod):
    return workload("Job", name, annotations=annotations, **pod)


def service(name="s", **selector):
    return manifest("Service", name, spec={"selector": selector})


def waiting(*words, **settings):
    """An init container with this command and environment."""
    env = [{"name": name, "value": value} for name, value in settings.items()]
    return {"initContainers": [{"name": "wait", "command": list(words), "env": env}]}


def definition(kind="Thing", group="own.io", plural="things", annotations=None, **spec):
    told = {"group": group, "names": {"kind": kind, "plural": plural}, "scope": "Namespaced", **spec}
    version = "apiextensions.k8s.io/v1"
    return manifest("CustomResourceDefinition", f"{plural}.{group}", version, None, annotations, spec=told)


def webhook(service="s", resources=("things",), groups=("own.io",), annotations=None, **more):
    rule = {"apiGroups": list(groups), "apiVersions": ["*"], "operations": ["CREATE"], "resources": list(resources)}
    told = {
        "name": "w.own.io",
        "rules": [rule],
        "clientConfig": {"service": {"name": service, "namespace": "n"}},
        **more,
    }
    version = "admissionregistration.k8s.io/v1"
    return manifest("ValidatingWebhookConfiguration", "w", version, None, annotations, webhooks=[told])


def read(*manifests):
    with tempfile.TemporaryDirectory() as folder:
        path = pathlib.Path(folder) / "all.json"
        path.write_text(json.dumps({"apiVersion": "v1", "kind": "List", "items": list(manifests)}))
        return input.read_manifests([str(path)], "default")


def imported(*manifests, **options):
    """The shape of the universe of manifests, and the notes but that on namespaces."""
    document, notes = kubernetes.universe(read(*manifests), **options)
    return shape(document), [note for note in notes if not note.startswith("namespaces that are not here")]


def needs_of(found, key):
    """What the last state of a type requires."""
    return [word[1:] for word in found[key][-1].split() if word.startswith("-")]


class ObjectsTest(unittest.TestCase):
    def test_there_or_not(self):
        found, notes = imported(manifest("ConfigMap", "c"), manifest("Namespace", "n", namespace=None))
        expected = {
            "ConfigMap/n/c": ["absent > there", "there +ConfigMap/n/c -Namespace/n > absent"],
            "Namespace/n": ["absent > there", "there +Namespace/n > absent"],
            "manifests": ["down > up", "up -ConfigMap/n/c -Namespace/n > down"],
        }
        self.assertEqual((found, notes), (expected, []))

    def test_a_workload_is_applied_and_then_ready(self):
        pod = {
            "serviceAccountName": "a",
            "priorityClassName": "high",
            "imagePullSecrets": [{"name": "elsewhere"}],
            "volumes": [
                {"name": "1", "secret": {"secretName": "s1"}},
                {"name": "2", "configMap": {"name": "c1", "items": [{"key": "k"}]}},
                {"name": "3", "persistentVolumeClaim": {"claimName": "p1"}},
                {
                    "name": "4",
                    "projected": {"sources": [{"secret": {"name": "s2"}}, {"configMap": {"name": "kube-root-ca.crt"}}]},
                },
                {"name": "5", "secret": {"secretName": "s3", "optional": True}},
                {"name": "6", "emptyDir": {}},
            ],
            "containers": [
                {
                    "name": "x",
                    "envFrom": [{"configMapRef": {"name": "c2"}}, {"secretRef": {"name": "s4", "optional": True}}],
                    "env": [
                        {"name": "A", "valueFrom": {"secretKeyRef": {"name": "s5", "key": "k"}}},
                        {"name": "B", "valueFrom": {"fieldRef": {"fieldPath": "x"}}},
                        {"name": "C", "value": "c"},
                    ],
                }
            ],
        }
        found, notes = imported(workload(**pod))
        self.assertEqual(found["Deployment/n/w"][:2], ["absent > applied", "applied > ready > absent"])
        expected = "ServiceAccount/n/a PriorityClass/high Secret/n/s1 ConfigMap/n/c1 PersistentVolumeClaim/n/p1 Secret/n/s2 ConfigMap/n/c2 Secret/n/s5"
        self.assertEqual(needs_of(found, "Deployment/n/w"), expected.split())
        reason = "Deployment/n/w needs ServiceAccount/n/a, which nothing here gives: there will be no plan, unless it is given"
        self.assertEqual(notes[0], reason)
        self.assertEqual(len(notes), 8)

    def test_kinds_of_workloads(self):
        pod = {"volumes": [{"name": "1", "secret": {"secretName": "s"}}]}
        for kind, last in (("StatefulSet", "ready"), ("DaemonSet", "ready"), ("Job", "complete")):
            found, _ = imported(workload(kind, **pod))
            self.assertEqual(found[f"{kind}/n/w"][2], f"{last} +{kind}/n/w -Secret/n/s > applied")
        found, _ = imported(workload(replicas=0, **pod))
        self.assertEqual(needs_of(found, "Deployment/n/w"), [])

    def test_a_key_that_an_object_lacks(self):
        env = [{"name": "A", "valueFrom": {"secretKeyRef": {"name": "s", "key": key}}} for key in ("there", "gone")]
        secret = manifest("Secret", "s", stringData={"there": "x"})
        found, notes = imported(secret, workload(containers=[{"name": "c", "env": env}]))
        self.assertEqual(needs_of(found, "Deployment/n/w"), ["Secret/n/s", "Secret/n/s@gone"])
        self.assertEqual(len(notes), 1)
        _, notes = imported(manifest("Secret", "s"), workload(containers=[{"name": "c", "env": env}]))
        self.assertEqual(notes, [])

    def test_what_is_better_there_first_is_never_missing(self):
        binding = manifest(
            "RoleBinding",
            "b",
            "rbac.authorization.k8s.io/v1",
            roleRef={"kind": "Role", "name": "r"},
            subjects=[{"kind": "ServiceAccount", "name": "a"}],
        )
        role = manifest("Role", "r", "rbac.authorization.k8s.io/v1")
        account = manifest("ServiceAccount", "a")
        found, notes = imported(binding, role, account, workload(serviceAccountName="a"))
        self.assertEqual(needs_of(found, "RoleBinding/n/b"), ["Role/n/r", "ServiceAccount/n/a"])
        self.assertEqual(needs_of(found, "Deployment/n/w"), ["ServiceAccount/n/a", "RoleBinding/n/b"])
        found, notes = imported(binding)
        self.assertEqual((needs_of(found, "RoleBinding/n/b"), len(notes)), ([], 1))
        self.assertTrue(notes[0].endswith("RoleBinding/n/b names Role/n/r, which is not here"))

    def test_a_secret_that_a_controller_makes(self):
        certificate = manifest("Certificate", "c", "cert-manager.io/v1", spec={"secretName": "tls"})
        found, _ = imported(
            certificate,
            workload(volumes=[{"name": "1", "secret": {"secretName": "tls"}}]),
            given=["kind/Certificate.cert-manager.io"],
        )
        self.assertEqual(found["Certificate/n/c"][1], "there +Certificate/n/c +Secret/n/tls > absent")

    def test_a_job_that_is_not_to_run(self):
        told = job()
        told["spec"]["suspend"] = True
        found, _ = imported(told)
        self.assertEqual(found["Job/n/j"][2], "complete > applied")
        self.assertEqual(found["manifests"], ["down > up", "up > down"])


class CustomTest(unittest.TestCase):
    def test_a_resource_needs_its_definition_established(self):
        found, _ = imported(definition(), manifest("Thing", "t", "own.io/v1"))
        name = "CustomResourceDefinition/things.own.io"
        self.assertEqual(
            found[name],
            ["absent > applied", "applied > established > absent", f"established +{name} +kind/Thing.own.io > applied"],
        )
        self.assertEqual(found["Thing/n/t"][1], "there +Thing/n/t -kind/Thing.own.io > absent")

    def test_no_definition(self):
        found, notes = imported(manifest("Thing", "t", "own.io/v1"))
        reason = "Thing/n/t needs kind/Thing.own.io, which no definition here brings: there will be no plan, unless it is given"
        self.assertEqual(notes, [reason])
        _, notes = imported(manifest("Thing", "t", "own.io/v1"), given=["kind/Thing.own.io"])
        self.assertEqual(notes, [])

    def test_a_group_that_a_service_brings(self):
        api = manifest(
            "APIService",
            "v1.agg.io",
            "apiregistration.k8s.io/v1",
            None,
            spec={"group": "agg.io", "service": {"name": "s", "namespace": "n"}},
        )
        found, _ = imported(api, service(app="a"), workload(labels={"app": "a"}), manifest("Report", "r", "agg.io/v1"))
        self.assertEqual(needs_of(found, "APIService/v1.agg.io"), ["Service/n/s", "Service/n/s@endpoints"])
        self.assertEqual(needs_of(found, "Report/n/r"), ["APIService/v1.agg.io"])

    def test_two_groups_with_one_kind(self):
        found, _ = imported(manifest("Job", "a", "batch/v1", spec={"template": {}}), manifest("Job", "a", "own.io/v1"))
        self.assertEqual(sorted(found), ["Job.own.io/n/a", "Job/n/a", "manifests"])

    def test_cluster_scope_by_the_definition(self):
        found, _ = imported(definition(scope="Cluster"), manifest("Thing", "t", "own.io/v1", None))
        self.assertIn("Thing/t", found)


class WaitsTest(unittest.TestCase):
    def waited(self, *words, **settings):
        found, _ = imported(
            service("db", app="db"),
            workload("StatefulSet", "db", {"app": "db"}),
            service("own", app="own"),
            job("migrate"),
            workload("Deployment", "w", {"app": "own"}, **waiting(*words, **settings)),
        )
        return needs_of(found, "Deployment/n/w")

    def test_services(self):
        both = ["Service/n/db", "Service/n/db@endpoints"]
        for words in (
            ("sh", "-c", "until nc -z db 5432; do sleep 1; done"),
            ("sh", "-c", "until pg_isready -q -h db -U shop; do :; done"),
            ("wait-for-it", "db:5432", "--", "true"),
            ("curl", "http://user@db.n.svc.cluster.local:80/health"),
            ("dockerize", "-wait=tcp://db:5432"),
            ("run", "--host=db"),
        ):
            self.assertEqual(self.waited(*words), both, words)
        for words in (("sh", "-c", "until nslookup db.n; do :; done"), ("getent", "hosts", "db"), ("dig", "+short", "db")):
            self.assertEqual(self.waited(*words), ["Service/n/db"], words)
        self.assertEqual(self.waited("wait", DB_HOST="db"), both)
        self.assertEqual(self.waited("wait", DATABASE="postgres://u:p@db/x"), both)

    def test_what_is_no_service(self):
        for words in (
            ("cp", "/db", "/x"),
            ("psql", "-d", "db"),
            ("psql", "--dbname=db"),
            ("nc", "-z", "db.other", "1"),
            ("nc", "own", "80"),
            ("ls", "./db", "db/x"),
        ):
            self.assertEqual(self.waited(*words), [], words)
        self.assertEqual(self.waited("wait", POSTGRES_DB="db"), [])

    def test_objects(self):
        for words in (
            ("kubectl", "wait", "--for=condition=complete", "job/migrate"),
            ("wait-for", "job", "migrate"),
            ("sh", "-c", "kubectl wait jobs.batch/migrate"),
        ):
            self.assertEqual(self.waited(*words), ["Job/n/migrate"], words)
        self.assertEqual(self.waited("kubectl", "wait", "job/other"), [])
        for words in (("kubectl", "wait", "pod", "-l", "app=db"), ("k8s-wait-for", "pod", "-lapp=db")):
            self.assertEqual(self.waited(*words), ["StatefulSet/n/db"], words)

    def test_a_container_that_goes_on_beside_the_others_waits_for_nobody(self):
        container = {"name": "s", "restartPolicy": "Always", "args": ["db:5432"]}
        found, _ = imported(service("db", app="db"), workload(initContainers=[container]))
        self.assertEqual(needs_of(found, "Deployment/n/w"), [])

    def test_a_service_without_pods_behind_it(self):
        found, notes = imported(service("db", app="db"), workload(**waiting("db:1")))
        self.assertEqual(len(notes), 2)
        self.assertRegex(notes[0], "^Deployment/n/w needs Service/n/db@endpoints, which nothing here gives")
        self.assertTrue(notes[1].endswith("Service/n/db selects pods that no workload here makes"))
        found, notes = imported(service("db"), workload(**waiting("db:1")))
        self.assertEqual((needs_of(found, "Deployment/n/w"), notes), (["Service/n/db"], []))


class WebhookTest(unittest.TestCase):
    BEHIND = (service(app="a"), workload(name="behind", labels={"app": "a"}), definition())
    ANSWER = ["Service/n/s", "Service/n/s@endpoints"]

    def needs(self, hook, *more, key="Thing/n/t"):
        found, _ = imported(*self.BEHIND, hook, manifest("Thing", "t", "own.io/v1", labels={"l": "1"}), *more)
        return [need for need in needs_of(found, key) if not need.startswith("kind/")]

    def test_what_it_is_asked_about_needs_the_service_behind_it(self):
        self.assertEqual(self.needs(webhook()), self.ANSWER)
        self.assertEqual(self.needs(webhook(), key="ValidatingWebhookConfiguration/w"), self.ANSWER)

    def test_what_it_is_not_asked_about(self):
        for hook in (
            webhook(failurePolicy="Ignore"),
            webhook(resources=["others"]),
            webhook(groups=["other.io"]),
            webhook(objectSelector={"matchLabels": {"l": "2"}}),
            webhook(objectSelector={"matchExpressions": [{"key": "l", "operator": "DoesNotExist"}]}),
            webhook(namespaceSelector={"matchLabels": {"kubernetes.io/metadata.name": "m"}}),
            webhook(clientConfig={"url": "https://x"}),
        ):
            self.assertEqual(self.needs(hook), [])

    def test_the_labels_of_a_namespace(self):
        hook = webhook(
            namespaceSelector={"matchExpressions": [{"key": "skip", "operator": "NotIn", "values": ["yes"]}]}
        )
        self.assertEqual(
            self.needs(hook, manifest("Namespace", "n", namespace=None, labels={"skip": "yes"})), ["Namespace/n"]
        )
        self.assertEqual(self.needs(hook, manifest("Namespace", "n", namespace=None)), ["Namespace/n", *self.ANSWER])

    def test_pods(self):
        other = workload(name="other")
        self.assertEqual(
            self.needs(webhook(resources=["pods"], groups=[""]), other, key="Deployment/n/other"), self.ANSWER
        )

    def test_what_the_service_stands_on_is_there_before(self):
        hook = webhook(resources=["*"], groups=["*"])
        self.assertEqual(self.needs(hook, key="Deployment/n/behind"), [])
        self.assertEqual(self.needs(hook, manifest("Namespace", "n", namespace=None), key="Namespace/n"), [])

    def test_unless_a_later_wave_brings_it(self):
        hook = webhook(resources=["pods"], groups=[""], annotations={"argocd.argoproj.io/sync-wave": "-1"})
        self.assertEqual(self.needs(hook, key="Deployment/n/behind"), ["step/1", *self.ANSWER])

    def test_a_conversion(self):
        conversion = {"strategy": "Webhook", "webhook": {"clientConfig": {"service": {"name": "s", "namespace": "n"}}}}
        stanzas = service(app="a"), workload(name="behind", labels={"app": "a"}), definition(conversion=conversion)
        found, _ = imported(*stanzas, manifest("Thing", "t", "own.io/v1"))
        self.assertEqual(needs_of(found, "Thing/n/t"), ["kind/Thing.own.io", *self.ANSWER])

    def test_conditions_are_not_looked_at(self):
        found, notes = imported(*self.BEHIND, webhook(matchConditions=[{"name": "x", "expression": "true"}]))
        self.assertEqual(
            notes,
            [
                "ValidatingWebhookConfiguration/w: matchConditions are not looked at, so it is taken to be asked about nothing"
            ],
        )

    def test_plurals(self):
        kinds = {
            "Pod": "pods",
            "Ingress": "ingresses",
            "NetworkPolicy": "networkpolicies",
            "Gateway": "gateways",
            "Endpoints": "endpoints",
        }
        for kind, plural in kinds.items():
            self.assertEqual(webhooks.plural_of(kind), plural)


def hooked(*hooks, weight="0"):
    return {"helm.sh/hook": ",".join(hooks), "helm.sh/hook-weight": weight}


class StepsTest(unittest.TestCase):
    def test_helm_runs_hooks_one_by_one(self):
        found, _ = imported(
            job("second", hooked("pre-install", weight="1")),
            job("first", hooked("pre-install", "pre-upgrade", weight="-1")),
            manifest("ConfigMap", "c"),
            job("last", hooked("post-install")),
        )
        self.assertEqual(needs_of(found, "step/1"), ["Job/n/first"])
        self.assertEqual(needs_of(found, "step/2"), ["step/1", "Job/n/second"])
        self.assertEqual(needs_of(found, "step/3"), ["step/2", "ConfigMap/n/c"])
        self.assertEqual(needs_of(found, "Job/n/last"), ["step/3"])

    def test_helm_goes_on_once_all_is_applied(self):
        stanzas = workload(), job("own"), job("last", hooked("post-install"))
        found, _ = imported(*stanzas)
        self.assertEqual(found["Deployment/n/w"], ["absent > applied", "applied +Deployment/n/w@applied > absent"])
        self.assertEqual(
            found["Deployment/n/w@ready"],
            ["awaited > ready", "ready +Deployment/n/w -Deployment/n/w@applied > awaited"],
        )
        self.assertEqual(needs_of(found, "step/1"), ["Deployment/n/w@applied", "Job/n/own@applied"])
        found, _ = imported(*stanzas, waits=True)
        self.assertEqual(needs_of(found, "step/1"), ["Deployment/n/w", "Job/n/own@applied"])

    def test_hooks_that_an_installation_does_not_run(self):
        found, notes = imported(manifest("ConfigMap", "c"), job("t", hooked("test")), job("d", hooked("pre-delete")))
        self.assertEqual(sorted(found), ["ConfigMap/n/c", "manifests"])
        self.assertEqual(notes, ["hooks that an installation does not run, left out: Job/n/t, Job/n/d"])

    def test_waves_of_argo(self):
        def wave(number, **more):
            return {"argocd.argoproj.io/sync-wave": number, **more}

        found, _ = imported(
            workload(name="b", annotations=wave("1")),
            workload(name="a"),
            manifest("ConfigMap", "c", annotations=wave("-1")),
            job("before", {"argocd.argoproj.io/hook": "PreSync"}),
            job("behind", hooked("post-upgrade", weight="3")),
        )
        self.assertEqual(needs_of(found, "step/1"), ["Job/n/before"])
        self.assertEqual(needs_of(found, "step/2"), ["step/1", "ConfigMap/n/c"])
        self.assertEqual(needs_of(found, "step/3"), ["step/2", "Deployment/n/a"])
        self.assertEqual(needs_of(found, "Deployment/n/b"), ["step/3"])
        self.assertEqual(needs_of(found, "Job/n/behind"), ["step/4"])

    def test_what_a_later_step_brings_is_not_better_there_first(self):
        pull = {"imagePullSecrets": [{"name": "s"}]}
        found, _ = imported(workload(**pull), manifest("Secret", "s", annotations=hooked("post-install")))
        self.assertEqual(needs_of(found, "Deployment/n/w@ready"), ["Deployment/n/w@applied"])


class GivenTest(unittest.TestCase):
    POD = {"volumes": [{"name": "1", "secret": {"secretName": "s"}}]}

    def test_what_the_cluster_has_is_needed_of_nobody(self):
        for stanzas in ((workload(**self.POD),), (workload(**self.POD), manifest("Secret", "s"))):
            found, notes = imported(*stanzas, given=["Secret/n/s"])
            self.assertEqual((sorted(found), notes), (["Deployment/n/w", "manifests"], []))
            self.assertEqual(needs_of(found, "Deployment/n/w"), [])

    def test_names_as_kubectl_takes_them(self):
        stanzas = workload(**self.POD), manifest("Thing", "t", "own.io/v1")
        for names in (
            ["secret/s", "crd/things.own.io"],
            ["secrets/n/s", "customresourcedefinitions/things.own.io"],
            ["Secret/s", "kind/Thing.own.io"],
        ):
            found, notes = imported(*stanzas, given=names)
            self.assertEqual((needs_of(found, "Deployment/n/w"), needs_of(found, "Thing/n/t"), notes), ([], [], []))

    def test_a_service_stands_with_what_answers(self):
        found, notes = imported(
            definition(), webhook("away"), manifest("Thing", "t", "own.io/v1"), given=["Service/n/away"]
        )
        self.assertEqual((needs_of(found, "Thing/n/t"), notes), (["kind/Thing.own.io"], []))

    def test_a_name_that_nothing_has(self):
        with self.assertRaises(Refused) as caught:
            imported(manifest("Secret", "s"), given=["Secret/n/t"])
        self.assertEqual(str(caught.exception), "--given Secret/n/t: no object here has this name or needs it")

    def test_all_is_given(self):
        with self.assertRaises(Refused):
            imported(manifest("Secret", "s"), given=["Secret/n/s"])


class RefusedTest(unittest.TestCase):
    def refused(self, *manifests):
        with self.assertRaises(Refused) as caught:
            imported(*manifests)
        return str(caught.exception).rpartition(".json: ")[2]

    def test_what_is_no_manifest(self):
        for told, reason in (
            ({"a": 1}, "no kind of objects: None"),
            ({"kind": ["x"]}, "no kind of objects: ['x']"),
            ({"kind": "Pod"}, "Pod without an apiVersion: None"),
            ({"kind": "Pod", "apiVersion": "v1", "metadata": {"name": "../x"}}, "Pod without a name that is one: ../x"),
            ({"kind": "Pod", "apiVersion": "v1", "metadata": 3}, "Pod: 'metadata' is no mapping"),
            (manifest("Pod", namespace="a/b"), "Pod/x in no namespace that is one: a/b"),
        ):
            self.assertEqual(self.refused(told), reason)

    def test_values_of_other_forms(self):
        self.assertEqual(self.refused(workload(volumes="x")), "Deployment/n/w: 'volumes' is no list")
        self.assertEqual(
            self.refused(workload(volumes=["x"])), "Deployment/n/w: 'volumes' has an entry that is no mapping"
        )
        self.assertEqual(
            self.refused(workload(serviceAccountName=["x"])), "Deployment/n/w: 'serviceAccountName' is no text"
        )
        told = manifest("ConfigMap", annotations={"argocd.argoproj.io/sync-wave": "first"})
        self.assertEqual(self.refused(told), "ConfigMap/n/x: argocd.argoproj.io/sync-wave is no whole number: first")

    def test_an_object_that_stands_twice(self):
        self.assertEqual(self.refused(manifest("ConfigMap"), manifest("ConfigMap")), "ConfigMap/n/x stands twice")

    def test_no_manifests(self):
        self.assertRegex(self.refused(), "no manifests$")

    def test_a_namespace_that_is_none(self):
        with self.assertRaisesRegex(Refused, "^--namespace a/b: no name of a namespace$"):
            input.read_manifests(["x"], "a/b")

    def test_too_many(self):
        stanzas = [manifest("ConfigMap", f"c{number}") for number in range(1001)]
        self.assertEqual(self.refused(*stanzas), "1001 objects, and Metis takes at most 2000 pairs of type and state")


class NamesTest(unittest.TestCase):
    def test_names_that_are_made(self):
        told = [{"apiVersion": "v1", "kind": "Pod", "metadata": {"generateName": "run-"}, "spec": {}} for _ in range(2)]
        found, _ = imported(*told)
        self.assertEqual(sorted(found), ["Pod/default/run1", "Pod/default/run2", "manifests"])

    def test_where_objects_lie_that_name_no_namespace(self):
        found, _ = imported(
            manifest("ConfigMap", namespace=None), manifest("ClusterRole", "r", "rbac.authorization.k8s.io/v1", None)
        )
        self.assertEqual(sorted(found), ["ClusterRole/r", "ConfigMap/default/x", "manifests"])


@unittest.skipUnless(yaml, "PyYAML is not there")
class ExamplesTest(unittest.TestCase):
    def test_the_examples_lack_what_they_are_said_to(self):
        missing = {
            "certificates-faulty.yaml": ["Secret/certs/webhook-tls"],
            "monitoring.yaml": ["kind/ServiceMonitor.monitoring.example.com"],
            "shop-faulty.yaml": ["Secret/shop/db-login"] * 2,
        }
        for path in sorted(EXAMPLES.glob("*.yaml")):
            manifests = input.read_manifests([str(path)], "default")
            needs = kubernetes.needs_of(manifests, (), False)
            self.assertEqual([port for _, port in needs.missing()], missing.get(path.name, []), path.name)
