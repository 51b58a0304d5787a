"""Single faults over a stream in which nothing is wrong: what never comes up or is refused is a fault, what does half a warning."""

import copy
import unittest
from collections.abc import Callable
from typing import Any

from metis_planner.text.notes import Note
from tests.importers.test_kubernetes import definition, imported, manifest

Told = dict[str, Any]


def container(**more: Any) -> Told:
    return {"name": "c", "image": "i", **more}


def workload(kind: str, name: str, pod: Told, **spec: Any) -> Told:
    version = "batch/v1" if kind in ("Job", "CronJob") else "apps/v1"
    template = {"metadata": {"labels": {"app": name}}, "spec": pod}
    selector = {} if kind in ("Job", "CronJob") else {"selector": {"matchLabels": {"app": name}}}
    told = {"jobTemplate": {"spec": {"template": template}}} if kind == "CronJob" else {"template": template, **selector}
    return manifest(kind, name, version, spec={**told, **spec})


def service(name: str, app: str, **more: Any) -> Told:
    return manifest("Service", name, spec={"selector": {"app": app}, "ports": [{"name": "http", "port": 80, "targetPort": "web"}], **more})


def custom(group: str, kind: str, name: str, **spec: Any) -> Told:
    return manifest(kind, name, f"{group}/v1", spec=spec)


def backend(number: int) -> Told:
    return {"service": {"name": "web", "port": {"number": number}}}


def right() -> dict[str, Told]:
    """A stream in which nothing is wrong, by short names."""
    settings = {"configMapKeyRef": {"name": "settings", "key": "level"}}
    login = {"secretKeyRef": {"name": "login", "key": "password"}}
    sealed = {"secretKeyRef": {"name": "sealed", "key": "token"}}
    fetched = {"secretKeyRef": {"name": "fetched", "key": "key"}}
    env = [{"name": str(number), "valueFrom": each} for number, each in enumerate((settings, login, sealed, fetched))]
    probe = {"httpGet": {"port": "web", "path": "/"}}
    mounts = [{"name": "data", "mountPath": "/data"}]
    web = container(ports=[{"name": "web", "containerPort": 8080}], env=env, readinessProbe=probe, volumeMounts=mounts)
    wait = container(name="wait", command=["sh", "-c", "until nc -z db 5432; do sleep 1; done"])
    found = {
        "account": manifest("ServiceAccount", "web"),
        "role": manifest("Role", "web", "rbac.authorization.k8s.io/v1", rules=[]),
        "binding": manifest(
            "RoleBinding",
            "web",
            "rbac.authorization.k8s.io/v1",
            roleRef={"kind": "Role", "name": "web"},
            subjects=[{"kind": "ServiceAccount", "name": "web", "namespace": "n"}],
        ),
        "settings": manifest("ConfigMap", "settings", data={"level": "info"}),
        "login": manifest("Secret", "login", data={"password": "eA=="}),
        "tls": manifest("Secret", "tls", data={"tls.crt": "eA=="}),
        "claim": manifest("PersistentVolumeClaim", "data", spec={}),
        "web": workload(
            "Deployment",
            "web",
            {
                "serviceAccountName": "web",
                "initContainers": [wait],
                "containers": [web],
                "volumes": [{"name": "data", "persistentVolumeClaim": {"claimName": "data"}}],
            },
        ),
        "db": workload(
            "StatefulSet",
            "db",
            {"containers": [container(ports=[{"name": "web", "containerPort": 5432}], volumeMounts=[{"name": "disk", "mountPath": "/d"}])]},
            serviceName="db",
            volumeClaimTemplates=[{"metadata": {"name": "disk"}, "spec": {}}],
        ),
        "web service": service("web", "web"),
        "db service": service("db", "db", clusterIP="None"),
        "backup": workload("CronJob", "backup", {"restartPolicy": "Never", "containers": [container(env=[{"name": "p", "valueFrom": login}])]}),
        "ingress": manifest(
            "Ingress",
            "front",
            "networking.k8s.io/v1",
            spec={"tls": [{"secretName": "tls"}], "rules": [{"http": {"paths": [{"path": "/", "backend": backend(80)}]}}]},
        ),
        "gateway": custom(
            "gateway.networking.k8s.io", "Gateway", "gate", listeners=[{"tls": {"certificateRefs": [{"name": "tls"}]}}]
        ),
        "route": custom(
            "gateway.networking.k8s.io",
            "HTTPRoute",
            "route",
            parentRefs=[{"name": "gate"}],
            rules=[{"backendRefs": [{"name": "web", "port": 80}]}],
        ),
        "sealed": custom("bitnami.com", "SealedSecret", "sealed", encryptedData={"token": "x"}),
        "store": custom("external-secrets.io", "SecretStore", "store"),
        "fetched": custom(
            "external-secrets.io",
            "ExternalSecret",
            "fetched",
            secretStoreRef={"name": "store", "kind": "SecretStore"},
            target={"name": "fetched"},
            data=[{"secretKey": "key", "remoteRef": {"key": "k"}}],
        ),
        "issuer": custom("cert-manager.io", "Issuer", "ca", selfSigned={}),
        "certificate": custom("cert-manager.io", "Certificate", "site", secretName="site", issuerRef={"name": "ca"}),
        "definition": definition(versions=[{"name": "v1", "served": True}, {"name": "v1beta1", "served": False}]),
        "thing": custom("own.io", "Thing", "thing"),
    }
    return copy.deepcopy(found)


GIVEN = ["kind/" + each for each in (
    "Gateway.gateway.networking.k8s.io HTTPRoute.gateway.networking.k8s.io SealedSecret.bitnami.com SecretStore.external-secrets.io "
    "ExternalSecret.external-secrets.io Issuer.cert-manager.io Certificate.cert-manager.io"
).split()]


def pod(told: Told) -> Told:
    spec: Told = told["spec"]
    template = spec["jobTemplate"]["spec"]["template"] if "jobTemplate" in spec else spec["template"]
    found: Told = template["spec"]
    return found


def put(path: str, value: Any) -> Callable[[dict[str, Told]], None]:
    """Puts a value at a place, as `web.spec.template`; `pod` is the pod of a workload."""

    def spoil(stream: dict[str, Told]) -> None:
        name, *keys = path.split(".")
        at: Any = stream[name]
        for key in keys[:-1]:
            at = pod(at) if key == "pod" else at[int(key)] if key.isdigit() else at[key]
        at[int(keys[-1]) if keys[-1].isdigit() else keys[-1]] = value

    return spoil


def drop(name: str) -> Callable[[dict[str, Told]], None]:
    return lambda stream: stream.__delitem__(name) or None


def noted(stream: dict[str, Told], *given: str) -> list[str]:
    kinds = {f"kind/{each['kind']}.{each['apiVersion'].partition('/')[0]}" for each in stream.values()}
    return imported(*stream.values(), given=[*given, *(each for each in GIVEN if each in kinds)])[1]


def without_things(spoil: Callable[[dict[str, Told]], None]) -> Callable[[dict[str, Told]], None]:
    """Spoils a stream without the objects of which nobody knows whether their controller makes pods."""

    def spoilt(stream: dict[str, Told]) -> None:
        del stream["thing"]
        spoil(stream)

    return spoilt


# What is spoilt, whether it is a fault or there will be no plan, and a part of what is said.
SPOILT: tuple[tuple[str, Callable[[dict[str, Told]], None], bool, str], ...] = (
    ("a misspelt kind", put("web.kind", "Deploymnt"), True, "apps/v1 has no kind Deploymnt"),
    ("a selector that the template lacks", put("web.spec.selector", {"matchLabels": {"app": "wbe"}}), True, "selects its pods by app: wbe"),
    ("a mount without its volume", put("web.pod.volumes", []), True, "mounts data, and has no such volume"),
    ("a mount without its claim", put("db.spec.volumeClaimTemplates", []), True, "mounts disk, and has no such volume"),
    ("a probe of no port", put("web.pod.containers.0.readinessProbe.httpGet.port", "wbe"), True, "probes a port wbe"),
    ("a version that is not served", put("thing.apiVersion", "own.io/v1beta1"), True, "is of version v1beta1, and its definition serves v1"),
    ("a version that is none", put("thing.apiVersion", "own.io/v2"), True, "is of version v2"),
    ("a CronJob's secret", put("backup.pod.containers.0.env.0.valueFrom.secretKeyRef.name", "lgoin"), True, "CronJob/n/backup needs Secret/n/lgoin"),
    ("a CronJob's key", put("backup.pod.containers.0.env.0.valueFrom.secretKeyRef.key", "pass"), True, "CronJob/n/backup needs pass of Secret/n/login"),
    ("a CronJob's account", put("backup.pod.serviceAccountName", "nobody"), True, "CronJob/n/backup needs ServiceAccount/n/nobody"),
    ("a CronJob's volume", put("backup.pod.volumes", [{"name": "v", "configMap": {"name": "no"}}]), True, "CronJob/n/backup needs ConfigMap/n/no"),
    ("a key of a sealed secret", put("sealed.spec.encryptedData", {"tokn": "x"}), True, "needs Secret/n/sealed@token"),
    ("a key of a fetched secret", put("fetched.spec.data.0.secretKey", "kye"), True, "needs Secret/n/fetched@key"),
    ("a key of a ConfigMap", put("settings.data", {"lvl": "info"}), True, "needs ConfigMap/n/settings@level"),
    ("a secret", drop("login"), True, "needs Secret/n/login"),
    ("a claim", drop("claim"), True, "needs PersistentVolumeClaim/n/data"),
    ("an account", drop("account"), True, "needs ServiceAccount/n/web"),
    ("waiting for oneself", put("web.pod.initContainers.0.command", ["sh", "-c", "until nc -z web 80; do sleep 1; done"]), True, "which its own pods alone answer"),
    ("a service that selects nothing", without_things(put("web service.spec.selector", {"app": "wbe"})), False, "Service/n/web selects pods that no workload here makes"),
    ("a named port of no container", put("web service.spec.ports.0.targetPort", "wbe"), False, "leads to a port wbe"),
    ("an ingress's service", put("ingress.spec.rules.0.http.paths.0.backend.service.name", "wbe"), False, "names Service/n/wbe, which is not here"),
    ("an ingress's port", put("ingress.spec.rules.0.http.paths.0.backend", backend(81)), False, "leads to port 81 of Service/n/web"),
    ("an ingress's certificate", put("ingress.spec.tls.0.secretName", "tsl"), False, "names Secret/n/tsl, which is not here"),
    ("a gateway's certificate", put("gateway.spec.listeners.0.tls.certificateRefs.0.name", "tsl"), False, "names Secret/n/tsl"),
    ("a route's gateway", put("route.spec.parentRefs.0.name", "gaet"), False, "names Gateway/n/gaet"),
    ("a route's service", put("route.spec.rules.0.backendRefs.0.name", "wbe"), False, "names Service/n/wbe"),
    ("a route's port", put("route.spec.rules.0.backendRefs.0.port", 81), False, "leads to port 81 of Service/n/web"),
    ("a set's service", put("db.spec.serviceName", "bd"), False, "names Service/n/bd"),
    ("a role", put("binding.roleRef.name", "wbe"), False, "names Role/n/wbe"),
    ("a cluster's role", put("binding.roleRef", {"kind": "ClusterRole", "name": "own-reader"}), False, "names ClusterRole/own-reader"),
    ("an account that gets rights", put("binding.subjects.0.name", "wbe"), False, "names ServiceAccount/n/wbe"),
    ("an issuer", put("certificate.spec.issuerRef.name", "ac"), False, "names Issuer/n/ac"),
    ("a store of secrets", put("fetched.spec.secretStoreRef.name", "sotre"), False, "names SecretStore/n/sotre"),
)


class FaultsTest(unittest.TestCase):
    def test_of_what_is_right_nothing_is_said(self) -> None:
        self.assertEqual(noted(right()), [])

    def test_each_single_fault(self) -> None:
        for name, spoil, is_fault, said in SPOILT:
            with self.subTest(name):
                stream = right()
                spoil(stream)
                found = [note for note in noted(stream) if said in note]
                self.assertTrue(found, noted(stream))
                stops = isinstance(found[0], Note) and found[0].is_fault or "there will be no plan" in found[0]
                self.assertEqual(stops, is_fault)

    def test_what_the_cluster_may_have_is_not_missed(self) -> None:
        stream = right()
        put("binding.roleRef", {"kind": "ClusterRole", "name": "view"})(stream)
        put("certificate.spec.issuerRef", {"name": "letsencrypt", "kind": "ClusterIssuer"})(stream)
        put("ingress.metadata.annotations", {"cert-manager.io/cluster-issuer": "letsencrypt"})(stream)
        put("ingress.spec.tls.0.secretName", "made-by-cert-manager")(stream)
        stream["outside"] = manifest("Service", "outside", spec={"type": "ExternalName", "externalName": "db.example.org"})
        del stream["gateway"]  # a route may belong to one of the cluster
        self.assertEqual(noted(stream), [])

    def test_pods_of_an_operator_may_be_behind_a_service(self) -> None:
        stream = right()
        del stream["thing"]
        stream["made"] = service("prometheus", "prometheus", ports=[{"port": 9090}])
        self.assertEqual(len(noted(stream)), 1)
        stream["operator's"] = custom("monitoring.coreos.com", "Prometheus", "main")
        self.assertEqual(noted(stream, "kind/Prometheus.monitoring.coreos.com"), [])


if __name__ == "__main__":
    unittest.main()
