"""What is wrong with manifests beside the order in which they come: what the API server refuses, what never runs, what does nothing.

Each is a note with its place. A fault is what is refused or never comes up; all else is a warning. Nothing is said of what the
cluster may well have besides: classes, cluster roles of its own, and objects of other namespaces.
"""

import collections
import functools
from collections.abc import Iterator, Mapping
from typing import Any

from metis_planner.importers.kubernetes.input import Manifest, mappings_in, text_at, texts_of
from metis_planner.importers.kubernetes.kinds import LONG_RUNNING, has_pods, made_secret, pod_labels
from metis_planner.importers.kubernetes.kinds_built_in import KINDS_BUILT_IN
from metis_planner.importers.kubernetes.mentions import BINDINGS, note
from metis_planner.importers.kubernetes.needs import Needs, is_early
from metis_planner.importers.kubernetes.pods import containers, pod_spec, references, template_of
from metis_planner.importers.kubernetes.waits import waits
from metis_planner.text.notes import Note
from metis_planner.text.reading import listed, mapping

# Custom kinds that make no pods, by their groups; of others nobody knows which pods their controllers make.
WITHOUT_PODS = frozenset(
    "cert-manager.io acme.cert-manager.io external-secrets.io bitnami.com secrets.hashicorp.com secrets.doppler.com onepassword.com "
    "gateway.networking.k8s.io networking.istio.io security.istio.io telemetry.istio.io traefik.io traefik.containo.us kyverno.io "
    "projectcalico.org cilium.io metallb.io snapshot.storage.k8s.io keda.sh".split()
)
WATCHES_ONLY = frozenset(("ServiceMonitor", "PodMonitor", "PrometheusRule", "Probe"))
GATEWAYS = "gateway.networking.k8s.io"
CERTIFICATES = "cert-manager.io"
ISSUER_ANNOTATIONS = ("cert-manager.io/issuer", "cert-manager.io/cluster-issuer", "kubernetes.io/tls-acme")
ROLES_OF_THE_CLUSTER = ("admin", "edit", "view", "cluster-admin")
PROBES = ("livenessProbe", "readinessProbe", "startupProbe")


class Faults:
    """The faults and warnings of a stream, over what its objects need."""

    def __init__(self, needs: Needs) -> None:
        self.needs = needs
        self.secrets = {port for each in needs.manifests if each.is_custom for port in made_secret(each)}
        self.pods: dict[str, list[Manifest]] = collections.defaultdict(list)
        for each in needs.of_kind(*LONG_RUNNING, "Job", "CronJob"):
            self.pods[each.namespace].append(each)
        self.makes_pods = {each.namespace for each in needs.manifests if may_make_pods(each)}
        self.selected: dict[str, list[Manifest]] = collections.defaultdict(list)
        for each in needs.of_kind(*LONG_RUNNING):
            for service in needs.answered_by(each):
                self.selected[service.key].append(each)

    def notes(self) -> Iterator[Note]:
        for each in self.needs.manifests:
            if each.is_custom:
                yield from self.of_custom(each)
                continue
            yield from of_kind(each)
            if template_of(each) is not None:
                yield from of_template(each)
                yield from self.of_pods(each)
            rule = self.RULES.get(each.kind)
            if rule is not None:
                yield from rule(self, each)

    def is_here(self, key: str) -> bool:
        return key in self.needs.known or self.needs.is_given(key) or key in self.secrets

    def lacking(self, manifest: Manifest, told: Mapping[str, Any], key: str) -> Iterator[Note]:
        """A warning where an object names another one that is not here."""
        if not self.is_here(key):
            yield note(manifest, told, f"{manifest.key} names {key}, which is not here")

    def of_pods(self, manifest: Manifest) -> Iterator[Note]:
        """Pods that wait for themselves, and those of a CronJob, which nothing else waits for."""
        if manifest.kind == "CronJob":
            for each in references(manifest):
                key = "/".join(filter(None, (each.kind, each.namespace, each.name)))
                if each.key and self.needs.lacks(key, each.key):
                    yield fault(manifest, pod_spec(manifest), f"{manifest.key} needs {each.key} of {key}, which does not have it")
                elif not each.key and not each.is_soft and not self.is_here(key):
                    yield fault(manifest, pod_spec(manifest), f"{manifest.key} needs {key}, which nothing gives")
        if not has_pods(manifest):
            return
        own = {service.key: service for service in self.needs.answered_by(manifest)}
        for each in waits(manifest, self.needs.services, self.needs.settings):
            service = own.get(f"{each.kind}/{each.namespace}/{each.name}")
            if service is not None and not is_early(service) and not self.has_mates(manifest, service):
                if not each.is_looked_up or service.spec.get("clusterIP") == "None":
                    reason = f"{manifest.key} waits in an init container for {service.key}, which its own pods alone answer"
                    yield fault(manifest, pod_spec(manifest), reason)

    def has_mates(self, manifest: Manifest, service: Manifest) -> bool:
        """Whether pods of others are behind a service too."""
        return any(each is not manifest for each in self.selected[service.key])

    def of_service(self, manifest: Manifest) -> Iterator[Note]:
        selector = texts_of(mapping(manifest.spec, "selector", manifest.key), manifest.key)
        if not selector or text_at(manifest.spec, "type", manifest.key) == "ExternalName":
            return
        workloads = self.selected[manifest.key]
        if not workloads:
            if self.pods[manifest.namespace] and manifest.namespace not in self.makes_pods:
                yield note(manifest, manifest.spec["selector"], f"{manifest.key} selects pods that no workload here makes")
            return
        named = {name for each in workloads for name, _ in ports_of(each)}
        for port in mappings_in(manifest.spec, "ports", manifest.key):
            target = port.get("targetPort")
            if isinstance(target, str) and not target.isdigit() and target not in named:
                yield note(manifest, port, f"{manifest.key} leads to a port {target}, which no container behind it names")

    def of_ingress(self, manifest: Manifest) -> Iterator[Note]:
        spec, where = manifest.spec, manifest.key
        paths = [path for rule in mappings_in(spec, "rules", where) for path in mappings_in(mapping(rule, "http", where), "paths", where)]
        for backend in (mapping(spec, "defaultBackend", where), *(mapping(path, "backend", where) for path in paths)):
            told = mapping(backend, "service", where)
            service = self.needs.services.get((manifest.namespace, text_at(told, "name", where)))
            port = mapping(told, "port", where)
            if service is not None and port and not has_port(service, port):
                wanted = text_at(port, "name", where) or text_at(port, "number", where)
                yield note(manifest, told, f"{where} leads to port {wanted} of {service.key}, which does not have it")
        if not any(key in manifest.annotations for key in ISSUER_ANNOTATIONS):
            for each in mappings_in(spec, "tls", where):
                if text_at(each, "secretName", where):
                    yield from self.lacking(manifest, each, f"Secret/{manifest.namespace}/{text_at(each, 'secretName', where)}")

    def of_stateful_set(self, manifest: Manifest) -> Iterator[Note]:
        name = text_at(manifest.spec, "serviceName", manifest.key)
        if name:
            yield from self.lacking(manifest, manifest.spec, f"Service/{manifest.namespace}/{name}")

    def of_binding(self, manifest: Manifest) -> Iterator[Note]:
        role = mapping(manifest.told, "roleRef", manifest.key)
        name = text_at(role, "name", manifest.key)
        if text_at(role, "kind", manifest.key) == "Role":
            yield from self.lacking(manifest, role, f"Role/{manifest.namespace}/{name}")
        elif name not in ROLES_OF_THE_CLUSTER and not name.startswith("system:"):
            yield from self.lacking(manifest, role, f"ClusterRole/{name}")
        for subject in mappings_in(manifest.told, "subjects", manifest.key):
            inside = text_at(subject, "namespace", manifest.key) or manifest.namespace
            account = text_at(subject, "name", manifest.key)
            if text_at(subject, "kind", manifest.key) == "ServiceAccount" and account != "default" and self.pods[inside]:
                yield from self.lacking(manifest, subject, f"ServiceAccount/{inside}/{account}")

    def of_custom(self, manifest: Manifest) -> Iterator[Note]:
        """References of well-known custom kinds, and a version that the definition here does not serve."""
        yield from self.of_version(manifest)
        spec, where, inside = manifest.spec, manifest.key, manifest.namespace
        if manifest.group == GATEWAYS:
            yield from self.of_gateway(manifest)
        elif (manifest.group, manifest.kind) == (CERTIFICATES, "Certificate"):
            issuer = mapping(spec, "issuerRef", where)
            name, kind = text_at(issuer, "name", where), text_at(issuer, "kind", where, "Issuer")
            if text_at(issuer, "group", where, CERTIFICATES) == CERTIFICATES and (kind == "Issuer" or kind in self.kinds):
                yield from self.lacking(manifest, issuer, f"{kind}/{inside}/{name}" if kind == "Issuer" else f"{kind}/{name}")
        elif (manifest.group, manifest.kind) == ("external-secrets.io", "ExternalSecret"):
            store = mapping(spec, "secretStoreRef", where)
            if store and text_at(store, "kind", where, "SecretStore") == "SecretStore":
                yield from self.lacking(manifest, store, f"SecretStore/{inside}/{text_at(store, 'name', where)}")

    @functools.cached_property
    def kinds(self) -> frozenset[str]:
        return frozenset(each.kind for each in self.needs.manifests)

    def of_gateway(self, manifest: Manifest) -> Iterator[Note]:
        spec, where, inside = manifest.spec, manifest.key, manifest.namespace
        for listener in mappings_in(spec, "listeners", where):
            for each in mappings_in(mapping(listener, "tls", where), "certificateRefs", where):
                yield from self.named_by(manifest, each, "Secret")
        for each in mappings_in(spec, "parentRefs", where) if "Gateway" in self.kinds else ():
            yield from self.named_by(manifest, each, "Gateway")
        for rule in mappings_in(spec, "rules", where):
            for each in mappings_in(rule, "backendRefs", where):
                yield from self.named_by(manifest, each, "Service")
                service = self.needs.services.get((inside, text_at(each, "name", where)))
                number = text_at(each, "port", where)
                if service is not None and number and "namespace" not in each and not has_port(service, {"number": number}):
                    yield note(manifest, each, f"{where} leads to port {number} of {service.key}, which does not have it")

    def named_by(self, manifest: Manifest, told: dict[str, Any], kind: str) -> Iterator[Note]:
        """A warning for a reference of Gateway API that leads to nothing in the namespace of its object."""
        inside = text_at(told, "namespace", manifest.key) or manifest.namespace
        if inside == manifest.namespace and text_at(told, "kind", manifest.key, kind) == kind:
            yield from self.lacking(manifest, told, f"{kind}/{inside}/{text_at(told, 'name', manifest.key)}")

    def of_version(self, manifest: Manifest) -> Iterator[Note]:
        served = self.served.get((manifest.group, manifest.kind))
        version = str(manifest.told.get("apiVersion")).rpartition("/")[2]
        if served and version not in served:
            yield fault(manifest, manifest.told, f"{manifest.key} is of version {version}, and its definition serves {', '.join(served)}")

    @functools.cached_property
    def served(self) -> dict[tuple[str, str], list[str]]:
        """The versions that the definitions here serve, by group and kind."""
        found = {}
        for each in self.needs.of_kind("CustomResourceDefinition"):
            names = mapping(each.spec, "names", each.key)
            key = text_at(each.spec, "group", each.key), text_at(names, "kind", each.key)
            versions = mappings_in(each.spec, "versions", each.key)
            found[key] = [text_at(version, "name", each.key) for version in versions if version.get("served") is not False]
        return found

    RULES = {
        "Service": of_service,
        "Ingress": of_ingress,
        "StatefulSet": of_stateful_set,
        **dict.fromkeys(BINDINGS, of_binding),
    }


def fault(manifest: Manifest, told: Mapping[str, Any], reason: str) -> Note:
    found = note(manifest, told, reason)
    found.is_fault = True
    return found


def may_make_pods(manifest: Manifest) -> bool:
    """Whether an object of a custom kind may have a controller that makes pods of it."""
    return manifest.is_custom and manifest.group not in WITHOUT_PODS and manifest.kind not in WATCHES_ONLY


def of_kind(manifest: Manifest) -> Iterator[Note]:
    known = KINDS_BUILT_IN.get(manifest.group)
    if known is not None and manifest.kind not in known:
        yield fault(manifest, manifest.told, f"{manifest.key}: {manifest.told['apiVersion']} has no kind {manifest.kind}")


def of_template(manifest: Manifest) -> Iterator[Note]:
    """What the API server refuses of a workload, and a probe of a port that its container does not name."""
    where, labels = manifest.key, pod_labels(manifest)
    selector = {} if manifest.kind == "ReplicationController" else mapping(manifest.spec, "selector", where)
    wanted = texts_of(mapping(selector, "matchLabels", where), where)
    if not wanted.items() <= labels.items():
        name = next(key for key, value in wanted.items() if labels.get(key) != value)
        yield fault(manifest, selector, f"{where} selects its pods by {name}: {wanted[name]}, which their template does not have")
    spec = pod_spec(manifest)
    claims = (mapping(each, "metadata", where) for each in mappings_in(manifest.spec, "volumeClaimTemplates", where))
    volumes = {text_at(each, "name", where) for each in (*mappings_in(spec, "volumes", where), *claims)}
    for container in containers(spec, where):
        for mount in mappings_in(container, "volumeMounts", where):
            if text_at(mount, "name", where) not in volumes:
                yield fault(manifest, mount, f"{where} mounts {text_at(mount, 'name', where)}, and has no such volume")
        yield from of_probes(manifest, container)


def of_probes(manifest: Manifest, container: dict[str, Any]) -> Iterator[Note]:
    where = manifest.key
    named = {text_at(port, "name", where) for port in mappings_in(container, "ports", where)}
    for probe in PROBES:
        told = mapping(container, probe, where)
        for way in ("httpGet", "tcpSocket"):
            port = mapping(told, way, where).get("port")
            if isinstance(port, str) and not port.isdigit() and port not in named:
                yield fault(manifest, told, f"{where} probes a port {port}, which its container does not name")


def ports_of(manifest: Manifest) -> Iterator[tuple[str, str]]:
    """The ports that the containers of a workload say: name and number."""
    spec = pod_spec(manifest)
    for container in containers(spec, manifest.key):
        for port in mappings_in(container, "ports", manifest.key):
            yield text_at(port, "name", manifest.key), text_at(port, "containerPort", manifest.key)


def has_port(service: Manifest, wanted: Mapping[str, Any]) -> bool:
    """Whether a service has a port of this name or number; one that says none is taken to have all."""
    ports = mappings_in(service.spec, "ports", service.key)
    key = "name" if wanted.get("name") else "number"
    own = "name" if key == "name" else "port"
    return not listed(service.spec, "ports", service.key) or any(str(port.get(own)) == str(wanted[key]) for port in ports)
