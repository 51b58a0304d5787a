"""What a pod needs before it runs: secrets, configuration, claims and accounts."""

from collections.abc import Iterator
from typing import Any, NamedTuple

from metis_planner.importers.kubernetes.input import is_true, Manifest, mappings_in, text_at
from metis_planner.text.reading import mapping, mapping_at

# Where the template of its pods lies in an object of each kind.
TEMPLATES = {
    "Deployment": "spec.template",
    "StatefulSet": "spec.template",
    "DaemonSet": "spec.template",
    "ReplicaSet": "spec.template",
    "ReplicationController": "spec.template",
    "Job": "spec.template",
    "CronJob": "spec.jobTemplate.spec.template",
    "Pod": "",
}
# What the cluster makes in each namespace by itself.
MADE_BY_CLUSTER = ("kube-root-ca.crt", "openshift-service-ca.crt")


class Reference(NamedTuple):
    """An object that a pod needs, and perhaps one key of it."""

    kind: str
    namespace: str
    name: str
    key: str = ""
    is_soft: bool = False  # whether the pod runs without it, if with less
    is_looked_up: bool = False  # whether only the address of a service is asked for


def template_of(manifest: Manifest) -> dict[str, Any] | None:
    """The template of a workload's pods, or None for what makes none."""
    path = TEMPLATES.get(manifest.kind) if not manifest.is_custom else None
    if path is None:
        return None
    return mapping_at(manifest.told, path, manifest.key) if path else manifest.told


def pod_spec(manifest: Manifest) -> dict[str, Any]:
    """What a workload says of its pods."""
    return mapping(template_of(manifest) or {}, "spec", manifest.key)


def references(manifest: Manifest) -> Iterator[Reference]:
    """The objects that the pods of a workload need."""
    spec = pod_spec(manifest)
    inside, where = manifest.namespace, manifest.key
    account = text_at(spec, "serviceAccountName", where) or text_at(spec, "serviceAccount", where)
    if account and account != "default":
        yield Reference("ServiceAccount", inside, account)
    for kind, key in (("PriorityClass", "priorityClassName"), ("RuntimeClass", "runtimeClassName")):
        name = text_at(spec, key, where)
        if name and not name.startswith("system-"):
            yield Reference(kind, "", name)
    for each in mappings_in(spec, "imagePullSecrets", where):
        if text_at(each, "name", where):
            yield Reference("Secret", inside, text_at(each, "name", where), is_soft=True)
    for volume in mappings_in(spec, "volumes", where):
        yield from of_volume(volume, inside, where)
    for container in containers(spec, where):
        yield from of_container(container, inside, where)


def containers(spec: dict[str, Any], where: str) -> list[dict[str, Any]]:
    return [*mappings_in(spec, "initContainers", where), *mappings_in(spec, "containers", where)]


def of_volume(volume: dict[str, Any], inside: str, where: str) -> Iterator[Reference]:
    claim = mapping(volume, "persistentVolumeClaim", where)
    if claim:
        yield Reference("PersistentVolumeClaim", inside, text_at(claim, "claimName", where))
    yield from needed("Secret", mapping(volume, "secret", where), "secretName", inside, where)
    yield from needed("ConfigMap", mapping(volume, "configMap", where), "name", inside, where)
    for source in mappings_in(mapping(volume, "projected", where), "sources", where):
        yield from needed("Secret", mapping(source, "secret", where), "name", inside, where)
        yield from needed("ConfigMap", mapping(source, "configMap", where), "name", inside, where)


def needed(kind: str, told: dict[str, Any], key_of_name: str, inside: str, where: str) -> Iterator[Reference]:
    """An object that a volume or an environment takes, with the keys that it takes, unless it may be missing."""
    name = text_at(told, key_of_name, where)
    if not name or is_true(told, "optional") or (kind == "ConfigMap" and name in MADE_BY_CLUSTER):
        return
    keys = [text_at(item, "key", where) for item in mappings_in(told, "items", where)]
    if "key" in told:
        keys.append(text_at(told, "key", where))
    yield Reference(kind, inside, name)
    yield from (Reference(kind, inside, name, key) for key in keys if key)


def of_container(container: dict[str, Any], inside: str, where: str) -> Iterator[Reference]:
    for each in mappings_in(container, "envFrom", where):
        yield from needed("Secret", mapping(each, "secretRef", where), "name", inside, where)
        yield from needed("ConfigMap", mapping(each, "configMapRef", where), "name", inside, where)
    for each in mappings_in(container, "env", where):
        source = mapping(each, "valueFrom", where)
        yield from needed("Secret", mapping(source, "secretKeyRef", where), "name", inside, where)
        yield from needed("ConfigMap", mapping(source, "configMapKeyRef", where), "name", inside, where)


def init_containers(manifest: Manifest) -> list[dict[str, Any]]:
    """The containers that end before the others begin."""
    spec = pod_spec(manifest)
    return [each for each in mappings_in(spec, "initContainers", manifest.key) if each.get("restartPolicy") != "Always"]
