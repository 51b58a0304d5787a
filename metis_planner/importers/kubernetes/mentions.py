"""What objects name that the cluster does not wait for: better there first, and told where nothing here has that name."""

from collections.abc import Iterable, Iterator, Mapping
from typing import Any, NamedTuple

from metis_planner.importers.kubernetes.input import Manifest, mappings_in, text_at
from metis_planner.importers.kubernetes.kinds import LONG_RUNNING, pod_labels
from metis_planner.importers.kubernetes.pods import references
from metis_planner.importers.kubernetes.webhooks import CONFIGURATIONS, selects
from metis_planner.text.notes import Note
from metis_planner.text.reading import mapping, mapping_at

BINDINGS = ("RoleBinding", "ClusterRoleBinding")


class Mention(NamedTuple):
    """A name that an object says, of another object, and the part of its manifest that says it."""

    key: str
    told: Mapping[str, Any]
    is_needed: bool = False  # whether the object does nothing without the other


def mentions(manifest: Manifest) -> Iterator[Mention]:
    """The objects that one of no pods names."""
    spec, inside, where = manifest.spec, manifest.namespace, manifest.key
    if manifest.kind in BINDINGS:
        yield from of_binding(manifest)
    elif manifest.kind == "Ingress":
        yield Mention(f"IngressClass/{text_at(spec, 'ingressClassName', where)}", spec)
        yield from of_ingress(manifest)
    elif manifest.kind == "PersistentVolumeClaim":
        yield Mention(f"StorageClass/{text_at(spec, 'storageClassName', where)}", spec)
        yield Mention(f"PersistentVolume/{text_at(spec, 'volumeName', where)}", spec)
    elif manifest.kind == "CronJob":
        yield from (Mention("/".join(filter(None, each[:3])), spec) for each in references(manifest))
    elif manifest.kind == "HorizontalPodAutoscaler":
        target = mapping(spec, "scaleTargetRef", where)
        kind, name = text_at(target, "kind", where), text_at(target, "name", where)
        yield Mention(f"{kind}/{inside}/{name}", target, is_needed=kind in LONG_RUNNING)
    elif manifest.kind in CONFIGURATIONS:
        for each in mappings_in(manifest.told, "webhooks", where):
            service = mapping(mapping(each, "clientConfig", where), "service", where)
            if service:
                name = f"{text_at(service, 'namespace', where)}/{text_at(service, 'name', where)}"
                yield Mention(f"Service/{name}", service, is_needed=True)


def of_binding(manifest: Manifest) -> Iterator[Mention]:
    inside, where = manifest.namespace, manifest.key
    role = mapping(manifest.told, "roleRef", where)
    kind, name = text_at(role, "kind", where), text_at(role, "name", where)
    yield Mention(f"{kind}/{inside}/{name}" if kind == "Role" else f"{kind}/{name}", role)
    for subject in mappings_in(manifest.told, "subjects", where):
        account = f"{text_at(subject, 'namespace', where) or inside}/{text_at(subject, 'name', where)}"
        yield Mention(f"ServiceAccount/{account}", subject)


def of_ingress(manifest: Manifest) -> Iterator[Mention]:
    """The services to which an ingress leads, by its rules or where none fits."""
    spec, where = manifest.spec, manifest.key
    backends = [mapping(spec, "defaultBackend", where)]
    for rule in mappings_in(spec, "rules", where):
        for path in mappings_in(mapping(rule, "http", where), "paths", where):
            backends.append(mapping(path, "backend", where))
    for backend in backends:
        service = mapping_at(backend, "service", where)
        name = text_at(service, "name", where)
        if name:
            yield Mention(f"Service/{manifest.namespace}/{name}", service, is_needed=True)


def dangling(manifests: Iterable[Manifest], known: Iterable[str]) -> Iterator[tuple[Manifest, Mention]]:
    """What names an object that is not known, and does nothing without it."""
    there = set(known)
    for manifest in manifests:
        if not manifest.is_custom:
            for each in mentions(manifest):
                if each.is_needed and each.key not in there:
                    yield manifest, each


def notes(manifests: list[Manifest], known: Iterable[str]) -> Iterator[Note]:
    """Notes on what names a service or a workload that is not there, each with its place."""
    for manifest, each in dangling(manifests, known):
        yield note(manifest, each.told, f"{manifest.key} names {each.key}, which is not here")
    workloads: dict[str, list[Manifest]] = {}
    for manifest in manifests:
        if manifest.kind in LONG_RUNNING and not manifest.is_custom:
            workloads.setdefault(manifest.namespace, []).append(manifest)
    for manifest in manifests:
        selector = mapping(manifest.spec, "selector", manifest.key) if manifest.kind == "PodDisruptionBudget" else {}
        of_all = workloads.get(manifest.namespace, ())
        if selector and not any(selects(selector, pod_labels(each), manifest.key) for each in of_all):
            yield note(manifest, selector, f"{manifest.key} is about pods that no workload here makes")


def note(manifest: Manifest, told: Mapping[str, Any], reason: str) -> Note:
    line = getattr(told, "line", None) or getattr(manifest.told, "line", None)
    return Note.at(manifest.path, line, reason)
