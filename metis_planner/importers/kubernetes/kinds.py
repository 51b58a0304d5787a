"""The kinds of Kubernetes: their milestones, the ports that they give, and what their controllers make."""

from collections.abc import Iterator

from metis_planner.importers.kubernetes.input import Manifest, mappings_in, text_at, texts_of
from metis_planner.importers.kubernetes.pods import template_of
from metis_planner.text.reading import listed, mapping_at

LONG_RUNNING = ("Deployment", "StatefulSet", "DaemonSet", "ReplicaSet", "ReplicationController", "Pod")
# The last milestone of what is more than there: what it is called, beside the state in which it is only applied.
ENDPOINTS, APPLIED = "@endpoints", "@applied"
# Kinds whose controllers make a secret, and where its name stands; else it has that of the object.
SECRETS_OF = {
    ("cert-manager.io", "Certificate"): "spec.secretName",
    ("external-secrets.io", "ExternalSecret"): "spec.target.name",
    ("bitnami.com", "SealedSecret"): "spec.template.metadata.name",
    ("secrets.hashicorp.com", "VaultStaticSecret"): "spec.destination.name",
    ("secrets.hashicorp.com", "VaultDynamicSecret"): "spec.destination.name",
    ("kafka.strimzi.io", "KafkaUser"): "metadata.name",
    ("onepassword.com", "OnePasswordItem"): "metadata.name",
    ("secrets.doppler.com", "DopplerSecret"): "spec.managedSecret.name",
}
# Kinds whose controllers make several secrets, by what stands behind the object's name.
SECRETS_BEHIND = {("postgresql.cnpg.io", "Cluster"): ("-app", "-superuser", "-ca", "-server", "-replication")}


def kind_port(kind: str, group: str) -> str:
    """The port of a kind that a definition brings."""
    return f"kind/{kind}.{group}"


def last_state(manifest: Manifest) -> str | None:
    """The state in which an object is well, behind that in which it is applied; None where that is one."""
    if manifest.is_custom:
        return None
    if manifest.kind == "CustomResourceDefinition":
        return "established"
    if manifest.kind == "APIService":
        return "available"
    if manifest.kind == "Job" or (
        manifest.kind == "Pod" and text_at(manifest.spec, "restartPolicy", manifest.key) in ("Never", "OnFailure")
    ):
        return "complete"
    return "ready" if manifest.kind in LONG_RUNNING else None


def made_secret(manifest: Manifest) -> Iterator[str]:
    """The secret that the controller of a well-known kind makes of an object."""
    path = SECRETS_OF.get((manifest.group, manifest.kind))
    if path is not None:
        owner, _, key = path.rpartition(".")
        name = text_at(mapping_at(manifest.told, owner, manifest.key), key, manifest.key) or manifest.name
        yield f"Secret/{manifest.namespace}/{name}"
    for ending in SECRETS_BEHIND.get((manifest.group, manifest.kind), ()):
        yield f"Secret/{manifest.namespace}/{manifest.name}{ending}"


def keys_of_made_secret(manifest: Manifest) -> list[str] | None:
    """The keys of the secret that a controller makes of an object, where the object says them all."""
    where = manifest.key
    if (manifest.group, manifest.kind) == ("bitnami.com", "SealedSecret"):
        tables = ("encryptedData", "template.data", "template.stringData")
        return [key for table in tables for key in mapping_at(manifest.spec, table, where)]
    if (manifest.group, manifest.kind) == ("external-secrets.io", "ExternalSecret"):
        if listed(manifest.spec, "dataFrom", where) or mapping_at(manifest.spec, "target.template", where):
            return None
        return [text_at(each, "secretKey", where) for each in mappings_in(manifest.spec, "data", where)]
    return None


def pod_labels(manifest: Manifest) -> dict[str, str]:
    template = template_of(manifest)
    return {} if template is None else texts_of(mapping_at(template, "metadata.labels", manifest.key), manifest.key)


def has_pods(manifest: Manifest) -> bool:
    """Whether a workload makes pods: not if it is to have none."""
    return str(manifest.spec.get("replicas", 1)) != "0"
