"""Reads a stream of Kubernetes' manifests, as `helm template` or `kustomize build` prints it, or lists in JSON."""

import dataclasses
import re
from collections.abc import Iterator, Mapping, Sequence
from typing import Any, NamedTuple

from metis_planner.answers import Refused
from metis_planner.text.documents import MOST_PAIRS
from metis_planner.text.reading import listed, mapping, mapping_at, read_text, values_of

AS_JSON = "`kubectl .. -o json` prints objects as JSON"
KIND = re.compile(r"[A-Za-z](?:[A-Za-z0-9-]{0,61}[A-Za-z0-9])?")
NAME = re.compile(r"[A-Za-z0-9](?:[A-Za-z0-9._:-]{0,251}[A-Za-z0-9])?")
GROUP = re.compile(r"(?:(?P<group>[a-z0-9][a-z0-9.-]{0,251})/)?[a-z][a-z0-9]{0,62}")
# How deep lists may lie in lists.
DEEPEST_LIST = 10
# Each object is two pairs of type and state or more.
MOST_OBJECTS = MOST_PAIRS // 2
BUILT_IN_GROUPS = frozenset(
    ["", "apps", "batch", "autoscaling", "policy", "extensions"]
    + [
        f"{name}.k8s.io"
        for name in (
            "rbac.authorization networking storage apiextensions admissionregistration apiregistration scheduling "
            "coordination certificates discovery events node flowcontrol.apiserver authentication authorization "
            "internal.apiserver resource storagemigration"
        ).split()
    ]
)
WITHOUT_NAMESPACE = frozenset(
    "Namespace Node PersistentVolume ClusterRole ClusterRoleBinding CustomResourceDefinition StorageClass PriorityClass "
    "ValidatingWebhookConfiguration MutatingWebhookConfiguration ValidatingAdmissionPolicy "
    "ValidatingAdmissionPolicyBinding APIService IngressClass RuntimeClass CSIDriver CSINode CertificateSigningRequest "
    "FlowSchema PriorityLevelConfiguration VolumeAttachment PodSecurityPolicy ClusterTrustBundle DeviceClass".split()
)
# Well-known custom kinds that lie in no namespace, where the stream does not define them. All others lie in one.
CUSTOM_WITHOUT_NAMESPACE: Mapping[str, frozenset[str]] = {
    group: frozenset(kinds.split())
    for group, kinds in {
        "apiextensions.crossplane.io": "CompositeResourceDefinition Composition",
        "argoproj.io": "ClusterAnalysisTemplate ClusterWorkflowTemplate",
        "cert-manager.io": "ClusterIssuer",
        "cilium.io": "CiliumClusterwideNetworkPolicy CiliumClusterwideEnvoyConfig CiliumLoadBalancerIPPool CiliumNode",
        "config.openshift.io": "ClusterOperator ClusterVersion",
        "external-secrets.io": "ClusterExternalSecret ClusterPushSecret ClusterSecretStore",
        "fluentbit.fluent.io": "ClusterFilter ClusterFluentBitConfig ClusterInput ClusterMultilineParser ClusterOutput ClusterParser",
        "fluentd.fluent.io": "ClusterFilter ClusterFluentdConfig ClusterInput ClusterOutput",
        "gateway.networking.k8s.io": "GatewayClass",
        "generators.external-secrets.io": "ClusterGenerator",
        "karpenter.sh": "NodeClaim NodePool",
        "kueue.x-k8s.io": "ClusterQueue ResourceFlavor",
        "kyverno.io": "ClusterCleanupPolicy ClusterPolicy",
        "operator.tigera.io": "Installation APIServer",
        "pkg.crossplane.io": "Configuration Function Provider",
        "policies.kubewarden.io": "ClusterAdmissionPolicy PolicyServer",
        "projectcalico.org": "GlobalNetworkPolicy GlobalNetworkSet IPPool",
        "snapshot.storage.k8s.io": "VolumeSnapshotClass VolumeSnapshotContent",
        "spire.spiffe.io": "ClusterSPIFFEID ClusterFederatedTrustDomain ClusterStaticEntry",
        "tekton.dev": "ClusterTask",
        "templates.gatekeeper.sh": "ConstraintTemplate",
        "triggers.tekton.dev": "ClusterInterceptor ClusterTriggerBinding",
        "trust.cert-manager.io": "Bundle",
        "wgpolicyk8s.io": "ClusterPolicyReport",
    }.items()
}


@dataclasses.dataclass(frozen=True, eq=False)
class Manifest:
    """An object as its manifest says it. Its key names it, and is the port that it gives when all is well."""

    key: str
    group: str
    kind: str
    namespace: str  # empty for what lies in none
    name: str
    told: dict[str, Any]
    path: str = ""

    @property
    def spec(self) -> dict[str, Any]:
        return mapping(self.told, "spec", self.key)

    @property
    def labels(self) -> dict[str, str]:
        return texts_of(mapping_at(self.told, "metadata.labels", self.key), self.key)

    @property
    def annotations(self) -> dict[str, str]:
        return texts_of(mapping_at(self.told, "metadata.annotations", self.key), self.key)

    @property
    def is_custom(self) -> bool:
        return self.group not in BUILT_IN_GROUPS


def texts_of(told: Mapping[str, Any], where: str) -> dict[str, str]:
    """A mapping of texts; what is empty is an empty text."""
    for key, value in told.items():
        if value is not None and not isinstance(value, (str, int, float)):
            raise Refused(f"{where}: '{key}' is no text")
    return {key: "" if value is None else str(value) for key, value in told.items()}


def text_at(owner: Mapping[str, Any], key: str, where: str, default: str = "") -> str:
    """The text under a key."""
    told = owner.get(key)
    if told is None:
        return default
    if not isinstance(told, (str, int, float)) or isinstance(told, bool):
        raise Refused(f"{where}: '{key}' is no text")
    return str(told)


def mappings_in(owner: dict[str, Any], key: str, where: str) -> list[dict[str, Any]]:
    """The mappings in the list under a key."""
    found = listed(owner, key, where)
    for each in found:
        if not isinstance(each, dict):
            raise Refused(f"{where}: '{key}' has an entry that is no mapping")
    return found


def listed_texts(owner: dict[str, Any], key: str, where: str) -> list[str]:
    """The texts in the list under a key; a text that stands alone is the one of its list."""
    if isinstance(owner.get(key), str):
        return [owner[key]]
    found = listed(owner, key, where)
    for each in found:
        if not isinstance(each, (str, int, float)):
            raise Refused(f"{where}: '{key}' has an entry that is no text")
    return [str(each) for each in found]


def is_true(owner: Mapping[str, Any], key: str) -> bool:
    return owner.get(key) is True or str(owner.get(key)).lower() == "true"


def read_manifests(paths: Sequence[str], namespace: str) -> list[Manifest]:
    """The objects of all files, in their order; those that name no namespace lie in the one that is named here."""
    if not NAME.fullmatch(namespace):
        raise Refused(f"--namespace {namespace}: no name of a namespace")
    told = [(each, path) for path in paths for each in objects_in(path)]
    if len(told) > MOST_OBJECTS:
        raise Refused(f"{len(told)} objects, and Metis takes at most {MOST_PAIRS} pairs of type and state")
    if not told:
        raise Refused(f"{', '.join(paths)}: no manifests")
    scopes = dict(filter(None, (scope_of(each) for each, _ in told)))
    names = [name_of(each, path, namespace, scopes) for each, path in told]
    groups: dict[str, set[str]] = {}
    for each_name in names:
        groups.setdefault(each_name.kind, set()).add(each_name.group)
    manifests: dict[str, Manifest] = {}
    made: dict[str, int] = {}
    for (group, kind, inside, name), (each, path) in zip(names, told):
        shown = f"{kind}.{group}" if len(groups[kind]) > 1 and group not in BUILT_IN_GROUPS else kind
        key = "/".join(filter(None, (shown, inside, name)))
        if "name" not in each["metadata"]:
            made[key] = made.get(key, 0) + 1
            key = f"{key}{made[key]}"
        if key in manifests:
            raise Refused(f"{path}: {key} stands twice")
        manifests[key] = Manifest(key, group, kind, inside, name, each, path)
    return list(manifests.values())


def objects_in(path: str) -> Iterator[dict[str, Any]]:
    """The objects of a file, those of lists among them, and of lists in these."""
    for value in values_of(read_text(path), path, AS_JSON):
        if value is not None:
            yield from objects_of(value, path, 0)


def objects_of(value: Any, path: str, depth: int) -> Iterator[dict[str, Any]]:
    kind = value.get("kind") if isinstance(value, dict) else None
    if depth == 0 and not isinstance(kind, str):
        raise Refused(f"{path}: a document that is no manifest, since it has no kind")
    if not isinstance(kind, str) or not kind.endswith("List") or not isinstance(value.get("items"), list):
        yield value
        return
    if depth > DEEPEST_LIST:
        raise Refused(f"{path}: lists in lists too deeply")
    for each in mappings_in(value, "items", path):
        yield from objects_of(with_kind_of(value, each), path, depth + 1)


def with_kind_of(typed: dict[str, Any], item: dict[str, Any]) -> dict[str, Any]:
    """An item of a typed list, as `ConfigMapList`, whose items need not say of which kind they are."""
    kind = typed["kind"].removesuffix("List")
    said = {key: value for key, value in item.items() if value is not None}
    return {"apiVersion": typed.get("apiVersion"), "kind": kind, **said} if kind and "kind" not in said else item


def scope_of(told: dict[str, Any]) -> tuple[tuple[str, str], bool] | None:
    """For a definition of custom resources: the group and kind that it defines, and whether these lie in namespaces."""
    if told.get("kind") != "CustomResourceDefinition":
        return None
    spec = mapping(told, "spec", "CustomResourceDefinition")
    names = mapping(spec, "names", "CustomResourceDefinition")
    return (str(spec.get("group")), str(names.get("kind"))), spec.get("scope") != "Cluster"


class Name(NamedTuple):
    group: str
    kind: str
    namespace: str
    name: str


def name_of(told: dict[str, Any], path: str, default: str, scopes: Mapping[tuple[str, str], bool]) -> Name:
    """What names an object."""
    kind, version = told.get("kind"), told.get("apiVersion")
    if not isinstance(kind, str) or not KIND.fullmatch(kind):
        raise Refused(f"{path}: no kind of objects: {kind}")
    group = GROUP.fullmatch(version) if isinstance(version, str) else None
    if not group:
        raise Refused(f"{path}: {kind} without an apiVersion: {version}")
    metadata = mapping(told, "metadata", f"{path}: {kind}")
    told["metadata"] = metadata
    name = text_at(metadata, "name", f"{path}: {kind}") or text_at(metadata, "generateName", f"{path}: {kind}").rstrip(
        "-."
    )
    if not NAME.fullmatch(name):
        raise Refused(f"{path}: {kind} without a name that is one: {name}")
    namespace = text_at(metadata, "namespace", f"{path}: {kind}/{name}")
    if namespace and not NAME.fullmatch(namespace):
        raise Refused(f"{path}: {kind}/{name} in no namespace that is one: {namespace}")
    own = group["group"] or ""
    return Name(own, kind, (namespace or default) if lies_in_one(own, kind, scopes) else "", name)


def lies_in_one(group: str, kind: str, scopes: Mapping[tuple[str, str], bool]) -> bool:
    """Whether objects of a kind lie in namespaces: as its definition says where that is here, else as is known of it."""
    known = WITHOUT_NAMESPACE if group in BUILT_IN_GROUPS else CUSTOM_WITHOUT_NAMESPACE.get(group, frozenset())
    return scopes.get((group, kind), kind not in known)
