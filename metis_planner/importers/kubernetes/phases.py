"""The order in which Helm or Argo CD applies manifests: hooks with weights, and waves, as steps one after the other."""

import re
from collections.abc import Sequence
from typing import Any

from metis_planner.answers import Refused
from metis_planner.importers.kubernetes.input import Manifest

HELM_HOOK, HELM_WEIGHT = "helm.sh/hook", "helm.sh/hook-weight"
HELM_DELETION, ON_SUCCESS = "helm.sh/hook-delete-policy", "hook-succeeded"
ARGO_HOOK, ARGO_WAVE = "argocd.argoproj.io/hook", "argocd.argoproj.io/sync-wave"
BEFORE, MAIN, AFTER = 0, 1, 2
PHASES_OF_HELM = {"pre-install": BEFORE, "crd-install": BEFORE, "post-install": AFTER}
# Argo CD does not tell an installation from an upgrade.
PHASES_OF_HELM_IN_ARGO = {**PHASES_OF_HELM, "pre-upgrade": BEFORE, "post-upgrade": AFTER}
PHASES_OF_ARGO = {"PreSync": BEFORE, "Sync": MAIN, "PostSync": AFTER}
# The order in which Helm installs kinds, which hooks of one weight and name keep; others come behind, by their names.
INSTALL_ORDER_OF_HELM = (
    "PriorityClass Namespace NetworkPolicy ResourceQuota LimitRange PodSecurityPolicy PodDisruptionBudget ServiceAccount Secret "
    "ConfigMap StorageClass PersistentVolume PersistentVolumeClaim CustomResourceDefinition ClusterRole ClusterRoleBinding Role "
    "RoleBinding Service DaemonSet Pod ReplicationController ReplicaSet Deployment HorizontalPodAutoscaler StatefulSet Job CronJob "
    "IngressClass Ingress APIService MutatingWebhookConfiguration ValidatingWebhookConfiguration"
).split()
WHOLE = re.compile(r"[-+]?[0-9]{1,9}")


class Steps:
    """The steps in which objects are applied: those of one step at once, and each step when the one before it is done.

    What a step waits for differs. Argo CD, and Helm with its hooks, go on when all of a step is healthy or complete. Helm
    goes on from what is no hook as soon as it is applied, unless it is to wait.
    """

    def __init__(self, manifests: Sequence[Manifest], waits: bool) -> None:
        self.is_argo = any(ARGO_HOOK in each.annotations or ARGO_WAVE in each.annotations for each in manifests)
        self.left_out: list[Manifest] = []
        # A phase, and what orders the objects in it; an importer knows no more of it.
        ranks: dict[str, tuple[Any, ...]] = {}
        for manifest in manifests:
            rank = rank_in_argo(manifest) if self.is_argo else rank_in_helm(manifest)
            if rank is None:
                self.left_out.append(manifest)
            else:
                ranks[manifest.key] = rank
        self.ranks = sorted(set(ranks.values()))
        place = {rank: at for at, rank in enumerate(self.ranks)}
        self.step_of = {key: place[rank] for key, rank in ranks.items()}
        self.waits = waits

    def __len__(self) -> int:
        return len(self.ranks)

    def is_enough_applied(self, manifest: Manifest) -> bool:
        """Whether the step behind that of an object begins when this one is applied, and not when it is well.

        Argo CD waits for all. Helm waits for the jobs and pods of its hooks, and for what is no hook only on request,
        and not for jobs then.
        """
        if self.is_argo:
            return False
        if self.phase(manifest) != MAIN:
            return manifest.kind not in ("Job", "Pod")
        return not self.waits or manifest.kind in ("Job", "APIService")

    def is_last(self, manifest: Manifest) -> bool:
        return self.step_of[manifest.key] == len(self) - 1

    def phase(self, manifest: Manifest) -> int:
        phase: int = self.ranks[self.step_of[manifest.key]][0]
        return phase

    def is_gone_for(self, manifest: Manifest, other: Manifest) -> bool:
        """Whether Helm has deleted a hook when another object comes: behind all hooks of its phase, if it is to.

        A hook of several phases is made again in each of them, before the hooks that come behind it there.
        """
        if self.is_argo or ON_SUCCESS not in hooks_of(manifest, HELM_DELETION) or self.phase(manifest) >= self.phase(other):
            return False
        phases = phases_in_helm(manifest)
        is_made_again = self.phase(other) in phases and place_in_helm(manifest) < place_in_helm(other)
        return bool(phases) and not is_made_again


def hooks_of(manifest: Manifest, key: str) -> list[str]:
    return [word.strip() for word in manifest.annotations.get(key, "").split(",") if word.strip()]


def rank_in_helm(manifest: Manifest) -> tuple[Any, ...] | None:
    """The phase and the place in it; None for a hook that an installation does not run."""
    if not hooks_of(manifest, HELM_HOOK):
        return (MAIN,)
    phases = phases_in_helm(manifest)
    return (min(phases), *place_in_helm(manifest)) if phases else None


def phases_in_helm(manifest: Manifest) -> list[int]:
    """The phases of an installation in which Helm runs a hook."""
    return [PHASES_OF_HELM[hook] for hook in hooks_of(manifest, HELM_HOOK) if hook in PHASES_OF_HELM]


def place_in_helm(manifest: Manifest) -> tuple[Any, ...]:
    """What orders the hooks of a phase, which are run one by one: their weights, then their names, then their kinds."""
    kind = manifest.kind
    is_known = kind in INSTALL_ORDER_OF_HELM and not manifest.is_custom
    at = INSTALL_ORDER_OF_HELM.index(kind) if is_known else len(INSTALL_ORDER_OF_HELM)
    return weight_of(manifest, HELM_WEIGHT), manifest.name, at, kind


def rank_in_argo(manifest: Manifest) -> tuple[Any, ...] | None:
    """The phase and the wave; Helm's hooks and weights count where Argo CD's own are not there."""
    hooks = hooks_of(manifest, ARGO_HOOK)
    phases = [PHASES_OF_ARGO[hook] for hook in hooks if hook in PHASES_OF_ARGO]
    if not hooks:
        hooks = hooks_of(manifest, HELM_HOOK)
        phases = [PHASES_OF_HELM_IN_ARGO[hook] for hook in hooks if hook in PHASES_OF_HELM_IN_ARGO]
    if hooks and not phases:
        return None
    key = ARGO_WAVE if ARGO_WAVE in manifest.annotations else HELM_WEIGHT
    return min(phases, default=MAIN), weight_of(manifest, key)


def weight_of(manifest: Manifest, key: str) -> int:
    told = manifest.annotations.get(key, "0")
    if not WHOLE.fullmatch(told):
        raise Refused(f"{manifest.key}: {key} is no whole number: {told}")
    return int(told)
