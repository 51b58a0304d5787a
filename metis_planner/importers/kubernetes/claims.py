"""Claims of volumes that are bound only when a pod takes them: who waits for one before such a pod comes waits for ever."""

from collections.abc import Iterator, Sequence

from metis_planner.importers.kubernetes.input import Manifest, text_at
from metis_planner.importers.kubernetes.kinds import has_pods
from metis_planner.importers.kubernetes.phases import Steps
from metis_planner.importers.kubernetes.pods import references, template_of

CLAIM, LATE = "PersistentVolumeClaim", "WaitForFirstConsumer"


class Claims:
    """The claims of classes of this stream that bind at the first pod, and the workloads that take them."""

    def __init__(self, manifests: Sequence[Manifest], steps: Steps) -> None:
        self.steps = steps
        known = [each for each in manifests if not each.is_custom]
        self.late = {
            each.name
            for each in known
            if each.kind == "StorageClass" and text_at(each.told, "volumeBindingMode", each.key) == LATE
        }
        self.consumers: dict[str, list[Manifest]] = {}
        for each in known if self.late else ():
            if template_of(each) is not None and has_pods(each):
                for reference in references(each):
                    if reference.kind == CLAIM:
                        key = f"{CLAIM}/{reference.namespace}/{reference.name}"
                        self.consumers.setdefault(key, []).append(each)

    def first_consumer(self, manifest: Manifest) -> Iterator[str]:
        """The workload without which a claim is not bound, where its own step waits for that and no earlier one is there."""
        if manifest.kind != CLAIM or text_at(manifest.spec, "storageClassName", manifest.key) not in self.late:
            return
        if self.steps.is_enough_applied(manifest) or self.steps.is_last(manifest):
            return
        consumers = sorted(self.consumers.get(manifest.key, ()), key=lambda each: self.steps.step_of[each.key])
        own = self.steps.step_of[manifest.key]
        if consumers and self.steps.step_of[consumers[0].key] > own:
            yield consumers[0].key
