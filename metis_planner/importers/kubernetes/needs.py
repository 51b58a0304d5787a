"""What each object of a stream of manifests needs before it is taken by the cluster, and before it is well."""

import collections
import functools
from collections.abc import Iterable, Iterator, Sequence

from metis_planner.answers import Refused
from metis_planner.importers.kubernetes import mentions
from metis_planner.importers.kubernetes.claims import Claims
from metis_planner.importers.kubernetes.input import is_true, Manifest, mappings_in, text_at, texts_of
from metis_planner.importers.kubernetes.kinds import (
    ENDPOINTS,
    has_pods,
    keys_of_made_secret,
    kind_port,
    last_state,
    LONG_RUNNING,
    made_secret,
    pod_labels,
)
from metis_planner.importers.kubernetes.phases import Steps
from metis_planner.importers.kubernetes.pods import pod_spec, Reference, references, template_of
from metis_planner.importers.kubernetes.waits import awaited_labels, check_commands, settings_in, waits
from metis_planner.importers.kubernetes.webhooks import (
    CONFIGURATIONS,
    conversions_of,
    NAME_OF_NAMESPACE,
    plural_of,
    POD,
    Webhook,
    webhooks_of,
)
from metis_planner.text.reading import mapping

MOST_WEBHOOKS = 300
# How often a webhook is asked about an object, and how many needs come of that.
MOST_QUESTIONS = 100_000
MOST_NEEDS = 200_000
# How often a word of a selector or a rule is held against an object.
MOST_COMPARED = 5_000_000
# The kinds that are better there behind what they name.
BEHIND_MENTIONED = (*mentions.BINDINGS, "Ingress", "PersistentVolumeClaim", "CronJob")
# What was there and is deleted again: nothing gives it.
DELETED = "@deleted"
PortsOf = dict[str, list[str]]


class Needs:
    """The ports that each object gives and needs. What the cluster has already is needed of nobody."""

    def __init__(self, manifests: Sequence[Manifest], steps: Steps, given: frozenset[str]) -> None:
        self.manifests = [each for each in manifests if each.key in steps.step_of and each.key not in given]
        self.by_key = {each.key: each for each in self.manifests}
        self.steps = steps
        self.given = given
        self.known = {each.key for each in manifests}
        self.notes: list[str] = []
        self.services = {(each.namespace, each.name): each for each in self.of_kind("Service")}
        self.settings = settings_in(self.of_kind("ConfigMap"))
        self.namespaces = {
            each.name: {NAME_OF_NAMESPACE: each.name, **each.labels} for each in self.of_kind("Namespace")
        }
        self.groups = {text_at(each.spec, "group", each.key): each for each in self.of_kind("APIService")}
        check_commands(self.manifests)
        self.check_selectors()
        self.claims = Claims(self.manifests, steps)
        self.applying: PortsOf = {each.key: list(self.before_it_is_applied(each)) for each in self.manifests}
        self.running: PortsOf = {each.key: list(self.before_it_is_well(each)) for each in self.manifests}
        self.given_by: dict[str, list[Manifest]] = collections.defaultdict(list)
        for each in self.manifests:
            for port in (*self.provided(each), *self.provided_early(each)):
                self.given_by[port].append(each)
        self.ask_webhooks()

    def check_selectors(self) -> None:
        """Refuses a stream in which selectors would have to be held against too many pods."""
        pods = sum(template_of(each) is not None for each in self.manifests)
        chosen = (*self.services.values(), *self.of_kind("PodDisruptionBudget"))
        words = sum(size_of(each.spec.get("selector")) for each in chosen)
        if words * pods > MOST_COMPARED:
            raise Refused(f"selectors of {words} words and {pods} workloads, and at most {MOST_COMPARED} times one is held against one")

    def of_kind(self, *kinds: str) -> list[Manifest]:
        return [each for each in self.manifests if each.kind in kinds and not each.is_custom]

    def is_given(self, port: str) -> bool:
        return port in self.given or port.partition("@")[0] in self.given

    def hard(self, *ports: str) -> list[str]:
        """Ports without which an object does not come on."""
        return [port for port in ports if not self.is_given(port)]

    def still_there(self, manifest: Manifest, key: str) -> list[str]:
        """The port of an object that another one needs; none gives it where Helm has deleted it before."""
        other = self.by_key.get(key)
        is_gone = other is not None and self.steps.is_gone_for(other, manifest)
        return self.hard(key + DELETED if is_gone else key)

    def soft(self, manifest: Manifest, *keys: str) -> list[str]:
        """Those of these objects that are here, and are not applied only later: the cluster would not wait for them."""
        return [
            key
            for key in keys
            if key in self.by_key and key != manifest.key and self.step(key) <= self.step(manifest.key)
        ]

    def step(self, key: str) -> int:
        return self.steps.step_of[key]

    def before_it_is_applied(self, manifest: Manifest) -> Iterator[str]:
        if manifest.namespace:
            yield from self.soft_namespace(manifest)
        if manifest.is_custom:
            service = self.groups.get(manifest.group)
            yield from self.hard(service.key if service else kind_port(manifest.kind, manifest.group))

    def soft_namespace(self, manifest: Manifest) -> list[str]:
        """The namespace of an object, where it is here, also in a later step; else the cluster is taken to have it."""
        key = f"Namespace/{manifest.namespace}"
        return self.hard(key) if key in self.by_key else []

    def before_it_is_well(self, manifest: Manifest) -> Iterator[str]:
        """What an object needs in its last state, which is that of being there for most."""
        if manifest.is_custom:
            return
        if manifest.kind == "APIService":
            service = mapping(manifest.spec, "service", manifest.key)
            if service:
                yield from self.endpoints(
                    text_at(service, "namespace", manifest.key), text_at(service, "name", manifest.key)
                )
        elif template_of(manifest) is not None and manifest.kind != "CronJob":
            if has_pods(manifest):
                yield from self.of_pods(manifest)
        elif manifest.kind in BEHIND_MENTIONED:
            yield from self.soft(manifest, *(each.key for each in mentions.mentions(manifest)))
            yield from self.claims.first_consumer(manifest)

    def of_pods(self, manifest: Manifest) -> Iterator[str]:
        """What the pods of a workload need."""
        for each in references(manifest):
            yield from self.of_reference(manifest, each)
        for each in waits(manifest, self.services, self.settings):
            yield from self.of_wait(manifest, each)
        for pair in awaited_labels(manifest):
            yield from self.hard(*self.labelled(pair, manifest))
        account = text_at(pod_spec(manifest), "serviceAccountName", manifest.key)
        yield from self.soft(manifest, *self.bindings_of((manifest.namespace, account or "default")))
        if manifest.kind == "StatefulSet":
            yield from self.soft(
                manifest, f"Service/{manifest.namespace}/{text_at(manifest.spec, 'serviceName', manifest.key)}"
            )

    def of_reference(self, manifest: Manifest, each: Reference) -> list[str]:
        key = "/".join(filter(None, (each.kind, each.namespace, each.name)))
        if each.is_soft:
            return self.soft(manifest, key)
        if each.key:
            return self.hard(f"{key}@{each.key}") if self.lacks(key, each.key) else []
        return self.still_there(manifest, key)

    def of_wait(self, manifest: Manifest, each: Reference) -> list[str]:
        """What an init container waits for. One that waits for its own service asks for its mates, which answer before."""
        key = "/".join((each.kind, each.namespace, each.name))
        if each.kind != "Service":
            return self.still_there(manifest, key) if key in self.by_key else []
        service = self.services[each.namespace, each.name]
        if each.is_looked_up and service.spec.get("clusterIP") != "None":
            return self.hard(service.key)
        return [] if service in self.answered_by(manifest) else self.endpoints(each.namespace, each.name)

    def labelled(self, pair: tuple[str, str], manifest: Manifest) -> Iterator[str]:
        """The other workloads of a namespace whose pods have a label."""
        yield from (key for key in self.workloads_by_label.get((manifest.namespace, *pair), ()) if key != manifest.key)

    @functools.cached_property
    def workloads_by_label(self) -> dict[tuple[str, str, str], list[str]]:
        """For each namespace and pair of a label the workloads whose pods have it."""
        found: dict[tuple[str, str, str], list[str]] = collections.defaultdict(list)
        for each in self.of_kind(*LONG_RUNNING):
            for key, value in pod_labels(each).items():
                found[each.namespace, key, value].append(each.key)
        return found

    def lacks(self, key: str, entry: str) -> bool:
        """Whether an object is here, or made of one that says its entries, and has some, and not this one."""
        entries = self.entries.get(key, frozenset())
        return bool(entries) and entry not in entries

    @functools.cached_property
    def entries(self) -> dict[str, frozenset[str]]:
        """The entries of each object that has some, and of the secrets that are made of others."""
        found: dict[str, frozenset[str]] = {}
        for each in self.manifests:
            tables = ("data", "stringData", "binaryData") if each.kind in ("Secret", "ConfigMap") else ()
            found[each.key] = frozenset(name for table in tables for name in mapping(each.told, table, each.key))
            keys = keys_of_made_secret(each) if each.is_custom else None
            for secret in made_secret(each) if keys else ():
                found[secret] = frozenset(keys or ())
        return found

    @functools.cached_property
    def bound(self) -> dict[tuple[str, str], list[str]]:
        """For each service account the bindings that give it rights."""
        bound: dict[tuple[str, str], list[str]] = collections.defaultdict(list)
        for each in self.of_kind(*mentions.BINDINGS):
            for subject in mappings_in(each.told, "subjects", each.key):
                inside = text_at(subject, "namespace", each.key) or each.namespace
                bound[inside, text_at(subject, "name", each.key)].append(each.key)
        return bound

    def bindings_of(self, account: tuple[str, str]) -> Iterable[str]:
        return self.bound.get(account, ())

    def endpoints(self, namespace: str, name: str) -> list[str]:
        """What it takes that a service answers: the service, and pods behind it where it selects some."""
        key = f"Service/{namespace}/{name}"
        service = self.services.get((namespace, name))
        if service is not None and not mapping(service.spec, "selector", key):
            return self.hard(key)
        return self.hard(key, key + ENDPOINTS)

    def provided(self, manifest: Manifest) -> Iterator[str]:
        """The ports of an object that is well."""
        yield manifest.key
        if manifest.is_custom:
            yield from made_secret(manifest)
        if manifest.kind == "CustomResourceDefinition" and not manifest.is_custom:
            names = mapping(manifest.spec, "names", manifest.key)
            group = text_at(manifest.spec, "group", manifest.key)
            yield kind_port(text_at(names, "kind", manifest.key), group)
        if last_state(manifest) == "ready":
            yield from (each.key + ENDPOINTS for each in self.answered_by(manifest) if not is_early(each))

    def provided_early(self, manifest: Manifest) -> list[str]:
        """The ports of a workload that is applied, and not ready: services that name also pods that are not."""
        if last_state(manifest) != "ready":
            return []
        return [each.key + ENDPOINTS for each in self.answered_by(manifest) if is_early(each)]

    @functools.cached_property
    def services_by_label(self) -> dict[tuple[str, str, str], list[tuple[Manifest, dict[str, str]]]]:
        """For each namespace and pair of a label the services that select it, each by one of its labels."""
        found: dict[tuple[str, str, str], list[tuple[Manifest, dict[str, str]]]] = collections.defaultdict(list)
        for service in self.services.values():
            selector = texts_of(mapping(service.spec, "selector", service.key), service.key)
            if selector:
                key, value = min(selector.items())
                found[service.namespace, key, value].append((service, selector))
        return found

    def answered_by(self, manifest: Manifest) -> list[Manifest]:
        """The services that select the pods of a workload, if it has some."""
        labels = pod_labels(manifest) if has_pods(manifest) else {}
        return [
            service
            for key, value in labels.items()
            for service, selector in self.services_by_label.get((manifest.namespace, key, value), ())
            if selector.items() <= labels.items()
        ]

    def ask_webhooks(self) -> None:
        """What a webhook is asked about needs its service to answer.

        What the service itself stands on is not asked about, since it is there before the webhook, unless a later step
        brings it.
        """
        webhooks = [webhook for each in self.of_kind(*CONFIGURATIONS) for webhook in webhooks_of(each, self.notes)]
        webhooks += [webhook for each in self.of_kind("CustomResourceDefinition") for webhook in conversions_of(each)]
        if len(webhooks) > MOST_WEBHOOKS:
            raise Refused(f"{len(webhooks)} webhooks, and at most {MOST_WEBHOOKS} are asked")
        if len(webhooks) * len(self.manifests) > MOST_QUESTIONS:
            counts = f"{len(webhooks)} webhooks and {len(self.manifests)} objects"
            raise Refused(f"{counts}, and at most {MOST_QUESTIONS} times one is asked about one")
        words = sum(map(size_of, (part for webhook in webhooks for part in webhook.parts)))
        if words * len(self.manifests) > MOST_COMPARED:
            reason = f"webhooks of {words} words and {len(self.manifests)} objects"
            raise Refused(f"{reason}, and at most {MOST_COMPARED} times one is held against one")
        added = [need for webhook in webhooks for need in self.needs_by(webhook)]
        if len(added) > MOST_NEEDS:
            raise Refused(f"more than {MOST_NEEDS} times an object needs a webhook")
        for needs, key, ports in added:
            needs[key] += [port for port in ports if port != key]

    def needs_by(self, webhook: Webhook) -> Iterator[tuple[PortsOf, str, list[str]]]:
        """What a webhook adds to the needs of objects: where, of which object, and the ports."""
        ports = self.endpoints(webhook.namespace, webhook.service)
        below = self.below(ports)
        step = self.step(webhook.configuration.key)
        if not webhook.is_conversion and all(self.step(key) <= step for key in below):
            yield self.running, webhook.configuration.key, ports
        for manifest in self.manifests:
            if self.step(manifest.key) < step or (manifest.key in below and self.step(manifest.key) == step):
                continue
            yield from ((needs, manifest.key, ports) for needs in self.asked_about(webhook, manifest))

    def asked_about(self, webhook: Webhook, manifest: Manifest) -> Iterator[PortsOf]:
        """Which needs of an object a webhook adds to: it is asked about the object, or about its pods."""
        if webhook.matches(manifest.labels, (manifest.group, self.plural(manifest)), manifest, self.namespaces):
            yield self.applying
        if template_of(manifest) is not None and webhook.matches(pod_labels(manifest), POD, manifest, self.namespaces):
            yield self.running

    @functools.cached_property
    def plurals(self) -> dict[tuple[str, str], str]:
        """The names of resources that definitions here bring."""
        found = {}
        for each in self.of_kind("CustomResourceDefinition"):
            names = mapping(each.spec, "names", each.key)
            group, kind = text_at(each.spec, "group", each.key), text_at(names, "kind", each.key)
            found[group, kind] = text_at(names, "plural", each.key)
        return found

    def plural(self, manifest: Manifest) -> str:
        return self.plurals.get((manifest.group, manifest.kind)) or plural_of(manifest.kind)

    def below(self, ports: Iterable[str]) -> set[str]:
        """The objects on which some ports stand, with all that they need."""
        found: set[str] = set()
        work = list(ports)
        while work:
            for manifest in self.given_by.get(work.pop(), ()):
                if manifest.key not in found:
                    found.add(manifest.key)
                    work += [*self.applying[manifest.key], *self.running[manifest.key]]
        return found

    def missing(self) -> Iterator[tuple[str, str]]:
        """Each need that nothing here gives, with the object whose it is."""
        for manifest in self.manifests:
            for port in dict.fromkeys((*self.applying[manifest.key], *self.running[manifest.key])):
                if port not in self.given_by:
                    yield manifest.key, port

    def mentioned_names(self) -> dict[str, None]:
        """The names of all objects here, and of all that one needs or does nothing without."""
        needed = (port for needs in (self.applying, self.running) for ports in needs.values() for port in ports)
        dangling = (each.key for _, each in mentions.dangling(self.manifests, self.known))
        return dict.fromkeys((*sorted(self.known), *(port.partition("@")[0] for port in needed), *dangling))


def size_of(told: object) -> int:
    """How many words a part of a manifest has, with those in its lists and mappings."""
    count, work = 0, [told]
    while work:
        each = work.pop()
        count += 1
        work += [*each.keys(), *each.values()] if isinstance(each, dict) else each if isinstance(each, list) else []
    return count


def is_early(service: Manifest) -> bool:
    """Whether a service names pods also before they are ready."""
    return is_true(service.spec, "publishNotReadyAddresses")
