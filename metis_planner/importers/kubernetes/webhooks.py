"""Which objects a webhook of Kubernetes is asked about before they are taken, and by which service it answers."""

import dataclasses
from collections.abc import Iterator, Mapping
from typing import Any

from metis_planner.importers.kubernetes.input import listed_texts, Manifest, mappings_in, text_at, texts_of
from metis_planner.text.reading import mapping, mapping_at

CONFIGURATIONS = ("ValidatingWebhookConfiguration", "MutatingWebhookConfiguration")
NAME_OF_NAMESPACE = "kubernetes.io/metadata.name"
POD = ("", "pods")
WITH_ES = ("s", "x", "ch", "sh")


@dataclasses.dataclass(frozen=True)
class Webhook:
    """A webhook without whose answer nothing that it matches is taken."""

    configuration: Manifest
    namespace: str
    service: str
    rules: tuple[dict[str, Any], ...]
    namespace_selector: dict[str, Any]
    object_selector: dict[str, Any]
    is_conversion: bool = False  # of custom resources between versions, in place of a question about them

    @property
    def parts(self) -> tuple[dict[str, Any], ...]:
        """What is held against each object."""
        return (*self.rules, self.namespace_selector, self.object_selector)

    def matches(
        self,
        labels: Mapping[str, str],
        resource: tuple[str, str],
        manifest: Manifest,
        namespaces: Mapping[str, Mapping[str, str]],
    ) -> bool:
        """Whether it is asked about a resource with these labels: an object itself, or the pods of one."""
        if manifest.kind in CONFIGURATIONS or not any(covers(rule, resource, manifest) for rule in self.rules):
            return False
        inside = manifest.name if manifest.kind == "Namespace" else manifest.namespace
        around = namespaces.get(inside, {NAME_OF_NAMESPACE: inside})
        if inside and not selects(self.namespace_selector, around, self.configuration.key):
            return False
        return selects(self.object_selector, labels, self.configuration.key)


def webhooks_of(manifest: Manifest, notes: list[str]) -> Iterator[Webhook]:
    """The webhooks of a configuration that have to answer, of services of the cluster."""
    where = manifest.key
    for each in mappings_in(manifest.told, "webhooks", where):
        service = mapping(mapping(each, "clientConfig", where), "service", where)
        if each.get("matchConditions"):
            notes.append(f"{where}: matchConditions are not looked at, so it is taken to be asked about nothing")
        elif service and text_at(each, "failurePolicy", where, "Fail") == "Fail":
            yield Webhook(
                manifest,
                text_at(service, "namespace", where),
                text_at(service, "name", where),
                tuple(rule for rule in mappings_in(each, "rules", where) if is_asked_at_first(rule, where)),
                mapping(each, "namespaceSelector", where),
                mapping(each, "objectSelector", where),
            )


def conversions_of(definition: Manifest) -> Iterator[Webhook]:
    """The webhook that a definition has its resources converted by, if it has one."""
    where = definition.key
    conversion = mapping(definition.spec, "conversion", where)
    service = mapping_at(conversion, "webhook.clientConfig.service", where)
    if service and text_at(conversion, "strategy", where) == "Webhook":
        names = mapping(definition.spec, "names", where)
        rule = {"apiGroups": [text_at(definition.spec, "group", where)], "resources": [text_at(names, "plural", where)]}
        inside, name = text_at(service, "namespace", where), text_at(service, "name", where)
        yield Webhook(definition, inside, name, (rule,), {}, {}, is_conversion=True)


def is_asked_at_first(rule: dict[str, Any], where: str) -> bool:
    return bool({"CREATE", "*"} & set(listed_texts(rule, "operations", where)))


def covers(rule: dict[str, Any], resource: tuple[str, str], manifest: Manifest) -> bool:
    group, plural = resource
    scope = text_at(rule, "scope", manifest.key, "*")
    groups, resources = (listed_texts(rule, key, manifest.key) for key in ("apiGroups", "resources"))
    is_scope = scope == "*" or (scope == "Namespaced") == bool(manifest.namespace)
    return is_scope and bool({group, "*"} & set(groups)) and bool({plural, "*", "*/*"} & set(resources))


def selects(selector: dict[str, Any], labels: Mapping[str, str], where: str) -> bool:
    """Whether a selector of labels takes these."""
    for key, value in texts_of(mapping(selector, "matchLabels", where), where).items():
        if labels.get(key) != value:
            return False
    for each in mappings_in(selector, "matchExpressions", where):
        key, values = text_at(each, "key", where), listed_texts(each, "values", where)
        is_met = {
            "In": labels.get(key) in values,
            "NotIn": labels.get(key) not in values,
            "Exists": key in labels,
            "DoesNotExist": key not in labels,
        }.get(text_at(each, "operator", where), True)
        if not is_met:
            return False
    return True


def plural_of(kind: str) -> str:
    """The name of a kind's resource, by the rule that the kinds of Kubernetes keep."""
    word = kind.lower()
    if word == "endpoints":
        return word
    if word.endswith("y") and word[-2:-1] not in "aeiou":
        return word[:-1] + "ies"
    return word + ("es" if word.endswith(WITH_ES) else "s")
