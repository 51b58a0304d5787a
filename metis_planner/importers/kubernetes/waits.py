"""What the init containers of a workload wait for: services by their names, and objects by kind and name."""

import re
from collections.abc import Iterable, Iterator, Mapping
from typing import Any

from metis_planner.answers import Refused
from metis_planner.importers.kubernetes.input import listed_texts, Manifest, mappings_in, text_at
from metis_planner.importers.kubernetes.pods import init_containers, Reference, template_of
from metis_planner.text.reading import mapping

# What `kubectl wait` and images made for waiting name: a kind and a name.
NAMED_OBJECT = re.compile(
    r"(?<![\w.-])(jobs?|deployments?|deploy|statefulsets?|sts|daemonsets?|ds|pods?|po)(?:-wr|-we|\.[a-z0-9.]+)?[/ ]+"
    r"([a-z0-9][a-z0-9.-]*)"
)
# Pods that are waited for by a label.
LABELLED_PODS = re.compile(
    r"(?<![\w.-])(?:pods?|po)\b[^;|&]{0,200}?\s(?:-l|--selector)[ =]?([A-Za-z0-9./_-]+)=([A-Za-z0-9._-]+)"
)
KINDS_OF_WORDS = {
    "job": "Job",
    "deployment": "Deployment",
    "deploy": "Deployment",
    "statefulset": "StatefulSet",
    "sts": "StatefulSet",
    "daemonset": "DaemonSet",
    "ds": "DaemonSet",
    "pod": "Pod",
    "po": "Pod",
}
# The commands of all init containers of a stream together.
MOST_COMMANDS = 512 * 1024
# How often a variable of a command is looked up in a source of its environment.
MOST_LOOKED_UP = 1_000_000
# The words of a command, and what ends one and begins the next.
WORDS = re.compile(r"[^\s\"'`;|&()<>,]+|[;|&()`\n]")
ENDS = frozenset(";|&()`\n")
# What stands before and behind the host in a word.
HOST = re.compile(
    r"(?:(?P<scheme>[a-z][a-z0-9+.-]*)://)?(?:[^@/]*@)?(?P<host>[a-z0-9](?:[a-z0-9.-]*[a-z0-9])?)(?P<rest>[:/.$].*)?"
)
SETTING = re.compile(r"(?P<name>[A-Za-z_-][A-Za-z0-9_.-]*)=(?P<value>.*)")
# The option `-h` and its host in one word.
WITH_HOST = re.compile(r"-h(?P<host>[a-z0-9].*)")
VARIABLE = re.compile(r"\$(?:[({])?([A-Za-z_][A-Za-z0-9_]*)")
OF_HOSTS = re.compile(r"host|addr|url|uri|server|endpoint|service|broker|target|peer|dsn", re.IGNORECASE)
# Options and commands behind which no host stands.
OF_OTHERS = frozenset(
    "-d --dbname --db --database -D -U -u --user --username -n --namespace -p --password -P -l --selector -c --context -o "
    "su gosu su-exec sudo runuser".split()
)
# Commands that name users, groups and files, and wait for nobody.
WAITING_FOR_NOBODY = frozenset("chown chgrp chmod id useradd usermod adduser groupadd groupmod addgroup passwd".split())
# Commands that only ask for the address of a name, which a service has before a pod behind it is ready.
LOOKUPS = frozenset("nslookup dig host getent".split())
# What stands behind the name of a service: its namespace, and the suffix of the cluster.
BEHIND_NAME = re.compile(r"(?P<namespace>[a-z0-9-]+)(?:[.]svc(?:[.][a-z0-9.-]+)?)?[.]?")
Services = Mapping[tuple[str, str], Manifest]
Settings = Mapping[tuple[str, str], Mapping[str, str]]  # the entries of ConfigMaps, by namespace and name


def commands_of(manifest: Manifest) -> Iterator[tuple[dict[str, Any], str]]:
    """The init containers of a workload, each with its command and arguments as one text."""
    for container in init_containers(manifest):
        text = " ".join(text for key in ("command", "args") for text in listed_texts(container, key, manifest.key))
        yield container, text


def check_commands(manifests: Iterable[Manifest]) -> None:
    """Refuses a stream whose commands are too long to be gone through."""
    size = 0
    for manifest in manifests:
        if template_of(manifest) is not None:
            size += sum(len(text) for _, text in commands_of(manifest))
        if size > MOST_COMMANDS:
            raise Refused(f"{manifest.key}: with those before it the commands of init containers have more than {MOST_COMMANDS} characters")


def awaited_labels(manifest: Manifest) -> Iterator[tuple[str, str]]:
    """The labels, as pairs, by which init containers wait for pods."""
    for _, text in commands_of(manifest):
        yield from dict.fromkeys(LABELLED_PODS.findall(text))


def waits(manifest: Manifest, services: Services, settings: Settings) -> Iterator[Reference]:
    """What the init containers of a workload wait for.

    It is read off their commands, arguments and environment, and off the settings of the stream that these name.
    """
    for container, text in commands_of(manifest):
        for kind, name in dict.fromkeys(NAMED_OBJECT.findall(text)):
            kind = KINDS_OF_WORDS.get(kind) or KINDS_OF_WORDS[kind.rstrip("s")]
            yield Reference(kind, manifest.namespace, name)
        hosts = list(hosts_in(text))
        for told in environment_of(container, text, manifest, settings):
            hosts += hosts_in(told)
        for host, is_looked_up in dict.fromkeys(hosts):
            service = service_named(host, manifest.namespace, services)
            if service is not None:
                yield Reference("Service", service.namespace, service.name, is_looked_up=is_looked_up)


def environment_of(
    container: Mapping[str, Any], text: str, manifest: Manifest, settings: Settings
) -> Iterator[str]:
    """The variables of a container, as `NAME=VALUE`: its own ones, and of whole ConfigMaps those that a command names."""
    where, container = manifest.key, dict(container)
    for each in mappings_in(container, "env", where):
        source = mapping(mapping(each, "valueFrom", where), "configMapKeyRef", where)
        value = text_at(each, "value", where)
        if source:
            value = entries_of(settings, manifest, source).get(text_at(source, "key", where), "")
        yield f"{text_at(each, 'name', where)}={value}"
    named = sorted(set(VARIABLE.findall(text)))
    sources = mappings_in(container, "envFrom", where)
    if len(named) * len(sources) > MOST_LOOKED_UP:
        raise Refused(f"{where}: {len(named)} variables of a command and {len(sources)} sources of its environment are too many")
    for each in sources:
        prefix = text_at(each, "prefix", where)
        entries = entries_of(settings, manifest, mapping(each, "configMapRef", where))
        for variable in named if entries else ():
            key = variable.removeprefix(prefix)
            if variable.startswith(prefix) and key in entries:
                yield f"{variable}={entries[key]}"


def entries_of(settings: Settings, manifest: Manifest, source: dict[str, Any]) -> Mapping[str, str]:
    """The entries of a ConfigMap that is named here, where the stream has it."""
    return settings.get((manifest.namespace, text_at(source, "name", manifest.key)), {})


def settings_in(manifests: Iterable[Manifest]) -> Settings:
    """The entries that are texts of these ConfigMaps."""
    return {
        (each.namespace, each.name): {key: value for key, value in mapping(each.told, "data", each.key).items() if isinstance(value, str)}
        for each in manifests
    }


def hosts_in(text: str) -> Iterator[tuple[str, bool]]:
    """The words of commands that may name a host, and whether only its address is asked for.

    No paths are among them, no values of options that say something else, and no words of commands that wait for nobody.
    """
    before, further_before, is_quiet = "", "", False
    for word in WORDS.findall(text):
        if word in ENDS:
            before, further_before, is_quiet = "", "", False
            continue
        is_quiet = is_quiet or word in WAITING_FOR_NOBODY
        if not is_quiet:
            host = host_in(word, before)
            if host:
                yield host, before in LOOKUPS or further_before in LOOKUPS
        before, further_before = word, before


def host_in(word: str, before: str) -> str:
    """The host that a word may name, behind the word before it; empty where it names none."""
    setting = SETTING.fullmatch(word)
    joined = WITH_HOST.fullmatch(word)
    value = setting["value"] if setting else joined["host"] if joined else word
    found = HOST.fullmatch(value)
    if not found:
        return ""
    rest = found["rest"] or ""
    is_address = bool(found["scheme"]) or re.match(r":[0-9$]", rest) is not None or "." in found["host"]
    is_said = bool(OF_HOSTS.search(setting["name"])) if setting else before not in OF_OTHERS
    is_path = "/" in value and not is_address
    return found["host"] if (is_address or is_said) and not is_path else ""


def service_named(word: str, namespace: str, services: Services) -> Manifest | None:
    """The service that a word names, as a pod of a namespace does, also by a pod behind it; or None."""
    found = service_at(word, namespace, services)
    if found is None and "." in word:
        behind = service_at(word.partition(".")[2], namespace, services)
        if behind is not None and behind.spec.get("clusterIP") == "None":
            return behind
    return found


def service_at(word: str, namespace: str, services: Services) -> Manifest | None:
    name, _, rest = word.partition(".")
    if not rest:
        return services.get((namespace, name))
    found = BEHIND_NAME.fullmatch(rest)
    return services.get((found["namespace"], name)) if found else None
