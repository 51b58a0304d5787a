"""What a cluster has already: names as kubectl takes them, and the objects and needs of a stream that they mean."""

from collections.abc import Iterable, Iterator

from metis_planner.answers import Refused
from metis_planner.importers.kubernetes.webhooks import plural_of

SHORT_NAMES = {
    "cm": "configmap",
    "crd": "customresourcedefinition",
    "deploy": "deployment",
    "ds": "daemonset",
    "ing": "ingress",
    "ns": "namespace",
    "pc": "priorityclass",
    "po": "pod",
    "pv": "persistentvolume",
    "pvc": "persistentvolumeclaim",
    "sa": "serviceaccount",
    "sc": "storageclass",
    "sts": "statefulset",
    "svc": "service",
}
PLURALS = {plural_of(kind): kind for kind in (*SHORT_NAMES.values(), "secret", "job")}
DEFINITION = "customresourcedefinition"
OF_KIND = "kind/"


def given_names(texts: Iterable[str], known: Iterable[str]) -> list[str]:
    """The names among the known ones that these texts mean: each by its kind and name, with its namespace or without."""
    meant: dict[str, list[str]] = {}
    for name in known:
        for form in forms_of(name):
            meant.setdefault(form, []).append(name)
    found: dict[str, None] = {}
    for text in texts:
        names = meant.get(form_of(text))
        if not names:
            raise Refused(f"--given {text}: no object here has this name or needs it")
        found.update(dict.fromkeys(names))
    return list(found)


def form_of(text: str) -> str:
    """A name with its kind as all forms have it: in small letters, and written out."""
    kind, slash, rest = text.partition("/")
    if text.startswith(OF_KIND):
        return text
    kind = kind.lower()
    kind = SHORT_NAMES.get(kind, kind)
    return f"{PLURALS.get(kind, kind)}{slash}{rest}"


def forms_of(name: str) -> Iterator[str]:
    """The forms in which a known name may be given."""
    name = name.partition("@")[0]
    yield form_of(name)
    if name.startswith(OF_KIND):
        kind, _, group = name.removeprefix(OF_KIND).partition(".")
        yield f"{DEFINITION}/{plural_of(kind)}.{group}"
        return
    parts = name.split("/")
    if len(parts) == 3:
        yield form_of(f"{parts[0]}/{parts[2]}")
