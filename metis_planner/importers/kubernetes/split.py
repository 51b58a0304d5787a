"""Writes the objects of a stream into a folder, a file each, so that a step of a plan can apply one of them and no other."""

import json
import os
import pathlib
from collections.abc import Iterable

from metis_planner.answers import Refused
from metis_planner.importers.kubernetes.input import Manifest

ORDER = "order"


def file_of(key: str) -> str:
    """The name of the file of an object: KIND_NAMESPACE_NAME.json, or KIND_NAME.json. None of these has a `_`."""
    return f"{key.replace('/', '_')}.json"


def split(manifests: Iterable[Manifest], folder: str) -> int:
    """Writes each object, and the names of the files in the order of the stream into the file `order`; how many there are."""
    top = pathlib.Path(folder)
    names = []
    try:
        top.mkdir(parents=True, exist_ok=True)
        for each in manifests:
            names.append(file_of(each.key))
            write(top / names[-1], json.dumps(each.told, indent=1, default=str) + "\n")
        write(top / ORDER, "".join(f"{name}\n" for name in names))
    except OSError as fault:
        raise Refused(f"{folder}: {fault.strerror}") from fault
    return len(names)


def write(path: pathlib.Path, text: str) -> None:
    """A secret is among them, so nobody else may read it; and no link that lies there is followed."""
    fresh = path.with_name(f".{os.getpid()}.new")
    handle = os.open(fresh, os.O_WRONLY | os.O_CREAT | os.O_EXCL | os.O_NOFOLLOW, 0o600)
    with open(handle, "w", encoding="utf-8", errors="surrogateescape") as file:
        file.write(text)
    fresh.replace(path)
