"""Reads what importers are handed, within bounds: files, and the values that JSON says or a stream of documents."""

import collections
import importlib
import json
import os
import stat
import sys
from collections.abc import Callable, Mapping
from typing import Any, BinaryIO

from metis_planner.answers import Refused

MOST_TEXT = 16 * 1024 * 1024
MOST_VALUES = 1_000_000
TRUE, FALSE = ("true", "yes", "on", "y", "t", "1"), ("false", "no", "off", "n", "f", "0")
# What is no regular file is not waited for: by the test that knows it, as it is named.
IRREGULAR: tuple[tuple[Callable[[int], bool], str], ...] = (
    (stat.S_ISFIFO, "a FIFO"),
    (stat.S_ISCHR, "a device"),
    (stat.S_ISBLK, "a device"),
    (stat.S_ISSOCK, "a socket"),
)
# Where a shell hands over an open pipe by a path, as for `<(command)`.
HANDED = ("/dev/fd/", "/proc/self/fd/", "/dev/stdin")


def read_bytes(path: str, most: int = MOST_TEXT) -> bytes:
    """The bytes of a file, or of standard input for `-`: at most so many, however long it goes on."""
    try:
        if path == "-":
            told = sys.stdin.buffer.read(most + 1)
        else:
            with opened(path) as file:
                told = file.read(most + 1)
    except (OSError, ValueError) as fault:
        raise Refused(f"{path}: {getattr(fault, 'strerror', None) or fault}") from fault
    except AttributeError as fault:
        raise Refused("standard input is closed") from fault
    if len(told) > most:
        raise Refused(f"{path}: more than {most} bytes")
    return told


def opened(path: str) -> BinaryIO:
    """A file, opened for reading. A FIFO or a device is refused before anything waits for it."""
    path = str(path)
    is_handed = path.startswith(HANDED)
    check_regular(path, os.stat(path).st_mode, is_handed)
    handle = os.open(path, os.O_RDONLY | os.O_CLOEXEC | (0 if is_handed else os.O_NONBLOCK))
    try:
        check_regular(path, os.fstat(handle).st_mode, is_handed)
        return open(handle, "rb")
    except (OSError, Refused):
        os.close(handle)
        raise


def opened_or_refused(path: str) -> BinaryIO:
    """A file, opened for reading, or standard input for `-`; where that cannot be, the reason in a line."""
    try:
        return sys.stdin.buffer if path == "-" else opened(path)
    except (OSError, ValueError) as fault:
        raise Refused(f"{path}: {getattr(fault, 'strerror', None) or fault}") from fault
    except AttributeError as fault:
        raise Refused("standard input is closed") from fault


def check_regular(path: str, mode: int, is_handed: bool) -> None:
    for is_kind, kind in IRREGULAR:
        if is_kind(mode) and not (is_handed and kind == "a FIFO"):
            raise Refused(f"{path}: {kind}, and no file that can be read")


def read_text(path: str, most: int = MOST_TEXT) -> str:
    """The text in a file, or on standard input for `-`, of at most so many bytes."""
    return decoded(read_bytes(path, most), path)


def decoded(data: bytes, path: str) -> str:
    """The text that bytes are; a mark of the byte order is left out."""
    try:
        return data.decode("utf-8-sig")
    except UnicodeDecodeError as fault:
        raise Refused(f"{path}: no UTF-8 text") from fault


def value_of(text: str, path: str, json_hint: str) -> Any:
    """The one value that a text says."""
    values = values_of(text, path, json_hint)
    if len(values) > 1:
        raise Refused(f"{path}: {len(values)} documents, where one is due")
    return values[0] if values else None


def values_of(text: str, path: str, json_hint: str) -> list[Any]:
    """The values that a text says: one of JSON, or each document of a stream of YAML.

    The hint says which command prints the same as JSON, for those who have no PyYAML.
    """
    if text.lstrip()[:1] in ("{", "[") and sum(map(text.count, ",[{")) > MOST_VALUES:
        raise Refused(f"{path}: more than {MOST_VALUES} values")
    try:
        return [json.loads(text, object_pairs_hook=lambda pairs: mapping_of(pairs, path))]
    except json.JSONDecodeError:
        return values_of_yaml(text, path, json_hint)
    except RecursionError as fault:
        raise Refused(f"{path}: nested too deeply") from fault
    except ValueError as fault:
        raise Refused(f"{path}: a number of too many digits") from fault


def values_of_yaml(text: str, path: str, json_hint: str) -> list[Any]:
    try:
        importlib.import_module("yaml")
    except ImportError:
        raise Refused(f"{path}: no JSON, and PyYAML is not there to read YAML; {json_hint}") from None
    found: list[Any] = importlib.import_module("metis_planner.text.yaml_text").documents(text, path)
    return found


def mapping_of(pairs: list[tuple[str, Any]], path: str) -> dict[str, Any]:
    """The mapping of these pairs of JSON; of two with one key nobody knows which is meant."""
    found = dict(pairs)
    if len(found) < len(pairs):
        counts = collections.Counter(key for key, _ in pairs)
        twice = next(key for key, _ in pairs if counts[key] > 1)
        raise Refused(f"{path}: the key '{twice}' stands twice in one mapping")
    return found


def mapping(owner: Mapping[str, Any], key: str, where: str) -> dict[str, Any]:
    """The mapping under a key, empty where there is none."""
    found: dict[str, Any] = of_form(owner, key, where, dict, "mapping")
    return found


def listed(owner: Mapping[str, Any], key: str, where: str) -> list[Any]:
    """The list under a key, empty where there is none."""
    found: list[Any] = of_form(owner, key, where, list, "list")
    return found


def of_form(owner: Mapping[str, Any], key: str, where: str, form: type, name: str) -> Any:
    found = owner.get(key)
    if found is None:
        return form()
    if not isinstance(found, form):
        raise Refused(f"{where}: '{key}' is no {name}")
    return found


def mapping_at(owner: Mapping[str, Any], path: str, where: str) -> dict[str, Any]:
    """The mapping at the end of a path of keys that dots divide, empty where there is none."""
    first, *rest = path.split(".")
    found = mapping(owner, first, where)
    for key in rest:
        found = mapping(found, key, where)
    return found


def flag(owner: Mapping[str, Any], key: str, where: str, default: bool) -> bool:
    """Whether something is so: also by a word in quotes, as Compose takes it."""
    told = owner.get(key)
    if told is None:
        return default
    word = str(told).lower() if isinstance(told, (bool, str, int)) else ""
    if word not in TRUE and word not in FALSE:
        raise Refused(f"{where}: '{key}' is neither true nor false: {told}")
    return word in TRUE


def text_of(told: Any, where: str) -> str:
    if not isinstance(told, (str, int, float)):
        raise Refused(f"{where}: no text: {told}")
    return str(told)


def texts_in(owner: Mapping[str, Any], key: str, where: str) -> list[str]:
    """The texts of the list under a key."""
    return [text_of(each, f"{where}, {key}") for each in listed(owner, key, where)]
