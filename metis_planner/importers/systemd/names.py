"""The names of systemd's units: which are names, instances and templates, paths in names, and specifiers."""

import re
from collections.abc import Iterator

KINDS = ("service", "socket", "target", "device", "mount", "automount", "swap", "timer", "path", "slice", "scope")
NAME = re.compile(rf"[A-Za-z0-9:_.\\@-]+\.(?:{'|'.join(KINDS)})")
LONGEST_NAME = 255
LONGEST_PATH = 4096
PATHS_OF_SPECIFIERS = {
    "%t": "/run",
    "%S": "/var/lib",
    "%C": "/var/cache",
    "%L": "/var/log",
    "%E": "/etc",
    "%T": "/tmp",
    "%V": "/var/tmp",
    "%h": "/root",
    "%u": "root",
    "%g": "root",
    "%U": "0",
    "%G": "0",
}


def is_name(text: str) -> bool:
    """Whether a text is the name of a unit: no path, and nothing that is not there in such names."""
    return len(text) <= LONGEST_NAME and NAME.fullmatch(text) is not None and not text.startswith(("@", "."))


def kind_of(name: str) -> str:
    return name.rpartition(".")[2]


def parts_of(name: str) -> tuple[str, str | None, str]:
    """The prefix of a name, its instance (None for a name without one, empty for a template), and its kind."""
    stem, _, kind = name.rpartition(".")
    prefix, at, instance = stem.partition("@")
    return prefix, instance if at else None, kind


def is_template(name: str) -> bool:
    return parts_of(name)[1] == ""


def template_of(name: str) -> str | None:
    """The template of an instance, or None: `getty@.service` of `getty@tty1.service`."""
    prefix, instance, kind = parts_of(name)
    return f"{prefix}@.{kind}" if instance else None


def may_be_alias(name: str, other: str) -> bool:
    """Whether a link of this name may lead to another unit: of one kind, and both plain, both templates, or both that instance.

    An instance may also lead to its own template, or to one of another prefix.
    """
    if not is_name(other) or kind_of(other) != kind_of(name):
        return False
    own, its = parts_of(name)[1], parts_of(other)[1]
    return own == its or bool(own) and its == ""


def instance_of_template(template: str, name: str) -> str:
    """A template in place of which a unit means an instance: its own one, or one by its prefix."""
    prefix, instance, _ = parts_of(name)
    own, _, kind = parts_of(template)
    return f"{own}@{instance or prefix}.{kind}"


def names_of_folders(name: str) -> list[str]:
    """The names whose folders of drop-ins and links count for a unit, the nearest first.

    They are its own, that of its template, and those that end in a dash: `a-b-.service` and `a-.service` for
    `a-b-c.service`.
    """
    prefix, instance, kind = parts_of(name)
    shorter, rest = [], prefix
    while "-" in rest.rstrip("-"):
        rest = rest.rstrip("-").rpartition("-")[0]
        shorter.append(rest)
    found = [name, f"{prefix}@.{kind}"] if instance else [name]
    found += [f"{each}-.{kind}" for each in shorter]
    for each in shorter if instance else ():
        found += [f"{each}-@{instance}.{kind}", f"{each}-@.{kind}"]
    return list(dict.fromkeys(found))


def escaped(text: str) -> str:
    """A text in the form in which it stands in a name."""
    shown = (
        "-"
        if each == "/"
        else each
        if re.fullmatch(r"[A-Za-z0-9:_.]", each) and (at or each != ".")
        else hexadecimal(each)
        for at, each in enumerate(text)
    )
    return "".join(shown)


def hexadecimal(character: str) -> str:
    return "".join(f"\\x{byte:02x}" for byte in character.encode(errors="surrogateescape"))


def unescaped(text: str) -> str:
    """What a part of a name stands for."""
    plain = re.sub(r"\\x([0-9a-fA-F]{2})|-", lambda found: chr(int(found[1], 16)) if found[1] else "/", text)
    return plain


def simple_path(path: str) -> str | None:
    """A path without doubled and last slashes, or None where it is none that a mount can have."""
    parts = [part for part in path.split("/") if part not in ("", ".")]
    if not path.startswith("/") or ".." in parts:
        return None
    return "/" + "/".join(parts)


def mount_of(path: str) -> str:
    """The name of the unit that mounts a path."""
    return ("-" if path == "/" else escaped(path[1:])) + ".mount"


def mounts_above(path: str) -> Iterator[str]:
    """The mounts that a path may lie on, itself and all above it, from the root down.

    A path that is too long for the kernel is none, and a mount of too long a name has no unit.
    """
    simple = simple_path(path) if len(path) < LONGEST_PATH else None
    if simple is None:
        return
    yield "-.mount"
    stem = ""
    for part in simple.split("/"):
        if not part:
            continue
        stem = f"{stem}-{escaped('/' + part)[1:]}" if stem else escaped(part)
        if len(stem) > LONGEST_NAME:
            return
        yield f"{stem}.mount"


def with_specifiers(text: str, name: str) -> str | None:
    """A text with what its specifiers stand for in a unit, or None where a name alone does not settle one."""
    if "%" not in text:
        return text
    stem, _, _ = name.rpartition(".")
    prefix, instance, _ = parts_of(name)
    values = {
        **PATHS_OF_SPECIFIERS,
        "%%": "%",
        "%n": name,
        "%N": stem,
        "%p": prefix,
        "%P": unescaped(prefix),
        "%i": instance or "",
        "%I": unescaped(instance or ""),
        "%j": prefix.rpartition("-")[2],
        "%J": unescaped(prefix.rpartition("-")[2]),
        "%f": "/" + unescaped(instance or prefix),
    }
    if any(found not in values for found in re.findall(r"%.", text)):
        return None
    return re.sub(r"%.", lambda found: values[found[0]], text)
