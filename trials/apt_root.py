"""A folder in which the real apt reads an index and a status of ours, and nothing of this machine."""

import pathlib
import re
import subprocess
from typing import NamedTuple


class Answer(NamedTuple):
    """What `apt-get -s install` would do: None where it refuses, and what it said."""

    installed: frozenset[str] | None
    removed: frozenset[str]
    configured: tuple[str, ...]
    said: str


class AptRoot:
    """An index of stanzas, read once by `apt-get update`; each question brings a status of its own."""

    def __init__(self, folder: pathlib.Path, index: str) -> None:
        self.folder = folder
        repository = folder / "repository"
        for each in ("etc/apt", "var/lib/apt/lists/partial", "var/cache/apt/archives/partial", "var/lib/dpkg"):
            (folder / each).mkdir(parents=True, exist_ok=True)
        repository.mkdir()
        (repository / "Packages").write_text(index + "\n")
        (folder / "etc/apt/sources.list").write_text(f"deb [trusted=yes] file:{repository} ./\n")
        self.status = folder / "var/lib/dpkg/status"
        self.status.write_text("")
        done = self.run("update")
        if done.returncode:
            raise RuntimeError(f"apt-get update: {done.stdout}{done.stderr}")

    def run(self, *words: str) -> "subprocess.CompletedProcess[str]":
        options = {
            "Dir": self.folder,
            "Dir::State::status": self.status,
            "Dir::Cache::pkgcache": "",
            "Dir::Cache::srcpkgcache": "",
            "Dir::Etc::parts": "/nonexistent",
            "Dir::Etc::sourceparts": "/nonexistent",
            "Dir::Etc::preferencesparts": "/nonexistent",
            "APT::Architecture": "amd64",
            "APT::Architectures": "amd64,i386",
            "APT::Sandbox::User": "root",
            "APT::Get::AutomaticRemove": "false",
            "Debug::NoLocking": "true",
        }
        command = ["apt-get", *(word for key, value in options.items() for word in ("-o", f"{key}={value}")), *words]
        return subprocess.run(command, capture_output=True, text=True, check=False, env={"PATH": "/usr/sbin:/usr/bin:/sbin:/bin"})

    def ask(self, status: str, *names: str, with_recommends: bool = False) -> Answer:
        self.status.write_text(status)
        recommends = "--install-recommends" if with_recommends else "--no-install-recommends"
        done = self.run("-s", "install", recommends, *names)
        said = " ".join((done.stdout + done.stderr).split())
        found = {verb: behind(verb, done.stdout) for verb in ("Inst", "Remv", "Conf")}
        installed = None if done.returncode else frozenset(found["Inst"])
        return Answer(installed, frozenset(found["Remv"]), tuple(found["Conf"]), said)


def behind(verb: str, text: str) -> list[str]:
    return [word.removesuffix(":amd64") for word in re.findall(rf"^{verb} (\S+)", text, re.MULTILINE)]
