#!/usr/bin/env python3
"""Shows projects with which Compose fails to docker-compose: python3 -m trials compose_faults [--program PROGRAM]

The projects, and the values of files `.env`, are those of tests/importers/test_compose_faults.py and
test_compose_environment.py. Each fault has to be refused, and each sound project taken. The program is Compose 2, such as the
docker-compose 2.26 of Debian 13, which runs on Debian 12; it is asked by `config`, which starts nothing and needs no Docker.
"""

import argparse
import json
import pathlib
import subprocess
import sys
import tempfile

from tests.importers.test_compose_environment import OUTSIDE, VALUES
from tests.importers.test_compose_faults import FAULTS, SOUND

# What `config` of Compose 2.26 does not see, by words of the line: names that only Docker refuses, when the containers are made, or
# that of the folder, and a driver of what is external. And what Compose has since 2.36, by a word of the project.
NOT_BY_CONFIG = ("is that of the container of", "no name of a project", "no name of a container", "network front: it is external")
SOUND_OF_LATER = ("provider",)


def config(program: str, folder: pathlib.Path, project: object, env: str = "") -> subprocess.CompletedProcess[str]:
    (folder / "project.yaml").write_text(json.dumps(project))
    (folder / ".env").write_text(env)
    (folder / "x").touch()
    command = [program, "-f", str(folder / "project.yaml"), "--project-directory", str(folder), "config", "--format", "json"]
    environment = {**OUTSIDE, "PATH": "/usr/bin:/bin", "HOME": str(folder)}
    return subprocess.run(command, env=environment, cwd=folder, capture_output=True, text=True, check=False)


def try_faults(program: str, folder: pathlib.Path) -> bool:
    is_good = True
    for line, project in FAULTS.items():
        done = config(program, folder, project)
        if done.returncode == 0 and not any(word in line for word in NOT_BY_CONFIG):
            is_good = False
            print(f"taken, and refused here: {line}")
    for sound in SOUND:
        done = config(program, folder, sound)
        if done.returncode and not any(word in json.dumps(sound) for word in SOUND_OF_LATER):
            is_good = False
            print(f"refused, and taken here: {json.dumps(sound)}: {done.stderr.strip().splitlines()[-1]}")
    return is_good


def try_values(program: str, folder: pathlib.Path) -> bool:
    is_good = True
    for text, value in VALUES.items():
        project = {"services": {"a": {"image": "i", "labels": {"l": "[${VAR}]"}}}}
        done = config(program, folder, project, text)
        # It prints each dollar sign twice, so that what it prints says the same.
        told = json.loads(done.stdout)["services"]["a"]["labels"]["l"] if done.returncode == 0 else ""
        if told.replace("$$", "$") != f"[{value}]":
            is_good = False
            print(f"another value: {text!r}: {done.stdout.splitlines()[3:6]} {done.stderr.strip()[-200:]}")
    return is_good


def main() -> int:
    parser = argparse.ArgumentParser(description=__doc__, formatter_class=argparse.RawDescriptionHelpFormatter)
    parser.add_argument("--program", default="docker-compose", metavar="PROGRAM")
    arguments = parser.parse_args()
    with tempfile.TemporaryDirectory() as folder:
        is_good = try_faults(arguments.program, pathlib.Path(folder))
        is_good = try_values(arguments.program, pathlib.Path(folder)) and is_good
    print(f"{len(FAULTS)} faults, {len(SOUND)} sound projects, {len(VALUES)} values: {'as expected' if is_good else 'not all as expected'}")
    return 0 if is_good else 1


if __name__ == "__main__":
    sys.exit(main())
