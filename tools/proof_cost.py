#!/usr/bin/env python3
"""Runs a command that proves, as `rt ci --anew`, and tells for each crate what its proof cost beside that of metis_ids.

    tools/proof_cost.py [--table FILE] [--] COMMAND ..

A second of one machine is not that of another, and one machine's change within an hour. So what is kept is a quotient: the
processor time of a crate's proof by that of the proof of metis_ids in the same run. The time is read from /proc twice a
second, as long as the check of a crate runs, so that up to half a second of its end may be missed. A crate that was not
proved in the run, because its proof was kept, has no row. The status is the command's.
"""

import argparse
import os
import pathlib
import re
import subprocess
import sys
import threading

UNIT = "metis_ids"
PROOF = re.compile(r"rattle build --crate-name (\w+) ")
SECONDS_BETWEEN_LOOKS = 0.5
TICKS = os.sysconf("SC_CLK_TCK")


def running_proofs() -> dict[tuple[str, str], float]:
    """The seconds of processor so far of each check that is under way, with those of its ended children; by crate and process."""
    found = {}
    for folder in pathlib.Path("/proc").glob("[0-9]*"):
        try:
            words = (folder / "cmdline").read_bytes().replace(b"\0", b" ").decode(errors="replace")
            proof = PROOF.search(words)
            if proof and "/must-fail" not in words:
                fields = (folder / "stat").read_text().rpartition(")")[2].split()
                found[proof[1], f"{folder.name}-{fields[19]}"] = sum(map(int, fields[11:15])) / TICKS
        except OSError:
            continue
    return found


def watch(most: dict[tuple[str, str], float], is_over: threading.Event) -> None:
    while not is_over.wait(SECONDS_BETWEEN_LOOKS):
        for key, seconds in running_proofs().items():
            most[key] = max(seconds, most.get(key, 0.0))


def proofs_of(most: dict[tuple[str, str], float]) -> dict[str, float]:
    """The seconds of each crate's first check: what comes after it are grounds of edits, tests and programs."""
    first: dict[str, tuple[int, float]] = {}
    for (crate, process), seconds in most.items():
        begun = int(process.split("-")[1])
        if crate not in first or begun < first[crate][0]:
            first[crate] = (begun, seconds)
    return {crate: seconds for crate, (_, seconds) in first.items()}


def lines_of(proofs: dict[str, float]) -> list[str]:
    """A row a crate, the dearest first: its proof beside that of metis_ids, or in seconds where that was not proved."""
    unit = proofs.get(UNIT)
    rows = sorted(proofs.items(), key=lambda row: -row[1])
    head = f"beside `{UNIT}`" if unit else "seconds of processor"
    return [f"| crate | {head} |", "|---|---|", *(f"| `{crate}` | {seconds / (unit or 1):.1f} |" for crate, seconds in rows)]


def main() -> int:
    parser = argparse.ArgumentParser(description=__doc__, formatter_class=argparse.RawDescriptionHelpFormatter)
    parser.add_argument("--table", metavar="FILE", help="write the table into this file, and not to standard output")
    parser.add_argument("command", nargs=argparse.REMAINDER, metavar="COMMAND")
    arguments = parser.parse_args()
    command = arguments.command[1:] if arguments.command[:1] == ["--"] else arguments.command
    if not command:
        parser.error("no command")
    most: dict[tuple[str, str], float] = {}
    is_over = threading.Event()
    watcher = threading.Thread(target=watch, args=(most, is_over))
    watcher.start()
    try:
        status = subprocess.run(command, check=False).returncode
    finally:
        is_over.set()
        watcher.join()
    table = "\n".join(lines_of(proofs_of(most))) + "\n"
    if arguments.table:
        pathlib.Path(arguments.table).write_text(table)
    else:
        print(table, end="")
    return status


if __name__ == "__main__":
    sys.exit(main())
