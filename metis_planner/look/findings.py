"""What `lint` finds, and the forms in which it is printed: lines, JSON, commands of a GitHub workflow, GitLab's reports, SARIF."""

import hashlib
import json
from collections.abc import Sequence
from typing import Any, NamedTuple

from metis_planner.look.source_places import Place

NOTED, MORE, FAULT = "note", "more", "fault"
FORMATS = ("text", "json", "github", "gitlab", "sarif")
RULES = {
    "missing": "Something is needed that nothing gives",
    "circle": "Some wait for one another in a circle",
    "refused": "The source cannot be imported",
    FAULT: "The cluster refuses it, or it never does its work",
    MORE: "There are more causes than are told",
    NOTED: "The importer noted it",
}


class Finding(NamedTuple):
    """Why a component never comes up, or what else is worth a look, and where that stands in the source, as far as it is found."""

    rule: str
    component: str
    reason: str
    place: Place | None

    @property
    def level(self) -> str:
        return "warning" if self.rule == NOTED else "error"

    def value(self) -> dict[str, Any]:
        component = {"component": self.component} if self.component else {}
        where = {"file": self.place.file, "line": self.place.line} if self.place else {}
        return {"rule": self.rule, "level": self.level, **component, "message": self.reason, **where}


def text_line(found: Finding) -> str:
    where = f"{found.place.file}:{found.place.line}: " if found.place else ""
    return f"{where}{'warning: ' if found.level == 'warning' else ''}{found.reason}"


def escaped(text: str) -> str:
    """As a command of a workflow wants it."""
    return text.replace("%", "%25").replace("\r", "%0D").replace("\n", "%0A")


def escaped_property(text: str) -> str:
    """The same of what stands before the text, where a colon or a comma ends it."""
    return escaped(text).replace(":", "%3A").replace(",", "%2C")


def github_line(found: Finding) -> str:
    where = f" file={escaped_property(found.place.file)},line={found.place.line}" if found.place else ""
    return f"::{found.level}{where}::{escaped(found.reason)}"


def sarif(findings: Sequence[Finding]) -> str:
    """The findings in the Static Analysis Results Interchange Format 2.1.0."""
    results = []
    for found in findings:
        result: dict[str, Any] = {"ruleId": found.rule, "level": found.level, "message": {"text": found.reason}}
        if found.place:
            location = {"artifactLocation": {"uri": found.place.file}, "region": {"startLine": found.place.line}}
            result["locations"] = [{"physicalLocation": location}]
        results.append(result)
    rules = [{"id": name, "shortDescription": {"text": text}} for name, text in RULES.items()]
    run = {"tool": {"driver": {"name": "metis lint", "rules": rules}}, "results": results}
    schema = "https://json.schemastore.org/sarif-2.1.0.json"
    return json.dumps({"$schema": schema, "version": "2.1.0", "runs": [run]}, indent=1) + "\n"


def gitlab(findings: Sequence[Finding]) -> str:
    """The findings as a report of GitLab's Code Quality. What has no place is of the first line of no file, which GitLab lists."""
    rows = []
    for found in findings:
        place = found.place or Place("-", 1)
        told = "\0".join((found.rule, found.component, found.reason, place.file))
        rows.append(
            {
                "description": found.reason,
                "check_name": f"metis-lint-{found.rule}",
                "fingerprint": hashlib.sha256(told.encode(errors="surrogateescape")).hexdigest(),
                "severity": "minor" if found.level == "warning" else "major",
                "location": {"path": place.file, "lines": {"begin": place.line}},
            }
        )
    return json.dumps(rows, indent=1) + "\n"


def written(findings: Sequence[Finding], form: str) -> str:
    if form in ("sarif", "gitlab"):
        return sarif(findings) if form == "sarif" else gitlab(findings)
    if form == "json":
        return json.dumps([found.value() for found in findings], indent=1) + "\n"
    line = github_line if form == "github" else text_line
    return "".join(f"{line(found)}\n" for found in findings)
