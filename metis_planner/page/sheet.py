"""Puts a page together: only its own scripts and its own style count in it, whatever stands in the data."""

import base64
import hashlib
import html
import json
import pathlib
from collections.abc import Iterable, Sequence

from metis_planner.page import wished
from metis_planner.page.verdict import Verdict
from metis_planner.text import plans
from metis_planner.text.actions import New
from metis_planner.text.doubles import told_doubles

HERE = pathlib.Path(__file__).resolve().parent
NO_NETWORK, OWN_SERVER = "'none'", "'self'"
OF_A_PLAN = (
    "elements", "plan", "order", "configuration", "layout", "picture", "overview", "panel", "live", "controls", "page", "start",
)  # fmt: skip
PRESENT = '<button id="present" aria-label="full screen (f)">full screen</button>'
OF_REASONS = ("elements", "reasons", "start")
OF_WHAT = {
    "plan": "A deployment plan. Step through it, or click what is ready to try an order of your own; nothing is carried out.",
    "folder": "A deployment as it is carried out in a folder. This page looks at it and carries nothing out.",
    "reasons": "Why there is no plan for this target. Point at a sentence to see it in the picture.",
}


def of_plan(
    title: str, verdict: Verdict, plan: plans.Plan, value: dict[str, object], network: str = NO_NETWORK, wishes: str = ""
) -> str:
    made = sum(isinstance(action, New) for action in plan.actions)
    counts = [(made, "instance"), (len(plan.actions), "action"), (len(plan.dups), "double")]
    summary = ", ".join(counted(count, what) for count, what in counts if count or what != "double")
    times = value["times"]
    if isinstance(times, dict) and times["note"]:
        summary += f"; {times['note']}"
    targets = value.get("targets")
    if isinstance(targets, list) and targets:
        summary += f"; for {', '.join(map(str, targets))}"
    body = filled("plan.html", {"WISHES": wished.section(wishes), "DOUBLES": doubles_of(plan, value)})
    return page({"TITLE": title, "SUM": summary}, verdict, body, {"kind": "plan", **value}, OF_A_PLAN, network)


def of_reasons(title: str, verdict: Verdict, body: str) -> str:
    return page({"TITLE": title, "SUM": "cannot be attained"}, verdict, body, {"kind": "reasons"}, OF_REASONS)


def counted(count: int, what: str) -> str:
    return f"{count} {what}{'' if count == 1 else 's'}"


def page(
    texts: dict[str, str],
    verdict: Verdict,
    body: str,
    value: dict[str, object],
    scripts: Iterable[str],
    network: str = NO_NETWORK,
) -> str:
    style = (HERE / "page.css").read_text("utf-8")
    sources = [(HERE / f"{name}.js").read_text("utf-8") for name in scripts]
    # In JSON a character may be written by its number, and then no end of a script is in it.
    data = json.dumps(value, separators=(",", ":")).replace("<", "\\u003c").replace(">", "\\u003e").replace("&", "\\u0026")
    told = {
        **texts,
        "KIND": str(value["kind"]),
        "WHAT": OF_WHAT["folder" if "live" in value else str(value["kind"])],
        "TIME": "what happened" if "live" in value else "time",
        "VERDICT": verdict.kind,
        "SAID": verdict.text,
    }
    parts = {
        **{name: html.escape(text) for name, text in told.items()},
        "POLICY": policy(sources, style, network),
        "STYLE": style,
        "SCRIPTS": "\n".join(f"<script>{source}</script>" for source in sources),
        "DATA": data,
        "BODY": body,
        "PRESENT": PRESENT if value["kind"] == "plan" else "",
    }
    return filled("page.html", parts)


def policy(scripts: Sequence[str], style: str, network: str) -> str:
    return (
        f"default-src 'none'; script-src {' '.join(map(digest_of, scripts))}; style-src {digest_of(style)}; "
        f"connect-src {network}; base-uri 'none'; form-action 'none'; require-trusted-types-for 'script'"
    )


def digest_of(text: str) -> str:
    return f"'sha256-{base64.b64encode(hashlib.sha256(text.encode()).digest()).decode()}'"


def filled(name: str, parts: dict[str, str]) -> str:
    """A template with its parts in place. What a part has in it is not looked at again."""
    first, *rest = (HERE / name).read_text("utf-8").split("@@")
    return first + "".join(parts[each] if place % 2 == 0 else each for place, each in enumerate(rest))


def doubles_of(plan: plans.Plan, value: dict[str, object]) -> str:
    """The doubles of a plan, each with the circle that stood in the way without it."""
    found = told_doubles(plan, value)
    if not found:
        return ""
    title = f"<h2>{counted(len(found), 'double')}: made since a circle stood in the way</h2>"
    is_open = " open" if len(found) == 1 else ""
    parts = [title]
    for double in found:
        parts.append(f"<details{is_open}><summary>{html.escape(double.name)} for {html.escape(double.state)}</summary>")
        parts.append(
            f"<p>It is one more {html.escape(double.type)}, which serves in {html.escape(double.state)}. Without it each of "
            "these would have to wait for the next, and the last for the first:</p><ol>"
        )
        for event in double.events:
            text = html.escape(event.text)
            shown = text if event.place is None else f'<button class="ref" data-k="{event.place}">{text}</button>'
            parts.append(f'<li class="ring">{shown} <span class="no">{html.escape(event.behind)}</span></li>')
        parts.append("</ol></details>")
    return "".join(parts)
