#!/usr/bin/env python3
"""Makes one wrong edit at a time in a copy of the page's sources, and says whether a test notices it:

    python3 -m trials page_edits [PART OF AN EDIT]

An edit names the test that has to notice it: one of the suite, or one in a browser, of `tests/page` where it is named by its
module and else of `trials/page.py`; these want Chromium. The status is the number of edits that nothing noticed. First of all each
test has to pass without an edit, and tests that compare bytes are left out.
"""

import dataclasses
import os
import pathlib
import re
import shutil
import subprocess
import sys
import tempfile

from metis_planner import program
from trials.trial import TOP

COPIED = ("metis_planner", "tests", "trials", "examples", "docs", "tools")
# They compare bytes with what docs/ keeps, so they would notice a blank, whatever it does.
BYTES = ("test_the_pages_that_are_kept_are_as_they_would_be_made_now", "test_what_docs_show_is_what_the_code_draws")
SUITE = "suite"
KEYS, WAYS, READING = (f"test_{name}in_a_browser.ChromiumTest." for name in ("", "ways_", "reading_"))
RESTART = "test_ways_in_a_browser.ChromiumServedTest.test_a_page_comes_back_after_a_restart_and_goes_on"


@dataclasses.dataclass(frozen=True)
class Edit:
    """What stands in a file of the page once, what is put in its place, and the test that notices it."""

    file: str
    old: str
    new: str
    test: str = SUITE


EDITS = (
    Edit("order.js", " && this.waits.before[k].every(this.isDone);", ";"),
    Edit("order.js", " && this.waits.before[k].every(this.isDone);", ";", "test_every_moment_of_small_plans"),
    Edit("configuration.js", "taken !== port || from !== provider", "taken !== port && from !== provider"),
    Edit("configuration.js", "taken !== port || from !== provider", "true", "test_every_moment_of_small_plans"),
    Edit("plan.js", "...(keepsBarrier ? this.barrier[k] : [])", ""),
    Edit("plan.js", "...(keepsBarrier ? this.barrier[k] : [])", "", "test_barrier"),
    Edit("order.js", "if (!(left[next] -= 1)) open.push(next);", "open.push(next);"),
    Edit("order.js", "slice(this.at).filter((k) => !chosen.has(k))", "slice(this.at)"),
    Edit("elements.js", "element.append(...there(children));", "element.innerHTML = there(children).join('');", "test_mouse"),
    Edit("sheet.py", "**{name: html.escape(text) for name, text in told.items()},", "**told,"),
    Edit("sheet.py", "**{name: html.escape(text) for name, text in told.items()},", "**told,", "test_nothing_is_asked_of_anybody_and_nothing_hostile_runs"),
    Edit("sheet.py", '.replace("<", "\\\\u003c")', ""),
    Edit("server.py", 'is_ours = self.headers.get("Host") in self.server.hosts', "is_ours = True"),
    Edit("progress.py", '"running" if row.stage is Stage.RUNNING else', '"running" if row.stage is not Stage.RUNNING else'),
    Edit("picture.js", "[...waits.allBefore(k)]", "waits.before[k]", "test_mouse"),
    # Ten more, and some.
    Edit("layout.js", "(this.isDrawn(q) ? [q] : this.nearest(q))", "(this.isDrawn(q) ? [q] : [])"),
    Edit("layout.js", "Math.max(most, this.stage[q] + 1)", "Math.max(most, this.stage[q])"),
    Edit("order.js", "while (start > 0 && ", "while (start > 1 && "),
    Edit("order.js", "return waits.areKeptBy(order) ? order : null;", "return order;"),
    Edit("order.js", "this.set(order, count < 0 ? order.length : count);", "this.set(order, this.at);"),
    Edit("plan.js", "...waits, ...holds, ...(keepsBarrier", "...waits, ...(keepsBarrier"),
    Edit("page.js", 'const ready = ks.filter((k) => this.statusOf(k) === "ready");', "const ready = ks;", "test_every_moment_of_small_plans"),
    Edit("page.js", 'return begun.status === "running" ? "running" : "failed";', 'return "running";', "test_a_folder_is_followed"),
    Edit("../carry/rollouts.py", "if KEPT not in roles_of([step.action for step in steps], old).values():", "if True:"),
    Edit("changes.py", "last = {step.action.instance: step.action.number for step in steps[each.old : each.fresh]}", "last = {}"),
    Edit("times.py", "waits[place] = (*waits[place], *last.values())", "pass"),
    Edit("cause.py", "part = finished(root, back, seen)", "part = finished(root, self.out, seen)"),
    Edit("verdict.py", "said.status != program.Status.DONE or ", ""),
    Edit("progress.py", "[-TAIL_LINES:] if with_log else []", "[-TAIL_LINES:]"),
    Edit("progress.py", 'ENDS = ("failed", "stopped")', 'ENDS = ("stopped",)'),
    Edit("progress.py", "all(steps[number - 1].key in found for number in step.waits)", "True"),
    Edit("sheet.py", 'f"connect-src {network}; base-uri', "f\"connect-src 'self'; base-uri"),
    Edit("page.css", "#scroll { display: flex; overflow: auto;", "#scroll { display: flex;", "test_no_page_is_wider_than_its_window"),
    Edit("live.js", "put(byId(\"warn\"), this.isFollowing() ?", "put(byId(\"warn\"), !this.isFollowing() ?", "test_a_folder_is_followed"),
    Edit("values.py", "sorted({action.provider for action in binds} - {action.instance for action in binds})", "[]", "test_folded_rows"),
    Edit("wished.py", "if roles.get(instance) == KEPT and not any(key in lines for key in keys):", "if roles.get(instance) == KEPT:"),
    Edit("wished.py", "if roles.get(instance) != ROLES[wish.verb]:", "if False:"),
    Edit("wished.py", "<pre>{html.escape(text)}</pre>", "<pre>{text}</pre>"),
    Edit("../carry/ahead.py", 'if kept.get("plan") == sum_of(folder.text().encode()) else None', "if kept else None"),
    Edit("picture.js", 'name, wish && h("small", { class: "wide" }, wish), row.state', "name, row.state", "test_each_instance_says_what_is_wished_of_it"),
    # In the files that draw and listen, by the small DOM of the suite.
    Edit("panel.js", "const isMet = from.length >= count;", "const isMet = true;"),
    Edit("panel.js", '${count("")} waiting`;\n    put(byId("count")', '${count("") + count("ready")} waiting`;\n    put(byId("count")'),
    Edit("panel.js", "const late = slack ?", "const late = !slack ?"),
    Edit("controls.js", "if (isTyped || isPressed || isOff", "if (isPressed || isOff"),
    Edit("controls.js", "if (isTyped || isPressed || isOff", "if (isTyped || isPressed"),
    Edit("controls.js", "input[type=checkbox], select, button", "select, button"),
    Edit("controls.js", 'page.keepsBarrier() ? "" : warning', 'page.keepsBarrier() ? warning : ""'),
    Edit("live.js", "if (next.plan !== this.state.plan) location.reload();", ""),
    Edit("live.js", "walk.waits.allAfter(number - 1).size", "walk.waits.allBefore(number - 1).size"),
    Edit("live.js", "trying, this.lost)", "trying)"),
    Edit("page.js", '? "" : "&barrier=off"', '? "" : ""'),
    Edit("page.js", 'this.pin = chosen.length ?', "this.pin = false ?"),
    Edit("picture.js", '(isGone ? "deleted" : "")', '""'),
    Edit("picture.js", '${mark.label}, ${status || "waits"}', "${mark.label}"),
    Edit("picture.js", "(farOf(mark) <= (near", "(farOf(mark) > (near"),
    Edit("overview.js", "if (!buttons) return;", ""),
    Edit("order.js", "redo = () => this.leaveFor(this.future, this.past);", "redo = () => {};"),
    Edit("page.css", "--faint: #7d868c;", "--faint: #98a1a6;"),
    Edit("server.py", "os.O_EXCL, 0o600", "os.O_EXCL, 0o644"),
    Edit("progress.py", "if signs != self.signs or self.is_running():", "if True:"),
    Edit("reasons.py", "out = max(beside) + self.width + 46", "out = self.width + 46"),
    Edit("panel.js", "host, wish, offered)", "host, offered)", "test_each_instance_says_what_is_wished_of_it"),
    Edit("page.js", "if (instances.length > 1) byId(", "if (instances.length > 9) byId("),
    Edit("panel.js", '"step it"', '"do it"'),
    Edit("panel.js", '${isNext && !begun ? "next; " : ""}', '${isNext ? "next; " : ""}'),
    Edit("panel.js", "return p(`Since ${of(start)}, for ${of(end - start)}.`)", "return p(`At ${of(start)} to ${of(end)}.`)"),
    Edit("sheet.py", "to try an order of your own; nothing is carried out.", "to try an order of your own."),
    Edit("sheet.py", "summary += f\"; for {', '.join(map(str, targets))}\"", "pass"),
    Edit("progress.py", "shlex.quote(plain(folder.path.resolve().name, 200))", "plain(folder.path.resolve().name, 200)"),
    Edit("server.py", "if is_opened:", "if False:"),
    # In a browser: keys, what one finds and takes along, and what can be read.
    Edit("controls.js", "input[type=checkbox], select, button", "select, button", KEYS + "test_a_blank_toggles_each_box_and_plays_nothing"),
    Edit("picture.js", "tabindex: mark.index ? -1 : 0", "tabindex: -1", KEYS + "test_each_control_is_reached_by_keys_alone"),
    Edit("panel.js", "queueMicrotask(focus);", "", KEYS + "test_a_plan_is_stepped_through_to_its_end_and_the_focus_stays"),
    Edit("controls.js", 'if (target.id === "scroll") return', 'if (target.id === "pane") return', KEYS + "test_the_picture_is_scrolled_by_arrows"),
    Edit("page.css", "#names :is(.part2, small) { flex: none; }", "", KEYS + "test_names_that_differ_at_their_end_are_told_apart"),
    Edit("page.css", "  #names i { width: auto; text-align: left; }", "  #names i { display: none; }",
         KEYS + "test_names_that_differ_at_their_end_are_told_apart"),
    Edit("reasons.py", '<li tabindex="0" data-line', "<li data-line", KEYS + "test_reasons_are_reached_by_tab"),
    Edit("page.js", "Math.min(4, this.zoom * factor)", "Math.min(4, this.zoom)", WAYS + "test_zoom"),
    Edit("picture.js", "(clientX - left) / this.page.zoom", "(clientX - left)", WAYS + "test_zoom"),
    Edit("picture.js", "style, ground, rows.map(nameOf), drawn", "style, ground, drawn", WAYS + "test_the_picture_is_saved_as_a_file_that_looks_like_it"),
    Edit("picture.js", "style, ground, rows.map(nameOf), drawn", "ground, rows.map(nameOf), drawn",
         WAYS + "test_the_picture_is_saved_as_a_file_that_looks_like_it"),
    Edit("page.js", '`${view === "time" ? "&view=time" : ""}$', '`$', WAYS + "test_a_link_has_the_moment_the_order_the_search_the_view_and_the_choice"),
    Edit("page.js", 'this.show(asked.get("view") === "time" && this.times ? "time" : "steps");', "",
         WAYS + "test_a_link_has_the_moment_the_order_the_search_the_view_and_the_choice"),
    Edit("controls.js", "return walk.order.map((k) =>", "return plan.actions.map((_, k) =>", WAYS + "test_the_order_as_a_list"),
    Edit("order.js", "to.push([this.order, this.at, this.name]);", "", WAYS + "test_undo_and_redo"),
    Edit("panel.js", "`no lane ${asked ? `has ${asked}` : \"is such\"}`", '""', WAYS + "test_a_search_says_how_many_it_finds_and_has_a_way_out"),
    Edit("page.js", "walk.waits.allAfter(plan.lanes.get(one)[0])", "walk.waits.allBefore(plan.lanes.get(one)[0])",
         WAYS + "test_what_a_lane_needs_and_what_needs_it"),
    Edit("page.js", "walk.waits.allBefore(plan.lanes.get(one).at(-1))", "walk.waits.allBefore(plan.lanes.get(one)[0])",
         WAYS + "test_what_a_lane_needs_and_what_needs_it"),
    Edit("controls.js", "if (lane) page.lookAt(page.picture.rowOf(lane));", "", WAYS + "test_a_name_chooses_its_lane"),
    Edit("page.js", '(this.statusOf(k) || "waits") === this.only', "false", WAYS + "test_the_legend_filters"),
    Edit("live.js", "pre.scrollTop = pre.scrollHeight;", "pre.scrollTop = 0;", WAYS + "test_the_end_of_a_log_is_seen"),
    Edit("server.py", 'found = KEPT.fullmatch(path.read_text("ascii"))', "found = None", RESTART),
    Edit("live.js", 'this.lost = "";\n      const', "const", RESTART),
    Edit("page.css", "button[aria-pressed=true], .row.fresh { outline", "button[aria-pressed=true] { outline",
         READING + "test_with_colours_that_are_forced_what_is_pressed_and_what_is_fresh_stand_out"),
    Edit("page.css", "--ink: #22303a; --soft: #5d6a73;", "--ink: #22303a; --soft: #7d8a93;",
         READING + "test_all_can_be_read_and_used_in_the_light_and_in_the_dark"),
    Edit("page.css", "--dim: #8c99a1;", "--dim: #66727a;", READING + "test_all_can_be_read_and_used_in_the_light_and_in_the_dark"),
    Edit("picture.js", "(farOf(mark) <= (near ? farOf(near) : 12) ?", "(farOf(mark) <= (near ? farOf(near) : 4) ?", READING + "test_a_binding_is_hit_by_a_finger"),
    Edit("page.css", ".many .wait { opacity: .9;", ".many .wait { opacity: .4;", READING + "test_marks_and_arrows_of_a_large_plan_stand_out"),
    Edit("page.css", ".dim .mark:not(.lit) :is(path, rect) { stroke-opacity: .3; }", ".dim .mark:not(.lit) { opacity: .3; }",
         READING + "test_what_is_not_chosen_is_paler_and_no_line_strikes_its_words_through"),
    Edit("page.css", "max-width: 2600px", "max-width: 1900px", READING + "test_a_wide_window_is_used"),
    Edit("page.css", " #find::placeholder { color: var(--soft); opacity: 1; }", "",
         READING + "test_all_can_be_read_and_used_in_the_light_and_in_the_dark"),
    Edit("../draw/chart.py", "        yield DARK\n", "", READING + "test_a_chart_is_dark_where_all_is_dark"),
    Edit("plan.html", ' role="group" aria-label="zoom"', ' aria-label="zoom"', READING + "test_all_can_be_read_and_used_on_a_phone"),
)  # fmt: skip


def is_noticed(edit: Edit, top: pathlib.Path) -> bool:
    """Whether the test fails over the copy with this edit in it."""
    path = top / "metis_planner" / "page" / edit.file
    text = path.read_text("utf-8")
    if text.count(edit.old) != 1:
        raise SystemExit(f"{edit.file}: {edit.old} stands {text.count(edit.old)} times in it")
    path.write_text(text.replace(edit.old, edit.new), "utf-8")
    try:
        return fails(edit.test, top)
    finally:
        path.write_text(text, "utf-8")


def fails(test: str, top: pathlib.Path) -> bool:
    """Whether a test, or the suite, fails over the copy as it is."""
    in_tests = suite_in(top) if test == SUITE else [f"tests.page.{test}"] if "." in test else []
    words = ["-m", "unittest", *in_tests] if in_tests else ["-m", "trials", "page", f"ChromiumTest.{test}"]
    environment = {**os.environ, program.COMMAND: program.command()}
    done = subprocess.run([sys.executable, *words], cwd=top, env=environment, capture_output=True, text=True, check=False)
    if done.returncode and ("Ran " not in done.stderr or "_FailedTest" in done.stderr):
        raise SystemExit(done.stderr[-2000:])
    return done.returncode != 0


def suite_in(top: pathlib.Path) -> list[str]:
    """The tests of the suite by their names, without those that compare bytes."""
    names = []
    for module in ("test_pages", "test_served"):
        case = ""
        text = (top / "tests" / "page" / f"{module}.py").read_text("utf-8")
        for found in re.finditer(r"^class (\w+)\(|^    def (test_\w+)\(", text, re.MULTILINE):
            case = found[1] or case
            if found[2] and found[2] not in BYTES:
                names.append(f"tests.page.{module}.{case}.{found[2]}")
    return names


def main() -> int:
    part = sys.argv[1] if len(sys.argv) > 1 else ""
    edits = [edit for edit in EDITS if part in f"{edit.file} {edit.old} {edit.test}"]
    missed = 0
    with tempfile.TemporaryDirectory(prefix="edits-") as name:
        top = pathlib.Path(name)
        for each in COPIED:
            shutil.copytree(TOP / each, top / each, ignore=shutil.ignore_patterns("__pycache__"))
        for test in sorted({edit.test for edit in edits}):
            if fails(test, top):
                raise SystemExit(f"{test} fails without any edit, so it shows nothing")
        for edit in edits:
            is_seen = is_noticed(edit, top)
            missed += not is_seen
            print("noticed" if is_seen else "MISSED ", edit.file, edit.old[:70], f"({edit.test})", flush=True)
    print(f"{len(edits)} edits, {missed} missed")
    return missed


if __name__ == "__main__":
    sys.exit(main())
