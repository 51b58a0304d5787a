"use strict";
// Tries the parts of the page that draw and listen, over a small DOM. What is expected was worked out by hand.
const assert = require("node:assert/strict");
const { test } = require("node:test");
const { opened, counts } = require("./dom.js");

const told = (more) => ({
  kind: "plan", types: [], first: [], roles: [], hosts: [], holds: [], leaves: [], wishes: [], universe: null, times: null,
  phases: [{ kind: "all", name: "", from: 0, to: more.actions.length, last: [] }], ...more,
});
const WEB = told({
  types: [[0, "Web"], [1, "Db"]],
  first: [["Web", "off"], ["Db", "off"]],
  leaves: [1],
  universe: [["Web", [["off", [], []], ["run", [], [["sql", 1]]]]], ["Db", [["off", [], []], ["on", ["sql"], []]]]],
  actions: [["new", 0, []], ["new", 1, []], ["move", 1, [2], "off", "on"], ["bind", 0, [1, 3], "sql", 1], ["move", 0, [4], "off", "run"]],
});
const ROLLED = told({
  ...WEB,
  types: [[0, "Web"], [1, "Db"], [2, "Web"], [3, "Db"]],
  actions: [
    ...WEB.actions,
    ["new", 2, []], ["new", 3, []], ["move", 3, [7], "off", "on"], ["bind", 2, [6, 8], "sql", 3], ["move", 2, [9], "off", "run"],
    ["delete", 0, [5]], ["delete", 1, [3, 11]],
  ],
  phases: [
    { kind: "old", name: "the old", from: 0, to: 5, last: [] },
    { kind: "new", name: "the new, beside it", from: 5, to: 10, last: [] },
    { kind: "removal", name: "the removal", from: 10, to: 12, last: [10, 8] },
  ],
});
const begun = (number, status, more = {}) => ({ number, status, said: status === "failed" ? "failed with status 3" : "is being done", tail: [], ...more });
const state = (more) => ({ plan: "a", now: 1, folder: "web", done: [], begun: [], times: null, serves: false, ...more });
const nameOf = (page, k) => page.querySelector(`.mark[data-k='${k}']`).getAttribute("aria-label");

test("the count, and the name of each mark with its status", async () => {
  const { explorer, page, text, settled } = opened(WEB);
  assert.equal(text("count"), "0 of 5 · 2 ready · 3 waiting");
  assert.deepEqual([nameOf(page, 0), nameOf(page, 4)], ["1 make Web#0, ready", "5 Web#0: off → run, waits"]);
  explorer.step(2);
  await settled();
  assert.equal(text("count"), "2 of 5 · 1 ready · 2 waiting");
  assert.deepEqual([nameOf(page, 0), nameOf(page, 2)], ["1 make Web#0, done", "3 Db#1: off → on, ready"]);
  assert.equal(page.querySelector("#told button").textContent, "step it");
  explorer.choose([4]);
  assert.equal(page.querySelector("#told button").textContent, "step it, with the 2 that it needs");
  explorer.choose(null);
  explorer.step(5);
  await settled();
  assert.match(text("told"), /All is done/);
});

test("what runs and what failed is counted as such, as status counts it", async () => {
  const { text, settled } = opened({ ...WEB, live: state({ done: [1], begun: [begun(2, "running")] }) });
  await settled();
  assert.equal(text("count"), "1 of 5 · 1 running · 0 ready · 3 waiting");
  const other = opened({ ...WEB, live: state({ done: [1, 2], begun: [begun(3, "failed")] }) });
  await other.settled();
  assert.equal(other.text("count"), "2 of 5 · 1 failed · 0 ready · 2 waiting");
  assert.match(other.text("told"), /3 {2}Db#1: off → on — failed with status 3/);
  assert.match(other.text("warn"), /failed with status 3; 2 wait for it/);
});

test("a requirement that is met, one that is not, and what will be needed", async () => {
  const { explorer, text, settled } = opened(WEB);
  explorer.step(2);
  await settled();
  assert.match(text("stand"), /○ run will need sql/);
  explorer.step(5);
  await settled();
  assert.match(text("stand"), /✓ requires sql: Db#1/);
  assert.match(text("stand"), /each requirement met/);
  const two = opened({ ...WEB, universe: [["Web", [["off", [], []], ["run", [], [["sql", 2]]]]], WEB.universe[1]] });
  two.explorer.step(5);
  await two.settled();
  assert.match(two.text("stand"), /✗ requires 2 × sql: Db#1/);
});

test("a blank on a box presses the box, and elsewhere it plays", () => {
  const { byId, key, page } = opened(WEB);
  for (const id of ["with", "behind", "bindings", "words", "byType", "lastOnTop", "letters"]) {
    byId(id).focus();
    assert.equal(key(" ").isStopped, false, id);
    assert.equal(byId("play").textContent, "play");
  }
  page.activeElement = page.body;
  assert.equal(key(" ").isStopped, true);
  assert.equal(byId("play").textContent, "pause");
});

test("typed letters are no keys, and keys of one letter can be turned off", () => {
  const { byId, key, page } = opened(WEB);
  byId("find").focus();
  for (const letter of ["b", "u", "j", "f", " "]) assert.equal(key(letter).isStopped, false, letter);
  assert.equal(byId("bindings").checked, true);
  page.activeElement = page.body;
  key("b");
  assert.equal(byId("bindings").checked, false);
  byId("letters").click();
  key("b");
  assert.equal(byId("bindings").checked, false);
  assert.equal(key("ArrowRight").isStopped, true);
});

test("arrows scroll the picture where that has the focus, and step elsewhere", () => {
  const { byId, key, page, explorer } = opened(WEB);
  byId("scroll").focus();
  for (const name of ["ArrowLeft", "ArrowRight", "Home", "End", "PageDown"]) assert.equal(key(name).isStopped, false, name);
  assert.equal(explorer.walk.at, 0);
  page.activeElement = page.body;
  key("ArrowRight");
  assert.equal(explorer.walk.at, 1);
  assert.equal(byId("scroll").getAttribute("role"), "region");
});

test("arrows lead from mark to mark, and Enter and a blank press one", async () => {
  const { key, page, explorer, settled } = opened(WEB);
  const marks = () => page.querySelectorAll("#pic .mark");
  const chosen = () => page.activeElement.getAttribute("data-k");
  assert.deepEqual(marks().map((mark) => mark.getAttribute("tabindex")), ["0", "-1", "-1", "-1", "-1"]);
  marks()[0].focus();
  for (const [name, k] of [["ArrowRight", "3"], ["ArrowRight", "4"], ["ArrowRight", "4"], ["ArrowLeft", "3"], ["ArrowDown", "2"], ["ArrowUp", "0"], ["ArrowRight", "3"]]) {
    key(name);
    assert.equal(chosen(), k, name);
  }
  assert.deepEqual([explorer.walk.at, marks().filter((mark) => mark.getAttribute("tabindex") === "0").length], [0, 1]);
  key("Enter"); // it waits
  assert.equal(explorer.walk.at, 0);
  for (const k of [0, 1]) {
    page.querySelector(`.mark[data-k='${k}']`).focus();
    key(k ? " " : "Enter");
    await settled();
    assert.equal(explorer.walk.at, k + 1);
  }
});

test("the focus stays where something is pressed", async () => {
  const { byId, page, settled, explorer } = opened(WEB);
  const press = async () => {
    byId("told").querySelector("button:not(.ref)").focus();
    page.activeElement.click();
    await settled();
    assert.notEqual(page.activeElement, page.body);
  };
  for (let n = 0; n < 5; n += 1) await press();
  assert.equal(explorer.walk.at, 5);
  byId("prev").focus();
  byId("next").focus();
  assert.deepEqual(["next", "last", "prev"].map((id) => byId(id).getAttribute("aria-disabled")), ["true", "true", "false"]);
  assert.equal(byId("next").getAttribute("disabled"), null);
});

test("undo and redo", async () => {
  const { byId, explorer, settled } = opened(WEB);
  explorer.advance([1]);
  await settled();
  assert.deepEqual(["undo", "redo"].map((id) => byId(id).getAttribute("aria-disabled")), ["false", "true"]);
  byId("undo").click();
  assert.equal(explorer.walk.at, 0);
  await settled();
  byId("redo").click();
  assert.deepEqual([explorer.walk.at, `${explorer.walk.order}`], [1, "1,0,2,3,4"]);
  byId("undo").click();
  explorer.advance([0]);
  await settled();
  assert.equal(byId("redo").getAttribute("aria-disabled"), "true");
});

test("a search says how many lanes it finds, and the way out", async () => {
  const { byId, text, page, explorer, settled } = opened(WEB);
  const find = (value) => { byId("find").value = value; byId("find").fire("input"); };
  assert.equal(text("found"), "");
  find("db");
  assert.match(text("found"), /^1 of 2 lanes; the next action is in a lane that is hidden – show all$/);
  assert.match(text("now"), /Ready now.*make Db#1.*and 1 in lanes that are hidden/);
  find("zzz");
  assert.match(text("found"), /^no lane has zzz – show all$/);
  byId("found").querySelector("button").click();
  assert.deepEqual([text("found"), byId("find").value, page.querySelectorAll("#names div").length], ["", "", 2]);
  find("db");
  byId("find").focus();
  byId("find").fire("keydown", { key: "Escape" });
  assert.equal(byId("find").value, "");
  page.querySelectorAll(".lane")[1].click();
  assert.equal(byId("find").value, '"Db#1"');
  byId("behind").click();
  assert.equal(page.querySelectorAll("#names div").length, 2); // and the web server, which needs it
  byId("behind").click();
  page.querySelectorAll(".lane")[0].click();
  assert.deepEqual([byId("find").value, page.querySelectorAll("#names div").length], ["", 2]);
  explorer.showOnly("bind");
  assert.deepEqual(page.querySelectorAll("#names div").map((row) => row.getAttribute("title")), ["Web#0"]);
  explorer.showOnly("bind");
  await settled();
  assert.equal(text("found"), "");
});

test("a name of several lanes unfolds them", () => {
  const { byId, page } = opened(ROLLED);
  const names = () => page.querySelectorAll("#names div").map((row) => row.getAttribute("title").split(":")[0]);
  byId("byType").click();
  assert.deepEqual(names(), ["Web × 2", "Db × 2"]);
  page.querySelectorAll(".lane")[1].click();
  assert.deepEqual([byId("byType").checked, byId("find").value, names()], [false, '"Db"', ["Db#1", "Db#3"]]);
  const five = [...Array(5).keys()];
  const leaves = told({
    types: [[0, "Web"], ...five.map((n) => [n + 1, "Db"])], leaves: five.map((n) => n + 1),
    actions: [["new", 0, []], ...five.map((n) => ["new", n + 1, []]), ...five.map((n) => ["bind", 0, [n + 2], "sql", n + 1])],
  });
  const other = opened(leaves);
  other.byId("foldLeaves").click();
  const lanes = () => other.page.querySelectorAll("#names div").length;
  assert.equal(lanes(), 2);
  other.page.querySelectorAll(".lane")[1].click();
  assert.deepEqual([other.byId("foldLeaves").checked, lanes()], [false, 5]);
});

test("names are cut in the middle: the end and the number stay", () => {
  const type = "CustomResourceDefinition/certificaterequests.cert-manager.io";
  const { page } = opened({ ...WEB, types: [[0, type], [1, "Db"]], first: [] });
  const parts = page.querySelector(".lane").querySelectorAll("span").map((part) => [part.names[0], part.textContent]);
  assert.deepEqual(parts, [["part0", "CustomResourceDefinition/"], ["part1", "certificaterequests.cert-"], ["part2", "manager.io#0"]]);
  assert.equal(page.querySelectorAll("#names div")[1].querySelector("b").textContent, "Db#1");
});

test("the barrier warns where it is lifted, and not where it stands", async () => {
  const { byId, text, settled, location, timers } = opened(ROLLED);
  assert.equal(text("warn"), "");
  byId("guard").click();
  await settled();
  assert.match(text("warn"), /By the waits alone the old may go/);
  timers.at(-1)[0]();
  assert.match(location.hash, /barrier=off/);
  byId("guard").click();
  await settled();
  assert.equal(text("warn"), "");
});

test("an instance that is gone is called deleted", async () => {
  const { explorer, page, settled } = opened(ROLLED);
  const states = () => page.querySelectorAll("#names i").map((each) => each.textContent);
  assert.deepEqual(states(), ["run", "on", "", ""]);
  explorer.step(12);
  await settled();
  assert.deepEqual(states(), ["deleted", "deleted", "run", "on"]);
});

test("by time: slack with its unit, and since when something runs", () => {
  const bars = [[0, 20, 60], [0, 20, 0], [20, 80, 0], [80, 81, 0], [81, 141, 0]];
  const times = { unit: "min", bars, finish: 141, chain: [2, 3, 4, 5], note: "" };
  const { explorer, text } = opened({ ...WEB, times });
  explorer.choose([0]);
  assert.match(text("told"), /At 0 to 20 min; it may start 60 min later\./);
  explorer.choose([1]);
  assert.match(text("told"), /At 0 to 20 min; no time to lose\./);
  const tried = { unit: "s", bars: [[0, 1, 0], [4.19, 7.78, 0], null, null, null], finish: 7.78, chain: [], folds: [] };
  const live = opened({ ...WEB, live: state({ done: [1], begun: [begun(2, "running")], times: tried }) });
  live.explorer.choose([1]);
  assert.match(live.text("told"), /Since 4\.19 s, for 3\.59 s\./);
  assert.doesNotMatch(live.text("told"), /next;/);
});

test("the end of a log is in a section of its own, headed by the words that print it", () => {
  const tail = ["one", "two", "no room"];
  const { byId, text } = opened({ ...WEB, live: state({ done: [1, 2], begun: [begun(3, "failed", { tail })] }) });
  assert.equal(byId("logs").querySelector("code").textContent, "metis log web Db#1");
  assert.equal(byId("logs").querySelector("pre").textContent, "one\ntwo\nno room");
  assert.doesNotMatch(text("told"), /no room/);
  const other = opened({ ...WEB, live: state({ done: [1, 2], begun: [begun(3, "failed")] }) });
  assert.equal(other.byId("logs").querySelector("code").textContent, "metis log web Db#1");
});

test("a page that is served follows the folder, keeps what failed when nobody answers, and comes back", async () => {
  let answer = () => { throw new Error("gone"); };
  const served = state({ done: [1, 2], begun: [begun(3, "failed")], serves: true });
  const { timers, text, settled, location } = opened({ ...WEB, live: served }, { answer: () => answer() });
  const poll = async () => { timers.findLast(([, time]) => time === 2_000)[0](); await settled(); await settled(); };
  await poll();
  assert.match(text("warn"), /failed with status 3.*cannot be followed \(gone\)/);
  answer = () => ({ ok: true, json: async () => state({ done: [1, 2, 3], begun: [] }) });
  await poll();
  assert.equal(text("warn"), "");
  assert.equal(text("count"), "3 of 5 · 1 ready · 1 waiting");
  assert.equal(location.reloads, 0);
  answer = () => ({ ok: true, json: async () => state({ plan: "b" }) });
  await poll();
  assert.equal(location.reloads, 1);
});

test("a link keeps the moment, the order, the search, the view and the choice", async () => {
  const { explorer, byId, location, page, settled } = opened(WEB);
  explorer.advance([1]);
  explorer.choose([2]);
  byId("find").value = "db";
  await settled();
  byId("copyLink").click();
  assert.equal(location.hash, "#at=1&order=2&find=db&chosen=3");
  const again = opened(WEB, { location: { hash: location.hash } });
  assert.deepEqual([again.explorer.walk.at, `${again.explorer.pin}`, again.byId("find").value], [1, "2", "db"]);
  for (const wrong of ["chosen=<img>", "chosen=99", "chosen=0", "view=time"]) {
    const odd = opened(WEB, { location: { hash: `#at=0&${wrong}` } });
    assert.deepEqual([odd.explorer.pin, odd.explorer.view], [null, "steps"], wrong);
  }
  byId("copyOrder").click();
  await settled();
  assert.equal(page.copied.split("\n")[0], "2  make Db#1");
});

test("the map moves only while a button is held", () => {
  const { byId } = opened(WEB);
  const at = { offsetX: 900, offsetY: 10 };
  byId("map").clientWidth = 190;
  byId("map").fire("pointermove", { buttons: 0, ...at });
  assert.equal(byId("scroll").scrollLeft, 0);
  byId("map").fire("pointermove", { buttons: 1, ...at });
  assert.notEqual(byId("scroll").scrollLeft, 0);
});

test("what a point is beside of is pressed as if it were hit", () => {
  const { byId, explorer } = opened(WEB);
  const { x, width, y } = explorer.picture.layout.markOf[0];
  byId("pane").fire("click", { clientX: x + width + 9, clientY: y });
  assert.equal(explorer.walk.at, 1);
  byId("pane").fire("click", { clientX: x + width + 9, clientY: y + 400 });
  assert.equal(explorer.walk.at, 1);
});

test("a step of a large plan touches what it changes, and no more", async () => {
  const size = 1200;
  const actions = [...Array(size).keys()].map((k) => (k % 3 ? ["move", Math.floor(k / 3), [k], `s${(k % 3) - 1}`, `s${k % 3}`] : ["new", k / 3, []]));
  const types = [...Array(size / 3).keys()].map((one) => [one, "Some"]);
  const { explorer, settled } = opened(told({ types, actions, first: [["Some", "s0"]] }));
  const before = { ...counts };
  explorer.step(1);
  await settled();
  const marks = explorer.picture.layout.marks.length;
  assert.ok(counts.set - before.set < marks + 900, `${counts.set - before.set} attributes are set in a step`);
  assert.ok(counts.made - before.made < 700, `${counts.made - before.made} elements are made in a step`);
});
