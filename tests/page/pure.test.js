"use strict";
// Tries what of the page needs no browser: `node --test tests/page`. What is expected was worked out by hand.
const assert = require("node:assert/strict");
const fs = require("node:fs");
const path = require("node:path");
const { test } = require("node:test");
const vm = require("node:vm");

const HERE = path.join(__dirname, "..", "..", "metis_planner", "page");
const NAMES = ["plan", "order", "configuration", "layout"];
const SOURCES = NAMES.map((name) => fs.readFileSync(path.join(HERE, `${name}.js`), "utf8"));
const { Plan, Waits, Walk, Layout, arranged, laneAfterLane, written, orderIn, configuration, unmet, changesOf, countAsWanted } =
  vm.runInThisContext(`(() => { ${SOURCES.join("\n")}
    return { Plan, Waits, Walk, Layout, arranged, laneAfterLane, written, orderIn, configuration, unmet, changesOf, countAsWanted };
  })()`);

const told = (more) => ({
  types: [], first: [], roles: [], hosts: [], holds: [], leaves: [], universe: null,
  phases: [{ kind: "all", name: "", from: 0, to: more.actions.length, last: [] }], ...more,
});
// A web server and its database, as `metis plan examples/web.json Web:run` prints them.
const WEB = told({
  types: [[0, "Web"], [1, "Db"]],
  first: [["Web", "off"], ["Db", "off"]],
  leaves: [1],
  universe: [["Web", [["off", [], []], ["run", [], [["sql", 1]]]]], ["Db", [["off", [], []], ["on", ["sql"], []]]]],
  actions: [["new", 0, []], ["new", 1, []], ["move", 1, [2], "off", "on"], ["bind", 0, [1, 3], "sql", 1], ["move", 0, [4], "off", "run"]],
});
// The same, then a second pair beside it, and the removal of the first.
const ROLLED = told({
  ...WEB,
  types: [[0, "Web"], [1, "Db"], [2, "Web"], [3, "Db"]],
  leaves: [1, 3],
  actions: [
    ...WEB.actions,
    ["new", 2, []], ["new", 3, []], ["move", 3, [7], "off", "on"], ["bind", 2, [6, 8], "sql", 3], ["move", 2, [9], "off", "run"],
    ["delete", 0, [5]], ["delete", 1, [3, 11]],
  ],
  phases: [
    { kind: "old", name: "the old", from: 0, to: 5, last: [] },
    { kind: "new", name: "the new, beside it", from: 5, to: 10, last: [] },
    { kind: "removal", name: "the removal", from: 10, to: 12, last: [10, 8] },
  ],
});
const SHOW = { bindings: true, words: false, foldLeaves: false, foldOld: false, byType: false, lastOnTop: false };
const laidOut = (plan, show = {}, room = 800) =>
  new Layout(plan, { ...SHOW, instances: [...plan.lanes.keys()], ...show }, (text) => 6 * text.length).fit(room);

function random(seed) {
  let state = seed;
  return (below) => {
    state = (state * 1103515245 + 12345) % 2147483648;
    return Math.floor((state / 2147483648) * below);
  };
}

// Waits of which each is for an action before.
function drawnWaits(draw, size) {
  return [...Array(size).keys()].map((k) => [...new Set([...Array(k ? draw(4) : 0)].map(() => draw(k)))]);
}

const keeps = (order, before) =>
  new Set(order).size === before.length && before.every((all, k) => all.every((q) => order.indexOf(q) < order.indexOf(k)));

test("what an action waits for is there both ways", () => {
  const waits = new Plan(WEB).waits(true);
  assert.deepEqual(waits.before, [[], [], [1], [0, 2], [3]]);
  assert.deepEqual(waits.after, [[3], [2], [3], [4], []]);
  assert.deepEqual([...waits.allBefore(4)].sort(), [0, 1, 2, 3]);
  assert.deepEqual([...waits.allAfter(1)].sort(), [2, 3, 4]);
  assert.deepEqual(waits.depths(), [0, 0, 1, 2, 3]);
});

test("what becomes of an instance, and what is wished of it", () => {
  const plan = new Plan({ ...WEB, roles: [[0, "kept"], [1, "going"]], wishes: [[1, "retire 1"]] });
  assert.deepEqual([0, 1].map((one) => [plan.roles.get(one), plan.wishes.get(one)]), [["kept", undefined], ["going", "retire 1"]]);
  assert.equal(new Plan(WEB).wishes.size, 0);
});

test("actions in words", () => {
  const plan = new Plan(WEB);
  assert.deepEqual([0, 2, 3].map((k) => plan.inWords(k)), ["make Web#0", "Db#1: off → on", "Web#0 takes sql from Db#1"]);
  assert.deepEqual([0, 2, 3].map((k) => plan.inShort(k)), ["new", "→ on", "takes sql"]);
  assert.equal(plan.reason(3, 2), "Db#1 has to be in on");
  assert.equal(plan.reason(3, 0), "its own action before");
  const rolled = new Plan(ROLLED);
  assert.equal(rolled.reason(11, 10), "until then Web#0 uses Db#1");
  assert.equal(rolled.reason(10, 9), "the barrier: the new has to stand first");
});

test("a walk does what is ready and nothing else", () => {
  const walk = new Walk(new Plan(WEB).waits(true));
  const ready = () => walk.order.filter(walk.isReady).sort();
  assert.deepEqual(ready(), [0, 1]);
  walk.advance([1]);
  assert.deepEqual([walk.order, walk.at, walk.name], [[1, 0, 2, 3, 4], 1, "own"]);
  assert.deepEqual(ready(), [0, 2]);
  walk.advanceTo(3);
  assert.deepEqual([walk.done(), ready()], [[1, 0, 2, 3], [4]]);
  walk.undo();
  assert.deepEqual([walk.done(), ready()], [[1], [0, 2]]);
  walk.undo();
  assert.deepEqual([walk.order, walk.at, walk.name], [[0, 1, 2, 3, 4], 0, "printed"]);
  walk.step(99);
  assert.equal(walk.at, 5);
  walk.step(-1);
  assert.equal(walk.at, 0);
});

test("what is done stays done where the rest comes in another order", () => {
  const walk = new Walk(new Waits([[], [], [0], [1]]));
  walk.advance([1]);
  walk.rearrange([0, 2, 1, 3], "stages");
  assert.deepEqual([walk.order, walk.at, walk.name], [[1, 0, 2, 3], 1, "stages"]);
});

test("the barrier holds a removal until all that is new is done", () => {
  const plan = new Plan(ROLLED);
  assert.deepEqual(plan.waits(true).before[10], [4, 9, 7]);
  assert.deepEqual(plan.waits(false).before[10], [4]);
  const walk = new Walk(plan.waits(false), 5);
  walk.advance([10]);
  walk.follow(plan.waits(true));
  assert.deepEqual([walk.done(), walk.isReady(10)], [[0, 1, 2, 3, 4], false]);
});

test("room on a host is waited for", () => {
  const plan = new Plan(told({ ...ROLLED, hosts: [[0, "a"], [1, "a"], [2, "b"], [3, "b"]], holds: [[11, [9]]] }));
  assert.deepEqual(plan.waits(false).before[10], [4, 8]);
  assert.equal(plan.reason(10, 8), "until then Web#2 has its room on a");
});

test("orders keep the waits, whatever these are", () => {
  const draw = random(3);
  for (let round = 0; round < 60; round += 1) {
    const size = 1 + draw(25);
    const before = drawnWaits(draw, size);
    const waits = new Waits(before);
    const keys = before.map(() => draw(5));
    const lanes = new Map([[0, [...Array(size).keys()].filter((k) => k % 2)], [1, [...Array(size).keys()].filter((k) => !(k % 2))]]);
    for (const order of [arranged(waits, (k) => keys[k]), arranged(waits, (k) => -k), laneAfterLane(waits, lanes)]) {
      assert.ok(keeps(order, before));
      assert.ok(waits.areKeptBy(order));
      assert.deepEqual(orderIn(written(order), waits), order);
    }
    const walk = new Walk(waits);
    for (let step = 0; step < 30; step += 1) {
      const ready = walk.order.filter(walk.isReady);
      if (ready.length) walk.advance([ready[draw(ready.length)]]);
      if (draw(4) === 0) walk.undo();
      if (draw(4) === 0) walk.advanceTo(draw(size));
      assert.ok(keeps(walk.order, before));
    }
  }
});

test("lane after lane", () => {
  const free = new Waits([[], [], [0], [1]]);
  assert.deepEqual(laneAfterLane(free, new Map([[0, [0, 2]], [1, [1, 3]]])), [0, 2, 1, 3]);
  assert.deepEqual(laneAfterLane(new Waits([[], [], [0], [1], [2, 3]]), new Map([[0, [0, 2, 4]], [1, [1, 3]]])), [0, 2, 1, 3, 4]);
});

test("an order in an address", () => {
  const waits = new Plan(WEB).waits(true);
  assert.deepEqual([[0, 1, 2, 3, 4], [1, 0, 2, 3, 4], [1, 2, 0, 3, 4], [4, 2, 3, 0, 1]].map(written), ["", "2", "2-3", "5,3-4"]);
  assert.deepEqual(orderIn("2-3", waits), [1, 2, 0, 3, 4]);
  assert.deepEqual(orderIn("", waits), [0, 1, 2, 3, 4]);
  for (const wrong of ["3", "2,2", "0", "1-9", "6", "x", "2-", "-2", "2,,3", " 2", "1-4294967295", "3-2", "<img>"]) {
    assert.equal(orderIn(wrong, waits), null, wrong);
  }
});

test("what is there after some actions", () => {
  const plan = new Plan(ROLLED);
  const after = (count) => configuration(plan, [...Array(count).keys()]);
  assert.deepEqual([...after(0)], []);
  assert.deepEqual([...after(5)], [[0, { state: "run", takes: [["sql", 1]] }], [1, { state: "on", takes: [] }]]);
  assert.deepEqual([...after(12).keys()], [2, 3]);
});

test("one binding of several is let go", () => {
  const actions = [["new", 0, []], ["new", 1, []], ["new", 2, []], ["bind", 0, [1, 2], "p", 1], ["bind", 0, [3, 4], "p", 2],
    ["bind", 0, [5, 2], "q", 1], ["unbind", 0, [6], "p", 1]];
  const plan = new Plan(told({ types: [[0, "A"], [1, "B"], [2, "B"]], actions }));
  assert.deepEqual(configuration(plan, [0, 1, 2, 3, 4, 5, 6]).get(0).takes, [["p", 2], ["q", 1]]);
});

test("what is required and is not there", () => {
  const plan = new Plan(WEB);
  assert.deepEqual(unmet(plan, configuration(plan, [0, 1, 2, 3, 4])), []);
  assert.deepEqual(unmet(plan, configuration(plan, [0, 1, 3, 4])), ["sql"]); // the database is bound, and still off
  assert.deepEqual(unmet(plan, configuration(plan, [0, 4])), ["sql"]);
  const two = new Plan(told({ ...WEB, universe: [["Web", [["off", [], []], ["run", [], [["sql", 2]]]]], WEB.universe[1]] }));
  assert.deepEqual(unmet(two, configuration(two, [0, 1, 2, 3, 4])), ["sql"]);
});

test("of a rollout, what was there and what is to be", () => {
  const plan = new Plan(ROLLED);
  const [{ old, before, after }] = changesOf(plan);
  assert.deepEqual([old, [...before.keys()], [...after.keys()]], [5, [0, 1], [2, 3]]);
  const counts = (ks) => [before, after].map((wanted) => countAsWanted(configuration(plan, ks), wanted));
  assert.deepEqual(counts([0, 1, 2, 3, 4]), [2, 0]);
  assert.deepEqual(counts([0, 1, 2, 3]), [1, 0]);
  assert.deepEqual(counts([0, 1, 2, 3, 4, 5, 6, 7, 8, 9]), [2, 2]);
  assert.deepEqual(counts([0, 1, 2, 3, 4, 5, 6, 7, 8, 9, 10]), [1, 2]);
});

test("names that every object has are names like others", () => {
  const universe = [["__proto__", [["2", [], []], ["1", ["constructor"], []]]]];
  const actions = [["new", 0, []], ["move", 0, [1], "2", "1"]];
  const plan = new Plan(told({ types: [[0, "__proto__"]], first: [["__proto__", "2"]], universe, actions }));
  assert.equal(configuration(plan, [0]).get(0).state, "2");
  assert.ok(plan.provides(0, "1", "constructor"));
  assert.ok(!plan.provides(0, "2", "valueOf"));
});

test("a search is no pattern of a script", () => {
  const plan = new Plan(WEB);
  assert.deepEqual(["web", "WEB#0", "sql", "d*", "*b", "", " db ", "w.b", "(", "[", "\\", "$", "*x*"].map((text) => plan.found(text)),
    [[0], [0], [0], [1], [0, 1], [0, 1], [1], [], [], [], [], [], []]);
});

test("each action is in one mark, and marks of a row do not meet", () => {
  const shows = [{}, { words: true }, { byType: true }, { foldLeaves: true }, { foldOld: true }, { bindings: false }, { lastOnTop: true }];
  for (const show of shows) {
    const plan = new Plan(ROLLED);
    const layout = laidOut(plan, show);
    const drawn = [...plan.actions.keys()].filter((k) => show.bindings !== false || plan.actions[k].verb !== "bind");
    assert.deepEqual(layout.marks.flatMap(({ ks }) => ks).sort((one, other) => one - other), drawn);
    for (const { marks } of layout.rows) {
      marks.slice(1).forEach((mark, place) => assert.ok(mark.x >= marks[place].x + marks[place].width, JSON.stringify(show)));
    }
    for (const { from, to } of layout.edges) assert.ok(from.x < to.x);
  }
});

test("columns are what may go on at once", () => {
  const layout = laidOut(new Plan(WEB));
  assert.deepEqual(layout.marks.map(({ ks, stage }) => [ks[0], stage]), [[0, 0], [3, 2], [4, 3], [1, 0], [2, 1]]);
  assert.deepEqual(layout.edges.map(({ waits }) => waits), [[[2, 3]]]);
  const without = laidOut(new Plan(WEB), { bindings: false });
  assert.deepEqual(without.edges.map(({ waits }) => waits), [[[2, 4]]]); // what the binding waited for
  assert.deepEqual(without.stage.filter((stage) => stage !== undefined), [0, 0, 1, 2]);
});

test("rows that are folded", () => {
  const labels = (show) => laidOut(new Plan(ROLLED), show).rows.map(({ label }) => label);
  assert.deepEqual(labels({}), ["Web#0", "Db#1", "Web#2", "Db#3"]);
  assert.deepEqual(labels({ byType: true }), ["Web × 2", "Db × 2"]);
  assert.deepEqual(labels({ foldLeaves: true }), ["Web#0", "Web#2", "2 that need nothing"]);
  const old = laidOut(new Plan(ROLLED), { foldOld: true });
  assert.deepEqual(old.rows[0].marks.map(({ ks }) => ks), [[0, 3, 4], [10]]);
  assert.equal(old.rows[0].marks[0].text, "3 actions");
  const hosts = [[0, "left"], [1, "right"], [2, "left"], [3, "right"]];
  const placed = laidOut(new Plan(told({ ...ROLLED, hosts }))).rows;
  assert.deepEqual(placed.map(({ host, label }) => (host ? [label] : label)), [["left"], "Web#0", "Web#2", ["right"], "Db#1", "Db#3"]);
});

test("zones of a rollout follow one another", () => {
  for (const show of [{}, { words: true }, { foldOld: true }]) {
    const { zones, width, marks } = laidOut(new Plan(ROLLED), show);
    assert.deepEqual(zones.map(({ kind }) => kind), ["old", "new", "removal"]);
    assert.deepEqual([zones[0].x, zones[2].x2], [0, width]);
    assert.deepEqual([zones[0].x2, zones[1].x2], [zones[1].x, zones[2].x]);
    for (const { ks, x } of marks) {
      const zone = zones.find(({ from, to }) => from <= ks[0] && ks[0] < to);
      assert.ok(zone.x <= x && x < zone.x2);
    }
  }
});

test("by time a bar is as long as its action", () => {
  const bars = [[0, 20, 60], [0, 20, 0], [20, 80, 0], [80, 81, 0], [81, 141, 0]];
  const layout = laidOut(new Plan(WEB), { bars, finish: 141, chain: new Set([1, 2, 3, 4]) });
  const of = (k) => layout.markOf[k];
  assert.ok(Math.abs(of(2).width / of(4).width - 1) < 1e-9);
  assert.ok(Math.abs(of(2).x - of(1).x - of(1).width) < 1e-9);
  assert.ok(layout.ticks.length >= 3 && layout.ticks.every(([time]) => time <= 141));
  assert.deepEqual(layout.slacks.map(({ ks }) => ks[0]), [0]);
  const folded = laidOut(new Plan(WEB), { bars, finish: 141, folds: [[80.5, "2 h later"]] });
  assert.deepEqual(folded.ticks.at(-1), ["2 h later", folded.xAt(80.5)]);
  assert.ok(folded.ticks.slice(0, -1).every(([, x]) => Math.abs(x - folded.xAt(80.5)) > 60));
});
