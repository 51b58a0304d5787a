"use strict";
// What comes before what, the orders that keep that, and a walk through one of them.
class Waits {
  constructor(before) {
    this.before = before;
    this.after = before.map(() => []);
    before.forEach((all, k) => all.forEach((q) => this.after[q].push(k)));
  }

  allBefore = (k) => closure(k, this.before);
  allAfter = (k) => closure(k, this.after);

  // The stage of each action: the longest chain of waits before it. An action waits for earlier ones alone.
  depths() {
    const depths = [];
    for (const all of this.before) depths.push(all.reduce((deepest, q) => Math.max(deepest, depths[q] + 1), 0));
    return depths;
  }

  areKeptBy(order) {
    const place = placesIn(order);
    const isWhole = order.length === this.before.length && new Set(order).size === order.length;
    return isWhole && this.before.every((all, k) => all.every((q) => place[q] < place[k]));
  }
}

function closure(start, edges) {
  const seen = new Set();
  const stack = [start];
  while (stack.length) {
    for (const next of edges[stack.pop()]) {
      if (seen.has(next)) continue;
      seen.add(next);
      stack.push(next);
    }
  }
  return seen;
}

const placesIn = (order) => order.reduce((place, k, index) => Object.assign(place, { [k]: index }), []);

// The order that keeps the waits and takes the least key each time; of several such the first in the text.
function arranged(waits, keyOf) {
  const left = waits.before.map((all) => all.length);
  const open = [...left.keys()].filter((k) => !left[k]);
  const order = [];
  while (open.length) {
    let best = 0;
    for (let i = 1; i < open.length; i += 1) {
      const [key, least] = [keyOf(open[i]), keyOf(open[best])];
      if (key < least || (key === least && open[i] < open[best])) best = i;
    }
    const k = open[best];
    open[best] = open.at(-1);
    open.pop();
    order.push(k);
    for (const next of waits.after[k]) if (!(left[next] -= 1)) open.push(next);
  }
  return order;
}

// Lane after lane, each with what it still needs: an action has the place of the first that cannot do without it.
function laneAfterLane(waits, lanes) {
  const first = placesIn([...lanes.values()].flat());
  for (const k of [...first.keys()].reverse()) for (const q of waits.after[k]) first[k] = Math.min(first[k], first[q]);
  return arranged(waits, (k) => first[k]);
}

// A walk is one order of all actions that keeps the waits, and how many of it are done. Nothing else says what is
// done, so an action that waits cannot be.
class Walk {
  constructor(waits, at = 0) {
    this.waits = waits;
    this.past = [];
    this.future = [];
    this.set([...waits.before.keys()], at, "printed", false);
  }

  // `name` is what the menu of orders calls it. An order that is left can be come back to, unless it was the folder's.
  set(order, at, name = this.name, isKept = true) {
    if (isKept && order !== this.order) {
      this.past = [...this.past, [this.order, this.at, this.name]].slice(-300);
      this.future = [];
    }
    if (order !== this.order) this.place = placesIn(order);
    this.order = order;
    this.name = name;
    this.at = Math.max(0, Math.min(order.length, at));
  }

  isDone = (k) => this.place[k] < this.at;
  isReady = (k) => !this.isDone(k) && this.waits.before[k].every(this.isDone);
  done = () => this.order.slice(0, this.at);
  step = (at) => this.set(this.order, at);

  // Does these next. What each of them waits for is done, or comes before it among them.
  advance(ks) {
    const chosen = new Set(ks);
    const rest = this.order.slice(this.at).filter((k) => !chosen.has(k));
    this.set([...this.done(), ...ks, ...rest], this.at + ks.length, "own");
  }

  // Does an action, after all that it still waits for.
  advanceTo(k) {
    const needed = this.waits.allBefore(k).add(k);
    this.advance(this.order.filter((q) => needed.has(q) && !this.isDone(q)));
  }

  // What is done stays done; what is left comes as this order has it.
  rearrange(order, name) {
    this.set([...this.done(), ...order.filter((k) => !this.isDone(k))], this.at, name);
  }

  // Goes on under other waits. What these do not allow to be done yet is taken back.
  follow(waits) {
    const was = this.place;
    this.waits = waits;
    const order = arranged(waits, (k) => was[k]);
    const count = order.findIndex((k) => !this.isDone(k));
    this.set(order, count < 0 ? order.length : count);
  }

  undo = () => this.leaveFor(this.past, this.future);
  redo = () => this.leaveFor(this.future, this.past);

  leaveFor(from, to) {
    const other = from.pop();
    if (!other) return;
    to.push([this.order, this.at, this.name]);
    this.set(...other, false);
  }
}

// An order for the address of the page: the numbers up to where the rest ascends, with runs as 3-7.
function written(order) {
  let start = Math.max(0, order.length - 1);
  while (start > 0 && order[start - 1] < order[start]) start -= 1;
  const runs = [];
  for (const k of order.slice(0, start)) {
    if (runs.length && runs.at(-1)[1] === k - 1) runs.at(-1)[1] = k;
    else runs.push([k, k]);
  }
  return runs.map(([from, to]) => (from === to ? `${from + 1}` : `${from + 1}-${to + 1}`)).join(",");
}

// The order that an address names, or null where it names none that keeps the waits.
function orderIn(text, waits) {
  const size = waits.before.length;
  const order = [];
  for (const part of text ? text.split(",") : []) {
    const [, from, to = from] = part.match(/^([1-9]\d{0,8})(?:-([1-9]\d{0,8}))?$/) ?? [];
    if (!(+from <= +to && +to <= size) || order.length > size) return null;
    for (let n = +from; n <= +to; n += 1) order.push(n - 1);
  }
  const named = new Set(order);
  for (let k = 0; k < size; k += 1) if (!named.has(k)) order.push(k);
  return waits.areKeptBy(order) ? order : null;
}
