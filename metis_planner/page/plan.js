"use strict";
// A plan as Python wrote it into the page: its actions, what each of them waits for, and both in words. Nothing in this
// file, in order.js, configuration.js and layout.js knows of a browser: node tries them (tests/page).
const plural = (count, one) => `${count} ${one}${count === 1 ? "" : "s"}`;
const listed = (all) => (all.length < 2 ? all.join("") : `${all.slice(0, -1).join(", ")} and ${all.at(-1)}`);

function grouped(all, keyOf) {
  const found = new Map();
  for (const each of all) {
    const key = keyOf(each);
    if (!found.has(key)) found.set(key, []);
    found.get(key).push(each);
  }
  return found;
}

// An action, which is known by its place `k` in the text. The numbers of a text count from 1.
function actionOf([verb, instance, waits, first, second], k, holds) {
  const [own, more] = [waits, holds.get(k + 1) ?? []].map((all) => all.map((n) => n - 1));
  const action = { k, verb, instance, waits: own, holds: more };
  if (verb === "move") return { ...action, from: first, to: second };
  return verb.endsWith("bind") ? { ...action, port: first, provider: second } : action;
}

// A universe: of each type its states, with what each of them provides, and of how many it requires what.
function universeOf(rows) {
  const stateOf = ([name, provide, require]) => [name, { provide: new Set(provide), require: new Map(require) }];
  return new Map(rows.map(([type, states]) => [type, new Map(states.map(stateOf))]));
}

// A name in three parts, of which the first is cut where there is no room, then the second, and the third never: what
// tells names apart is at their end.
const END_OF_A_NAME = 12;
function nameParts(name) {
  const own = name.lastIndexOf("/") + 1;
  const end = Math.max(own, name.length - END_OF_A_NAME);
  return [name.slice(0, own), name.slice(own, end), name.slice(end)];
}

class Plan {
  constructor(data) {
    const holds = new Map(data.holds);
    this.actions = data.actions.map((row, k) => actionOf(row, k, holds));
    this.size = this.actions.length;
    this.lanes = grouped(this.actions.keys(), (k) => this.actions[k].instance);
    this.universe = data.universe && universeOf(data.universe);
    for (const name of ["types", "first", "roles", "wishes", "hosts"]) this[name] = new Map(data[name]);
    Object.assign(this, { leaves: new Set(data.leaves), phases: data.phases });
    this.barrier = this.actions.map(() => []); // for each action of a removal the last ones of all that is new
    for (const { from, to, last } of this.phases) this.barrier.fill(last.map((n) => n - 1), from, to);
  }

  initial = (instance) => this.first.get(this.types.get(instance)) ?? "";
  stateOf = (instance, state) => this.universe?.get(this.types.get(instance))?.get(state);
  provides = (instance, state, port) => !this.universe || Boolean(this.stateOf(instance, state)?.provide.has(port));
  requires = (instance, state) => this.stateOf(instance, state)?.require ?? new Map();
  who = (instance) => `${this.types.get(instance)}#${instance}`;

  waits(keepsBarrier) {
    const of = ({ k, waits, holds }) => [...new Set([...waits, ...holds, ...(keepsBarrier ? this.barrier[k] : [])])];
    return new Waits(this.actions.map(of));
  }

  inWords(k) {
    const { verb, instance, from, to, port, provider } = this.actions[k];
    const who = this.who(instance);
    if (verb === "new" || verb === "delete") return `${verb === "new" ? "make" : "delete"} ${who}`;
    if (verb === "move") return `${who}: ${from} → ${to}`;
    const other = this.who(provider);
    return verb === "bind" ? `${who} takes ${port} from ${other}` : `${who} lets ${port} of ${other} go`;
  }

  inShort(k) {
    const { verb, to, port } = this.actions[k];
    if (verb === "move") return `→ ${to}`;
    if (verb === "bind") return `takes ${port}`;
    return verb === "unbind" ? `lets ${port} go` : verb;
  }

  // Why action k waits for action q.
  reason(k, q) {
    const [action, other] = [this.actions[k], this.actions[q]];
    const user = this.who(other.instance);
    if (action.holds.includes(q)) return `until then ${user} has its room on ${this.hosts.get(action.instance)}`;
    if (!action.waits.includes(q)) return "the barrier: the new has to stand first";
    if (action.instance === other.instance) return "its own action before";
    if (action.verb !== "bind") return `until then ${user} uses ${this.who(action.instance)}`;
    return `${this.who(action.provider)} has to ${other.verb === "new" ? "be there" : `be in ${other.to}`}`;
  }

  // The instances that are looked for: by a part of a name, or by a whole one, in quotes or with `*` for any part.
  found(asked) {
    const [, quoted, wanted = quoted] = asked.trim().toLowerCase().match(/^"([^"]+)"$|^(.*)$/);
    const parts = wanted.split("*").map((part) => part.replace(/[.+?^${}()|[\]\\/]/g, "\\$&"));
    const pattern = new RegExp(quoted || parts.length > 1 ? `^${parts.join(".*")}$` : parts[0]);
    const portOf = (k) => (this.actions[k].verb === "bind" ? this.actions[k].port : "");
    const namesOf = (instance) => [this.who(instance), this.types.get(instance), this.hosts.get(instance) ?? ""];
    const isFound = ([instance, ks]) =>
      [...namesOf(instance), ...ks.map(portOf)].some((name) => pattern.test(name.toLowerCase()));
    return [...this.lanes].filter((lane) => !wanted || isFound(lane)).map(([instance]) => instance);
  }
}
