"use strict";
// What stands beside the picture: the action that is pointed at, what is ready, and what stands.
const MOST_READY = 60;
const MOST_ROWS = 80;
const MOST_TOLD = 40;
const p = (...children) => h("p", {}, children);
const soft = (...children) => h("span", { class: "no" }, children);
const sign = (isSo) => (isSo ? "✓" : "○");

class Panel {
  constructor(page) {
    this.page = page;
    this.plan = page.plan;
  }

  paint(all) {
    this.sayCount();
    this.sayNow(all);
    this.sayStanding(all);
    this.sayTold();
    if (byId("all").open) this.sayTable();
  }

  ref = (k, text = `${k + 1}`) => h("button", { class: "ref", "data-k": k, title: this.plan.inWords(k) }, text);

  refs(ks, most = 12) {
    const shown = ks.slice(0, most).map((k, place) => [place ? ", " : "", this.ref(k)]);
    return ks.length > most ? [shown, ` and ${ks.length - most} more`] : shown;
  }

  sayCount() {
    const { walk } = this.page;
    const of = grouped(this.plan.actions.keys(), this.page.statusOf);
    const count = (status) => of.get(status)?.length ?? 0;
    const begun = ["running", "failed"].filter(count).map((status) => ` · ${count(status)} ${status}`);
    const rest = `${begun.join("")} · ${count("ready")} ready · ${count("")} waiting`;
    put(byId("count"), `${walk.at} of ${this.plan.size}`, soft(rest));
    byId("slide").value = walk.at;
    byId("slide").setAttribute("aria-valuetext", `${walk.at} of ${this.plan.size} are done`);
    // A button that is off keeps the focus, which one that is disabled loses.
    const off = (ids, isOff) => ids.forEach((id) => byId(id).setAttribute("aria-disabled", isOff));
    off(["undo"], !walk.past.length);
    off(["redo"], !walk.future.length);
    off(["first", "prev"], walk.at === 0);
    off(["next", "last"], walk.at === this.plan.size);
  }

  // What is pointed at or chosen, an action or those of one mark; else the next action.
  sayTold() {
    const { walk, hot, pin } = this.page;
    const next = walk.order.slice(walk.at, walk.at + 1);
    const ks = hot ?? pin ?? next;
    const end = this.plan.size ? "All is done." : "Nothing is to be done.";
    if (ks.length > 1) put(byId("told"), this.severalTold(ks));
    else if (ks.length) put(byId("told"), this.told(ks[0], ks === next));
    else put(byId("told"), h("p", { class: "say" }, end), p(soft("Point at an action to see what it waits for.")));
  }

  severalTold(ks) {
    const { page, plan } = this;
    const count = (status) => ks.filter((k) => page.statusOf(k) === status).length;
    const ready = count("ready");
    const begun = ["running", "failed"].filter(count).map((status) => `${count(status)} ${status}, `);
    const verb = page.live ? "try" : "step";
    return [
      h("p", { class: "say" }, `${ks.length} actions in one mark`),
      p(`${count("done")} done, ${begun.join("")}${ready} ready, ${count("")} waiting`),
      ready ? p(this.does(`${verb} the ${ready} that are ready`, () => page.advance(ks))) : "",
      ks.slice(0, MOST_TOLD).map((k) => p(sign(page.walk.isDone(k)), " ", this.ref(k), ` ${plan.inWords(k)}`)),
      ks.length > MOST_TOLD ? p(soft(`and ${ks.length - MOST_TOLD} more`)) : "",
    ];
  }

  told(k, isNext) {
    const { page, plan } = this;
    const status = page.statusOf(k);
    const begun = page.live?.begun(k);
    const left = [...page.walk.waits.allBefore(k)].filter((q) => !page.walk.isDone(q)).length;
    const states = { done: "done", ready: "ready now", running: "being done", failed: begun?.said };
    const state = `${isNext && !begun ? "next; " : ""}${states[status] ?? `waits for ${left} more`}`;
    return [
      p(h("span", { class: "say" }, `${k + 1}  ${plan.inWords(k)}`), soft(` — ${state}`)),
      page.hot ? "" : this.button(k, status, left),
      this.before(k),
      this.after(k),
      this.timeOf(k, status),
    ];
  }

  // A button that changes what is told, and with that itself: the focus goes on to what is told then.
  does(text, act) {
    const focus = () => (byId("told").querySelector("button:not(.ref)") ?? byId("told")).focus();
    return h("button", { click: () => { act(); queueMicrotask(focus); } }, text);
  }

  button(k, status, left) {
    const { page } = this;
    const verb = page.live ? "try it" : "step it";
    const of = (text, act) => p(this.does(text, act));
    if (status === "ready") return of(verb, () => page.advance([k]));
    if (status === "done") return of("back to before it", () => page.step(page.walk.place[k]));
    return status ? "" : of(`${verb}, with the ${left} that it needs`, () => page.act((walk) => walk.advanceTo(k)));
  }

  before(k) {
    const { plan } = this;
    const { walk } = this.page;
    const { waits, holds } = plan.actions[k];
    const line = (q) => p(sign(walk.isDone(q)), " after ", this.ref(q), ` ${plan.inWords(q)} — ${plan.reason(k, q)}`);
    const isHeld = this.page.keepsBarrier() && plan.barrier[k].length;
    const wall = isHeld ? p(sign(plan.barrier[k].every(walk.isDone)), " after all that is new: the barrier") : "";
    return walk.waits.before[k].length ? [[...waits, ...holds].map(line), wall] : p("It waits for nothing.");
  }

  after(k) {
    const { waits } = this.page.walk;
    const [before, after] = [waits.allBefore(k).size, waits.allAfter(k).size];
    const refs = ["Waiting for it: ", this.refs(waits.after[k]), "."];
    const direct = waits.after[k].length ? refs : "Nothing waits for it.";
    if (before + after <= waits.before[k].length + waits.after[k].length) return p(direct);
    const count = (name, text) => h("span", { class: name }, text);
    return p(direct, " In all ", count("ups", `${before} before it`), ", and ", count("dns", `${after} after it`), ".");
  }

  timeOf(k, status) {
    const { times, live } = this.page;
    const [start, end, slack] = times?.bars[k] ?? [];
    if (start === undefined) return "";
    const of = (time) => `${+time.toFixed(2)} ${times.unit}`.trim();
    if (status === "running") return p(`Since ${of(start)}, for ${of(end - start)}.`);
    const late = slack ? `; it may start ${of(slack)} later.` : "; no time to lose.";
    return p(`At ${+start.toFixed(2)} to ${of(end)}`, live ? "." : late);
  }

  sayNow(all) {
    const { page, plan } = this;
    const found = new Set(page.found);
    const all_ = page.ready();
    const ready = all_.filter((k) => found.has(plan.actions[k].instance));
    const hidden = all_.length - ready.length;
    const item = (k) => h("li", {}, h("button", { "data-k": k }, soft(`${k + 1} `), plan.inWords(k)));
    const any = page.live?.isFollowing() ? "Ready: make may begin any of these" : "Ready now: any of these may be next";
    const nothing = hidden ? "Nothing shown is ready" : "Nothing else is ready";
    const none = page.walk.at === plan.size ? "Nothing is left" : nothing;
    const title = ready.length > 1 ? any : ready.length ? "Ready now" : none;
    const more = ready.length > MOST_READY ? p(soft(`and ${ready.length - MOST_READY} more`)) : "";
    const rest = hidden ? p(soft(`and ${hidden} in lanes that are hidden`)) : "";
    const list = h("ul", {}, ready.slice(0, MOST_READY).map(item));
    put(byId("now"), this.lamps(all), h("h2", {}, title), list, more, rest);
  }

  // Of a rollout: whether what was there is whole, and what is to be.
  lamps(all) {
    const { changes, walk } = this.page;
    if (!changes.length) return "";
    const { old, before, after } = changes.findLast((each) => walk.done().some((k) => k >= each.old)) ?? changes[0];
    const [olds, news] = [before, after].map((wanted) => countAsWanted(all, wanted));
    const part = (count, size) => (count ? `◐ ${count} of ${size}` : "○ nothing");
    const light = (count, size) => h("span", {}, count === size ? "● whole" : part(count, size));
    const lamp = (name, count, { size }) => [h("b", {}, name), light(count, size)];
    const isSafe = olds === before.size || news === after.size || walk.at < old;
    const warning = h("span", { class: "bad", id: "safe" }, isSafe ? "" : "Neither is whole: the service may be down.");
    return h("div", { class: "lamps" }, lamp("before", olds, before), lamp("after", news, after), h("span"), warning);
  }

  sayStanding(all) {
    const { plan, page } = this;
    const found = new Set(page.found);
    const last = page.walk.at ? plan.actions[page.walk.order[page.walk.at - 1]] : {};
    const isFar = (instance) => Number(last.instance !== instance && last.provider !== instance);
    const shown = [...all.keys()].filter((instance) => found.has(instance)).sort((one, other) => one - other);
    if (shown.length > MOST_ROWS) shown.sort((one, other) => isFar(one) - isFar(other));
    const bindings = [...all.values()].reduce((count, { takes }) => count + takes.length, 0);
    const missing = unmet(plan, all).length;
    const lacks = missing ? h("span", { class: "bad" }, ` — ${missing} not met`) : " — each requirement met";
    const title = `What stands: ${plural(all.size, "instance")}, ${plural(bindings, "binding")}`;
    const rows = shown.slice(0, MOST_ROWS).map((instance) => this.standing(all, instance, last.instance === instance));
    const more = shown.length > MOST_ROWS ? p(soft(`and ${shown.length - MOST_ROWS} more: search for them above`)) : "";
    put(byId("stand"), h("h2", {}, title, plan.universe && all.size ? lacks : ""), h("ul", {}, rows), more);
  }

  // An instance with its state, what it offers, what it requires with from whom it has it, and what it will need next.
  standing(all, instance, isFresh) {
    const { plan } = this;
    const { state, takes } = all.get(instance);
    const required = plan.requires(instance, state);
    const met = ([port, count]) => {
      const from = providersOf(plan, all, instance, port);
      const isMet = from.length >= count;
      const asked = `${isMet ? "✓" : "✗"} requires ${count > 1 ? `${count} × ` : ""}${port}`;
      return h("span", { class: isMet ? "" : "bad" }, `${asked}: ${from.map(plan.who).join(", ") || "from nobody"}`);
    };
    const others = takes.filter(([port]) => !required.has(port));
    const next = plan.lanes.get(instance).find((k) => plan.actions[k].verb === "move" && !this.page.walk.isDone(k));
    const lacks = next === undefined ? [] : lacking(plan, all, instance, plan.actions[next].to);
    const offers = [...(plan.stateOf(instance, state)?.provide ?? [])];
    const offered = offers.length ? ` · offers ${offers.slice(0, 4).join(", ")}${offers.length > 4 ? " .." : ""}` : "";
    const said = (word, all) => (all.has(instance) ? ` · ${word} ${all.get(instance)}` : "");
    const [host, wish] = [said("on", plan.hosts), said("wished:", plan.wishes)];
    return h(
      "li",
      { class: isFresh ? "row fresh" : "row" },
      [h("b", {}, plan.who(instance)), ` ${state}`, h("em", {}, host, wish, offered), [...required].map(met)],
      others.map(([port, from]) => h("span", { class: "no" }, `bound: ${port} from ${plan.who(from)}`)),
      lacks.length ? soft(`○ ${plan.actions[next].to} will need ${listed(lacks)}`) : "",
    );
  }

  // How many lanes are shown of how many, and the way back to all of them.
  sayFound() {
    const { page, plan, page: { found, walk } } = this;
    const asked = byId("find").value.trim();
    const all = plan.lanes.size;
    const none = `no lane ${asked ? `has ${asked}` : "is such"}`;
    const lanes = found.length ? `${found.length} of ${plural(all, "lane")}` : none;
    const next = plan.actions[walk.order[walk.at]];
    const isHidden = found.length && next && !found.includes(next.instance);
    const aside = isHidden ? "; the next action is in a lane that is hidden" : "";
    const clear = h("button", { class: "ref", click: () => page.clear() }, "show all");
    put(byId("found"), found.length === all && !asked && !page.only ? "" : [lanes, aside, " – ", clear]);
  }

  sayTable() {
    const { plan, page } = this;
    const cells = (k) => {
      const { waits, holds } = plan.actions[k];
      const [after, start] = [[...waits, ...holds].map((q) => q + 1).join(" "), page.times?.bars[k]?.[0] ?? ""];
      return [k + 1, plan.inWords(k), after, start, page.statusOf(k) || "waits"];
    };
    const row = (texts, tag) => h("tr", {}, texts.map((text) => h(tag, {}, `${text}`)));
    const head = row(["", "action", "after", page.times ? "at" : "", "now"], "th");
    put(byId("table"), head, page.walk.order.map((k) => row(cells(k), "td")));
  }
}
