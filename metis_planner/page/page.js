"use strict";
// The page of a plan: what is looked at, and how it changes. The picture, the panel and the map paint it.
const byKeys = (keys) => ({ walk }) => arranged(walk.waits, (k) => keys[k]);
const ORDERS = {
  printed: ({ plan }) => [...plan.actions.keys()],
  stages: (page) => byKeys(page.walk.waits.depths())(page),
  lanes: ({ walk, plan }) => laneAfterLane(walk.waits, plan.lanes),
  random: (page) => byKeys(page.walk.order.map(() => Math.random()))(page),
  time: (page) => byKeys(page.times.bars.map((bar) => bar?.[0] ?? Infinity))(page),
  real: ({ live }) => live.order(),
};
const CHECKS = ["with", "behind", "bindings", "words", "foldLeaves", "foldOld", "byType", "lastOnTop"];
const timesOf = (times) => times && { ...times, chain: new Set(times.chain.map((n) => n - 1)) };

class PlanPage {
  constructor(data) {
    this.plan = new Plan(data);
    this.changes = changesOf(this.plan);
    this.start = this.changes.at(-1)?.old ?? 0; // what a rollout goes on from is done already
    this.walk = new Walk(this.plan.waits(true), this.start);
    this.times = timesOf(data.times ?? data.live?.times);
    Object.assign(this, { view: "steps", hot: null, pin: null, isAsked: false, seen: -1, only: "", zoom: 1 });
    this.picture = new Picture(this);
    this.panel = new Panel(this);
    this.map = new Overview(this);
    this.live = data.live ? new Live(this, data.live) : null;
    this.controls = new Controls(this);
    this.show("steps");
    this.readAddress();
    this.live?.follow();
  }

  keepsBarrier = () => !this.changes.length || byId("guard").checked;
  ready = () => [...this.plan.actions.keys()].filter((k) => this.statusOf(k) === "ready");
  step = (at) => this.act((walk) => walk.step(at));

  statusOf = (k) => {
    if (this.walk.isDone(k)) return "done";
    const begun = this.live?.begun(k);
    if (begun) return begun.status === "running" ? "running" : "failed";
    return this.walk.isReady(k) ? "ready" : "";
  };

  statusOfAll(ks) {
    const all = new Set(ks.map((k) => this.statusOf(k)));
    return all.size === 1 ? [...all][0] : ["failed", "running", "ready"].find((status) => all.has(status)) ?? "";
  }

  // Every change goes this way: from then on the page follows no folder any more, and is painted anew.
  act(change) {
    if (this.live?.isFollowing()) {
      byId("follow").checked = false;
      this.live.follow();
    }
    change(this.walk);
    this.paint();
  }

  // Does these, if they are ready, and says whether any of them was.
  advance(ks) {
    const ready = ks.filter((k) => this.statusOf(k) === "ready");
    if (ready.length) this.act((walk) => walk.advance(ready));
    return ready.length > 0;
  }

  reorder(name) {
    const order = ORDERS[name]?.(this);
    if (order) this.act((walk) => (name === "real" ? walk.set(order, walk.at, name) : walk.rearrange(order, name)));
  }

  instancesFound() {
    const { plan, walk } = this;
    const isOnly = (k) => (this.statusOf(k) || "waits") === this.only || plan.actions[k].verb === this.only;
    const found = plan.found(byId("find").value).filter((one) => !this.only || plan.lanes.get(one).some(isOnly));
    const [up, down] = ["with", "behind"].map((id) => byId(id).checked);
    if (!up && !down) return found;
    const needed = (one) => (up ? [...walk.waits.allBefore(plan.lanes.get(one).at(-1))] : []);
    const behind = (one) => (down ? [...walk.waits.allAfter(plan.lanes.get(one)[0])] : []);
    const more = found.flatMap((one) => [...needed(one), ...behind(one)]);
    const all = new Set([...found, ...more.map((k) => plan.actions[k].instance)]);
    return [...plan.lanes.keys()].filter((instance) => all.has(instance));
  }

  // Only lanes with an action of this status or verb; once more, and all are there again.
  showOnly(name) {
    this.only = this.only === name ? "" : name;
    for (const button of byId("legend").querySelectorAll("button")) {
      button.setAttribute("aria-pressed", button.value === this.only);
    }
    this.layOut();
  }

  clear() {
    byId("find").value = "";
    this.showOnly("");
    byId("find").focus();
  }

  // A name that is pressed: its lane alone, or all that are folded into it.
  lookAt({ instances, label }) {
    const { plan } = this;
    const type = plan.types.get(instances[0]);
    if (instances.length > 1) byId(byId("byType").checked ? "byType" : "foldLeaves").checked = false;
    const isOfOneType = instances.every((one) => plan.types.get(one) === type);
    const name = instances.length === 1 ? `"${label}"` : isOfOneType ? `"${type}"` : "";
    byId("find").value = name && byId("find").value !== name ? name : "";
    this.layOut();
    byId("names").querySelector(".lane")?.focus({ preventScroll: true });
  }

  zoomBy(factor) {
    this.zoom = Math.max(0.25, Math.min(4, this.zoom * factor));
    this.layOut();
  }

  // Lays the picture out anew, on screen or on paper. Where it is kept, it stays scrolled as it is.
  layOut(room, isKept = false) {
    const checks = CHECKS.map((id) => [id, Boolean(byId(id)?.checked)]);
    this.found = this.instancesFound();
    const isNarrow = !room && this.picture.box.clientWidth < 600;
    const show = { ...Object.fromEntries(checks), instances: this.found, isPrinted: Boolean(room), isNarrow };
    this.picture.draw(new Layout(this.plan, { ...show, ...(this.view === "time" ? this.times : {}) }, widthOf), room);
    Object.assign(this, { hot: null, seen: isKept ? this.seen : -1 });
    this.picture.pin(this.pin, true);
    this.painted();
    if (this.pin) this.picture.light(this.pin);
  }

  // However much is done in one turn, it is painted once.
  paint() {
    if (!this.isAsked) queueMicrotask(() => (this.only ? this.layOut(undefined, true) : this.painted()));
    this.isAsked = true;
  }

  painted() {
    this.isAsked = false;
    const all = configuration(this.plan, this.walk.done());
    this.picture.paint(all);
    this.panel.paint(all);
    this.panel.sayFound();
    byId("order").value = this.walk.name;
    const next = this.walk.order[this.walk.at];
    if (this.seen !== this.walk.at && next !== undefined) this.picture.bringIn(next);
    this.seen = this.walk.at;
    this.map.paint();
    this.keepAddress();
  }

  // The address has the moment and the order, the view, the search and what is chosen, so that all can be sent on.
  writeAddress() {
    const { walk, view, pin } = this;
    if (this.live?.isFollowing()) return;
    const [order, find] = [written(walk.order), byId("find").value.trim()];
    const more = `${view === "time" ? "&view=time" : ""}${find && `&find=${encodeURIComponent(find)}`}`;
    const chosen = pin ? `&chosen=${pin.map((k) => k + 1).join(",")}` : "";
    const barrier = this.keepsBarrier() ? "" : "&barrier=off";
    const hash = `#at=${walk.at}${order && `&order=${order}`}${barrier}${more}${chosen}`;
    if (hash !== `#at=${this.start}` || location.hash) history.replaceState(null, "", hash);
  }

  readAddress() {
    const asked = new URLSearchParams(location.hash.slice(1));
    const [at, numbers] = [asked.get("at"), asked.get("order") ?? ""];
    if (at === null) return;
    byId("find").value = (asked.get("find") ?? "").slice(0, 130);
    const isNumber = (n) => /^[1-9]\d{0,8}$/.test(n) && n <= this.plan.size;
    const chosen = (asked.get("chosen") ?? "").split(",").filter(isNumber);
    this.pin = chosen.length ? chosen.slice(0, 999).map((n) => n - 1) : null;
    this.show(asked.get("view") === "time" && this.times ? "time" : "steps");
    if (this.changes.length && this.keepsBarrier() === (asked.get("barrier") === "off")) byId("guard").click();
    const order = orderIn(numbers, this.walk.waits);
    const isRight = order && /^\d{1,9}$/.test(at);
    if (isRight) this.act((walk) => walk.set(order, +at, numbers ? "own" : "printed"));
    else put(byId("warn"), "What the address says behind # is no order of this plan; shown is the printed one.");
  }

  // Points at actions for as long as the pointer is on them; what is chosen stays so until another choice.
  point(ks) {
    if (`${ks}` === `${this.hot}`) return;
    this.hot = ks;
    this.picture.light(ks ?? this.pin);
    this.panel.sayTold();
  }

  choose(ks) {
    this.picture.pin(this.pin, false);
    this.picture.pin(ks, true);
    Object.assign(this, { pin: ks, hot: [] });
    this.point(null);
    this.keepAddress();
  }

  keepAddress() {
    clearTimeout(this.writing);
    this.writing = setTimeout(() => this.writeAddress(), 400);
  }

  chooseNext(by) {
    const { markOf } = this.picture.layout;
    const all = [...new Set(this.walk.order.map((k) => markOf[k]).filter(Boolean))];
    const left = all.findIndex(({ ks }) => ks.some((k) => !this.walk.isDone(k)));
    const from = this.pin ? all.indexOf(markOf[this.pin[0]]) : left - (by > 0 ? 1 : 0);
    const mark = all[Math.max(0, Math.min(all.length - 1, from + by))];
    if (mark) this.chooseMark(mark);
  }

  chooseMark(mark) {
    this.choose(mark.ks);
    mark.element.focus({ preventScroll: true });
    this.picture.bringIn(mark.ks[0]);
  }

  show(view) {
    this.view = view;
    byId("views").hidden = !this.times;
    for (const button of byId("views").children) button.setAttribute("aria-pressed", button.value === view);
    this.layOut();
  }
}
