"use strict";
// What the reader of a plan's page does: buttons, boxes, keys, the pointer, and print.
const ksOf = ({ target }) => target.closest?.("[data-k]")?.dataset.k.split(" ").map(Number) ?? null;

class Controls {
  constructor(page) {
    this.page = page;
    this.player = 0;
    this.setUp();
    this.listen();
    this.listenToPointer();
  }

  // Only what is of use for this plan is offered.
  setUp() {
    const { plan, changes, times, live, start } = this.page;
    const has = Object.fromEntries(plan.actions.map(({ verb }) => [verb, true]));
    for (const role of plan.roles.values()) has[`is-${role}`] = true;
    Object.assign(has, { live, times: times && !live, change: changes.length, leaves: plan.leaves.size > 3 });
    const parts = [...document.querySelectorAll("[data-needs]")];
    for (const part of parts) if (!has[part.dataset.needs]) part.remove();
    const check = (id, isOn) => { if (byId(id)) byId(id).checked = isOn; };
    check("words", plan.size <= 24);
    check("lastOnTop", plan.lanes.size > 12 && !changes.length && !plan.hosts.size);
    check("foldLeaves", plan.lanes.size > 40 && plan.leaves.size > 8);
    check("foldOld", start > 40);
    byId("slide").max = plan.size;
  }

  listen() {
    const { page } = this;
    const on = (name, acts) => document.addEventListener(name, ({ target }) => acts[target.id]?.(target));
    const layOut = () => page.layOut();
    const order = ({ value }) => page.reorder(value);
    const acts = this.acts();
    document.addEventListener("click", ({ target }) => {
      if (target.getAttribute?.("aria-disabled") !== "true") acts[target.id]?.(target);
    });
    on("input", Object.fromEntries([...CHECKS, "find"].map((id) => [id, layOut])));
    byId("legend").addEventListener("click", ({ target }) => {
      const { value } = target.closest("button") ?? {};
      if (value) page.showOnly(value);
    });
    on("input", { slide: ({ value }) => this.play(false) || page.step(+value) });
    on("change", { order, guard: () => this.guard(), follow: () => page.live.follow() });
    byId("names").addEventListener("click", ({ target }) => {
      const lane = target.closest(".lane");
      if (lane) page.lookAt(page.picture.rowOf(lane));
    });
    byId("views").addEventListener("click", ({ target }) => target.value && page.show(target.value));
    byId("all").addEventListener("toggle", () => byId("all").open && page.panel.sayTable());
    document.addEventListener("keydown", (event) => this.press(event));
    let width = innerWidth;
    addEventListener("resize", () => { if (innerWidth !== width) layOut(); width = innerWidth; });
    addEventListener("hashchange", () => page.readAddress());
    page.picture.box.addEventListener("scroll", () => page.picture.lower());
    addEventListener("beforeprint", () => this.fitToPaper());
    addEventListener("afterprint", () => { page.picture.box.style.zoom = 1; layOut(); });
  }

  listenToPointer() {
    const { page } = this;
    const isTold = ({ target }) => target.closest("#told");
    for (const area of ["pane", "beside", "warn"].map(byId)) {
      const on = (name, act) => area.addEventListener(name, (event) => ksOf(event) && act(event, ksOf(event)));
      on("pointerover", (event, ks) => isTold(event) || page.point(ks));
      on("pointerout", ({ relatedTarget }) => relatedTarget?.closest?.("[data-k]") || page.point(null));
      on("focusin", (event, ks) => isTold(event) || page.picture.light(ks));
      on("click", (event, ks) => this.click(event.target, ks));
    }
    byId("pane").addEventListener("click", (event) => {
      const near = ksOf(event) ? null : page.picture.near(event);
      if (near) this.click(near.element, near.ks);
      else if (!ksOf(event)) page.choose(null);
    });
  }

  click(target, ks) {
    const { page } = this;
    const isReady = target.closest("#now");
    page.point(null);
    if (target.closest(".ref") || !page.advance(ks)) page.choose(ks);
    else if (isReady) queueMicrotask(() => (byId("now").querySelector("button") ?? byId("told")).focus());
  }

  acts() {
    const { page } = this;
    return {
      first: () => page.step(0),
      prev: () => page.step(page.walk.at - 1),
      next: () => page.step(page.walk.at + 1),
      last: () => page.step(page.plan.size),
      play: () => this.play(!this.player),
      undo: () => page.act((walk) => walk.undo()),
      redo: () => page.act((walk) => walk.redo()),
      nearer: () => page.zoomBy(1.25),
      farther: () => page.zoomBy(0.8),
      copyLink: (button) => { page.writeAddress(); copied(location.href, button); },
      copyOrder: (button) => copied(this.orderAsList(), button),
      savePicture: () => saved("plan.svg", "image/svg+xml", page.picture.asFile()),
      present: () => (document.fullscreenElement ? document.exitFullscreen() : document.body.requestFullscreen()),
    };
  }

  orderAsList() {
    const { plan, walk } = this.page;
    return walk.order.map((k) => `${k + 1}  ${plan.inWords(k)}\n`).join("");
  }

  // On a mark arrows lead to the one beside it, and blank and Enter press it; on a name they lead to the next name; and
  // the picture itself is scrolled. All this is so only where the focus came by keys.
  pressThere({ key, target }) {
    const { page } = this;
    const isArrow = /^Arrow/.test(key);
    if (target.id === "scroll") return /^(Arrow|Home$|End$|Page)/.test(key);
    if (target.matches(".mark:focus-visible") && (isArrow || key === " " || key === "Enter")) {
      const mark = page.picture.layout.markOf[ksOf({ target })[0]];
      const other = isArrow ? page.picture.beside(mark, key) : null;
      if (other) page.chooseMark(other);
      if (!isArrow && !page.advance(mark.ks)) page.choose(mark.ks);
      return "done";
    }
    if (target.matches(".lane") && (key === " " || key === "Enter")) {
      page.lookAt(page.picture.rowOf(target));
      return "done";
    }
    if (!target.matches(".lane") || (key !== "ArrowUp" && key !== "ArrowDown")) return false;
    const all = [...byId("names").querySelectorAll(".lane")];
    const other = all[all.indexOf(target) + (key === "ArrowUp" ? -1 : 1)];
    if (other) {
      for (const each of [target, other]) each.setAttribute("tabindex", each === other ? 0 : -1);
      other.focus();
    }
    return "done";
  }

  // What a key does. In a field it is typed; on a button or a box blank and Enter press that.
  press(event) {
    const { page } = this;
    const isOthers = event.ctrlKey || event.metaKey || event.altKey;
    const there = isOthers || this.pressThere(event);
    if (there === "done") event.preventDefault();
    if (there) return;
    const { first, prev, next, last, play, undo, redo, present } = this.acts();
    const keys = { ArrowLeft: prev, ArrowRight: next, Home: first, End: last, " ": play, u: undo, r: redo, f: present };
    Object.assign(keys, { j: () => page.chooseNext(1), k: () => page.chooseNext(-1), Escape: () => page.choose(null) });
    Object.assign(keys, { "/": () => byId("find").focus(), b: () => byId("bindings").click() });
    keys.t = () => page.times && page.show(page.view === "time" ? "steps" : "time");
    keys.Enter = () => page.pin && (page.advance(page.pin) || page.choose(page.pin));
    const on = event.target.closest("input[type=search], input[type=checkbox], select, button, summary");
    const isTyped = on?.matches("input[type=search], select");
    if (isTyped && event.key === "Escape") {
      if (on.id === "find" && on.value) page.clear();
      on.blur();
    }
    const isPressed = on && (event.key === " " || event.key === "Enter");
    const isOff = /^[a-z/]$/.test(event.key) && !byId("letters").checked;
    if (isTyped || isPressed || isOff || !Object.hasOwn(keys, event.key)) return;
    event.preventDefault();
    keys[event.key]();
  }

  play(isOn) {
    const { page } = this;
    clearInterval(this.player);
    const next = () => (page.walk.at < page.plan.size ? page.step(page.walk.at + 1) : this.play(false));
    this.player = isOn ? setInterval(next, Math.max(60, Math.min(700, 30_000 / page.plan.size))) : 0;
    put(byId("play"), isOn ? "pause" : "play");
  }

  guard() {
    const { page } = this;
    page.act((walk) => walk.follow(page.plan.waits(page.keepsBarrier())));
    const warning = "By the waits alone the old may go before the new stands: do not carry a rollout out like this.";
    put(byId("warn"), page.keepsBarrier() ? "" : warning);
    page.layOut();
  }

  // On one page, where that can be read at all.
  fitToPaper() {
    const { page } = this;
    page.layOut(980);
    const zoom = Math.max(0.4, Math.min(1, 640 / page.picture.layout.height));
    page.picture.box.style.zoom = zoom;
    page.layOut(980 / zoom);
    if (page.plan.size > 60) return;
    byId("all").open = true;
    page.panel.sayTable();
  }
}
