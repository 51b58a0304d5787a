"use strict";
// As much of a browser as the page asks for: elements with classes, events and selectors. Nothing is laid out in it.
const fs = require("node:fs");
const path = require("node:path");
const vm = require("node:vm");

const HERE = path.join(__dirname, "..", "..", "metis_planner", "page");
const NAMES = [
  "elements", "plan", "order", "configuration", "layout", "picture", "overview", "panel", "live", "controls", "page",
];
const VOID = new Set(["input", "br", "meta", "img"]);
const PART = /([.#]?[\w-]+)|\[([\w-]+)(?:=['"]?([^'"\]]*)['"]?)?\]|:not\(([^)]*)\)|:([\w-]+)/g;
const counts = { made: 0, set: 0 };

class Events {
  #heard = {};
  addEventListener(name, act) { (this.#heard[name] ??= []).push(act); }
  heard(event) { for (const act of this.#heard[event.type] ?? []) act(event); }
}

class Element extends Events {
  constructor(tag, page) {
    super();
    Object.assign(this, { tag, page, attributes: {}, children: [], parent: null, style: { setProperty() {} }, value: "" });
    Object.assign(this, { checked: false, hidden: false, open: false, scrollTop: 0, scrollLeft: 0, scrollHeight: 0 });
    Object.assign(this, { clientWidth: 900, clientHeight: 400, scrollWidth: 900, offsetWidth: 160, own: "" });
    counts.made += 1;
  }

  get id() { return this.attributes.id ?? ""; }
  get names() { return (this.attributes.class ?? "").split(" ").filter(Boolean); }
  get dataset() {
    return Object.fromEntries(Object.entries(this.attributes).flatMap(([k, v]) => (k.startsWith("data-") ? [[k.slice(5), v]] : [])));
  }
  get classList() {
    const set = (names) => this.setAttribute("class", names.join(" "));
    const remove = (...gone) => set(this.names.filter((name) => !gone.includes(name)));
    const add = (...more) => { remove(...more); set([...this.names, ...more]); };
    return { add, remove, contains: (name) => this.names.includes(name), toggle: (name, is) => (is ? add(name) : remove(name)) };
  }
  get textContent() { return this.own + this.children.map((each) => each.textContent).join(""); }
  set textContent(text) { this.replaceChildren(text); }
  get childNodes() { return this.children; }
  get all() { return this.children.flatMap((each) => [each, ...(each.all ?? [])]); }
  getAttribute(name) { return this.attributes[name] ?? null; }
  setAttribute(name, value) {
    counts.set += 1;
    this.attributes[name] = `${value}`;
    if (name === "checked") this.checked = true;
    if (name === "value") this.value = `${value}`;
    if (name === "hidden") this.hidden = true;
  }
  append(...all) {
    for (const each of all) {
      const child = each instanceof Element ? each : { textContent: `${each}`, parent: this };
      child.parent = this;
      this.children.push(child);
    }
  }
  replaceChildren(...all) {
    for (const each of this.all) if (each === this.page.activeElement) this.page.activeElement = this.page.body;
    Object.assign(this, { children: [], own: "" });
    this.append(...all);
  }
  remove() { this.parent.children = this.parent.children.filter((each) => each !== this); }
  isSo(part) {
    const found = [...part.matchAll(PART)];
    return found.every(([, name, attribute, value, not, state]) => {
      if (not) return !this.isSo(not);
      if (state) return state === "focus-visible" && this.page.activeElement === this;
      if (attribute) return attribute in this.attributes && (value === undefined || this.attributes[attribute] === value);
      if (name[0] === "#") return this.id === name.slice(1);
      return name[0] === "." ? this.names.includes(name.slice(1)) : this.tag === name;
    });
  }
  matches(selector) {
    return selector.split(/,(?![^(]*\))/).some((one) => {
      const parts = one.trim().split(/ +/);
      const isUnder = (each, left) => !left.length || (each && (each.isSo(left.at(-1)) ? isUnder(each.parent, left.slice(0, -1)) : isUnder(each.parent, left)));
      return this.isSo(parts.at(-1)) && isUnder(this.parent, parts.slice(0, -1));
    });
  }
  closest(selector) { return this.matches(selector) ? this : this.parent?.closest?.(selector) ?? null; }
  querySelectorAll(selector) { return this.all.filter((each) => each instanceof Element && each.matches(selector)); }
  querySelector(selector) { return this.querySelectorAll(selector)[0] ?? null; }
  getBoundingClientRect() { return { left: 0, top: 0, width: this.offsetWidth, height: 20 }; }
  getContext() { return new Proxy({}, { get: (_, name) => (name === "measureText" ? (text) => ({ width: 6 * text.length }) : () => {}), set: () => true }); }
  focus() {
    this.page.activeElement = this;
    this.fire("focusin");
  }
  blur() { this.page.activeElement = this.page.body; }
  // An event goes up to the document.
  fire(type, more = {}) {
    const event = { type, target: this, isStopped: false, preventDefault() { this.isStopped = true; }, ...more };
    for (let each = this; each; each = each.parent) each.heard(event);
    this.page.heard(event);
    return event;
  }
  click() {
    if (this.attributes.type === "checkbox") this.checked = !this.checked;
    this.fire("click");
    if (this.attributes.type === "checkbox") for (const type of ["input", "change"]) this.fire(type);
  }
}

// The elements of a template, which is our own and well formed.
function filledBy(html, page) {
  const stack = [page.body];
  for (const [, end, tag, attributes, text] of html.matchAll(/<(\/?)([\w-]+)((?:\s+[\w-]+(?:="[^"]*")?)*)\s*\/?>|([^<]+)/g)) {
    if (text !== undefined) { if (text.trim()) stack.at(-1).append(text.trim()); continue; }
    if (end) { stack.pop(); continue; }
    const element = new Element(tag, page);
    for (const [, name, value = ""] of attributes.matchAll(/([\w-]+)(?:="([^"]*)")?/g)) element.setAttribute(name, value);
    stack.at(-1).append(element);
    if (!VOID.has(tag) && !/^(path|rect|circle)$/.test(tag)) stack.push(element);
  }
}

// A page of this data in a window of its own.
function opened(data, more = {}) {
  const page = new Events();
  page.body = new Element("body", page);
  Object.assign(page, { activeElement: page.body, createElement: (tag) => new Element(tag, page) });
  page.createElementNS = (_, tag) => new Element(tag, page);
  page.querySelectorAll = (selector) => page.body.querySelectorAll(selector);
  page.querySelector = (selector) => page.body.querySelector(selector);
  page.getElementById = (id) => page.body.all.find((each) => each.id === id) ?? null;
  const head = '<style>.mark {}</style><p id="sum"><span id="now-there"></span></p><div id="views" hidden><button value="steps">order</button><button value="time">time</button></div>';
  filledBy(head + fs.readFileSync(path.join(HERE, "plan.html"), "utf8").replace(/@@\w+@@/g, ""), page);
  const location = { hash: "", href: "file:///plan.html", reloads: 0, reload() { this.reloads += 1; }, ...more.location };
  const window = new Events();
  const timers = [];
  const context = vm.createContext({
    document: page, location, innerWidth: 1280, devicePixelRatio: 1, console, queueMicrotask, URLSearchParams, timers,
    addEventListener: (name, act) => window.addEventListener(name, act), matchMedia: () => ({ addEventListener() {} }),
    getComputedStyle: () => ({ getPropertyValue: () => "" }), setInterval: () => 1, clearInterval() {}, clearTimeout() {},
    setTimeout: (act, time) => timers.push([act, time]), history: { replaceState: (_a, _b, hash) => { location.hash = hash; } },
    navigator: { clipboard: { writeText: async (text) => { page.copied = text; } } }, fetch: async () => more.answer(),
  });
  const sources = NAMES.map((name) => fs.readFileSync(path.join(HERE, `${name}.js`), "utf8"));
  const explorer = vm.runInContext(`(() => { ${sources.join("\n")}\n return (data) => new PlanPage(data); })()`, context)(data);
  const key = (name, target = page.activeElement, also = {}) => target.fire("keydown", { key: name, ...also });
  const byId = page.getElementById;
  return { explorer, page, location, timers, key, byId, window, text: (id) => byId(id).textContent, settled: () => new Promise((done) => setImmediate(done)) };
}

module.exports = { opened, counts };
