"use strict";
// Draws a layout as SVG. What the steps change are classes and short texts, so a step costs little.
const SHAPES = {
  new: "M5.5,0A5.5,5.5 0 1 1-5.5,0A5.5,5.5 0 1 1 5.5,0Z",
  move: "M-6-5.5H2L7,0L2,5.5H-6Z",
  bind: "M3.8,0A3.8,3.8 0 1 1-3.8,0A3.8,3.8 0 1 1 3.8,0Z",
  unbind: "M0-5L5,0L0,5L-5,0Z",
  delete: "M-5.5-2.5L-2.5-5.5L0-3L2.5-5.5L5.5-2.5L3,0L5.5,2.5L2.5,5.5L0,3L-2.5,5.5L-5.5,2.5L-3,0Z",
  several: "M-6-6H6V6H-6Z",
};
const CORNERS = { new: 12, bind: 8, unbind: 8 };
const ROLES = { kept: "=", new: "+", going: "−" };
const BARRIER = "the barrier: nothing old goes before all that is new stands";

class Picture {
  constructor(page) {
    Object.assign(this, { page, box: byId("scroll"), names: byId("names"), pane: byId("pane") });
  }

  // The names come first, since they say how much room is left.
  draw(layout, room) {
    this.layout = layout;
    put(this.names, layout.rows.map((row) => this.name(row)));
    layout.rows.find(({ button }) => button)?.button.setAttribute("tabindex", 0);
    this.names.style.setProperty("--top", `${layout.top}px`);
    const { zoom } = this.page;
    for (const part of [this.names, this.pane]) part.style.zoom = room || zoom === 1 ? "" : zoom;
    this.names.style.maxWidth = room || zoom <= 1 ? "" : `${Math.min(60, 30 * zoom)}%`;
    layout.fit(room ? room - this.names.offsetWidth : this.box.clientWidth / zoom - this.namesWidth());
    const { width, height, marks, edges } = layout;
    const label = `${plural(marks.length, "mark")} in ${plural(layout.rows.length, "row")}`;
    const name = marks.length > 150 ? "many" : "";
    const own = { id: "pic", class: name, width, height, role: "group", "aria-label": label };
    const curves = edges.map((edge) => this.curve(edge));
    const parts = [this.ground(), this.lifeLines(), curves, marks.map((mark) => this.mark(mark)), this.walls()];
    this.svg = s("svg", own, parts.map((each) => s("g", {}, each)), s("g", { id: "head" }, this.head()));
    put(this.pane, this.svg);
    this.lower();
  }

  ground() {
    const { zones, rows, width, height, ticks } = this.layout;
    const zoneOf = ({ kind, x, x2 }) => s("rect", { class: `zone ${kind}`, x, y: 0, width: x2 - x, height });
    const stripeOf = (row, place) => {
      const name = row.host ? "host" : place % 2 ? "" : "stripe";
      return name && s("rect", { class: name, x: 0, y: row.y, width, height: row.height });
    };
    const tickOf = ([, x]) => s("line", { class: "axis", x1: x, x2: x, y1: 20, y2: height });
    return [zones.map(zoneOf), rows.map(stripeOf), ticks?.map(tickOf)];
  }

  lifeLines() {
    const lineOf = (line) => {
      const at = { x1: line.x1, x2: line.x2, y1: line.y, y2: line.y };
      line.lived = s("line", { class: "lived", ...at, x2: line.x1 });
      return [s("line", { class: "life", ...at }), line.lived];
    };
    const slackOf = ({ x, y, width, slack }) =>
      s("line", { class: "slack", x1: x + width, x2: x + width + slack, y1: y + 5, y2: y + 5 });
    return [this.layout.lines.map(lineOf), this.layout.slacks.map(slackOf)];
  }

  curve(edge) {
    edge.isKept = false;
    edge.element = s("path", { class: edge.isHold ? "wait hold" : "wait", d: edge.path });
    return edge.element;
  }

  mark(mark) {
    const { bars, isWordy, hasNumbers } = this.layout;
    const { x, y, width, ks, shape } = mark;
    const [isChain, isRect] = [bars && this.page.times.chain.has(ks[0]), bars || isWordy];
    const label = ks.length > 1 ? mark.text : `${mark.number}${this.page.plan.inWords(ks[0])}`;
    const name = `mark ${shape}${isChain ? " chain" : ""}`;
    mark.label = label;
    const own = { "data-k": ks.join(" "), class: name, tabindex: mark.index ? -1 : 0, role: "button" };
    const parts = bars ? this.bar(mark) : isWordy ? this.pill(mark) : [s("path", { d: SHAPES[shape] })];
    const under = { class: "tiny", x: isRect ? width / 2 : 0, y: isWordy ? 22 : 17, "text-anchor": "middle" };
    const number = ks.length === 1 && hasNumbers && !bars ? s("text", under, `${ks[0] + 1}`) : null;
    mark.count = ks.length > 1 ? s("text", under) : null;
    mark.corner = bars ? `${width},-8` : isWordy ? `${width},-12` : "8,-8";
    mark.status = "";
    const at = { transform: `translate(${isRect ? x : x + width / 2},${y})`, "aria-label": `${label}, waits` };
    mark.element = s("g", { ...own, ...at }, parts, number, mark.count);
    return mark.element;
  }

  bar({ width, text }) {
    const shown = widthOf(text) + 8 < width ? s("text", { x: 5, y: 4 }, text) : "";
    return [s("rect", { y: -8, width, height: 16, rx: 2 }), shown];
  }

  pill({ width, shape, number, text }) {
    const rect = s("rect", { y: -12, width, height: 24, rx: CORNERS[shape] ?? 3 });
    return [rect, s("text", { x: 7, y: 4 }, s("tspan", { class: "number" }, number), text)];
  }

  walls() {
    const { zones, height, bars } = this.layout;
    const wallOf = ({ x }) => s("line", { class: "wall", x1: x, x2: x, y1: 0, y2: height }, s("title", {}, BARRIER));
    this.cursor = bars ? s("line", { class: "cursor", x1: 0, x2: 0, y1: 18, y2: height }) : null;
    return [zones.filter(({ kind }) => kind === "removal").map(wallOf), this.cursor];
  }

  // What stays on top while the lanes are scrolled: the names of the phases, or the times.
  head() {
    const { zones, ticks, top, width } = this.layout;
    const nameOf = ({ kind, name, x, x2 }) => {
      const shown = [name, kind].find((text) => widthOf(text) + 14 < x2 - x);
      const ground = s("rect", { class: `zone ${kind}`, x, y: 0, width: x2 - x, height: top - 2 });
      return [ground, shown ? s("text", { class: "cap", x: x + 10, y: 17 }, shown) : ""];
    };
    if (!ticks) return zones.map(nameOf);
    const { unit } = this.page.times;
    const timeOf = ([time, x], place) => {
      const own = { class: "cap", x, y: 15, "text-anchor": place ? "middle" : "start" };
      return s("text", own, place ? `${time}` : `${time} ${unit}`);
    };
    return [s("rect", { class: "ground", width, height: top - 2 }), ticks.map(timeOf)];
  }

  name(row) {
    const { roles, wishes } = this.page.plan;
    const [role, wish] = row.instances.length === 1 ? [roles, wishes].map((all) => all.get(row.instances[0])) : [];
    const title = role ? `${row.label}: ${role}${wish ? `, as is wished: ${wish}` : ""}` : row.label;
    const isShort = row.label.length <= END_OF_A_NAME;
    const partOf = (part, place) => part && h("span", { class: `part${place}` }, part);
    const parts = isShort ? row.label : nameParts(row.label).map(partOf);
    const shown = [role && h("small", { class: role }, ROLES[role], " "), parts];
    const own = { title, class: row.host ? "host" : "" };
    row.state = h("i");
    const lane = { class: isShort ? "lane" : "lane cut", tabindex: -1, role: "button" };
    const name = h("b", row.host ? {} : lane, shown);
    row.button = row.host ? null : name;
    row.name = h("div", own, name, wish && h("small", { class: "wide" }, wish), row.state);
    row.name.style.height = `${row.height}px`;
    return row.name;
  }

  paint(all) {
    const { page: { walk }, layout } = this;
    for (const mark of layout.marks) this.paintMark(mark);
    for (const edge of layout.edges) {
      const isKept = edge.from.status === "done";
      if (edge.isKept !== isKept) edge.element.classList.toggle("kept", isKept);
      edge.isKept = isKept;
    }
    for (const { marks, lived, x1, x2 } of layout.lines) {
      const count = marks.findIndex(({ status }) => status !== "done");
      const last = count < 0 ? null : marks[count - 1];
      lived.setAttribute("x2", count < 0 ? x2 : last ? last.x + last.width : x1);
    }
    for (const row of layout.rows) if (!row.host) this.paintName(row, all);
    if (this.cursor) {
      const ends = walk.done().map((k) => layout.bars[k]?.[1] ?? layout.start);
      const x = layout.xAt(ends.reduce((most, end) => Math.max(most, end), layout.start));
      for (const name of ["x1", "x2"]) this.cursor.setAttribute(name, x);
    }
    this.pane.classList.toggle("off", !this.page.keepsBarrier());
  }

  paintMark(mark) {
    const status = this.page.statusOfAll(mark.ks);
    const [done, all, hasRoom] = [mark.ks.filter(this.page.walk.isDone).length, mark.ks.length, this.layout.gap > 20];
    if (mark.count) put(mark.count, done && done < all ? `${done}${hasRoom ? `/${all}` : ""}` : "");
    if (status === mark.status) return;
    if (mark.status) mark.element.classList.remove(mark.status);
    if (status) mark.element.classList.add(status);
    mark.element.setAttribute("aria-label", `${mark.label}, ${status || "waits"}`);
    if (mark.status === "failed") mark.element.querySelector(".badge").remove();
    if (status === "failed") {
      const sign = [s("circle", { r: 7 }), s("text", { y: 4, "text-anchor": "middle" }, "!")];
      mark.element.append(s("g", { class: "badge", transform: `translate(${mark.corner})` }, sign));
    }
    mark.status = status;
  }

  paintName(row, all) {
    const standing = row.instances.filter((instance) => all.has(instance));
    const states = [...new Set(standing.map((instance) => all.get(instance).state))];
    const { plan, walk } = this.page;
    const isGone = row.instances.every((instance) => walk.isDone(plan.lanes.get(instance)[0]));
    const text = states.length > 1 ? `${standing.length} there` : states[0] ?? (isGone ? "deleted" : "");
    if (row.state.textContent !== text) row.state.textContent = text;
    row.name.classList.toggle("off", !standing.length);
  }

  // Lights up what these actions wait for, and what waits for them.
  light(ks) {
    this.svg.classList.toggle("dim", ks !== null);
    for (const element of this.svg.querySelectorAll(".lit")) element.classList.remove("lit", "before", "after", "here");
    if (ks === null) return;
    const { waits } = this.page.walk;
    const before = new Set([...ks, ...ks.flatMap((k) => [...waits.allBefore(k)])]);
    const after = new Set([...ks, ...ks.flatMap((k) => [...waits.allAfter(k)])]);
    const names = [["here", new Set(ks)], ["before", before], ["after", after]];
    for (const mark of this.layout.marks) {
      const [name] = names.find(([, all]) => mark.ks.some((k) => all.has(k))) ?? [];
      if (name) mark.element.classList.add("lit", name);
    }
    for (const { waits: pairs, element } of this.layout.edges) {
      if (pairs.some(([, k]) => before.has(k))) element.classList.add("lit");
      else if (pairs.some(([q]) => after.has(q))) element.classList.add("lit", "after");
    }
  }

  rowOf = (lane) => this.layout.rows.find(({ button }) => button === lane);

  // The mark at a point, or the nearest one of those at most 12 away: what is small to see is not small to tap.
  near({ clientX, clientY }) {
    const { left, top } = this.svg.getBoundingClientRect();
    const [x, y] = [(clientX - left) / this.page.zoom, (clientY - top) / this.page.zoom];
    const farOf = (mark) => Math.max(mark.x - x, x - mark.x - mark.width, Math.abs(mark.y - y) - 4);
    return this.layout.marks.reduce((near, mark) => (farOf(mark) <= (near ? farOf(near) : 12) ? mark : near), null);
  }

  pin(ks, isPinned) {
    for (const k of ks ?? []) this.layout.markOf[k]?.element.classList.toggle("pin", isPinned);
    const mark = this.layout.markOf[ks?.[0]];
    if (mark && isPinned) this.rove(mark);
  }

  // Of all marks one is reached by Tab: the one that was chosen last. From there arrows lead on.
  rove(mark) {
    this.svg.querySelector(".mark[tabindex='0']")?.setAttribute("tabindex", -1);
    mark.element.setAttribute("tabindex", 0);
  }

  // The mark beside one in its row, or the nearest one of the next row that has any.
  beside(mark, key) {
    const { marks } = mark.row;
    const along = { ArrowLeft: -1, ArrowRight: 1 }[key];
    if (along) return marks[marks.indexOf(mark) + along];
    const rows = this.layout.rows.filter((row) => row.marks.length);
    const row = rows[rows.indexOf(mark.row) + (key === "ArrowUp" ? -1 : 1)];
    return row?.marks.reduce((near, each) => (Math.abs(each.x - mark.x) < Math.abs(near.x - mark.x) ? each : near));
  }

  // Scrolls the lanes so that an action is seen. The names cover what is left of it.
  bringIn(k) {
    const mark = this.layout.markOf[k];
    if (!mark) return;
    const { box, page: { zoom } } = this;
    const [room, x, y] = [box.clientWidth - this.namesWidth() * zoom, mark.x * zoom, mark.y * zoom];
    const isAside = x < box.scrollLeft + 10 || x + mark.width * zoom > box.scrollLeft + room - 10;
    if (isAside) box.scrollLeft = x - room / 3;
    const isBelow = y < box.scrollTop + 40 || y > box.scrollTop + box.clientHeight - 20;
    if (isBelow) box.scrollTop = y - box.clientHeight / 2;
  }

  // How wide the names are before they are zoomed.
  namesWidth = () => this.names.getBoundingClientRect().width / this.page.zoom;
  lower = () => byId("head").setAttribute("transform", `translate(0,${this.box.scrollTop / this.page.zoom})`);

  // The picture as a file of its own, with the names of the lanes and its style.
  asFile() {
    const { rows, width, height } = this.layout;
    const side = 16 + Math.max(0, ...rows.map(({ label }) => widthOf(label)));
    const nameOf = ({ label, y, height: own }) => s("text", { x: 8, y: y + own / 2 + 4, class: "lane-name" }, label);
    const style = s("style", {}, document.querySelector("style").textContent);
    const size = { xmlns: SVG, width: side + width, height, viewBox: `0 0 ${side + width} ${height}` };
    const ground = s("rect", { class: "ground", width: side + width, height });
    const drawn = s("g", { transform: `translate(${side},0)` });
    for (const part of this.svg.childNodes) drawn.append(part.cloneNode(true));
    const own = { ...size, class: this.svg.getAttribute("class") };
    return s("svg", own, style, ground, rows.map(nameOf), drawn).outerHTML;
  }
}
