"use strict";
// Where everything is in the picture. A column is a stage: what may go on at once. By time, columns are a scale. A row
// is an instance, or several that are folded into one. A mark is an action, or those of one row and stage.
const SIDE = 14; // what is left free on both sides
const TICK_ROOM = 110;

// `show` says what is drawn, `measure` how wide a text is.
class Layout {
  constructor(plan, show, measure) {
    Object.assign(this, { plan, show, measure, bars: show.bars, near: [] });
    this.isWordy = show.words && !this.bars;
    this.top = this.bars || plan.phases.length > 1 ? 26 : 6;
    this.setStages();
    this.setRows();
    this.setMarks();
  }

  // Into so much room, if it can be: else the picture is wider, and is scrolled.
  fit(room) {
    this.room = room - 4;
    if (this.bars) this.setScale();
    else if (this.isWordy) this.setWordColumns();
    else this.setEvenColumns();
    this.setEdges();
    this.setLines();
    this.setZones();
    return this;
  }

  isDrawn = (k) => this.show.bindings || !this.plan.actions[k].verb.endsWith("bind");
  xAt = (time) => SIDE + (time - this.start) * this.scale;

  // What an action waits for, with what is not drawn left out.
  nearest(k) {
    if (this.near[k]) return this.near[k];
    const { waits, holds } = this.plan.actions[k];
    const all = [...waits, ...holds].flatMap((q) => (this.isDrawn(q) ? [q] : this.nearest(q)));
    this.near[k] = [...new Set(all)];
    return this.near[k];
  }

  setStages() {
    this.stage = [];
    this.zones = [];
    let end = 0;
    for (const phase of this.plan.phases) {
      const first = end;
      const isFolded = phase.kind === "old" && this.show.foldOld;
      for (let k = phase.from; k < phase.to; k += 1) {
        if (!this.isDrawn(k)) continue;
        const last = isFolded ? [] : this.nearest(k);
        this.stage[k] = last.reduce((most, q) => Math.max(most, this.stage[q] + 1), first);
        end = Math.max(end, this.stage[k] + 1);
      }
      this.zones.push({ ...phase, first, end });
    }
    this.stageCount = end;
  }

  setRows() {
    const lastOf = (instance) => {
      const k = this.plan.lanes.get(instance).findLast((each) => this.isDrawn(each));
      return (this.bars ? this.bars[k]?.[0] : this.stage[k]) ?? 0;
    };
    const shown = [...this.show.instances];
    if (this.show.lastOnTop) shown.sort((one, other) => lastOf(other) - lastOf(one) || one - other);
    const hosts = this.plan.hosts.size ? grouped(shown, (instance) => this.plan.hosts.get(instance)) : null;
    const hostRows = ([host, all]) => [{ host, label: host, instances: [] }, ...this.folded(all)];
    this.rows = hosts ? [...hosts].flatMap(hostRows) : this.folded(shown);
    const count = this.rows.filter(({ host }) => !host).length;
    const least = this.isWordy || this.show.isNarrow ? 32 : count > 40 && !this.bars ? 17 : 20;
    this.rowHeight = Math.max(least, Math.min(54, Math.floor(380 / Math.max(1, count))));
    this.height = this.top;
    for (const row of this.rows) {
      const least = row.host ? 20 : row.instances.length > 1 ? 32 : 0; // what is folded has its count under it
      Object.assign(row, { y: this.height, height: row.host ? least : Math.max(least, this.rowHeight) });
      this.height += row.height;
    }
    this.height += 8;
  }

  folded(instances) {
    const rowOf = (all, label) => ({ instances: all, label: all.length > 1 ? label : this.plan.who(all[0]) });
    if (this.bars) return instances.map((instance) => rowOf([instance]));
    if (this.show.byType) {
      const types = grouped(instances, (instance) => this.plan.types.get(instance));
      return [...types].map(([type, all]) => rowOf(all, `${type} × ${all.length}`));
    }
    const isLeaf = (instance) => this.show.foldLeaves && this.plan.leaves.has(instance);
    const [leaves, others] = [instances.filter(isLeaf), instances.filter((each) => !isLeaf(each))];
    const rows = others.map((instance) => rowOf([instance]));
    return leaves.length ? [...rows, rowOf(leaves, `${leaves.length} that need nothing`)] : rows;
  }

  setMarks() {
    this.marks = [];
    this.markOf = [];
    for (const row of this.rows) {
      const isShown = (k) => this.isDrawn(k) && (!this.bars || this.bars[k]);
      const ks = row.instances.flatMap((instance) => this.plan.lanes.get(instance)).filter(isShown);
      const columns = [...grouped(ks, (k) => (this.bars ? k : this.stage[k]))].sort(([one], [other]) => one - other);
      const y = row.y + row.height / 2;
      row.marks = columns.map(([stage, all]) => ({ row, stage, y, ks: all, ...this.named(all) }));
      for (const mark of row.marks) {
        mark.index = this.marks.push(mark) - 1;
        for (const k of mark.ks) this.markOf[k] = mark;
      }
    }
  }

  named(ks) {
    const verbs = new Set(ks.map((k) => this.plan.actions[k].verb));
    const texts = new Set(ks.map((k) => this.plan.inShort(k)));
    const shape = verbs.size > 1 ? "several" : this.plan.actions[ks[0]].verb;
    if (ks.length === 1) return { shape, number: `${ks[0] + 1} `, text: [...texts][0] };
    return { shape, number: "", text: texts.size > 1 ? `${ks.length} actions` : `${[...texts][0]} × ${ks.length}` };
  }

  // By time: each bar from its start to its end.
  setScale() {
    const shown = this.bars.filter(Boolean);
    this.start = shown.reduce((least, [from]) => Math.min(least, from), 0);
    const span = Math.max(this.show.finish - this.start, 1e-9);
    this.width = Math.max(this.room, Math.min(20_000, (this.show.chain?.size ?? 0) * SIDE));
    this.scale = (this.width - 2 * SIDE) / span;
    this.gap = 26;
    for (const mark of this.marks) {
      const [from, to, slack] = this.bars[mark.ks[0]];
      const width = Math.max(3, (to - from) * this.scale);
      Object.assign(mark, { x: this.xAt(from), width, slack: slack * this.scale });
    }
    const raw = span / Math.max(2, this.width / TICK_ROOM);
    const ten = 10 ** Math.floor(Math.log10(raw));
    const tick = [1, 2, 5, 10].map((n) => n * ten).find((n) => n >= raw);
    this.ticks = [];
    for (let time = 0; time <= this.show.finish; time += tick) this.ticks.push([+time.toFixed(6), this.xAt(time)]);
    const folds = (this.show.folds ?? []).map(([at, label]) => [label, this.xAt(at)]); // pauses, which are short here
    this.ticks = [...this.ticks.filter(([, x]) => folds.every(([, at]) => Math.abs(x - at) > 60)), ...folds];
  }

  // In words: a column is as wide as its longest word.
  setWordColumns() {
    const widths = Array(this.stageCount).fill(26);
    for (const mark of this.marks) {
      mark.width = this.measure(mark.number + mark.text) + 13;
      widths[mark.stage] = Math.max(widths[mark.stage], mark.width);
    }
    const taken = widths.reduce((sum, width) => sum + width, 2 * SIDE);
    this.gap = Math.max(12, Math.min(60, (this.room - taken) / Math.max(1, this.stageCount - 1)));
    this.columns = [];
    let x = SIDE;
    for (const width of widths) {
      this.columns.push([x, x + width]);
      x += width + this.gap;
    }
    this.width = Math.max(this.room, x - this.gap + SIDE);
    for (const mark of this.marks) mark.x = this.columns[mark.stage][0];
    this.gap = 34;
  }

  setEvenColumns() {
    const fitting = (this.room - 2 * SIDE) / Math.max(1, this.stageCount);
    const unit = Math.max(this.show.isPrinted ? 5 : 17, Math.min(46, fitting));
    this.columns = [...Array(this.stageCount).keys()].map((stage) => [SIDE + stage * unit, SIDE + stage * unit + 13]);
    this.width = Math.max(this.room, 2 * SIDE + this.stageCount * unit);
    this.gap = Math.max(SIDE, (unit - 13) * 0.9);
    this.hasNumbers = this.rowHeight >= 28 && unit > 21;
    for (const mark of this.marks) Object.assign(mark, { x: this.columns[mark.stage][0], width: 13 });
  }

  // What waits for what, a curve for each two marks. Inside a row it is the life line.
  setEdges() {
    const found = new Map();
    for (const to of this.marks) {
      for (const k of to.ks) {
        for (const q of this.nearest(k)) {
          const from = this.markOf[q];
          if (!from || from.row === to.row || from.stage === to.stage) continue;
          const key = from.index * this.marks.length + to.index;
          if (!found.has(key)) found.set(key, { from, to, waits: [], isHold: true });
          const edge = found.get(key);
          edge.waits.push([q, k]);
          edge.isHold &&= this.plan.actions[k].holds.includes(q);
        }
      }
    }
    this.edges = [...found.values()].map((edge) => ({ ...edge, path: this.path(edge.from, edge.to) }));
  }

  // It follows the life line of what is waited for, and drops in the gap before what waits: it crosses no other mark.
  path(from, to) {
    const [x1, x2] = [from.x + from.width, to.x];
    const turn = Math.max(x1, x2 - this.gap);
    const bend = Math.max(6, (x2 - turn) * 0.7);
    return `M${x1} ${from.y}H${turn}C${turn + bend} ${from.y} ${x2 - bend} ${to.y} ${x2} ${to.y}`;
  }

  // The life line of a row, from its first mark to where it ends; and by time what an action may be late.
  setLines() {
    const { lanes, actions } = this.plan;
    const isGone = (instance) => actions[lanes.get(instance).at(-1)].verb === "delete";
    this.lines = this.rows.filter(({ marks }) => marks.length).map(({ marks, instances, y, height }) => {
      const last = marks.at(-1);
      const end = instances.every(isGone) ? last.x + 6 : this.bars ? last.x + last.width : this.width;
      return { marks, y: y + height / 2, x1: marks[0].x + 4, x2: end };
    });
    const nextOf = ({ row, index }) => row.marks[row.marks.findIndex((mark) => mark.index === index) + 1];
    this.slacks = this.marks.filter((mark) => mark.slack > 0 && nextOf(mark)?.slack !== mark.slack);
  }

  // The phases of a rollout, each from its first mark to the first of the next.
  setZones() {
    const firstOf = ({ from, to }) => {
      const within = this.marks.filter(({ ks }) => from <= ks[0] && ks[0] < to);
      return within.reduce((least, { x }) => Math.min(least, x), Infinity);
    };
    const phases = this.zones.filter(({ kind }) => kind !== "all");
    const filled = phases.map((zone) => ({ ...zone, x: firstOf(zone) })).filter(({ x }) => x < Infinity);
    this.zones = filled.map((zone, place) => {
      const edgeAt = ({ x }) => x - (this.bars ? 0 : Math.min(SIDE, this.gap) / 2);
      const [x, x2] = [place ? edgeAt(zone) : 0, filled[place + 1] ? edgeAt(filled[place + 1]) : this.width];
      return { ...zone, x, x2 };
    });
  }
}
