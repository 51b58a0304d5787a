"use strict";
// A small map of the whole picture, with the window that is seen of it. Pressed or dragged, it moves that window.
const MAP_COLOURS = { "": "--faint", done: "--done", running: "--up", ready: "--ready", failed: "--bad" };

class Overview {
  constructor({ picture }) {
    this.picture = picture;
    this.canvas = byId("map");
    for (const name of ["pointerdown", "pointermove"]) this.canvas.addEventListener(name, (event) => this.move(event));
    picture.box.addEventListener("scroll", () => this.paint());
    matchMedia("(prefers-color-scheme: dark)").addEventListener("change", () => this.paint());
  }

  // Where the whole is seen anyway, there is no map.
  paint() {
    const { canvas, picture: { box, layout } } = this;
    canvas.hidden = box.scrollWidth <= box.clientWidth + 2 && box.scrollHeight <= box.clientHeight + 2;
    if (canvas.hidden) return;
    const [width, height, ratio] = [canvas.clientWidth, canvas.clientHeight, devicePixelRatio];
    Object.assign(canvas, { width: width * ratio, height: height * ratio });
    const [ink, x, y] = [canvas.getContext("2d"), width / layout.width, height / layout.height];
    const { zoom } = this.picture.page;
    const style = getComputedStyle(canvas);
    ink.scale(ratio, ratio);
    for (const [status, colour] of Object.entries(MAP_COLOURS)) {
      ink.fillStyle = style.getPropertyValue(colour);
      for (const mark of layout.marks.filter((each) => each.status === status)) {
        ink.fillRect(mark.x * x, mark.y * y - 1, Math.max(2, mark.width * x), Math.max(1.5, Math.min(4, 12 * y)));
      }
    }
    ink.strokeStyle = style.color;
    const inside = [box.scrollLeft, box.scrollTop, box.clientWidth, box.clientHeight];
    const [left, top, wide, high] = inside.map((n) => n / zoom);
    const seen = wide - this.picture.namesWidth();
    ink.strokeRect(left * x + 0.5, top * y + 0.5, seen * x - 1, high * y - 1);
  }

  move({ buttons, offsetX, offsetY }) {
    const { canvas, picture: { box, layout, page: { zoom } } } = this;
    if (!buttons) return;
    const room = box.clientWidth - this.picture.namesWidth() * zoom;
    box.scrollLeft = (offsetX / canvas.clientWidth) * layout.width * zoom - room / 2;
    box.scrollTop = (offsetY / canvas.clientHeight) * layout.height * zoom - box.clientHeight / 2;
  }
}
