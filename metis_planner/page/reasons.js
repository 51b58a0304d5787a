"use strict";
// The page of a refusal, which Python has drawn: a sentence that is pointed at lights up what it says in the picture.
class ReasonsPage {
  constructor() {
    for (const item of document.querySelectorAll("li[data-line]")) {
      for (const name of ["pointerover", "focus"]) item.addEventListener(name, () => this.light(item.dataset.line));
      for (const name of ["pointerout", "blur"]) item.addEventListener(name, () => this.light(null));
    }
  }

  light(line) {
    for (const picture of document.querySelectorAll("#pane svg")) picture.classList.toggle("dim", line !== null);
    for (const part of document.querySelectorAll("#pane [data-lines]")) {
      part.classList.toggle("lit", part.dataset.lines.split(" ").includes(line));
    }
  }
}
