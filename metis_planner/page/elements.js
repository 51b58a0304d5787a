"use strict";
// Makes elements. Whatever comes from a text goes in as text and never as markup: strings stay strings.
const SVG = "http://www.w3.org/2000/svg";
const byId = (id) => document.getElementById(id);
const there = (children) => children.flat(4).filter((child) => child !== null && child !== undefined && child !== "");

function filled(element, attributes, children) {
  for (const name of Object.keys(attributes)) {
    const value = attributes[name];
    if (typeof value === "function") element.addEventListener(name, value);
    else element.setAttribute(name, value);
  }
  if (children.length) element.append(...there(children));
  return element;
}

const h = (tag, attributes = {}, ...children) => filled(document.createElement(tag), attributes, children);
const s = (tag, attributes = {}, ...children) => filled(document.createElementNS(SVG, tag), attributes, children);

function put(element, ...children) {
  element.replaceChildren(...there(children));
  return element;
}

// Into the clipboard; and the button says so for a while.
async function copied(text, button) {
  const was = button.textContent;
  const said = await navigator.clipboard.writeText(text).then(() => "copied", () => "not copied");
  put(button, said);
  setTimeout(() => put(button, was), 1_500);
}

function saved(name, type, text) {
  const href = URL.createObjectURL(new Blob([text], { type }));
  h("a", { href, download: name }).click();
  setTimeout(() => URL.revokeObjectURL(href), 1_000);
}

const pen = document.createElement("canvas").getContext("2d");
pen.font = '11.5px system-ui, "DejaVu Sans", sans-serif';
const widths = new Map();

function widthOf(text) {
  if (!widths.has(text)) widths.set(text, Math.ceil(pen.measureText(text).width));
  return widths.get(text);
}
