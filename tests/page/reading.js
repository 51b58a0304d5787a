// What of a page could not be read or used, by rules of WCAG 2.2 as axe-core has them, over the page as the browser shows it:
// one expression, whose value is { faults, texts, controls, marks }.
(() => {
  const faults = [];
  const say = (rule, element, more = "") => faults.push(`${rule}: ${element.outerHTML.slice(0, 140)} ${more}`.trim());
  const all = (selector) => [...document.querySelectorAll(selector)];
  const isSeen = (element) => element.checkVisibility({ checkOpacity: true, checkVisibilityCSS: true })
    && element.getBoundingClientRect().width > 0;
  const counts = { texts: 0, controls: 0, marks: 0 };

  // Colours as [red, green, blue, alpha], and how they lie on one another.
  const pen = Object.assign(document.createElement("canvas"), { width: 1, height: 1 }).getContext("2d", { willReadFrequently: true });
  const known = new Map();
  const colourOf = (text) => {
    if (!known.has(text)) {
      pen.clearRect(0, 0, 1, 1);
      pen.fillStyle = text;
      pen.fillRect(0, 0, 1, 1);
      const [red, green, blue, alpha] = pen.getImageData(0, 0, 1, 1).data;
      known.set(text, [red, green, blue, alpha / 255]);
    }
    return known.get(text);
  };
  const over = ([r, g, b, a], [r2, g2, b2]) => [[r, r2], [g, g2], [b, b2]].map(([one, two]) => one * a + two * (1 - a)).concat(1);
  const lightOf = (colour) => {
    const [red, green, blue] = colour.slice(0, 3).map((part) => part / 255)
      .map((part) => (part <= 0.04045 ? part / 12.92 : ((part + 0.055) / 1.055) ** 2.4));
    return 0.2126 * red + 0.7152 * green + 0.0722 * blue;
  };
  const contrast = (one, two) => {
    const [low, high] = [lightOf(one), lightOf(two)].sort((a, b) => a - b);
    return (high + 0.05) / (low + 0.05);
  };
  const up = (element) => (element ? [element, ...up(element.parentElement)] : []);
  const opacityOf = (element) => up(element).reduce((all_, each) => all_ * +getComputedStyle(each).opacity, 1);
  const groundOf = (element) =>
    up(element).reverse().reduce((under, each) => over(colourOf(getComputedStyle(each).backgroundColor), under), [255, 255, 255, 1]);

  // What of a picture is painted under the middle of an element, in the order in which it is.
  const shapes = new Map();
  const shapesOf = (svg) => {
    if (!shapes.has(svg)) {
      const found = [...svg.querySelectorAll("rect, path, circle")].map((shape) => [shape, getComputedStyle(shape), shape.getBoundingClientRect()]);
      shapes.set(svg, found.filter(([, { fill }]) => fill !== "none"));
    }
    return shapes.get(svg);
  };
  const under = (element, isOwn) => {
    const svg = element.ownerSVGElement;
    const { left, top, width, height } = element.getBoundingClientRect();
    const [x, y] = [left + width / 2, top + height / 2];
    let ground = groundOf(svg);
    for (const [shape, style, box] of shapesOf(svg)) {
      if (shape === element || !(shape.compareDocumentPosition(element) & Node.DOCUMENT_POSITION_FOLLOWING)) continue;
      if (isOwn(shape) || x < box.left || x > box.right || y < box.top || y > box.bottom) continue;
      const [red, green, blue, alpha] = colourOf(style.fill);
      ground = over([red, green, blue, alpha * style.fillOpacity * opacityOf(shape)], ground);
    }
    return ground;
  };
  const seen = (colour, alpha, ground) => over([...colour.slice(0, 3), colour[3] * alpha], ground);

  function checkText(element) {
    const style = getComputedStyle(element);
    const isDrawn = element.ownerSVGElement;
    const isOff = element.closest("[aria-disabled=true], :disabled, .dim .mark:not(.lit)");
    if (isOff || element.closest("[aria-hidden=true]") || !isSeen(element)) return;
    counts.texts += 1;
    const size = parseFloat(style.fontSize);
    const needs = size >= 24 || (size >= 18.66 && style.fontWeight >= 700) ? 3 : 4.5;
    const hasRim = isDrawn && style.paintOrder.startsWith("stroke") && parseFloat(style.strokeWidth) >= 3;
    const ground = !isDrawn ? groundOf(element) : hasRim ? colourOf(style.stroke) : under(element, () => false);
    const found = contrast(seen(colourOf(isDrawn ? style.fill : style.color), opacityOf(element), ground), ground);
    if (found < needs - 0.01) say("contrast", element, found.toFixed(2));
  }
  const holders = new Set();
  const walker = document.createTreeWalker(document.body, NodeFilter.SHOW_TEXT);
  while (walker.nextNode()) if (walker.currentNode.data.trim()) holders.add(walker.currentNode.parentElement);
  for (const element of holders) {
    if (element.matches("script, style, noscript, title, option, tspan")) continue;
    checkText(element);
    const isInPart = element.closest("header, main, footer, nav, section[aria-label], [role=region], [role=status]");
    if (!isInPart && isSeen(element)) say("in no part of the page", element);
  }

  for (const element of all("input[placeholder]").filter(isSeen)) {
    const [style, ground] = [getComputedStyle(element, "::placeholder"), groundOf(element)];
    const found = contrast(seen(colourOf(style.color), style.opacity === "" ? 1 : +style.opacity, ground), ground);
    if (found < 4.49) say("placeholder", element, found.toFixed(2));
  }

  for (const shape of all("#pic .mark > :is(path, rect), .node > rect")) {
    if (shape.closest(".dim .mark:not(.lit)") || !isSeen(shape)) continue;
    counts.marks += 1;
    const style = getComputedStyle(shape);
    const ground = under(shape, () => false);
    const fill = style.fill === "none" ? ground : over(colourOf(style.fill), ground);
    const found = Math.max(contrast(over(colourOf(style.stroke), ground), ground), contrast(fill, ground));
    if (found < 2.99) say("outline", shape, found.toFixed(2));
  }

  // Of the arrows those whose beginning is not done yet; the middle of one says on what it is.
  for (const arrow of all("#pic:not(.dim) .wait:not(.kept), .arrow")) {
    if (!isSeen(arrow)) continue;
    counts.marks += 1;
    const [style, ground] = [getComputedStyle(arrow), groundOf(arrow.ownerSVGElement)];
    const found = contrast(seen(colourOf(style.stroke), opacityOf(arrow) * style.strokeOpacity, ground), ground);
    if (found < 2.99) say("arrow", arrow, found.toFixed(2));
  }

  // Names, roles and what the keys reach.
  const CONTROLS = "button, input, select, summary, a[href], [role=button]";
  const nameOf = (element) =>
    (element.getAttribute("aria-label") ?? [...(element.labels ?? [])].map((label) => label.textContent).join(" ") + element.textContent).trim();
  const isHidden = (element) => element.closest("[aria-hidden=true]") !== null;
  for (const element of all(CONTROLS)) {
    if (!isSeen(element)) continue;
    counts.controls += 1;
    if (!nameOf(element)) say("name", element);
    if (isHidden(element)) say("hidden control", element);
    if (element.parentElement.closest("button, a[href], [role=button]")) say("nested control", element);
    if (element.matches("[role=button]") && !element.hasAttribute("tabindex")) say("role without focus", element);
    if (element.hasAttribute("aria-pressed") && !element.matches("button, [role=button]")) say("attribute", element);
  }
  for (const element of all("[role=region], [role=group], section, [tabindex='0']:not(input)")) {
    if (isSeen(element) && !element.closest("#now, #stand, #more") && !nameOf(element)) say("name", element);
  }
  for (const element of all("[aria-label]")) {
    if (element.matches("div, span, p, b, i, pre, code, canvas, svg") && !element.hasAttribute("role")) say("label without role", element);
  }
  for (const element of all("[tabindex]")) if (element.tabIndex > 0) say("order of focus", element);
  for (const element of all("body *")) {
    const { overflowX, overflowY } = getComputedStyle(element);
    const isCut = [[overflowY, element.scrollHeight - element.clientHeight], [overflowX, element.scrollWidth - element.clientWidth]]
      .some(([how, more]) => (how === "auto" || how === "scroll") && more > 1);
    const isReached = element.tabIndex >= 0 || [...element.querySelectorAll("*")].some((each) => each.tabIndex >= 0 && isSeen(each));
    if (isCut && isSeen(element) && !isReached) say("scrolled by no key", element);
  }

  // The structure that a screen reader reads out.
  const ids = all("[id]").map(({ id }) => id);
  for (const id of new Set(ids)) if (ids.filter((each) => each === id).length > 1) say("twice", document.getElementById(id));
  for (const [name, least] of [["main", 1], ["header", 1], ["h1", 1]]) if (all(name).length !== least) faults.push(`structure: ${name}`);
  if (!document.documentElement.lang || !document.title) faults.push("structure: language or title");
  if (/user-scalable=no|maximum-scale/.test(document.querySelector("meta[name=viewport]").content)) faults.push("structure: zoom");
  let level = 0;
  for (const heading of all("h1, h2, h3, h4").filter(isSeen)) {
    if (+heading.localName[1] > level + 1) say("level of a heading", heading);
    level = +heading.localName[1];
  }
  for (const list of all("ul, ol")) if ([...list.children].some((child) => child.localName !== "li")) say("list", list);
  for (const item of all("li")) if (!item.parentElement.matches("ul, ol")) say("list", item);
  const regions = all("section[aria-label], [role=region]").filter(isSeen).map(nameOf);
  for (const name of new Set(regions)) if (regions.filter((each) => each === name).length > 1) faults.push(`regions of one name: ${name}`);

  // What is pressed is 24 by 24, or nothing else is as near; what stands in a sentence is as high as its line.
  const targets = all(CONTROLS).filter((element) => isSeen(element) && !element.matches(".mark, .ref, .lane, #slide"));
  const boxOf = new Map(targets.map((element) => [element, element.getBoundingClientRect()]));
  for (const [element, { left, top, width, height }] of boxOf) {
    if (width >= 23.9 && height >= 23.9) continue;
    const [x, y] = [left + width / 2, top + height / 2];
    const isNear = (box) => Math.hypot(Math.max(box.left - x, 0, x - box.right), Math.max(box.top - y, 0, y - box.bottom)) < 12;
    if ([...boxOf].some(([other, box]) => other !== element && isNear(box))) say("size", element, `${width} by ${height}`);
  }
  return { faults, ...counts };
})()
