// Elements of HTML and SVG, and points on circles. Angles are in turns, clockwise from the top.

const SPACE = "http://www.w3.org/2000/svg";

export function svg(name, attributes = {}, text) {
  return fill(document.createElementNS(SPACE, name), attributes, text);
}

/** An element with attributes and children; strings become text. */
export function html(name, attributes = {}, ...children) {
  const element = fill(document.createElement(name), attributes);
  element.append(...children.flat().filter((child) => child !== null && child !== undefined));
  return element;
}

function fill(element, attributes, text) {
  for (const [name, value] of Object.entries(attributes)) {
    if (name.startsWith("on")) element.addEventListener(name.slice(2), value);
    else if (name === "style") setStyle(element.style, value);
    else if (value !== null && value !== undefined && value !== false) element.setAttribute(name, value);
  }
  if (text !== undefined) element.textContent = text;
  return element;
}

function setStyle(style, values) {
  for (const [name, value] of Object.entries(values)) {
    if (name.startsWith("--")) style.setProperty(name, value);
    else style[name] = value;
  }
}

/** Saves a text as a file of this name. */
export function download(name, text, type) {
  const address = URL.createObjectURL(new Blob([text], { type }));
  html("a", { href: address, download: name }).click();
  setTimeout(() => URL.revokeObjectURL(address), 10000);
}

/** A sentence with its parts in backquotes as code. */
export const coded = (sentence) => sentence.split("`").map((part, i) => (i % 2 ? html("code", {}, part) : part));

export const byId = (id) => document.getElementById(id);

/** The point at `turn` on the circle with this radius around (0, 0). */
export function point(turn, radius) {
  const angle = turn * 2 * Math.PI;
  return [Math.sin(angle) * radius, -Math.cos(angle) * radius];
}

/** The path of a clockwise arc around (0, 0). */
export function arc(from, to, radius) {
  const [x1, y1] = point(from, radius);
  const [x2, y2] = point(to, radius);
  const large = to - from > 0.5 ? 1 : 0;
  return `M${x1.toFixed(2)} ${y1.toFixed(2)}A${radius} ${radius} 0 ${large} 1 ${x2.toFixed(2)} ${y2.toFixed(2)}`;
}

/** A triangle that points clockwise (way 1) or anticlockwise (way -1) at `turn` on a circle. */
export function arrowhead(turn, radius, size, way = 1) {
  const [x, y] = point(turn, radius);
  return svg("path", {
    d: `M${-size} ${-size * 0.62}L0 0L${-size} ${size * 0.62}Z`,
    transform: `translate(${x.toFixed(2)} ${y.toFixed(2)}) rotate(${(turn * 360 + (way > 0 ? 0 : 180)).toFixed(2)})`,
  });
}
