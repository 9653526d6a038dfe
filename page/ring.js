// The drawing of a ring. Place 0 is at the top, and the right neighbour of a place is the next one clockwise.

import { arc, arrowhead, point, svg } from "./dom.js";
import { badge, colourOf, heightOf } from "./channels.js";

/** The height of a message, and its width for a number of digits. */
export const PILL = 19;
export const pillWidth = (digits) => Math.max(digits * 8 + 13, PILL + 1);

/** Whether there is room beside the nodes for a register's name too, before values of up to `digits` digits. */
export const hasRoomForNames = (n, digits) => n <= 12 && digits <= 4;

/** The sizes of a drawing of `n` places, with labels of up to `digits` digits and messages of up to `sentDigits`. */
export function measure(n, digits = 0, sentDigits = 0) {
  const node = n <= 8 ? 23 : n <= 12 ? 20 : n <= 20 ? 16 : n <= 32 ? 13 : n <= 64 ? 10.5 : Math.max(1.5, Math.min(5, 800 / n));
  const gap = n <= 12 ? Math.max(n <= 8 ? 66 : 50, pillWidth(sentDigits) + 18) : n <= 20 ? 30 : n <= 32 ? 16 : n <= 64 ? 7 : 2;
  const radius = Math.min(Math.max(128, (n * (2 * node + gap)) / (2 * Math.PI)), 300);
  const radial = n > 12; // labels along the radius, so that they do not overlap
  const label = digits === 0 ? 0 : digits * 8 + 8;
  const across = Math.max(radius + node + 16 + label, n <= 12 && sentDigits ? radius + pillWidth(sentDigits) + 12 : 0);
  const up = radial ? radius + node + 16 + label : radius + node + (digits ? 34 : 16);
  const free = (2 * Math.PI * radius) / n - 2 * node; // between neighbours' discs
  return { n, node, radius, free, radial, width: 2 * across, height: 2 * up, numbered: n <= 64 };
}

/**
 * Draws the ring with the identifiers `ring`; `channels` with their `look`, and `labels` may be missing; a label is the `text` beside a
 * node, with its `title`. `show` gives the texts of a list of numbers. `label` is the drawing's text for screen readers. Returns the image
 * with its sizes, layers and nodes.
 */
export function drawRing({ ring, channels, look, labels, digits, sentDigits, label, show = (values) => values.map(String), margin = 0 }) {
  const size = measure(ring.length, digits, sentDigits);
  const width = size.width + 2 * margin;
  const height = size.height + 2 * margin;
  const image = svg("svg", {
    class: "ring", viewBox: `${-width / 2} ${-height / 2} ${width} ${height}`, width, height, role: "group", "aria-label": label,
  });
  const layers = {};
  for (const name of ["under", "links", "nodes", "over", "centre"]) {
    layers[name] = svg("g", { class: name });
    image.append(layers[name]);
  }
  for (let place = 0; place < ring.length; place += 1) layers.links.append(drawLink(size, place, look?.links[place] ?? []));
  const names = show(ring);
  const channelNames = channels && show(channels);
  const nodes = names.map((name, place) => {
    const channel = channels && { number: channels[place], text: channelNames[place], look: look?.nodes[place] ?? [] };
    const node = drawNode(size, place, name, channel, labels?.[place]);
    layers.nodes.append(node);
    return node;
  });
  return { image, size, layers, nodes };
}

/** A link, which keeps 5 from both discs. Whether there is room for it and its arrowhead is the same for all links of a ring. The line
 * of a pair goes from disc to disc, so that it is seen in every ring. */
function drawLink({ n, node, radius, free }, place, look) {
  const off = (node + 5) / radius / (2 * Math.PI);
  const group = svg("g", { class: ["link", ...look].join(" ") });
  const [from, to] = [place / n + off, (place + 1) / n - off];
  const edge = node / radius / (2 * Math.PI);
  if (look.includes("pair")) group.append(svg("path", { d: arc(place / n + edge, (place + 1) / n - edge, radius), class: "pair-line" }));
  if (free <= 10) return group;
  group.append(svg("path", { d: arc(from, to, radius), class: "link-line" }));
  if (free > 15) group.append(arrowhead(to, radius, n <= 20 ? 9 : 5));
  return group;
}

/** A node: its disc and the text of its identifier, with its channel `{ number, text, look }` and label if there are any. */
export function drawNode(size, place, identifier, channel, label) {
  const turn = place / size.n;
  const look = channel?.look ?? [];
  const isPlain = channel === undefined || look.includes("outside");
  const group = svg("g", { class: ["node", ...look].join(" ") });
  group.dataset.place = place;
  moveNode(group, size, turn);
  const disc = { r: size.node, class: "disc" };
  disc.style = { fill: isPlain ? "" : colourOf(channel.number), strokeWidth: size.numbered ? "" : "0.6px" };
  group.append(svg("circle", disc));
  if (size.numbered) {
    const digits = String(identifier).length;
    const font = Math.min(size.node * 0.95, (size.node * 2.3) / Math.max(digits, 2));
    const kind = isPlain ? "identifier" : "identifier on-colour";
    group.append(svg("text", { class: kind, "font-size": font }, identifier));
  } else {
    group.append(svg("title", {}, identifier));
  }
  if (channel !== undefined && size.numbered) {
    const small = radiusOfBadge(size.n, channel.text.length);
    const [x, y] = point(turn, -(size.node + small * 1.3 + (size.n <= 12 ? 7 : 3)));
    group.append(badge(channel.number, x, y, small, channel.text));
  }
  if (label !== undefined && size.numbered) group.append(drawLabel(size, turn, label));
  return group;
}

/** The radius of the badges of a ring. On a large page their numbers are as high as those beside the nodes. */
function radiusOfBadge(n, digits) {
  const usual = n <= 12 ? 11 : n <= 32 ? 8.5 : 7.5;
  const isLarge = document.body.classList.contains("large") && n <= 12;
  return isLarge ? Math.min(Math.max(usual, 14.8 / heightOf(digits)), 24) : usual;
}

/** Moves a node to `turn` on the circle, or to the point `at` of the drawing. */
export function moveNode(group, size, turn, at) {
  const [x, y] = at ?? point(turn, size.radius);
  group.style.transform = `translate(${x.toFixed(2)}px, ${y.toFixed(2)}px)`;
}

function drawLabel(size, turn, label) {
  const [x, y] = point(turn, size.node + 9);
  const group = svg("g");
  group.append(svg("title", {}, label.title));
  if (size.radial) {
    const left = turn > 0.5;
    group.append(svg("text", {
      class: "label", "text-anchor": left ? "end" : "start", style: { fontSize: size.n <= 32 ? "12px" : "10.5px" },
      transform: `translate(${x} ${y}) rotate(${turn * 360 - 90 + (left ? 180 : 0)})`,
    }, label.text));
    return group;
  }
  const [dx, dy] = point(turn, 1);
  const anchor = Math.abs(dx) < 0.3 ? "middle" : dx > 0 ? "start" : "end";
  group.append(svg("text", { class: "label", x, y: y + dy * 4, "text-anchor": anchor }, label.text));
  return group;
}

/** The window of `t` rounds at a place: a band under the ring, or a line at the distance `far` outside it. */
export function drawWindow(size, place, t, far, name, title) {
  const turn = place / size.n;
  const reach = (t + 0.3) / size.n;
  const radius = size.radius + far;
  const group = svg("g", { class: `window ${name}` });
  if (far === 0) {
    const strokeWidth = `${2 * size.node + 16}px`;
    group.append(svg("path", { d: arc(turn - reach, turn + reach, radius), class: "window-band", style: { strokeWidth } }));
    return group;
  }
  group.append(svg("path", { d: arc(turn - reach, turn + reach, radius), class: "window-line" }));
  for (const end of [-reach, reach]) {
    const [x1, y1] = point(turn + end, radius - 5);
    const [x2, y2] = point(turn + end, radius + 5);
    group.append(svg("path", { d: `M${x1} ${y1}L${x2} ${y2}`, class: "window-line" }));
  }
  const [x, y] = point(turn, radius);
  group.append(svg("circle", { cx: x, cy: y, r: 4, class: "window-dot" }));
  if (title) group.append(svg("title", {}, title));
  return group;
}

export function say(layer, lines) {
  layer.replaceChildren(...lines.map(([text, kind], i) =>
    svg("text", { class: kind, y: (i - (lines.length - 1) / 2) * 24 }, text)));
}
