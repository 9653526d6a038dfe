// The badge of a channel: its number on a coloured shape. The colours are the light scheme of Paul Tol, made for areas under dark
// text; the shape distinguishes channels without colour, and only the number is unique.

import { svg } from "./dom.js";

const COLOURS = ["#77aadd", "#ee8866", "#eedd88", "#44bb99", "#ffaabb", "#bbcc33", "#99ddff", "#aaaa00", "#dddddd"];

// Each shape as its corners in polar coordinates, [turns, radius], for a badge of radius 1.
const regular = (corners, radius, turn = 0) =>
  Array.from({ length: corners }, (_, i) => [turn + i / corners, radius]);
const SHAPES = [
  null, // a circle
  regular(4, 1.22, 1 / 8),
  regular(4, 1.26),
  regular(3, 1.5),
  regular(6, 1.12),
  regular(3, 1.5, 1 / 2),
  regular(5, 1.16),
  regular(8, 1.08, 1 / 16),
  regular(10, 1).map(([turn], i) => [turn, i % 2 ? 0.82 : 1.36]),
];
// How far down each shape is moved so that it looks centred, in radii.
const LOWER = { 3: 0.3, 5: -0.3 };

export const colourOf = (channel) => COLOURS[channel % COLOURS.length];

// In each further cycle of the colours the shapes are shifted by one.
const shapeOf = (channel) => (channel + Math.floor(channel / COLOURS.length)) % SHAPES.length;

/** The badge of a channel with its text, centred at (x, y) of a drawing. */
export function badge(channel, x, y, radius, name = String(channel)) {
  const shape = shapeOf(channel);
  const group = svg("g", { class: "badge", transform: `translate(${x} ${y})` });
  const look = { fill: colourOf(channel), class: "badge-shape" };
  const lower = (LOWER[shape] ?? 0) * radius;
  if (SHAPES[shape]) group.append(svg("path", { d: outline(SHAPES[shape], radius, lower), ...look }));
  else group.append(svg("circle", { r: radius, ...look }));
  group.append(svg("text", { y: lower / 2, "font-size": radius * heightOf(name.length), class: "badge-number" }, name));
  return group;
}

/** The height of a badge's number with so many digits, in radii. */
export const heightOf = (digits) => (digits < 2 ? 1.25 : digits < 3 ? 1.1 : digits < 4 ? 0.8 : digits < 5 ? 0.62 : 3 / digits);

/** The side of a badge's image on a large page: its number is 20.5 pixels high. */
export const largeBadge = (digits) => `${61.5 / heightOf(digits)}px`;

/** The badge of a channel as a separate image, for running text and lists. */
export function badgeImage(channel, name = String(channel)) {
  const style = { "--badge": largeBadge(name.length) };
  const image = svg("svg", { class: "badge-image", viewBox: "-15 -15 30 30", role: "img", "aria-label": `channel ${channel}`, style });
  image.append(badge(channel, 0, 0, 10, name));
  return image;
}

function outline(corners, radius, lower) {
  const points = corners.map(([turn, far]) => {
    const angle = turn * 2 * Math.PI;
    return `${(Math.sin(angle) * far * radius).toFixed(2)} ${(lower - Math.cos(angle) * far * radius).toFixed(2)}`;
  });
  return `M${points.join("L")}Z`;
}
