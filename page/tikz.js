// A drawing of a ring as a picture of TikZ, for a LaTeX document that loads tikz and nothing else.

import { partsOf } from "./picture.js";

const POINT = 0.75; // points of TeX for a pixel, nearly
const number = (value) => String(Number(value.toFixed(2)) || 0);
const length = (value) => `${number(parseFloat(value) * POINT)}pt`;
const escaped = (text) => text.replace(/[\\{}$&#_%~^]/g, (letter) => ({ "\\": "\\textbackslash{}", "~": "\\textasciitilde{}",
  "^": "\\textasciicircum{}" })[letter] ?? `\\${letter}`);

/** The text of the picture: colours, then a line for each shape and each text. */
export function tikzText(image, rules) {
  const tree = partsOf(image, rules);
  const colours = new Map();
  const colour = (hex) => {
    if (!colours.has(hex)) colours.set(hex, `ring${colours.size + 1}`);
    return colours.get(hex);
  };
  const lines = linesOf(tree, { x: 0, y: 0, turn: 0 }, {}, colour);
  const named = [...colours].map(([hex, name]) => `\\definecolor{${name}}{HTML}{${hex.slice(1).toUpperCase()}}`);
  const title = tree.attributes["aria-label"] ?? "";
  return [`% ${title}`, "% In a document with \\usepackage{tikz}.", `\\begin{tikzpicture}[x=${POINT}pt, y=${POINT}pt]`, ...named, ...lines,
    "\\end{tikzpicture}", ""].join("\n");
}

/** The lines of a part at a place `{ x, y, turn }`; `turn` is in degrees, clockwise. */
function linesOf(part, above, inherited, colour) {
  const { name, shape, children, text } = part;
  const { opacity, ...own } = part.look;
  const look = { ...inherited, ...own, opacity: number(Number(inherited.opacity ?? 1) * Number(opacity ?? 1)) };
  const at = moved(above, shape.transform);
  const draw = (path) => `\\path[${optionsOf(look, colour)}] ${path};`;
  const point = (x, y) => pointOf(at, Number(x ?? 0), Number(y ?? 0));
  const isSeen = look.fill !== "none" || (look.stroke ?? "none") !== "none";
  if (name === "circle" && isSeen) return [draw(`${point(shape.cx, shape.cy)} circle[radius=${number(Number(shape.r))}]`)];
  if (name === "rect" && isSeen) return [draw(pathOf(roundRect(shape), point, at))];
  if (name === "path" && isSeen) return [draw(pathOf(shape.d, point, at))];
  if (name === "text" && text) return [nodeOf(text, look, point(shape.x, shape.y), at.turn, colour)];
  return children.flatMap((child) => linesOf(child, at, look, colour));
}

function moved({ x, y, turn }, transform = "") {
  const [, dx = 0, dy = 0] = transform.match(/translate\((\S+) (\S+)\)/) ?? [];
  const [, by = 0] = transform.match(/rotate\((\S+)\)/) ?? [];
  const angle = (turn * Math.PI) / 180;
  const [right, down] = [Number(dx), Number(dy)];
  const [cos, sin] = [Math.cos(angle), Math.sin(angle)];
  return { x: x + right * cos - down * sin, y: y + right * sin + down * cos, turn: turn + Number(by) };
}

/** A point of a part, with y upwards. */
function pointOf(at, x, y) {
  const place = moved(at, `translate(${x} ${y})`);
  return `(${number(place.x)},${number(-place.y)})`;
}

/** A rectangle with round ends, as messages have. */
function roundRect({ x, y, width, height, rx }) {
  const [left, top, w, h, r] = [x, y, width, height, rx].map(Number);
  const [right, low] = [left + w, top + h];
  const turn = (toX, toY) => `A${r} ${r} 0 0 1 ${toX} ${toY}`;
  return `M${left + r} ${top}L${right - r} ${top}${turn(right, top + r)}L${right} ${low - r}${turn(right - r, low)}`
    + `L${left + r} ${low}${turn(left, low - r)}L${left} ${top + r}${turn(left + r, top)}Z`;
}

/** A path of SVG with lines and clockwise arcs. */
function pathOf(d, point, at) {
  let last = [0, 0];
  return [...d.matchAll(/([MLAHZ])([^MLAHZ]*)/g)].map(([, letter, rest]) => {
    const numbers = (rest.match(/-?[\d.]+/g) ?? []).map(Number);
    if (letter === "Z") return " -- cycle";
    if (letter === "A") {
      const next = numbers.slice(5);
      const arc = arcOf(last, numbers, at.turn);
      last = next;
      return arc;
    }
    last = letter === "H" ? [numbers[0], last[1]] : numbers;
    return `${letter === "M" ? "" : " -- "}${point(...last)}`;
  }).join("");
}

/** An arc of a circle, clockwise, from a point on. */
function arcOf([x, y], [radius, , , isLarge, , toX, toY], turn) {
  const [dx, dy] = [toX - x, toY - y];
  const chord = Math.hypot(dx, dy);
  const half = Math.asin(Math.min(chord / (2 * radius), 1));
  const sweep = (isLarge ? 2 * Math.PI - 2 * half : 2 * half) * (180 / Math.PI);
  // The tangent at the start is the chord turned back by half the sweep, and the centre stands at its right.
  const chordTurn = (Math.atan2(dy, dx) * 180) / Math.PI + turn;
  const start = -(chordTurn - sweep / 2) + 90;
  return ` arc[start angle=${number(start)}, end angle=${number(start - sweep)}, radius=${number(radius)}]`;
}

function optionsOf(look, colour) {
  const { fill = "#000000", stroke = "none", opacity } = look;
  const dashes = look["stroke-dasharray"]?.split(/[\s,]+/) ?? [];
  return [
    fill === "none" ? null : `fill=${colour(fill)}`,
    ...(stroke === "none" ? [] : [`draw=${colour(stroke)}`, `line width=${length(look["stroke-width"] ?? "1")}`,
      dashes.length ? `dash pattern=on ${length(dashes[0])} off ${length(dashes[1])}` : null,
      look["stroke-linecap"] === "round" ? "line cap=round" : null, look["stroke-linejoin"] === "round" ? "line join=round" : null]),
    opacity === "1" ? null : `opacity=${opacity}`,
  ].filter(Boolean).join(", ");
}

const FAMILIES = { serif: "\\rmfamily", monospace: "\\ttfamily" };
const SIDES = { start: "west", end: "east" };

function nodeOf(text, look, place, turn, colour) {
  const size = length(look["font-size"] ?? "15");
  const weight = Number(look["font-weight"] ?? 400) >= 600 ? "\\bfseries" : "";
  const font = `\\fontsize{${size}}{${size}}${FAMILIES[look["font-family"]] ?? "\\sffamily"}${weight}\\selectfont`;
  const more = [turn ? `, rotate=${number(-turn)}` : "", look.opacity === "1" ? "" : `, opacity=${look.opacity}`].join("");
  const anchor = SIDES[look["text-anchor"]] ?? "center";
  const options = `inner sep=0pt, anchor=${anchor}, text=${colour(look.fill ?? "#000000")}, font=${font}${more}`;
  return `\\node[${options}] at ${place} {${escaped(text)}};`;
}
