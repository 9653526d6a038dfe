// A drawing as the text of an SVG that stands alone. The rules of style.css that apply to it become attributes, with the colours of the
// light page and with fonts that every machine has.

// What is written of a rule: properties that SVG has as attributes. Most go to the parts of a group too.
const INHERITED = ["fill", "stroke", "stroke-width", "stroke-dasharray", "stroke-linecap", "stroke-linejoin", "font-family", "font-size",
  "font-style", "font-weight", "text-anchor", "dominant-baseline"];
const PROPERTIES = new Set([...INHERITED, "opacity", "display"]);
const SHAPE = new Set(["d", "x", "y", "width", "height", "rx", "cx", "cy", "r", "viewBox", "transform"]);
const FONTS = { "--prose": "serif", "--plain": "sans-serif", "--code": "monospace" };

/** The rules `{ selectors, values }` of a style sheet outside of its media queries, with the values of the light page. */
export function readRules(sheet) {
  const blocks = [];
  const text = sheet.replace(/\/\*.*?\*\//gs, "");
  for (let at = 0, open; (open = text.indexOf("{", at)) >= 0;) {
    let end = open + 1;
    for (let depth = 1; depth > 0 && end < text.length; end += 1) depth += { "{": 1, "}": -1 }[text[end]] ?? 0;
    blocks.push([text.slice(at, open).trim(), text.slice(open + 1, end - 1)]);
    at = end;
  }
  const named = { ...FONTS };
  for (const [, name, value] of text.matchAll(/(--[\w-]+): (?:light-dark\()?(#\w+)/g)) named[name] ??= value;
  return blocks.filter(([head]) => !head.startsWith("@")).flatMap(([head, body]) => {
    const selectors = splitOutside(head, ",").map(readSelector).filter(Boolean);
    const values = Object.fromEntries(body.split(";").flatMap((line) => readValue(line, named)));
    return selectors.length && Object.keys(values).length ? [{ selectors, values }] : [];
  });
}

function readValue(line, named) {
  const [, name, raw] = line.match(/^\s*([\w-]+):\s*(.*?)\s*$/s) ?? [];
  const value = raw?.replace(/var\((--[\w-]+)\)/g, (_, variable) => named[variable] ?? variable);
  if (PROPERTIES.has(name)) return [[name, value]];
  const font = name === "font" && value.match(/^(?:(italic) )?(?:(\d+) )?([\d.]+px)(?:\/\S+)? (.*)$/);
  if (!font) return [];
  const [, style = "normal", weight = "400", size, family] = font;
  return [["font-style", style], ["font-weight", weight], ["font-size", size], ["font-family", family]];
}

/** The parts of a text between separators that stand in no parentheses. */
function splitOutside(text, separator) {
  const parts = [""];
  let depth = 0;
  for (const letter of text) {
    depth += { "(": 1, ")": -1 }[letter] ?? 0;
    if (letter === separator && depth === 0) parts.push("");
    else parts[parts.length - 1] += letter;
  }
  return parts.map((part) => part.trim()).filter(Boolean);
}

/** A selector as its compounds, the last one first, each with whether the next one has to match its parent; `null` for what no drawing
 * has. */
function readSelector(text) {
  const words = splitOutside(text.replace(/\s*>\s*/g, " >").replace(/\s+/g, " "), " ");
  const compounds = words.map((word) => ({ isParent: word.startsWith(">"), tests: readCompound(word.replace(/^>/, "")) }));
  if (compounds.some(({ tests }) => tests === null)) return null;
  const weight = compounds.flatMap(({ tests }) => tests).reduce((sum, test) => sum + test.weight, 0);
  return { weight, compounds: compounds.reverse() };
}

function readCompound(word) {
  const tests = [];
  const part = /([a-z]+)|\.([\w-]+)|\[([\w-]+)="([^"]*)"\]|:(is|not)\(([^()]*)\)/y;
  while (part.lastIndex < word.length) {
    const [, tag, name, attribute, value, logic, list] = part.exec(word) ?? [];
    if (tag) tests.push({ weight: 1, holds: (part) => part.name === tag });
    else if (name) tests.push({ weight: 10, holds: (part) => part.classes.has(name) });
    else if (attribute) tests.push({ weight: 10, holds: (part) => part.attributes[attribute] === value });
    else if (logic) {
      const choices = splitOutside(list, ",").map(readCompound);
      if (choices.includes(null)) return null;
      const weight = Math.max(...choices.map((choice) => choice.reduce((sum, test) => sum + test.weight, 0)));
      const isAny = (part) => choices.some((choice) => choice.every(({ holds }) => holds(part)));
      tests.push({ weight, holds: logic === "is" ? isAny : (part) => !isAny(part) });
    } else return null;
  }
  return tests;
}

function applies([{ tests, isParent }, ...rest], part) {
  if (!tests.every(({ holds }) => holds(part))) return false;
  if (rest.length === 0) return true;
  for (let above = part.parent; above; above = above.parent) {
    if (applies(rest, above)) return true;
    if (isParent) return false;
  }
  return false;
}

/** A number of two decimals at most, in place of each longer one. */
const rounded = (text) => text.replace(/-?\d*\.\d+(e-?\d+)?/g, (number) => String(Number(Number(number).toFixed(2)) || 0));

/** A drawing as a tree of parts `{ name, shape, look, text, children }`: its geometry, and the values of the rules that apply to it. */
export function partsOf(image, rules) {
  const stage = { name: "figure", classes: new Set(["stage"]), attributes: {} };
  return partOf(image, stage, rules);
}

function partOf(element, parent, rules) {
  const attributes = Object.fromEntries([...element.attributes].map(({ name, value }) => [name, value]));
  const part = { name: element.tagName, attributes, parent, classes: new Set((attributes.class ?? "").split(" ")) };
  part.shape = Object.fromEntries(Object.entries(attributes).flatMap(([name, value]) => (SHAPE.has(name) ? [[name, rounded(value)]] : [])));
  part.look = lookOf(part, rules);
  for (const name of element.style) setOwn(part, name, element.style.getPropertyValue(name));
  const shown = [...element.children].filter(({ tagName }) => tagName !== "title");
  part.children = shown.map((child) => partOf(child, part, rules)).filter(({ look }) => look.display !== "none");
  part.text = shown.length || part.name !== "text" ? "" : element.textContent;
  return part;
}

function lookOf(part, rules) {
  const own = Object.fromEntries(Object.entries(part.attributes).filter(([name]) => PROPERTIES.has(name)));
  const found = rules.flatMap(({ selectors, values }) => {
    const weights = selectors.filter(({ compounds }) => applies(compounds, part)).map(({ weight }) => weight);
    return weights.length ? [{ weight: Math.max(...weights), values }] : [];
  });
  return Object.assign(own, ...found.sort((a, b) => a.weight - b.weight).map(({ values }) => values));
}

/** Takes a value that the drawing gives a part by itself. */
function setOwn(part, name, value) {
  const hex = (...numbers) => `#${numbers.slice(1, 4).map((number) => Number(number).toString(16).padStart(2, "0")).join("")}`;
  if (name === "transform") part.shape.transform = rounded(value.replace(/px/g, "").replace(/,\s*/g, " "));
  else if (PROPERTIES.has(name)) part.look[name] = value.replace(/rgb\((\d+), (\d+), (\d+)\)/, hex);
}

/** Moves what all children of a group have to the group. */
function gather(part) {
  for (const child of part.children) gather(child);
  for (const name of part.name === "g" && part.children.length ? INHERITED : []) {
    const values = new Set(part.children.map(({ look }) => look[name]));
    const [value] = values;
    if (values.size > 1 || value === undefined) continue;
    part.look[name] = value;
    for (const child of part.children) delete child.look[name];
  }
}

const escaped = (text) => text.replace(/[&<>"]/g, (letter) => ({ "&": "&amp;", "<": "&lt;", ">": "&gt;", '"': "&quot;" })[letter]);

function written({ name, shape, look, text, children }, title = "") {
  const { "dominant-baseline": base, ...rest } = look;
  const lower = name === "text" && base === "central" ? { dy: "0.35em" } : {}; // understood by more programs
  const all = Object.entries({ ...shape, ...lower, ...rest }).map(([key, value]) => ` ${key}="${escaped(value)}"`).join("");
  const inner = title + escaped(text) + children.map((child) => written(child)).join("");
  if (name === "g" && !children.length) return "";
  return inner ? `<${name}${all}>${inner}</${name}>\n` : `<${name}${all}/>\n`;
}

/** The text of an SVG with the parts of a drawing. */
export function svgText(image, rules) {
  const tree = partsOf(image, rules);
  const title = `<title>${escaped(tree.attributes["aria-label"] ?? "")}</title>\n`;
  gather(tree);
  delete tree.look.display;
  tree.shape = { xmlns: "http://www.w3.org/2000/svg", ...tree.shape };
  return written(tree, title);
}
