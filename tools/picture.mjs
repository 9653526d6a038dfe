// Prints the picture of a run or of a no, for tools/picture: a trace or a no on standard input, drawn by the code of the page. The
// status is 2 where the input is neither, with a line on standard error.

import { readFileSync, writeSync } from "node:fs";

/** What the drawings of the page use of an element. */
class Part {
  constructor(name) {
    this.tagName = name;
    this.attributes = [];
    this.children = [];
    this.dataset = {};
    this.style = styles();
    this.classList = { add: (...names) => this.setClasses([...this.classes(), ...names]), toggle: (name, on) => this.toggle(name, on) };
  }

  setAttribute(name, value) {
    this.attributes = [...this.attributes.filter((other) => other.name !== name), { name, value: String(value) }];
  }

  classes() {
    return (this.attributes.find(({ name }) => name === "class")?.value ?? "").split(" ").filter(Boolean);
  }

  setClasses(names) {
    this.setAttribute("class", [...new Set(names)].join(" "));
  }

  toggle(name, on) {
    this.setClasses([...this.classes().filter((other) => other !== name), ...(on ? [name] : [])]);
  }

  append(...children) {
    this.children.push(...children);
  }

  replaceChildren(...children) {
    this.children = children;
  }
}

/** A style, whose values have names with capitals when they are set, and with hyphens when they are read. */
function styles() {
  const values = new Map();
  const style = {
    getPropertyValue: (name) => values.get(name),
    [Symbol.iterator]: () => values.keys(),
  };
  const set = (_, name, value) => {
    if (value !== "") values.set(name.replace(/[A-Z]/g, (letter) => `-${letter.toLowerCase()}`), value);
    return true;
  };
  return new Proxy(style, { set });
}

globalThis.document = { createElementNS: (_, name) => new Part(name), body: { classList: { contains: () => false } } };

const { demandOf } = await import("../page/demand.js");
const { centreOf, drawNo, drawStep, sizesOf } = await import("../page/drawings.js");
const { readRules, svgText } = await import("../page/picture.js");
const { say } = await import("../page/ring.js");
const { tikzText } = await import("../page/tikz.js");
const { nameOf, stepsOf } = await import("../page/trace.js");

const [what, format, problem] = process.argv.slice(2);
const lines = readFileSync(0, "utf8").split("\n").filter(Boolean);
const ROW = /^(ring|start r\d|round \d+ (?:left|right|r\d)|finish) (\d+(?: \d+)*)$/;

function refuse(why) {
  writeSync(2, `tools/picture: ${why}\n`);
  process.exit(2);
}

/** The ring and the steps of a trace; nothing if the lines are no trace. */
function traceOf(rows) {
  const named = rows.map((row) => row.match(ROW)?.slice(1) ?? ["", ""]);
  const values = new Map(named.map(([name, text]) => [name, text.split(" ").map(Number)]));
  const registersOf = (head) => Array.from({ length: 10 }, (_, j) => values.get(`${head} r${j}`)).filter(Boolean);
  const [ring, start, finish, rounds] = [values.get("ring"), registersOf("start"), values.get("finish"), []];
  while (values.has(`round ${rounds.length + 1} left`)) {
    const head = `round ${rounds.length + 1}`;
    rounds.push({ left: values.get(`${head} left`), right: values.get(`${head} right`), registers: registersOf(head) });
  }
  const lists = [ring, ...start, ...rounds.flatMap(({ left, right, registers }) => [left, right, ...registers]), finish];
  const isTrace = start.length > 0 && rounds.every(({ registers }) => registers.length === start.length)
    && lists.length === rows.length && lists.every((list) => list?.length === ring?.length);
  return isTrace ? { ring, steps: stepsOf({ start, rounds, finish }) } : undefined;
}

function runOf(rows) {
  const trace = traceOf(rows) ?? refuse("this is no trace: give what `nbhd trace` prints");
  const { ring, steps } = trace;
  const step = steps.at(-1);
  const show = (values) => values.map(String);
  const label = `Ring of ${ring.length} nodes, ${nameOf(step)}`;
  const drawing = drawStep(ring, step, sizesOf(ring, steps, 0, show), { demand: demandOf({ problem }), register: 0, show, label });
  say(drawing.layers.centre, centreOf(step));
  return drawing.image;
}

/**
 * Reads `no: ring A B .. place P channel X`, `.. places P Q channels X Y` or `.. places P Q R channels X Y Z`; nothing if the line is
 * none of these.
 */
function readNo(line) {
  const [ring, places, channels] = (line.match(/^no: ring ([\d ]+) places? ([\d ]+) channels? ([\d ]+)$/) ?? [])
    .slice(1).map((numbers) => numbers.split(" ").map(Number));
  if (places?.length !== 1) return ring && { ring, places, channels };
  // Of one place the right neighbour has the same channel.
  return { ring, places: [places[0], (places[0] + 1) % ring.length], channels: [channels[0], channels[0]] };
}

function noOf([first = "", ...rows]) {
  const no = readNo(first);
  if (!no || no.places.some((place) => place >= no.ring.length)) refuse("this is no `no`: give what `nbhd judge` prints");
  const trace = traceOf(rows);
  if (rows.length && trace?.ring.join() !== no.ring.join()) refuse("after the no there is not the trace of its ring");
  const last = trace?.steps.at(-1);
  const demand = problem === "differ" && no.places.length > 2 ? { patterns: [] } : demandOf({ problem });
  return drawNo(no, last?.channels, last?.round, demand, first.replace("no: ring", "A no: the ring")).image;
}

const image = { run: runOf, no: noOf }[what](lines);
const rules = readRules(readFileSync(new URL("../page/style.css", import.meta.url), "utf8"));
process.stdout.write({ svg: svgText, tikz: tikzText }[format](image, rules));
