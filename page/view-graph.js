// Graph: the neighbourhood graph. Its vertices are the windows, and its edges go from each window to those of the right neighbour.
// Neighbours' channels differ by at least `near` on every ring exactly if no edge joins windows with channels closer than that. A
// problem is solved on every ring exactly if no path of two or three windows has channels that match a forbidden pattern.

import { drop } from "./ask.js";
import { byId, coded, html, point, svg } from "./dom.js";
import { change, state } from "./state.js";
import { badge, badgeImage } from "./channels.js";
import { demandOf, NO_PATTERNS, patternsText } from "./demand.js";
import { reasonOf } from "./faults.js";
import { drawMatrix } from "./matrix.js";
import { recorded } from "./recorded.js";
import { askTable } from "./source.js";
import { edgesOf, tableOf } from "./table.js";
import { wrongPaths } from "./paths.js";

const MOST = 120;
const SHOWN = 24;
const FEW = [4, 5, 6]; // the numbers of identifiers that are offered
const drawing = byId("drawing");
const sentence = byId("graph-say");
const cycles = byId("arrange").querySelector("[value=cycle]");

export async function updateGraph(checked) {
  for (const choice of byId("arrange").querySelectorAll("input")) choice.checked = choice.value === state.arrange;
  const demand = demandOf(state, checked.accepted);
  const near = state.problem === "distance" ? state.near : "1";
  byId("graph-distance").hidden = demand.patterns !== undefined;
  if (byId("graph-near").value !== near) byId("graph-near").value = near;
  byId("graph-near").setAttribute("aria-invalid", demand.why !== undefined);
  drop("table");
  if (checked.refusal) return showNothing(checked.refusal);
  if (demand.patterns === null) return showNothing(NO_PATTERNS);
  if (demand.why) return showNothing(demand.why);
  const { ids, windows, rounds } = checked.accepted;
  // With 2t+2 identifiers each window has one successor, so the graph consists of disjoint cycles.
  cycles.disabled = ids !== 2 * rounds + 2;
  const report = await askTable("table");
  if (report === undefined) return undefined;
  if (report.kind !== "table") return showNothing(...coded(reasonOf(report)));
  if (windows > MOST) {
    const tooMany = `${windows.toLocaleString("en")} windows are too many to draw: at most ${MOST} can be. `;
    showNothing(tooMany, ...(state.table || recorded ? [] : advice(rounds)));
  } else {
    const table = tableOf(report);
    show({ ...table, windows: table.windows.map((window) => window.join(" ")) }, edgesOf(table), demand);
  }
  return byId("matrix").replaceChildren(...drawMatrix(report, demand));
}

/** Buttons for few identifiers, or where the rounds allow none of them, which programs have few enough windows. */
function advice(rounds) {
  const length = 2 * rounds + 1;
  const windowsOf = (ids) => Array.from({ length }, (_, i) => ids - i).reduce((product, choices) => product * choices);
  const offered = FEW.filter((ids) => ids > length && windowsOf(ids) <= MOST);
  if (offered.length === 0) return ["A program of one round with 4, 5 or 6 identifiers has few enough."];
  return [rounds === 0 ? `Take at most ${MOST} identifiers, as ` : "Take fewer identifiers: ", ...offered.map(offer)];
}

function offer(ids) {
  const take = () => {
    byId("tab-graph").focus(); // as the button goes
    change({ ids: String(ids) }, { keep: true });
  };
  return html("button", { type: "button", class: "offer", "aria-label": `${ids} identifiers`, onclick: take }, String(ids));
}

function showNothing(...why) {
  sentence.replaceChildren(...why);
  sentence.className = "say refused";
  for (const box of [drawing, byId("matrix"), byId("edges")]) box.replaceChildren();
}

/** Shows the graph of a table, whose windows are texts here. */
function show(table, edges, demand) {
  const paths = wrongPaths(table, edges, demand);
  sentence.className = "say";
  sentence.textContent = `${table.windows.length} windows, ${edges.length.toLocaleString("en")} edges. ${sentenceOn(paths.length, demand)}`;
  const arrange = cycles.disabled && state.arrange === "cycle" ? "channel" : state.arrange;
  byId("arrange").querySelector(`[value=${arrange}]`).checked = true;
  const places = arrange === "cycle" ? cyclePlaces(edges) : circlePlaces(table, arrange);
  drawing.replaceChildren(draw(table, edges, places, new Set(paths.flatMap((path) => path.slice(1).map((b, i) => `${path[i]} ${b}`)))));
  showWrong(table, paths, demand);
}

function sentenceOn(count, { near, far, patterns }) {
  const number = count.toLocaleString("en");
  if (patterns) {
    const paths = ["No path of windows has", "1 path of windows has"][count] ?? `${number} paths of windows have`;
    return `${paths} channels that are forbidden in a row: ${patternsText(patterns)}.`;
  }
  const joined = ["None joins", "1 joins"][count] ?? `${number} join`;
  const channels = near === 1 ? "windows with equal channels" : `windows whose channels differ by less than ${near}`;
  return `${joined} ${channels}.${far > 0 ? " Distance two is no edge here: the judge looks at it." : ""}`;
}

/** All windows on one circle, in their order, or by channel with a gap between channels. */
function circlePlaces({ windows, channels }, arrange) {
  const order = windows.map((_, i) => i);
  if (arrange === "channel") order.sort((a, b) => channels[a] - channels[b] || a - b);
  const groups = arrange === "channel" ? new Set(channels).size : 0;
  const gap = groups > 1 ? 1.2 : 0;
  const total = windows.length + gap * groups;
  const radius = Math.max(150, (total * 15.5) / (2 * Math.PI));
  const at = [];
  let turn = gap / 2;
  order.forEach((i, k) => {
    if (gap && k > 0 && channels[i] !== channels[order[k - 1]]) turn += gap;
    at[i] = { turn: (turn + 0.5) / total, centre: [0, 0], radius };
    turn += 1;
  });
  const reach = radius + 24 + 7 * windows[0].length;
  return { at, width: 2 * reach, height: 2 * reach, left: -reach, top: -reach, bend: 0.35 };
}

/** Each cycle of the graph on its own circle. */
function cyclePlaces(edges) {
  const after = new Map(edges);
  const seen = new Set();
  const cycles = [];
  for (const start of after.keys()) {
    const cycle = [];
    for (let i = start; !seen.has(i); i = after.get(i)) {
      seen.add(i);
      cycle.push(i);
    }
    if (cycle.length) cycles.push(cycle);
  }
  const columns = Math.ceil(Math.sqrt(cycles.length * 1.5));
  const side = 216;
  const at = [];
  cycles.forEach((cycle, k) => {
    const centre = [(k % columns) * side, Math.floor(k / columns) * side];
    cycle.forEach((i, j) => (at[i] = { turn: j / cycle.length, centre, radius: 46 }));
  });
  const rows = Math.ceil(cycles.length / columns);
  return { at, width: columns * side, height: rows * side, left: -side / 2, top: -side / 2, bend: -0.7 };
}

/** The graph with its windows at these places, and the edges of the set `red`, each as its two windows. */
function draw(table, edges, { at, width, height, left, top, bend }, red) {
  const { windows, channels } = table;
  const image = svg("svg", { class: "graph", viewBox: `${left} ${top} ${width} ${height}`, width, height, role: "group",
    "aria-label": `Neighbourhood graph of ${windows.length} windows. Arrow keys move between them.` });
  const spot = ({ turn, centre, radius }, more = 0) => {
    const [x, y] = point(turn, radius + more);
    return [centre[0] + x, centre[1] + y];
  };
  const small = windows.length > 30 ? 5.8 : 9;
  const lines = { plain: svg("g", { class: "edges" }), close: svg("g", { class: "edges close" }) };
  const drawn = edges.map(([a, b]) => {
    const line = drawEdge(spot(at[a]), spot(at[b]), at[a].centre, { off: small + 4, bend, headed: edges.length <= 80 });
    lines[red.has(`${a} ${b}`) ? "close" : "plain"].append(line);
    return { a, b, line };
  });
  const points = windows.map((window, i) => {
    const [x, y] = spot(at[i]);
    const group = svg("g", { class: "point", role: "img", "aria-label": describe(windows, channels, edges, i) });
    group.append(badge(channels[i], x, y, small), pointLabel(window, at[i], spot(at[i], small + 6), windows.length > 30));
    group.append(svg("title", {}, `${window} : ${channels[i]}`));
    const mark = (on) => {
      image.classList.toggle("asked", on);
      group.classList.toggle("on", on);
      for (const { a, b, line } of drawn) if (a === i || b === i) line.classList.toggle(a === i ? "out" : "in", on);
    };
    for (const event of ["pointerenter", "focus"]) group.addEventListener(event, () => mark(true));
    for (const event of ["pointerleave", "blur"]) group.addEventListener(event, () => mark(false));
    return group;
  });
  const along = ({ centre: [x, y], turn }, { centre: [u, v], turn: next }) => y - v || x - u || turn - next;
  const order = windows.map((_, i) => i).sort((i, j) => along(at[i], at[j]));
  image.append(lines.plain, lines.close, ...order.map((i) => points[i]));
  allowKeys(order.map((i) => points[i]));
  return image;
}

/** What a screen reader says of a window. */
function describe(windows, channels, edges, i) {
  const next = edges.filter(([a]) => a === i).map(([, b]) => `${windows[b]} with channel ${channels[b]}`);
  return `Window ${windows[i]} with channel ${channels[i]}. To its right: ${next.join(", ")}.`;
}

/** Makes one point a tab stop, from which the arrow keys move along the points. */
function allowKeys(points) {
  points.forEach((point, i) => {
    point.setAttribute("tabindex", i === 0 ? "0" : "-1");
    point.addEventListener("keydown", (event) => {
      const by = { ArrowRight: 1, ArrowDown: 1, ArrowLeft: -1, ArrowUp: -1 }[event.key];
      if (!by) return;
      event.preventDefault();
      const next = points[(i + by + points.length) % points.length];
      point.setAttribute("tabindex", "-1");
      next.setAttribute("tabindex", "0");
      next.focus();
    });
  });
}

/** An arrow between two points, bent towards the centre, or away from it if `bend` is negative. Without `headed` its head is shown
 * only while one of its windows is pointed at. */
function drawEdge([x1, y1], [x2, y2], [cx, cy], { off, bend, headed }) {
  const [mx, my] = [(x1 + x2) / 2, (y1 + y2) / 2];
  const [qx, qy] = [mx + (cx - mx) * bend, my + (cy - my) * bend];
  const cut = (x, y) => {
    const far = Math.hypot(qx - x, qy - y) || 1;
    return [x + ((qx - x) * off) / far, y + ((qy - y) * off) / far];
  };
  const [[ax, ay], [bx, by]] = [cut(x1, y1), cut(x2, y2)];
  const pair = (x, y) => `${x.toFixed(1)} ${y.toFixed(1)}`;
  const group = svg("g", { class: headed ? "edge headed" : "edge" });
  group.append(svg("path", { class: "edge-line", d: `M${pair(ax, ay)}Q${pair(qx, qy)} ${pair(bx, by)}` }));
  const angle = (Math.atan2(by - qy, bx - qx) * 180) / Math.PI;
  const transform = `translate(${pair(bx, by)}) rotate(${angle.toFixed(1)})`;
  group.append(svg("path", { class: "edge-head", d: "M-7 -3.2L0 0L-7 3.2Z", transform }));
  return group;
}

function pointLabel(window, { turn }, [x, y], along) {
  const left = turn > 0.5;
  if (along) {
    return svg("text", { class: "window-name", "text-anchor": left ? "end" : "start",
      transform: `translate(${x} ${y}) rotate(${turn * 360 - 90 + (left ? 180 : 0)})` }, window);
  }
  const [dx, dy] = point(turn, 1);
  const anchor = Math.abs(dx) < 0.3 ? "middle" : dx > 0 ? "start" : "end";
  return svg("text", { class: "window-name", x, y: y + dy * 5, "text-anchor": anchor }, window);
}

/** The paths of windows whose channels are wrong, as a list. */
function showWrong({ windows, channels }, paths, { near, patterns }) {
  if (paths.length === 0) return byId("edges").replaceChildren();
  const close = near === 1 ? "Edges between equal channels" : "Edges between channels that are too close";
  const channelsOf = (path) => path.map((i) => channels[i]);
  const badges = (path) => (patterns ? channelsOf(path) : [...new Set(channelsOf(path))]).map((channel) => badgeImage(channel));
  return byId("edges").replaceChildren(
    html("h3", {}, patterns ? "Paths with forbidden channels" : close),
    html("ul", { class: paths.some((path) => path.length > 2) ? "close-edges long" : "close-edges" }, paths.slice(0, SHOWN).map((path) =>
      html("li", {}, html("span", { class: "code" }, path.map((i) => windows[i]).join(" → ")), badges(path)))),
    paths.length > SHOWN ? html("p", { class: "aside" }, `and ${(paths.length - SHOWN).toLocaleString("en")} more`) : "",
  );
}

export function startGraph() {
  byId("arrange").addEventListener("change", (event) => change({ arrange: event.target.value }));
  byId("graph-near").addEventListener("input", ({ target }) => {
    // Where neighbours were to differ, distance two was not asked.
    change({ problem: "distance", near: target.value, far: state.problem === "distance" ? state.far : "0" });
  });
}
