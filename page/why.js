// Why: how a node computes what it has or sends in a step, as the trees of `nbhd explain`.

import { ask, drop } from "./ask.js";
import { byId, coded, html } from "./dom.js";
import { markWord, onWord, scrollToRows } from "./editor.js";
import { reasonOf } from "./faults.js";
import { partTokens } from "./language.js";
import { numerals, widthOf } from "./numerals.js";
import { change, state } from "./state.js";
import { branchesOf, sourceOf, treesIn, treesOf } from "./trees.js";

const panel = byId("why");
const box = byId("why-trees");

let leave = () => {}; // returns the focus
let lead = () => {}; // shows another node in another step

/** The place of the node that is explained, or `null`. */
export const whyPlace = () => (/^[0-9]+$/.test(state.why) ? Number(state.why) : null);

/**
 * Explains the node at a place in a step of the run. The focus goes to the tree of the head `focus`, or to the first one if that is
 * empty, and `back` returns it when the panel is closed.
 */
export async function openWhy(place, step, ring, { focus = null, back }) {
  change({ why: String(place) }, { keep: whyPlace() === null, shown: true });
  leave = back;
  await showWhy(step, ring);
  if (focus === null) return;
  const trees = [...box.querySelectorAll("[role=tree]")];
  const tree = trees.find(({ ariaLabel }) => ariaLabel === focus) ?? trees[0];
  tree?.parentElement.scrollIntoView({ block: "nearest" });
  tree?.querySelector("[role=treeitem]")?.focus({ preventScroll: true });
}

export function closeWhy() {
  drop("why");
  if (state.why !== "") change({ why: "" }, { shown: true });
  panel.hidden = true;
  box.replaceChildren();
  markWord(null);
}

/** Shows the trees of the node that is explained, if one is, in another step. */
export async function showWhy(step, ring) {
  const place = whyPlace();
  if (place === null || place >= ring.length) return panel.hidden && state.why === "" ? undefined : closeWhy();
  const { ids, text } = state;
  const report = await ask("why", "explain", { ids, ring: ring.join(","), place: String(place) }, text);
  if (report === undefined || whyPlace() !== place) return undefined;
  byId("why-heading").textContent = `Why? Node ${numerals(ring, state.base)[place]} at place ${place}`;
  panel.hidden = false;
  if (report.kind !== "explanation") return box.replaceChildren(html("p", { class: "refused" }, ...coded(reasonOf(report))));
  const tokens = partTokens(text);
  box.replaceChildren(...treesIn(treesOf(report, tokens), step).map((tree) => drawTree(tree, tokens, ring)));
  panel.scrollTop = 0;
  scrollToRows();
  return bringIntoView();
}

/** Scrolls the page so that the ring and the panel are both in view. */
function bringIntoView() {
  const ring = byId("stage").getBoundingClientRect();
  const own = panel.getBoundingClientRect();
  const isBelow = getComputedStyle(panel).position === "fixed" && own.left < ring.right && own.right > ring.left;
  if (ring.top < 0 || ring.bottom > (isBelow ? own.top : innerHeight)) scrollBy(0, ring.top - 4);
}

function drawTree({ head, kind, round, parts }, tokens, ring) {
  const values = numerals(parts.map(({ value }) => value), state.base, widthOf(ring));
  const branches = branchesOf(parts);
  const list = html("ul", { role: "tree", "aria-label": head }, ...parts.map(({ depth, word, number, end }, i) => {
    const source = sourceOf({ kind, round }, word);
    const follow = source && (() => lead(source));
    return html("li", {
      role: "treeitem", class: branches[i], "aria-level": depth + 1, "data-part": number, "data-end": end, tabindex: i === 0 ? "0" : "-1",
      style: { paddingLeft: `${depth * 1.1 + 0.5}em` },
      onfocus: () => mark(number, tokens), onpointerenter: () => mark(number, tokens), onkeydown: (event) => treeKey(event, follow),
    }, html("code", {}, word), " ", html("b", { class: "code" }, values[i]),
    source && html("button", { type: "button", class: "source", tabindex: "-1", onclick: follow }, nameOf(source, ring)),
    branches[i] && html("span", { class: "branch" }, BRANCHES[branches[i]]));
  }));
  return html("section", { class: "tree" }, html("h4", {}, ...coded(`\`${head}\``)), list);
}

const BRANCHES = { taken: "taken", other: "not taken" };

/** What the button to the source of a value says. */
function nameOf({ kind, round, further }, ring) {
  if (further) return `from node ${numerals(ring, state.base).at((whyPlace() + further) % ring.length)}`;
  return kind === "start" ? "from start" : `from round ${round}`;
}

const items = () => [...box.querySelectorAll("[role=treeitem]")];

/** Marks a part of a tree, and its word in the program. */
function mark(number, tokens) {
  for (const item of items()) item.classList.toggle("marked", Number(item.dataset.part) === number);
  markWord(tokens[number] ?? null);
}

/**
 * Arrows go along the parts: up and down to the next ones, left to the whole of which a part is one, right to its first part. Enter
 * leads to where the part's value comes from.
 */
function treeKey(event, follow) {
  const all = items();
  const item = event.currentTarget;
  const at = all.indexOf(item);
  const level = (other) => Number(other?.ariaLevel ?? 0);
  let to;
  if (event.key === "ArrowDown") to = all[at + 1];
  else if (event.key === "ArrowUp") to = all[at - 1];
  else if (event.key === "ArrowRight") to = level(all[at + 1]) > level(item) ? all[at + 1] : undefined;
  else if (event.key === "ArrowLeft") to = all.slice(0, at).findLast((other) => level(other) < level(item));
  else if (event.key === "Enter" && follow) follow();
  else return;
  event.preventDefault();
  event.stopPropagation();
  to?.focus();
}

/** `show` shows the node a number of places further in another step, at the tree of a head. */
export function startWhy(show) {
  lead = show;
  const close = () => {
    closeWhy();
    leave();
  };
  byId("why-close").addEventListener("click", close);
  panel.addEventListener("keydown", (event) => {
    if (event.key !== "Escape") return;
    event.stopPropagation();
    close();
  });
  box.addEventListener("pointerleave", () => markWord(null));
  // The other way round: the part that stands for the word that the cursor is in.
  onWord((index) => {
    if (whyPlace() === null) return;
    const number = partTokens(state.text).findIndex(({ at, length }) => at <= index && index <= at + length);
    for (const item of items()) {
      const here = Number(item.dataset.part) <= number && number < Number(item.dataset.end);
      item.classList.toggle("marked", here);
      if (here) item.scrollIntoView({ block: "nearest" });
    }
  });
}
