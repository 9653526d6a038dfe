// The list of examples.

import { byId, html } from "./dom.js";
import { roundsOf } from "./language.js";
import { QUESTIONS } from "./demand.js";
import { askedBy } from "./problems.js";
import { recorded } from "./recorded.js";
import { change, exampleAsking, exampleOf, isLinked, state } from "./state.js";

// The heads of docs/GALLERY.md, with the examples that are shown there, the first steps first.
const GROUPS = {
  "Cole and Vishkin": "cv1 ldb cv2 cv1_edges xor_left",
  "No round": "identity twice_id parity two_colours_8",
  "The removal of a class": "greedy_8_7 cv_then_5 cv_to_three tutorial_three",
  "Sperner families": "sperner_20_6 sperner_20_4 five_162 three_18 three_10 three_23",
  "Linial's polynomials": "linial_poly",
  "Rules that see only the order": "local_min orient order_free max_flood",
  "Other questions, by one round more": "mis_gap weak2_enc dist2_enc matching_enc dist2_id weak2 any_demand",
  "Maximal independent sets": "mis_12 mis_7 mis_10 mis_minima",
  "Pairs and pieces": "matching_12 matching_bits greedy3_12 greedy3_at_once",
  "Weak colourings": "weak2_6 weak2_12 weak2_23",
};
const stem = ({ name }) => name.replace(/\.txt$/, "");

/** The examples: name, title, text, and the number of identifiers that a comment recommends, else 8. */
export async function loadExamples() {
  if (recorded) return recorded.examples;
  try {
    const examples = await (await fetch("examples.json")).json();
    return examples.map((example) => ({ ...example, ids: example.text.match(/^# Identifiers: (\d+)/m)?.[1] ?? "8" }));
  } catch {
    return [];
  }
}

let taken = null; // the text of the example that was chosen last

export function fillExamples(examples) {
  const list = byId("examples");
  const groups = Object.entries(GROUPS).map(([head, stems]) =>
    [head, stems.split(" ").flatMap((each) => examples.filter((example) => stem(example) === each))]);
  const rest = examples.filter((example) => !groups.some(([, members]) => members.includes(example)));
  for (const example of rest) list.append(itemOf(example));
  for (const [head, members] of groups) if (members.length) list.append(html("h3", {}, head), ...members.map(itemOf));
  const items = () => [...list.querySelectorAll("button")];
  const button = byId("examples-button");
  list.addEventListener("beforetoggle", (event) => {
    if (event.newState !== "open") return;
    const box = button.getBoundingClientRect();
    list.style.left = `${box.left}px`;
    list.style.top = `${box.bottom + 6}px`;
    list.style.maxHeight = `${Math.max(innerHeight - box.bottom - 24, 200)}px`;
  });
  list.addEventListener("toggle", (event) => {
    if (event.newState === "open") (list.querySelector("[aria-current=true]") ?? items()[0])?.focus();
  });
  list.addEventListener("keydown", (event) => {
    const by = { ArrowDown: 1, ArrowUp: -1 }[event.key];
    if (!by) return;
    event.preventDefault();
    const all = items();
    all[(all.indexOf(document.activeElement) + by + all.length) % all.length].focus();
  });
}

/** The button of an example in the list. */
function itemOf(example) {
  const count = roundsOf(example.text);
  const facts = [example.name, count === 1 ? "1 round" : `${count} rounds`, `${example.ids} identifiers`];
  const { problem } = askedBy(example.text);
  if (problem !== "differ") facts.push(QUESTIONS[problem]);
  return html("button", { type: "button", onclick: () => take(example, count) },
    html("span", { class: "title" }, example.title), html("span", { class: "aside" }, facts.join(" · ")));
}

export function showExample() {
  const example = exampleOf(state.text);
  byId("examples-button").title = example ? `${example.name}: ${example.title}` : "";
  const other = isLinked() ? "Program of the link" : "Own program";
  byId("example-name").textContent = example ? `${stem(example)}: ${example.title.replace(/\.$/, "")}` : other;
  for (const item of byId("examples").querySelectorAll("button")) {
    item.setAttribute("aria-current", String(item.firstElementChild.textContent === example?.title));
  }
  showAnswer();
}

/** A link to the answer to what the comments of the text have to try. */
function showAnswer() {
  const example = exampleAsking(state.text);
  byId("to-try").hidden = !example;
  byId("answer").href = `docs/EXERCISES.html#${example ? stem(example) : "what-to-try"}`;
}

/** Takes an example with its number of identifiers, its problem, a new ring if the current one is no ring for it, and the start of its
 * run if the number of steps is another one, unless the end was shown. A problem that was chosen stays if the example names none. */
function take(example, rounds) {
  byId("examples").hidePopover();
  const ids = Number(example.ids);
  const ring = state.ring.split(",").map(Number);
  const least = 2 * rounds + 2;
  const fits = ring.length >= least && ring.every((identifier) => identifier < ids);
  const own = recorded?.rings.find((each) => each.split(",").length >= least);
  const next = fits ? state.ring : own ?? spread(Math.max(least, Math.min(8, ids)), ids);
  const step = state.step === "end" || roundsOf(state.text) === rounds ? state.step : "";
  const [before, asked] = [askedBy(state.text), askedBy(example.text)];
  const isChosen = state.problem !== before.problem || (state.problem === "own" && state.forbid !== before.forbid);
  const stays = isChosen && asked.problem === "differ";
  taken = example.text;
  change({ text: example.text, ids: example.ids, ring: next, step, ...(stays ? {} : asked) }, { keep: true });
}

/** Ctrl-Z takes the choice of an example back, as the browser's Back does, while its text is as it was chosen. */
export function undoByKey() {
  addEventListener("keydown", (event) => {
    if (event.key !== "z" || !(event.ctrlKey || event.metaKey) || event.altKey || event.shiftKey) return;
    if (event.target.matches("input") || taken === null || state.text !== taken) return;
    event.preventDefault();
    taken = null;
    history.back();
  });
}

/** A ring of `n` identifiers below `ids`, not in ascending order. */
function spread(n, ids) {
  const step = [5, 7, 3, 11, 13, 1].find((candidate) => gcd(candidate, ids) === 1);
  return Array.from({ length: n }, (_, i) => (2 + i * step) % ids).join(",");
}

const gcd = (a, b) => (b === 0 ? a : gcd(b, a % b));
