// Run: the drawing of a ring, and the steps of its run.

import { drop } from "./ask.js";
import { demandOf, sentenceOn } from "./demand.js";
import { byId, coded, html } from "./dom.js";
import { centreOf, drawStep, sizesOf } from "./drawings.js";
import { clamp, whyNoNumber } from "./numbers.js";
import { change, state } from "./state.js";
import { drawWindow, say } from "./ring.js";
import { drawMessages, isDot } from "./messages.js";
import { readRing, whyNoRing, withCommas } from "./ring-text.js";
import { allowDragging, dragIn } from "./drag.js";
import { nameOf, sentenceOf, stepsOf } from "./trace.js";
import { showTrace, markStep, markPlace } from "./trace-table.js";
import { fillTray } from "./tray.js";
import { closeWhy, openWhy, showWhy, startWhy, whyPlace } from "./why.js";
import { numerals, widthOf } from "./numerals.js";
import { markRows } from "./editor.js";
import { rowsOfStep } from "./language.js";
import { reasonOf } from "./faults.js";
import { recorded } from "./recorded.js";
import { askRun } from "./source.js";

const STEP_MS = 1500;
const stage = byId("stage");
const timeline = byId("timeline");
const refused = byId("run-refused");

let accepted = null; // what was checked
let steps = null; // of the ring that is shown, or `null` while it has no run
let at = 0;
let register = 0;
let sizes = { named: false, digits: 1, sentDigits: 1 }; // of the last run
let drawing = null;
let tabStop = 0; // the place of the node that is a tab stop
let player = 0;

export async function updateRun(checked) {
  pause();
  if (withCommas(byId("ring").value) !== state.ring) byId("ring").value = state.ring;
  byId("base").value = state.base;
  byId("rings").querySelector("select").value = recorded?.rings.includes(state.ring) ? state.ring : "";
  const ring = readRing(state.ring) ?? [];
  accepted = checked.accepted;
  fillTray(ring, accepted?.ids ?? Number(state.ids), (identifier) => edit([...ring, identifier]),
    (event, identifier) => drawing && dragIn(event, drawing, ring, identifier, edit));
  drop("run");
  byId("run").classList.remove("pending");
  if (checked.refusal) return showRefused(checked.refusal, false);
  offerSizes(accepted);
  const why = whyNoRing(state.ring);
  if (why) return showRefused(why);
  // The ring of the state is drawn at once, and its run when it is known.
  steps = null;
  show();
  byId("run").classList.add("pending");
  const asked = state.ring;
  const report = await askRun("run", asked);
  // An example may have brought another ring by now, whose run is asked for when its text is checked.
  if (report === undefined || state.ring !== asked) return undefined;
  byId("run").classList.remove("pending");
  if (!["trace", "places"].includes(report.kind)) {
    showRefused(reasonOf(report));
    for (const place of report.places ?? [report.place]) drawing?.nodes[place]?.classList.add("faulty");
    return undefined;
  }
  refused.hidden = true;
  byId("ring").setAttribute("aria-invalid", "false");
  steps = stepsOf(report, accepted.rounds);
  // The same step stays open after an edit of the ring.
  const last = steps.length - 1;
  at = state.step === "end" ? last : Math.min(Number(state.step.match(/^[0-9]+$/) ?? 0), last);
  register = Math.min(register, steps[0].registers.length - 1);
  fillTimeline();
  fillRegisters();
  if (report.kind === "places") byId("trace").replaceChildren();
  else showTrace(byId("trace"), report.ring, steps, { show: shown, go, highlight, press: explainAt });
  return show();
}

/** The texts of numbers, in the base of the state, and as wide as the identifiers. */
const shown = (values) => numerals(values, state.base, widthOf(readRing(state.ring) ?? []));

function sayRefused(why) {
  refused.replaceChildren(...coded(why));
  refused.hidden = false;
}

/** Shows the ring without a run, and why; whether that is for the ring itself is marked in its field. */
function showRefused(why, isForRing = true) {
  steps = null;
  closeWhy();
  byId("ring").setAttribute("aria-invalid", String(isForRing));
  sayRefused(why);
  byId("trace").replaceChildren();
  timeline.replaceChildren();
  byId("shown-register").hidden = true;
  show();
}

function show({ moving = false } = {}) {
  const ring = readRing(state.ring);
  const step = steps?.[at];
  stage.classList.toggle("idle", !step);
  markRows(step ? rowsOfStep(state.text, step) : null);
  for (const name of ["back", "play", "forward"]) byId(name).disabled = !step;
  const demand = demandOf(state, accepted);
  const channels = step?.channels;
  byId("run-say").replaceChildren(...(step ? coded(sentenceOf(step, shown(ring))) : []),
    ...(channels ? coded(` ${sentenceOn(demand, channels, shown(ring), shown(channels))}`) : []));
  drawing = null;
  if (!ring) return stage.replaceChildren();
  if (steps) sizes = sizesOf(ring, steps, register, shown);
  const focused = stage.contains(document.activeElement) ? document.activeElement.dataset.place : undefined;
  const label = step ? `Ring of ${ring.length} nodes, ${nameOf(step)}` : `Ring of ${ring.length} nodes`;
  drawing = drawStep(ring, step, sizes, { demand, register, show: shown, label });
  stage.replaceChildren(drawing.image);
  drawing.nodes.forEach((node, place) => describe(node, place, ring, step));
  if (step) showStep(step, moving);
  allowDragging(drawing, ring, edit, explain);
  drawing.nodes[whyPlace()]?.classList.add("chosen");
  if (step) showWhy(step, ring);
  drawing.nodes[focused]?.focus({ preventScroll: true });
  return undefined;
}

function showStep(step, moving) {
  if (step.kind === "send" && [step.left, step.right].flatMap(shown).some((text) => isDot(drawing.size, text))) {
    byId("run-say").append(" The values are in the table below.");
  }
  say(drawing.layers.centre, centreOf(step));
  if (step.kind === "send" || (step.kind === "assign" && moving)) drawMessages(drawing, step, { moving, show: shown });
  if (step.kind === "assign") {
    drawing.nodes.forEach((node, place) => {
      const changed = step.registers[register][place] !== step.before[register][place];
      node.querySelector(".label")?.classList.toggle("changed", changed);
    });
  }
  timeline.querySelectorAll("button").forEach((button, i) => button.setAttribute("aria-current", i === at ? "step" : "false"));
  markStep(byId("trace"), at);
}

/** Gives a node its description for screen readers, and its keys. */
function describe(node, place, ring, step) {
  const held = step ? step.registers.map((values, j) => `r${j} ${values[place]}`).join(", ") : "";
  const wrong = node.matches(".broken") ? ", in a forbidden pattern" : "";
  const channel = step?.channels ? `, channel ${step.channels[place]}${wrong}` : "";
  node.setAttribute("tabindex", place === Math.min(tabStop, ring.length - 1) ? "0" : "-1");
  node.setAttribute("role", "button");
  node.setAttribute("aria-label",
    `Node ${ring[place]} at place ${place}: ${held}${channel}. `
      + "Delete takes it out, Shift with arrows moves it, arrows go to its neighbours, Enter tells why.");
  node.addEventListener("pointerenter", () => highlight(place));
  // What a finger has touched stays until another node is.
  node.addEventListener("pointerleave", ({ pointerType }) => pointerType !== "touch" && highlight(null));
  node.addEventListener("focus", () => {
    for (const other of drawing.nodes) other.setAttribute("tabindex", other === node ? "0" : "-1");
    tabStop = place;
    highlight(place);
  });
  node.addEventListener("blur", () => highlight(null));
  node.addEventListener("keydown", (event) => {
    if (!nodeKey(event, place, ring)) return;
    event.preventDefault();
    event.stopPropagation();
  });
}

/** What a key does at a node; tells whether it does anything. Arrows go to the neighbours. */
function nodeKey({ key, shiftKey }, place, ring) {
  const by = { ArrowLeft: -1, ArrowUp: -1, ArrowRight: 1, ArrowDown: 1 }[key];
  const to = (place + (by ?? 0) + ring.length) % ring.length;
  if (key === "Delete" || key === "Backspace") edit(ring.toSpliced(place, 1), place % (ring.length - 1 || 1));
  else if (by && shiftKey) edit(ring.toSpliced(place, 1).toSpliced(to, 0, ring[place]), to);
  else if (by) drawing.nodes[to].focus();
  else if (key === "Enter") explain(place, true);
  else return false;
  return true;
}

/** Shows the window that the node at a place has heard of so far. */
function highlight(place) {
  if (drawing?.image.classList.contains("dragging")) return;
  drawing?.layers.under.replaceChildren();
  markPlace(byId("trace"), place);
  const step = steps?.[at];
  if (place === null || !step || !drawing) return;
  const t = step.kind === "send" ? step.round - 1 : step.round;
  if (2 * t + 1 > drawing.size.n) return;
  drawing.layers.under.append(drawWindow(drawing.size, place, t, 0, "known"));
}

/** Opens or closes the explanation of the node at a place; with `enter` the focus goes there. */
function explain(place, enter = false) {
  const step = steps?.[at];
  if (!step?.registers.length) return;
  for (const node of drawing.nodes) node.classList.remove("chosen");
  if (whyPlace() !== place) drawing.nodes[place].classList.add("chosen");
  if (whyPlace() === place) closeWhy();
  else openWhy(place, step, readRing(state.ring), { focus: enter ? "" : null, back: backTo(place) });
}

const backTo = (place) => () => drawing?.nodes[place]?.focus();

/** Explains the node some places further in the step that a value comes from. */
function lead({ kind, round, head, further }) {
  const step = steps?.findIndex((other) => other.kind === kind && other.round === round) ?? -1;
  const count = readRing(state.ring).length;
  if (step >= 0) explainAt(step, (whyPlace() + further + count) % count, head);
}

/** Goes to a step and explains the node at a place there, from the tree of a head on. */
function explainAt(step, place, head) {
  pause();
  change({ why: String(place) }, { keep: whyPlace() === null, shown: true });
  go(step);
  openWhy(place, steps[step], readRing(state.ring), { focus: head, back: backTo(place) });
}

function edit(ring, focusPlace) {
  if (ring.join(",") === state.ring) show();
  else change({ ring: ring.join(",") });
  if (focusPlace !== undefined) drawing?.nodes[focusPlace]?.focus();
}

function go(step, moving = false) {
  if (!steps || step < 0 || step >= steps.length) return;
  at = step;
  change({ step: at === 0 ? "" : at === steps.length - 1 ? "end" : String(at) }, { shown: true });
  show({ moving });
}

function play() {
  if (player) return pause();
  if (!steps) return undefined;
  if (at === steps.length - 1) go(0);
  byId("play").textContent = "Pause";
  player = setInterval(() => {
    go(at + 1, true);
    if (!steps || at === steps.length - 1) pause();
  }, STEP_MS);
  return undefined;
}

function pause() {
  clearInterval(player);
  player = 0;
  byId("play").textContent = "Play";
}

function fillTimeline() {
  timeline.replaceChildren(...steps.map((step, i) =>
    html("li", {}, html("button", { type: "button", onclick: () => { pause(); go(i, i === at + 1); } }, nameOf(step)))));
}

function fillRegisters() {
  const box = byId("shown-register");
  const count = steps[0].registers.length;
  box.hidden = count < 2;
  box.querySelector("select").replaceChildren(...Array.from({ length: count }, (_, j) =>
    html("option", { value: j, selected: j === register }, `r${j}`)));
}

/** Offers the rings of a lesson. */
function offerRecorded() {
  const choice = byId("rings").querySelector("select");
  byId("rings").hidden = false;
  choice.append(...recorded.rings.map((ring) => html("option", {}, ring)));
  choice.addEventListener("change", () => choice.value && change({ ring: choice.value }));
}

export function startRun() {
  if (recorded) offerRecorded();
  startWhy(lead);
  byId("base").addEventListener("change", (event) => change({ base: event.target.value }));
  byId("back").addEventListener("click", () => { pause(); go(at - 1); });
  byId("forward").addEventListener("click", () => { pause(); go(at + 1, true); });
  byId("play").addEventListener("click", play);
  byId("shown-register").addEventListener("change", (event) => { register = Number(event.target.value); show(); });
  byId("ring").addEventListener("input", (event) => change({ ring: withCommas(event.target.value) }));
  byId("random").addEventListener("click", randomRing);
  addEventListener("keydown", (event) => {
    if (state.view !== "run" || event.altKey || event.ctrlKey || event.metaKey) return;
    // The keys of a page are what a presenter's remote sends.
    const isPage = event.key.startsWith("Page");
    if (!event.target.matches(`body, #stage, #stage *, ${isPage ? "button" : ".player button"}`)) return;
    if (["ArrowRight", "PageDown"].includes(event.key)) { pause(); go(at + 1, true); }
    else if (["ArrowLeft", "PageUp"].includes(event.key)) { pause(); go(at - 1); }
    else if (event.key === " " && event.target === stage) play();
    else return;
    event.preventDefault();
  });
}

export function stopRun() {
  pause();
  markRows(null);
}

/** Offers random rings from the least size that the program has on. */
function offerSizes({ rounds, ids }) {
  const field = byId("random-size");
  field.min = 2 * rounds + 2;
  field.max = ids;
  if (document.activeElement !== field && field.value !== "") field.value = clamp(Number(field.value), field.min, field.max);
}

function randomRing() {
  const field = byId("random-size");
  const why = whyNoNumber("nodes", field.value);
  field.setAttribute("aria-invalid", why !== null);
  if (why) return sayRefused(why);
  const ids = clamp(Number(field.max) || Number(state.ids) || 0, 1, 1024);
  const size = clamp(Number(field.value), Math.min(Number(field.min), ids), ids);
  const left = Array.from({ length: ids }, (_, i) => i);
  const ring = Array.from({ length: size }, () => left.splice(Math.floor(Math.random() * left.length), 1)[0]);
  field.value = size;
  refused.hidden = true;
  return change({ ring: ring.join(",") });
}
