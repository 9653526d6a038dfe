// The page as a whole: after a change of the state the text is checked, and the open view is updated.

import { byId } from "./dom.js";
import { QUESTIONS } from "./demand.js";
import { change, exampleOf, followAddress, link, missingNames, onChange, state } from "./state.js";
import { onEdit, showHead, showText } from "./editor.js";
import { fillExamples, loadExamples, showExample, undoByKey } from "./examples.js";
import { startHelp } from "./help.js";
import { check } from "./view-check.js";
import { startRun, stopRun, updateRun } from "./view-run.js";
import { startJudge, updateJudge } from "./view-judge.js";
import { startTable, updateTable } from "./view-table.js";
import { startGraph, updateGraph } from "./view-graph.js";
import { recorded } from "./recorded.js";
import { startTaking } from "./take.js";
import { checkTable, startSource } from "./source.js";

const VIEWS = { run: updateRun, judge: updateJudge, table: updateTable, graph: updateGraph };
// The views that a value of the state belongs to. The text and the number of identifiers belong to all views.
const USERS = {
  ring: ["run"], step: ["run"], why: ["run"], base: ["run"],
  problem: ["run", "judge", "graph"], near: ["judge", "graph"], far: ["judge", "graph"],
  forbid: ["run", "judge", "graph"], prefix: ["table"], arrange: ["graph"], large: ["run", "judge"],
};
const PAUSE_MS = 250;

let checked = null;
let pause;

function update(changed) {
  showExample();
  showMissing();
  if (changed.has("view")) showView();
  if (changed.has("large")) showSize();
  if (["text", "ids", "table"].some((name) => changed.has(name))) {
    showText(state.text);
    if (byId("ids").value !== state.ids) byId("ids").value = state.ids;
    checkSoon();
  } else if (checked && (changed.has("view") || [...changed].some((name) => USERS[name]?.includes(state.view)))) {
    VIEWS[state.view](checked);
  }
}

/** Says that the link names an example or a problem that is not there. */
function showMissing() {
  const { example, problem } = missingNames();
  const said = [];
  if (example) said.push(`There is no example ${example}: this is ${exampleOf(state.text)?.name ?? "no text"}.`);
  if (problem) said.push(`There is no problem ${problem}: the judge asks for “${QUESTIONS[state.problem]}”.`);
  byId("missing").textContent = said.join(" ");
  byId("missing").hidden = said.length === 0;
}

function checkSoon() {
  checked = null;
  clearTimeout(pause);
  pause = setTimeout(checkAndUpdate, document.activeElement?.matches("textarea") ? PAUSE_MS : 0);
}

async function checkAndUpdate() {
  document.body.classList.toggle("tabled", state.table !== "");
  byId("table-choice").value = state.table;
  const result = await (state.table ? checkTable() : check(state));
  if (result === undefined) return;
  checked = result;
  document.body.classList.toggle("accepted", !result.refusal);
  VIEWS[state.view](checked);
}

function showView() {
  if (state.view !== "run") stopRun();
  for (const name of Object.keys(VIEWS)) {
    const tab = byId(`tab-${name}`);
    tab.setAttribute("aria-selected", String(name === state.view));
    tab.tabIndex = name === state.view ? 0 : -1;
    byId(name).hidden = name !== state.view;
  }
}

/** Shows the page with large numbers, for a class, or as usual. */
function showSize() {
  document.body.classList.toggle("large", state.large !== "");
  byId("large").ariaPressed = String(state.large !== "");
  showHead();
}

function startTabs() {
  const names = Object.keys(VIEWS);
  for (const name of names) {
    byId(`tab-${name}`).addEventListener("click", () => change({ view: name }, { keep: true }));
    byId(`tab-${name}`).addEventListener("keydown", (event) => {
      const by = { ArrowLeft: -1, ArrowRight: 1 }[event.key];
      if (!by) return;
      const next = names[(names.indexOf(name) + by + names.length) % names.length];
      change({ view: next }, { keep: true });
      byId(`tab-${next}`).focus();
    });
  }
}

function startTools() {
  byId("large").addEventListener("click", () => change({ large: state.large ? "" : "1" }));
  byId("copy-link").addEventListener("click", async ({ target }) => {
    try {
      await navigator.clipboard.writeText(link());
      target.textContent = "Copied: it opens where ./nbhd-page runs";
    } catch {
      target.textContent = "In the address";
      location.replace(link());
    }
    setTimeout(() => (target.textContent = "Copy link"), 4000);
  });
}

document.body.classList.toggle("lesson", recorded !== null);
onChange(update);
onEdit((text) => change({ text }));
byId("ids").addEventListener("input", (event) => change({ ids: event.target.value }));
startTabs();
startTools();
startHelp();
undoByKey();
startRun();
startJudge();
startTable();
startGraph();
startTaking();
const [examples] = await Promise.all([loadExamples(), startSource(checkSoon)]);
fillExamples(examples);
followAddress(examples);
showView();
byId("loading").remove();
