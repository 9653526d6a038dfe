// The choice of what the judge is asked, with the fields that belong to it.

import { byId, coded, html } from "./dom.js";
import { QUESTIONS } from "./demand.js";
import { whyNoNumber } from "./numbers.js";
import { wordsOf } from "./patterns.js";
import { PROBLEMS } from "./problems.js";
import { change, state } from "./state.js";

const patterns = byId("forbid");

/** Shows the choice of the state. Whether the patterns are refused, `markPatterns` shows. */
export function showChoice() {
  const { problem } = state;
  byId("problem").value = problem;
  byId("distances").hidden = problem !== "distance";
  byId("own-patterns").hidden = problem !== "own";
  for (const name of ["near", "far"]) {
    if (byId(name).value !== state[name]) byId(name).value = state[name];
    byId(name).setAttribute("aria-invalid", whyNoNumber(name, state[name]) !== null);
  }
  // While one types, the field keeps its blanks and line breaks.
  if (withBlanks(patterns.value) !== state.forbid) patterns.value = state.forbid;
  byId("meaning").replaceChildren(...coded(meaningOf(problem)));
  byId("meaning").hidden = meaningOf(problem) === "";
}

export const markPatterns = (areRefused) => patterns.setAttribute("aria-invalid", areRefused);

const withBlanks = (text) => wordsOf(text).join(" ");

function meaningOf(problem) {
  if (problem === "own") return "Channels that must not stand in a row, from left to right, as `1,1` or `0,*,0`; `*` is any channel.";
  const known = PROBLEMS[problem];
  return known ? `Channels: ${known.meaning}. Forbidden in a row: ${known.patterns.map((each) => `\`${each}\``).join(" ")}` : "";
}

/** What choosing this problem changes: distance two is asked with a number for it. */
function choose(problem) {
  const isAsked = state.near !== "1" || state.far !== "0";
  change({ problem, ...(problem === "distance" && !isAsked ? { far: "1" } : {}) });
}

export function startChoice() {
  byId("problem").append(...Object.entries(QUESTIONS).map(([value, title]) => html("option", { value }, title)));
  byId("problem").addEventListener("change", ({ target }) => choose(target.value));
  for (const name of ["near", "far"]) byId(name).addEventListener("input", ({ target }) => change({ [name]: target.value }));
  patterns.addEventListener("input", () => change({ forbid: withBlanks(patterns.value) }));
}
