// The state of the page. It is kept in the fragment of the address, so that a link can carry an exercise.

import { QUESTIONS } from "./demand.js";
import { askedBy } from "./problems.js";
import { recorded } from "./recorded.js";
import { withCommas } from "./ring-text.js";

// The step of a run is its number, `end` for the last one, and empty for the start; `why` is the place of the node that is explained.
// The base is that of a run's numbers; `large` is `1` for a class. The problem is `differ`, `distance` for near and far, one of those that
// have a name, or `own` for the patterns of `forbid`. Without one it is what its numbers or patterns ask, or what the text does.
// The table is the name of a kept one that is shown in place of the program, or `own`, which no link has.
const DEFAULTS = {
  view: "run", ids: "8", ring: "5,1,3,7", step: "", why: "", base: "10", problem: "", near: "1", far: "0", forbid: "", prefix: "",
  arrange: "channel", large: "", table: "", ...recorded?.start,
};
const BASES = ["2", "10"];
const FIRST = recorded?.examples[0].name ?? "cv1.txt";
const VIEWS = ["run", "judge", "table", "graph"];

export const state = { ...DEFAULTS, text: "" };

const listeners = [];
let examples = [];
let written = "";
let linked = "";
let missing = {}; // the names of the example and of the problem that the link asks for, if there is none such
let timer;
let first = true; // before the first change nothing is shown, so all values count as changed

/** Calls `listener` after each change with the set of the changed names. */
export function onChange(listener) {
  listeners.push(listener);
}

/**
 * Changes some values. With `keep` the change is an entry of the history, so that the browser's Back undoes it; with `shown` the open
 * view shows it already, and no listener is called.
 */
export function change(values, { keep = false, shown = false } = {}) {
  const changed = new Set(Object.keys(values).filter((name) => state[name] !== values[name] || first));
  first = false;
  if (changed.size === 0) return;
  if (keep) write(true);
  Object.assign(state, values);
  if (!shown) for (const listener of listeners) listener(changed);
  clearTimeout(timer);
  if (keep) write(true);
  else timer = setTimeout(write, 300);
}

/** Reads the state from the address, now and after each change of it. */
export function followAddress(knownExamples) {
  examples = knownExamples;
  keepOverReload();
  addEventListener("hashchange", () => {
    if (location.hash !== written) read();
  });
  addEventListener("popstate", () => {
    if (location.hash !== written) read();
  });
  read();
}

/** Lets a change that is not in the address yet survive a reload. */
function keepOverReload() {
  const key = "left";
  const [navigation] = performance.getEntriesByType("navigation");
  try {
    const left = sessionStorage.getItem(key);
    sessionStorage.removeItem(key);
    if (navigation?.type === "reload" && left) history.replaceState(null, "", left);
  } catch {
    // Nothing is kept where the browser allows none.
    return;
  }
  addEventListener("pagehide", () => sessionStorage.setItem(key, fragment()));
}

/** The address of the page in its current state. */
export function link() {
  return location.href.split("#")[0] + fragment();
}

/** Whether the text is that of the address, as it was read. */
export const isLinked = () => state.text === linked;

/** The names of the `example` and of the `problem` that the link asks for and that are not there, until the text is changed. */
export const missingNames = () => (isLinked() ? missing : {});

export const exampleOf = (text) => examples.find((example) => example.text === text);

const questionOf = (text) => text.match(/To try: .*/)?.[0];

/** The example whose question a text has: so it is found while one tries and changes the text. */
export function exampleAsking(text) {
  const question = questionOf(text);
  return question && examples.find((example) => questionOf(example.text) === question);
}

function read() {
  const said = Object.fromEntries(new URLSearchParams(location.hash.slice(1)));
  const values = {};
  for (const name of Object.keys(DEFAULTS)) values[name] = said[name] ?? DEFAULTS[name];
  values.ring = withCommas(values.ring);
  if (!VIEWS.includes(values.view)) values.view = DEFAULTS.view;
  if (!BASES.includes(values.base)) values.base = DEFAULTS.base;
  if (values.table === "own") values.table = DEFAULTS.table;
  const named = said.example ?? FIRST;
  const example = examples.find(({ name }) => name === named);
  missing = { example: example || said.text !== undefined ? null : named, problem: null };
  values.text = said.text ?? (example ?? examples[0])?.text ?? "";
  linked = values.text;
  if (!Object.hasOwn(QUESTIONS, values.problem)) {
    missing.problem = said.problem || null;
    Object.assign(values, said.near || said.far ? { problem: "distance" } : said.forbid ? { problem: "own" } : askedBy(values.text));
  }
  written = location.hash;
  change(values);
}

function write(asNewEntry = false) {
  const address = fragment();
  if (address === location.hash) return;
  written = address;
  try {
    history[asNewEntry ? "pushState" : "replaceState"](null, "", address);
  } catch {
    // A file that a mail program shows may have no address of its own.
  }
}

function fragment() {
  const example = exampleOf(state.text);
  const defaults = { ...DEFAULTS, ...askedBy(state.text) };
  // Numbers and patterns are said where they are asked, as a link with them and without a problem asks them.
  const uses = { near: "distance", far: "distance", forbid: "own" };
  const isOwn = (name) => name === "table" && state.table === "own";
  const isSaid = (name) => (uses[name] ?? state.problem) === state.problem && !isOwn(name);
  const parts = Object.entries(defaults)
    .filter(([name, value]) => ["view", "ids", "ring"].includes(name) || (state[name] !== value && isSaid(name)))
    .map(([name]) => `${name}=${escape(state[name])}`);
  parts.push(example ? `example=${escape(example.name)}` : `text=${escape(state.text)}`);
  return "#" + parts.join("&");
}

/** Percent-encoding that leaves `,`, `=`, `?`, `/` and `:` readable, which a fragment may have. */
function escape(value) {
  return encodeURIComponent(value).replace(/%20/g, "+").replace(/%(2C|3D|3F|2F|3A)/g, decodeURIComponent);
}
