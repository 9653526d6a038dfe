// What the views show: the program of the editor, or a table in its place, which is pasted, of a file, or a kept one.

import { ask, drop } from "./ask.js";
import { byId, coded, html } from "./dom.js";
import { reasonOf } from "./faults.js";
import { PROBLEMS } from "./problems.js";
import { recorded } from "./recorded.js";
import { change, state } from "./state.js";

const MOST_CHARACTERS = 2_000_000;
const area = byId("table-text");
const choice = byId("table-choice");
const facts = byId("table-facts");

let kept = ""; // the name of the kept table whose text is in the field

/** Asks for the table of the windows. */
export const askTable = (purpose) => (state.table
  ? ask(purpose, "migrate", {}, area.value) : ask(purpose, "table", { ids: state.ids }, state.text));

/** Asks for the verdict. A table has its own distances. */
export const askVerdict = (purpose, options) => (state.table
  ? ask(purpose, "audit", options, area.value) : ask(purpose, "judge", { ids: state.ids, ...options }, state.text));

/** Asks for the run of a program on a ring, or for the channels of a ring by a table. */
export const askRun = (purpose, ring) => (state.table
  ? ask(purpose, "apply", { ring }, area.value) : ask(purpose, "trace", { ids: state.ids, ring }, state.text));

/** Reads the table and shows what it is. Resolves as `check` does. */
export async function checkTable() {
  choice.value = state.table;
  byId("table-source").open = true;
  drop("check");
  const asked = state.table;
  const why = await load(asked);
  if (asked !== state.table) return undefined;
  const report = why ? null : await ask("check", "migrate", {}, area.value);
  if (report === undefined) return undefined;
  if (report?.kind !== "table") return refuse(why || reasonOf(report));
  const { ids, rounds, channels, near, far, entries } = report;
  const bound = entries.reduce((most, channel) => Math.max(most, channel), 0);
  const apart = near === 1 && far === 0 ? "" : `, near ${near}, far ${far}`;
  facts.className = "aside";
  const windows = entries.length.toLocaleString("en");
  facts.textContent = `Rounds ${rounds}, identifiers ${ids}, channels ${channels}, windows ${windows}${apart}.`;
  return { accepted: { ids, rounds, channels, near, far, bound, windows: entries.length } };
}

function refuse(why) {
  facts.className = "refused";
  facts.replaceChildren(...coded(why));
  return { refusal: "There is no table to show; the reason stands below its text." };
}

/** Takes the text of a kept table into the field. Resolves to why there is none, or to an empty text. */
async function load(name) {
  if (name !== "own" && name !== kept) {
    if (![...choice.options].some(({ value }) => value === name)) return `There is no kept table ${name}.`;
    try {
      const text = await (await fetch(`examples/${name}`)).text();
      if (name !== state.table) return "";
      [area.value, kept] = [text, name];
    } catch {
      return "The server does not answer.";
    }
  }
  if (area.value === "") return "Paste the text of a table, or take one that is kept.";
  return area.value.length > MOST_CHARACTERS ? "A table has at most 2 MB here; `nbhd audit` takes more." : "";
}

/** What a kept table is asked by its name, as values of the state: its problem, or else its own distances. */
function askedByName(name) {
  const [folder, words] = name.split("_rounds")[0].split("/");
  if (folder !== "problems") return { problem: "differ" };
  if (Object.hasOwn(PROBLEMS, words)) return { problem: words };
  return { problem: "own", forbid: words.replaceAll("_", " ").replaceAll("-", ",").replaceAll("x", "*") };
}

/** Shows a text of one's own; `refresh` is called where one was shown already. */
function showOwn(text, refresh) {
  area.value = text;
  kept = "";
  if (state.table === "own") refresh();
  else change({ table: "own" });
}

/** Offers the kept tables. `refresh` shows the views anew. */
export async function startSource(refresh) {
  choice.addEventListener("change", ({ target: { value } }) =>
    change({ table: value, ...(value.includes("/") ? askedByName(value) : {}) }, { keep: true }));
  area.addEventListener("input", () => showOwn(area.value, refresh));
  byId("table-file").addEventListener("change", async ({ target }) => {
    const [file] = target.files;
    if (file) showOwn(await file.text(), refresh);
  });
  if (recorded) return;
  let names = [];
  try {
    names = await (await fetch("tables.json")).json();
  } catch {
    // Without a server none is kept.
  }
  for (const folder of new Set(names.map((name) => name.split("/")[0]))) {
    const own = names.filter((name) => name.startsWith(`${folder}/`));
    const options = own.map((value) => html("option", { value }, value.split("/")[1]));
    choice.append(html("optgroup", { label: `examples/${folder}` }, options));
  }
}
