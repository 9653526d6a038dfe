// Table: the windows with their channels, how often each channel occurs, and the text to save.

import { askLines, drop } from "./ask.js";
import { byId, coded, download, html } from "./dom.js";
import { drawHistogram } from "./histogram.js";
import { change, exampleOf, state } from "./state.js";
import { badgeImage, colourOf, largeBadge } from "./channels.js";
import { reasonOf } from "./faults.js";
import { noReport } from "./report.js";
import { askTable } from "./source.js";
import { countChannels, tableOf } from "./table.js";

const MOST = 1_000_000; // the windows of a table that are listed here
const SHOWN = 240;
const BARS = 40;
const refused = byId("table-refused");

let table = null; // with the `ids` and the `text` that nbhd was asked about

export async function updateTable(checked) {
  if (byId("prefix").value !== state.prefix) byId("prefix").value = state.prefix;
  drop("table");
  if (checked.refusal) return showNothing(checked.refusal);
  const { ids, text } = state;
  const slow = setTimeout(() => showNothing("nbhd fills the table…"), 400);
  const report = await askTable("table");
  clearTimeout(slow);
  if (report === undefined) return undefined;
  const advice = report.kind === "stopped" ? ". Take fewer identifiers to see the table here." : "";
  if (report.kind !== "table") return showNothing(reasonOf(report) + advice);
  refused.hidden = true;
  byId("save").disabled = false;
  if (table?.channels !== report.entries) {
    table = { ...(report.entries.length > MOST ? { channels: report.entries } : tableOf(report)), ids, text };
    showHistogram();
  }
  return showWindows();
}

function showNothing(why) {
  table = null;
  sayRefused(why);
  byId("save").disabled = true;
  for (const id of ["histogram", "windows", "table-say"]) byId(id).replaceChildren();
}

function sayRefused(why) {
  refused.replaceChildren(...coded(why));
  refused.hidden = false;
}

function showHistogram() {
  const counts = countChannels(table.channels);
  const most = Math.max(...counts.map(([, count]) => count));
  const bars = counts.slice(0, BARS).map(([channel, count]) => {
    const bar = html("span", { class: "bar-fill" });
    bar.style.width = `${(100 * count) / most}%`;
    bar.style.backgroundColor = colourOf(channel);
    const share = ((100 * count) / table.channels.length).toFixed(1);
    return html("li", {}, badgeImage(channel), html("span", { class: "bar-room" }, bar),
      html("span", { class: "count" }, count.toLocaleString("en")), html("span", { class: "share" }, `${share} %`));
  });
  byId("histogram").replaceChildren(
    html("ol", { "aria-label": "How many windows have each channel" }, bars),
    counts.length > BARS ? html("p", { class: "aside" }, `and ${counts.length - BARS} more channels`) : "",
  );
}

function showWindows() {
  if (!table) return;
  if (!table.windows) {
    const tooMany = `${table.channels.length.toLocaleString("en")} windows are too many to list here; `;
    byId("table-say").replaceChildren(tooMany, ...coded("`nbhd table` prints them."));
    byId("windows").replaceChildren();
    return;
  }
  const wanted = state.prefix.trim().split(/[\s,]+/).filter(Boolean);
  const found = [];
  let count = 0;
  table.windows.forEach((window, i) => {
    if (wanted.length && !begins(window, wanted)) return;
    count += 1;
    if (found.length < SHOWN) found.push(i);
  });
  const all = table.windows.length.toLocaleString("en");
  const shown = count > SHOWN ? `; the first ${SHOWN} are shown` : "";
  byId("table-say").textContent = wanted.length
    ? `${count.toLocaleString("en")} of ${all} windows ${count === 1 ? "begins" : "begin"} with ${wanted.join(" ")}${shown}.`
    : `${all} windows${shown}. The middle identifier is the node itself.`;
  const most = (texts) => Math.max(...texts.map((text) => String(text).length));
  const letters = most(["0 1 2", ...found.map((i) => table.windows[i].join(" "))]);
  const style = { "--letters": letters, "--badge": largeBadge(most([0, ...found.map((i) => table.channels[i])])) };
  byId("windows").replaceChildren(html("ul", { style }, found.map((i) => {
    const middle = (table.windows[i].length - 1) / 2;
    const parts = table.windows[i].flatMap((identifier, j) => [j === middle ? html("b", {}, identifier) : identifier, " "]);
    return html("li", {}, html("span", { class: "code" }, parts), badgeImage(table.channels[i]));
  })));
}

const begins = (window, wanted) => wanted.every((identifier, i) => String(window[i]) === identifier);

/** The drawing of the channels' counts; nothing if there is no table. */
export const histogram = () =>
  table && drawHistogram(countChannels(table.channels).slice(0, BARS), table.channels.length);

/** Saves the text of the table, for which nbhd is asked in lines. */
async function save() {
  const { ids, text } = table;
  const answer = await askLines("save", "table", { ids }, text);
  if (answer === undefined) return;
  const name = (exampleOf(text)?.name ?? "program.txt").replace(/\.txt$/, "");
  if (answer.status === 0) download(`${name}-ids${ids}.table.txt`, answer.out, "text/plain");
  else sayRefused(`The table is not saved: ${reasonOf(noReport(answer))}.`);
}

export function startTable() {
  byId("prefix").addEventListener("input", (event) => change({ prefix: event.target.value }));
  byId("save").addEventListener("click", save);
}
