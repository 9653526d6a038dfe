// The matrix of channels: how many edges of the neighbourhood graph lead from one channel to another.

import { badgeImage } from "./channels.js";
import { html } from "./dom.js";
import { matches, spanOf } from "./patterns.js";
import { edgeCounts } from "./table.js";

const MOST = 24;

/** The matrix of a report on a table, with the counts of channels in red that may not be those of neighbours. */
export function drawMatrix(report, { near, patterns }) {
  const { names, counts } = edgeCounts(report, MOST);
  const most = Math.max(1, ...counts.flat());
  const isWrong = (row) => (patterns
    ? patterns.some((pattern) => spanOf(pattern) === 2 && matches(pattern, row)) : Math.abs(row[0] - row[1]) < near);
  const cell = (count, row) => html("td", {
    class: count === 0 ? "none" : isWrong(row) ? "wrong" : "", style: { "--share": `${(100 * count) / most}%` },
  }, count.toLocaleString("en"));
  const head = (channel, scope) => html("th", { scope }, badgeImage(channel));
  const rows = counts.map((row, i) =>
    html("tr", {}, head(names[i], "row"), row.map((count, j) => cell(count, [names[i], names[j]]))));
  const all = new Set(report.entries).size;
  const few = all > MOST ? `, for the first ${MOST} of ${all.toLocaleString("en")} channels` : "";
  const said = `How many edges lead from a window with the channel of the row to one with that of the column${few}.`;
  const heads = html("tr", {}, html("td"), names.map((channel) => head(channel, "col")));
  const table = html("table", {}, html("thead", {}, heads), html("tbody", {}, rows));
  return [
    html("h3", {}, "Channels of neighbours"),
    html("p", { class: "aside" }, said),
    html("div", { class: "matrix", tabindex: "0", role: "region", "aria-label": "Channels of neighbours" }, table),
  ];
}
