// The trace as an HTML table, with a column for each place and a row for each line.

import { html } from "./dom.js";
import { badgeImage } from "./channels.js";

/**
 * Shows a trace; `show` gives the texts of a list of numbers, and `press` takes the step, the place and the row's
 * name of a value.
 */
export function showTrace(box, ring, steps, { show, go, highlight, press }) {
  const rows = [];
  const row = (step, name, values, kind = "") => {
    const head = html("th", { scope: "row" }, html("button", { type: "button", onclick: () => go(step) }, name));
    const cells = values.map((value, place) => html("td", { "data-place": place }, value));
    rows.push(html("tr", { "data-step": step, class: kind }, head, cells));
  };
  steps.forEach((step, i) => {
    if (step.kind === "start") step.registers.forEach((values, j) => row(i, `start r${j}`, show(values), j ? "" : "first"));
    if (step.kind === "send") {
      row(i, `round ${step.round} left`, show(step.left), "first sent");
      row(i, `round ${step.round} right`, show(step.right), "sent");
    }
    if (step.kind === "assign") step.registers.forEach((values, j) => row(i, `round ${step.round} r${j}`, show(values)));
    if (step.kind === "finish") row(i, "finish", show(step.channels).map((name, p) => badgeImage(step.channels[p], name)), "first");
  });
  const head = html("tr", {}, html("th", { scope: "row" }, "node"),
    show(ring).map((name, place) => html("th", { scope: "col", "data-place": place }, name)));
  const table = html("table", {}, html("thead", {}, head), html("tbody", {}, rows));
  table.addEventListener("pointerover", (event) => {
    const place = event.target.closest("[data-place]")?.dataset.place;
    highlight(place === undefined ? null : Number(place));
  });
  table.addEventListener("pointerleave", () => highlight(null));
  table.addEventListener("click", ({ target }) => {
    const cell = target.closest("td");
    const line = cell?.parentElement;
    if (cell) press(Number(line.dataset.step), Number(cell.dataset.place), line.firstElementChild.textContent);
  });
  box.replaceChildren(table);
}

export function markStep(box, step) {
  for (const row of box.querySelectorAll("tr[data-step]")) row.classList.toggle("now", Number(row.dataset.step) === step);
}

export function markPlace(box, place) {
  for (const cell of box.querySelectorAll("[data-place]")) cell.classList.toggle("here", Number(cell.dataset.place) === place);
}
