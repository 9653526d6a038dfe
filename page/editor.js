// The editor: a transparent text area over a copy of its text, which has the colours, the numbers of the rows and the mark of a fault.
// Both wrap alike in one scroll box, so no scroll position has to be synchronised. The copy is in blocks of rows: those in sight have
// their colours, the others only their text, which is as high.

import { byId, html } from "./dom.js";
import { headRows, pieces } from "./language.js";

const ROWS = 50; // of a block
const box = byId("editor");
const area = byId("text");
const ink = box.querySelector(".ink");

let fault = null; // the place of the mark: { row, column }, both from 0, the column in UTF-16 units
let asked = null; // the place of the word that is asked about, as that of a fault
let doing = null; // the first and the last row of what the run's step does
let blocks = []; // of the copy: { element, seen, drawn }, where `drawn` is what the element was drawn from

const watch = new IntersectionObserver((entries) => {
  for (const { target, isIntersecting } of entries) {
    const number = blocks.findIndex(({ element }) => element === target);
    if (number < 0 || blocks[number].seen === isIntersecting) continue;
    blocks[number].seen = isIntersecting;
    drawBlock(number, blocks[number].drawn.text);
  }
}, { root: box, rootMargin: "300px 0px" });

/** Calls `listener` with the text whenever the user changes it. */
export function onEdit(listener) {
  area.addEventListener("input", () => {
    fault = null;
    asked = null;
    doing = null;
    draw();
    listener(area.value);
  });
}

/** Calls `listener` with the place of the cursor whenever the user moves it. */
export function onWord(listener) {
  for (const event of ["click", "keyup"]) area.addEventListener(event, () => listener(area.selectionStart));
}

/** Marks the word at a place `{ at }` of the text, or none. */
export function markWord(place) {
  const next = place && placeOf(place.at);
  if (asked?.row === next?.row && asked?.column === next?.column) return;
  asked = next;
  draw();
  const mark = ink.querySelector(".asked");
  if (mark) bringIntoSight(mark);
}

/** Marks the rows of what a step does, from the first to the last one, or none. */
export function markRows(rows) {
  if (doing?.join() === rows?.join()) return;
  doing = rows;
  draw();
  scrollToRows();
}

/** Scrolls the editor to the rows of what a step does. While one types, the cursor decides what is visible. */
export function scrollToRows() {
  if (!doing || document.activeElement === area) return;
  const [first, last] = doing.map(rowOf);
  if (last) bringIntoSight(last);
  if (first) bringIntoSight(first);
}

/** The row and the column of an index of the text, both from 0. */
function placeOf(index) {
  const before = area.value.slice(0, index).split("\n");
  return { row: before.length - 1, column: before.at(-1).length };
}

/** Shows a text from the first row that is no comment on. */
export function showText(text) {
  if (area.value === text && blocks.length) return;
  area.value = text;
  fault = null;
  asked = null;
  doing = null;
  draw();
  area.setSelectionRange(0, 0);
  showHead();
}

/** Scrolls the editor to the rows of what a step does, else to the first row that is no comment. */
export function showHead() {
  if (doing) return scrollToRows();
  return scrollToHeight(rowOf(headRows(area.value.split("\n")))?.offsetTop ?? 0);
}

/** Scrolls the editor to a height of the copy. A whole line is at its top then. */
function scrollToHeight(height) {
  const { lineHeight, paddingTop } = getComputedStyle(ink);
  const [line, room] = [lineHeight, paddingTop].map(parseFloat);
  const above = Math.round((height - room) / line);
  box.scrollTop = above > 0 ? above * line + room - 1 : 0;
}

/** Marks the token at a place of the text, or the end of the text, or nothing if the place is `null`. */
export function markFault(place) {
  fault = place && placeOf(place.index);
  area.setAttribute("aria-invalid", fault !== null);
  draw();
  // While one types, the cursor decides what is visible.
  if (document.activeElement !== area) scrollToFault();
}

function scrollToFault() {
  const mark = ink.querySelector(".fault");
  if (mark) bringIntoSight(mark);
}

function bringIntoSight(mark) {
  const below = mark.getBoundingClientRect().top - box.getBoundingClientRect().top;
  if (below < 0 || below > box.clientHeight - 40) scrollToHeight(box.scrollTop + below - box.clientHeight / 2);
}

export function goToFault() {
  if (!fault) return;
  goTo(fault);
  ink.querySelector(".fault")?.scrollIntoView({ block: "nearest", inline: "nearest" });
}

/** Puts the cursor to a place of the text. */
function goTo({ row, column }) {
  const index = area.value.split("\n").slice(0, row).reduce((sum, each) => sum + each.length + 1, column);
  area.focus();
  area.setSelectionRange(index, index);
}

// The copy is pressed where its comments are folded, which are shown then.
ink.addEventListener("click", ({ target }) => {
  const row = target.closest(".row");
  if (!row) return;
  goTo({ row: row.dataset.row - 1, column: 0 });
  row.scrollIntoView({ block: "nearest" });
});

/** Updates the copy, and the text for the printer. Only blocks that changed are drawn. */
function draw() {
  const rows = area.value.split("\n");
  const count = Math.ceil(rows.length / ROWS);
  for (const { element } of blocks.splice(count)) {
    watch.unobserve(element);
    element.remove();
  }
  while (blocks.length < count) {
    // The first blocks are in sight until the observer says otherwise.
    const block = { element: html("div"), seen: blocks.length < 2, drawn: {} };
    blocks.push(block);
    ink.append(block.element);
    watch.observe(block.element);
  }
  for (let number = 0; number < count; number += 1) {
    drawBlock(number, rows.slice(number * ROWS, (number + 1) * ROWS).join("\n"));
  }
  box.style.setProperty("--digits", String(Math.max(String(rows.length).length, 2)));
  byId("printed").textContent = area.value;
}

function drawBlock(number, text) {
  const block = blocks[number];
  const first = number * ROWS;
  const marks = [fault, asked, ...(doing ?? []).map((row) => ({ row, column: 0 }))];
  const marked = marks.map((place) => (place && first <= place.row && place.row < first + ROWS
    ? `${place.row}:${place.column}` : "")).join(" ").trim();
  // The block of a mark has it in sight or not, so that one can go there.
  const coloured = block.seen || marked !== "";
  const { drawn } = block;
  if (drawn.text === text && drawn.marked === marked && drawn.coloured === coloured) return;
  if (coloured) block.element.replaceChildren(...text.split("\n").map((row, i) => drawRow(row, first + i)));
  else if (drawn.text !== text || drawn.coloured) block.element.textContent = `${text}\n`;
  block.drawn = { text, marked, coloured };
}

/** The element of a row of a block in sight, by its number from 0. */
const rowOf = (number) => ink.querySelector(`[data-row="${number + 1}"]`);

function drawRow(text, number) {
  const faultAt = fault?.row === number ? fault.column : -1;
  const askedAt = asked?.row === number ? asked.column : -1;
  const isDone = doing !== null && doing[0] <= number && number <= doing[1];
  const kind = text.trim() === "" ? " blank" : /^\s*#/.test(text) ? " remark" : "";
  const names = `row${kind}${faultAt < 0 ? "" : " faulty"}${isDone ? " now" : ""}`;
  const row = html("div", { "data-row": number + 1, class: names },
    pieces(text).flatMap((piece) => (piece.at === askedAt
      ? [html("span", { class: `${piece.kind} asked` }, piece.text)] : drawPiece(piece, faultAt))));
  if (faultAt >= text.length) row.append(html("mark", { class: "fault at-end" }));
  row.append("\n");
  return row;
}

/** The elements of a piece; the piece with the fault is split before it. */
function drawPiece({ text, kind, at }, faultAt) {
  const colour = (part) => (kind ? html("span", { class: kind }, part) : part);
  if (faultAt < at || faultAt >= at + text.length) return [colour(text)];
  const before = text.slice(0, faultAt - at);
  const rest = text.slice(faultAt - at);
  // A run of punctuation and blanks is one piece: only its character at the fault is marked, and a blank is marked as an end is.
  const marked = kind === "" ? [...rest][0] : rest;
  const mark = /\s/.test(marked)
    ? [html("mark", { class: "fault at-end" }), marked]
    : [html("mark", { class: "fault" }, colour(marked))];
  return [colour(before), ...mark, colour(rest.slice(marked.length))];
}
