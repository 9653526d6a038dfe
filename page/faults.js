// Refusals: the kind of the fault, the note, and the place in the text.

import { sentencesOf } from "./report.js";

/**
 * What a report that is no result says, as `{ code, line, note, at }`: the code of the fault, its kind, the sentences of its note, and the
 * place in the text as `{ row, column, index }`. Where nbhd printed no report, `line` says why, or `note` if none is
 * recorded.
 */
export function refusalOf(report, text) {
  if (report.kind === "unrecorded") return { line: "", note: report.note, at: null };
  if (report.kind !== "fault") return { line: report.note, note: "", at: null };
  const { of, code, line, column, note } = report;
  // The place stands beside the note.
  const said = sentencesOf(note).join(" – ").replace(`line ${line}, column ${column}: `, "");
  return { code, line: `${of} fault ${code}`, note: said, at: column === undefined ? null : placeOf(text, line, column) };
}

/** What a report that is no result says, in one line. */
export function reasonOf(report) {
  const { line, note } = refusalOf(report, "");
  return [line, note].filter(Boolean).join(" – ");
}

/** The place for a row and a column in bytes, from 1; its index counts the UTF-16 units of JavaScript. */
function placeOf(text, row, column) {
  const rows = text.split("\n");
  const before = rows.slice(0, row - 1).reduce((sum, line) => sum + line.length + 1, 0);
  const bytes = new TextEncoder().encode(rows[row - 1] ?? "").slice(0, column - 1);
  return { row, column, index: Math.min(before + new TextDecoder().decode(bytes).length, text.length) };
}
