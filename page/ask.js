// Requests to nbhd through the server, or to what a lesson has recorded. nbhd is deterministic, so its last reports are
// cached.

import { recorded, unrecorded } from "./recorded.js";
import { reportOf } from "./report.js";

const CACHED = 16;
const reports = new Map();
const latest = new Map();

/**
 * Runs a command of nbhd on a text. Resolves to its report, or to why there is none, as `reportOf` gives them, and to `undefined` where
 * a newer request with the same `purpose` replaced this one.
 */
export async function ask(purpose, command, options, text) {
  const body = JSON.stringify({ command, options: { ...options, format: "json" }, text });
  drop(purpose);
  if (reports.has(body)) return reports.get(body);
  const answer = await send(purpose, body);
  if (answer === undefined) return undefined;
  const report = reportOf(command, answer);
  if (!["stopped", "silent"].includes(report.kind)) cache(body, report);
  return report;
}

/** Runs a command as `ask` does, and resolves to `{ status, out, note }` with the report in lines, or to `{ refused }`. */
export const askLines = (purpose, command, options, text) => send(purpose, JSON.stringify({ command, options, text }));

/** Aborts the open request of this purpose. */
export function drop(purpose) {
  latest.get(purpose)?.abort();
}

async function send(purpose, body) {
  drop(purpose);
  const control = new AbortController();
  latest.set(purpose, control);
  if (recorded) return recorded.answers[body] ?? { unrecorded: unrecorded() };
  for (;;) {
    try {
      const response = await fetch("nbhd", {
        method: "POST", body, signal: control.signal, headers: { "Content-Type": "application/json" },
      });
      const answer = await response.json();
      showReachable(true);
      return control.signal.aborted ? undefined : answer;
    } catch {
      if (control.signal.aborted) return undefined;
      showReachable(false);
      await new Promise((resolve) => setTimeout(resolve, 1500));
      if (control.signal.aborted) return undefined;
    }
  }
}

function cache(body, report) {
  reports.set(body, report);
  if (reports.size > CACHED) reports.delete(reports.keys().next().value);
}

/** Shows or hides the message that the server does not answer. */
function showReachable(reachable) {
  document.getElementById("gone").hidden = reachable;
}
