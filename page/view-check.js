// Check: whether the text is accepted for the number of identifiers, shown below the text while one types.

import { ask, drop } from "./ask.js";
import { byId, coded, html } from "./dom.js";
import { goToFault, markFault } from "./editor.js";
import { refusalOf } from "./faults.js";
import { whyNoNumber } from "./numbers.js";

const box = byId("check");
// What the other views say.
const REFUSED = "The program is refused; the reason stands under its text.";
const NOT_CHECKED = "The program could not be checked; the reason stands under its text.";

/**
 * Checks a text and shows the result. Resolves to `{ accepted }` with the numbers of the program, to `{ refusal }` with what the other
 * views say, or to `undefined` if a newer check began.
 */
export async function check({ text, ids }) {
  const note = whyNoNumber("ids", ids);
  byId("ids").setAttribute("aria-invalid", note !== null);
  drop("check");
  if (note) return refuse({ line: "", note, at: null }, REFUSED);
  box.classList.add("pending");
  const report = await ask("check", "check", { ids }, text);
  if (report === undefined) return undefined;
  box.classList.remove("pending");
  if (report.kind !== "accepted") return refuse(refusalOf(report, text), isChecked(report) ? REFUSED : NOT_CHECKED);
  markFault(null);
  showAccepted(report);
  return { accepted: report };
}

const isChecked = ({ kind }) => kind === "fault" || kind === "refused";

function refuse(fault, refusal) {
  markFault(fault.at);
  showRefusal(fault, refusal);
  return { refusal };
}

function showAccepted({ ids, rounds, channels, bound, windows }) {
  const fact = (name, value, what) =>
    html("div", { title: what }, html("dt", {}, name), html("dd", { "aria-description": what }, value.toLocaleString("en")));
  box.className = "check good";
  box.replaceChildren(
    html("p", { class: "headline" }, html("strong", {}, "Accepted"), ` for ${ids.toLocaleString("en")} identifiers.`),
    html("dl", { class: "facts" },
      fact("rounds", rounds),
      fact("channels", channels, "channels are below this number"),
      fact("bound", bound, "the largest channel that is possible by the rules for bounds"),
      fact("windows", windows, `how many lists of 2t+1 = ${2 * rounds + 1} distinct identifiers there are`)),
  );
}

function showRefusal({ code, line, note, at }, refusal) {
  box.className = "check bad";
  const head = code ?? (refusal === REFUSED ? "Refused" : "Not checked");
  const where = at && `line ${at.row}, column ${at.column}`;
  const place = at && html("button", { type: "button", class: "place", onclick: goToFault }, where);
  box.replaceChildren(
    html("p", { class: "headline" }, html("strong", {}, head), place && [" at ", place],
      html("code", { class: "line" }, line)),
    ...(note ? [html("p", { class: "note" }, ...coded(note))] : []),
  );
}
