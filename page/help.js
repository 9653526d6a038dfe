// The help: the operations of the language. Its sentences stand in index.html.

import { byId, coded, html } from "./dom.js";
import { OPERATIONS } from "./language.js";

export function startHelp() {
  const code = (text) => html("code", {}, text);
  const row = ({ forms, value, examples }) => html("tr", {},
    html("th", { scope: "row" }, forms.map(code)), html("td", {}, coded(value)), html("td", {}, examples.map(code)));
  byId("operations").append(
    html("thead", {}, html("tr", {}, ["Operation", "Value", "Example"].map((name) => html("th", { scope: "col" }, name)))),
    html("tbody", {}, OPERATIONS.map(row)));
  const help = byId("help");
  addEventListener("keydown", (event) => {
    if (event.key === "Escape" && help.matches(":popover-open")) help.hidePopover();
  });
}
