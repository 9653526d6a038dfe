// The identifiers that are not in the ring. A click adds one after the last place; one can also be dragged into the ring.

import { byId, html } from "./dom.js";

const SHOWN = 48;

export function fillTray(ring, ids, add, drag) {
  const tray = byId("tray");
  const used = new Set(ring);
  const free = [];
  for (let identifier = 0; identifier < Math.min(ids || 0, 1024); identifier += 1) {
    if (!used.has(identifier)) free.push(identifier);
  }
  if (free.length === 0) return tray.replaceChildren(html("span", {}, ring.length ? "All identifiers are in the ring." : ""));
  const chip = (identifier) => html("button", {
    type: "button", class: "chip", "aria-label": `Add ${identifier}`,
    onclick: () => add(identifier), onpointerdown: (event) => drag(event, identifier),
  }, String(identifier));
  return tray.replaceChildren(
    html("span", {}, "Add, or drag into the ring:"),
    ...free.slice(0, SHOWN).map(chip),
    free.length > SHOWN ? html("span", {}, `and ${free.length - SHOWN} more, by the field Ring`) : "",
  );
}
