// "Save picture" and "Copy as TikZ": the drawing of the open view, to be taken elsewhere.

import { byId, download } from "./dom.js";
import { readRules, svgText } from "./picture.js";
import { recorded } from "./recorded.js";
import { exampleOf, state } from "./state.js";
import { tikzText } from "./tikz.js";
import { histogram } from "./view-table.js";

const DRAWINGS = {
  run: () => byId("stage").querySelector("svg"),
  judge: () => byId("witness").querySelector("svg"),
  table: histogram,
  graph: () => byId("drawing").querySelector("svg"),
};

let sheet = null;

/** The drawing of the open view as a text; nothing if there is none. */
export async function taken(write) {
  const image = DRAWINGS[state.view]();
  if (!image) return undefined;
  sheet ??= recorded ? document.querySelector("style").textContent : await (await fetch("style.css")).text();
  return write(image, readRules(sheet));
}

/** Says something in a button for a while. */
function sayIn(button, words, usual) {
  button.textContent = words;
  setTimeout(() => (button.textContent = usual), 4000);
}

async function savePicture({ currentTarget: button }) {
  const text = await taken(svgText);
  if (text === undefined) return sayIn(button, "Nothing is drawn", "Save picture");
  const name = (exampleOf(state.text)?.name ?? "program.txt").replace(/\.txt$/, "");
  return download(`${name}-ids${state.ids}-${state.view}.svg`, text, "image/svg+xml");
}

async function copyTikz({ currentTarget: button }) {
  const text = await taken(tikzText);
  if (text === undefined) return sayIn(button, "Nothing is drawn", "Copy as TikZ");
  try {
    await navigator.clipboard.writeText(text);
    return sayIn(button, "Copied", "Copy as TikZ");
  } catch {
    return sayIn(button, "The browser does not copy", "Copy as TikZ");
  }
}

export function startTaking() {
  byId("save-picture").addEventListener("click", savePicture);
  byId("copy-tikz").addEventListener("click", copyTikz);
}
