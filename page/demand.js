// What the judge is asked of the channels: that those of neighbours differ, or more, or that they solve a problem.

import { classOf } from "./classes.js";
import { whyNoNumber } from "./numbers.js";
import { brokenPlaces, channelsNamed, readPattern, rowAt, spanOf, textOf, wordsOf } from "./patterns.js";
import { PROBLEMS } from "./problems.js";
import { equalSentence } from "./trace.js";

/** What can be asked, by its name in the state. */
export const QUESTIONS = {
  differ: "neighbours differ",
  distance: "distance two",
  ...Object.fromEntries(Object.entries(PROBLEMS).map(([name, { title }]) => [name, title])),
  own: "own patterns",
};
const MOST_CHARACTERS = 7_000; // of the patterns of a request

/**
 * What the state asks, as `{ near, far }` or as `{ patterns }` with the `name` of the problem, if it has one; and the `options` by which
 * nbhd is asked. Where it asks nothing, `why` says so. Patterns that are refused are `null`: nbhd says why. A `table`
 * is asked for its own distances.
 */
export function demandOf({ problem, near, far, forbid }, table) {
  if (table?.near !== undefined && ["differ", "distance"].includes(problem)) {
    return { near: table.near, far: table.far, options: {} };
  }
  if (problem === "differ") return { near: 1, far: 0, options: { near: "1", far: "0" } };
  if (problem === "distance") {
    const why = whyNoNumber("near", near) ?? whyNoNumber("far", far);
    return why ? { why } : { near: Number(near), far: Number(far), options: { near, far } };
  }
  if (problem !== "own") return { name: problem, patterns: PROBLEMS[problem].patterns.map(readPattern), options: { problem } };
  const words = wordsOf(forbid);
  if (words.length === 0) return { patterns: null, why: "Write patterns that are forbidden, as 1,1 0,0,0." };
  // Other characters than those of a keyboard, as invisible ones that are pasted, do not go to nbhd.
  const odd = words.find((word) => /[^!-~]/.test(word));
  if (odd !== undefined) return { patterns: null, why: `\`${odd}\` is no pattern: write channels and commas, as 1,1.` };
  const isLong = words.join(" ").length > MOST_CHARACTERS;
  if (isLong) return { patterns: null, why: `The patterns have more than ${MOST_CHARACTERS} characters.` };
  const patterns = words.map(readPattern);
  return { patterns: patterns.includes(null) ? null : patterns, options: { forbid: words } };
}

/** The words of a list of patterns, as docs/LEAST.md has them. */
export const patternsText = (patterns) => patterns.map(textOf).join(" ");

/** What is asked, as a part of a sentence about channels that are below so many. */
export function asked({ near, far, name, patterns }, channels) {
  if (patterns) {
    return name && channels <= channelsNamed(patterns)
      ? PROBLEMS[name].holds : `no channels in a row match a forbidden pattern, ${patternsText(patterns)}`;
  }
  const neighbours = near === 1 ? "neighbours’ channels differ" : `neighbours’ channels differ by at least ${near}`;
  if (far === 0) return neighbours;
  return `${neighbours}, and those at distance two ${far === 1 ? "differ" : `by at least ${far}`}`;
}

/** What is wrong at a place of a ring that breaks a problem, in the words of nbhd. `ring` and `shown` are the texts of its identifiers and
 * channels. */
export function wrongAt({ name }, { place, pattern }, channels, ring, shown) {
  const node = (step) => `node ${ring[(place + step) % ring.length]}`;
  const [row, texts] = [rowAt(channels, place), rowAt(shown, place)];
  if (name) {
    const [step, words] = PROBLEMS[name].wrong(row, spanOf(pattern));
    return `${node(step)} ${words}`;
  }
  const forbidden = `the pattern ${textOf(pattern)} is forbidden: `;
  if (spanOf(pattern) === 2) {
    return forbidden + node(0) + (row[0] === row[1]
      ? ` and its right neighbour have channel ${texts[0]}` : ` has channel ${texts[0]}, and its right neighbour ${texts[1]}`);
  }
  return forbidden + node(1) + (row[0] === row[1] && row[1] === row[2] ? ` and both its neighbours have channel ${texts[1]}`
    : ` has channel ${texts[1]}, its left neighbour ${texts[0]} and its right neighbour ${texts[2]}`);
}

/** What the other views say where the list of patterns is none. */
export const NO_PATTERNS = "The list of forbidden patterns is refused; Judge says why.";

/** What is asked, on one ring with these channels: that it is so, or what is wrong. `ring` and `shown` are texts as for `wrongAt`. */
export function sentenceOn(demand, channels, ring, shown) {
  const { name, patterns } = demand;
  if (patterns === null) return NO_PATTERNS;
  if (patterns === undefined) return equalSentence(channels, ring);
  const broken = brokenPlaces(patterns, channels);
  if (broken.length === 0) return `On this ring ${asked({ name, patterns }, Math.max(...channels) + 1)}.`;
  const wrong = wrongAt(demand, broken[0], channels, ring, shown);
  const others = ["", "; another place is wrong too"][broken.length - 1] ?? `; ${broken.length - 1} other places are wrong too`;
  return `${wrong[0].toUpperCase()}${wrong.slice(1)}${others}.`;
}

const THEOREM = "(Chang, Studený and Suomela 2021; not proved here)";
const CLASSES = {
  constant: ({ channel }) => `On every ring all nodes may have channel ${channel}, so no round is needed.`,
  "log*": () => `On long rings of \`n\` nodes it takes about log* \`n\` rounds: a constant number is not enough ${THEOREM}.`,
  global: () => "There are such channels on rings of some lengths only. "
    + `There it takes about as many rounds as the ring has nodes ${THEOREM}.`,
  unsolvable: () => "There are no such channels on any ring.",
};

/** How many rounds a problem takes on rings of all lengths, as a sentence, for the channels that its patterns name. */
export function classSentence(patterns) {
  const found = classOf(patterns, channelsNamed(patterns));
  return found && CLASSES[found.kind](found);
}
