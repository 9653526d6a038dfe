// The problems that have a name: their patterns, what their channels mean, what a yes says, and what is wrong where a ring breaks them,
// in the words of nbhd; and what is known of the fewest rounds, as docs/LEAST.md has it.

import { wordsOf } from "./patterns.js";

/**
 * `wrong` takes the channels of the three places from a broken one on, and how many places the pattern names; it gives how many places
 * further the node is with which something is wrong, and what.
 */
export const PROBLEMS = {
  mis: {
    title: "maximal independent set",
    patterns: ["0,0,0", "1,1"],
    meaning: "1 in the set, 0 not",
    holds: "the nodes with channel 1 are a maximal independent set",
    wrong: (_, span) => (span === 3
      ? [1, "is not in the set, and neither is a neighbour"] : [0, "is in the set, and so is its right neighbour"]),
  },
  matching: {
    title: "maximal matching",
    patterns: ["0,0", "1,0", "1,1", "0,2", "2,2"],
    meaning: "1 matched to the right neighbour, 2 to the left one, 0 single",
    holds: "the nodes with the channels 1 and 2 in a row are the pairs of a maximal matching",
    wrong: ([first, second]) => {
      if (second === 2 && first === 2) return [1, "is matched to the left, and so is its left neighbour"];
      if (second === 2) return [1, "is matched to the left, but its left neighbour is single"];
      if (first === 0) return [0, "is single, and so is its right neighbour"];
      return [0, `is matched to the right, ${second === 0 ? "but its right neighbour is single" : "and so is its right neighbour"}`];
    },
  },
  weak2: {
    title: "weak 2-colouring",
    patterns: ["0,0,0", "1,1,1"],
    meaning: "two colours, 0 and 1",
    holds: "each node has a neighbour with the other channel",
    wrong: () => [1, "and both its neighbours have the same channel"],
  },
};

/**
 * What a comment of a program asks, as values of the state: `# Problem: mis` names a problem, `# Forbid: 0,0 1,1` has patterns; else
 * neighbours differ.
 */
export function askedBy(text) {
  const name = text.match(/^# Problem: ([a-z0-9]+)/m)?.[1];
  if (Object.hasOwn(PROBLEMS, name ?? "")) return { problem: name, forbid: "" };
  const words = wordsOf(text.match(/^# Forbid: (.*)/m)?.[1] ?? "");
  return words.length ? { problem: "own", forbid: words.join(" ") } : { problem: "differ", forbid: "" };
}

// The patterns of a problem; then for no round, one round and so on the most identifiers for which a table solves it: `4` if it is
// refuted for one more, `7 ..` if more is open, and `all 12` if these are all that such tables can have. The channels are those that
// the patterns name.
const KNOWN = [
  ["0,0 1,1", "2", "4", "6", "8"],
  ["0,0 1,0 1,1 0,2 2,2", "2", "4", "6", "all 12"],
  ["0,0,0 1,1", "2", "4", "7", "all 12"],
  ["0,0 1,1 2,2 0,2,0 1,2,1 2,1,2", "2", "4", "6", "all 12"],
  ["0,0 1,1 2,2", "3", "6", "all 23", "all 12"],
  ["0,0,0 1,1,1", "2", "6", "all 23", "all 12"],
  ["0,0,0 1,1,1 2,2,2", "3", "48 ..", "all 23", "all 12"],
];

// The patterns, the rounds and the most identifiers of examples that solve a problem.
const EXAMPLES = [
  ["0,0 1,1", 3, 8, "two_colours_8.txt"],
  ["0,0 1,0 1,1 0,2 2,2", 3, 12, "matching_12.txt"],
  ["0,0,0 1,1", 3, 12, "mis_12.txt"],
  ["0,0 1,1 2,2 0,2,0 1,2,1 2,1,2", 3, 12, "greedy3_12.txt"],
  ["0,0 1,1 2,2", 2, 23, "three_23.txt"],
  ["0,0,0 1,1,1", 1, 6, "weak2_6.txt"],
  ["0,0,0 1,1,1", 2, 23, "weak2_23.txt"],
  ["0,0,0 1,1,1 2,2,2", 2, 23, "weak2_23.txt"],
];

/** Whether two lists of patterns have the same ones. */
const areSame = (list, other) => list.split(" ").toSorted().join(" ") === other.split(" ").toSorted().join(" ");

/**
 * The greatest number of rounds for which there is no table for so many identifiers, or -1; and the least one for which there is a
 * table, or `undefined` where it is not known. Without anything known of these patterns `undefined`.
 */
export function knownRounds(patterns, ids) {
  const cells = KNOWN.find(([list]) => areSame(list, patterns))?.slice(1);
  if (!cells) return undefined;
  const most = cells.map((cell) => Number(cell.match(/\d+/)[0]));
  const refuted = cells.findLastIndex((cell, rounds) => /^\d+$/.test(cell) && most[rounds] < ids);
  const enough = most.findIndex((each, rounds) => ids <= each && 2 * rounds + 2 <= ids);
  return [refuted, enough < 0 ? undefined : enough];
}

const ofRounds = (rounds) => (rounds === 0 ? "without a round" : rounds === 1 ? "of one round" : `of ${rounds} rounds`);

/**
 * What is known of fewer rounds than so many for a problem, as a sentence and the name of an example with as few as are known, if there
 * is one; or `undefined` where nothing is known.
 */
export function fewerRounds(patterns, ids, own) {
  const known = knownRounds(patterns, ids);
  if (!known) return undefined;
  const [refuted, enough] = known;
  const many = `${ids} identifiers`;
  if (own <= refuted) return { says: `No program of so few rounds does it: for ${many} there is no table ${ofRounds(refuted)}.` };
  const none = `none ${ofRounds(refuted)}`;
  if (enough === undefined) {
    return refuted < 0 ? undefined : { says: `Fewer rounds? For ${many} there is ${none}; more is not known.` };
  }
  const example = EXAMPLES.find(([list, rounds, most]) => areSame(list, patterns) && rounds === enough && ids <= most);
  const open = enough > refuted + 1 ? "; more is not known" : "";
  const says = `Fewer rounds? For ${many} there is a table ${ofRounds(enough)}${refuted < 0 ? "" : `, and ${none}`}${open}.`;
  return { says, example: example?.[3] };
}
