// The fewest channels that are known, as docs/LEAST.md has them. The rows are written by tools/known.

// Rounds, near, far, and the numbers of identifiers from one to another; then the greatest number of channels with a refutation
// or a bound, and the least one with a table.
const KNOWN = [
  [0, 1, 0, 2, 2, 1, 2],
  [1, 1, 0, 4, 4, 1, 2],
  [1, 1, 0, 5, 6, 2, 3],
  [1, 1, 0, 7, 28, 3, 4],
  [1, 1, 0, 29, 162, 3, 5],
  [1, 1, 1, 5, 6, 4, 5],
  [1, 1, 1, 7, 8, 6, 7],
  [1, 1, 1, 9, 9, 6, 8],
  [1, 1, 1, 10, 12, 6, 9],
  [1, 1, 1, 13, 14, 6, 10],
  [1, 1, 1, 15, 16, 6, 11],
  [1, 1, 1, 17, 20, 6, 12],
  [1, 1, 1, 21, 26, 6, 13],
  [1, 1, 1, 27, 30, 6, 14],
  [1, 1, 1, 31, 32, 6, 16],
  [1, 2, 1, 5, 5, 5, 6],
  [1, 2, 1, 6, 6, 7, 8],
  [1, 2, 1, 7, 7, 8, 9],
  [1, 2, 1, 8, 8, 8, 10],
  [1, 2, 1, 9, 9, 8, 11],
  [1, 2, 1, 10, 10, 8, 12],
  [1, 2, 1, 11, 12, 8, 13],
  [1, 2, 1, 13, 14, 8, 16],
  [1, 2, 1, 15, 18, 8, 18],
  [1, 2, 1, 19, 20, 8, 19],
  [1, 2, 1, 21, 24, 8, 22],
  [1, 2, 1, 25, 26, 8, 24],
  [1, 2, 1, 27, 30, 8, 27],
  [1, 2, 1, 31, 32, 8, 31],
  [2, 1, 0, 6, 6, 1, 2],
  [2, 1, 0, 7, 23, 2, 3],
  [2, 1, 1, 7, 8, 3, 4],
  [2, 1, 1, 9, 12, 4, 6],
  [2, 1, 1, 13, 15, 4, 7],
  [2, 1, 1, 16, 21, 4, 8],
  [2, 1, 1, 22, 23, 4, 9],
  [2, 2, 1, 7, 7, 5, 6],
  [2, 2, 1, 8, 8, 5, 7],
  [2, 2, 1, 9, 9, 5, 8],
  [2, 2, 1, 10, 12, 5, 9],
  [2, 2, 1, 13, 15, 5, 11],
  [2, 2, 1, 16, 21, 5, 15],
  [2, 2, 1, 22, 23, 5, 17],
  [3, 1, 0, 8, 8, 1, 2],
  [3, 1, 0, 9, 12, 2, 3],
  [3, 1, 1, 9, 9, 2, 4],
  [3, 1, 1, 10, 12, 3, 5],
  [3, 2, 1, 9, 10, 4, 6],
  [3, 2, 1, 11, 12, 4, 7],
];

// Rounds, the most identifiers and channels of examples that keep neighbours apart by 1.
const EXAMPLES = [
  [1, 20, 4, "sperner_20_4.txt"],
  [1, 162, 5, "five_162.txt"],
  [2, 23, 3, "three_23.txt"],
];

const channels = (number) => (number === 1 ? "one channel" : `${number} channels`);

/** The greatest number of channels that is refuted, and the least one with a table, or `undefined` where neither is known. */
export function knownChannels(rounds, ids, near, far) {
  const row = KNOWN.find(([t, p, q, from, to]) => t === rounds && p === near && q === far && from <= ids && ids <= to);
  if (row) return row.slice(5);
  // Without a round any two identifiers can be neighbours, so their channels are `near` apart.
  return rounds === 0 && ids >= 3 && near >= far ? [(ids - 1) * near, (ids - 1) * near + 1] : undefined;
}

/**
 * What is known of fewer channels than so many for a table, as a sentence and the name of an example with as few as are known, if there
 * is one; or `undefined` where nothing is known.
 */
export function fewerChannels(rounds, ids, near, far, own) {
  const known = knownChannels(rounds, ids, near, far);
  if (!known) return undefined;
  const [refuted, least] = known;
  if (own <= refuted) return { says: `No program does it with so few: with ${channels(refuted)} there is no table.` };
  const none = `with ${channels(refuted)} there is none`;
  if (own > least) {
    const example = EXAMPLES.find(([t, most, count]) => near === 1 && far === 0 && t === rounds && ids <= most && count === least);
    return { says: `Fewer channels? There is a table with ${channels(least)}, and ${none}.`, example: example?.[3] };
  }
  if (own === refuted + 1) return { says: `Fewer channels? No: ${none}.` };
  return { says: `Fewer channels? ${none[0].toUpperCase()}${none.slice(1)}; more is not known.` };
}
