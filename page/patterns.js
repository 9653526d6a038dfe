// Forbidden patterns: what they ask of the channels of places in a row, and where a ring breaks them.

const MOST_CHANNEL = 2 ** 32 - 1;

/** The words of a list of patterns, which blanks and line breaks separate. */
export const wordsOf = (text) => text.split(/\s+/).filter(Boolean);

/**
 * A pattern as its entries up to the last one that asks for a channel, but at least one: a channel, or `null` for any. A word that is
 * no pattern gives `null`; why, nbhd says.
 */
export function readPattern(word) {
  if (!/^([0-9]+|\*)(,([0-9]+|\*)){0,2}$/.test(word)) return null;
  const entries = word.split(",").map((entry) => (entry === "*" ? null : Number(entry)));
  if (entries.some((entry) => entry > MOST_CHANNEL)) return null;
  return entries.slice(0, Math.max(entries.findLastIndex((entry) => entry !== null) + 1, 1));
}

export const textOf = (pattern) => pattern.map((entry) => entry ?? "*").join(",");

/** How many places in a row a pattern names, two or three. */
export const spanOf = (pattern) => Math.max(pattern.length, 2);

/** How many channels there are if the greatest one that the patterns name is the last. */
export const channelsNamed = (patterns) => Math.max(...patterns.flat(), 0) + 1;

export const matches = (pattern, channels) => pattern.every((entry, i) => entry === null || entry === channels[i]);

/** The channels of the three places from this one on, around the ring. */
export const rowAt = (channels, place) => [0, 1, 2].map((step) => channels[(place + step) % channels.length]);

/** The places at which a ring matches a pattern, each with the first one as `{ place, pattern }`. */
export function brokenPlaces(patterns, channels) {
  return channels.flatMap((_, place) => {
    const pattern = patterns.find((each) => matches(each, rowAt(channels, place)));
    return pattern ? [{ place, pattern }] : [];
  });
}
