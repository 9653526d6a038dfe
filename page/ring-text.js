// The text of a ring: identifiers with single commas, in place of which the field takes blanks too.

/** The text with single commas, as it stands in the address and goes to nbhd. */
export const withCommas = (text) => text.split(/[\s,]+/).filter(Boolean).join(",");

/** The identifiers of a ring text, or `null` if it cannot be drawn. */
export function readRing(text) {
  const parts = text.split(",");
  return parts.every((part) => /^[0-9]{1,10}$/.test(part)) ? parts.map(Number) : null;
}

/** Why nbhd is not asked about a text: it is empty, or a part of it is not a number. Else `null`. */
export function whyNoRing(text) {
  if (text === "") return "Write a ring, or take a random one.";
  const part = text.split(",").find((each) => !/^[0-9]+$/.test(each));
  return part === undefined ? null : `\`${part}\` is no identifier: write numbers, as 5,1,3,7.`;
}
