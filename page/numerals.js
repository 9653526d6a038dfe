// Numbers in the base that was chosen.

/** How wide the greatest of some numbers is in base two. */
export const widthOf = (values) => Math.max(0, ...values).toString(2).length;

/** The texts of numbers, in base two all as wide as the widest, and at least of this width. */
export function numerals(values, base, least = 1) {
  if (base !== "2") return values.map(String);
  const texts = values.map((value) => value.toString(2));
  const width = Math.max(...texts.map((text) => text.length), least);
  return texts.map((text) => text.padStart(width, "0"));
}
