// The fields that want a number.

const WANTED = {
  ids: "how many identifiers there are, 1 to 1024",
  near: "by how much neighbours’ channels are to differ, 1 to 4096",
  far: "by how much channels at distance two are to differ, 0 to 4096",
  nodes: "how many nodes the ring has",
};

/** What to say where a field has no number, as when it was emptied; else `null`. */
export const whyNoNumber = (name, text) => (/^[0-9]+$/.test(text) ? null : `A number is wanted: ${WANTED[name]}.`);

export const clamp = (number, least, most) => Math.max(least, Math.min(number, most));
