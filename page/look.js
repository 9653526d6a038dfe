// How the channels of a ring look: what is wrong is red, and the problems that have a name look like what they are.

import { brokenPlaces, spanOf } from "./patterns.js";
import { equalPairs } from "./trace.js";

/**
 * The classes of each node and of each link to the right, by their channels. Where neighbours are to differ, links of equal channels are
 * `equal`; nodes and links in a forbidden pattern are `broken`: those of `broken`, if it is given as first places and numbers of places
 * in a row. In an independent set nodes that are not in it are `outside`, which are hollow, and the link of two partners of a matching is
 * `pair`.
 */
export function lookOf({ name, patterns }, channels, broken = brokenIn(patterns ?? [], channels)) {
  const look = { nodes: channels.map(() => []), links: channels.map(() => []) };
  if (patterns === undefined) for (const place of equalPairs(channels)) look.links[place].push("equal");
  else for (const { place, span } of broken) markPattern(look, place, span);
  channels.forEach((channel, place) => {
    if (name === "mis" && channel === 0) look.nodes[place].push("outside");
    const next = channels[(place + 1) % channels.length];
    if (name === "matching" && channel === 1 && next === 2) look.links[place].push("pair");
  });
  return look;
}

const brokenIn = (patterns, channels) =>
  brokenPlaces(patterns, channels).map(({ place, pattern }) => ({ place, span: spanOf(pattern) }));

function markPattern({ nodes, links }, place, span) {
  for (let step = 0; step < span; step += 1) {
    nodes[(place + step) % nodes.length].push("broken");
    if (step > 0) links[(place + step - 1) % links.length].push("broken");
  }
}
