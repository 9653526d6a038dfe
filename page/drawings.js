// The drawings of a step of a run and of a no, as the views show them and tools/picture prints them.

import { lookOf } from "./look.js";
import { drawRing, drawWindow, hasRoomForNames, say } from "./ring.js";
import { WINDOWS } from "./tuple.js";

/**
 * The most digits of labels and of messages of a run, so that all its steps have the same size, and whether the labels have the register's
 * name. `show` gives the texts of a list of numbers.
 */
export function sizesOf(ring, steps, register, show) {
  const most = (lists) => Math.max(0, ...lists.flatMap(show).map((text) => text.length));
  const sent = steps.flatMap(({ left, right }) => (left ? [left, right] : []));
  const held = most(steps.map(({ registers }) => registers[register] ?? []));
  const named = steps[0].registers.length === 1 && hasRoomForNames(ring.length, held);
  return { named, digits: named ? held + "r0=".length : held, sentDigits: most(sent) };
}

/** The ring in a step of a run, or without a run. */
export function drawStep(ring, step, { named, digits, sentDigits }, { demand, register, show, label }) {
  const channels = step?.channels;
  return drawRing({
    ring, channels, look: channels && lookOf(demand, channels), digits, sentDigits, show, label,
    labels: step?.registers[register] && show(step.registers[register])
      .map((value) => ({ text: named ? `r0=${value}` : value, title: `r${register} = ${value}` })),
  });
}

/** What stands in the middle of the ring in a step. */
export const centreOf = ({ kind, round, registers }) => (kind === "send" || kind === "assign"
  ? [[`round ${round}`, "centre-big"], [kind, "centre-small"]] : [[registers.length ? kind : "table", "centre-big"]]);

/** The ring of a no; with the channels of `all` nodes and the windows of so many rounds, if these are known. */
export function drawNo({ ring, places, channels }, all, rounds, demand, label) {
  // On a ring of two nodes the third place is the first one.
  const seen = [...new Set(places)];
  const look = all && lookOf(demand, all, [{ place: places[0], span: places.length }]);
  const drawing = drawRing({ ring, channels: all, look, digits: 0, margin: 17 * seen.length - 8, label });
  seen.forEach((place, i) => {
    drawing.nodes[place].classList.add("chosen");
    const far = drawing.size.node + 16 + 17 * i;
    if (rounds === undefined) return;
    drawing.layers.under.append(drawWindow(drawing.size, place, rounds, far, WINDOWS[i], `Window of ${ring[place]}`));
  });
  drawing.nodes.forEach((node, place) => node.classList.toggle("other", !places.includes(place)));
  if (!demand.patterns) markLinks(drawing, ring, places);
  say(drawing.layers.centre, centreOfNo(channels, demand));
  return { ...drawing, seen };
}

function centreOfNo(channels, { patterns }) {
  if (!patterns && channels[0] === channels[1]) return [[`${channels[0]} = ${channels[1]}`, "centre-big"]];
  return [[channels.join(", "), "centre-big"], [patterns ? "forbidden" : "too close", "centre-small"]];
}

/** Makes the links from the one node to the other red, also where the channels are too close but not equal. */
function markLinks({ layers }, ring, places) {
  for (let place = places[0]; place !== places[1]; place = (place + 1) % ring.length) layers.links.children[place].classList.add("equal");
}
