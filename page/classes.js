// How many rounds a problem takes on oriented rings of all lengths, by the automaton of its patterns (Chang, Studený and Suomela 2021).
// Its states are the pairs of channels that neighbours may have, and a step leads from `a b` to `b c` if `a b c` is not forbidden. A
// closed walk of so many steps is a solution on a ring of so many nodes.

import { matches } from "./patterns.js";

const MOST_CHANNELS = 16; // so that a key takes no longer than a moment

/**
 * The class of the problem of these patterns with so many channels: `{ kind, channel }`, where `kind` is `constant` if all nodes may
 * have the same channel, `channel`; `log*` if there are solutions on all rings that are long enough; `global` if there are some on rings
 * of some lengths alone; and `unsolvable` without any. Too many channels give `undefined`.
 */
export function classOf(patterns, channels) {
  if (channels > MOST_CHANNELS) return undefined;
  const all = Array.from({ length: channels }, (_, channel) => channel);
  const isAllowed = (...row) => !patterns.some((pattern) => matches(pattern, row));
  const channel = all.find((each) => isAllowed(each, each, each));
  if (channel !== undefined) return { kind: "constant", channel };
  const steps = all.flatMap((a) => all.map((b) => all.filter((c) => isAllowed(a, b, c)).map((c) => b * channels + c)));
  const back = steps.map(() => []);
  steps.forEach((ends, state) => ends.forEach((end) => back[end].push(state)));
  let kind = "unsolvable";
  for (const state of steps.keys()) {
    const period = periodOf(steps, back, state);
    if (period === 1) return { kind: "log*" };
    if (period > 1) kind = "global";
  }
  return { kind };
}

/** The greatest common divisor of the lengths of the closed walks from a state, 0 if there are none. */
function periodOf(steps, back, start) {
  const [from, to] = [lengthsFrom(steps, start), lengthsFrom(back, start)];
  let period = 0;
  for (const [state, length] of from) {
    if (!to.has(state)) continue;
    for (const next of steps[state]) {
      if (to.has(next)) period = gcd(period, Math.abs(length + 1 - from.get(next)));
    }
  }
  return period;
}

/** The length of a shortest walk from a state to each that it leads to. */
function lengthsFrom(steps, start) {
  const lengths = new Map([[start, 0]]);
  for (const [state, length] of lengths) {
    for (const next of steps[state]) {
      if (!lengths.has(next)) lengths.set(next, length + 1);
    }
  }
  return lengths;
}

const gcd = (a, b) => (b === 0 ? a : gcd(b, a % b));
