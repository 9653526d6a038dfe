// The steps of a run, from the report of `nbhd trace`.

/**
 * The steps `{ kind, round, registers, left, right, channels }` of a trace: the start, a step that sends and one that assigns for
 * each round, and the finish. `registers[j][p]` is register `j` at place `p`. The channels by a table are a finish
 * alone, in which so many rounds were `seen`.
 */
export function stepsOf({ kind, start, rounds, finish, channels }, seen) {
  if (kind === "places") return [{ kind: "finish", round: seen, registers: [], channels }];
  const steps = [{ kind: "start", round: 0, registers: start }];
  rounds.forEach(({ left, right, registers }, i) => {
    const [round, before] = [i + 1, steps.at(-1).registers];
    steps.push({ kind: "send", round, registers: before, left, right }, { kind: "assign", round, registers, before, left, right });
  });
  const { round, registers } = steps.at(-1);
  return [...steps, { kind: "finish", round, registers, channels: finish }];
}

export const nameOf = (step) =>
  ({ start: "start", send: `${step.round} send`, assign: `${step.round} assign`, finish: "finish" })[step.kind];

/** A sentence on what happens in a step, with words of the language in backquotes. */
export function sentenceOf(step, ring) {
  if (step.kind === "start") return "Each node knows its own identifier alone; `start` gives its registers.";
  if (step.kind === "send") {
    return `Round ${step.round}: each node sends a value to its right neighbour (filled, outside the ring) `
      + "and one to its left neighbour (hollow, inside).";
  }
  if (step.kind === "assign") {
    const seen = Math.min(2 * step.round + 1, ring.length);
    return `Round ${step.round}: with what came from both sides each node assigns its registers. `
      + `What a node now holds depends only on its window: the ${seen} identifiers within distance ${step.round}.`;
  }
  return `${step.registers.length ? "`finish`" : "The table"} gives each node its channel.`;
}

/** A sentence on neighbours with equal channels. */
export function equalSentence(channels, ring) {
  const pairs = equalPairs(channels);
  if (pairs.length === 0) return "On this ring neighbours’ channels differ.";
  const [p] = pairs;
  const [a, b] = [ring[p], ring[(p + 1) % ring.length]];
  const others = ["", "; so has 1 other pair"][pairs.length - 1] ?? `; so have ${pairs.length - 1} other pairs`;
  return `Neighbours ${a} and ${b} have the same channel${others}.`;
}

/** The places whose right neighbour has the same channel. */
export function equalPairs(channels) {
  return channels.flatMap((channel, p) => (channel === channels[(p + 1) % channels.length] ? [p] : []));
}
