// The trees of an explanation, from the report of `nbhd explain`.

/**
 * The trees of an explanation: each has the `kind` and the `round` of the step that it belongs to, its `head`, as `round 1 r0`, and its
 * `parts` as `{ depth, word, value, taken, number, end }`. Of the `words` of the program's expressions a part stands for those from
 * `number` to before `end`: for one, or for all of a branch that is not taken.
 */
export function treesOf({ trees }, words) {
  let number = 0;
  return trees.map(({ round, gives, parts }) => ({
    ...placeOf(round, gives),
    parts: parts.map((part) => {
      const first = number;
      number += part.taken ? 1 : words[first]?.size ?? 1;
      return { ...part, number: first, end: number };
    }),
  }));
}

/** The step and the head of the tree of a value. */
function placeOf(round, gives) {
  if (gives === "finish") return { kind: "finish", round, head: gives };
  if (gives === "left" || gives === "right") return { kind: "send", round, head: `round ${round} ${gives}` };
  return round === 0 ? { kind: "start", round, head: `start ${gives}` } : { kind: "assign", round, head: `round ${round} ${gives}` };
}

/** The number behind the last part of the tree whose root is at `i`. */
function endOf(parts, i) {
  const next = parts.findIndex(({ depth }, j) => j > i && depth <= parts[i].depth);
  return next < 0 ? parts.length : next;
}

/** For each part of a tree `taken` or `other` if it is the branch of an `if` that is taken or the other one, else an empty text. */
export function branchesOf(parts) {
  const found = parts.map(() => "");
  parts.forEach(({ word, depth }, i) => {
    if (word !== "if") return;
    const operands = [];
    for (let j = i + 1; j < endOf(parts, i); j += 1) if (parts[j].depth === depth + 1) operands.push(j);
    // The first operand is the condition. An `if` that is not taken itself has none here.
    for (const j of operands.slice(1)) found[j] = parts[j].taken ? "taken" : "other";
  });
  return found;
}

/**
 * Where the value of a register, of `L` or of `R` in a step comes from: the step's kind and round, the tree's head, and how many places
 * further that node is; `null` for other words.
 */
export function sourceOf({ kind, round }, word) {
  if (word === "L") return { ...placeOf(round, "right"), further: -1 };
  if (word === "R") return { ...placeOf(round, "left"), further: 1 };
  return /^r[0-9]$/.test(word) ? { ...placeOf(kind === "finish" ? round : round - 1, word), further: 0 } : null;
}

/** The trees that belong to a step of a run; where `finish` is a register alone, that of its last assignment too. */
export function treesIn(trees, { kind, round }) {
  const own = trees.filter((tree) => tree.kind === kind && tree.round === round);
  const source = kind === "finish" && sourceOf(own[0], own[0].parts[0].word);
  return source ? [...own, trees.find(({ head }) => head === source.head)] : own;
}

/** What a channel comes from: the `head` of its explanation's last tree, and the words and values that this reads. */
export function lastRead(trees) {
  const { head, parts } = treesIn(trees, trees.at(-1)).at(-1);
  const read = parts.filter(({ word, taken }) => taken && /^(r[0-9]|L|R|id)$/.test(word));
  return { head, read: [...new Map(read.map(({ word, value }) => [word, value]))] };
}
