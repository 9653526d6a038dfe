// The words of the language, for the colours of the text and the help. Faults are found by nbhd alone.

/** The operations, in the order of docs/LANGUAGE.md: how they are written, their value, and an example of each. */
export const OPERATIONS = [
  { forms: ["not(a)"], value: "`2^32 - 1 - a`", examples: ["not(0) = 4294967295"] },
  {
    forms: ["and(a, b)", "or(a, b)", "xor(a, b)"],
    value: "bit by bit",
    examples: ["and(6, 3) = 2", "or(6, 3) = 7", "xor(6, 3) = 5"],
  },
  { forms: ["shl(a, k)"], value: "`a * 2^k` modulo `2^32`; 0 for `k >= 32`", examples: ["shl(5, 1) = 10"] },
  { forms: ["shr(a, k)"], value: "`a / 2^k`, rounded down; 0 for `k >= 32`", examples: ["shr(5, 1) = 2"] },
  { forms: ["add(a, b)"], value: "`a + b` modulo `2^32`", examples: ["add(5, 2) = 7"] },
  { forms: ["sub(a, b)"], value: "`a - b`; 0 if that is below 0", examples: ["sub(5, 2) = 3"] },
  { forms: ["min(a, b)", "max(a, b)"], value: "the lesser, the greater", examples: ["min(5, 2) = 2", "max(5, 2) = 5"] },
  {
    forms: ["ldb(a, b)"],
    value: "the least index of a bit in which they differ, 0 if equal",
    examples: ["ldb(5, 7) = 1"],
  },
  { forms: ["bit(a, i)"], value: "bit `i` of `a`; 0 for `i >= 32`", examples: ["bit(5, 2) = 1"] },
  {
    forms: ["eq(a, b)", "ne(a, b)", "lt(a, b)", "le(a, b)"],
    value: "1 if `a` is equal, not equal, less, at most `b`, else 0",
    examples: ["eq(5, 2) = 0", "ne(5, 2) = 1", "lt(5, 2) = 0", "le(2, 5) = 1"],
  },
  { forms: ["if(c, a, b)"], value: "`a` if `c` is not 0, else `b`", examples: ["if(1, 5, 2) = 5"] },
];

const KINDS = new Map();
const add = (kind, words) => words.forEach((word) => KINDS.set(word, kind));
add("header", ["rounds", "channels", "registers"]);
add("part", ["start", "round", "send", "left", "right", "finish"]);
add("input", ["id", "L", "R"]);
add("operation", OPERATIONS.flatMap(({ forms }) => forms.map((form) => form.split("(")[0])));

const OPERANDS = new Map(OPERATIONS.flatMap(({ forms }) => forms.map((form) => [form.split("(")[0], form.split(",").length])));

const TOKEN = /#[^\n]*|[A-Za-z0-9]+|[\s\S]/g;

/** The pieces of a text as `{ text, kind, at }`, in order and without gaps; `kind` is empty for punctuation and blanks. */
export function pieces(text) {
  const found = [];
  for (const match of text.matchAll(TOKEN)) {
    const kind = kindOf(match[0]);
    const last = found.at(-1);
    if (last && last.kind === kind && kind === "") last.text += match[0];
    else found.push({ text: match[0], kind, at: match.index });
  }
  return found;
}

function kindOf(token) {
  if (token.startsWith("#")) return "comment";
  if (/^[0-9]+$/.test(token)) return "number";
  if (/^r[0-9]$/.test(token)) return "register";
  return KINDS.get(token) ?? (/[A-Za-z0-9]/.test(token) ? "unknown" : "");
}

/** How many rows at the head of a text are comments or blank; 0 if all are. */
export function headRows(rows) {
  return Math.max(rows.findIndex((row) => /^\s*[^\s#]/.test(row)), 0);
}

/**
 * The words of a program's expressions, in order, each with its place as `{ at, length, size }`: operations, numbers, registers, `id`,
 * `L` and `R`. The expression that begins with a word has `size` of them.
 */
export function partTokens(text) {
  const tokens = [...text.matchAll(/#[^\n]*|[A-Za-z0-9]+|=/g)].filter(([word]) => !word.startsWith("#"));
  // The header is six words, and a register before `=` is assigned.
  const words = tokens.slice(6).filter(([word], i, rest) => word !== "=" && KINDS.get(word) !== "part" && rest[i + 1]?.[0] !== "=");
  const sizes = [];
  for (let i = words.length - 1; i >= 0; i -= 1) {
    let end = i + 1;
    for (let more = OPERANDS.get(words[i][0]) ?? 0; more > 0; more -= 1) end += sizes[end] ?? 1;
    sizes[i] = end - i;
  }
  return words.map((match, i) => ({ at: match.index, length: match[0].length, size: sizes[i] }));
}

/** The first and the last row of a program that a step of its run does, from 0; `null` for a text that has no such part. */
export function rowsOfStep(text, { kind, round }) {
  const tokens = [...text.matchAll(/#[^\n]*|[A-Za-z0-9]+|[=()]/g)].filter(([word]) => !word.startsWith("#"));
  const heads = tokens.flatMap(([word], i) => (["start", "round", "finish"].includes(word) ? [i] : []));
  const head = { start: 0, send: round, assign: round, finish: heads.length - 1 }[kind];
  if (heads[head] === undefined) return null;
  let [from, to] = [heads[head] + (kind === "finish" ? 0 : 1), heads[head + 1] ?? tokens.length];
  const assigned = tokens.findIndex((_, i) => i >= from && tokens[i + 1]?.[0] === "=");
  if (kind === "send") to = assigned;
  if (kind === "assign") from = assigned;
  if (from < 0 || to <= from) return null;
  const rowOf = ({ index }) => text.slice(0, index).split("\n").length - 1;
  return [rowOf(tokens[from]), rowOf(tokens[to - 1])];
}

/** The number of rounds that a text names, 0 if it names none. */
export const roundsOf = (text) => Number(text.match(/^\s*rounds\s+(\d+)/m)?.[1] ?? 0);
