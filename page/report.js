// What an answer of the server says: the report of nbhd as an object, or why there is none.

// The kinds of a command's reports, beside that of a fault.
const KINDS = {
  check: ["accepted"], trace: ["trace"], explain: ["explanation"], judge: ["yes", "no"], table: ["table"], apply: ["places"],
  audit: ["yes", "no"], migrate: ["table"],
};

/** The report of a command, as docs/LANGUAGE.md has it: its `kind` is one of that command, or `fault`. Else what `noReport` gives. */
export function reportOf(command, answer) {
  const report = signalOf(answer) ? null : parsed(answer.out);
  return [...KINDS[command], "fault"].includes(report?.kind) ? report : noReport(answer);
}

/**
 * Why an answer has no report, as a `kind` and words in `note`: the run was `stopped`, or not begun, by the server; nbhd `refused` its
 * words; it was `silent`; or a lesson has no answer recorded.
 */
export function noReport(answer) {
  if (answer.unrecorded) return { kind: "unrecorded", note: answer.unrecorded };
  if (answer.refused) return { kind: "stopped", note: answer.refused };
  const said = sentencesOf(answer.note).join(" – ");
  if (answer.status === 2) return { kind: "refused", note: said };
  const signal = signalOf(answer);
  if (signal === 9) return { kind: "silent", note: "nbhd was ended by signal 9; memory may have run out" };
  if (signal) return { kind: "silent", note: `nbhd was ended by signal ${signal}` };
  return { kind: "silent", note: ["nbhd printed no report", said].filter(Boolean).join(": ") };
}

/** The sentences of a note on standard error, without the line of a text that it shows, and without words for a shell. */
export const sentencesOf = (note = "") => note.split("\n").flatMap((line) => line.match(SENTENCE)?.[1] || []);

const SENTENCE = /^(?:nbhd|error): (.*?)(?:; )?(?:write `nbhd .*`)?$/;

/** The signal that ended nbhd, or 0: its status is negative, or above 128 where a shell has started nbhd. */
const signalOf = ({ status = 0 }) => (status < 0 ? -status : Math.max(status - 128, 0));

function parsed(text) {
  try {
    return JSON.parse(text);
  } catch {
    return null;
  }
}
