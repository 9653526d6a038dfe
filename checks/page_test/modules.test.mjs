// The modules of the page that need no document.

import assert from "node:assert/strict";
import { readFileSync } from "node:fs";
import { test } from "node:test";

import { ask, askLines, drop } from "../../page/ask.js";
import { classOf } from "../../page/classes.js";
import { classSentence, demandOf, sentenceOn } from "../../page/demand.js";
import { reasonOf, refusalOf } from "../../page/faults.js";
import { headRows, OPERATIONS, partTokens, pieces, roundsOf, rowsOfStep } from "../../page/language.js";
import { fewerChannels, knownChannels } from "../../page/least.js";
import { lookOf } from "../../page/look.js";
import { clamp, whyNoNumber } from "../../page/numbers.js";
import { numerals, widthOf } from "../../page/numerals.js";
import { wrongPaths } from "../../page/paths.js";
import { brokenPlaces, channelsNamed, readPattern, spanOf, textOf, wordsOf } from "../../page/patterns.js";
import { askedBy, fewerRounds, knownRounds, PROBLEMS } from "../../page/problems.js";
import { noReport, reportOf, sentencesOf } from "../../page/report.js";
import { readRing, whyNoRing, withCommas } from "../../page/ring-text.js";
import { countChannels, edgeCounts, edgesOf, tableOf, windowsOf } from "../../page/table.js";
import { equalPairs, equalSentence, nameOf, sentenceOf, stepsOf } from "../../page/trace.js";
import { branchesOf, lastRead, sourceOf, treesIn, treesOf } from "../../page/trees.js";

const FAULTY = "rounds 1\nchannels 6\nregisters 1\nstart\nr0 = id\nround\n  send lift 0\n";
const CV1_TEXT = readFileSync(new URL("../../programs/cv1.txt", import.meta.url), "utf-8");
const TABLE = { kind: "table", ids: 3, rounds: 0, channels: 2, near: 1, far: 0, entries: [0, 1, 0] };

// The lines in JSON of docs/LANGUAGE.md, by the kind of their object.
const SAID = Object.fromEntries(readFileSync(new URL("../../docs/LANGUAGE.md", import.meta.url), "utf-8").split("\n")
  .filter((line) => /^\{"kind":.*\}$/.test(line)).map((line) => [JSON.parse(line).kind, `${line}\n`]));
const reported = (kind) => JSON.parse(SAID[kind]);
const fault = (members) => ({ kind: "fault", of: "text", code: "N3", ...members });

test("report: the object of each command", () => {
  const kinds = {
    check: ["accepted"], trace: ["trace"], explain: ["explanation"], judge: ["yes", "no"], table: ["table"],
    apply: ["places"], audit: ["yes", "no"], migrate: ["table"],
  };
  for (const [command, own] of Object.entries(kinds)) {
    for (const kind of [...own, "fault"]) assert.deepEqual(reportOf(command, { status: 0, out: SAID[kind], note: "" }), reported(kind));
    const other = own.includes("yes") ? "trace" : "yes";
    assert.deepEqual(reportOf(command, { status: 0, out: SAID[other], note: "" }), { kind: "silent", note: "nbhd printed no report" });
  }
});

test("report: an output that is none", () => {
  const silent = (out, status = 0, note = "") => reportOf("trace", { status, out, note });
  for (const out of ["", "\n", "ring 5 1 3 7\n", "null\n", "[]\n", "5\n", "{}\n", "{\"kind\":7}\n", SAID.trace.slice(0, 40)]) {
    assert.deepEqual(silent(out), { kind: "silent", note: "nbhd printed no report" }, out);
  }
  assert.deepEqual(silent("", 6, "nbhd: out of memory\n"), { kind: "silent", note: "nbhd printed no report: out of memory" });
  assert.deepEqual(silent(SAID.trace.slice(0, 40), 5, "nbhd: write failed\n").note, "nbhd printed no report: write failed");
});

test("report: a program that was ended, and one that was stopped", () => {
  const said = (status, out = "") => reportOf("trace", { status, out, note: "" });
  const killed = { kind: "silent", note: "nbhd was ended by signal 9; memory may have run out" };
  assert.deepEqual([said(-9), said(137), said(-9, SAID.trace)], [killed, killed, killed]);
  assert.deepEqual([said(-11).note, said(143).note], ["nbhd was ended by signal 11", "nbhd was ended by signal 15"]);
  const refused = "four runs are under way already";
  assert.deepEqual(reportOf("check", { refused }), { kind: "stopped", note: refused });
  assert.deepEqual(noReport({ status: 0, out: "", note: "" }), { kind: "silent", note: "nbhd printed no report" });
});

test("report: refused words", () => {
  const line = (note) => refusalOf(reportOf("trace", { status: 2, out: "", note }), FAULTY).line;
  assert.equal(line("nbhd: bad ring\n"), "bad ring");
  assert.equal(line("nbhd: bad ring\nnbhd: part 2, ` 1`, is not a number\n"), "bad ring – part 2, ` 1`, is not a number");
  const words = "invalid value '65' for '--ids <M>': 65 is no";
  assert.equal(line(`error: ${words}\n\nFor more information, try '--help'.\n`), words);
});

test("ask: JSON is asked for, and a report is kept, but not that there was none", async () => {
  const bodies = [];
  const answers = [{ status: -9, out: "", note: "" }, { status: 0, out: SAID.accepted, note: "" }, { status: 0, out: "nbhd-table 2\n", note: "" }];
  const gone = {};
  globalThis.document = { getElementById: () => gone };
  globalThis.fetch = async (_, { body }) => {
    bodies.push(JSON.parse(body));
    return { json: async () => answers[bodies.length - 1] };
  };
  const check = () => ask("check", "check", { ids: "8" }, CV1_TEXT);
  assert.equal((await check()).kind, "silent");
  const report = await check();
  assert.deepEqual(report, reported("accepted"));
  assert.equal(await check(), report);
  assert.deepEqual(await askLines("save", "table", { ids: "8" }, CV1_TEXT), answers[2]);
  const asked = { command: "check", options: { ids: "8", format: "json" }, text: CV1_TEXT };
  assert.deepEqual(bodies, [asked, asked, { command: "table", options: { ids: "8" }, text: CV1_TEXT }]);
  assert.equal(gone.hidden, true);
  // A newer request of the same purpose replaces one that is open, also where its report is kept.
  globalThis.fetch = (_, { signal }) => new Promise((_unused, reject) => signal.addEventListener("abort", reject));
  const open = ask("check", "check", { ids: "9" }, CV1_TEXT);
  assert.equal(await check(), report);
  assert.equal(await open, undefined);
  const saving = askLines("save", "table", { ids: "9" }, CV1_TEXT);
  drop("save");
  assert.equal(await saving, undefined);
});

test("report: the sentences of a note", () => {
  assert.deepEqual(sentencesOf("nbhd: line 7, column 6: unknown word\n  nbhd: send lift 0\n       ^\nnbhd: more\n"), ["line 7, column 6: unknown word", "more"]);
  assert.deepEqual([sentencesOf(""), sentencesOf(undefined), sentencesOf("Killed\n")], [[], [], []]);
});

test("refusal: a note with a place", () => {
  const index = FAULTY.indexOf("lift");
  const note = "unknown word `lift`";
  const report = fault({ at: index, line: 7, column: 8, note: `nbhd: line 7, column 8: ${note}\n    send lift 0\n         ^\n` });
  const found = refusalOf(report, FAULTY);
  assert.deepEqual(found, { code: "N3", line: "text fault N3", note, at: { row: 7, column: 8, index } });
  assert.equal(reasonOf(report), `text fault N3 – ${note}`);
  assert.deepEqual(refusalOf(fault({ at: index, line: 7, column: 8 }), FAULTY), { ...found, note: "" });
});

test("refusal: a note without a place, and of two lines", () => {
  const first = "the bound of `finish` is 11, which its values need not reach: write `channels 12` or more";
  const bound = { of: "check", code: "C4", bound: 11 };
  const { line, note, at } = refusalOf(fault({ ...bound, note: `nbhd: ${first}\n` }), FAULTY);
  assert.deepEqual([line, note, at], ["check fault C4", first, null]);
  const second = "bounds of r0 after `start` and each round: 8 7";
  assert.equal(refusalOf(fault({ ...bound, note: `nbhd: ${first}\nnbhd: ${second}\n` }), FAULTY).note, `${first} – ${second}`);
});

test("refusal: a place of a program that is not accepted", () => {
  const note = "nbhd: line 5, column 6: `L` and `R` can be read in a round alone\n  r0 = id\n       ^\n";
  assert.equal(refusalOf(fault({ of: "check", code: "C3", line: 5, column: 6, note }), FAULTY).at.index, FAULTY.indexOf("id"));
});

test("refusal: that of a ring, as docs/LANGUAGE.md has it", () => {
  const same = "places 0 and 3 have the same identifier 5; a ring closes by itself";
  assert.deepEqual(refusalOf(reported("fault"), FAULTY), { code: "G4", line: "ring fault G4", note: same, at: null });
  assert.equal(refusalOf(fault({ of: "table", code: "A2", line: 4 }), FAULTY).at, null);
});

test("refusal: bytes are counted, not UTF-16 units", () => {
  const text = "# é🙂\nx 🙂 y";
  const at = (line, column) => refusalOf(fault({ line, column }), text).at;
  assert.deepEqual(at(2, 1), { row: 2, column: 1, index: text.indexOf("x") });
  assert.deepEqual(at(2, 8), { row: 2, column: 8, index: text.indexOf("y") });
  assert.deepEqual([at(2, 99).index, at(9, 1).index], [text.length, text.length]);
});

test("language: pieces are the text, without gaps", () => {
  for (const text of ["", "r0 = add(r0, L) # é🙂\n", FAULTY, "r9 r10 0x5 send_left\t(,"]) {
    const found = pieces(text);
    assert.equal(found.map((piece) => piece.text).join(""), text);
    for (const { text: part, at } of found) assert.equal(text.slice(at, at + part.length), part);
  }
  const kinds = (text) => pieces(text).map(({ text: part, kind }) => [part, kind]).filter(([, kind]) => kind);
  assert.deepEqual(kinds("send left bit(r0, 07) # L"), [
    ["send", "part"], ["left", "part"], ["bit", "operation"], ["r0", "register"], ["07", "number"], ["# L", "comment"],
  ]);
  assert.deepEqual(kinds("R r10 lift"), [["R", "input"], ["r10", "unknown"], ["lift", "unknown"]]);
});

test("language: the head and the rounds of a text", () => {
  assert.equal(headRows(["# a", "", "  # b", "rounds 1"]), 3);
  assert.equal(headRows(["rounds 1"]), 0);
  assert.equal(headRows(["# a", ""]), 0);
  assert.equal(roundsOf("# rounds 3\n  rounds  2\n"), 2);
  assert.equal(roundsOf(""), 0);
});

test("language: the operations are those of docs/LANGUAGE.md", () => {
  const page = readFileSync(new URL("../../docs/LANGUAGE.md", import.meta.url), "utf-8");
  const section = page.slice(page.indexOf("| Operation | Value |")).split("\n\n")[0];
  const rows = section.split("\n").slice(2).map((line) => line.split(" | ").map((part) => part.replace(/^\| | \|$/g, "")));
  assert.deepEqual(OPERATIONS.map(({ forms }) => forms), rows.map(([forms]) => forms.replaceAll("`", "").split(/, (?=\w+\()/)));
  rows.forEach(([, value], number) => {
    const { value: own, examples } = OPERATIONS[number];
    const [, said, example] = value.match(/^(.*?)(?:: `([^`]*)`)?$/);
    assert.equal(own, said);
    if (example) assert.ok(examples.includes(example), example);
  });
});

test("language: each operation has an example with as many operands", () => {
  const shape = (form) => `${form.split("(")[0]}/${form.split(",").length}`;
  for (const { forms, examples } of OPERATIONS) assert.deepEqual(examples.map(shape), forms.map(shape));
});

test("ring: a text of a ring", () => {
  assert.equal(withCommas(" 5 ,1\t3  7 ,"), "5,1,3,7");
  assert.deepEqual(readRing("5,1,3,7"), [5, 1, 3, 7]);
  assert.equal(readRing("5,x"), null);
  assert.equal(readRing(""), null);
  assert.equal(whyNoRing("5,1"), null);
  assert.equal(whyNoRing(""), "Write a ring, or take a random one.");
  assert.match(whyNoRing("5,-1"), /^`-1` is no identifier/);
});

test("numbers: an emptied field", () => {
  assert.equal(whyNoNumber("ids", "8"), null);
  for (const text of ["", "x", "-1", "1.5"]) assert.match(whyNoNumber("far", text), /^A number is wanted: /);
  assert.deepEqual([0, 5, 99].map((number) => clamp(number, 4, 8)), [4, 5, 8]);
});

test("table: windows, channels and edges", () => {
  const table = tableOf(TABLE);
  assert.deepEqual(table, { ids: 3, windows: [[0], [1], [2]], channels: [0, 1, 0] });
  assert.deepEqual(countChannels(table.channels), [[0, 2], [1, 1]]);
  assert.deepEqual(edgesOf(table), [[0, 1], [0, 2], [1, 0], [1, 2], [2, 0], [2, 1]]);
  assert.deepEqual(tableOf(reported("table")), { ids: 2, windows: [[0], [1]], channels: [0, 1] });
});

test("table: windows are all lists of distinct identifiers, in lexicographic order", () => {
  assert.deepEqual(windowsOf(3, 3), [[0, 1, 2], [0, 2, 1], [1, 0, 2], [1, 2, 0], [2, 0, 1], [2, 1, 0]]);
  assert.deepEqual(windowsOf(2, 3), []);
  for (const [ids, length] of [[12, 1], [11, 3], [7, 5]]) {
    // The numbers of so many digits to the base `ids`, without those that have a digit twice.
    const all = Array.from({ length: ids ** length }, (_, number) =>
      Array.from({ length }, (_unused, i) => Math.floor(number / ids ** (length - 1 - i)) % ids));
    assert.deepEqual(windowsOf(ids, length), all.filter((window) => new Set(window).size === length));
  }
});

test("table: how many edges lead from channel to channel", () => {
  // Short blocks of windows and long ones, and channels that are left out.
  const sizes = [[3, 0, 3, 9], [9, 0, 2, 9], [5, 1, 7, 9], [7, 1, 3, 9], [6, 2, 4, 9], [8, 1, 9, 4], [3, 1, 2, 9]];
  for (const [ids, rounds, channels, most] of sizes) {
    const entries = windowsOf(ids, 2 * rounds + 1).map((window, i) => (7 * i + window[0]) % channels + 1);
    const { names, counts } = edgeCounts({ ids, rounds, entries }, most);
    assert.deepEqual(names, countChannels(entries).map(([channel]) => channel).slice(0, most));
    const edges = ids > 2 * rounds + 1 ? edgesOf(tableOf({ ids, rounds, entries })) : [];
    const count = (a, b) => edges.filter(([from, to]) => entries[from] === a && entries[to] === b).length;
    assert.deepEqual(counts, names.map((a) => names.map((b) => count(a, b))), `${ids} ${rounds}`);
  }
});

test("trace: the steps of a run", () => {
  const steps = stepsOf(reported("trace"));
  assert.deepEqual(steps.map(nameOf), ["start", "1 send", "1 assign", "finish"]);
  assert.deepEqual(steps[0].registers, [[5, 1, 3, 7]]);
  assert.deepEqual([steps[1].left, steps[1].right, steps[1].registers], [[0, 0, 0, 0], [5, 1, 3, 7], [[5, 1, 3, 7]]]);
  assert.deepEqual([steps[2].before, steps[2].registers], [[[5, 1, 3, 7]], [[2, 4, 3, 5]]]);
  assert.deepEqual([steps[3].round, steps[3].channels], [1, [2, 4, 3, 5]]);
  assert.deepEqual(stepsOf({ start: [[1, 2]], rounds: [], finish: [1, 2] }), [
    { kind: "start", round: 0, registers: [[1, 2]] }, { kind: "finish", round: 0, registers: [[1, 2]], channels: [1, 2] },
  ]);
  const round = { left: [0, 0], right: [1, 1], registers: [[2, 2], [3, 3]] };
  const [only] = stepsOf(reported("places"), 1);
  assert.deepEqual([nameOf(only), only.round, only.channels, sentenceOf(only, [5, 1, 3, 7])],
    ["finish", 1, [2, 4, 3, 5], "The table gives each node its channel."]);
  const two = stepsOf({ start: [[1, 2], [0, 0]], rounds: [round, round], finish: [1, 2] });
  assert.deepEqual(two.map(nameOf), ["start", "1 send", "1 assign", "2 send", "2 assign", "finish"]);
  assert.deepEqual([two[3].registers, two[4].before], [round.registers, round.registers]);
});

test("trace: sentences", () => {
  const steps = stepsOf(reported("trace"));
  assert.match(sentenceOf(steps[2], [5, 1, 3, 7]), /the 3 identifiers within distance 1\.$/);
  assert.equal(sentenceOf(steps[3], [5, 1, 3, 7]), "`finish` gives each node its channel.");
  assert.match(equalSentence([2, 4, 3, 5], [5, 1, 3, 7]), /neighbours’ channels differ\.$/);
  assert.deepEqual(equalPairs([1, 1, 2, 1]), [0, 3]);
  assert.equal(equalSentence([1, 1, 2, 1], [5, 1, 3, 7]), "Neighbours 5 and 1 have the same channel; so has 1 other pair.");
});

test("patterns: words, entries and texts", () => {
  assert.deepEqual(wordsOf(" 1,1\n0,0,0\t*  "), ["1,1", "0,0,0", "*"]);
  const read = (word) => readPattern(word);
  assert.deepEqual([read("1,1"), read("0,*,0"), read("1,*,*"), read("*"), read("007"), read("4294967295")],
    [[1, 1], [0, null, 0], [1], [null], [7], [4294967295]]);
  for (const word of ["", "1,,1", "1,", "1,2,3,4", "-1", "+1", "a", "1;1", "1, 1", "4294967296", "99999999999999999999"]) {
    assert.equal(read(word), null, word);
  }
  assert.deepEqual(["1,1", "0,*,0", "1,*,*", "*,*", "007"].map((word) => textOf(read(word))), ["1,1", "0,*,0", "1", "*", "7"]);
  assert.deepEqual(["1", "1,1", "*,1", "*,*,1"].map((word) => spanOf(read(word))), [2, 2, 2, 3]);
  assert.equal(channelsNamed([[0, null, 2], [1]]), 3);
});

test("patterns: where a ring breaks them, going round", () => {
  const places = (words, channels) => brokenPlaces(wordsOf(words).map(readPattern), channels).map(({ place }) => place);
  assert.deepEqual(places("0,0,0 1,1", [0, 1, 0, 1]), []);
  assert.deepEqual(places("0,0,0 1,1", [0, 1, 0, 0]), [2]);
  assert.deepEqual(places("0,0,0 1,1", [0, 1, 0, 0, 0]), [2, 3]);
  assert.deepEqual(places("0,1", [1, 0]), [1]);
  // On a ring of two nodes the third place is the first one.
  assert.deepEqual(places("0,1,0", [0, 1]), [0]);
  assert.deepEqual(places("0,*,0", [0, 1, 2, 0]), []);
  assert.deepEqual(places("0,*,0", [0, 1, 0, 2]), [0, 2]);
});

/** All lists of so many channels below a number. */
const lists = (length, channels) => Array.from({ length: channels ** length }, (_, number) =>
  Array.from({ length }, (_unused, place) => Math.floor(number / channels ** place) % channels));

test("problems: their patterns are those of docs/LANGUAGE.md", () => {
  const page = readFileSync(new URL("../../docs/LANGUAGE.md", import.meta.url), "utf-8");
  const rows = page.slice(page.indexOf("| Problem | Patterns |")).split("\n\n")[0].split("\n").slice(2);
  const found = rows.map((row) => row.split(" | ").map((cell) => [...cell.matchAll(/`([^`]*)`/g)].map(([, code]) => code)));
  assert.deepEqual(Object.entries(PROBLEMS).map(([name, { patterns }]) => [[name], patterns]), found.map(([name, patterns]) => [name, patterns]));
});

test("problems: no pattern matches exactly where the definition holds", () => {
  const definitions = {
    mis: (at, n) => (place) => (at(place) === 1 ? at(place + 1) !== 1 : at(place + n - 1) === 1 || at(place + 1) === 1),
    // A partner has the other channel, and of two neighbours one has a partner.
    matching: (at, n) => (place) => ({
      0: at(place + 1) !== 0 && at(place + n - 1) !== 0, 1: at(place + 1) === 2, 2: at(place + n - 1) === 1,
    })[at(place)],
    weak2: (at, n) => (place) => at(place) !== at(place + 1) || at(place) !== at(place + n - 1),
  };
  for (const [name, { patterns }] of Object.entries(PROBLEMS)) {
    const read = patterns.map(readPattern);
    for (let n = 2; n <= 7; n += 1) {
      for (const channels of lists(n, channelsNamed(read))) {
        const holds = channels.map((_, place) => place).every(definitions[name]((place) => channels[place % n], n));
        assert.equal(brokenPlaces(read, channels).length === 0, holds, `${name} ${channels}`);
      }
    }
  }
});

test("problems: what a comment asks", () => {
  assert.deepEqual(askedBy("# A set.\n# Problem: mis.\nrounds 1"), { problem: "mis", forbid: "" });
  assert.deepEqual(askedBy("# Forbid: 0,0  1,*,1 \nrounds 1"), { problem: "own", forbid: "0,0 1,*,1" });
  for (const text of ["", "# Problem: none", "# The Problem: mis", "# Problem: hasOwnProperty", "# Forbid: \n"]) {
    assert.deepEqual(askedBy(text), { problem: "differ", forbid: "" });
  }
});

test("problems: what is known of fewer rounds", () => {
  const [mis, weak] = ["0,0,0 1,1", "0,0,0 1,1,1"];
  assert.deepEqual([2, 4, 5, 7, 8, 12].map((ids) => knownRounds(mis, ids)), [[-1, 0], [0, 1], [1, undefined], [1, 2], [2, 3], [2, 3]]);
  const said = (...words) => fewerRounds(...words)?.says;
  assert.equal(said(mis, 12, 3), "Fewer rounds? For 12 identifiers there is a table of 3 rounds, and none of 2 rounds.");
  assert.equal(said(mis, 7, 2), "Fewer rounds? For 7 identifiers there is a table of 2 rounds, and none of one round.");
  assert.equal(said(mis, 4, 1), "Fewer rounds? For 4 identifiers there is a table of one round, and none without a round.");
  assert.equal(said(mis, 2, 0), "Fewer rounds? For 2 identifiers there is a table without a round.");
  assert.equal(said(mis, 8, 2), "No program of so few rounds does it: for 8 identifiers there is no table of 2 rounds.");
  assert.equal(said(mis, 8, 0), "No program of so few rounds does it: for 8 identifiers there is no table of 2 rounds.");
  assert.equal(fewerRounds(mis, 12, 3).example, "mis_12.txt");
  assert.equal(fewerRounds(mis, 7, 2).example, undefined);
  assert.equal(said(weak, 13, 2), "Fewer rounds? For 13 identifiers there is a table of 2 rounds, and none of one round.");
  assert.equal(fewerRounds(weak, 13, 2).example, "weak2_23.txt");
  assert.equal(said(mis, 13, 2), "No program of so few rounds does it: for 13 identifiers there is no table of 2 rounds.");
  assert.equal(said("0,0 1,1", 9, 4), "Fewer rounds? For 9 identifiers there is none of 3 rounds; more is not known.");
  const three = "0,0,0 1,1,1 2,2,2";
  assert.equal(said(three, 20, 2), "Fewer rounds? For 20 identifiers there is a table of one round, and none without a round.");
  assert.equal(said("1,1", 8, 2), undefined);
  assert.equal(said("1,1 0,0,0", 12, 3), said(mis, 12, 3));
});

test("classes: those of the literature", () => {
  const found = (words, channels) => classOf(wordsOf(words).map(readPattern), channels)?.kind;
  for (const { patterns } of Object.values(PROBLEMS)) assert.equal(found(patterns.join(" "), channelsNamed(patterns.map(readPattern))), "log*");
  assert.deepEqual([found("0,0 1,1 2,2", 3), found("0,0 1,1", 2), found("1,1", 2), found("*", 2)], ["log*", "global", "constant", "unsolvable"]);
  // Channels that differ at distance two also: with three of them on rings of lengths that three divides, with four on all that are long.
  const distant = (count) => Array.from({ length: count }, (_, c) => `${c},${c} ${c},*,${c}`).join(" ");
  assert.deepEqual([found(distant(3), 3), found(distant(4), 4)], ["global", "log*"]);
  assert.deepEqual([found("0,0", 16), found("0,0", 17)], ["constant", undefined]);
  assert.deepEqual(classOf([[0]], 2), { kind: "constant", channel: 1 });
  assert.match(classSentence([[1, 1]]), /^On every ring all nodes may have channel 0,/);
});

test("classes: those of docs/LEAST.md", () => {
  const page = readFileSync(new URL("../../docs/LEAST.md", import.meta.url), "utf-8");
  const [head, , ...rows] = page.slice(page.indexOf("| Problem | Patterns |")).split("\n\n")[0].split("\n").map((row) => row.split(" | "));
  const at = head.findIndex((cell) => cell.startsWith("Long rings"));
  assert.ok(at > 0 && rows.length > 5);
  for (const row of rows) {
    const patterns = [...row[1].matchAll(/`([^`]*)`/g)].map(([, word]) => readPattern(word));
    assert.equal(classOf(patterns, channelsNamed(patterns)).kind, row[at].replace(/[ |]*$/, ""), row[0]);
  }
});

test("classes: all problems of two channels, by the rings that have a solution", () => {
  const rows = lists(3, 2);
  for (let chosen = 0; chosen < 2 ** rows.length; chosen += 1) {
    const patterns = rows.filter((_, i) => (chosen >> i) & 1);
    const has = (n) => lists(n, 2).some((channels) => brokenPlaces(patterns, channels).length === 0);
    const is = (...row) => patterns.some((pattern) => pattern.join() === row.join());
    // All rings of 6 nodes and more have one if long ones do: the automaton has four states.
    const solved = Array.from({ length: 8 }, (_, i) => has(i + 2));
    const wanted = !is(0, 0, 0) || !is(1, 1, 1) ? "constant" : solved.slice(4).every(Boolean) ? "log*" : solved.some(Boolean) ? "global" : "unsolvable";
    assert.equal(classOf(patterns, 2).kind, wanted, patterns.join(" "));
  }
});

test("demand: what the state asks", () => {
  const state = { problem: "differ", near: "3", far: "2", forbid: " 1,1\n0,*,0 " };
  assert.deepEqual(demandOf(state), { near: 1, far: 0, options: { near: "1", far: "0" } });
  assert.deepEqual(demandOf({ ...state, problem: "distance" }), { near: 3, far: 2, options: { near: "3", far: "2" } });
  assert.match(demandOf({ ...state, problem: "distance", far: "" }).why, /^A number is wanted/);
  assert.deepEqual(demandOf({ ...state, problem: "mis" }), { name: "mis", patterns: [[0, 0, 0], [1, 1]], options: { problem: "mis" } });
  assert.deepEqual(demandOf({ ...state, problem: "own" }), { patterns: [[1, 1], [0, null, 0]], options: { forbid: ["1,1", "0,*,0"] } });
  // A table has its own distances.
  const table = { near: 2, far: 1 };
  assert.deepEqual(demandOf(state, table), { near: 2, far: 1, options: {} });
  assert.deepEqual(demandOf({ ...state, problem: "mis" }, table).options, { problem: "mis" });
  const refused = demandOf({ ...state, problem: "own", forbid: "1,,1" });
  assert.deepEqual(refused, { patterns: null, options: { forbid: ["1,,1"] } });
  assert.match(demandOf({ ...state, problem: "own", forbid: " " }).why, /^Write patterns/);
  for (const odd of ["1,1\u200b", "1,é", "\u00001", "\ud800"]) {
    assert.match(demandOf({ ...state, problem: "own", forbid: `0,0 ${odd}` }).why, / is no pattern: /);
  }
  assert.match(demandOf({ ...state, problem: "own", forbid: "1,1 ".repeat(2000) }).why, /more than 7000 characters/);
});

test("demand: sentences on one ring", () => {
  const said = (problem, channels, forbid = "") =>
    sentenceOn(demandOf({ problem, near: "1", far: "0", forbid }), channels, ["a", "b", "c", "d"].slice(0, channels.length), channels.map(String));
  assert.equal(said("mis", [1, 0, 1, 0]), "On this ring the nodes with channel 1 are a maximal independent set.");
  // Channels that the problem does not have make no set.
  assert.equal(said("mis", [2, 2, 2, 2]), "On this ring no channels in a row match a forbidden pattern, 0,0,0 1,1.");
  assert.equal(said("mis", [0, 0, 0, 1]), "Node b is not in the set, and neither is a neighbour.");
  assert.equal(said("mis", [1, 1, 1, 0]), "Node a is in the set, and so is its right neighbour; another place is wrong too.");
  assert.equal(said("own", [0, 0, 1, 0], "0,0 0,1,0"), "The pattern 0,0 is forbidden: node a and its right neighbour have channel 0; 2 other places are wrong too.");
  assert.equal(said("own", [0, 2, 1], "*,2,1"), "The pattern *,2,1 is forbidden: node b has channel 2, its left neighbour 0 and its right neighbour 1.");
  assert.equal(said("own", [0, 1], "0"), "The pattern 0 is forbidden: node a has channel 0, and its right neighbour 1.");
  assert.equal(said("own", [0, 1], "0,,"), "The list of forbidden patterns is refused; Judge says why.");
  assert.equal(said("differ", [0, 1, 1]), "Neighbours b and c have the same channel.");
});

test("look: what is red, and what a problem looks like", () => {
  const look = (problem, channels, forbid) => lookOf(demandOf({ problem, near: "1", far: "0", forbid }), channels);
  assert.deepEqual(look("differ", [0, 0, 1]), { nodes: [[], [], []], links: [["equal"], [], []] });
  const set = look("mis", [1, 0, 0, 0, 2]);
  assert.deepEqual(set.nodes, [[], ["broken", "outside"], ["broken", "outside"], ["broken", "outside"], []]);
  assert.deepEqual(set.links, [[], ["broken"], ["broken"], [], []]);
  assert.deepEqual(look("matching", [2, 0, 1]).links, [[], [], ["pair"]]);
  assert.deepEqual(look("own", [0, 0], "1,,1").links, [[], []]);
});

test("paths: those of windows whose channels are wrong", () => {
  const table = tableOf(TABLE);
  const edges = edgesOf(table);
  const found = (problem, forbid) => wrongPaths(table, edges, demandOf({ problem, near: "1", far: "0", forbid }));
  assert.deepEqual(found("differ"), [[0, 2], [2, 0]]);
  // The windows are 0, 1 and 2 with the channels 0, 1 and 0, and any two different ones follow one another.
  assert.deepEqual(found("own", "1,0 0,0,0"), [[1, 0], [1, 2], [0, 2, 0], [2, 0, 2]]);
  assert.deepEqual(found("own", "1,*,1"), [[1, 0, 1], [1, 2, 1]]);
});

test("least: what is known of fewer channels", () => {
  const said = (...words) => fewerChannels(...words)?.says;
  assert.equal(said(1, 8, 1, 0, 6), "Fewer channels? There is a table with 4 channels, and with 3 channels there is none.");
  assert.equal(fewerChannels(1, 8, 1, 0, 6).example, "sperner_20_4.txt");
  assert.equal(fewerChannels(1, 22, 1, 0, 6).example, undefined);
  assert.equal(said(1, 8, 1, 0, 4), "Fewer channels? No: with 3 channels there is none.");
  assert.equal(said(1, 8, 1, 0, 3), "No program does it with so few: with 3 channels there is no table.");
  assert.equal(said(4, 10, 1, 0, 3), undefined);
});

test("least: the rule without a round, for every number of identifiers", () => {
  assert.deepEqual([knownChannels(0, 2, 1, 0), knownChannels(0, 2, 2, 1)], [[1, 2], undefined]);
  assert.deepEqual([knownChannels(0, 1024, 1, 0), knownChannels(0, 8, 1, 1), knownChannels(0, 9, 2, 1)], [[1023, 1024], [7, 8], [16, 17]]);
});

test("numerals: decimal, and binary as wide as the widest", () => {
  assert.deepEqual(numerals([5, 0, 10], "10"), ["5", "0", "10"]);
  assert.deepEqual(numerals([5, 0, 10], "2"), ["0101", "0000", "1010"]);
  assert.deepEqual(numerals([0], "2"), ["0"]);
  assert.deepEqual(numerals([0, 9], "10", widthOf([7])), ["0", "9"]);
  assert.deepEqual(numerals([0], "2", widthOf([5, 7])), ["000"]);
  assert.deepEqual(numerals([4294967295], "2"), ["1".repeat(32)]);
});

/** An explanation of these trees, each its round, what it gives and its parts, as lines with a blank for each part above. */
const explained = (...trees) => ({
  kind: "explanation", place: 0,
  trees: trees.map(([round, gives, ...lines]) => ({
    round, gives,
    parts: lines.map((line) => {
      const [word, value] = line.trim().split(" ");
      return { depth: line.search(/\S/), word, value: Number(value), taken: !line.endsWith("(not taken)") };
    }),
  })),
});

test("trees: the trees of an explanation, and those of a step", () => {
  const trees = treesOf(explained([0, "r0", "id 5"], [1, "left", "0 0"], [1, "right", "r0 5"], [1, "r0", "add 2", " L 1", " 1 1"],
    [1, "finish", "r0 2"]), []);
  assert.deepEqual(trees.map(({ head, parts }) => [head, parts.length]), [
    ["start r0", 1], ["round 1 left", 1], ["round 1 right", 1], ["round 1 r0", 3], ["finish", 1],
  ]);
  assert.deepEqual(trees[3].parts[1], { depth: 1, word: "L", value: 1, taken: true, number: 4, end: 5 });
  const heads = (kind, round) => treesIn(trees, { kind, round }).map(({ head }) => head);
  assert.deepEqual([heads("start", 0), heads("send", 1), heads("assign", 1), heads("finish", 1)], [
    ["start r0"], ["round 1 left", "round 1 right"], ["round 1 r0"], ["finish", "round 1 r0"],
  ]);
  assert.deepEqual(heads("assign", 2), []);
  // Without a round the finish has the round of the start.
  const found = treesOf(reported("explanation"), []);
  const headsOf = (kind) => treesIn(found, { kind, round: 0 }).map(({ head }) => head);
  assert.deepEqual(["start", "finish"].map(headsOf), [["start r0"], ["finish", "start r0"]]);
});

test("trees: the branch of an if that is taken, and the other one, which is one part", () => {
  const text = "rounds 0 channels 9 registers 1 start r0 = if(eq(id, 3), if(0, 5, 1), if(id, add(id, 4), not(2))) finish r0";
  const words = partTokens(text);
  const start = ["if 5", " eq 0", "  id 1", "  3 3", " if 1 (not taken)", " if 5", "  id 1", "  add 5", "   id 1", "   4 4"];
  const [{ parts }, last] = treesOf(explained([0, "r0", ...start, "  not 4294967293 (not taken)"], [0, "finish", "r0 5"]), words);
  assert.deepEqual(branchesOf(parts), ["", "", "", "", "other", "taken", "", "taken", "", "", "other"]);
  assert.deepEqual(parts.map(({ number }) => number), [0, 1, 2, 3, 4, 8, 9, 10, 11, 12, 13]);
  assert.deepEqual(parts.filter(({ taken }) => !taken).map(({ end }) => end), [8, 15]);
  assert.equal(last.parts[0].number, 15);
  for (const { number, word } of [...parts, ...last.parts]) {
    const { at, length } = words[number];
    assert.equal(text.slice(at, at + length), word);
  }
});

test("trees: what the last assignment reads", () => {
  const last = (...lines) => lastRead(treesOf(explained([0, "r0", "id 5"], [1, "left", "0 0"], [1, "right", "r0 5"],
    [1, "r0", "if 7", " lt 1", "  L 3", "  r0 5", " add 7", "  L 3", "  4 4", " R 9 (not taken)"],
    [1, "finish", ...lines]), []));
  assert.deepEqual(last("r0 7"), { head: "round 1 r0", read: [["L", 3], ["r0", 5]] });
  assert.deepEqual(last("min 6", " r0 7", " 6 6"), { head: "finish", read: [["r0", 7]] });
  assert.deepEqual(last("0 0"), { head: "finish", read: [] });
});

test("trees: where a value comes from", () => {
  const found = (kind, round, word) => sourceOf({ kind, round }, word);
  assert.deepEqual(found("finish", 0, "r1"), { kind: "start", round: 0, head: "start r1", further: 0 });
  assert.deepEqual(found("finish", 2, "r1"), { kind: "assign", round: 2, head: "round 2 r1", further: 0 });
  assert.deepEqual(found("send", 2, "r0"), { kind: "assign", round: 1, head: "round 1 r0", further: 0 });
  assert.deepEqual(found("assign", 2, "L"), { kind: "send", round: 2, head: "round 2 right", further: -1 });
  assert.deepEqual(found("assign", 2, "R"), { kind: "send", round: 2, head: "round 2 left", further: 1 });
  for (const word of ["id", "3", "add"]) assert.equal(found("assign", 1, word), null);
});

test("language: the rows that a step does", () => {
  const text = "rounds 2 # start\nchannels 6\nregisters 2\nstart\nr0 = id\nr1 = 0\nround\nsend left 0\nsend right r0\nr0 = L\nr1 = add(\n"
    + "R,\n1)\nround send left r1 send right 0 r0 = 0 r1 = 1 # finish\nfinish r0\n";
  const found = (kind, round) => rowsOfStep(text, { kind, round });
  assert.deepEqual([found("start", 0), found("send", 1), found("assign", 1)], [[4, 5], [7, 8], [9, 12]]);
  assert.deepEqual([found("send", 2), found("assign", 2), found("finish", 2)], [[13, 13], [13, 13], [14, 14]]);
  assert.equal(found("send", 3), null);
});

test("language: the words of expressions, as the trees have them", () => {
  const text = "rounds 1 # r0 = L\nchannels 6 registers 1\nstart r0=id round send left 0 send right r0\nr0 = add(L, 1) finish r0";
  const tokens = partTokens(text);
  assert.deepEqual(tokens.map(({ at, length }) => text.slice(at, at + length)), ["id", "0", "r0", "add", "L", "1", "r0"]);
  assert.deepEqual(tokens.map(({ size }) => size), [1, 1, 1, 3, 1, 1, 1]);
});
