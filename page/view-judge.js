// Judge: yes, or a ring with the two or three nodes whose channels are wrong, and their windows.

import { ask, drop } from "./ask.js";
import { askRun, askVerdict } from "./source.js";
import { markPatterns, showChoice, startChoice } from "./choice.js";
import { asked, classSentence, demandOf, patternsText } from "./demand.js";
import { byId, coded, html } from "./dom.js";
import { drawNo } from "./drawings.js";
import { change, exampleOf, state } from "./state.js";
import { badgeImage } from "./channels.js";
import { fewerChannels } from "./least.js";
import { reasonOf } from "./faults.js";
import { channelsNamed, spanOf } from "./patterns.js";
import { fewerRounds } from "./problems.js";
import { sentencesOf } from "./report.js";
import { lastRead, treesOf } from "./trees.js";
import { drawTuple, WINDOWS } from "./tuple.js";

const verdict = byId("verdict");
const witness = byId("witness");
const reading = byId("reading");

export async function updateJudge(checked) {
  const demand = demandOf(state, checked.accepted);
  showChoice();
  markPatterns(demand.patterns === null && state.forbid !== "");
  drop("judge");
  for (const purpose of ["witness", "witness 0", "witness 1", "witness 2"]) drop(purpose);
  if (checked.refusal) return showNothing(checked.refusal);
  if (demand.why) return showNothing(demand.why);
  const { ids, text } = state;
  const slow = setTimeout(() => showNothing("nbhd judges all tuples…", "waiting"), 400);
  const report = await askVerdict("judge", demand.options);
  clearTimeout(slow);
  if (report === undefined) return undefined;
  if (report.kind === "yes") return showYes(report, checked.accepted, demand);
  if (report.kind !== "no") return showNothing(reasonOf(report) + (report.kind === "stopped" ? ". Take fewer identifiers." : ""));
  const ring = report.ring.join(",");
  const run = await askRun("witness", ring);
  const places = [...new Set(report.places)];
  const whys = await Promise.all(places.map((place, i) =>
    (state.table ? {} : ask(`witness ${i}`, "explain", { ids, ring, place: String(place) }, text))));
  // Without a trace the ring is shown without its channels.
  return run && whys.every(Boolean) && showNo(report, checked.accepted, demand, run.finish ?? run.channels, whys);
}

function showNothing(why, kind = "refused") {
  verdict.className = "verdict";
  verdict.replaceChildren(html("p", { class: kind }, coded(why)));
  witness.replaceChildren();
  reading.replaceChildren();
}

/** The channels that a program may have: never those above its bound. */
const mostChannels = ({ channels, bound }) => Math.min(channels, bound + 1);

const link = (href, words) => html("a", { href, target: "_blank" }, words);

/** What is known of fewer channels, or for a problem of fewer rounds, and how many rounds it takes on rings of all lengths. */
function fewer(accepted, { near, far, name, patterns }) {
  const most = mostChannels(accepted);
  const aside = (kind, ...parts) => [html("p", { class: `aside ${kind}` }, ...parts)];
  if (patterns && most > channelsNamed(patterns)) {
    return aside("more", `The program may have channels above ${channelsNamed(patterns) - 1}, which no pattern names.`);
  }
  const { ids, rounds } = accepted;
  const known = patterns ? fewerRounds(patternsText(patterns), ids, rounds) : fewerChannels(rounds, ids, near, far, most);
  const source = link(patterns ? "docs/LEAST.html#what-is-known-of-rounds" : "docs/LEAST.html#what-is-known-of-channels", "What is known");
  const isOther = known?.example && known.example !== exampleOf(state.text)?.name;
  // The example may ask something else.
  const own = name ? `&problem=${name}` : `&problem=own&forbid=${patternsText(patterns ?? []).replaceAll(" ", "+")}`;
  const question = patterns ? own : "";
  const example = isOther ? [" ", link(`#view=judge&ids=${ids}${question}&example=${known.example}`, known.example)] : null;
  const kind = patterns && classSentence(patterns);
  return [...(known ? aside("fewer", known.says, example, " ", source) : []), ...(kind ? aside("kind", coded(kind)) : [])];
}

/** Whether a pattern asks something of the third place. */
const isLong = ({ patterns }) => patterns?.some((pattern) => spanOf(pattern) === 3) ?? false;

function showYes({ tuples, note }, accepted, demand) {
  const { ids, rounds } = accepted;
  // Where distance two counts, the least rings have one identifier more.
  const least = 2 * rounds + (demand.far > 0 ? 3 : 2);
  const rings = `On every ring of ${least < ids ? `${least} to ` : ""}${ids} distinct identifiers below ${ids}`;
  verdict.className = "verdict yes";
  verdict.replaceChildren(
    html("p", { class: "word" }, "Yes"),
    html("p", {}, least > ids ? `No ring has ${least} distinct identifiers below ${ids}.`
      : `${rings}, ${asked(demand, mostChannels(accepted))}.`),
    html("p", { class: "aside" }, `${tuples.toLocaleString("en")} tuples were looked at.`),
    ...notes(demand.patterns ? sentencesOf(note) : []),
    ...fewer(accepted, demand),
  );
  showTuple(rounds, demand);
}

/** The picture of a tuple, and what it is. */
function showTuple(rounds, demand) {
  const [further, nodes, again, each] = isLong(demand)
    ? [[0, 1, 2], "three nodes in a row", ", of which the last may be the first again,", "three"]
    : demand.far > 0 ? [[0, 2], "two nodes at distance two", "", "pair"] : [[0, 1], "two neighbours", "", "pair"];
  const count = 2 * rounds + 1 + further.at(-1);
  witness.replaceChildren(drawTuple(rounds, count, further.map((place) => rounds + place)));
  reading.replaceChildren(html("p", { class: "aside caption" },
    `A tuple: ${count} identifiers in a row${again} hold all that ${nodes} can see after ${inWords(rounds)}. `
    + `Every such ${each} on every such ring is in a tuple.`));
}

/** What nbhd has to say beside a verdict, each a paragraph. */
const notes = (sentences) => sentences.map((sentence) =>
  html("p", { class: "aside" }, coded(`${sentence[0].toUpperCase()}${sentence.slice(1)}.`)));

/** What is wrong on the ring of a no. */
function wrongOn({ ring, places, channels }, wrong, { patterns }) {
  if (patterns) return `On the ring ${ring.join(" ")} ${wrong}.`;
  const apart = (places[1] - places[0] + ring.length) % ring.length === 1 ? "are neighbours" : "are at distance two";
  const isEqual = channels[0] === channels[1];
  const have = isEqual ? `both have channel ${channels[0]}` : `have the channels ${channels[0]} and ${channels[1]}`;
  return `On the ring ${ring.join(" ")} the nodes ${ring[places[0]]} and ${ring[places[1]]} ${apart} and ${have}.`;
}

function showNo(no, accepted, demand, all, whys) {
  const said = sentencesOf(no.note).map((part) => part.replace(`on the ring ${no.ring.join(",")} `, ""));
  const [wrong = "channels match a forbidden pattern", ...others] = said;
  const sentence = wrongOn(no, wrong, demand);
  verdict.className = "verdict no";
  verdict.replaceChildren(
    html("p", { class: "word" }, "No"),
    html("p", {}, coded(sentence)),
    ...notes(demand.patterns ? others : []),
    ...fewer(accepted, demand),
  );

  const drawing = drawNo(no, all, accepted.rounds, demand, sentence);
  witness.replaceChildren(drawing.image);
  showWindows(no, drawing.seen, accepted.rounds, whys);
}

/** The windows of the nodes at these places of a no, and by the explanation of each what its channel comes from. */
function showWindows({ ring, places, channels }, seen, rounds, whys) {
  reading.replaceChildren(
    html("p", { class: "aside" }, rounds === 0 ? "Without a round a node sees itself alone."
      : `After ${inWords(rounds)} each of the ${seen.length === 3 ? "three" : "two"} has seen this and nothing else.`),
    html("table", { class: "seen" },
      seen.flatMap((place, i) => [html("tr", {},
        html("th", { scope: "row" }, html("span", { class: `key ${WINDOWS[i]}` }), `node ${ring[place]}`),
        html("td", { class: "code" }, windowText(ring, place, rounds)),
        html("td", {}, badgeImage(channels[places.indexOf(place)])),
        html("td", {}, html("button", { type: "button", onclick: () => runRing(ring, place) }, "Why?"))),
      html("tr", { class: "reads" }, html("td", { colspan: 4 }, whatIsRead(whys[i])))])),
    html("p", {}, html("button", { type: "button", id: "run-this-ring", onclick: () => runRing(ring) }, "Run this ring")),
  );
}

/** The values that a node's channel comes from: those that its last assignment reads. */
function whatIsRead(why) {
  if (why.kind !== "explanation") return "";
  const { head, read } = lastRead(treesOf(why, []));
  return coded(`\`${head}\` reads ${read.map(([word, value]) => `\`${word}\` = ${value}`).join(", ") || "nothing"}`);
}

const inWords = (rounds) => (rounds === 1 ? "one round" : `${rounds} rounds`);

const runRing = (ring, why = "") =>
  change({ ring: ring.join(","), step: "end", why: String(why), view: "run" }, { keep: true });

/** The identifiers within distance `t` of a place, its own in bold. */
function windowText(ring, place, t) {
  const parts = [];
  for (let d = -t; d <= t; d += 1) {
    const identifier = String(ring[(place + d + ring.length) % ring.length]);
    parts.push(d === 0 ? html("b", {}, identifier) : identifier, d < t ? " " : "");
  }
  return parts;
}

export const startJudge = startChoice;
