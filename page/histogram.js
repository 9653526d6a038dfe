// The histogram of a table as a drawing, to be saved: the page itself shows it as a list.

import { badge, colourOf } from "./channels.js";
import { svg } from "./dom.js";

const [ROW, LEFT, LONGEST] = [28, 36, 320];

/** A bar for each channel, with the number of its windows and their share of all of them. `counts` are pairs of a channel and a number. */
export function drawHistogram(counts, total) {
  const [width, height] = [LEFT + LONGEST + 170, ROW * counts.length + 8];
  const label = `How many of ${total.toLocaleString("en")} windows have each channel`;
  const image = svg("svg", { class: "bars", viewBox: `0 0 ${width} ${height}`, width, height, "aria-label": label });
  const most = Math.max(...counts.map(([, count]) => count));
  counts.forEach(([channel, count], i) => {
    const y = ROW * (i + 0.5) + 4;
    const text = (x, words, kind) => svg("text", { x, y, class: kind }, words);
    image.append(badge(channel, 18, y, 10),
      svg("rect", { x: LEFT, y: y - 7, width: (LONGEST * count) / most, height: 14, rx: 3, fill: colourOf(channel) }),
      text(LEFT + LONGEST + 95, count.toLocaleString("en"), "count"), text(width - 6, `${((100 * count) / total).toFixed(1)} %`, "share"));
  });
  return image;
}
