// The picture of a tuple, with the windows of the nodes that are compared.

import { svg } from "./dom.js";

export const WINDOWS = ["first", "second", "third"]; // the classes of the windows

/** A tuple of `count` identifiers with the windows of `t` rounds at these places. */
export function drawTuple(t, count, places) {
  const [step, radius, low] = [54, 17, places.length > 2 ? 170 : 128];
  const width = count * step;
  const image = svg("svg", {
    class: "tuple", viewBox: `0 0 ${width} ${low}`, width, height: low, role: "img",
    "aria-label": `A tuple and its ${places.length} windows`,
  });
  const x = (place) => (place + 0.5) * step;
  for (let place = 0; place < count; place += 1) {
    if (place > 0) {
      const tip = x(place) - radius - 3;
      image.append(svg("path", { class: "link-line", d: `M${x(place - 1) + radius + 3} 64H${tip}` }),
        svg("path", { class: "link-tip", d: `M${tip} 64l-7 -4v8Z` }));
    }
    image.append(svg("circle", { cx: x(place), cy: 64, r: radius, class: "disc" }));
    image.append(svg("text", { x: x(place), y: 64, class: "place" }, nameOfPlace(place)));
  }
  places.forEach((own, i) => {
    const y = [34, 94, 136][i];
    const group = svg("g", { class: `window ${WINDOWS[i]}` });
    group.append(svg("path", { class: "window-line", d: `M${x(own - t) - radius} ${y}H${x(own + t) + radius}` }),
      svg("circle", { class: "window-dot", cx: x(own), cy: y, r: 4 }),
      svg("text", { x: x(own), y: y < 64 ? y - 17 : y + 17 }, `what ${nameOfPlace(own)} sees`));
    image.append(group);
  });
  return image;
}

const nameOfPlace = (place) => `x${String(place + 1).replace(/\d/g, (digit) => "₀₁₂₃₄₅₆₇₈₉"[digit])}`;
