// The messages of a round, moving along the arrows: to the right outside the ring, to the left inside.

import { pillWidth, PILL } from "./ring.js";
import { arrowhead, point, svg } from "./dom.js";

const MOVE_MS = 900;

/** Draws the messages of a round. When `moving`, they go half the way in the step that sends and the rest in the one that assigns. */
export function drawMessages({ layers, size, nodes }, step, { moving, show }) {
  const calm = matchMedia("(prefers-reduced-motion: reduce)").matches;
  const [from, to] = step.kind === "send" ? [0.08, 0.5] : [0.5, 0.95];
  const messages = [];
  const [left, right] = [show(step.left), show(step.right)];
  for (let place = 0; place < size.n; place += 1) {
    messages.push(drawMessage(size, place, right[place], 1), drawMessage(size, place, left[place], -1));
  }
  layers.over.replaceChildren(...messages.map(({ group }) => group));
  const put = (part, fade) => messages.forEach((message) => message.put(part, fade));
  if (!moving || calm) {
    if (step.kind === "send") put(0.5, 1);
    else layers.over.replaceChildren();
    return;
  }
  let begin;
  const frame = (now) => {
    begin ??= now;
    const time = Math.min((now - begin) / MOVE_MS, 1);
    const eased = time < 0.5 ? 2 * time * time : 1 - 2 * (1 - time) * (1 - time);
    put(from + (to - from) * eased, step.kind === "send" ? 1 : 1 - eased ** 4);
    if (time < 1 && layers.over.isConnected) requestAnimationFrame(frame);
    else if (step.kind === "assign") layers.over.replaceChildren();
  };
  put(from, 1);
  requestAnimationFrame(frame);
}

/** Whether a message is a dot, as there is no room for its text. */
export const isDot = ({ n, free }, text) => pillWidth(text.length) + 12 > free + (n <= 6 ? 30 : 14);

/** A message that leaves `place` to the right (way 1) or to the left (way -1). */
function drawMessage(size, place, text, way) {
  const width = pillWidth(text.length);
  const fits = !isDot(size, text);
  const group = svg("g", { class: way > 0 ? "message right" : "message left" });
  if (fits) {
    group.append(svg("rect", { x: -width / 2, y: -PILL / 2, width, height: PILL, rx: PILL / 2 }), svg("text", {}, text));
  } else {
    group.append(svg("circle", { r: Math.min(4, size.free / 2.5) }));
  }
  const tip = fits ? arrowhead(0, 0, 7, way) : null;
  if (tip) group.append(tip);
  group.append(svg("title", {}, `${text}, sent to the ${way > 0 ? "right" : "left"}`));
  const put = (part, fade) => {
    const turn = (place + way * part) / size.n;
    // Far enough from the circle for the pill's size in that direction, so that left and right messages never overlap.
    const [rx] = point(turn, 1);
    const off = fits ? PILL / 2 + 8 + ((width - PILL) / 2) * Math.abs(rx) : Math.min(9, size.node);
    const [x, y] = point(turn, size.radius + way * off);
    group.setAttribute("transform", `translate(${x.toFixed(2)} ${y.toFixed(2)})`);
    group.setAttribute("opacity", fade);
    if (tip) {
      // The tip is where the line of the movement leaves the pill.
      const [ux, uy] = point(turn + way / 4, 1);
      const far = edgeOfPill(width, ux, uy) + 6.5;
      const degrees = turn * 360 + (way > 0 ? 0 : 180);
      tip.setAttribute("transform", `translate(${(ux * far).toFixed(2)} ${(uy * far).toFixed(2)}) rotate(${degrees.toFixed(2)})`);
    }
  };
  return { group, put };
}

/** The distance of a pill's edge from its centre in the direction of a unit vector. */
function edgeOfPill(width, ux, uy) {
  const [round, straight] = [PILL / 2, (width - PILL) / 2];
  const [x, y] = [Math.abs(ux), Math.abs(uy)];
  if (x * round <= straight * y) return round / y;
  return straight * x + Math.sqrt(Math.max(round ** 2 - (straight * y) ** 2, 0));
}
