// Dragging of nodes: along the ring, out of it, and from the tray into it.

import { drawNode, moveNode } from "./ring.js";

const NEAR = 64; // the distance from the circle up to which a node is in the ring
const FIRST_MOVE = 5; // the pixels from which on a press is a drag

/** Lets nodes be dragged, which calls `edit` with the new ring; a node that is pressed and not dragged is chosen. */
export function allowDragging(drawing, ring, edit, choose) {
  drawing.nodes.forEach((node, place) => {
    node.addEventListener("pointerdown", (event) => {
      if (event.button !== 0) return;
      follow(event, drawing, ring, place, node, edit, choose);
    });
    // Else a finger on a node would scroll the page, which ends the drag. No focus comes by itself then.
    node.addEventListener("touchstart", (event) => {
      event.preventDefault();
      node.focus({ preventScroll: true });
    }, { passive: false });
  });
}

/** Lets an unused identifier follow the pointer into the ring. */
export function dragIn(down, drawing, ring, identifier, edit) {
  const ghost = drawNode(drawing.size, 0, String(identifier));
  ghost.style.visibility = "hidden"; // until the first move
  drawing.layers.nodes.append(ghost);
  follow(down, drawing, [...ring, identifier], ring.length, ghost, edit);
}

function follow(down, drawing, ring, place, node, edit, choose) {
  const { image, size, layers, nodes } = drawing;
  const others = nodes.filter((other) => other !== node);
  const rest = ring.toSpliced(place, 1);
  let slot = place;
  let dragging = false;

  const move = (event) => {
    if (!dragging && Math.hypot(event.clientX - down.clientX, event.clientY - down.clientY) < FIRST_MOVE) return;
    if (!dragging) {
      dragging = true;
      image.classList.add("dragging");
      node.classList.add("held");
      node.style.visibility = "";
      layers.over.replaceChildren();
      layers.nodes.append(node);
    }
    const at = new DOMPoint(event.clientX, event.clientY).matrixTransform(image.getScreenCTM().inverse());
    const inside = Math.abs(Math.hypot(at.x, at.y) - size.radius) <= NEAR;
    const turn = (Math.atan2(at.x, -at.y) / (2 * Math.PI) + 1) % 1;
    slot = inside ? Math.round(turn * ring.length) % ring.length : null;
    node.classList.toggle("leaving", !inside);
    moveNode(node, size, 0, [at.x, at.y]);
    // The other nodes make room, or close the gap.
    others.forEach((other, i) => {
      const to = slot === null ? i / rest.length : (i >= slot ? i + 1 : i) / ring.length;
      moveNode(other, size, to);
    });
  };
  const stop = (event) => {
    removeEventListener("pointermove", move);
    removeEventListener("pointerup", stop);
    removeEventListener("pointercancel", stop);
    if (!dragging) {
      if (!nodes.includes(node)) node.remove();
      else if (event.type === "pointerup") choose(place);
      return;
    }
    image.classList.remove("dragging");
    if (event.type === "pointercancel") edit(nodes.map((_, i) => ring[i]));
    else edit(slot === null ? rest : rest.toSpliced(slot, 0, ring[place]));
  };
  addEventListener("pointermove", move);
  addEventListener("pointerup", stop);
  addEventListener("pointercancel", stop);
}
