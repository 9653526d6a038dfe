// The paths of a neighbourhood graph whose channels are wrong.

import { matches, spanOf } from "./patterns.js";

/**
 * The paths of windows, by their numbers, whose channels are closer than `near`, or match one of the `patterns`: of as many windows as the
 * pattern names. A path is named once.
 */
export function wrongPaths({ channels }, edges, { near, patterns }) {
  if (!patterns) return edges.filter(([a, b]) => Math.abs(channels[a] - channels[b]) < near);
  const after = new Map();
  for (const [a, b] of edges) after.set(a, [...(after.get(a) ?? []), b]);
  const isWrong = (path) => patterns.some((pattern) => spanOf(pattern) === path.length && matches(pattern, path.map((i) => channels[i])));
  const longer = edges.flatMap(([a, b]) => (after.get(b) ?? []).map((c) => [a, b, c]));
  return [...edges, ...longer].filter(isWrong);
}
