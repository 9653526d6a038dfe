// The windows of a table with their channels, from the report of `nbhd table`.

/** A table as `{ ids, windows, channels }`; a window is the list of its identifiers. */
export const tableOf = ({ ids, rounds, entries }) => ({ ids, windows: windowsOf(ids, 2 * rounds + 1), channels: entries });

/** All lists of so many distinct identifiers below `ids`, in lexicographic order. */
export function windowsOf(ids, length) {
  const identifiers = Array.from({ length: ids }, (_, i) => i);
  let windows = [[]];
  for (let i = 0; i < length; i += 1) {
    windows = windows.flatMap((window) => identifiers.filter((next) => !window.includes(next)).map((next) => [...window, next]));
  }
  return windows;
}

/** The channels that occur, ascending, each with the number of its windows. */
export function countChannels(channels) {
  const counts = new Map();
  for (const channel of channels) counts.set(channel, (counts.get(channel) ?? 0) + 1);
  return [...counts].sort(([a], [b]) => a - b);
}

/**
 * How many edges of the neighbourhood graph lead from windows with one channel to windows with another:
 * `counts[i][j]` for the channels `names[i]` and `names[j]`, the least ones that occur, at most so many.
 */
export function edgeCounts({ ids, rounds, entries }, most) {
  const names = countChannels(entries).slice(0, most).map(([channel]) => channel);
  const numbers = new Map(names.map((channel, i) => [channel, i]));
  const classes = Int16Array.from(entries, (channel) => numbers.get(channel) ?? -1);
  // Windows whose last 2t identifiers are the same are followed by the windows that begin with these, a block of the
  // table, but for one of them. Of long blocks the channels are counted once.
  const block = ids - 2 * rounds;
  const sums = block > names.length ? blockSums(classes, block, names.length) : null;
  const counts = names.map(() => names.map(() => 0));
  const add = (row, to, count) => to >= 0 && (row[to] += count);
  eachWindow(ids, 2 * rounds + 1, ([first, ...rest], number) => {
    const row = counts[classes[number]];
    if (!row) return;
    const start = rankOf(rest, ids);
    const skipped = start * block + first - rest.filter((other) => other < first).length;
    if (sums) for (let i = 0; i < row.length; i += 1) row[i] += sums[start * row.length + i];
    else for (let i = start * block; i < (start + 1) * block; i += 1) add(row, classes[i], 1);
    add(row, classes[skipped], -1);
  });
  return { names, counts };
}

/** How often each of so many classes occurs in each block. */
function blockSums(classes, block, count) {
  const sums = new Int32Array((classes.length / block) * count);
  classes.forEach((each, i) => each >= 0 && (sums[Math.floor(i / block) * count + each] += 1));
  return sums;
}

/** Calls `visit` with each window and its number. The list is the same one each time. */
function eachWindow(ids, length, visit) {
  const window = [];
  let number = 0;
  const extend = () => {
    if (window.length === length) return visit(window, number++);
    for (let next = 0; next < ids; next += 1) {
      if (window.includes(next)) continue;
      window.push(next);
      extend();
      window.pop();
    }
    return undefined;
  };
  extend();
}

/** The number of a list among those of as many distinct identifiers. */
function rankOf(list, ids) {
  let rank = 0;
  for (let i = 0; i < list.length; i += 1) {
    let less = list[i];
    for (let j = 0; j < i; j += 1) if (list[j] < list[i]) less -= 1;
    rank = rank * (ids - i) + less;
  }
  return rank;
}

/** The edges of the neighbourhood graph as pairs of window numbers, from each window to those of its right neighbour. */
export function edgesOf({ ids, windows }) {
  const numbers = new Map(windows.map((window, i) => [window.join(), i]));
  return windows.flatMap((window, from) => Array.from({ length: ids }, (_, next) => next)
    .filter((next) => !window.includes(next)).map((next) => [from, numbers.get([...window.slice(1), next].join())]));
}
