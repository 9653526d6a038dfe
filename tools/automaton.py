"""The class of a locally checkable problem on oriented rings, by an automaton (Chang, Studeny and Suomela 2021).

A state is a pair of channels of neighbours. A step leads from the state `ab` to the state `bc` if no pattern matches the channels `a`, `b`
and `c` of places in a row. So a ring of `n` nodes has a solution exactly if there is a closed walk of `n` steps. On rings of every length
`n`, with identifiers that are at most some power of `n`, a problem is

- constant, solved in a constant number of rounds, if a step leads from some state to itself: all nodes can have one channel;
- log*, solved in about log* n rounds and in no fewer, if not, but some state is flexible: it has closed walks of every length from some
  length on;
- global, solved in about n rounds and in no fewer where it has a solution, if no state is flexible, but there is a closed walk. Then
  infinitely many lengths have no solution;
- unsolvable, if there is no closed walk: no ring has a solution.

That a class needs so many rounds is the theorem of the paper, which is not proved here. It does not say how many rounds a number of
identifiers needs.
"""

from math import gcd
from typing import NamedTuple

import patterns

# All rows of three channels are looked at.
MAX_CHANNELS = 16


class Found(NamedTuple):
    """The class of a problem, and what shows it.

    `state` has a closed walk of each multiple of `period` steps from `start` steps on, and none of another number of steps from there on.
    A ring has a solution exactly if its length is a multiple of `period`, at least `start`, for a pair of `lengths`, or one of `others`.
    Without a closed walk there is no state, and `longest` is the number of steps of the longest walk."""

    kind: str
    state: tuple = None
    period: int = 0
    start: int = 0
    lengths: tuple = ()
    others: tuple = ()
    longest: int = 0


def classify(forbid, channels, near=0, far=0):
    """The class of the problem that forbids these patterns, and channels closer than `near` at neighbours or `far` at distance two."""

    def is_allowed(*row):
        is_apart = abs(row[0] - row[1]) >= near and abs(row[0] - row[2]) >= far
        return is_apart and not any(patterns.matches(it, row) for it in forbid)

    numbers = range(channels)
    after = {(a, b): [(b, c) for c in numbers if is_allowed(a, b, c)] for a in numbers for b in numbers}
    walks = {}
    for part in components(after):
        period = period_of(part)
        walks |= {state: (period, *closed_walks(part, state, period)) for state in part if period}
    if not walks:
        return Found("unsolvable", longest=longest_walk(after))
    period, start, state = min((period, start, state) for state, (period, start, _) in walks.items())
    kind = "constant" if start == 1 else "log*" if period == 1 else "global"
    return Found(kind, state, period, start, *ring_lengths(walks.values()))


def components(after):
    """The parts of states that lead to one another, each as its states with the states that a step of it leads to in the part."""
    before = {state: [] for state in after}
    for state, its in after.items():
        for it in its:
            before[it].append(state)
    left = set(after)
    while left:
        state = min(left)
        part = distances(after, state, left).keys() & distances(before, state, left).keys()
        left -= part
        yield {it: [to for to in after[it] if to in part] for it in part}


def distances(after, state, among):
    """How many steps lead from a state to each of these states that it leads to."""
    found, waiting = {state: 0}, [state]
    for it in waiting:
        for to in after[it]:
            if to in among and to not in found:
                found[to] = found[it] + 1
                waiting.append(to)
    return found


def period_of(part):
    """The greatest common divisor of the lengths of the closed walks of a part, 0 if there are none."""
    found = distances(part, min(part), part)
    return gcd(*(found[it] + 1 - found[to] for it in part for to in part[it]))


def closed_walks(part, state, period):
    """The multiple of the period from which on a state has closed walks of all multiples, and the lengths of its shorter closed walks.

    Closed walks can be joined. So if there are some of as many multiples in a row as the shortest walk has, there are some of all above."""
    reached, found, length = {state}, [], 0
    while True:
        for _ in range(period):
            reached = {to for it in reached for to in part[it]}
        length += period
        found += [length] if state in reached else []
        in_row = found[0] // period if found else 0
        if 0 < in_row <= len(found) and found[-in_row] == length - (in_row - 1) * period:
            return found[-in_row], found[:-in_row]


def ring_lengths(walks):
    """The lengths of all closed walks: multiples of periods, each from some length on, and other lengths."""
    starts, others = {}, {}
    for period, start, shorter in walks:
        starts[period] = min(start, starts.get(period, start))
        others.setdefault(period, set()).update(shorter)
    for period in starts:
        while starts[period] - period in others[period]:
            starts[period] -= period
    lengths = []
    for period, start in sorted(starts.items()):
        if not is_length(start, [it for it in lengths if period % it[0] == 0]):
            lengths.append((period, start))
    return tuple(lengths), tuple(it for it in sorted(set().union(*others.values())) if not is_length(it, lengths))


def is_length(length, pairs):
    """Whether a length is a multiple of a period, from its start on."""
    return any(length % period == 0 and length >= start for period, start in pairs)


def longest_walk(after):
    """The number of steps of the longest walk, where none is closed."""
    left, steps = set(after), -1
    while left:
        left, steps = {it for it in left if any(to in left for to in after[it])}, steps + 1
    return steps


def lengths_text(period, start):
    """Multiples of a period from a length on, in words."""
    return f"every length from {start} on" if period == 1 else f"the multiples of {period} from {start} on"


def witness(found):
    """What shows the class, in words."""
    if found.kind == "unsolvable":
        return f"no closed walk: the longest walk has {found.longest} steps; rings with a solution: none"
    rings = [lengths_text(*it) for it in found.lengths] + [str(it) for it in found.others]
    all_rings = any(period == 1 and start <= 2 for period, start in found.lengths)
    walks = f"closed walks of {lengths_text(found.period, found.start)}"
    return f"state {found.state[0]},{found.state[1]}: {walks}; rings with a solution: {'all' if all_rings else ', '.join(rings)}"
