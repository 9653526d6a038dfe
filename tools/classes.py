"""Rules: tables that see of each identifier its class alone, and that a solver finds by a small formula.

The identifiers are parted into classes, the first of them into the first class and so on. A rule has a channel for each list of `2T+1`
classes, none of which comes more often than it has identifiers, since those of a window are distinct; its table gives a window the
channel of its classes. Where there is a rule there is a table; where there is none there may be other tables.

The text of a rule has the lines `nbhd-rule 1`, `rounds T ids M channels C near P far Q` and `classes A B ..`, with the number of
identifiers of each class, and then the channels of all lists of classes in lexicographic order, each as a digit or a small letter; their
lines may be broken anywhere.

A rule may also turn: if `turn` is above 1, classes 0 to `turn-1` are exchanged in a circle, and so are the next ones, without those at
the end that are too few; the channels too if all forbidden patterns stay forbidden. A list of classes that are turned has the channel of
the list, turned. So few lists are asked.
"""

import re
import string
import subprocess
import time
from itertools import permutations
from math import comb, perm
from typing import NamedTuple

from patterns import MAX_ROUNDS, MAX_WINDOWS

# The exit statuses of a solver, and what is said of them.
ANSWERS = {10: "yes", 20: "no", 0: "open"}
# The most clauses of a formula, and of how many parts of the time it has one.
MOST_CLAUSES, PART = 2_500_000, 3
# The signs of the channels in the text of a rule, and how many are in a line.
SIGNS, IN_LINE = string.digits + string.ascii_lowercase, 100
HEAD = re.compile(r"nbhd-rule 1\nrounds (\d) ids (\d{1,4}) channels (\d+) near (\d+) far (\d+)\nclasses (\d+(?: \d+)*)\n([0-9a-z\n]*)")


class Failure(Exception):
    """Why there is no answer."""


class Demand(NamedTuple):
    """What a table has to keep: the number of channels, and near and far, or forbidden patterns in their place."""

    rounds: int
    channels: int
    near: int
    far: int
    forbidden: list

    def patterns(self):
        """The forbidden patterns with these channels; those of near and far if no others are given."""
        if self.forbidden:
            return [it for it in self.forbidden if all(entry is None or entry < self.channels for entry in it)]
        too_near = [(one, other, None) for one, other in self.closer_than(self.near)]
        return too_near + [(one, None, other) for one, other in self.closer_than(self.far)]

    def closer_than(self, distance):
        """The pairs of channels that differ by less."""
        for one in range(self.channels):
            for other in range(max(0, one - distance + 1), min(self.channels, one + distance)):
                yield one, other


def sizes_of(ids, count):
    """The numbers of identifiers of so many classes, which differ by at most 1; the first classes have the most."""
    return [len(range(place, ids, count)) for place in range(count)]


def lists(sizes, length):
    """The lists of the classes of distinct identifiers, in lexicographic order."""
    left, found = [*sizes], []

    def extend(beginning):
        if len(beginning) == length:
            found.append(beginning)
            return
        for each, count in enumerate(left):
            if count:
                left[each] -= 1
                extend((*beginning, each))
                left[each] += 1

    extend(())
    return found


def count_lists(sizes, length):
    """How many such lists there are."""
    counts = [1] + [0] * length
    for size in sizes:
        counts = [sum(comb(total, own) * counts[total - own] for own in range(min(size, total) + 1)) for total in range(length + 1)]
    return counts[length]


def turned(value, count, turn, times):
    """What a class or a channel of so many becomes if it is turned so many times."""
    first = value - value % turn
    return value if first + turn > count else first + (value + times) % turn


class Formula:
    """The formula of rules for classes of these sizes. Variable `n*C+c+1` says that list `n` of those that are asked has channel `c`."""

    def __init__(self, demand, sizes, turn=1):
        self.demand, self.sizes, self.turn, self.forbidden = demand, sizes, turn, demand.patterns()
        # Classes that are exchanged have as many identifiers.
        self.asked_sizes = [max(sizes)] * len(sizes) if turn > 1 else sizes
        images = {tuple(None if it is None else turned(it, demand.channels, turn, 1) for it in own) for own in self.forbidden}
        self.turn_of_channels = turn if images == {*self.forbidden} else 1
        # For each list of classes the variable of each channel; of the lists that become each other by turns one is asked.
        self.variables, self.asked, self.units = {}, [], []
        for window in lists(self.asked_sizes, 2 * demand.rounds + 1):
            if window not in self.variables:
                self.ask(window)

    def ask(self, window):
        """Asks a list, and says which variables those have that it becomes by turns."""
        first, count = len(self.asked) * self.demand.channels + 1, self.demand.channels
        self.asked.append(window)
        for times in range(self.turn):
            image = tuple(turned(it, len(self.sizes), self.turn, times) for it in window)
            own = [first + turned(channel, count, self.turn_of_channels, -times) for channel in range(count)]
            known = self.variables.setdefault(image, own)
            self.units += [[-one] for one, other in zip(own, known) if one != other]

    def clauses(self):
        """The clauses, each a list of literals."""
        demand, length = self.demand, 2 * self.demand.rounds + 1
        yield from (self.variables[window] for window in self.asked)
        yield from self.units
        # With far above 0 rings of `2T+2` nodes do not count.
        goes_round = bool(demand.forbidden)
        if not goes_round and demand.far and sum(self.sizes) < length + 2:
            return
        is_asked = {*self.asked}
        pairs = [it for it in self.forbidden if it[2] is None]
        others = [it for it in self.forbidden if it[2] is not None]
        for ring in lists(self.asked_sizes, length + 1):
            if ring[:length] not in is_asked:
                continue
            yield from self.broken(pairs, [ring[:length], ring[1:]])
            for last, size in enumerate(self.asked_sizes) if others else ():
                if goes_round and last == ring[0] or ring.count(last) < size:
                    yield from self.broken(others, [ring[:length], ring[1:], (*ring[2:], last)])

    def broken(self, patterns, windows):
        """The clauses that no pattern matches the channels of these lists."""
        variables = [self.variables[window] for window in windows]
        for it in patterns:
            yield [-own[channel] for own, channel in zip(variables, it) if channel is not None]

    def solve(self, seconds):
        """Asks cadical for a rule. Returns its answer, and the channel of each list of classes if there is a rule."""
        text, count = bytearray(), 0
        for clause in self.clauses():
            text += f"{' '.join(map(str, clause))} 0\n".encode()
            count += 1
        head = f"p cnf {len(self.asked) * self.demand.channels} {count}\n"
        words = ["cadical", "--sat", "-q", "-t", str(max(1, round(seconds)))]
        ran = subprocess.run(words, input=head.encode() + text, capture_output=True)
        answer = ANSWERS.get(ran.returncode)
        if not answer:
            raise Failure(f"cadical failed with the status {ran.returncode}: {ran.stderr.decode(errors='replace').strip()}")
        if answer != "yes":
            return answer, None
        true = {int(word) for line in ran.stdout.splitlines() if line.startswith(b"v") for word in line.split()[1:]}
        channel_of = {
            window: next(channel for channel, variable in enumerate(self.variables[window]) if variable in true)
            for window in lists(self.sizes, 2 * self.demand.rounds + 1)
        }
        return answer, channel_of


class Rule(NamedTuple):
    """The channel of each list of classes, with what its table is to keep."""

    demand: Demand
    sizes: list
    channel_of: dict

    def text(self):
        """The text of the rule."""
        signs = "".join(SIGNS[channel] for channel in self.channel_of.values())
        lines = [signs[place : place + IN_LINE] for place in range(0, len(signs), IN_LINE)]
        return "\n".join(["nbhd-rule 1", self.shape(), f"classes {' '.join(map(str, self.sizes))}", *lines, ""])

    def shape(self):
        """The second line of the text of the rule and of its table."""
        it = self.demand
        return f"rounds {it.rounds} ids {sum(self.sizes)} channels {it.channels} near {it.near} far {it.far}"

    def table(self):
        """The text of the table, in parts."""
        yield f"nbhd-table 2\n{self.shape()}\n"
        class_of = [place for place, size in enumerate(self.sizes) for _ in range(size)]
        ids, endings = range(len(class_of)), {}
        words = [f"{it} " for it in ids]
        for beginning in permutations(ids, 2 * self.demand.rounds):
            own = tuple(map(class_of.__getitem__, beginning))
            if own not in endings:
                # (without a class that has no identifier left)
                channels = [self.channel_of.get((*own, class_of[it])) for it in ids]
                endings[own] = [f"{it} : {channel}\n" for it, channel in zip(ids, channels)]
            first, last = "".join(map(words.__getitem__, beginning)), endings[own]
            yield first + first.join([last[it] for it in ids if it not in beginning])
        yield "end\n"


def read_rule(text):
    """The rule of a text."""
    if not (found := HEAD.fullmatch(text)):
        raise Failure("this is not the text of a rule, which begins with `nbhd-rule 1`, a line as that of a table, and `classes A B ..`")
    rounds, ids, channels, near, far = map(int, found.groups()[:5])
    sizes, signs = [*map(int, found[6].split())], found[7].replace("\n", "")
    if sum(sizes) != ids or 0 in sizes:
        raise Failure(f"the classes have {sum(sizes)} identifiers, not {ids}, or one of them has none")
    if rounds > MAX_ROUNDS or ids < 2 * rounds + 2 or perm(ids, 2 * rounds + 1) > MAX_WINDOWS:
        raise Failure(f"no table has {rounds} rounds and {ids} identifiers")
    if len(signs) != count_lists(sizes, 2 * rounds + 1):
        raise Failure(f"there are {len(signs)} channels for {count_lists(sizes, 2 * rounds + 1)} lists of classes")
    if any(sign not in SIGNS[:channels] for sign in signs):
        raise Failure(f"a channel is not below {channels}")
    channel_of = dict(zip(lists(sizes, 2 * rounds + 1), map(SIGNS.index, signs)))
    return Rule(Demand(rounds, channels, near, far, []), sizes, channel_of)


def attempts(demand, ids):
    """The numbers of classes, from few to many, each with how many of them are turned: all first, which is the smallest formula, then all
    in two circles or more, and at last none."""
    thirds, length = [third for *_, third in demand.patterns()], 2 * demand.rounds + 1
    of_two = thirds.count(None)
    for count in range(1, ids + 1):
        sizes = sizes_of(ids, count)
        clauses = count_lists(sizes, length + 1) * of_two + count_lists(sizes, length + 2) * (len(thirds) - of_two)
        if clauses > MOST_CLAUSES * count:
            return
        yield from ((sizes, turn) for turn in range(count, 0, -1) if count % turn == 0 and clauses <= MOST_CLAUSES * turn)


def tries(demand, attempted, seconds):
    """Asks the solver these numbers of classes in so many seconds, of which each takes at most a part. Gives each with the seconds that
    it took, the answer, and the channels of the rule if there is one."""
    start = time.monotonic()
    for sizes, turn in attempted:
        asked = time.monotonic()
        left = start + seconds - asked
        if left <= 0:
            return
        answer, channel_of = Formula(demand, sizes, turn).solve(min(left, seconds / PART))
        yield sizes, turn, time.monotonic() - asked, answer, channel_of
