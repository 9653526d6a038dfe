"""Formulas that a table satisfies exactly where it keeps a separation, by their definition: a row has the words, the input, the
standard output and the exit status. The texts are those of a second implementation, which is here; the faults follow from
docs/LANGUAGE.md."""

from itertools import permutations
from math import perm

# Identifiers, rounds, channels, near and far of formulas whose whole text is compared.
WHOLE = [
    (2, 0, 1, 1, 0),
    (2, 0, 2, 1, 0),
    (2, 0, 3, 2, 0),
    (2, 0, 2, 1, 1),
    (3, 0, 2, 1, 1),
    (3, 0, 4, 2, 1),
    (3, 0, 4, 1, 2),
    (3, 0, 3, 4096, 4096),
    (9, 0, 3, 1, 0),
    (12, 0, 11, 3, 2),
    (4, 1, 1, 1, 0),
    (4, 1, 2, 1, 0),
    (4, 1, 3, 2, 1),
    (5, 1, 3, 1, 0),
    (5, 1, 4, 1, 1),
    (6, 1, 3, 2, 1),
    (7, 1, 3, 1, 0),
    (6, 2, 2, 1, 0),
    (6, 2, 2, 1, 1),
    (7, 2, 2, 1, 1),
    (8, 3, 1, 1, 0),
    (14, 1, 4, 1, 0),
    (2, 0, 4096, 1, 0),
]

# Options and the fault. Of several faults the first is told.
FAULTS = [
    ("--ids 0 --rounds 0 --channels 1", "X1"),
    ("--ids 1 --rounds 0 --channels 1", "X1"),
    ("--ids 3 --rounds 1 --channels 1", "X1"),
    ("--ids 5 --rounds 2 --channels 1", "X1"),
    ("--ids 7 --rounds 3 --channels 4096", "X1"),
    ("--ids 9 --rounds 4 --channels 1 --near 4096 --far 4096", "X1"),
    ("--ids 1025 --rounds 0 --channels 1", "X1"),
    ("--ids 1025 --rounds 4 --channels 4096", "X1"),
    ("--ids 4294967295 --rounds 1 --channels 1", "X1"),
    ("--ids 163 --rounds 1 --channels 1", "X2"),
    ("--ids 1024 --rounds 1 --channels 4096", "X2"),
    ("--ids 24 --rounds 2 --channels 1", "X2"),
    ("--ids 13 --rounds 3 --channels 1", "X2"),
    ("--ids 11 --rounds 4 --channels 1", "X2"),
    ("--ids 1024 --rounds 4 --channels 4096 --near 4096", "X2"),
    ("--ids 162 --rounds 1 --channels 2", "V1"),
    ("--ids 23 --rounds 2 --channels 2", "V1"),
    ("--ids 10 --rounds 4 --channels 2 --near 2 --far 1", "V1"),
    ("--ids 100 --rounds 1 --channels 4096 --near 4096", "V1"),
    # 4,194,304 variables are not too many
    ("--ids 1024 --rounds 0 --channels 4096", "V2"),
    ("--ids 1024 --rounds 0 --channels 17", "V2"),
    ("--ids 1024 --rounds 0 --channels 1 --far 1", "V2"),
    ("--ids 40 --rounds 1 --channels 10", "V2"),
    ("--ids 162 --rounds 1 --channels 1", "V2"),
]


def tuples(ids, rounds, far):
    """The identifiers of the windows of two neighbours, or of three where `far` is above 0, in order."""
    return permutations(range(ids), 2 * rounds + 2 + (far > 0))


def close_pairs(channels, distance):
    """The pairs of channels that differ by less than a distance, in order."""
    return [(first, second) for first in range(channels) for second in range(channels) if abs(first - second) < distance]


def size(ids, rounds, channels, near, far):
    """The numbers of variables and of clauses."""
    windows, pairs = perm(ids, 2 * rounds + 1), close_count(channels, near) + close_count(channels, far)
    return windows * channels, windows + perm(ids, 2 * rounds + 2 + (far > 0)) * pairs


def close_count(channels, distance):
    """How many pairs of channels differ by less than a distance."""
    return sum(channels if difference == 0 else 2 * (channels - difference) for difference in range(min(channels, distance)))


def clauses(ids, rounds, channels, near, far):
    """The clauses of a formula in order, each a list of the numbers of DIMACS: variables are numbered from 1 on by window and
    channel, and a minus is for not."""
    length = 2 * rounds + 1
    numbers = {window: number for number, window in enumerate(permutations(range(ids), length))}
    for window in numbers.values():
        yield [window * channels + channel + 1 for channel in range(channels)]
    pairs = [(step, *pair) for step, distance in [(1, near), (2, far)] for pair in close_pairs(channels, distance)]
    for ring in tuples(ids, rounds, far):
        firsts = [numbers[ring[place : place + length]] * channels + 1 for place in range(len(ring) - length + 1)]
        for step, first, second in pairs:
            yield [-firsts[0] - first, -firsts[step] - second]


def text(*problem):
    """The text of a formula in DIMACS."""
    lines = "".join(f"{' '.join(str(it) for it in clause)} 0\n" for clause in clauses(*problem))
    return "p cnf {} {}\n".format(*size(*problem)) + lines


def words(ids, rounds, channels, near, far):
    """The options of a problem."""
    return f"--ids {ids} --rounds {rounds} --channels {channels} --near {near} --far {far}"


def rows():
    for problem in WHOLE:
        yield f"formula {words(*problem)}", b"", text(*problem), 0
    for ids, rounds, channels in [(5, 1, 3), (2, 0, 2)]:
        yield f"formula --channels {channels} --rounds={rounds} --ids {ids}", b"", text(ids, rounds, channels, 1, 0), 0
    for options, fault in FAULTS:
        for command in ["formula", "refute"]:
            yield f"{command} {options}", b"no refutation", f"formula fault {fault}\n", 7
