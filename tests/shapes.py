"""Tables of every shape with few windows: a row has the words, the input, the standard output and the exit status. The expected values
are those of a second implementation, a walk of each window."""

from itertools import permutations
from math import perm

MAX_WINDOWS, MAX_ROUNDS, MAX_IDS = 20_000, 4, 1024
# What the register becomes in a round, in the language and in Python: by the message from the left, by that from the right, by both.
KINDS = [
    ("and(add(add(r0, r0), L), 63)", lambda own, left, right: own + own + left),
    ("and(add(add(r0, r0), R), 63)", lambda own, left, right: own + own + right),
    ("and(add(add(r0, L), add(R, R)), 63)", lambda own, left, right: own + left + right + right),
]


def shapes():
    """The numbers of rounds and of identifiers of every shape with at most MAX_WINDOWS windows, and of one with three rounds."""
    for rounds in range(MAX_ROUNDS + 1):
        for ids in range(2 * rounds + 2, MAX_IDS + 1):
            if perm(ids, 2 * rounds + 1) <= MAX_WINDOWS:
                yield rounds, ids
    yield 3, 8


def program(rounds, assigned):
    """A program that does so in each round. A node sends its register plus one to the left, and its register to the right."""
    each = f"round\nsend left add(r0, 1)\nsend right r0\nr0 = {assigned}\n"
    return f"rounds {rounds}\nchannels 64\nregisters 1\nstart\nr0 = id\n{each * rounds}finish and(r0, 63)\n".encode()


def channel(window, step):
    """The channel of the node in the middle of a window: in each round the line loses a node at each end."""
    line = list(window)
    while len(line) > 1:
        line = [step(own, left, right + 1) & 63 for left, own, right in zip(line, line[1:], line[2:])]
    return line[0] & 63


def table(rounds, ids, step):
    windows = permutations(range(ids), 2 * rounds + 1)
    lines = "".join(f"{' '.join(map(str, window))} : {channel(window, step)}\n" for window in windows)
    return f"nbhd-table 2\nrounds {rounds} ids {ids} channels 64 near 1 far 0\n{lines}end\n"


def rows():
    for rounds, ids in shapes():
        for number, (assigned, step) in enumerate(KINDS):
            workers = (1, 2, 3, 64)[(ids + number) % 4]
            yield f"table --ids {ids} --workers {workers}", program(rounds, assigned), table(rounds, ids, step), 0
