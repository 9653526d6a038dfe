"""Forbidden patterns: how the tools read the words --forbid and --problem, and sizes, and what a pattern asks of the channels of places in a
row."""

import argparse
import hashlib
import re
from itertools import permutations
from math import perm

MAX_PATTERNS, MAX_CHANNEL, MOST_LETTERS = 256, (1 << 32) - 1, 150
MAX_IDS, MAX_ROUNDS, MAX_WINDOWS = 1024, 4, 1 << 22
PATTERN = re.compile(r"(?:[0-9]+|\*)(?:,(?:[0-9]+|\*)){0,2}")
# The problems of a course, with their patterns.
KNOWN = {
    "mis": ["0,0,0", "1,1"],
    "matching": ["0,0", "1,0", "1,1", "0,2", "2,2"],
    "weak2": ["0,0,0", "1,1,1"],
}


def pattern(word):
    """A pattern: for each of three places in a row its channel, or `None` for any channel."""
    entries = [None if entry == "*" else int(entry) for entry in word.split(",")] if PATTERN.fullmatch(word) else []
    if not entries or any(entry is not None and entry > MAX_CHANNEL for entry in entries):
        raise argparse.ArgumentTypeError(f"{word!r} is no pattern of one to three channels or `*`, as in 1,1 or 0,*,0")
    return (*entries, None, None)[:3]


def number(least, most):
    """A reader of numbers in this range."""

    def read(word):
        if not word.isdecimal() or not least <= int(word) <= most:
            raise argparse.ArgumentTypeError(f"{word!r} is not a number from {least} to {most}")
        return int(word)

    return read


def add_size(parser):
    """Adds the words for the numbers of identifiers and of rounds."""
    parser.add_argument("--ids", type=number(2, MAX_IDS), required=True, metavar="M", help="the number of identifiers")
    parser.add_argument("--rounds", type=number(0, MAX_ROUNDS), required=True, metavar="T", help="the number of rounds")


def check_size(parser, given):
    """Refuses numbers of identifiers and of rounds that no table has."""
    if given.ids < 2 * given.rounds + 2 or perm(given.ids, 2 * given.rounds + 1) > MAX_WINDOWS:
        parser.error(f"no table has {given.rounds} rounds and {given.ids} identifiers")


def add_options(parser, near=int, far=int):
    """Adds the words for near and far, whose values these functions read, and for patterns in their place."""
    parser.add_argument("--near", type=near, metavar="P", help="by how much channels differ at neighbours, else 1")
    parser.add_argument("--far", type=far, metavar="Q", help="by how much they differ at distance two, else 0")
    parser.add_argument("--forbid", type=pattern, action="append", metavar="P", help="a pattern that is forbidden; may be repeated")
    known = "; ".join(f"{name} is {' '.join(patterns)}" for name, patterns in KNOWN.items())
    parser.add_argument("--problem", choices=KNOWN, help=f"the patterns of a problem of a course: {known}")


def take(parser, given):
    """Puts the forbidden patterns of these options in `given.forbid`, an empty list without any, and 1 and 0 for near and far left out."""
    if bool(given.forbid) + bool(given.problem) + (given.near is not None or given.far is not None) > 1:
        parser.error("--near and --far, --forbid, and --problem do not go together")
    if len(given.forbid or []) > MAX_PATTERNS:
        parser.error(f"there are more than {MAX_PATTERNS} patterns")
    given.forbid = [pattern(word) for word in KNOWN[given.problem]] if given.problem else given.forbid or []
    given.near = 1 if given.near is None else given.near
    given.far = given.far or 0


def text(it):
    """The word of a pattern, up to its last entry that is a channel."""
    count = max((place for place, entry in enumerate(it, 1) if entry is not None), default=1)
    return ",".join("*" if entry is None else str(entry) for entry in it[:count])


def known_name(patterns):
    """The name of the problem of a course that has these patterns, `None` for another list."""
    words = [text(it) for it in patterns]
    return next((name for name, known in KNOWN.items() if words == known), None)


def file_name(patterns):
    """The name of these patterns in the names of files."""
    name = known_name(patterns) or "_".join(text(it).replace(",", "-").replace("*", "x") for it in patterns)
    return name if len(name) <= MOST_LETTERS else hashlib.sha256(name.encode()).hexdigest()[:16]


def words(patterns):
    """The options of these patterns."""
    name = known_name(patterns)
    return ["--problem", name] if name else [word for it in patterns for word in ("--forbid", text(it))]


def is_long(patterns):
    """Whether a pattern asks something of the third place."""
    return any(third is not None for *_, third in patterns)


def least_channels(patterns):
    """The least number of channels such that tables have all channels of the patterns."""
    return 1 + max((entry for it in patterns for entry in it if entry is not None), default=0)


def matches(it, channels):
    """Whether a pattern matches the channels of places in a row."""
    return all(entry is None or entry == channel for entry, channel in zip(it, channels))


def tuples(ids, rounds, patterns):
    """The tuples of these patterns, in any order: the identifiers of the windows of two places in a row, or of three. On a ring of as
    many nodes as the windows of two places have, the third one's last identifier is the first of all."""
    for ring in permutations(range(ids), 2 * rounds + 2):
        if not is_long(patterns):
            yield ring
            continue
        for last in range(ids):
            if last not in ring[1:]:
                yield (*ring, last)
