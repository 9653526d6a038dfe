"""Table texts that are damaged at one or two places: a row has the words, the input, the standard output and the exit status of
`migrate`. The expected values are those of a second implementation, a reader that is written here from docs/LANGUAGE.md."""

import re
from itertools import permutations
from math import perm
from random import Random

COUNT = 5000
MAX_BYTES, MAX_CHANNELS, MAX_ROUNDS, MAX_IDS, MAX_WINDOWS = 1 << 27, 4096, 4, 1024, 1 << 22
NUMBER = rb"(0|[1-9][0-9]*)"
OLD_SIZES = re.compile(rb"rounds %s ids %s channels %s" % ((NUMBER,) * 3))
NEW_SIZES = re.compile(rb"rounds %s ids %s channels %s near %s far %s" % ((NUMBER,) * 5))
LINE = {width: re.compile(NUMBER + (rb" " + NUMBER) * (width - 1) + rb" : " + NUMBER) for width in (1, 3, 5, 7, 9)}

# Rounds, identifiers, channels, near and far, and the version of a text.
SHAPES = [
    (0, 2, 2, 1, 0, 1),
    (0, 2, 1, 1, 0, 2),
    (0, 11, 12, 1, 2, 2),
    (0, 101, 4096, 4096, 4096, 2),
    (1, 4, 3, 1, 0, 1),
    (1, 4, 10, 2, 1, 2),
    (1, 5, 1000, 1, 0, 2),
    (1, 11, 100, 10, 0, 1),
    (2, 6, 5, 1, 1, 2),
    (3, 8, 9, 1, 0, 1),
]


class Fault(Exception):
    """The line of a fault."""


def window_count(rounds, ids):
    return perm(ids, 2 * rounds + 1)


def is_small(*numbers):
    return all(number < 1 << 32 for number in numbers)


def text_of(version, rounds, ids, channels, separation, entries):
    """The text of a table."""
    near, far = separation
    told = f"rounds {rounds} ids {ids} channels {channels}" + (f" near {near} far {far}" if version == 2 else "")
    windows = permutations(range(ids), 2 * rounds + 1)
    lines = [" ".join(map(str, window)) + f" : {entry}" for window, entry in zip(windows, entries)]
    return "\n".join([f"nbhd-table {version}", told, *lines, "end", ""]).encode()


def sizes_in(version, line, at):
    """The numbers of the second line."""
    found = (NEW_SIZES if version == 2 else OLD_SIZES).fullmatch(line)
    numbers = [int(it) for it in found.groups()] if found else [0] * 5
    rounds, ids, channels, near, far = numbers if version == 2 else [*numbers[:3], 1, 0]
    is_right = found and is_small(*numbers) and rounds <= MAX_ROUNDS and 2 * rounds + 2 <= ids <= MAX_IDS
    is_right = is_right and 1 <= channels <= MAX_CHANNELS and 1 <= near <= MAX_CHANNELS and far <= MAX_CHANNELS
    if not is_right or window_count(rounds, ids) > MAX_WINDOWS:
        raise Fault(f"A1 at {at}")
    return rounds, ids, channels, (near, far)


class Lines:
    """The lines of a text, with the byte at which the next one begins."""

    def __init__(self, text):
        self.text, self.at = text, 0

    def next(self):
        """The next line, which ends with a line feed."""
        end = self.text.find(b"\n", self.at)
        if end < 0:
            raise Fault(f"A1 at {self.at}")
        start, self.at = self.at, end + 1
        return self.text[start:end], start


def read(text):
    """The text of the same table in version 2."""
    if len(text) > MAX_BYTES:
        raise Fault(f"A1 at {MAX_BYTES}")
    lines = Lines(text)
    title, at = lines.next()
    if title not in (b"nbhd-table 1", b"nbhd-table 2"):
        raise Fault(f"A1 at {at}")
    version = int(title[-1:])
    rounds, ids, channels, separation = sizes_in(version, *lines.next())
    entries = []
    for number, window in enumerate(permutations(range(ids), 2 * rounds + 1)):
        line, at = lines.next()
        found = LINE[len(window)].fullmatch(line)
        numbers = [int(it) for it in found.groups()] if found else []
        if not found or not is_small(*numbers):
            raise Fault(f"A1 at {at}")
        if tuple(numbers[:-1]) != window:
            raise Fault(f"A2 line {number + 3}")
        if numbers[-1] >= channels:
            raise Fault(f"A3 line {number + 3}")
        entries.append(numbers[-1])
    line, at = lines.next()
    if line != b"end":
        raise Fault(f"A1 at {at}")
    if lines.at != len(text):
        raise Fault(f"A1 at {lines.at}")
    return text_of(2, rounds, ids, channels, separation, entries)


def place_in(text, random):
    """A byte of a text: of any line, or of the first two or the last ones, or one that is no digit."""
    kind = random.randrange(4)
    if kind == 0:
        return random.randrange(min(len(text), 70))
    if kind == 1:
        return len(text) - 1 - random.randrange(min(len(text), 20))
    if kind == 2:
        return random.choice([at for at, byte in enumerate(text[:4000]) if byte in b" :\n"] or [0])
    return random.randrange(len(text))


def damaged(text, random):
    """A text with one byte changed, dropped, doubled or put in, two lines exchanged, a number changed, or the end cut off."""
    at = place_in(text, random)
    byte = bytes([random.choice(b"0123456789 :\n+-x\r\t") if random.random() < 0.9 else random.randrange(256)])
    kind = random.randrange(8)
    if kind == 0:
        return text[:at] + byte + text[at + 1 :]
    if kind == 1:
        return text[:at] + text[at + 1 :]
    if kind == 2:
        return text[:at] + text[at : at + 1] + text[at:]
    if kind == 3:
        return text[:at] + byte + text[at:]
    if kind == 4:
        return text[:at]
    if kind == 5:
        return text + byte
    lines = text.split(b"\n")
    place = random.randrange(len(lines))
    if kind == 6:
        lines[place - 1], lines[place] = lines[place], lines[place - 1]
        return b"\n".join(lines)
    channel = random.choice([b"0", b"7", b"09", b"4095", b"4096", b"4294967295", b"4294967296", b"99999999999999999999", b""])
    lines[place] = re.sub(rb"[^ ]*$", lambda _: channel, lines[place], count=1)
    return b"\n".join(lines)


def answer(text):
    """What `migrate` prints, and its status."""
    try:
        return read(text), 0
    except Fault as fault:
        return f"table fault {fault}\n", 3


def rows():
    random = Random(1992)
    whole = []
    for rounds, ids, channels, near, far, version in SHAPES:
        count = window_count(rounds, ids)
        if count <= 1000:
            entries = [random.randrange(channels) for _ in range(count)]
            whole.append(text_of(version, rounds, ids, channels, (near, far), entries))
    for text in whole:
        yield "migrate", text, *answer(text)
    for number in range(COUNT):
        text = damaged(whole[number % len(whole)], random)
        if number % 3 == 2 and text:
            text = damaged(text, random)
        yield "migrate", text, *answer(text)
