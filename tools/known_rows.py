"""The rows of examples/known.json, that is the least numbers of channels that are known, and by what each end of a row is known: a file of
examples/, a program, or a theorem."""

import json
import re
from dataclasses import dataclass
from hashlib import sha256
from pathlib import Path

TOP = Path(__file__).resolve().parent.parent
KNOWN, PAGE = TOP / "examples/known.json", TOP / "page/least.js"
NAME = re.compile(r"rounds(\d+)_ids(\d+)_channels(\d+)_near(\d+)_far(\d+)\.(\w+)(?:\.xz)?")
# The programs of the page that keep neighbours apart: rounds, the most identifiers, channels, and the name.
PROGRAM = re.compile(r'^  \[(\d+), (\d+), (\d+), "(\w+\.txt)"\],$', re.MULTILINE)


class Failure(Exception):
    """What is wrong with the rows."""


@dataclass(frozen=True)
class Row:
    """For some numbers of identifiers from one to another, the least number of channels is one from `low` to `high`, which is `None` where
    no table is known, or what `least` says of their number `M`."""

    rounds: int
    near: int
    far: int
    first: int
    last: int
    low: int
    high: int
    least: str = None

    def has_rings(self):
        """Whether there is a ring that counts."""
        return rings_count(self.rounds, self.last, self.far)

    def ends(self, ids):
        """The least number of channels for so many identifiers: from, to."""
        number = 1 + self.near * (ids - 1)
        return (number, number) if self.least else (self.low, self.high)


def rings_count(rounds, ids, far):
    return ids >= 2 * rounds + (3 if far else 2)


def row_of(it):
    """The row of an object of the file."""
    low, high = (None, None) if isinstance(it["least"], str) else it["least"]
    first, last = it["ids"]
    return Row(it["rounds"], it["near"], it["far"], first, last, low, high, it["least"] if low is None else None)


def read():
    """The rows in order, and the refutations that are not kept, as rounds, identifiers, channels, near and far."""
    try:
        known = json.loads(KNOWN.read_text(encoding="ascii"))
        rows = [*map(row_of, known["rows"])]
        not_kept = [tuple(it[key] for key in ("rounds", "ids", "channels", "near", "far")) for it in known["refutations_not_kept"]]
    except (ValueError, KeyError, TypeError) as reason:
        raise Failure(f"{KNOWN} has not the form of the rows: {reason!r}") from None
    return rows, not_kept


@dataclass(frozen=True)
class Reason:
    """By what an end is known: a file by its path from the top, a command that makes one, a theorem, or other words; `more` is what is
    done with a table besides."""

    words: str
    kind: str = "words"
    more: str = ""

    def digest(self):
        """The SHA-256 of the file, or else nothing."""
        return sha256((TOP / self.words).read_bytes()).hexdigest() if self.kind == "file" else ""


def made_by(rounds, ids, channels, near, far):
    """The command that makes a refutation which is not kept."""
    return Reason(f"tools/least --ids {ids} --rounds {rounds} --near {near} --far {far}", "command")


def file(path):
    return Reason(str(path.relative_to(TOP)), "file")


class Reasons:
    """What files and theorems show. A file is named by rounds, identifiers, channels, near and far."""

    def __init__(self, not_kept):
        self.nos, self.yeses = [(key, made_by(*key)) for key in not_kept], []
        for path in sorted((TOP / "examples/least").iterdir()):
            *numbers, ending = NAME.fullmatch(path.name).groups()
            (self.nos if ending == "lrat" else self.yeses).append((tuple(map(int, numbers)), file(path)))
        for rounds, ids, channels, name in PROGRAM.findall(PAGE.read_text(encoding="ascii")):
            key = int(rounds), int(ids), int(channels), 1, 0
            self.yeses.append((key, file(TOP / "examples" / name)))

    def no(self, rounds, ids, near, far, channels):
        """Why so many channels are too few, `None` if it is not known."""
        if channels == 0:
            return Reason("a table has a channel")
        if not rings_count(rounds, ids, far):
            return None
        for (t, m, c, p, q), reason in self.nos:
            if t >= rounds and m <= ids and c >= channels and p <= near and q <= far and rings_count(t, m, q):
                return reason
        return self.theorem(rounds, ids, near, far, channels)

    def theorem(self, rounds, ids, near, far, channels):
        """The theorem by which so many channels are too few, `None` if there is none of this kind."""
        rings = range(2 * rounds + 3, ids + 1)
        if rounds == 0 and ids > 2 and channels <= (ids - 1) * near:
            return Reason("tables_need_channels", "theorem")
        if rings and channels <= 2 * near:
            return Reason("odd_rings_need_three", "theorem")
        if far and any(channels < (5 if size == 5 else 4 if size % 3 else 3) for size in rings):
            return Reason("nearby_places_need_four", "theorem")
        return Reason("neighbours differ") if channels == 1 else None

    def yes(self, rounds, ids, near, far, channels):
        """Why so many channels are enough, `None` if it is not known."""
        if not rings_count(rounds, ids, far):
            return Reason("no ring counts")
        if rounds == 0 and near >= far and channels > (ids - 1) * near:
            return Reason("each identifier can have a channel of its own")
        for (t, m, c, p, q), reason in self.yeses:
            if t <= rounds and m >= ids and c <= channels and p >= near and q >= far and ids >= 2 * rounds + 2:
                return reason
        doubled = self.yes(rounds, ids, 1, 1, (channels + 1) // 2) if (near, far) == (2, 1) else None
        return doubled and Reason(doubled.words, doubled.kind, ", whose channels are doubled")
