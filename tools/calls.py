"""Calls of the program nbhd, for the tools that ask much of one program text. It is the one that the variable NBHD names, else ./nbhd at
the top of the repository."""

import os
import re
import subprocess
import time
from math import perm
from pathlib import Path
from typing import NamedTuple

import patterns

NBHD = os.environ.get("NBHD") or str(Path(__file__).resolve().parent.parent / "nbhd")
# The most bytes of a program text.
MOST_BYTES = 65536
# What a refusal's note begins with where the cause has a place in the text.
PLACE = re.compile(r"line (\d+), column (\d+): (.*)")
# The exit statuses, and how the first line of the report of a command begins, or that of a refusal.
DONE, NO, REFUSED = 0, 1, 3
BEGINS = {
    "--help": r"nbhd \d",
    "print": r"rounds \d",
    "check": r"accepted ids \d",
    "judge": r"yes: \d|no: ring \d",
    "table": r"nbhd-table 2$",
    "run": r"\d",
    "migrate": r"nbhd-table 2$",
}
REFUSAL = r"(text|check|table) fault \w"


class Failure(Exception):
    """Why nbhd gave no answer."""


class Stopped(Failure):
    """The time is over."""


class Answer(NamedTuple):
    """The exit status of a call, and its two outputs."""

    status: int
    report: bytes
    note: str

    def line(self):
        """The first line of the report."""
        return self.report.split(b"\n", 1)[0].decode("ascii", "replace")

    def cause(self):
        """Of a refusal the line and the column of its place, `None` for both if it has none, and the cause."""
        said = self.note.split("\n", 1)[0].removeprefix("nbhd: ")
        found = PLACE.fullmatch(said)
        return (int(found[1]), int(found[2]), found[3]) if found else (None, None, said)


class Asked:
    """Calls of nbhd that are over in so many seconds, if there are any."""

    def __init__(self, seconds=None):
        self.seconds, self.end = seconds, seconds and time.monotonic() + seconds

    def ask(self, words, text):
        """What a command of nbhd says of a text."""
        left = self.end and self.end - time.monotonic()
        if left is not None and left <= 0:
            raise Stopped(self.stopped())
        try:
            ran = subprocess.run([NBHD, *words], input=text, capture_output=True, timeout=left)
        except subprocess.TimeoutExpired:
            raise Stopped(self.stopped()) from None
        except OSError as reason:
            raise Failure(f"{NBHD} cannot be run: {reason.strerror}") from None
        answer = Answer(ran.returncode, ran.stdout, ran.stderr.decode("ascii", "backslashreplace"))
        if answer.status not in (DONE, NO, REFUSED):
            how = f"signal {-answer.status}" if answer.status < 0 else f"the status {answer.status}"
            raise Failure(f"nbhd {words[0]} ended with {how}: {answer.cause()[2]}".removesuffix(": "))
        if not re.match(REFUSAL if answer.status == REFUSED else BEGINS.get(words[0], ""), answer.line()):
            raise Failure(f"{NBHD} is not the program nbhd: {words[0]} gives {answer.line()[:60]!r}")
        return answer

    def stopped(self):
        return f"stopped after {self.seconds} seconds"

    def most_ids(self, text, rounds, demand):
        """The greatest number of identifiers that the program is right for, 0 if there is none. Right for more is right for fewer: the
        rings of fewer identifiers are rings of more, and no bound is greater for fewer."""
        least, most = 2 * rounds + 1, greatest_ids(rounds)
        while least < most:
            middle = (least + most + 1) // 2
            if self.ask(["judge", "--ids", str(middle), *demand], text).status == DONE:
                least = middle
            else:
                most = middle - 1
        return least if least > 2 * rounds + 1 else 0


def greatest_ids(rounds):
    """The greatest number of identifiers of tables of so many rounds."""
    return next(ids for ids in range(patterns.MAX_IDS, 0, -1) if perm(ids, 2 * rounds + 1) <= patterns.MAX_WINDOWS)


def demand_of(given):
    """The words of nbhd for the demand that the options ask for."""
    return patterns.words(given.forbid) if given.forbid else ["--near", str(given.near), "--far", str(given.far)]
