"""The steps of checks/page-test: how many passed, and which did not."""

import re
import subprocess

from common import ROOT, Checks, program_path

PROGRAM = program_path()
CV1 = (ROOT / "examples/cv1.txt").read_text(encoding="ascii")
LDB = (ROOT / "programs/ldb.txt").read_text(encoding="ascii")
# A matching that is wrong: a node with a lesser right neighbour takes it as its partner.
PAIRS = "rounds 1 channels 3 registers 1 start r0 = id round send left r0 send right r0 "
PAIRS += "r0 = if(lt(R, r0), 1, if(lt(r0, L), 2, 0)) finish r0"


class Steps:
    def __init__(self):
        self.checks = Checks()

    def check(self, name, good, seen=""):
        """Counts a step, and prints what was seen where it failed."""
        self.checks.check(good, f"page-test: failed: {name} {str(seen)[:400]}")

    def run(self, part, *arguments):
        """Runs a part of the test. One that breaks off counts as a failed step."""
        try:
            part(*arguments)
        except Exception as error:
            self.check(part.__name__, False, f"broke off: {error!r}")

    def equal(self, name, found, wanted):
        self.check(name, found == wanted, f"- found {found!r}, wanted {wanted!r}")


STEPS = Steps()


def nbhd(text, *words):
    """What the program prints for these words and this text."""
    ran = subprocess.run([PROGRAM, *words], input=text.encode(), stdout=subprocess.PIPE, stderr=subprocess.DEVNULL)
    return ran.stdout.decode()


def kind_of(line):
    """The kind of a fault, by the line that the program prints: its first word, `fault` and the code."""
    return " ".join(line.split()[:3])


def note_of(text, *words):
    """The place and the sentence of the note that the program tells on standard error, each empty without one. A note without a
    place may have more lines, which the page joins, but for one with words for a shell."""
    ran = subprocess.run([PROGRAM, *words], input=text.encode(), stdout=subprocess.DEVNULL, stderr=subprocess.PIPE)
    first, *more = ran.stderr.decode(errors="replace").splitlines() or [""]
    found = re.match(r"nbhd: (?:(line \d+, column \d+): )?(.*)", first)
    if not found or found[1]:
        return (found[1], found[2]) if found else ("", "")
    lines = [found[2], *(line.removeprefix("nbhd: ") for line in more)]
    return "", " – ".join(line for line in lines if not line.startswith("write `nbhd "))
