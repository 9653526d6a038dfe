"""What the page knows of the fewest channels and rounds, compared with the refutations and the tables of examples/least and
examples/problems, with the table of docs/LEAST.md, and with examples."""

import re

from patterns import KNOWN
from steps import ROOT, STEPS, nbhd

NAME = re.compile(r"rounds(\d+)_ids(\d+)_channels(\d+)_near(\d+)_far(\d+)")
EXAMPLE = re.compile(r'^  \[(\d+), (\d+), (\d+), "(\w+\.txt)"\],$', re.MULTILINE)
ROW = re.compile(r"^  \[([\d, ]+)\],$", re.MULTILINE)
PROBLEM_NAME = re.compile(r"(.+)_rounds(\d+)_ids(\d+)_channels(\d+)")
PROBLEM_EXAMPLE = re.compile(r'^  \["([\d,* ]+)", (\d+), (\d+), "(\w+\.txt)"\],$', re.MULTILINE)
PROBLEM_ROW = re.compile(r'^  \[("[\d,* ]+"(?:, "(?:all )?\d+(?: \.\.)?")+)\],$', re.MULTILINE)
# The most identifiers that tables of so many rounds can have.
LIMITS = [1024, 162, 23, 12, 10]


def known():
    module = (ROOT / "page/least.js").read_text(encoding="ascii")
    rows = [[int(word) for word in row.split(",")] for row in ROW.findall(module)]
    STEPS.equal("rows of so many numbers", {len(row) for row in rows}, {7})
    for path in sorted((ROOT / "examples/least").iterdir()):
        rounds, ids, channels, near, far = (int(word) for word in NAME.match(path.name).groups())
        found = [row[5:] for row in rows if row[:3] == [rounds, near, far] and row[3] <= ids <= row[4]]
        if rounds == 0 and ids > 2:
            # By the rule for every number of identifiers.
            found.append([(ids - 1) * near, (ids - 1) * near + 1])
        is_known = all(channels <= refuted if ".lrat" in path.suffixes else least <= channels for refuted, least in found)
        STEPS.check(f"what {path.name} shows", len(found) == 1 and is_known, found)
    for rounds, ids, channels, name in EXAMPLE.findall(module):
        text = (ROOT / "examples" / name).read_text(encoding="ascii")
        STEPS.check(f"{name} has as few channels", f"rounds {rounds}\nchannels {channels}\n" in text)
        STEPS.equal(f"{name} keeps neighbours apart", nbhd(text, "judge", "--ids", ids)[:5], "yes: ")


def known_rounds():
    module = (ROOT / "page/problems.js").read_text(encoding="ascii")
    rows = {row[0]: row[1:] for row in (re.findall('"([^"]*)"', row) for row in PROBLEM_ROW.findall(module))}
    STEPS.equal("what the page knows of rounds", rows, documented_rounds())
    for patterns, cells in rows.items():
        limits = [int(cell[4:]) for cell in cells if cell.startswith("all ")]
        STEPS.equal(f"all identifiers of {patterns}", limits, [LIMITS[i] for i, cell in enumerate(cells) if cell.startswith("all ")])
    for path in sorted((ROOT / "examples/problems").iterdir()):
        name, *numbers = PROBLEM_NAME.match(path.name).groups()
        rounds, ids, channels = (int(number) for number in numbers)
        patterns = " ".join(KNOWN.get(name) or name.replace("-", ",").replace("x", "*").split("_"))
        cells = rows.get(patterns, [])
        if len(cells) <= rounds:
            continue
        most = int(re.search(r"\d+", cells[rounds])[0])
        is_known = cells[rounds].isdigit() and most < ids if ".lrat" in path.suffixes else ids <= most
        STEPS.check(f"what {path.name} shows", is_known and channels == channels_named(patterns), cells)
    for patterns, rounds, ids, name in PROBLEM_EXAMPLE.findall(module):
        text = (ROOT / "examples" / name).read_text(encoding="ascii")
        words = [word for pattern in patterns.split() for word in ("--forbid", pattern)]
        STEPS.check(f"{name} has as few rounds", f"rounds {rounds}\n" in text)
        STEPS.equal(f"{name} solves {patterns}", nbhd(text, "judge", "--ids", ids, *words)[:5], "yes: ")


def documented_rounds():
    """The patterns of the rows of docs/LEAST.md, with the cell of each number of rounds."""
    table = (ROOT / "docs/LEAST.md").read_text(encoding="utf-8").split("\n| Problem | Patterns ", 1)[1].split("\n\n")[0].splitlines()
    count = len(re.findall(r"\| (?:No|\d+) rounds?\b", table[0]))
    cells = [line.strip("| ").split(" | ") for line in table[2:]]
    return {" ".join(re.findall("`([^`]*)`", patterns)): found[:count] for _, patterns, *found in cells}


def channels_named(patterns):
    return max(int(number) for number in re.findall(r"\d+", patterns)) + 1
