"""Reports in JSON: the lines that say the same, and what of a call in JSON is not as in lines. The lines are written here from
docs/LANGUAGE.md and docs/FAULTS.md."""

import json
import re
from pathlib import Path

import damaged
from json_schema import Schema
from problems import KNOWN, last_channel, listed, matches, pattern, word
from trees import assigned_in, numerals, phase

SCHEMA = Schema(json.loads((Path(__file__).resolve().parent.parent / "docs/report.schema.json").read_text(encoding="ascii")))
SIZES = ["ids", "rounds", "channels"]
PLACE = re.compile(r"nbhd: line (\d+)(?:, column (\d+))?: ")
TOKEN = re.compile(rb"[A-Za-z0-9]+")
# What the line of a fault says behind its code.
SAID = {f"N{number}": "at" for number in range(1, 10)} | {f"L{number}": "line" for number in range(2, 10)}
SAID |= {"C1": "register", "C4": "bound", "G3": "place", "G4": "places", "G5": "place", "A1": "at", "A2": "line", "A3": "line"}


def named(report, names):
    """These members by their names."""
    return " ".join(f"{name} {report[name]}" for name in names)


def of_no(report, base):
    ring, places, channels = (report[name] for name in ["ring", "places", "channels"])
    if (report.get("near"), report.get("far")) == (1, 0):
        return f"no: ring {listed(ring)} place {places[0]} channel {channels[0]}\n"
    return f"no: ring {listed(ring)} places {listed(places)} channels {listed(channels)}\n"


def of_trace(report, base):
    rows = [("ring", report["ring"])]
    for number, step in enumerate([{"registers": report["start"]}, *report["rounds"]]):
        rows += [(f"{phase(number)} {side}", step[side]) for side in ["left", "right"] if side in step]
        rows += [(f"{phase(number)} r{register}", row) for register, row in enumerate(step["registers"])]
    rows.append(("finish", report["finish"]))
    return "".join(f"{head} {' '.join(numerals(row, base))}\n" for head, row in rows)


def of_explanation(report, base):
    return "".join(of_tree(tree, base) for tree in report["trees"])


def of_tree(tree, base):
    number, gives, parts = tree["round"], tree["gives"], tree["parts"]
    lines = [f"finish{assigned_in(number + 1)}" if gives == "finish" else f"{phase(number)} {gives}{assigned_in(number)}"]
    for part, value in zip(parts, numerals([part["value"] for part in parts], base)):
        lines.append(f"{' ' * part['depth']} {part['word']} {value}{'' if part['taken'] else ' (not taken)'}")
    return "".join(f"{line}\n" for line in lines)


def of_places(report, base):
    rows = enumerate(zip(report["ring"], report["channels"]))
    return "".join(f"{place:4} {identifier:4} {channel:4}\n" for place, (identifier, channel) in rows)


def of_table(report, base):
    sizes = (report[name] for name in ["rounds", "ids", "channels"])
    return damaged.text_of(2, *sizes, (report["near"], report["far"]), report["entries"]).decode()


def of_refuted(report, base):
    forbidden = f"forbid {' '.join(map(word, report['forbid']))}" if "forbid" in report else named(report, ["near", "far"])
    return f"refuted: {named(report, SIZES)} {forbidden}\n"


def of_fault(report, base):
    name = SAID.get(report["code"])
    value = listed(report[name]) if name == "places" else report.get(name)
    return f"{report['of']} fault {report['code']}{f' {name} {value}' if name else ''}\n"


LINES = {
    "accepted": lambda report, base: f"accepted {named(report, [*SIZES, 'bound', 'windows'])}\n",
    "program": lambda report, base: report["text"],
    "yes": lambda report, base: f"yes: {report['tuples']} tuples\n",
    "no": of_no,
    "channels": lambda report, base: f"{listed(report['channels'])}\n",
    "trace": of_trace,
    "explanation": of_explanation,
    "places": of_places,
    "table": of_table,
    "refuted": of_refuted,
    "fault": of_fault,
}


def lines_of(report, base=10):
    """The lines of the call that has this report."""
    return LINES[report["kind"]](report, base).encode()


def each_once(pairs):
    """The object of these pairs, whose keys have to be different."""
    if len(dict(pairs)) != len(pairs):
        raise ValueError("a key twice")
    return dict(pairs)


def written(report):
    """The bytes of a report, which are its only ones."""
    return json.dumps(report, separators=(",", ":")).encode() + b"\n"


def read(text):
    """The report of these bytes."""
    report = json.loads(text.decode("ascii"), object_pairs_hook=each_once)
    if written(report) != text:
        raise ValueError("other bytes than its own")
    return report


class Call:
    """The words of a call and its input."""

    def __init__(self, words, text):
        self.words, self.text, self.options = words, text, {}
        for found in re.finditer(r"--(\w+)[ =](\S+)", " ".join(words)):
            self.options.setdefault(found[1], []).append(found[2])

    def number(self, name, otherwise):
        return int(self.options.get(name, [otherwise])[0])

    def patterns(self):
        """The patterns that are asked, by their name or each."""
        words = KNOWN[self.options["problem"][0]] if "problem" in self.options else self.options.get("forbid", [])
        return [pattern(it) for it in words]

    def separation(self):
        """Near and far, by the options or by the second line of a table text."""
        found = re.search(rb" near (\d+) far (\d+)$", self.text.split(b"\n")[1]) if self.words[0] == "audit" else None
        return tuple(map(int, found.groups())) if found else (self.number("near", 1), self.number("far", 0))

    def is_no(self, report):
        """Whether a no is one of what was asked, and the places are those of the bad tuple."""
        ring, places, channels = report["ring"], report["places"], report["channels"]
        rounds = (len(ring) - 2) // 2
        if "pattern" in report:
            first = next((it for it in self.patterns() if matches(it, channels) and last_channel(it) <= len(channels)), None)
            count = max(2, last_channel(report["pattern"]))
            return first == tuple(report["pattern"]) and places == [(rounds + step) % len(ring) for step in range(count)]
        near, far = self.separation()
        steps = [step for step, least in [(1, near), (2, far)] if abs(channels[0] - channels[1]) < least]
        is_right = not self.patterns() and (report["near"], report["far"]) == (near, far)
        return is_right and places in [[rounds, rounds + step] for step in steps]

    def is_fault(self, report, note):
        """Whether a fault has the place that its note says, and its line and column are those of its offset or of its word."""
        said = PLACE.match(note)
        if said and not all(report.get(name) == int(it) for name, it in zip(["line", "column"], said.groups()) if it):
            return False
        if "at" in report:
            before = self.text[: report["at"]]
            return (report["line"], report["column"]) == (before.count(b"\n") + 1, len(before) - before.rfind(b"\n"))
        if "column" in report:
            token = TOKEN.match(self.text.split(b"\n")[report["line"] - 1], report["column"] - 1)
            words = {"C1": [b"r%d" % report.get("register", 0)], "C2": [b"id"], "C3": [b"L", b"R"]}[report["code"]]
            return token is not None and token[0] in words
        return True

    def says_more(self, report, note):
        """Whether what the object has and the lines have not is right."""
        if report.get("note", "") != note:
            return False
        if report["kind"] == "no":
            return self.is_no(report)
        if report["kind"] == "fault":
            return self.is_fault(report, note)
        if report["kind"] == "explanation":
            return report["place"] == self.number("place", 0)
        if report["kind"] == "refuted":
            return [tuple(it) for it in report.get("forbid", [])] == self.patterns()
        return True

    def difference(self, in_lines, in_json):
        """What of the answer in JSON is not as in lines; none if all of it is."""
        status, out, note = in_lines
        if (in_json[0], in_json[2]) != (status, note):
            return "another exit status or standard error"
        if not out or not in_json[1]:
            return "a report in one form only" if out != in_json[1] else None
        try:
            report = read(in_json[1])
        except ValueError as fault:
            return f"no report in JSON: {fault}"
        if not SCHEMA.fits(report):
            return "not of the schema"
        if lines_of(report, self.number("base", 10)) != out:
            return "other lines"
        return None if self.says_more(report, note) else "what lines do not have"
