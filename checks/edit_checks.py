"""A check of the functions that edits change, and what it says of each edit.

An edit is refused if a function that it changes is not proved, for a goal of this function, and all others that were checked are proved.
A name that the edit took away is no goal, and where one is lost, a goal for which the search looks in vain may only lack its answer. Nor
is a limit of the prover a goal, or a call of a function that is not proved."""

import os
import re
import shutil
import subprocess
import tempfile
from dataclasses import dataclass
from pathlib import Path

from edit_files import function_at, text_of

PARTS = ("src", "specs", "proofs")
# What names a thing that the edit took away, and so says little of the contract.
LOST_NAME = re.compile(r"has no field|is not a field of|is not in scope|has no `|was not admitted|for this file to be the proof of")
LIMIT = re.compile(r"antt ran out of|outgrew the memory limit|stopped at the step limit")
PLACED = re.compile(r"(?:note: )?(?:\./)?((?:src|proofs|specs)/\S+?):(\d+):\d+: (.*)")
ANSWER = re.compile(r"error: `([^`]+)`: (.*)")
OPEN = re.compile(r"((?:it is not proved that |`search` found no proof).*)\(`([^`]+)`")
UNANSWERED = "no proof: expected answers in "
SUM = re.compile(r"only=(\d+) proved=(\d+)")
LEFT_OPEN = ("not proved", "no proof")
CALLS_ONE = "no proof: it calls"
MOST_GOALS = 4


@dataclass
class Reason:
    """Why a function is not proved: a goal with a written answer, one that the search looks for, a lost name, or a limit of the prover; the
    goal, where it stands and what is said of it."""

    kind: str
    goal: str
    text: str


@dataclass
class Verdict:
    """Whether an edit is refused, and the goal or what else the check says."""

    is_refused: bool
    text: str


class Report:
    """What a check of a crate in a folder printed: what it said of each function, and the reasons."""

    def __init__(self, crate, folder, printed):
        self.last = printed.rstrip("\n").rpartition("\n")[2]
        said = re.findall(rf"^fn {crate}::(\S+): (.*)", printed, re.MULTILINE)
        self.said = {plain_name(name): text for name, text in said}
        self.reasons = [it for line in printed.split("\n") if (it := reason_in(folder, line))]
        self.reasons += [(name, Reason("searched goal", "", text[:160])) for name, text in self.said.items() if text.startswith(UNANSWERED)]
        self.has_verdict = bool(SUM.match(self.last))

    def is_all_proved(self):
        asked = SUM.match(self.last)
        return bool(asked) and asked[1] == asked[2]

    def verdict_on(self, edit):
        if not self.has_verdict:
            return Verdict(False, f"it does not compile, or the check gave no verdict: {self.last[:200]}")
        reasons = [reason for function, reason in self.reasons if is_any_of(function, edit.sharers)]
        has_lost = any(it.kind == "lost name" for it in reasons)
        goals = [it for it in reasons if it.kind == "goal" or it.kind == "searched goal" and not has_lost]
        said = {name: text for name, text in self.said.items() if is_any_of(name, edit.functions)}
        if not edit.functions <= said.keys():
            return Verdict(False, f"not checked: {', '.join(sorted(edit.functions - said.keys()))}")
        if all(not text.startswith(LEFT_OPEN) for text in said.values()):
            return Verdict(False, f"still proved: {', '.join(sorted(edit.functions))}")
        if goals:
            names = dict.fromkeys(it.goal for it in goals if it.goal)
            return Verdict(True, f"{', '.join([*names][:MOST_GOALS]) or 'a goal'}: {goals[0].text}")
        no_goal = next((it for it in reasons if it.kind != "searched goal"), None)
        return Verdict(False, f"no goal, only a {no_goal.kind}: {no_goal.text}" if no_goal else "no goal")

    def spoiled(self, edits):
        """The functions that no edit changes and that are not proved. What only calls such a one has no goal of its own."""
        changed = {function for edit in edits for function in edit.sharers}
        named = {function for function, _ in self.reasons}
        is_open = lambda name, text: name in named or text.startswith(LEFT_OPEN) and not text.startswith(CALLS_ONE)
        return sorted(name for name, text in self.said.items() if is_open(name, text) and not is_any_of(name, changed))


def plain_name(name):
    """The path of a function as `function_at` gives it, of a closure that of its function with its own name behind it."""
    return "::".join(part.lstrip("+") for part in name.split("::") if part != "fn")


def is_any_of(name, functions):
    """Whether a function, or a closure in it, has this name."""
    return name is not None and any(name == it or name.startswith(f"{it}::") for it in functions)


def reason_in(folder, line):
    """The function that a line of a check is about, and the reason that it gives, if it gives one."""
    at = PLACED.match(line)
    reason = reason_of(at[3]) if at else None
    if not reason:
        return None
    file, row = at[1], int(at[2])
    is_code = file.startswith("src/") and (folder / file).is_file()
    function = function_at(file, text_of(folder / file), row - 1) if is_code else plain_name("::".join(Path(file).parent.parts[1:]))
    return function, Reason(reason.kind, reason.goal, f"{file}:{row}: {reason.text.strip()[:160]}")


def reason_of(said):
    """The reason that a check gives at a place, if it gives one."""
    if goal := OPEN.search(said):
        return Reason("searched goal", goal[2], goal[1])
    if not said.startswith("error"):
        return None
    if LIMIT.search(said):
        return Reason("limit", "", said)
    goal = ANSWER.match(said)
    return Reason("lost name", "", said) if not goal or LOST_NAME.search(said) else Reason("goal", *goal.groups())


class Checker:
    """Checks copies of a crate in a folder of its own, each over what the checks before it left there."""

    def __init__(self, kit, crate, folder):
        self.kit, self.crate, self.folder = kit, crate, Path(folder)
        self.processor = 0.0

    def verdicts(self, edits):
        """The verdicts on these edits, no two of which change one function, by a check of a copy with all."""
        copy = self.copy()
        found = {str(edit): Verdict(False, why) for edit in edits if (why := edit.apply(copy))}
        edits = [edit for edit in edits if str(edit) not in found]
        if not edits:
            return found
        report = self.report(copy, {function for edit in edits for function in edit.functions})
        spoiled = report.spoiled(edits)
        for edit in edits:
            verdict = report.verdict_on(edit)
            is_spoiled = verdict.is_refused and spoiled
            found[str(edit)] = Verdict(False, f"not proved beside it: {', '.join(spoiled)}") if is_spoiled else verdict
        return found

    def is_proved(self, functions):
        """Whether these functions are proved without edits."""
        return self.report(self.copy(), functions).is_all_proved()

    def copy(self):
        copy = Path(tempfile.mkdtemp(dir=self.folder))
        for part in PARTS:
            if os.path.isdir(f"{self.crate.folder}/{part}"):
                shutil.copytree(f"{self.crate.folder}/{part}", copy / part)
        return copy

    def report(self, copy, functions):
        """Checks these functions, and those that they call, in a copy, and removes the copy."""
        only = [word for it in sorted(functions) for word in ("--only", it)]
        flags = ["--jobs", "1", *only, "--incremental", str(self.folder / "kept")]
        words = [self.kit.rtlib.RATTLE, "check", *self.crate.words(flags, keeps=False)]
        with tempfile.TemporaryFile("w+", errors="replace") as printed:
            process = subprocess.Popen(words, cwd=copy, stdin=subprocess.DEVNULL, stdout=printed, stderr=subprocess.STDOUT)
            _, status, used = os.wait4(process.pid, 0)
            process.returncode = os.waitstatus_to_exitcode(status)
            self.processor += used.ru_utime + used.ru_stime
            printed.seek(0)
            report = Report(self.crate.name, copy, printed.read())
        shutil.rmtree(copy)
        return report
