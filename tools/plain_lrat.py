"""A refutation with exchanges as plain LRAT, which other checkers read: each exchange by the steps that it stands for.

A step after an exchange says that what its clause becomes by the exchange follows from its hints. Each exchange undoes itself, so the
clause follows from what the hints become. What a clause of the formula becomes is a clause of the formula; what the clause of a step
becomes follows from what that step's hints become, by both exchanges one after the other. So a step may stand for many, of which only
those are written on which the empty clause rests, each once.
"""

import re
from functools import lru_cache
from itertools import permutations

LINE = re.compile(r"(\d+)((?: (?:[ic] \d+ \d+|m))?)((?: -?[1-9]\d*)*) 0((?: \d+)*) 0")
SKIPPED = re.compile(r"c.*|\d+ d(?: \d+)*|", re.DOTALL)
# How many images of windows are kept.
KEPT = 1 << 20


class Failure(Exception):
    """Why there is no plain refutation."""


class Changes:
    """What exchanges one after another make of literals. A change is what each identifier and each channel becomes."""

    def __init__(self, ids, rounds, channels):
        self.ids, self.channels = ids, channels
        self.windows = [*permutations(range(ids), 2 * rounds + 1)]
        self.numbers = {window: number for number, window in enumerate(self.windows)}
        self.none = tuple(range(ids)), tuple(range(channels))
        self.window_image = lru_cache(KEPT)(self.window_image)

    def after(self, change, exchange):
        """An exchange, and then a change."""
        letter, *two = exchange
        if letter == "m":
            return change[0], change[1][::-1]
        place = 0 if letter == "i" else 1
        if max(two) >= len(change[place]):
            raise Failure(f"there is no exchange {' '.join(map(str, exchange))} of these identifiers and channels")
        moved = [*change[place]]
        moved[two[0]], moved[two[1]] = moved[two[1]], moved[two[0]]
        return (tuple(moved), change[1]) if place == 0 else (change[0], tuple(moved))

    def window_image(self, window, ids):
        return self.numbers[tuple(ids[it] for it in self.windows[window])]

    def image(self, clause, change):
        """What a clause becomes."""
        return clause if change == self.none else [self.literal_image(it, change) for it in clause]

    def literal_image(self, literal, change):
        window, channel = divmod(abs(literal) - 1, self.channels)
        variable = self.window_image(window, change[0]) * self.channels + change[1][channel] + 1
        return variable if literal > 0 else -variable


def formula_in(path, changes):
    """The clauses of a formula in DIMACS."""
    clauses, size = [], None
    with open(path, encoding="ascii", errors="replace") as file:
        for number, line in enumerate(file, 1):
            if line[0] == "p":
                size = line.split()[2:]
            elif line[0] != "c" and not line.isspace():
                clauses.append(clause_of(path, number, line))
    variables = len(changes.windows) * changes.channels
    if size != [str(variables), str(len(clauses))]:
        raise Failure(f"{path} is no formula of so many identifiers, rounds and channels, which has {variables} variables")
    if any(not 0 < abs(it) <= variables for clause in clauses for it in clause):
        raise Failure(f"{path}: a literal is none of its {variables} variables")
    return clauses


def clause_of(path, number, line):
    """The literals of a line of a formula."""
    try:
        *literals, end = map(int, line.split())
    except ValueError:
        end = 1
    if end:
        raise Failure(f"{path}, line {number}: this is no line of DIMACS")
    return literals


def steps_in(path, variables):
    """The additions of a refutation up to that of the empty clause: of each the number, the exchange if there is one, the literals once
    each, and the hints."""
    with open(path, encoding="ascii", errors="replace") as file:
        for number, line in enumerate(file, 1):
            line = line.removesuffix("\n")
            found = LINE.fullmatch(line)
            if not found and not SKIPPED.fullmatch(line):
                raise Failure(f"{path}, line {number}: this is no line of a refutation")
            if found:
                letter, *two = found[2].split() or [""]
                clause = [*dict.fromkeys(map(int, found[3].split()))]
                if any(abs(it) > variables for it in clause):
                    raise Failure(f"{path}, line {number}: a literal is none of the {variables} variables of the formula")
                yield int(found[1]), (letter, *map(int, two)) if letter else None, clause, [*map(int, found[4].split())]
                if not clause:
                    return
    raise Failure(f"{path} does not add the empty clause")


class Plain:
    """The lines of a plain refutation."""

    def __init__(self, changes, formula, steps, most_bytes):
        self.changes, self.formula, self.steps, self.most_bytes = changes, formula, steps, most_bytes
        self.newest, self.lines, self.size = len(formula), [], 0
        # The number of a clause by its literals in order, and by what it was made of.
        self.by_literals, self.made = {}, {}
        for number, clause in enumerate(formula, 1):
            self.by_literals.setdefault(tuple(sorted(clause)), number)

    def clause(self, number):
        """The literals of a clause of the refutation or the formula."""
        if 0 < number <= len(self.formula):
            return self.formula[number - 1]
        if number not in self.steps:
            raise Failure(f"a hint is {number}, which is no clause before it")
        return self.steps[number][1]

    def write(self, last):
        """Writes what the clause with this number rests on, and then the clause."""
        waiting = [(last, self.changes.none)]
        while waiting:
            wanted = waiting[-1]
            missing = [] if wanted in self.made else self.missing(*wanted)
            waiting.extend(missing)
            if not missing:
                waiting.pop()

    def missing(self, number, change):
        """Makes what a clause becomes by a change, or returns what is to be made before."""
        image = self.changes.image(self.clause(number), change)
        key = tuple(sorted(image))
        if key not in self.by_literals:
            if number <= len(self.formula):
                raise Failure("an exchange does not keep the formula: is it that of this refutation?")
            exchange, _, hints = self.steps[number]
            if any(hint >= number for hint in hints):
                raise Failure(f"the hints of clause {number} are not before it")
            change_of_hints = self.changes.after(change, exchange) if exchange else change
            wanted = [(hint, change_of_hints) for hint in hints]
            missing = [it for it in wanted if it not in self.made]
            if missing:
                return missing
            self.add(image, [self.made[it] for it in wanted])
            self.by_literals[key] = self.newest
        self.made[number, change] = self.by_literals[key]
        return []

    def add(self, clause, hints):
        """Adds a line, if so many bytes are allowed."""
        self.newest += 1
        line = " ".join(map(str, [self.newest, *clause, 0, *hints, 0])) + "\n"
        self.size += len(line)
        if self.size > self.most_bytes:
            raise Failure(f"as plain LRAT it has more than {self.most_bytes:,} bytes")
        self.lines.append(line)


def plain(formula, refutation, changes, most_bytes):
    """The lines of the plain refutation that has at most so many bytes."""
    clauses = formula_in(formula, changes)
    variables = len(changes.windows) * changes.channels
    steps = {number: step for number, *step in steps_in(refutation, variables)}
    made = Plain(changes, clauses, steps, most_bytes)
    made.write(next(reversed(steps)))
    return made.lines
