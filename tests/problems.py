"""Problems of forbidden patterns: audits of random tables, verdicts on programs, formulas, and refutations, right ones and damaged ones. A
row has the words, the input, the standard output and the exit status. The expected values are those of a second implementation, which is
here, from docs/LANGUAGE.md. Whether a table solves a problem is asked of each place of each ring of each length; tuples are gone through
only for the least bad one, and for wider tables, whose rings are too many. What is in examples/problems was found by other programs (docs/LEAST.md), and has to be accepted."""

import lzma
import re
from functools import cache
from itertools import combinations, islice, permutations, product
from math import perm
from pathlib import Path
from random import Random
from typing import NamedTuple

from judged import program_of
from refutations import DAMAGES, EXCHANGE_DAMAGES, Separated, exchanged, refutation, report, windows
from verdicts import of_identifiers, of_windows

EXAMPLES = Path(__file__).resolve().parent.parent / "examples"
# The patterns of the problems that have a name.
KNOWN = {
    "mis": ["0,0,0", "1,1"],
    "matching": ["0,0", "1,0", "1,1", "0,2", "2,2"],
    "weak2": ["0,0,0", "1,1,1"],
}

# How many rows of each kind, and how often a right refutation is damaged in each way.
AUDITED, JUDGED, WIDER, WRITTEN, SOLVED, REFUTED, MADE = 1800, 600, 160, 600, 240, 60, 40
# Identifiers and rounds of audited tables, of judged programs, and of formulas; those of tables that are found by trying all.
SHAPES = [(2, 0), (3, 0), (4, 0), (5, 0), (6, 0), (4, 1), (5, 1), (6, 1), (6, 2), (7, 2)]
OF_PROGRAMS = [(2, 0), (3, 0), (4, 0), (5, 0), (4, 1), (5, 1), (6, 1), (7, 1), (6, 2), (7, 2)]
# Those of tables with channels that are often equal modulo 64, as the judge's masks see them. Some have so many windows that they are
# judged by masks and on several threads.
OF_WIDER = [(5, 1), (7, 1), (12, 1), (18, 1), (24, 1), (7, 2), (8, 2), (9, 2), (9, 3), (40, 0)]
OF_FORMULAS = [(2, 0), (3, 0), (4, 0), (4, 1), (5, 1), (6, 2)]
TRIED = [(2, 0), (3, 0), (4, 0), (4, 1), (6, 2)]
WORKERS = [1, 2, 3, 4, 64]
# A channel that no table has.
NO_CHANNEL = 4294967295


def pattern(word):
    """The three entries of a pattern: channels, and `None` for any."""
    entries = [None if entry == "*" else int(entry) for entry in word.split(",")]
    return (*entries, None, None)[:3]


def last_channel(it):
    """The number of entries of a pattern up to its last channel."""
    return max((place for place, entry in enumerate(it, 1) if entry is not None), default=0)


def word(it):
    """A pattern up to its last channel, with at least one entry."""
    return ",".join("*" if entry is None else str(entry) for entry in it[: max(1, last_channel(it))])


def options(patterns):
    """The options of these patterns."""
    return " ".join(f"--forbid {word(it)}" for it in patterns)


def matches(it, channels):
    """Whether a pattern matches the channels of places in a row."""
    return all(entry in (None, channel) for entry, channel in zip(it, channels))


def rings(ids, rounds):
    """The rings of all lengths, each from its least identifier on."""
    for length in range(2 * rounds + 2, ids + 1):
        for chosen in combinations(range(ids), length):
            for rest in permutations(chosen[1:]):
                yield (chosen[0], *rest)


def window_at(ring, place, rounds):
    """The window at a place of a ring."""
    return tuple(ring[(place + step) % len(ring)] for step in range(-rounds, rounds + 1))


@cache
def in_row(ids, rounds):
    """The numbers of the windows at each three places in a row of each ring, each list once."""
    numbers = windows(ids, rounds)[1]
    found = {
        tuple(numbers[window_at(ring, place + step, rounds)] for step in range(3))
        for ring in rings(ids, rounds)
        for place in range(len(ring))
    }
    return sorted(found)


def is_solved(ids, rounds, patterns, channels):
    """Whether no pattern matches at any place of any ring, for a table whose windows have these channels in order."""
    met = {(channels[first], channels[second], channels[third]) for first, second, third in in_row(ids, rounds)}
    return not any(is_forbidden(patterns, it) for it in met)


def is_forbidden(patterns, channels):
    return any(matches(it, channels) for it in patterns)


@cache
def pairs(ids, rounds):
    """The lists of the identifiers of two windows in a row, in order, with the numbers of the windows."""
    numbers = windows(ids, rounds)[1]
    return [(ring, numbers[ring[:-1]], numbers[ring[1:]]) for ring in permutations(range(ids), 2 * rounds + 2)]


def least_bad(ids, rounds, patterns, channels):
    """The ring of the least bad tuple and the first pattern that matches there, `None` if there is no such tuple."""
    numbers, after = windows(ids, rounds)[1], {}
    is_long = any(third is not None for *_, third in patterns)
    for ring, first, second in pairs(ids, rounds):
        two = channels[first], channels[second]
        if two not in after:
            after[two] = [it for it in patterns if matches(it, two)]
        if not after[two]:
            continue
        if not is_long:
            return ring, after[two][0]
        for last in range(ids):
            if last not in ring[1:]:
                third = channels[numbers[(*ring[2:], last)]]
                if found := [it for it in after[two] if it[2] in (None, third)]:
                    return ring if last == ring[0] else (*ring, last), found[0]
    return None


def tuples(ids, rounds, patterns):
    """The tuples of a problem in order."""
    is_long = any(third is not None for *_, third in patterns)
    for ring in permutations(range(ids), 2 * rounds + 2):
        if is_long:
            yield from ((*ring, last) for last in range(ids) if last not in ring[1:])
        else:
            yield ring


def tuple_count(ids, rounds, patterns):
    """How many tuples there are."""
    is_long = any(third is not None for *_, third in patterns)
    return perm(ids, 2 * rounds + 2) * (ids - 2 * rounds - 1 if is_long else 1)


def verdict(ids, rounds, patterns, channels):
    """The line for a table whose windows have these channels in order, and its exit status."""
    answer = verdict_of_tuples(ids, rounds, patterns, channels)
    if is_solved(ids, rounds, patterns, channels) != (answer[1] == 0):
        raise AssertionError("the rings and the tuples differ")
    return answer


def verdict_of_tuples(ids, rounds, patterns, channels):
    """The same by tuples alone."""
    found = least_bad(ids, rounds, patterns, channels)
    if not found:
        return f"yes: {tuple_count(ids, rounds, patterns)} tuples\n", 0
    ring, pattern = found
    places = [(rounds + step) % len(ring) for step in range(max(2, last_channel(pattern)))]
    numbers = windows(ids, rounds)[1]
    on_ring = [channels[numbers[window_at(ring, place, rounds)]] for place in places]
    return f"no: ring {listed(ring)} places {listed(places)} channels {listed(on_ring)}\n", 1


def listed(numbers):
    return " ".join(map(str, numbers))


def table_text(ids, rounds, count, channels, near, far):
    """The text of a table of `count` channels."""
    pairs = zip(windows(ids, rounds)[0], channels)
    lines = "".join(f"{listed(window)} : {channel}\n" for window, channel in pairs)
    return f"nbhd-table 2\nrounds {rounds} ids {ids} channels {count} near {near} far {far}\n{lines}end\n".encode()


def any_entry(numbers, count):
    """An entry of a pattern: any channel of `count`, or one that these tables lack."""
    kind = numbers.random()
    return None if kind < 0.3 else numbers.choice([count, count + 1, NO_CHANNEL]) if kind > 0.94 else numbers.randrange(count)


def any_pattern(numbers, count):
    entries = [any_entry(numbers, count) for _ in range(numbers.choice([1, 2, 2, 2, 3, 3, 3, 3]))]
    return (*entries, None, None)[:3]


def some_patterns(numbers, count):
    """One to four patterns, or those of a problem that has a name."""
    if numbers.random() < 0.2:
        return [pattern(it) for it in numbers.choice([*KNOWN.values()])]
    return [any_pattern(numbers, count) for _ in range(numbers.randrange(1, 5))]


def fitting_patterns(numbers, count, met):
    """Patterns that match at no place of a table, whose channels in rows are those of `met`, and now and then one more."""
    patterns = [it for it in (any_pattern(numbers, count) for _ in range(30)) if not any(matches(it, found) for found in met)]
    patterns = patterns[: numbers.randrange(1, 6)]
    if not patterns or numbers.random() < 0.4:
        entries = [numbers.choice([entry, entry, entry, None]) for entry in numbers.choice(met)]
        patterns.insert(numbers.randrange(len(patterns) + 1), tuple(entries))
    return patterns


def parts(rows):
    """The windows of rows in parts that share no window, each with its rows."""
    part_of = {}
    for row in rows:
        joined = {id(part_of[window]): part_of[window] for window in row if window in part_of}.values()
        whole = ({*row}.union(*(part[0] for part in joined)), [it for part in joined for it in part[1]] + [row])
        part_of |= dict.fromkeys(whole[0], whole)
    return [*{id(part): part for part in part_of.values()}.values()]


def solutions_of_part(part, patterns, count):
    """The channels of the windows of a part that match no pattern in any of its rows, by trying all."""
    names = sorted(part[0])
    places = {window: place for place, window in enumerate(names)}
    rows = [[places[window] for window in row] for row in part[1]]
    forbidden = {it for it in product(range(count), repeat=3) if is_forbidden(patterns, it)}
    for channels in product(range(count), repeat=len(names)):
        if not any((channels[first], channels[second], channels[third]) in forbidden for first, second, third in rows):
            yield dict(zip(names, channels))


@cache
def parts_of(ids, rounds):
    return parts(in_row(ids, rounds))


def solution(ids, rounds, patterns, count, numbers=None):
    """The channels of a table that solves a problem, `None` if there is none, by trying all tables. With random numbers it is one of the
    first twenty for each part."""
    found = {}
    for part in parts_of(ids, rounds):
        some = [*islice(solutions_of_part(part, patterns, count), 20 if numbers else 1)]
        if not some:
            return None
        found |= numbers.choice(some) if numbers else some[0]
    return [found[window] for window in sorted(found)]


def any_channels(numbers, ids, rounds, count):
    """The channels of a table: any, those of the middles, or by the last bits, but for up to three windows."""
    listed, kind = windows(ids, rounds)[0], numbers.randrange(4)
    if kind == 0:
        return [numbers.randrange(count) for _ in listed]
    if kind == 1:
        middles = [numbers.randrange(count) for _ in range(ids)]
        channels = [middles[window[rounds]] for window in listed]
    else:
        by_bits = {bits: numbers.randrange(count) for bits in product(range(2), repeat=2 * rounds + 1)}
        channels = [by_bits[tuple(it & 1 for it in window)] for window in listed]
    for place in numbers.sample(range(len(listed)), min(numbers.randrange(4), len(listed))):
        channels[place] = numbers.randrange(count)
    return channels


def tables():
    """Random tables with patterns: identifiers, rounds, the number of channels, the channels and the patterns."""
    numbers = Random(20261130)
    for turn in range(AUDITED):
        (ids, rounds), count = SHAPES[turn % len(SHAPES)], numbers.randrange(1, 5)
        patterns, found = some_patterns(numbers, count), None
        if (ids, rounds) in TRIED and numbers.random() < 0.6:
            found = solution(ids, rounds, patterns, count, numbers)
        if found and numbers.random() < 0.4:
            found[numbers.randrange(len(found))] = numbers.randrange(count)
        if not found:
            found = any_channels(numbers, ids, rounds, count)
            met = sorted({tuple(found[window] for window in row) for row in in_row(ids, rounds)})
            if numbers.random() < 0.8:
                patterns = fitting_patterns(numbers, count, met)
        yield ids, rounds, count, found, patterns


def asked(numbers, patterns):
    """The options of patterns: by name if they have one, and now and then with what says nothing more."""
    words = [word(it) for it in patterns]
    name = next((name for name, known in KNOWN.items() if known == words), None)
    if name and numbers.random() < 0.7:
        return f"--problem {name}"
    if numbers.random() < 0.1:
        words = [",".join([it, "*", "*"][: 3 - it.count(",")]) for it in words]
    return " ".join(f"--forbid{numbers.choice([' ', '='])}{it}" for it in words)


def audited():
    """The audits of random tables, whose own near and far say nothing here."""
    numbers = Random(1)
    for ids, rounds, count, channels, patterns in tables():
        text = table_text(ids, rounds, count, channels, numbers.randrange(1, 4), numbers.randrange(3))
        yield f"audit {asked(numbers, patterns)}", text, *verdict(ids, rounds, patterns, channels)


# Expressions over the registers of a window's identifiers, by rounds, and what they are: l, o, r are the nearest identifiers.
RULES = [
    ("and(r0, 1)", lambda l, o, r: o & 1),
    ("and(lt(r0, r1), lt(r0, r2))", lambda l, o, r: o < l and o < r),
    ("add(lt(r1, r0), lt(r2, r0))", lambda l, o, r: (l < o) + (r < o)),
    ("xor(and(r0, 1), and(eq(and(r0, 1), and(r1, 1)), eq(and(r0, 1), and(r2, 1))))", lambda l, o, r: o & 1 ^ (l & 1 == o & 1 == r & 1)),
    ("add(and(r1, 1), shl(and(r2, 1), 1))", lambda l, o, r: (l & 1) + 2 * (r & 1)),
    ("if(lt(r1, r0), if(lt(r0, r2), 1, 2), if(lt(r1, r2), 0, 3))", lambda l, o, r: (1 if o < r else 2) if l < o else 0 if l < r else 3),
]


def some_program(numbers, ids, rounds):
    """A program and the channels of its windows."""
    listed = windows(ids, rounds)[0]
    others = {window: numbers.randrange(4) for window in numbers.sample(listed, min(numbers.choice([0, 0, 1, 2, 8]), len(listed)))}
    if rounds == 0:
        chosen = {own: others.get((own,), numbers.randrange(4)) for own in range(ids)}
        return of_identifiers(chosen, 1024), [*chosen.values()]
    expression, rule = numbers.choice(RULES)
    channels = [others.get(window, int(rule(*window[rounds - 1 : rounds + 2]))) for window in listed]
    return of_windows(rounds, 4, others, f"and({expression}, 3)"), channels


def judged():
    """Verdicts on programs."""
    numbers = Random(2)
    for turn in range(JUDGED):
        ids, rounds = OF_PROGRAMS[turn % len(OF_PROGRAMS)]
        text, channels = some_program(numbers, ids, rounds)
        met = sorted({tuple(channels[window] for window in row) for row in in_row(ids, rounds)})
        patterns = fitting_patterns(numbers, 4, met) if numbers.random() < 0.7 else some_patterns(numbers, 4)
        line = f"judge --ids {ids} {asked(numbers, patterns)} --workers {numbers.choice(WORKERS)}"
        yield line, text, *verdict(ids, rounds, patterns, channels)


def some_wider(numbers, ids, rounds):
    """The channels of the identifiers, those of some other windows, and patterns that mostly match at no place but for these windows: an
    entry is a channel that no identifier has, or is the same twice in a row and of one identifier."""
    low = numbers.randrange(64)
    free = [(low + step) % 64 + 64 * turn for step in range(numbers.choice([1, 3, 20])) for turn in range(64)]
    numbers.shuffle(free)
    middles, unused = free[:ids], free[ids : ids + 4]
    if numbers.random() < 0.3:
        middles[0] = middles[-1]
    patterns = []
    for _ in range(numbers.choice([1, 1, 2, 3, 8])):
        entries = numbers.choices(middles, k=numbers.choice([2, 3, 3]))
        place = numbers.randrange(len(entries) - 1)
        if numbers.random() < 0.5:
            entries[place] = numbers.choice(unused)
        else:
            entries[place] = entries[place + 1]
        if len(entries) == 3 and numbers.random() < 0.3:
            entries[2 if place == 0 else 0] = None
        patterns.append((*entries, None)[:3])
    chosen = numbers.sample(windows(ids, rounds)[0], min(numbers.choice([0, 1, 2, 6]), ids))
    others = {window: numbers.choice([numbers.choice(unused), numbers.choice(middles)]) for window in chosen}
    if numbers.random() < 0.6:
        # one place that a pattern matches
        length = 2 * rounds + 2 + (ids > 2 * rounds + 2 and numbers.random() < 0.7)
        ring = numbers.sample(range(ids), length)
        for step, entry in enumerate(numbers.choice(patterns)):
            if entry is not None:
                others[window_at(ring, rounds + step, rounds)] = entry
    return middles, others, patterns


def wider():
    """Audits and verdicts of wider tables."""
    numbers = Random(8)
    for turn in range(WIDER):
        ids, rounds = OF_WIDER[turn % len(OF_WIDER)]
        middles, others, patterns = some_wider(numbers, ids, rounds)
        channels = [others.get(window, middles[window[rounds]]) for window in windows(ids, rounds)[0]]
        answer = verdict_of_tuples(ids, rounds, patterns, channels)
        if rounds < 3 or turn % 4 == 0:
            yield f"audit {options(patterns)}", table_text(ids, rounds, 4096, channels, 1, 0), *answer
        if rounds < 3:
            for workers in [1, 4]:
                text = program_of(rounds, middles, others, 4096)
                yield f"judge --ids {ids} --workers {workers} {options(patterns)}", text, *answer


class Forbidding(NamedTuple):
    """A problem: tables of so many rounds and channels that no pattern matches."""

    ids: int
    rounds: int
    channels: int
    patterns: tuple

    def possible(self):
        """The patterns that such tables can match."""
        return [it for it in self.patterns if all(entry is None or entry < self.channels for entry in it)]

    def clauses(self):
        """The clauses of the formula in order."""
        numbers = windows(self.ids, self.rounds)[1]
        for window in range(len(numbers)):
            yield [window * self.channels + channel + 1 for channel in range(self.channels)]
        for ring in tuples(self.ids, self.rounds, self.patterns):
            row = [numbers[ring[step : step + 2 * self.rounds + 1]] for step in range(len(ring) - 2 * self.rounds)]
            for it in self.possible():
                yield [-(row[step] * self.channels + entry + 1) for step, entry in enumerate(it) if entry is not None]

    def size(self):
        """The numbers of variables and of clauses."""
        count = perm(self.ids, 2 * self.rounds + 1)
        of_tuples = tuple_count(self.ids, self.rounds, self.patterns) * len(self.possible())
        return count * self.channels, count + of_tuples

    def words(self):
        return f"--ids {self.ids} --rounds {self.rounds} --channels {self.channels} {options(self.patterns)}"

    def text(self):
        """The text of the formula."""
        lines = "".join(f"{listed([*clause, 0])}\n" for clause in self.clauses())
        return f"c forbid {' '.join(map(word, self.patterns))}\np cnf {listed(self.size())}\n{lines}"

    def has_table(self):
        """Whether there is such a table, by trying all."""
        return solution(self.ids, self.rounds, self.patterns, self.channels) is not None

    def allows(self, exchange):
        """Whether the tables that solve the problem do so after an exchange: of channels, if the patterns map to themselves."""
        letter, *two = exchange
        if letter == b"i":
            return max(two) < self.ids
        if letter == b"c" and max(two) >= self.channels:
            return False
        possible = {*self.possible()}

        def other(entry):
            if entry is None:
                return None
            return self.channels - 1 - entry if letter == b"m" else sum(two) - entry if entry in two else entry

        return {tuple(map(other, it)) for it in possible} == possible

    def any_exchange(self, numbers):
        """An exchange that is allowed."""
        pairs = [(b"c", *two) for two in product(range(self.channels), repeat=2)]
        of_channels = [it for it in [(b"m",), *pairs] if self.allows(it)]
        if numbers.random() < 0.5:
            return numbers.choice(of_channels)
        return (b"i", numbers.randrange(self.ids), numbers.randrange(self.ids))

    def refuted(self):
        """The line for a refutation."""
        size = f"ids {self.ids} rounds {self.rounds} channels {self.channels}"
        return f"refuted: {size} forbid {' '.join(map(word, self.patterns))}\n"


def some_problems(seed, shapes):
    """Random problems of these shapes."""
    numbers, turn = Random(seed), 0
    while True:
        ids, rounds = shapes[turn % len(shapes)]
        count = numbers.choice([1, 2, 2, 3, 3, 4] if rounds < 2 else [1, 2, 2, 3])
        yield Forbidding(ids, rounds, count, tuple(some_patterns(numbers, count)))
        turn += 1


def written():
    """Formulas, whose whole text is compared."""
    for name, known in KNOWN.items():
        for ids, rounds, count in [(2, 0, 1), (3, 0, 2), (3, 0, 3), (4, 1, 2), (5, 1, 3), (6, 2, 4)]:
            problem = Forbidding(ids, rounds, count, tuple(pattern(it) for it in known))
            size = f"--ids {ids} --rounds {rounds} --channels {count}"
            yield f"formula --problem {name} {size}", b"", problem.text(), 0
    for problem in islice(some_problems(3, OF_FORMULAS), WRITTEN):
        yield f"formula {problem.words()}", b"", problem.text(), 0


def solved():
    """Problems whose formulas a solver satisfies exactly if there is a table."""
    return islice(some_problems(4, TRIED), SOLVED)


def unsolved(seed, shapes, count):
    """Random problems without a table."""
    return islice((problem for problem in some_problems(seed, shapes) if not problem.has_table()), count)


# Problems whose patterns map to themselves by some exchanges of channels, and by others not.
ALIKE = [
    Forbidding(ids, 0, count, tuple(map(pattern, words)))
    for ids, count, words in [
        (3, 2, ["0,0", "1,1"]),
        (3, 2, ["1,1,1", "0,0,0"]),
        (3, 2, ["0,0,0", "1,1"]),
        (4, 3, ["0,0", "1,1", "2,2"]),
        (4, 3, ["0,0", "1,1", "2"]),
        (3, 3, ["0,1", "1,0", "0,0", "1,1", "2,*,*"]),
        (3, 2, ["0,1", "1,0", "0,0", "1,1"]),
        (3, 3, ["0,2", "2,0", "1", "0,0", "2,2"]),
        (4, 3, ["0,0", "1,1", "0,1,2", "2,2", "1,0,2"]),
        (3, 2, ["0,0", "1,1", "5,0"]),
        (3, 2, ["0,*,0", "1,*,1", "*,0,0", "*,1,1"]),
        (2, 1, ["*"]),
        (2, 2, ["*"]),
        (3, 3, ["0", "1", "2"]),
    ]
]


def of_exchange(problem, exchange):
    """A text with one step after an exchange: what the second window's clause becomes, which has that clause for its hint."""
    first = problem.size()[1] + 1
    clause = [problem.channels + channel + 1 for channel in range(problem.channels)]
    letter, *two = exchange
    # an exchange is its own inverse; one that is refused may have no such clause, and is refused before that counts
    is_known = letter == b"m" or max(two) < (problem.ids if letter == b"i" else problem.channels)
    image = [exchanged(problem, exchange, it) for it in clause] if is_known else clause
    hint = next(number for number, it in enumerate(problem.clauses(), 1) if it == clause)
    return f"{first} {listed([letter.decode(), *two, *image, 0, hint, 0])}\n".encode()


def exchanges():
    """Texts with each exchange of the problems above."""
    for problem in ALIKE:
        ids, channels = range(problem.ids + 1), range(problem.channels + 1)
        pairs = [(b"i", *two) for two in product(ids, repeat=2)] + [(b"c", *two) for two in product(channels, repeat=2)]
        for exchange in [(b"m",), *pairs]:
            text = of_exchange(problem, exchange)
            yield f"refute {problem.words()}", text, *report(problem, text)


def refuted():
    """Refutations of random problems, and the same damaged."""
    numbers = Random(5)
    shapes = [(2, 0), (3, 0), (4, 0), (4, 1)]
    problems = [*(it for it in ALIKE if it.channels > 1 and not it.has_table()), *unsolved(6, shapes, REFUTED)]
    for turn, problem in enumerate(problems):
        has_exchanges = turn % 3 > 0
        right = refutation(problem, numbers, has_exchanges)
        yield f"refute {problem.words()}", right, problem.refuted(), 0
        for damage in EXCHANGE_DAMAGES if has_exchanges else DAMAGES:
            text = damage(right, numbers)
            yield f"refute {problem.words()}", text, *report(problem, text)
        # of a part of the patterns, and of near and far in their place
        if len(problem.patterns) > 1:
            part = problem._replace(patterns=problem.patterns[1:])
            yield f"refute {part.words()}", right, *report(part, right)
        other = Separated(*problem[:3], 1, 0)
        yield f"refute {other.words()}", right, *report(other, right)


def made():
    """Problems without a table whose refutations a solver makes."""
    return unsolved(7, TRIED, MADE)


def kept():
    """The refutations and the tables of examples/problems, by the names of their files."""
    for path in sorted((EXAMPLES / "problems").glob("*")):
        if path.suffix == ".rule":
            # The table of a rule is judged by checks/problems.
            continue
        name, *sizes = re.fullmatch(r"([\w-]+)_rounds(\d+)_ids(\d+)_channels(\d+)\..*", path.name).groups()
        rounds, ids, count = map(int, sizes)
        words = KNOWN.get(name) or [it.replace("-", ",").replace("x", "*") for it in name.split("_")]
        problem = Forbidding(ids, rounds, count, tuple(map(pattern, words)))
        asked = f"--problem {name}" if name in KNOWN else options(problem.patterns)
        text = lzma.decompress(path.read_bytes()) if path.suffix == ".xz" else path.read_bytes()
        if ".lrat" in path.suffixes:
            yield f"refute --ids {ids} --rounds {rounds} --channels {count} {asked}", text, problem.refuted(), 0
        else:
            yield f"audit {asked}", text, f"yes: {tuple_count(ids, rounds, problem.patterns)} tuples\n", 0


def turned(window):
    """The channel of weak2_6 in examples/: the last bit, turned where both neighbours have the same one."""
    left, own, right = (it & 1 for it in window)
    return own ^ (left == own == right)


def turned_near_ends(window):
    """That of weak2_12: turned where both neighbours have the same last bit, but not of both neighbours the same holds."""
    bits = [it & 1 for it in window]
    is_inside = [len({*bits[place - 1 : place + 2]}) == 1 for place in [1, 2, 3]]
    return bits[2] ^ (is_inside[1] and not (is_inside[0] and is_inside[2]))


def taken(window):
    """That of matching_bits: an even node is matched to an odd one on its right."""
    left, own, right = (it & 1 for it in window)
    return 1 if (own, right) == (0, 1) else 2 if (left, own) == (0, 1) else 0


# The names of programs of examples/ that are right, with identifiers, rounds and the problem; and of those that are wrong, with their rule.
RIGHT = [
    ("mis_12", 12, 3, KNOWN["mis"]),
    ("mis_10", 10, 4, KNOWN["mis"]),
    ("matching_12", 12, 3, KNOWN["matching"]),
    ("greedy3_12", 12, 3, ["0,0", "1,1", "2,2", "0,2,0", "1,2,1", "2,1,2"]),
    ("weak2_6", 6, 1, KNOWN["weak2"]),
    ("weak2_12", 10, 2, KNOWN["weak2"]),
    ("weak2_23", 23, 2, KNOWN["weak2"]),
]
WRONG = [
    ("mis_7", 7, 2, KNOWN["mis"], lambda window: int(0 in window[::2])),
    ("weak2_6", 7, 1, KNOWN["weak2"], turned),
    ("weak2_12", 11, 2, KNOWN["weak2"], turned_near_ends),
    ("matching_bits", 8, 1, KNOWN["matching"], taken),
]


def examples():
    """Verdicts on the programs of examples/ that are for problems."""
    for name, ids, rounds, words in RIGHT:
        patterns = [pattern(it) for it in words]
        text, line = (EXAMPLES / f"{name}.txt").read_bytes(), f"yes: {tuple_count(ids, rounds, patterns)} tuples\n"
        for workers in [1, 4]:
            yield f"judge --ids {ids} {options(patterns)} --workers {workers}", text, line, 0
    for name, ids, rounds, words, rule in WRONG:
        patterns, channels = [pattern(it) for it in words], [int(rule(window)) for window in windows(ids, rounds)[0]]
        answer = verdict_of_tuples(ids, rounds, patterns, channels)
        for workers in [1, 4]:
            yield f"judge --ids {ids} {options(patterns)} --workers {workers}", (EXAMPLES / f"{name}.txt").read_bytes(), *answer


def rows():
    yield from examples()
    yield from audited()
    yield from judged()
    yield from wider()
    yield from written()
    yield from exchanges()
    yield from refuted()
    yield from kept()
