"""Refutations by cases that are alike: tables stay solutions when identifiers or channels are exchanged (Krishnamurthy 1985).

A clique of windows has distinct channels. Where near and far are at most 1 all channels are alike, so these are fixed to 0, 1, 2 ..;
elsewhere one window is fixed to a channel, since all windows are alike, and that channel is refuted for each window, and by the mirror
of the channels its opposite, unless patterns are forbidden, which need not allow the mirror. The identifiers that no fixed window has are
alike too. So there is a window for each of them whose channels rise, and a case for each list of channels that rise. Each such step is a
line with an exchange, which `nbhd refute` checks.
"""

from collections import deque
from itertools import combinations, combinations_with_replacement, permutations
from math import comb


class Damaged(Exception):
    """What is wrong with the proof of a case."""


def skip_head(file):
    """Reads the head of a formula, and returns the number of the clauses, which follow in the file."""
    return int(next(words for words in (line.split() for line in file) if words[0] in ("p", b"p"))[3])


class Question:
    """The formula of a number of channels, and which windows are fixed or rise. `forbidden` are patterns in place of near and far."""

    def __init__(self, ids, rounds, channels, near, far, forbidden=()):
        self.ids, self.rounds, self.channels, self.near, self.far = ids, rounds, channels, near, far
        self.windows = [*permutations(range(ids), 2 * rounds + 1)]
        self.numbers = {window: number for number, window in enumerate(self.windows)}
        self.has_mirror = not forbidden
        self.are_channels_alike = near <= 1 and far <= 1 and not forbidden
        self.fixed = self.clique() if self.are_channels_alike else self.windows[:1]
        used = {it for window in self.fixed for it in window}
        last = self.fixed[-1][1:]
        self.rising = [(*last, it) for it in range(ids) if it not in used]

    def clique(self):
        """Windows of one ring that are all close to each other, at most one for each channel."""
        length = 2 * self.rounds + 1
        size = self.ids if self.rounds == 0 else length + 1 + (self.far > 0)
        reach = size if self.rounds == 0 else 1 + (self.far > 0)
        if size > self.ids:
            return self.windows[:1]
        places = []
        for place in range(size):
            if all(min(place - other, size - place + other) <= reach for other in places):
                places.append(place)
        ring = [*range(size)] * 2
        return [tuple(ring[place : place + length]) for place in places][: self.channels]

    def literal(self, window, channel):
        return self.numbers[window] * self.channels + channel + 1

    def image(self, literal, exchange):
        """What a literal becomes by an exchange."""
        letter, *two = exchange
        window, channel = divmod(abs(literal) - 1, self.channels)

        def other(it):
            return sum(two) - it if it in two else it

        if letter == "i":
            window = self.numbers[tuple(map(other, self.windows[window]))]
        else:
            channel = self.channels - 1 - channel if letter == "m" else other(channel)
        variable = window * self.channels + channel + 1
        return variable if literal > 0 else -variable

    def assumed(self, low, channels):
        """The literals of a case: the channels of the fixed windows, from `low` on, and of the first ones that rise."""
        fixed = [self.literal(window, low + place) for place, window in enumerate(self.fixed)]
        return fixed + [self.literal(window, channel) for window, channel in zip(self.rising, channels)]


def units(question, low):
    """The clauses that no window has a channel below `low`, nor one of their mirror if there is that."""
    mirror = range(question.channels - low, question.channels) if question.has_mirror else ()
    channels = sorted({*range(low), *mirror})
    return [[-question.literal(window, channel)] for window in question.windows for channel in channels]


def head(question, clause_count, clauses):
    """The first lines of a case: the formula's own clauses follow."""
    count = clause_count + len(clauses)
    lines = "".join(f"{' '.join(map(str, clause))} 0\n" for clause in clauses)
    return f"p cnf {len(question.windows) * question.channels} {count}\n{lines}"


class Refutation:
    """A refutation that is written line by line."""

    def __init__(self, question, formula, path):
        self.question, self.file, self.line_count, self.is_done = question, open(path, "w", encoding="ascii"), 0, False
        # Where the lines of each case begin.
        self.sections = []
        self.lemmas, self.by_literal = [], {}
        kept = {question.numbers[window] for window in question.fixed + question.rising}
        with open(formula, encoding="ascii") as file:
            self.clause_count = skip_head(file)
            for number, line in enumerate(file, 1):
                clause = [*map(int, line.split()[:-1])]
                if all((abs(it) - 1) // question.channels in kept for it in clause):
                    self.index(number, clause)
        self.newest = self.clause_count

    def index(self, number, clause):
        """Notes a clause by its literals, but for those that are there twice."""
        for it in clause:
            if clause.count(it) == 1:
                self.by_literal.setdefault(it, []).append((number, clause))

    def write(self, *words):
        self.file.write(" ".join(map(str, words)) + "\n")
        self.line_count += 1

    def size(self):
        self.file.flush()
        return self.file.tell()

    def add(self, clause, hints, exchange=()):
        """Adds a clause, and returns its number."""
        self.newest += 1
        self.write(self.newest, *exchange, *clause, 0, *hints, 0)
        self.is_done = self.is_done or not clause
        return self.newest

    def keep(self, number, clause):
        """Notes a clause for later cases."""
        self.lemmas.append((number, clause))
        self.index(number, clause)

    def images(self, number, clause, exchanges):
        """Adds what a clause becomes by any of these exchanges one after another. Returns all by their literals."""
        found, waiting = {frozenset(clause): number}, deque([clause])
        self.keep(number, clause)
        while waiting:
            mine = waiting.popleft()
            for exchange in exchanges:
                image = [self.question.image(it, exchange) for it in mine]
                if frozenset(image) not in found:
                    found[frozenset(image)] = self.add(image, [found[frozenset(mine)]], exchange)
                    self.keep(found[frozenset(image)], image)
                    waiting.append(image)
        return found

    def everywhere(self, number, clause):
        """Adds what a clause becomes by all exchanges of identifiers and by the mirror if there is that."""
        pairs = [("i", *two) for two in combinations(range(self.question.ids), 2)]
        return self.images(number, clause, [*pairs, ("m",)] if self.question.has_mirror else pairs)

    def insert(self, name, path, assumed, lemmas):
        """Adds the steps of a case's proof, each with the assumed literals that it rests on. Returns the last clause and its number."""
        self.sections.append((self.line_count + 1, name))
        first = len(assumed) + len(lemmas)
        names, rests_on = dict(enumerate((number for number, _ in lemmas), len(assumed) + 1)), {}
        with open(path, encoding="ascii", errors="replace") as file:
            for line in file:
                try:
                    clause = self.insert_line(line.split(), assumed, first, names, rests_on)
                except (ValueError, KeyError, IndexError):
                    raise Damaged(f"{line[:60].strip()!r} is no step of its proof") from None
                if clause is not None:
                    return self.newest, clause
        raise Damaged("its proof does not end with the empty clause")

    def insert_line(self, words, assumed, first, names, rests_on):
        """Adds a step of a case's proof. Returns the clause that the empty one becomes, `None` for another step."""
        number = int(words[0])

        def name(hint):
            return hint - first if first < hint <= first + self.clause_count else names[hint]

        if words[1] == "d":
            self.write(self.newest, "d", *(name(int(word)) for word in words[2:-1]), 0)
            return None
        end = words.index("0")
        clause, hints = [*map(int, words[1:end])], [*map(int, words[end + 1 : -1])]
        base, known = 0, []
        for hint in hints:
            if hint <= len(assumed):
                base |= 1 << hint - 1
            else:
                base |= rests_on.get(hint, 0)
                known.append(name(hint))
        if base:
            rests_on[number] = base
        extra = [-it for place, it in enumerate(assumed) if base >> place & 1 and -it not in clause]
        names[number] = self.add(clause + extra, known)
        return None if clause else extra

    def section(self, line):
        """The case that a line belongs to, `None` for a line before the first."""
        return next((name for first, name in reversed(self.sections) if first <= line), None)

    def cases(self, most):
        """The lists of channels that rise, of as many windows as lead to at most `most` lists."""
        question = self.question
        false = {-it for it in question.assumed(0, ())}
        channels = []
        if question.rising:
            literals = [-question.literal(question.rising[0], channel) for channel in range(question.channels)]
            channels = [channel for channel, it in enumerate(literals) if not self.reason(it, false)]
        count = len(question.rising)
        while count and comb(len(channels) + count - 1, count) > most:
            count -= 1
        return [*combinations_with_replacement(channels, count)]

    def free(self, number, clause):
        """Refutes that the fixed windows have distinct channels, from the clause that they have not those of their places."""
        question, fixed = self.question, self.question.fixed
        assumed = [question.literal(window, place) for place, window in enumerate(fixed)]
        for place in reversed(range(len(fixed))):
            mine = assumed[place]
            if -mine not in clause:
                continue
            hints = []
            for other in range(place + 1, question.channels):
                exchange = ("c", place, other)
                hints.append(self.add([question.image(it, exchange) for it in clause], [number], exchange))
            hints.append(number)
            for other in range(place):
                pair = {-assumed[other], -question.literal(fixed[place], other)}
                hints.append(next(name for name, it in self.by_literal[-assumed[other]] if set(it) == pair))
            clause = [-it for it in assumed[:place]]
            number = self.add(clause, [*hints, question.numbers[fixed[place]] + 1])
        return number

    def refute(self, solve, low, channels=()):
        """Refutes the fixed windows' channels, from `low` on, beside those of the first windows that rise. `solve` adds the proof of a
        case and returns the last clause and its number, or `None` where the next window's channels are to be gone through."""
        question, place = self.question, len(channels)
        assumed = question.assumed(low, channels)
        if answer := solve(self, low, channels):
            return answer
        window, false = question.rising[place], {-it for it in assumed}
        pairs = [("i", window[-1], later[-1]) for later in question.rising[place + 1 :]]
        for channel in range(question.channels):
            mine = -question.literal(window, channel)
            if self.reason(mine, false):
                continue
            number, clause = self.refute(solve, low, (*channels, channel))
            if mine not in clause:
                return number, clause
            if len(question.fixed) == 1 and len(clause) == 2:
                self.everywhere(number, clause)
            else:
                self.images(number, clause, pairs)
        hints = [self.reason(-question.literal(window, channel), false) for channel in range(question.channels)]
        clause = [-it for it in assumed]
        return self.add(clause, [*hints, question.numbers[window] + 1]), clause

    def reason(self, mine, false):
        """The number of a clause whose other literals are false, `None` if there is none."""
        return next((number for number, clause in self.by_literal.get(mine, []) if all(it == mine or it in false for it in clause)), None)

    def complete(self, solve):
        """Makes the whole refutation. Without channels `solve` is asked for what is left where no window has a channel below `low`."""
        question = self.question
        if question.are_channels_alike:
            self.free(*self.refute(solve, 0))
        low = 0
        while not self.is_done:
            number, clause = self.refute(solve, low)
            self.lemmas = [(number, clause) for number, clause in self.lemmas if len(clause) == 1]
            if not self.is_done:
                self.everywhere(number, clause)
                low += 1
                solve(self, low, None)
        self.file.close()
