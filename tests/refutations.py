"""Refutations of small formulas, right ones and damaged ones, and those of examples/least: a row has the words, the input, the standard
output and the exit status. The expected values are those of a second implementation, a checker that is written here from
docs/LANGUAGE.md. What is in examples/least was found by other programs (docs/LEAST.md), and has to be accepted."""

import lzma
import re
from functools import cache
from itertools import permutations
from math import perm
from pathlib import Path
from random import Random
from typing import NamedTuple

import formulas

FOLDER = Path(__file__).resolve().parent.parent / "examples/least"
COUNT = 500
MAX_BYTES = 1 << 27
NUMBER, LITERAL = re.compile(rb"[0-9]+"), re.compile(rb"-?[0-9]+")
FORM, NOT_ASCENDING, UNKNOWN_VARIABLE, UNKNOWN_HINT, NOT_UNIT, NO_CONFLICT, NO_EMPTY_CLAUSE = "L2", "L3", "L4", "L5", "L6", "L7", "L8"
NO_EXCHANGE = "L9"


class Separated(NamedTuple):
    """A problem: tables of so many rounds and channels that keep a separation."""

    ids: int
    rounds: int
    channels: int
    near: int
    far: int

    def clauses(self):
        return formulas.clauses(*self)

    def size(self):
        return formulas.size(*self)

    def words(self):
        return formulas.words(*self)

    def allows(self, exchange):
        """Whether the tables that solve the problem do so after an exchange."""
        if exchange[0] == b"i":
            return max(exchange[1:]) < self.ids
        return exchange[0] == b"m" or max(exchange[1:]) < self.channels and self.near <= 1 and self.far <= 1

    def any_exchange(self, numbers):
        """An exchange that is allowed."""
        letter = numbers.choice([b"i", b"m", b"c"] if self.near <= 1 and self.far <= 1 else [b"i", b"m"])
        count = 0 if letter == b"m" else 2
        return (letter, *(numbers.randrange(self.ids if letter == b"i" else self.channels) for _ in range(count)))

    def refuted(self):
        """The line for a refutation."""
        return f"refuted: ids {self.ids} rounds {self.rounds} channels {self.channels} near {self.near} far {self.far}\n"


# Problems without a table.
PROBLEMS = [
    Separated(*problem)
    for problem in [
        (2, 0, 1, 1, 0),
        (3, 0, 2, 1, 0),
        (3, 0, 4, 2, 1),
        (3, 0, 3, 1, 2),
        (4, 0, 3, 1, 1),
        (4, 1, 1, 1, 0),
        (4, 1, 2, 2, 0),
        (5, 1, 2, 1, 0),
        (5, 1, 3, 2, 0),
        (5, 1, 2, 1, 1),
        (5, 0, 4, 1, 0),
        (4, 0, 5, 2, 1),
        (5, 1, 3, 1, 1),
    ]
]


class Fault(Exception):
    """The fault of a line."""


def number(word):
    """The value of a number word."""
    if not NUMBER.fullmatch(word) or int(word) >= 1 << 64:
        raise Fault(FORM)
    return int(word)


def literal(word):
    """The value of a literal word, 0 for the end of a list."""
    if not LITERAL.fullmatch(word) or abs(int(word)) > 1 << 31 or word.startswith(b"-") and int(word) == 0:
        raise Fault(FORM)
    return int(word)


def listed(words, value):
    """The values of a list up to its 0, and the words after it."""
    values = []
    for place, word in enumerate(words):
        values.append(value(word))
        if not values[-1]:
            return values[:-1], words[place + 1 :]
    raise Fault(FORM)


def read(line):
    """The step of a line: `None` for a comment, the numbers of a deletion, or an addition's number, exchange, clause and hints."""
    if not line or line.startswith(b"c"):
        return None
    first, *words = line.split(b" ")
    first = number(first)
    if words[:1] == [b"d"]:
        numbers, rest = listed(words[1:], number)
        step = (numbers,)
    else:
        exchange, words = exchange_in(words)
        clause, words = listed(words, literal)
        hints, rest = listed(words, number)
        step = (first, exchange, clause, hints)
    if rest:
        raise Fault(FORM)
    return step


def exchange_in(words):
    """The exchange at the start of these words, `None` if there is none, and the words after it."""
    if words[:1] == [b"m"]:
        return (b"m",), words[1:]
    if words[:1] in ([b"i"], [b"c"]):
        if len(words) < 3:
            raise Fault(FORM)
        return (words[0], number(words[1]), number(words[2])), words[3:]
    return None, words


@cache
def windows(ids, rounds):
    """The windows in order, and their numbers."""
    listed = [*permutations(range(ids), 2 * rounds + 1)]
    return listed, {window: number for number, window in enumerate(listed)}


def exchanged(problem, exchange, literal):
    """What a literal becomes by an exchange."""
    channels = problem.channels
    letter, *two = exchange
    window, channel = divmod(abs(literal) - 1, channels)

    def other(it):
        return sum(two) - it if it in two else it

    if letter == b"i":
        listed, numbers = windows(problem.ids, problem.rounds)
        window = numbers[tuple(map(other, listed[window]))]
    else:
        channel = channels - 1 - channel if letter == b"m" else other(channel)
    variable = window * channels + channel + 1
    return variable if literal > 0 else -variable


def follow(clauses, clause, hints):
    """Refuses the hints of a clause, if they do not lead to a conflict."""
    false = set(clause)
    for place, hint in enumerate(hints, 1):
        if hint not in clauses:
            raise Fault(UNKNOWN_HINT)
        left = [it for it in clauses[hint] if it not in false]
        if not left and place == len(hints):
            return
        if len(left) != 1:
            raise Fault(NOT_UNIT)
        false.add(-left[0])
    raise Fault(NO_CONFLICT)


def first_fault(problem, text):
    """The first fault of a text and its line, `None` for a refutation."""
    clauses = dict(enumerate(problem.clauses(), 1))
    variables, newest = problem.size()
    lines = text.split(b"\n")
    for place, line in enumerate(lines, 1):
        try:
            step = read(line)
            if step and len(step) == 1:
                for it in step[0]:
                    clauses.pop(it, None)
            elif step:
                name, exchange, clause, hints = step
                if name <= newest:
                    raise Fault(NOT_ASCENDING)
                if any(abs(it) > variables for it in clause):
                    raise Fault(UNKNOWN_VARIABLE)
                if exchange and not problem.allows(exchange):
                    raise Fault(NO_EXCHANGE)
                follow(clauses, [exchanged(problem, exchange, it) for it in clause] if exchange else clause, hints)
                if not clause:
                    return None
                clauses[name], newest = clause, name
        except Fault as fault:
            return f"{fault} line {place}"
    return f"{NO_EMPTY_CLAUSE} line {len(lines)}"


def report(problem, text):
    """The line for a text and its exit status."""
    if len(text) > MAX_BYTES:
        return "refutation fault L1\n", 3
    fault = first_fault(problem, text)
    return (f"refutation fault {fault}\n", 3) if fault else (problem.refuted(), 0)


class Search:
    """A search for a refutation: it decides variables at random, and learns a clause of each conflict."""

    def __init__(self, problem, numbers):
        self.numbers = numbers
        self.clauses, self.places, self.steps = {}, {}, []
        for clause in problem.clauses():
            self.add(clause)
        self.close([])

    def add(self, clause):
        name = len(self.clauses) + 1
        self.clauses[name] = clause
        for it in clause:
            self.places.setdefault(it, []).append(name)
        return name

    def propagate(self, decisions):
        """The true literals in order, each with the clause that it is the last one of, and a clause without a literal left."""
        reasons = {it: None for it in decisions}
        units = [name for name, clause in self.clauses.items() if len(clause) < 2]
        order = [*decisions]
        for place in range(-1, 10**9):
            if place >= len(order):
                return reasons, None
            for name in units if place < 0 else self.places.get(-order[place], []):
                left = [it for it in self.clauses[name] if -it not in reasons]
                if not left:
                    return reasons, name
                if len(left) == 1 and left[0] not in reasons:
                    reasons[left[0]] = name
                    order.append(left[0])

    def close(self, decisions):
        """Learns that not all of these literals are true."""
        while True:
            reasons, conflict = self.propagate(decisions)
            if conflict:
                break
            free = [it for clause in self.clauses.values() for it in clause if it not in reasons and -it not in reasons]
            self.close([*decisions, self.numbers.choice(free)])
        needed, hints = {-it for it in self.clauses[conflict]}, [conflict]
        for it in reversed([*reasons]):
            if it in needed and reasons[it]:
                hints.append(reasons[it])
                needed |= {-other for other in self.clauses[reasons[it]] if other != it}
        clause = [-it for it in decisions if it in needed]
        self.steps.append((self.add(clause), clause, hints[::-1]))


def written(word, numbers):
    """A word, and a number now and then with leading zeros."""
    return f"{word:09}" if isinstance(word, int) and numbers.random() < 0.002 else str(word)


def refutation(problem, numbers, has_exchanges=False):
    """The text of a refutation: numbers with gaps, deletions, comments and leading zeros here and there. With exchanges some steps add
    what a clause becomes by an exchange, and from that the clause."""
    steps = Search(problem, numbers).steps
    last_uses = {hint: name for name, _, hints in steps for hint in hints}
    count = problem.size()[1]
    lines, names, newest = [], {}, count
    for name, clause, hints in steps:
        newest += numbers.choice([1, 1, 1, 2, 10])
        names[name] = newest
        reasons, words = [names.get(it, it) for it in hints], []
        if has_exchanges and numbers.random() < 0.4:
            exchange = problem.any_exchange(numbers)
            words = [exchange[0].decode(), *exchange[1:]]
            lines.append([newest, *words, *(exchanged(problem, exchange, it) for it in clause), 0, *reasons, 0])
            reasons = [newest]
            newest += 1
            names[name] = newest
        if clause or not words:
            lines.append([newest, *words, *clause, 0, *reasons, 0])
        done = [names.get(hint, hint) for hint in hints if last_uses[hint] == name]
        if done and numbers.random() < 0.3:
            lines.append([newest, "d", *done, 0])
        if numbers.random() < 0.06:
            lines.append(numbers.choice([[], ["c", "a", "comment"]]))
    texts = [" ".join(written(word, numbers) for word in line) for line in lines]
    return "\n".join(texts).encode() + b"\n" * (numbers.random() < 0.5)


def put(parts, place, *new):
    """The parts with the one at a place replaced."""
    return [*parts[:place], *new, *parts[place + 1 :]]


def other_digit(text, numbers):
    place = numbers.choice([it.start() for it in re.finditer(rb"[0-9]", text)])
    return text[:place] + b"%d" % numbers.randrange(10) + text[place + 1 :]


def without_word(text, numbers):
    words = re.split(rb"( |\n)", text)
    place = 2 * numbers.randrange(len(words) // 2)
    return b"".join(words[:place] + words[place + 2 :])


def word_twice(text, numbers):
    words = re.split(rb"( |\n)", text)
    place = 2 * numbers.randrange(len(words) // 2)
    return b"".join(put(words, place, words[place], b" ", words[place]))


def without_line(text, numbers):
    lines = text.split(b"\n")
    return b"\n".join(put(lines, numbers.randrange(len(lines))))


def line_twice(text, numbers):
    lines = text.split(b"\n")
    place = numbers.randrange(len(lines))
    return b"\n".join(put(lines, place, lines[place], lines[place]))


def lines_exchanged(text, numbers):
    lines = text.split(b"\n")
    first, second = numbers.randrange(len(lines)), numbers.randrange(len(lines))
    lines[first], lines[second] = lines[second], lines[first]
    return b"\n".join(lines)


def cut_off(text, numbers):
    return text[: numbers.randrange(len(text))]


def deletion_put_in(text, numbers):
    lines = text.split(b"\n")
    names = re.findall(rb"(?<= )[1-9][0-9]*(?= )", text) or [b"1"]
    place = numbers.randrange(len(lines))
    chosen = [numbers.choice(names) for _ in range(numbers.randrange(1, 4))]
    return b"\n".join(put(lines, place, b" ".join([b"1 d", *chosen, b"0"]), lines[place]))


def byte_put_in(text, numbers):
    place = numbers.randrange(len(text) + 1)
    return text[:place] + bytes([numbers.choice(b"0123456789 -+dcim\n\r\t\0\xff")]) + text[place:]


def sign_changed(text, numbers):
    place = numbers.choice([it.start() for it in re.finditer(rb"-?[0-9]+", text)])
    return text[:place] + (text[place + 1 :] if text[place : place + 1] == b"-" else b"-" + text[place:])


def other_letter(text, numbers):
    places = [it.start() for it in re.finditer(rb"(?<= )[icm](?= )", text)]
    if not places:
        return byte_put_in(text, numbers)
    place = numbers.choice(places)
    return text[:place] + bytes([numbers.choice(b"icmd")]) + text[place + 1 :]


DAMAGES = [
    other_digit,
    without_word,
    word_twice,
    without_line,
    line_twice,
    lines_exchanged,
    cut_off,
    deletion_put_in,
    byte_put_in,
    sign_changed,
]
EXCHANGE_DAMAGES = [other_letter, *DAMAGES[1:]]

# Texts for a problem with 15 clauses and 6 variables. The first clauses are 1 2, 3 4 and 5 6, and the fourth is -1 -3.
SMALL = Separated(3, 0, 2, 1, 0)
TEXTS = [
    "",
    "\n",
    "\n\n",
    "c\n",
    "comment",
    " c",
    "d",
    "d 1 0",
    "0 d 0",
    "1 d 1 0",
    "1 d 1 0 ",
    "1 d 1",
    "1 d",
    "1 d  1 0",
    "1 d 00",
    "1 d 1 0 0",
    "1 d -1 0",
    "1 d 18446744073709551615 0",
    "1 d 18446744073709551616 0",
    "18446744073709551615 d 0",
    "18446744073709551616 d 0",
    "1 D 0",
    "1",
    "1 0",
    "1 0 0",
    "0 0 0",
    "15 0 0",
    "16 0 0",
    "16 0 0 0",
    "16 0 0 ",
    " 16 0 0",
    "16  0 0",
    "16 0  0",
    "16 0 0\r",
    "16\t0 0",
    "+16 0 0",
    "-16 0 0",
    "16 00 00",
    "16 -0 0 0",
    "16 0 -0 0",
    "16 0 -1 0",
    "16 0 +1 0",
    "16 0 1",
    "16 1 0",
    "16 7 0 0",
    "16 -7 0 0",
    "16 6 0 0",
    "16 -6 0 99 0",
    "16 2147483648 0 0",
    "16 -2147483648 0 0",
    "16 2147483649 0 0",
    "16 -2147483649 0 0",
    "15 7 0 0",
    "16 7 0 99 0",
    "18446744073709551615 0 0",
    "18446744073709551616 0 0",
    "000000000000000000000000000016 0 0",
    "16 1 0 1 0",
    "16 1 2 0 1 0",
    "16 2 1 0 1 0",
    "16 1 1 0 1 0",
    "16 1 2 0 01 0",
    "16 1 2 0 1 1 0",
    "16 1 2 0 0",
    "16 1 2 0 99 0",
    "16 1 2 0 0 0",
    "16 1 2 0 1 99 0",
    "16 1 2 0 16 0",
    "16 1 2 0 18446744073709551615 0",
    "16 1 -1 0 1 4 0",
    "16 1 -1 0 0",
    "16 1 -1 2 0 1 0",
    "c\n\nc\n16 1 0 2 0",
    "1 d 1 0\n16 1 2 0 1 0",
    "1 d 2 99 0 \n16 1 2 0 1 0",
    "1 d 2 99 16 0\n16 1 2 0 1 0\n17 1 2 0 16 0\n17 d 16 0\n18 1 2 0 17 0\n19 1 2 0 16 0",
    "16 1 2 0 1 0\n16 1 2 0 1 0",
    "16 1 2 0 1 0\n15 1 2 0 1 0",
    "20 1 2 0 1 0\n18 1 2 0 1 0",
    "20 1 2 0 1 0\n21 1 2 0 20 0\n22 1 2 0 19 0",
    "16 i 0 1 3 4 0 1 0",
    "16 i 1 0 3 4 0 1 0",
    "16 i 0 1 4 3 0 01 0",
    "16 i 0 2 3 4 0 1 0",
    "16 i 2 2 3 4 0 2 0",
    "16 i 0 1 -3 -5 0 4 0",
    "16 i 0 1 3 4 0 2 0",
    "16 i 0 1 3 4 0 0",
    "16 i 0 1 3 4 0 99 0",
    "16 i 0 1 3 4 0 1 1 0",
    "16 i 0 3 3 4 0 1 0",
    "16 i 3 0 3 4 0 1 0",
    "16 i 0 18446744073709551615 3 4 0 1 0",
    "16 i 0 18446744073709551616 3 4 0 1 0",
    "16 i 0 1 7 0 1 0",
    "16 i 0 3 7 0 1 0",
    "15 i 0 3 7 0 1 0",
    "16 i",
    "16 i 0",
    "16 i 0 1",
    "16 i 0 1 0",
    "16 i 0 1 3 4 0 1",
    "16 i 0 1 3 4 0 1 0 0",
    "16 i -0 1 3 4 0 1 0",
    "16 i  0 1 3 4 0 1 0",
    "16 ii 0 1 3 4 0 1 0",
    "16 I 0 1 3 4 0 1 0",
    "i 0 1 3 4 0 1 0",
    "16 i 0 1 0 0",
    "16 c 0 1 2 1 0 1 0",
    "16 c 1 1 1 2 0 1 0",
    "16 c 0 2 2 1 0 1 0",
    "16 c 0 2 7 1 0 1 0",
    "16 c 0 1 -2 -4 0 4 0",
    "16 c 0 1 -1 -3 0 4 0",
    "16 m 2 1 0 1 0",
    "16 m -2 -4 0 4 0",
    "16 m -1 -3 0 4 0",
    "16 m 0 1 2 1 0 1 0",
    "16 m 0 0",
    "16 m",
]


def small_refutation():
    """A refutation of the small problem: of the first window's channels each leads to a conflict."""
    names = {tuple(clause): name for name, clause in enumerate(SMALL.clauses(), 1)}
    not_first = [names[-1, -3], names[3, 4], names[-1, -5], names[5, 6], names[-4, -6]]
    not_second = [1, names[-2, -4], 2, names[-2, -6], 3, names[-3, -5]]
    return f"16 -1 0 {' '.join(map(str, not_first))} 0", f"17 0 16 {' '.join(map(str, not_second))} 0"


def small_texts():
    """Texts that are written by hand, for the small problem."""
    yield from TEXTS
    first, last = small_refutation()
    yield from [f"{first}\n{last}", f"{first}\n{last}\n", f"{first}\n{last}\nwhat follows\n\xff", f"{first}\n\n{last}"]
    yield from [f"{first}\nc \xff\n{last}", f"{first}\n{last} ", f"{first} \n{last}", f"{first}\r\n{last}", f"{last}\n{first}"]
    yield from [first, f"{first}\n", f"{first}\n1 d 16 0\n{last}", f"{first}\n1 d 17 0\n{last}", f"1 d 1 0\n{first}\n{last}"]
    yield from [f"{first}\n{last[:-2]}", f"{first}\n{last[:-2]} 1 0", f"{first}\n{last.replace(' 16', '')}"]
    # a clause with a literal twice has two literals left
    yield f"16 -1 -1 0{first[7:]}\n{last}"


def kept():
    """The refutations and the tables of examples/least, by the names of their files. The tables of rules are judged by docs/LEAST.md."""
    for path in sorted(path for path in FOLDER.iterdir() if path.suffix != ".rule"):
        problem = Separated(*(int(re.search(rf"{name}(\d+)", path.name)[1]) for name in Separated._fields))
        if ".lrat" in path.suffixes:
            text = lzma.decompress(path.read_bytes()) if path.suffix == ".xz" else path.read_bytes()
            yield f"refute {problem.words()}", text, problem.refuted(), 0
        else:
            count = perm(problem.ids, 2 * problem.rounds + 2 + (problem.far > 0))
            yield "audit", path.read_bytes(), f"yes: {count} tuples\n", 0


def rows():
    yield from kept()
    for text in small_texts():
        text = text.encode("latin-1")
        yield f"refute {SMALL.words()}", text, *report(SMALL, text)
    for text, line in [(MAX_BYTES * b" ", "refutation fault L2 line 1\n"), (MAX_BYTES * b" " + b" ", "refutation fault L1\n")]:
        yield f"refute {SMALL.words()}", text, line, 3
    for has_exchanges, damages in [(False, DAMAGES), (True, EXCHANGE_DAMAGES)]:
        numbers = Random(20261127)
        for turn in range(COUNT):
            problem = PROBLEMS[turn % len(PROBLEMS)]
            line, right = f"refute {problem.words()}", refutation(problem, numbers, has_exchanges)
            yield line, right, problem.refuted(), 0
            for damage in damages:
                text = damage(right, numbers)
                yield line, text, *report(problem, text)
