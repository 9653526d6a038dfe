"""Verdicts on tables and programs: a row has the words, the input, the standard output and the exit status. Most expected values are
those of a second implementation, a walk over all tuples; the others follow from docs/LANGUAGE.md."""

from itertools import islice, permutations
from math import perm
from random import Random

# Channels of the identifiers from 0 on, near, far, and the line: the table has no round.
OF_IDENTIFIERS = [
    ([0, 1], 1, 0, "yes: 2 tuples"),
    ([0, 0], 1, 0, "no: ring 0 1 place 0 channel 0"),
    ([*range(127), 32], 1, 0, "no: ring 32 127 place 0 channel 32"),
    # The identifiers 1 and 2 have the same channel; each is next to the other's gap.
    ([0, 1, 1, 3], 1, 0, "no: ring 1 2 place 0 channel 1"),
    ([0, 1, 2, 3, 2, 1, 0, 0], 1, 0, "no: ring 0 6 place 0 channel 0"),
    # Places at distance two, neighbours that are not far enough apart, and a ring of three nodes, on which both limits hold
    # for each pair. With two identifiers no ring has three nodes.
    ([*range(4)], 1, 2, "no: ring 0 2 1 places 0 2 channels 0 1"),
    ([*range(2)], 2, 0, "no: ring 0 1 places 0 1 channels 0 1"),
    ([*range(2)], 1, 1, "yes: 0 tuples"),
    ([*range(4)], 2, 1, "no: ring 0 1 2 places 0 1 channels 0 1"),
    ([*range(4)], 1, 1, "yes: 24 tuples"),
    ([*range(3)], 1, 3, "no: ring 0 1 2 places 0 2 channels 0 2"),
    ([*range(4)], 4, 0, "no: ring 0 1 places 0 1 channels 0 1"),
]

# Identifiers of 1,024 with the channel of another, and the line. There are 1,047,552 tuples, in runs of 1,023.
OF_PAIRS = [
    ({}, "yes: 1047552 tuples"),
    ({65: 64}, "no: ring 64 65 place 0 channel 64"),
    ({66: 65}, "no: ring 65 66 place 0 channel 65"),
    ({1: 0}, "no: ring 0 1 place 0 channel 0"),
    # The last of the first 64 tuples, which are judged without a table, and the next one.
    ({64: 0}, "no: ring 0 64 place 0 channel 0"),
    ({65: 0}, "no: ring 0 65 place 0 channel 0"),
    ({1023: 1022}, "no: ring 1022 1023 place 0 channel 1022"),
    ({1023: 255}, "no: ring 255 1023 place 0 channel 255"),
    ({257: 256}, "no: ring 256 257 place 0 channel 256"),
    ({1000: 300, 901: 900}, "no: ring 300 1000 place 0 channel 300"),
    ({600: 100, 602: 601, 99: 98}, "no: ring 98 99 place 0 channel 98"),
    ({5: 1023}, "no: ring 5 1023 place 0 channel 1023"),
]

# Identifiers and rounds of random tables.
SHAPES = [(2, 0), (3, 0), (5, 0), (9, 0), (16, 0), (4, 1), (5, 1), (6, 1), (6, 2), (7, 2), (8, 3)]

# Identifiers, rounds, near, far and a step. The programs give each window its middle, except one window, which has another
# channel: in turn every window whose number is a multiple of the step, and the last. The judge counts the blocks of these
# shapes.
MIDDLES = [(5, 1, 1, 1, 1), (6, 1, 1, 0, 7), (6, 1, 1, 2, 11), (7, 2, 1, 1, 499)]

WORKERS = [1, 2, 3, 9, 64]


def tuples(ids, rounds, far):
    """The identifiers of the windows of two neighbours, or of three where `far` is above 0, in order."""
    return permutations(range(ids), 2 * rounds + 2 + (far > 0))


def verdict(ids, rounds, near, far, channel_of):
    """The line for a table and its exit status: the first tuple whose first window has a channel that differs from the second
    one's by less than `near`, or from the third one's by less than `far`."""
    for ring in tuples(ids, rounds, far):
        first, *others = (channel_of(window) for window in zip(*(ring[place:] for place in range(2 * rounds + 1))))
        for step, other, least in zip([1, 2], others, [near, far]):
            if abs(first - other) < least:
                return no(ring, rounds, near, far, step, first, other)
    return yes(ids, rounds, far)


def no(ring, rounds, near, far, step, first, other):
    """The line for a ring whose places `rounds` and `rounds + step` have channels that are too close, and its exit status."""
    line = " ".join(str(it) for it in ring)
    if (near, far) == (1, 0):
        return f"no: ring {line} place {rounds} channel {first}\n", 1
    return f"no: ring {line} places {rounds} {rounds + step} channels {first} {other}\n", 1


def yes(ids, rounds, far):
    """The line for a table that keeps its separation, and its exit status."""
    return f"yes: {perm(ids, 2 * rounds + 2 + (far > 0))} tuples\n", 0


def table_text(ids, rounds, near, far, channels):
    """The text of a table whose windows have these channels in order, of 4,096."""
    windows = permutations(range(ids), 2 * rounds + 1)
    lines = "".join(f"{' '.join(str(it) for it in window)} : {channel}\n" for window, channel in zip(windows, channels))
    return f"nbhd-table 2\nrounds {rounds} ids {ids} channels 4096 near {near} far {far}\n{lines}end\n".encode()


def chosen(cases, otherwise):
    """An expression: the channel of the first case whose condition holds, else another expression."""
    for condition, channel in reversed(cases):
        otherwise = f"if({condition}, {channel}, {otherwise})"
    return otherwise


def of_identifiers(channels, count):
    """A program without rounds that gives some identifiers these channels, and each other one itself."""
    finish = chosen([(f"eq(r0, {own})", channel) for own, channel in channels.items()], "r0")
    return f"rounds 0\nchannels {count}\nregisters 1\nstart\nr0 = id\nfinish {finish}\n".encode()


# The registers of a window's identifiers after one and two rounds, in their order on the ring.
REGISTERS = {1: ["r1", "r0", "r2"], 2: ["r3", "r1", "r0", "r2", "r4"]}
KEPT = {1: "r0 = r0\nr1 = L\nr2 = R\n", 2: "r0 = r0\nr1 = r1\nr2 = r2\nr3 = L\nr4 = R\n"}


def of_windows(rounds, count, channels, otherwise):
    """A program that gives some windows these channels, and each other one the value of an expression over its registers."""
    registers = 2 * rounds + 1
    text = f"rounds {rounds}\nchannels {count}\nregisters {registers}\nstart\nr0 = id\n"
    text += "".join(f"r{number} = 0\n" for number in range(1, registers))
    for number, (left, right) in zip(range(1, rounds + 1), [("r0", "r0"), ("r2", "r1")]):
        untouched = "".join(f"r{it} = 0\n" for it in range(2 * number + 1, registers))
        text += f"round\nsend left {left}\nsend right {right}\n{KEPT[number]}{untouched}"
    cases = []
    for window, channel in channels.items():
        condition = "1"
        for register, own in zip(REGISTERS[rounds], window):
            condition = f"and({condition}, eq({register}, {own}))"
        cases.append((condition, channel))
    return f"{text}finish {chosen(cases, otherwise)}\n".encode()


def of_numbers(ids, channels):
    """A program of one round that gives some of 5 or 6 identifiers' windows these channels, and each other one its number."""
    second, third = "sub(r0, lt(r1, r0))", "sub(sub(r2, lt(r1, r2)), lt(r0, r2))"
    numbers = {
        5: f"add(add(add(shl(r1, 3), shl(r1, 2)), add({second}, shl({second}, 1))), {third})",
        6: f"add(add(add(shl(r1, 4), shl(r1, 2)), shl({second}, 2)), {third})",
    }
    return of_windows(1, 4096, channels, numbers[ids])


def of_middles(ids, rounds, step):
    """The windows that have another channel than their middle, each with that channel."""
    windows = [*permutations(range(ids), 2 * rounds + 1)]
    for number, window in enumerate(windows):
        if number % step == 0 or number + 1 == len(windows):
            yield {window: number % ids}


def random_tables():
    """Thirty random tables of each shape, with near and far, and the lines of their audits."""
    numbers = Random(20261123)
    for ids, rounds in SHAPES:
        for _ in range(30):
            windows = [*permutations(range(ids), 2 * rounds + 1)]
            channels = dict(zip(windows, (numbers.randrange(128) for _ in windows)))
            near, far = numbers.randrange(1, 4), numbers.randrange(4)
            yield "audit", table_text(ids, rounds, near, far, channels.values()), *verdict(ids, rounds, near, far, channels.get)


def one_bad_tuple(ids, far, step):
    """Programs with a single bad tuple, in turn every one whose number is a multiple of `step`, and the lines of the judge."""
    windows = {window: number for number, window in enumerate(permutations(range(ids), 3))}
    for ring in islice(tuples(ids, 1, far), 0, None, step):
        channel = windows[ring[:3]]
        line = f"no: ring {' '.join(str(it) for it in ring)} "
        line += f"places 1 3 channels {channel} {channel}\n" if far else f"place 1 channel {channel}\n"
        for workers in WORKERS:
            yield f"judge --ids {ids} --far {far} --workers {workers}", of_numbers(ids, {ring[-3:]: channel}), line, 1


def rows():
    for channels, near, far, line in OF_IDENTIFIERS:
        status = int(line.startswith("no"))
        yield "audit", table_text(len(channels), 0, near, far, channels), f"{line}\n", status
        text = of_identifiers({own: channel for own, channel in enumerate(channels) if own != channel}, 1024)
        for workers in WORKERS:
            yield f"judge --ids {len(channels)} --near {near} --far {far} --workers {workers}", text, f"{line}\n", status
    for channels, line in OF_PAIRS:
        text, status = of_identifiers(channels, 1024), int(line.startswith("no"))
        for workers in [*WORKERS, 4, 5]:
            yield f"judge --ids 1024 --workers {workers}", text, f"{line}\n", status
    yield from random_tables()
    for ids, rounds, near, far, step in MIDDLES:
        for channels in of_middles(ids, rounds, step):
            answer = verdict(ids, rounds, near, far, lambda window: channels.get(window, window[rounds]))
            for workers in WORKERS:
                line = f"judge --ids {ids} --near {near} --far {far} --workers {workers}"
                yield line, of_windows(rounds, 4096, channels, "r0"), *answer
    yield from one_bad_tuple(5, 0, 1)
    yield from one_bad_tuple(6, 1, 7)
