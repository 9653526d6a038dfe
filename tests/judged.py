"""Verdicts on 2,000 pseudo-random tables of all shapes up to 9 identifiers, and on wider ones at neighbours. Channels are often equal
modulo 64, as the judge's masks see them. A row has the words, the input, the standard output and the exit status. The expected values
are those of a second implementation, a walk over all tuples."""

from functools import cache
from itertools import permutations
from random import Random

from verdicts import no, of_identifiers, of_windows, tuples, yes

# Identifiers and rounds, and the number of tables of each shape: few of the largest one, whose texts have 3 MB.
# The wider ones have so many windows that masks are made for their runs.
WIDER = [(18, 1), (24, 1)]
SHAPES = [(ids, rounds) for rounds in range(4) for ids in range(2 * rounds + 2, 10)] + WIDER
LARGEST = (9, 3)
OF_LARGEST, OF_WIDER, OF_OTHERS = 24, 48, 104

WORKERS = [1, 4]


@cache
def windows_of(ids, rounds):
    """The windows in order."""
    return [*permutations(range(ids), 2 * rounds + 1)]


@cache
def numbers_of(ids, rounds, far):
    """For each tuple in order the numbers of its two windows, or of its three."""
    numbers = {window: number for number, window in enumerate(windows_of(ids, rounds))}
    length = 2 * rounds + 1
    return [tuple(numbers[ring[step : step + length]] for step in range(2 + (far > 0))) for ring in tuples(ids, rounds, far)]


def verdict(ids, rounds, near, far, channels):
    """The line for a table whose windows have these channels in order, and its exit status."""
    for number, (first, *others) in enumerate(numbers_of(ids, rounds, far > 0)):
        for step, other, least in zip((1, 2), others, (near, far)):
            if abs(channels[first] - channels[other]) < least:
                ring = next(ring for at, ring in enumerate(tuples(ids, rounds, far)) if at == number)
                return no(ring, rounds, near, far, step, channels[first], channels[other])
    return yes(ids, rounds, far)


def text_of(ids, rounds, near, far, count, channels):
    """The text of a table of `count` channels."""
    pairs = zip(windows_of(ids, rounds), channels)
    lines = "".join(f"{' '.join(map(str, window))} : {channel}\n" for window, channel in pairs)
    return f"nbhd-table 2\nrounds {rounds} ids {ids} channels {count} near {near} far {far}\n{lines}end\n".encode()


def of_middles(numbers, ids, count, apart):
    """A channel for each identifier. They differ by `apart` at least, if there are enough channels."""
    free = count - (ids - 1) * (apart - 1)
    if free < ids:
        return [numbers.randrange(count) for _ in range(ids)]
    middles = [channel + place * (apart - 1) for place, channel in enumerate(sorted(numbers.sample(range(free), ids)))]
    numbers.shuffle(middles)
    return middles


def some_windows(numbers, windows, middles, count):
    """Up to three windows with another channel: that of some identifier, or any."""
    chosen = numbers.sample(windows, min(numbers.randrange(4), len(windows)))
    return {window: numbers.choice([numbers.choice(middles), numbers.randrange(count)]) for window in chosen}


def program_of(rounds, middles, others, count):
    """A program for the table, of at most two rounds."""
    if rounds == 0:
        return of_identifiers({own: others.get((own,), channel) for own, channel in enumerate(middles)}, count)
    otherwise = "0"
    for own, channel in enumerate(middles):
        otherwise = f"if(eq(r0, {own}), {channel}, {otherwise})"
    return of_windows(rounds, count, others, otherwise)


def rows(ids, rounds):
    """Tables of a shape. One in four has any channels. Each other window has the channel of its middle, but for up to three."""
    numbers = Random(100 * ids + rounds)
    windows = windows_of(ids, rounds)
    is_wider = (ids, rounds) in WIDER
    for table in range(OF_LARGEST if (ids, rounds) == LARGEST else OF_WIDER if is_wider else OF_OTHERS):
        count, near, far = numbers.randrange(1, 201), numbers.randrange(1, 5), 0 if is_wider else numbers.randrange(4)
        middles = of_middles(numbers, ids, count, max(near, far))
        others = some_windows(numbers, windows, middles, count)
        channels = [others.get(window, middles[window[rounds]]) for window in windows]
        if table % 4 == 0:
            channels = [numbers.randrange(count) for _ in windows]
        answer = verdict(ids, rounds, near, far, channels)
        yield "audit", text_of(ids, rounds, near, far, count, channels), *answer
        if table % 4 == 1 and rounds < 3 and count >= ids:
            for workers in WORKERS:
                line = f"judge --ids {ids} --near {near} --far {far} --workers {workers}"
                yield line, program_of(rounds, middles, others, count), *answer
