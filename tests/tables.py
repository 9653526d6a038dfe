"""Tables of programs and reports on table texts: a row has the words, the input, the standard output and the exit status. The expected
values follow from docs/LANGUAGE.md; the channels of random tables are looked up here. Rows of answers that have to be alike compare
the program with itself."""

from itertools import permutations
from random import Random

from damaged import SHAPES, text_of as text_of_entries, window_count
from programs import CV1, ID0, ID0_OF_4, LDB, RED, SHIFT4, TWICE_ID, TWO_REGISTERS, ZERO, cv1_of

# The table of two identifiers and no rounds that gives each identifier itself as its channel, in both versions.
OLD = b"nbhd-table 1\nrounds 0 ids 2 channels 2\n0 : 0\n1 : 1\nend\n"
NEW = b"nbhd-table 2\nrounds 0 ids 2 channels 2 near 1 far 0\n0 : 0\n1 : 1\nend\n"
# The table of four identifiers and one round with one channel.
WINDOWS = [(a, b, c) for a in range(4) for b in range(4) for c in range(4) if len({a, b, c}) == 3]
ONE_CHANNEL = b"nbhd-table 2\nrounds 1 ids 4 channels 1 near 2 far 3\n" + b"".join(b"%d %d %d : 0\n" % it for it in WINDOWS) + b"end\n"

# Table texts, and their texts in version 2.
MIGRATIONS = [(OLD, NEW), (NEW, NEW), (ONE_CHANNEL, ONE_CHANNEL)]

# The line of an audit of a table text.
AUDITS = [(OLD, "yes: 2 tuples\n", 0), (NEW, "yes: 2 tuples\n", 0)]

# A table of three identifiers and no rounds, in both versions: identifier 0 has channel 9, 1 has 4095, and 2 has 0.
OLD_OF_3 = b"nbhd-table 1\nrounds 0 ids 3 channels 4096\n0 : 9\n1 : 4095\n2 : 0\nend\n"
NEW_OF_3 = b"nbhd-table 2\nrounds 0 ids 3 channels 4096 near 7 far 4096\n0 : 9\n1 : 4095\n2 : 0\nend\n"
# The table of four identifiers and one round in which each window has its own number as its channel.
NUMBERED = b"nbhd-table 2\nrounds 1 ids 4 channels 24 near 1 far 0\n" + b"".join(
    b"%d %d %d : %d\n" % (*it, number) for number, it in enumerate(WINDOWS)
) + b"end\n"
PLACES_OF_3 = "   0    2    0\n   1    0    9\n   2    1 4095\n"

# Rings, table texts, and the report. On the ring of NUMBERED the windows are 2 0 3, 0 3 1, 3 1 2 and 1 2 0, which have
# the numbers 13, 4, 21 and 8.
APPLIED = [
    ("2,0,1", OLD_OF_3, PLACES_OF_3, 0),
    ("2,0,1", NEW_OF_3, PLACES_OF_3, 0),
    ("02,00,1", NEW_OF_3, PLACES_OF_3, 0),
    ("1,0", NEW_OF_3, "   0    1 4095\n   1    0    9\n", 0),
    ("3,2,1,0", ONE_CHANNEL, "   0    3    0\n   1    2    0\n   2    1    0\n   3    0    0\n", 0),
    ("0,3,1,2", NUMBERED, "   0    0   13\n   1    3    4\n   2    1   21\n   3    2    8\n", 0),
    ("0", NEW_OF_3, "ring fault G1\n", 4),
    ("0,1,2", NUMBERED, "ring fault G1\n", 4),
    ("0,1,2,0", NEW_OF_3, "ring fault G2\n", 4),
    ("0,3", NEW_OF_3, "ring fault G3 place 1\n", 4),
    ("0,1,2,4294967295", NUMBERED, "ring fault G3 place 3\n", 4),
    ("1,1", NEW_OF_3, "ring fault G4 places 0 1\n", 4),
    ("0,1,2,1", NUMBERED, "ring fault G4 places 1 3\n", 4),
    # A fault of the text comes before one of the ring.
    ("0,0,9", CV1, "table fault A1 at 0\n", 3),
    ("0,0,9", NEW_OF_3[:-1], "table fault A1 at 79\n", 3),
]

# Texts of which only so many bytes are there, and the fault.
STOPS = [
    (OLD, 0, "A1 at 0"),
    (OLD, 12, "A1 at 0"),
    (OLD, 13, "A1 at 13"),
    (OLD, 39, "A1 at 39"),
    (OLD, 53, "A1 at 51"),
    (OLD, 54, "A1 at 51"),
    (NEW, 12, "A1 at 0"),
    (NEW, 13, "A1 at 13"),
    (NEW, 51, "A1 at 13"),
    (NEW, 52, "A1 at 52"),
    (NEW, 66, "A1 at 64"),
    (NEW, 67, "A1 at 64"),
    (OLD, 0, "A1 at 0"),
]

# First lines without their form: the fault is at byte 0.
FIRST_LINES = [
    "nbhd-table 3",
    "nbhd-table 0",
    "nbhd-table 02",
    "nbhd-table 2 ",
    "nbhd-table",
    "Nbhd-table 2",
]

# First lines and second lines without their form: the fault is at byte 13.
SECOND_LINES = [
    ("nbhd-table 1", "rounds 0 ids 1 channels 2"),
    ("nbhd-table 1", "rounds 0 ids 1025 channels 2"),
    ("nbhd-table 1", "rounds 1 ids 163 channels 2"),
    ("nbhd-table 1", "rounds 4 ids 9 channels 2"),
    ("nbhd-table 1", "rounds 4 ids 11 channels 2"),
    ("nbhd-table 1", "rounds 5 ids 12 channels 2"),
    ("nbhd-table 1", "rounds 0 ids 2 channels 0"),
    ("nbhd-table 1", "rounds 0 ids 2 channels 4097"),
    ("nbhd-table 1", "rounds 0 ids 2 channels 02"),
    ("nbhd-table 1", "rounds 0 ids 2  channels 2"),
    ("nbhd-table 1", "rounds 0 ids 2 channels 2 near 1 far 0"),
    ("nbhd-table 2", "rounds 0 ids 2 channels 2"),
    ("nbhd-table 2", "rounds 0 ids 2 channels 2 near 1"),
    ("nbhd-table 2", "rounds 0 ids 2 channels 2 near 0 far 0"),
    ("nbhd-table 2", "rounds 0 ids 2 channels 2 near 4097 far 0"),
    ("nbhd-table 2", "rounds 0 ids 2 channels 2 near 1 far 4097"),
    ("nbhd-table 2", "rounds 0 ids 2 channels 2 near 01 far 0"),
    ("nbhd-table 2", "rounds 0 ids 2 channels 2 near 1 far 00"),
    ("nbhd-table 2", "rounds 0 ids 2 channels 2 far 0 near 1"),
    ("nbhd-table 2", "rounds 0 ids 2 channels 2 near 1 far 0 "),
    ("nbhd-table 2", "rounds 0 ids 1 channels 2 near 1 far 0"),
    ("nbhd-table 2", "rounds 0 ids 2 channels 4097 near 1 far 0"),
]

# The third and the fourth line of a text of version 1, and the fault.
WINDOW_LINES = [
    ("00 : 0", "1 : 1", "A1 at 39"),
    ("0 : 4294967296", "1 : 1", "A1 at 39"),
    ("0 1 : 0", "1 : 1", "A1 at 39"),
    ("0 : 0", "1 :  1", "A1 at 45"),
    ("1 : 1", "0 : 0", "A2 line 3"),
    ("2 : 9", "1 : 1", "A2 line 3"),
    ("0 : 0", "0 : 1", "A2 line 4"),
    ("0 : 2", "1 : 1", "A3 line 3"),
    ("0 : 0", "1 : 2", "A3 line 4"),
]

# The second, the third and the fourth line of a text of version 1, and the fault.
LINES = [
    ("rounds 0 ids 1 channels 2", "0 : 0", "1 : 1", "A1 at 13"),
    ("rounds 0 ids 2 channels 0", "0 : 0", "1 : 1", "A1 at 13"),
    ("rounds 0 ids 2 channels 2", "00 : 0", "1 : 1", "A1 at 39"),
    ("rounds 0 ids 2 channels 2", "0 : 4294967296", "1 : 1", "A1 at 39"),
    ("rounds 0 ids 2 channels 2", "2 : 9", "1 : 1", "A2 line 3"),
    ("rounds 0 ids 2 channels 2", "0 : 2", "1 : 1", "A3 line 3"),
    ("rounds 0 ids 2 channels 2", "1 : 1", "0 : 0", "A2 line 3"),
    ("rounds 0 ids 2 channels 2", "0 : 0", "1 : 2", "A3 line 4"),
]

# Other texts that are no tables, and the fault.
OTHERS = [
    *((OLD + more, "A1 at 55") for more in [b"\n", b"e", b"end\n"]),
    *((NEW + more, "A1 at 68") for more in [b"\n", b"e", b"end\n"]),
    (NEW.replace(b"near 1", b"near 0"), "A1 at 13"),
    (NEW.replace(b"nbhd-table 2", b"nbhd-table 3"), "A1 at 0"),
    (CV1, "A1 at 0"),
]

# The longest table text, and one byte more.
BLANKS = [(134217728 * b" ", "A1 at 0"), (134217729 * b" ", "A1 at 134217728")]

# Programs, options, lines of their table by their numbers from 1, and the number of lines.
TABLE_LINES = [
    (
        CV1,
        "--ids 8",
        {1: "nbhd-table 2", 2: "rounds 1 ids 8 channels 6 near 1 far 0", 3: "0 1 2 : 1", 328: "7 5 1 : 2", 338: "7 6 5 : 0", 339: "end"},
        339,
    ),
    (CV1, "--ids 8 --near 2 --far 1", {2: "rounds 1 ids 8 channels 6 near 2 far 1", 3: "0 1 2 : 1"}, 339),
    (RED, "--ids 8", {26259: "5 1 3 7 0 2 4 : 1"}, 40323),
    (SHIFT4, "--ids 10", {3: "0 1 2 3 4 5 6 7 8 : 0", 3628802: "9 8 7 6 5 4 3 2 1 : 9"}, 3628803),
]

# Programs and options whose table is the same with each number of workers.
BY_WORKERS = [(CV1, "--ids 8"), (cv1_of(12), "--ids 64"), (RED, "--ids 8"), (TWO_REGISTERS, "--ids 8")]

# Programs, their numbers of identifiers, and rings, on which the table text has the channels of the program.
APPLIED_ALIKE = [
    (CV1, 8, "5,1,3,7"),
    (CV1, 8, "0,1,2,3,4,5,6,7"),
    (CV1, 8, "5,1,3"),
    (CV1, 8, "5,1,3,8"),
    (LDB, 8, "0,1,2,3"),
    (ID0, 2, "1,0"),
    (TWO_REGISTERS, 8, "7,0,6,1,5"),
    (RED, 8, "5,1,3,7,0,2,4,6"),
    (SHIFT4, 10, "9,1,2,3,4,5,6,7,8,0"),
]

# Programs and options whose table text is judged as the program is. The last two have long texts.
JUDGED_ALIKE = [
    (CV1, "--ids 8"),
    (LDB, "--ids 8"),
    (ID0, "--ids 2"),
    (ZERO, "--ids 2"),
    (CV1, "--ids 8 --far 1"),
    (CV1, "--ids 8 --near 2"),
    (ID0_OF_4, "--ids 4 --near 2 --far 1"),
    (ID0_OF_4, "--ids 4 --near 1 --far 2"),
    (TWICE_ID, "--ids 4 --near 2 --far 1"),
    (RED, "--ids 8"),
    (cv1_of(12), "--ids 24"),
]


def text_of(*lines):
    return "".join(f"{line}\n" for line in [*lines, "end"]).encode()


def refused():
    """Texts that are no tables, and their faults."""
    yield from ((text[:count], fault) for text, count, fault in STOPS)
    yield from ((text_of(first, "rounds 0 ids 2 channels 2 near 1 far 0", "0 : 0", "1 : 1"), "A1 at 0") for first in FIRST_LINES)
    yield from ((text_of(first, second, "0 : 0", "1 : 1"), "A1 at 13") for first, second in SECOND_LINES)
    yield from ((text_of("nbhd-table 1", "rounds 0 ids 2 channels 2", third, fourth), fault) for third, fourth, fault in WINDOW_LINES)
    yield from ((text_of("nbhd-table 1", *lines), fault) for *lines, fault in LINES)
    yield from OTHERS


def applied_by_hand():
    """Rings on tables with random channels, which are looked up here."""
    random = Random(1987)
    for rounds, ids, channels, near, far, version in SHAPES:
        entries = [random.randrange(channels) for _ in range(window_count(rounds, ids))]
        channel_of = dict(zip(permutations(range(ids), 2 * rounds + 1), entries))
        text = text_of_entries(version, rounds, ids, channels, (near, far), entries)
        for length in sorted({2 * rounds + 2, (2 * rounds + 2 + ids) // 2, ids}):
            ring = random.sample(range(ids), length)
            lines = []
            for place, identifier in enumerate(ring):
                window = tuple(ring[(place + step) % length] for step in range(-rounds, rounds + 1))
                lines.append(f"{place:4} {identifier:4} {channel_of[window]:4}\n")
            yield f"apply --ring {','.join(map(str, ring))}", text, "".join(lines), 0


def rows():
    yield from applied_by_hand()
    for text, newest in MIGRATIONS:
        yield "migrate", text, newest, 0
    for text, out, status in AUDITS:
        yield "audit", text, out, status
    for ring, text, out, status in APPLIED:
        yield f"apply --ring {ring}", text, out, status
    for text, fault in refused():
        for task in ["audit", "apply --ring 0,1", "migrate"]:
            yield task, text, f"table fault {fault}\n", 3
    for text, fault in BLANKS:
        yield "audit", text, f"table fault {fault}\n", 3
    for near, far in [(1, 0), (4096, 7)]:
        yield f"table --ids 2 --near {near} --far {far}", ID0, NEW.replace(b"near 1 far 0", b"near %d far %d" % (near, far)), 0
