"""Reports on programs: a row has the words, the input, the standard output and the exit status. The expected values follow from
docs/LANGUAGE.md; those of the long rings and of a program of three rounds are computed here."""

from programs import (
    CV1,
    CV1_SENDS_L,
    CV1_WITH_BLANKS,
    EIGHT_REGISTERS,
    ID0,
    ID0_OF_4,
    LDB,
    NOT_HEAD,
    OWN,
    RED,
    SHIFT4,
    SWAP,
    THREE_ROUNDS,
    TWICE_ID,
    TWO_REGISTERS,
    TWO_REGISTERS_OF_200,
    ZERO,
    ZERO_HEAD,
    cv1_of,
    full_tree,
    nested,
)

CHECKS = [
    ("check --ids 64", cv1_of(12), "accepted ids 64 rounds 1 channels 12 bound 11 windows 249984\n", 0),
    ("check --ids 102", cv1_of(14), "accepted ids 102 rounds 1 channels 14 bound 13 windows 1030200\n", 0),
    ("check --ids 103", cv1_of(14), "accepted ids 103 rounds 1 channels 14 bound 13 windows 1061106\n", 0),
    ("check --ids 162", cv1_of(16), "accepted ids 162 rounds 1 channels 16 bound 15 windows 4173120\n", 0),
    ("check --ids 10", SHIFT4, "accepted ids 10 rounds 4 channels 10 bound 9 windows 3628800\n", 0),
    ("check --ids 8", RED, "accepted ids 8 rounds 3 channels 4 bound 3 windows 40320\n", 0),
    ("check --ids 4", CV1, "accepted ids 4 rounds 1 channels 6 bound 3 windows 24\n", 0),
    ("check --ids 1024", OWN, "accepted ids 1024 rounds 0 channels 1024 bound 1023 windows 1024\n", 0),
]

RINGS_REFUSED = [
    ("run --ids 8 --ring 0,1,2 --segments 64", CV1, "ring fault G1\n", 4),
    ("run --ids 8 --ring 0,1,2,3,4,5,6,7,0 --segments 64", CV1, "ring fault G2\n", 4),
    ("run --ids 8 --ring 0,1,2,8 --segments 64", CV1, "ring fault G3 place 3\n", 4),
    ("run --ids 8 --ring 4294967295,1,2,3 --segments 64", CV1, "ring fault G3 place 0\n", 4),
    ("run --ids 8 --ring 0,1,2,0 --segments 64", CV1, "ring fault G4 places 0 3\n", 4),
    ("run --ids 8 --ring 0,0,8,1 --segments 64", CV1, "ring fault G4 places 0 1\n", 4),
    ("run --ids 8 --ring 0,1,8,0 --segments 64", CV1, "ring fault G3 place 2\n", 4),
    ("plan --ids 8 --ring 0,1,2", CV1, "ring fault G1\n", 4),
    ("plan --ids 8 --ring 0,1,2,3,4,5,6,7,0", CV1, "ring fault G2\n", 4),
    ("plan --ids 8 --ring 0,1,2,8", CV1, "ring fault G3 place 3\n", 4),
    ("plan --ids 8 --ring 0,1,2,0", CV1, "ring fault G4 places 0 3\n", 4),
    ("plan --ids 8 --ring 0,0,8,1", CV1, "ring fault G4 places 0 1\n", 4),
    ("plan --ids 8 --ring 0,1,8,0", CV1, "ring fault G3 place 2\n", 4),
    ("trace --ids 8 --ring 0,1,2", CV1, "ring fault G1\n", 4),
    ("trace --ids 8 --ring 0,1,2,3,4,5,6,7,0", CV1, "ring fault G2\n", 4),
    ("trace --ids 8 --ring 0,1,8,0", CV1, "ring fault G3 place 2\n", 4),
    ("trace --ids 8 --ring 0,0,8,1", CV1, "ring fault G4 places 0 1\n", 4),
    ("explain --ids 8 --ring 0,1,2 --place 3", CV1, "ring fault G1\n", 4),
    ("explain --ids 8 --ring 0,1,2,3,4,5,6,7,0 --place 9", CV1, "ring fault G2\n", 4),
    ("explain --ids 8 --ring 0,1,8,0 --place 4", CV1, "ring fault G3 place 2\n", 4),
    ("explain --ids 8 --ring 0,1,2,0 --place 0", CV1, "ring fault G4 places 0 3\n", 4),
    ("explain --ids 8 --ring 5,1,3,7 --place 4", CV1, "ring fault G5 place 4\n", 4),
    ("explain --ids 8 --ring 5,1,3,7 --place 4294967295", CV1, "ring fault G5 place 4294967295\n", 4),
]

RUNS = [
    ("run --ids 8 --ring 0,1,2,3,4,5,6,7", CV1, "0 1 0 1 0 1 0 1\n", 0),
    ("run --ids 10 --ring 0,1,2,3,4,5,6,7,8,9", SHIFT4, "6 7 8 9 0 1 2 3 4 5\n", 0),
    ("run --ids 8 --ring 5,1,3,7", CV1, "2 4 3 5\n", 0),
    ("run --ids 102 --ring 5,1,3,7", cv1_of(14), "2 4 3 5\n", 0),
    ("run --ids 8 --ring 5,1,3,7", LDB, "1 2 1 2\n", 0),
    ("run --ids 2 --ring 0,1", ID0, "0 1\n", 0),
    ("run --ids 8 --ring 007,1", OWN, "7 1\n", 0),
    ("run --ids 2 --ring 0,1", ZERO, "0 0\n", 0),
    ("run --ids 8 --ring 5,1,3,7,0,2,4,6", RED, "1 0 3 1 0 3 2 3\n", 0),
    ("run --ids 8 --ring 5,1,3,7,0,2,4,6 --segments 3", RED, "1 0 3 1 0 3 2 3\n", 0),
    ("run --ids 8 --ring 5,1,3,7,0,2,4,6 --segments 8", RED, "1 0 3 1 0 3 2 3\n", 0),
    ("run --ids 8 --ring 5,1,3,7", TWO_REGISTERS, "12 6 4 10\n", 0),
    ("run --ids 8 --ring 5,1,3,7", SWAP, "5 1 3 7\n", 0),
    ("run --ids 8 --ring 0,1,2,3,4,5,6,7", EIGHT_REGISTERS, "11 5 7 9 11 13 15 17\n", 0),
]

JUDGES = [
    ("judge --ids 8", CV1, "yes: 1680 tuples\n", 0),
    ("judge --ids 8", LDB, "no: ring 0 1 2 3 place 1 channel 0\n", 1),
    ("judge --ids 2", ID0, "yes: 2 tuples\n", 0),
    ("judge --ids 2", ZERO, "no: ring 0 1 place 0 channel 0\n", 1),
    ("judge --ids 8", RED, "yes: 40320 tuples\n", 0),
    ("judge --ids 4 --near 2 --far 1", ID0_OF_4, "no: ring 0 1 2 places 0 1 channels 0 1\n", 1),
    ("judge --ids 4 --near 1 --far 2", ID0_OF_4, "no: ring 0 2 1 places 0 2 channels 0 1\n", 1),
    ("judge --ids 4 --near 2 --far 1", TWICE_ID, "yes: 24 tuples\n", 0),
    ("judge --ids 2 --near 2", ID0, "no: ring 0 1 places 0 1 channels 0 1\n", 1),
    ("judge --ids 2 --far 1", ID0, "yes: 0 tuples\n", 0),
    ("judge --ids 8 --far 1", CV1, "no: ring 0 1 2 3 4 places 1 3 channels 1 1\n", 1),
    ("judge --ids 8 --near 1 --far 0", LDB, "no: ring 0 1 2 3 place 1 channel 0\n", 1),
    ("judge --ids 4 --near 2 --far 1 --workers 3", ID0_OF_4, "no: ring 0 1 2 places 0 1 channels 0 1\n", 1),
    ("judge --ids 4 --near 1 --far 2 --workers 3", ID0_OF_4, "no: ring 0 2 1 places 0 2 channels 0 1\n", 1),
    ("judge --ids 4 --near 2 --far 1 --workers 3", TWICE_ID, "yes: 24 tuples\n", 0),
    ("judge --ids 2 --near 2 --workers 3", ID0, "no: ring 0 1 places 0 1 channels 0 1\n", 1),
    ("judge --ids 2 --far 1 --workers 3", ID0, "yes: 0 tuples\n", 0),
    ("judge --ids 8 --far 1 --workers 3", CV1, "no: ring 0 1 2 3 4 places 1 3 channels 1 1\n", 1),
    ("judge --ids 8 --workers 3", LDB, "no: ring 0 1 2 3 place 1 channel 0\n", 1),
]

PLANS_AND_LARGE_TABLES = [
    ("plan --ids 8 --ring 5,1,3,7 --workers 2", CV1, "   0    5    2\n   1    1    4\n   2    3    3\n   3    7    5\n", 0),
    ("judge --ids 64", cv1_of(12), "yes: 15249024 tuples\n", 0),
    ("judge --ids 10 --workers 4", SHIFT4, "yes: 3628800 tuples\n", 0),
    (
        "plan --ids 10 --ring 0,1,2,3,4,5,6,7,8,9 --workers 4",
        SHIFT4,
        "   0    0    6\n   1    1    7\n   2    2    8\n   3    3    9\n   4    4    0\n   5    5    1\n"
        "   6    6    2\n   7    7    3\n   8    8    4\n   9    9    5\n",
        0,
    ),
]

TRACES = [
    (
        "trace --ids 8 --ring 5,1,3,7",
        CV1,
        "ring 5 1 3 7\nstart r0 5 1 3 7\nround 1 left 0 0 0 0\nround 1 right 5 1 3 7\nround 1 r0 2 4 3 5\nfinish 2 4 3 5\n",
        0,
    ),
    (
        "trace --ids 8 --ring 5,1,3,7 --base 2",
        CV1,
        "ring 101 001 011 111\nstart r0 101 001 011 111\nround 1 left 0 0 0 0\nround 1 right 101 001 011 111\n"
        "round 1 r0 010 100 011 101\nfinish 010 100 011 101\n",
        0,
    ),
    ("trace --ids 8 --ring 7,1 --base 3", OWN, "ring 21 01\nstart r0 21 01\nfinish 21 01\n", 0),
    ("trace --ids 16 --ring 15,1 --base 10", OWN, "ring 15 1\nstart r0 15 1\nfinish 15 1\n", 0),
    (
        "trace --ids 8 --ring 5,1,3,7,0,2,4,6",
        RED,
        "ring 5 1 3 7 0 2 4 6\nstart r0 5 1 3 7 0 2 4 6\n"
        "round 1 left 0 0 0 0 0 0 0 0\nround 1 right 5 1 3 7 0 2 4 6\nround 1 r0 1 4 3 5 0 3 2 3\n"
        "round 2 left 1 4 3 5 0 3 2 3\nround 2 right 1 4 3 5 0 3 2 3\nround 2 r0 1 4 3 1 0 3 2 3\n"
        "round 3 left 1 4 3 1 0 3 2 3\nround 3 right 1 4 3 1 0 3 2 3\nround 3 r0 1 0 3 1 0 3 2 3\n"
        "finish 1 0 3 1 0 3 2 3\n",
        0,
    ),
    ("trace --ids 2 --ring 0,1", ID0, "ring 0 1\nstart r0 0 1\nfinish 0 1\n", 0),
    ("trace --ids 2 --ring 1,0", ZERO, "ring 1 0\nstart r0 1 0\nfinish 0 0\n", 0),
    (
        "trace --ids 8 --ring 5,1,3,7",
        TWO_REGISTERS,
        "ring 5 1 3 7\nstart r0 5 1 3 7\nstart r1 0 0 0 0\nround 1 left 0 0 0 0\nround 1 right 5 1 3 7\n"
        "round 1 r0 0 0 0 0\nround 1 r1 12 6 4 10\nfinish 12 6 4 10\n",
        0,
    ),
]

EXPLANATIONS = [
    (
        "explain --ids 8 --ring 5,1,3,7 --place 0",
        CV1,
        "start r0\n id 5\nround 1 left, registers of start\n 0 0\nround 1 right, registers of start\n r0 5\n"
        "round 1 r0, registers of start\n add 2\n  shl 2\n   ldb 1\n    r0 5\n    L 7\n   1 1\n"
        "  bit 0\n   r0 5\n   ldb 1\n    r0 5\n    L 7\nfinish, registers of round 1\n r0 2\n",
        0,
    ),
    (
        "explain --ids 8 --ring 5,1,3,7 --place 0 --base 2",
        CV1,
        "start r0\n id 101\nround 1 left, registers of start\n 0 0\nround 1 right, registers of start\n r0 101\n"
        "round 1 r0, registers of start\n add 010\n  shl 010\n   ldb 001\n    r0 101\n    L 111\n   1 001\n"
        "  bit 000\n   r0 101\n   ldb 001\n    r0 101\n    L 111\nfinish, registers of round 1\n r0 10\n",
        0,
    ),
    ("explain --ids 2 --ring 0,1 --place 1", ZERO, "start r0\n id 1\nfinish, registers of start\n 0 0\n", 0),
]

# A program is printed whether or not it is accepted.
PRINTS = [
    ("print", CV1_WITH_BLANKS, CV1, 0),
    ("print", cv1_of(3), cv1_of(3), 0),
    ("print", CV1, CV1, 0),
    ("print", LDB, LDB, 0),
    ("print", ID0, ID0, 0),
    ("print", ZERO, ZERO, 0),
    ("print", RED, RED, 0),
]

# Texts that are programs, some in a form that is not printed.
PROGRAM_TEXTS = [
    b"# note\nrounds  0\r\nchannels\t2 registers 1# no blank\nstart r0=id finish r0",
    b"rounds 00\nchannels 2\nregisters 1\nstart\nr0 = id\nfinish r0\n",
    b"rounds 0\nchannels 2\nregisters 1\nstart\nr0 = id\nfinish r0",
    EIGHT_REGISTERS,
    nested(63),
    full_tree(ZERO_HEAD, 12),
]

# Texts that no task takes, with the line that each of them prints.
TEXT_FAULTS = [
    (b"", "text fault N9 at 0\n"),
    (b"rounds 4294967296", "text fault N4 at 7\n"),
    (b"rounds 4", "text fault N9 at 8\n"),
    (b"rounds 5", "text fault N5 at 7\n"),
    (b"ronds 1", "text fault N3 at 0\n"),
    (b"round 1", "text fault N6 at 0\n"),
    (b"\xc3", "text fault N2 at 0\n"),
    (b"rounds 0\nchannels 2\nregisters 0\nstart\nr0 = id\nfinish r0\n", "text fault N5 at 30\n"),
    (b"rounds 0\nchannels 4097\nregisters 1\nstart\nr0 = id\nfinish r0\n", "text fault N5 at 18\n"),
    (b"rounds 0\nchannels 2\nregisters 1\nstart\nr0 = id\nfinish r0\n0", "text fault N6 at 56\n"),
    (ID0[:9], "text fault N9 at 9\n"),
    (ID0[:44], "text fault N3 at 43\n"),
    (ID0[:45], "text fault N9 at 45\n"),
    (ID0[:52], "text fault N9 at 52\n"),
    (ID0[:53], "text fault N9 at 53\n"),
    (ID0[:54], "text fault N3 at 53\n"),
    (65537 * b" ", "text fault N1 at 65536\n"),
    (65536 * b" ", "text fault N9 at 65536\n"),
    (nested(64), "text fault N7 at 308\n"),
    (full_tree(NOT_HEAD, 12), "text fault N8 at 14375\n"),
]

# Programs that no task takes for this many identifiers, with the line.
CHECK_FAULTS = [
    (cv1_of(14), 3, "check fault X1\n"),
    (SHIFT4, 9, "check fault X1\n"),
    (OWN, 1, "check fault X1\n"),
    (OWN, 1025, "check fault X1\n"),
    (cv1_of(16), 163, "check fault X2\n"),
    (SHIFT4, 1024, "check fault X2\n"),
    (SHIFT4, 11, "check fault X2\n"),
    (cv1_of(11), 64, "check fault C4 bound 11\n"),
    (cv1_of(3), 8, "check fault C4 bound 5\n"),
    (b"rounds 0\nchannels 2\nregisters 1\nstart\nr0 = id\nfinish r1\n", 2, "check fault C1 register 1\n"),
    (b"rounds 0\nchannels 2\nregisters 1\nstart\nr0 = id\nfinish id\n", 2, "check fault C2\n"),
    (b"rounds 0\nchannels 2\nregisters 1\nstart\nr0 = id\nfinish L\n", 2, "check fault C3\n"),
    (b"rounds 0\nchannels 2\nregisters 1\nstart\nr0 = id\nfinish add(id, r1)\n", 2, "check fault C1 register 1\n"),
    (ID0.replace(b"finish r0", b"finish if(r3, r2, r1)"), 2, "check fault C1 register 3\n"),
    (ID0.replace(b"finish r0", b"finish 2"), 2, "check fault C4 bound 2\n"),
    (CV1_SENDS_L, 8, "check fault C3\n"),
]

# Tasks on a program for a number of identifiers.
TASKS = ["check", "table", "judge", "run --ring 0,1 --segments 3", "trace --ring 0,1", "explain --ring 0,1 --place 2", "plan --ring 0,1"]

# Rings with the identifiers, and the sums of each and its left neighbour.
HUNDRED = [37 * place % 100 for place in range(100)]
TEN = [3, 0, 11, 7, 5, 1, 9, 2, 10, 4]


def ring(ids):
    return ",".join(map(str, ids))


def line(numbers):
    return " ".join(map(str, numbers)) + "\n"


def sums(ids):
    """For each place of a ring the sum of its identifier and its left neighbour's."""
    return [ids[place - 1] + ids[place] for place in range(len(ids))]


def runs_in_segments():
    """Runs of rings in several numbers of segments."""
    rows = [
        ("--ids 8 --ring 5,1,3,7", CV1, "2 4 3 5\n", [1, 2, 3, 4]),
        ("--ids 8 --ring 5,1,3,7,0,2,4,6", RED, "1 0 3 1 0 3 2 3\n", [1, 2, 3, 8]),
        ("--ids 10 --ring 0,1,2,3,4,5,6,7,8,9", SHIFT4, "6 7 8 9 0 1 2 3 4 5\n", range(1, 11)),
        (f"--ids 100 --ring {ring(HUNDRED)}", TWO_REGISTERS_OF_200, line(sums(HUNDRED)), [1, 2, 3, 8, 64]),
        (f"--ids 1024 --ring {ring(range(1024))}", OWN, line(range(1024)), [64]),
    ]
    yield from ((f"run {options} --segments {segments}", text, out, 0) for options, text, out, numbers in rows for segments in numbers)
    yield "run --ids 8 --ring 5,1,3,7 --segments 5", CV1, "segments fault E1\n", 2


# The messages of a node in each of the three rounds of that program, to its left and to its right, and its registers after
# each, from the messages of its left and its right neighbour.
SENT = [lambda a, b: (a, a + b), lambda a, b: (b, a), lambda a, b: (a + b, a ^ 3)]
STEPPED = [
    lambda a, b, left, right: (left + b, right ^ a),
    lambda a, b, left, right: (max(left, right), max(a - left, 0)),
    lambda a, b, left, right: (right + b, min(left, a)),
]


def traced_by_hand():
    """The trace of the program of three rounds on a ring of ten places."""
    nodes, lines = [(ident + 1, ident & 1) for ident in TEN], [f"ring {line(TEN)}"]

    def tell(first, second, pairs):
        lines.append(f"{first} {line(a for a, _ in pairs)}{second} {line(b for _, b in pairs)}")

    tell("start r0", "start r1", nodes)
    for number in range(3):
        sent = [SENT[number](*node) for node in nodes]
        tell(f"round {number + 1} left", f"round {number + 1} right", sent)
        nodes = [STEPPED[number](*node, sent[place - 1][1], sent[(place + 1) % 10][0]) for place, node in enumerate(nodes)]
        tell(f"round {number + 1} r0", f"round {number + 1} r1", nodes)
    return "".join(lines) + "finish " + line(a + b & 255 for a, b in nodes)


def refused():
    """Each task on each text and each program that none of them takes."""
    for text, out in TEXT_FAULTS:
        yield from ((f"{task} --ids 8", text, out, 3) for task in TASKS)
        yield "print", text, out, 3
    for text, ids, out in CHECK_FAULTS:
        yield from ((f"{task} --ids {ids}", text, out, 3) for task in TASKS)


def rows():
    yield from CHECKS + RINGS_REFUSED + RUNS + JUDGES + PLANS_AND_LARGE_TABLES + TRACES + EXPLANATIONS + PRINTS
    yield from (("print", text, None, 0) for text in PROGRAM_TEXTS)
    yield from refused()
    yield from runs_in_segments()
    yield f"trace --ids 12 --ring {ring(TEN)}", THREE_ROUNDS, traced_by_hand(), 0
