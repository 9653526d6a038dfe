"""Expressions: a row has the words, a program with an expression, the standard output and the exit status. The values and the bounds
follow from docs/LANGUAGE.md; the tables are computed here."""

from itertools import permutations

TOP = 2**32 - 1

# The values of operations.
VALUES = [
    ("not(0)", TOP),
    ("and(6, 3)", 2),
    ("or(6, 3)", 7),
    ("xor(6, 3)", 5),
    ("shl(3, 31)", 2**31),
    ("shl(1, 32)", 0),
    ("shr(8, 3)", 1),
    ("shr(8, 32)", 0),
    (f"add({TOP}, 1)", 0),
    ("sub(5, 3)", 2),
    ("sub(3, 5)", 0),
    ("min(4, 9)", 4),
    ("max(4, 9)", 9),
    ("ldb(5, 7)", 1),
    ("ldb(6, 6)", 0),
    ("bit(5, 2)", 1),
    ("bit(5, 32)", 0),
    ("eq(3, 3)", 1),
    ("ne(3, 3)", 0),
    ("lt(2, 3)", 1),
    ("le(3, 3)", 1),
    ("if(7, 1, 2)", 1),
    ("if(0, 1, 2)", 2),
]

# Bounds, with messages of at most 10 from the left and 20 from the right, and registers of at most 1 and 9.
BOUNDS = [
    ("7", 7),
    ("L", 10),
    ("R", 20),
    ("r0", 1),
    ("r1", 9),
    ("not(0)", TOP),
    ("and(5, 3)", 3),
    ("or(5, 5)", 7),
    ("or(0, 0)", 0),
    ("or(2147483648, 1)", TOP),
    ("xor(5, 5)", 7),
    ("xor(3, 8)", 15),
    ("shl(5, 1)", 10),
    ("shl(2, 31)", TOP),
    ("shl(1, 31)", 2**31),
    ("shl(0, 32)", TOP),
    ("shl(2, r0)", TOP),
    ("shr(63, 3)", 7),
    (f"shr({TOP}, 32)", 0),
    ("shr(63, r0)", 63),
    ("add(10, 1)", 11),
    (f"add({TOP}, 1)", TOP),
    ("sub(5, 9)", 5),
    ("min(5, 3)", 3),
    ("max(5, 3)", 5),
    ("ldb(63, 63)", 5),
    ("ldb(5, 5)", 2),
    ("ldb(0, 0)", 0),
    ("bit(5, 2)", 1),
    ("eq(5, 2)", 1),
    ("ne(5, 2)", 1),
    ("lt(5, 2)", 1),
    ("le(5, 2)", 1),
]

# Bounds of what a node of six identifiers starts with.
START_BOUNDS = [("id", 5), ("if(9, 3, id)", 5), ("if(0, 3, id)", 5), ("if(0, 6, id)", 6)]

# Operations of a node's register and its left neighbour's, and their values below 4,096.
OPERATIONS = [
    ("shr(not(r0), 20)", lambda own, left: (TOP - own) >> 20),
    ("and(r0, L)", lambda own, left: own & left),
    ("or(r0, L)", lambda own, left: own | left),
    ("xor(r0, L)", lambda own, left: own ^ left),
    ("and(shl(r0, L), 4095)", lambda own, left: (own << left if left < 32 else 0) & 4095),
    ("shr(r0, L)", lambda own, left: own >> left),
    ("add(r0, L)", lambda own, left: own + left),
    ("sub(r0, L)", lambda own, left: max(own - left, 0)),
    ("min(r0, L)", min),
    ("max(r0, L)", max),
    ("ldb(r0, L)", lambda own, left: next(index for index in range(32) if (own ^ left) >> index & 1)),
    ("bit(r0, L)", lambda own, left: own >> left & 1),
    ("eq(r0, L)", lambda own, left: int(own == left)),
    ("ne(r0, L)", lambda own, left: int(own != left)),
    ("lt(r0, L)", lambda own, left: int(own < left)),
    ("le(r0, L)", lambda own, left: int(own <= left)),
    ("if(bit(r0, 0), L, 7)", lambda own, left: left if own % 2 else 7),
]

# Numbers of identifiers: runs of windows of different lengths.
IDS = [4, 7, 8, 13, 40]


def starting(expression):
    """A program without rounds whose register starts with this expression."""
    return f"rounds 0\nchannels 1\nregisters 1\nstart\nr0 = {expression}\nfinish 0\n".encode()


def assigning(expression):
    """A program whose channel is what a round assigns, from messages of at most 10 and 20 and registers of at most 1 and 9."""
    head = "rounds 1\nchannels 4096\nregisters 2\nstart\nr0 = 1\nr1 = 9\nround\nsend left 20\nsend right 10\n"
    return f"{head}r0 = {expression}\nr1 = 0\nfinish r0\n".encode()


def of_two_nodes(expression):
    """A program whose channel is an expression of a node's identifier and its left neighbour's."""
    head = "rounds 1\nchannels 4096\nregisters 1\nstart\nr0 = id\nround\nsend left 0\nsend right r0\n"
    return f"{head}r0 = and({expression}, 4095)\nfinish r0\n".encode()


def checked(ids, rounds, bound, windows):
    """The line of a check and its exit status, with 4,096 channels."""
    if bound < 4096:
        return f"accepted ids {ids} rounds {rounds} channels 4096 bound {bound} windows {windows}\n", 0
    return f"check fault C4 bound {bound}\n", 3


def rows():
    for expression, value in VALUES:
        yield "trace --ids 2 --ring 0,1", starting(expression), f"ring 0 1\nstart r0 {value} {value}\nfinish 0 0\n", 0
        yield "print", starting(expression), starting(expression), 0
    for expression, bound in BOUNDS:
        yield "check --ids 6", assigning(expression), *checked(6, 1, bound, 120)
    for expression, bound in START_BOUNDS:
        text = starting(expression).replace(b"channels 1", b"channels 4096").replace(b"finish 0", b"finish r0")
        yield "check --ids 6", text, *checked(6, 0, bound, 6)
    for expression, value in OPERATIONS:
        for ids in IDS:
            windows = permutations(range(ids), 3)
            lines = "".join(f"{left} {own} {right} : {value(own, left)}\n" for left, own, right in windows)
            head = f"nbhd-table 2\nrounds 1 ids {ids} channels 4096 near 1 far 0\n"
            yield f"table --ids {ids}", of_two_nodes(expression), f"{head}{lines}end\n", 0
