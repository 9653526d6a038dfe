"""Program texts of the rows, without expected values. Those of the folder programs/ are read from there."""

from pathlib import Path

FOLDER = Path(__file__).resolve().parent.parent / "programs"
CV1, LDB, ID0, ZERO, RED = ((FOLDER / f"{name}.txt").read_bytes() for name in ["cv1", "ldb", "id0", "zero", "red"])


def cv1_of(channels):
    """`CV1` with this number of channels."""
    return CV1.replace(b"channels 6", b"channels %d" % channels)


# Not accepted: `L` is sent.
CV1_SENDS_L = CV1.replace(b"send right r0", b"send right L")
# Each blank doubled, after a comment.
CV1_WITH_BLANKS = b"# note\n" + CV1.replace(b" ", b"  ")
# No round: the identifier, with four channels.
ID0_OF_4 = ID0.replace(b"channels 2", b"channels 4")
# No round: the identifier, of 1,024 identifiers.
OWN = ID0.replace(b"channels 2", b"channels 1024")
# No round: twice the identifier.
TWICE_ID = b"rounds 0\nchannels 7\nregisters 1\nstart\nr0 = id\nfinish shl(r0, 1)\n"
# Four rounds, in each of which a node takes its left neighbour's register. The channel is the identifier four places to the
# left.
SHIFT4 = b"rounds 4\nchannels 10\nregisters 1\nstart\nr0 = id\n" + 4 * b"round\nsend left 0\nsend right r0\nr0 = L\n" + b"finish r0\n"
# Two registers, each computed from the other. The channel is the sum of the identifier and the left neighbour's.
TWO_REGISTERS = (
    b"rounds 1\nchannels 64\nregisters 2\nstart\nr0 = id\nr1 = 0\n"
    b"round\nsend left r1\nsend right r0\nr0 = r1\nr1 = add(r0, L)\nfinish r1\n"
)
TWO_REGISTERS_OF_200 = TWO_REGISTERS.replace(b"channels 64", b"channels 200")
# One round that swaps two registers.
SWAP = (
    b"rounds 1\nchannels 8\nregisters 2\nstart\nr0 = id\nr1 = 0\nround\nsend left r0\nsend right r1\nr0 = r1\nr1 = r0\nfinish r1\n"
)
# Eight registers and three rounds. Each round moves the registers down by one, and the message from the left becomes the
# last.
EIGHT_REGISTERS = (
    b"rounds 3\nchannels 64\nregisters 8\nstart\nr0 = id\n"
    + b"".join(b"r%d = add(id, %d)\n" % (number, number) for number in range(1, 8))
    + 3 * (b"round\nsend left 0\nsend right r1\n" + b"".join(b"r%d = r%d\n" % (number, number + 1) for number in range(7)) + b"r7 = L\n")
    + b"finish add(r0, r5)\n"
)
# Three rounds of two registers, each different.
THREE_ROUNDS = b"""rounds 3
channels 256
registers 2
start
r0 = add(id, 1)
r1 = and(id, 1)
round
send left r0
send right add(r0, r1)
r0 = add(L, r1)
r1 = xor(R, r0)
round
send left r1
send right r0
r0 = max(L, R)
r1 = sub(r0, L)
round
send left add(r0, r1)
send right xor(r0, 3)
r0 = add(R, r1)
r1 = min(L, r0)
finish and(add(r0, r1), 255)
"""
# The text before the last expression of a program, without and with an operation in `start`.
ZERO_HEAD = b"rounds 0\nchannels 1\nregisters 1\nstart\nr0 = 0\nfinish "
NOT_HEAD = b"rounds 0\nchannels 1\nregisters 1\nstart\nr0 = not(0)\nfinish "


def nested(depth):
    """A program text that ends in so many nested calls of `not`, with 0 in the middle."""
    return ZERO_HEAD + depth * b"not(" + b"0" + depth * b")"


def full_tree(head, depth):
    """A text that ends in a full tree of operations with leaves 0, which at depth 1 is a leaf."""
    tree = b"0"
    for _ in range(depth - 1):
        tree = b"min(" + tree + b"," + tree + b")"
    return head + tree
