"""Expressions of the node language that select channels in constants, for the tools that write programs."""

# What a program and its numbers can have.
MOST_NODES, MOST_BYTES, BITS = 4096, 65536, 32
# The nodes of an `if` beside its branches: its word and `lt(r0, N)`, or its word and a register.
NODES_OF_IF, NODES_OF_SHORT_IF = 4, 2
# The longest line of an expression.
WIDTH = 90


class Choice:
    """The expression that selects constants by a number: an `if` where two differ. A bit that no window asks for is free."""

    def __init__(self, places, bit, name="r0"):
        """`places` has the channel of each number that `name` may have; `bit` is the bit of the channel that the constants have."""
        self.words, self.name = {}, name
        for place, channel in places.items():
            value, asked = self.words.get(place // BITS, (0, 0))
            mine = 1 << place % BITS
            self.words[place // BITS] = value | mine * (channel >> bit & 1), asked | mine
        self.levels = max(self.words).bit_length()
        self.node = self.select(0, self.levels)

    def select(self, first, level):
        """What selects the `2^level` words from `first` on: a constant with the bits that are asked, or a place and two such parts."""
        if level == 0:
            return self.words.get(first)
        middle = first + (1 << level - 1)
        left, right = self.select(first, level - 1), self.select(middle, level - 1)
        if left is None or right is None:
            return left or right
        if len(left) == len(right) == 2 and not (left[0] ^ right[0]) & left[1] & right[1]:
            return left[0] | right[0], left[1] | right[1]
        return level, middle * BITS, left, right

    def count(self, registers=0, node=None):
        """The number of nodes of the expression."""
        node = node or self.node
        if len(node) == 2:
            return 1
        own = NODES_OF_SHORT_IF if node[0] <= registers else NODES_OF_IF
        return own + self.count(registers, node[2]) + self.count(registers, node[3])

    def text(self, registers=0, node=None):
        """The expression that selects. So many registers from r1 on have the bits of the number that tell words apart, the least first."""
        node = node or self.node
        if len(node) == 2:
            return str(node[0])
        left, right = self.text(registers, node[2]), self.text(registers, node[3])
        if node[0] <= registers:
            return call("if", f"r{node[0]}", right, left)
        return call("if", f"lt({self.name}, {node[1]})", left, right)

    def bit(self, registers=0):
        """The expression of the bit that the number asks for."""
        return call("bit", self.text(registers), f"and({self.name}, {BITS - 1})" if self.levels else self.name)


def call(word, *parts):
    """An expression with these operands, in lines if it is long."""
    line = f"{word}({', '.join(parts)})"
    if len(line) <= WIDTH and "\n" not in line:
        return line
    return f"{word}(" + ",\n ".join(part.replace("\n", "\n ") for part in parts) + ")"


def added(parts):
    """The sum of these expressions."""
    middle = len(parts) // 2
    return call("add", added(parts[:middle]), added(parts[middle:])) if middle else parts[0]


def choices_of(places, name="r0"):
    """The choice of each bit of the channels, of which the first is the least."""
    return [Choice(places, bit, name) for bit in range(max(places.values()).bit_length())]


def value_of(choices, registers=0):
    """The expression of the channel whose bits are selected."""
    value = choices[0].bit(registers) if choices else "0"
    for place, choice in enumerate(choices[1:], 1):
        value = call("or", value, call("shl", choice.bit(registers), str(place)))
    return value


def bits_of(count):
    """The number of bits of a class of so many."""
    return max(1, (count - 1).bit_length())
