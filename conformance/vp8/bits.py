"""The bool coder of RFC 6386, section 7."""


class Reader:
    """Reads bits from a partition. Zeros follow its last byte, without end. `saw` gets the name of each value that is
    read, and the value.

    `asked` has the name of each value that was read, and how many booleans it took, as long as it is a list.
    """

    def __init__(self, text, saw=None):
        self.text, self.saw = text, saw
        self.value = text[0] if text else 0
        self.range = 255
        # How many bits of the text were taken in, zeros after its end included.
        self.taken = 8
        self.asked, self.booleans = None, 0

    def next(self, probability):
        self.booleans += 1
        split = 1 + ((self.range - 1) * probability >> 8)
        bit = int(self.value >= split)
        self.value, self.range = (self.value - split, self.range - split) if bit else (self.value, split)
        while self.range < 128:
            byte = self.taken >> 3
            self.value = 2 * self.value + (self.text[byte] >> 7 - self.taken % 8 & 1 if byte < len(self.text) else 0)
            self.range *= 2
            self.taken += 1
        return bit

    def named(self, value, name):
        if self.saw and name:
            self.saw(name, value)
        if self.asked is not None and name:
            self.asked.append((name, self.booleans))
            self.booleans = 0
        return value

    def bit(self, probability, *name):
        return self.named(self.next(probability), name)

    def flag(self, *name):
        return self.named(self.next(128), name)

    def number(self, count):
        value = 0
        for _ in range(count):
            value = 2 * value + self.next(128)
        return value

    def literal(self, count, *name):
        return self.named(self.number(count), name)

    def signed(self, count, *name):
        """A magnitude of so many bits, and a sign."""
        magnitude = self.number(count)
        return self.named(-magnitude if self.next(128) else magnitude, name)

    def optional(self, count, *name):
        """A flag, and if it is set a magnitude and a sign; None if it is not."""
        return self.named((self.signed(count) if self.next(128) else None), name)

    def tree(self, tree, probabilities, *name, node=0):
        while True:
            entry = tree[node + self.next(probabilities[node >> 1])]
            if entry <= 0:
                return self.named(-entry, name)
            node = entry


class Writer:
    """Writes bits so that a reader with the same probabilities reads them back."""

    def __init__(self):
        self.low, self.range, self.shifts = 0, 255, 0

    def bit(self, bit, probability):
        split = 1 + ((self.range - 1) * probability >> 8)
        if bit:
            self.low, self.range = self.low + split, self.range - split
        else:
            self.range = split
        while self.range < 128:
            self.low, self.range, self.shifts = 2 * self.low, 2 * self.range, self.shifts + 1

    def flag(self, bit):
        self.bit(bit, 128)

    def literal(self, value, count):
        for place in reversed(range(count)):
            self.bit(value >> place & 1, 128)

    def signed(self, value, count):
        self.literal(abs(value), count)
        self.flag(int(value < 0))

    def optional(self, value, count):
        """A flag, and if the value is not None the value with its sign."""
        self.flag(int(value is not None))
        if value is not None:
            self.signed(value, count)

    def tree(self, tree, probabilities, leaf, node=0):
        for place, bit in path_to(tree, leaf, node):
            self.bit(bit, probabilities[place >> 1])

    def text(self):
        """The bytes, with zeros up to a whole byte."""
        bits = self.shifts + 8
        padding = -bits % 8
        return (self.low << padding).to_bytes((bits + padding) // 8, "big")


def path_to(tree, leaf, node=0):
    """The nodes on the way to a leaf, each with its bit."""
    for bit in (0, 1):
        entry = tree[node + bit]
        if entry <= 0:
            if -entry == leaf:
                return [(node, bit)]
        else:
            rest = path_to(tree, leaf, entry)
            if rest is not None:
                return [(node, bit), *rest]
    return None
