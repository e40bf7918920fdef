"""Writes frames of random or directed syntax: the parser runs over sources that choose each value and write it.

A `Chooser` decides. `forced` has values by name (the first word of a name, or the whole name); otherwise values that no
stream has had yet come first, and the rest is drawn at random, with `rare` as the probability of those updates that an
encoder makes seldom.
"""

import random

from .bits import Writer, path_to
from .parser import Header, Modes, Tokens, context_for, map_before, read_first_fields, read_last_fields

# A byte after each partition, so that no decoder finds that it ends early.
END = b"\0"
RARE = ("coeff_prob_update", "mv_prob_update")
# Value 3 of these copies nothing, and is an error of libvpx's.
COPIES = ("copy_buffer_to_golden", "copy_buffer_to_alternate")
# How often each token is drawn: 0 to 4, the six categories, the end of the block.
LONG_WEIGHTS = [30, 25, 10, 5, 5, 4, 3, 1, 1, 1, 0, 1]
TOKEN_WEIGHTS = [20, 20, 6, 2, 2, 2, 1, 0, 0, 0, 0, 60]


def leaves(tree, node=0):
    """The leaves that can be reached from a node."""
    found = []
    for bit in (0, 1):
        entry = tree[node + bit]
        found += [-entry] if entry <= 0 else leaves(tree, entry)
    return found


class Chooser:
    """Chooses values. `reached` has the pairs of a name and a value that were chosen, of all streams."""

    def __init__(self, seed, reached=None):
        self.random = random.Random(seed)
        self.reached = set() if reached is None else reached
        self.forced = {}
        self.rare = 0.002
        # How likely a value that was never chosen is taken, if there is one.
        self.new = 0.5
        # Names of which values that were never chosen are taken first.
        self.directed = ()
        # The name of the value that is being chosen, for functions in `forced`.
        self.name = ()

    def value(self, name, options):
        self.name = name
        forced = self.forced.get(name, self.forced.get(name[0]))
        if forced is not None:
            value = forced(self) if callable(forced) else forced
        elif name[0] in RARE:
            value = int(self.random.random() < self.rare)
        else:
            value = self.drawn(name, options)
        self.reached.add((name, value))
        return value

    def drawn(self, name, options):
        if name[0] in self.directed and self.random.random() < self.new:
            fresh = [value for value in options if (name, value) not in self.reached]
            if fresh:
                return self.random.choice(fresh)
        if name[0] in COPIES:
            options = (0, 1, 2)
        if name[0] == "token":
            weights = LONG_WEIGHTS if "last places" in self.directed else TOKEN_WEIGHTS
            if "last places" in self.directed and name[2] >= 6:
                fresh = [value for value in options if (name, value) not in self.reached]
                if fresh:
                    return self.random.choice(fresh)
            return self.random.choices(options, [weights[token] for token in options])[0]
        return self.random.choice(options)


class Source:
    """Takes the place of a reader: what it returns is chosen, and written."""

    def __init__(self, chooser):
        self.chooser, self.writer, self.taken = chooser, Writer(), 0

    def bit(self, probability, *name):
        value = self.chooser.value(name, (0, 1))
        self.writer.bit(value, probability)
        return value

    def flag(self, *name):
        return self.bit(128, *name)

    def literal(self, count, *name):
        value = self.chooser.value(name, range(1 << count))
        self.writer.literal(value, count)
        return value

    def signed(self, count, *name):
        most = (1 << count) - 1
        value = self.chooser.value(name, range(-most, most + 1))
        self.writer.signed(value, count)
        return value

    def optional(self, count, *name):
        most = (1 << count) - 1
        value = self.chooser.value(name, (None, -most, most, *range(-most, most + 1)))
        self.writer.optional(value, count)
        return value

    def tree(self, tree, probabilities, *name, node=0):
        leaf = self.chooser.value(name, leaves(tree, node))
        for place, bit in path_to(tree, leaf, node):
            self.writer.bit(bit, probabilities[place >> 1])
        return leaf


def tag(header, first_size):
    value = (not header.is_key) | header.version << 1 | header.show_frame << 4 | first_size << 5
    return value.to_bytes(3, "little")


class Stream:
    """A stream that is being written: the context, the segment map and the size after its frames."""

    def __init__(self, chooser):
        self.chooser = chooser
        self.context, self.segment_map, self.size = None, None, None
        self.packets = []

    def frame(self, size=None, version=0, shown=True, scales=(0, 0), tail=(), first_cut=0, also=(), **forced):
        """Adds a frame: a key frame of this size, or an inter frame without one. `forced` has fields of the header by
        name, `also` values by their whole names; `tail` has functions of the token partitions' bytes, to cut or change
        them; `first_cut` bytes are missing at the end of the first one.
        """
        chooser = self.chooser
        before, chooser.forced = chooser.forced, {**chooser.forced, **forced, **dict(also)}
        header = Header(is_key=size is not None, version=version, show_frame=int(shown))
        if header.is_key:
            (header.width, header.height), self.size = size, size
        context = context_for(header, self.context)
        source = Source(chooser)
        read_first_fields(source, header, context)
        after = read_last_fields(source, header, context)
        columns, rows = ((side + 15) // 16 for side in self.size)
        segment_map = map_before(header, columns * rows, self.segment_map)
        macroblocks = Modes(source, header, context, columns, rows, segment_map).read()
        sources = [Source(chooser) for _ in range(1 << header.log2_nbr_of_dct_partitions)]
        tokens = Tokens(sources, context.coefficients, columns)
        for place, macroblock in enumerate(macroblocks):
            tokens.read(macroblock, place % columns, place // columns)
        texts = [part.writer.text() + END for part in sources]
        for change in tail:
            texts = change(texts)
        first = source.writer.text() + END
        first = first[: len(first) - first_cut]
        start = b""
        if header.is_key:
            start = b"\x9d\x01\x2a" + b"".join(
                (side | scale << 14).to_bytes(2, "little") for side, scale in zip(self.size, scales)
            )
        sizes = b"".join(len(text).to_bytes(3, "little") for text in texts[:-1])
        self.packets.append(tag(header, len(first)) + start + first + sizes + b"".join(texts))
        self.context, self.segment_map = after, segment_map
        chooser.forced = before
        return macroblocks

    def packet(self, data):
        """Adds a packet that is not written here, as one that is refused."""
        self.packets.append(data)
