"""Headers, mode records and tokens of packets (RFC 6386, sections 9, 10, 11, 13, 16, 17 and 19.2).

`parse` reads a packet after a context and returns a frame: its header, a record for each macroblock, and the context
after it. Each value that is read has a name, with what selects its probability: `saw` gets both, and a writer that
takes the place of the readers chooses it.
"""

import copy
from dataclasses import dataclass, field

from . import tables
from .bits import Reader

KEY, INTRA, LAST, GOLDEN, ALTREF = "key", 0, 1, 2, 3
DC, V, H, TM, B = range(5)
ZERO, NEAREST, NEAR, NEW, SPLIT = range(5)
# The sub block mode that a whole mode counts as.
COUNTERPARTS = [0, 2, 3, 1]
ORIGIN = (0, 0)


class Refused(Exception):
    """A packet is not decoded, with the name of the cause."""


@dataclass
class Context:
    """What a frame leaves for the next one."""

    coefficients: list
    vectors: list
    y: list
    uv: list
    segment_absolute: int = 0
    segment_quantizers: list = field(default_factory=lambda: [0] * 4)
    segment_levels: list = field(default_factory=lambda: [0] * 4)
    reference_deltas: list = field(default_factory=lambda: [0] * 4)
    mode_deltas: list = field(default_factory=lambda: [0] * 4)
    sign_biases: list = field(default_factory=lambda: [0, 0, 0, 0])


def default_context():
    return Context(
        list(tables.COEFFICIENTS),
        [list(row) for row in tables.DEFAULT_VECTOR_PROBABILITIES],
        list(tables.DEFAULT_Y_PROBABILITIES),
        list(tables.DEFAULT_UV_PROBABILITIES),
    )


@dataclass
class Header:
    """The fields of a header by their names in RFC 6386, section 19.2."""

    is_key: bool = False
    version: int = 0
    show_frame: int = 1
    first_size: int = 0
    width: int = 0
    height: int = 0
    horizontal_scale: int = 0
    vertical_scale: int = 0
    color_space: int = 0
    clamping_type: int = 0
    segmentation_enabled: int = 0
    update_mb_segmentation_map: int = 0
    update_segment_feature_data: int = 0
    segment_probabilities: list = field(default_factory=lambda: [255] * 3)
    filter_type: int = 0
    loop_filter_level: int = 0
    sharpness_level: int = 0
    loop_filter_adj_enable: int = 0
    mode_ref_lf_delta_update: int = 0
    log2_nbr_of_dct_partitions: int = 0
    y_ac_qi: int = 0
    deltas: list = field(default_factory=lambda: [0] * 5)
    refresh_entropy_probs: int = 1
    refresh_golden: int = 1
    refresh_altref: int = 1
    copy_to_golden: int = 0
    copy_to_altref: int = 0
    refresh_last: int = 1
    mb_no_coeff_skip: int = 0
    prob_skip_false: int = 0
    prob_intra: int = 0
    prob_last: int = 0
    prob_gf: int = 0


@dataclass
class Macroblock:
    """A record: the modes of a macroblock, and its coefficients."""

    segment: int = 0
    skip: int = 0
    reference: int = INTRA
    y_mode: int = DC
    uv_mode: int = DC
    vector_mode: int = ZERO
    split: int = 0
    subs: list = field(default_factory=lambda: [0] * 16)
    vectors: list = field(default_factory=lambda: [ORIGIN] * 16)
    # 25 lists of 16 coefficients, Y2 last, in raster order; None for blocks without tokens.
    blocks: list = field(default_factory=lambda: [None] * 25)
    has_tokens: bool = False
    bits: int = 0
    token_bits: int = 0

    @property
    def has_y2(self):
        return self.y_mode != B if self.reference == INTRA else self.vector_mode != SPLIT

    @property
    def vector(self):
        return self.vectors[15]


@dataclass
class Frame:
    header: Header
    context: Context
    context_after: Context
    columns: int
    rows: int
    macroblocks: list
    segment_map: list
    partitions: list
    readers: list
    header_bits: int
    # The name of each value that the header read, and how many booleans it took.
    asked: list
    # What seldom happens: of vectors here, of residuals in the decoder.
    events: set = field(default_factory=set)


def tag_of(packet):
    value = int.from_bytes(packet[:3], "little")
    return value & 1, value >> 1 & 7, value >> 4 & 1, value >> 5


def start_of(packet, has_key):
    """The header as far as it is not coded, and where the first partition begins, or why the packet is refused."""
    if len(packet) < 3:
        raise Refused("ShortPacket")
    is_inter, version, show, first_size = tag_of(packet)
    header = Header(is_key=not is_inter, version=version, show_frame=show, first_size=first_size)
    if header.is_key and len(packet) < 10:
        raise Refused("ShortPacket")
    if version > 3:
        raise Refused("Version")
    start = 3
    if header.is_key:
        start = 10
        if packet[3:6] != b"\x9d\x01\x2a":
            raise Refused("StartCode")
        for name, scale, place in (("width", "horizontal_scale", 6), ("height", "vertical_scale", 8)):
            value = int.from_bytes(packet[place : place + 2], "little")
            setattr(header, name, value & 0x3FFF)
            setattr(header, scale, value >> 14)
        if not header.width or not header.height:
            raise Refused("Size")
    elif not has_key:
        raise Refused("NoKeyFrame")
    if first_size > len(packet) - start:
        raise Refused("FirstPartition")
    return header, start


def read_segmentation(reader, header, context):
    header.segmentation_enabled = reader.flag("segmentation_enabled")
    if not header.segmentation_enabled:
        return
    header.update_mb_segmentation_map = reader.flag("update_mb_segmentation_map")
    header.update_segment_feature_data = reader.flag("update_segment_feature_data")
    if header.update_segment_feature_data:
        context.segment_absolute = reader.flag("segment_feature_mode")
        context.segment_quantizers = [reader.optional(7, "quantizer_update", place) or 0 for place in range(4)]
        context.segment_levels = [reader.optional(6, "lf_update", place) or 0 for place in range(4)]
    if header.update_mb_segmentation_map:
        for place in range(3):
            updates = reader.flag("segment_prob_update", place)
            header.segment_probabilities[place] = reader.literal(8, "segment_prob", place) if updates else 255


def read_filter(reader, header, context):
    header.filter_type = reader.flag("filter_type")
    header.loop_filter_level = reader.literal(6, "loop_filter_level")
    header.sharpness_level = reader.literal(3, "sharpness_level")
    header.loop_filter_adj_enable = reader.flag("loop_filter_adj_enable")
    if header.loop_filter_adj_enable:
        header.mode_ref_lf_delta_update = reader.flag("mode_ref_lf_delta_update")
        if header.mode_ref_lf_delta_update:
            for name, deltas in (("ref_frame_delta", context.reference_deltas), ("mb_mode_delta", context.mode_deltas)):
                for place in range(4):
                    delta = reader.optional(6, name, place)
                    deltas[place] = deltas[place] if delta is None else delta


def partitions_of(packet, start, count):
    """The token partitions, which follow their sizes (section 9.5)."""
    place = start + 3 * (count - 1)
    if place > len(packet):
        raise Refused("TokenSizes")
    found = []
    for number in range(count - 1):
        at = start + 3 * number
        size = int.from_bytes(packet[at : at + 3], "little")
        if place + size > len(packet):
            raise Refused(f"TokenPartition {number}")
        found.append(packet[place : place + size])
        place += size
    return [*found, packet[place:]]


def read_references(reader, header, context):
    if header.is_key:
        header.refresh_entropy_probs = reader.flag("refresh_entropy_probs")
        return
    header.refresh_golden = reader.flag("refresh_golden_frame")
    header.refresh_altref = reader.flag("refresh_alternate_frame")
    header.copy_to_golden = 0 if header.refresh_golden else reader.literal(2, "copy_buffer_to_golden")
    header.copy_to_altref = 0 if header.refresh_altref else reader.literal(2, "copy_buffer_to_alternate")
    context.sign_biases[GOLDEN] = reader.flag("sign_bias_golden")
    context.sign_biases[ALTREF] = reader.flag("sign_bias_alternate")
    header.refresh_entropy_probs = reader.flag("refresh_entropy_probs")
    header.refresh_last = reader.flag("refresh_last")


def read_probabilities(reader, header, context):
    for place, update in enumerate(tables.UPDATES):
        if reader.bit(update, "coeff_prob_update", place):
            context.coefficients[place] = reader.literal(8, "coeff_prob", place)
    header.mb_no_coeff_skip = reader.flag("mb_no_coeff_skip")
    header.prob_skip_false = reader.literal(8, "prob_skip_false") if header.mb_no_coeff_skip else 0
    if header.is_key:
        return
    header.prob_intra = reader.literal(8, "prob_intra")
    header.prob_last = reader.literal(8, "prob_last")
    header.prob_gf = reader.literal(8, "prob_gf")
    for name, probabilities in (("intra_16x16_prob", context.y), ("intra_chroma_prob", context.uv)):
        if reader.flag(f"{name}_update_flag"):
            probabilities[:] = [reader.literal(8, name, place) for place in range(len(probabilities))]
    for component in range(2):
        for place, update in enumerate(tables.VECTOR_UPDATE_PROBABILITIES[component]):
            if reader.bit(update, "mv_prob_update", component, place):
                value = reader.literal(7, "mv_prob", component, place)
                context.vectors[component][place] = 2 * value if value else 1


def read_first_fields(reader, header, context):
    """The fields up to the number of token partitions."""
    if header.is_key:
        header.color_space, header.clamping_type = reader.flag("color_space"), reader.flag("clamping_type")
    read_segmentation(reader, header, context)
    read_filter(reader, header, context)
    header.log2_nbr_of_dct_partitions = reader.literal(2, "log2_nbr_of_dct_partitions")


def read_last_fields(reader, header, context):
    """The fields after it. Returns the context after the frame."""
    header.y_ac_qi = reader.literal(7, "y_ac_qi")
    names = ("y_dc_delta", "y2_dc_delta", "y2_ac_delta", "uv_dc_delta", "uv_ac_delta")
    header.deltas = [reader.optional(4, name) or 0 for name in names]
    read_references(reader, header, context)
    kept = copy.deepcopy(context)
    read_probabilities(reader, header, context)
    after = copy.deepcopy(context)
    if not header.refresh_entropy_probs:
        after.coefficients, after.vectors, after.y, after.uv = kept.coefficients, kept.vectors, kept.y, kept.uv
    return after


def context_for(header, before):
    """The context that a frame's header changes."""
    return default_context() if header.is_key else copy.deepcopy(before)


class Modes:
    """Reads the records of a frame, one macroblock after another."""

    def __init__(self, reader, header, context, columns, rows, segment_map):
        self.reader, self.header, self.context = reader, header, context
        self.columns, self.rows, self.segment_map = columns, rows, segment_map
        self.macroblocks = []
        self.events = set()

    def at(self, column, row):
        """The record in this column and row, or one outside the frame."""
        if 0 <= column < self.columns and row >= 0:
            return self.macroblocks[row * self.columns + column]
        return Macroblock()

    def read(self):
        for row in range(self.rows):
            for column in range(self.columns):
                begun = self.reader.taken
                macroblock = self.macroblock(column, row)
                macroblock.bits = self.reader.taken - begun
                self.macroblocks.append(macroblock)
        return self.macroblocks

    def macroblock(self, column, row):
        reader, header = self.reader, self.header
        found = Macroblock()
        place = row * self.columns + column
        if header.update_mb_segmentation_map:
            found.segment = reader.tree(tables.SEGMENT_TREE, header.segment_probabilities, "segment_id")
            self.segment_map[place] = found.segment
        elif header.segmentation_enabled:
            found.segment = self.segment_map[place]
        found.skip = reader.bit(header.prob_skip_false, "mb_skip_coeff") if header.mb_no_coeff_skip else 0
        if header.is_key:
            self.key_modes(found, column, row)
        elif reader.bit(header.prob_intra, "is_inter_mb"):
            self.inter_modes(found, column, row)
        else:
            self.intra_modes(found)
        return found

    def key_modes(self, found, column, row):
        reader = self.reader
        found.y_mode = reader.tree(tables.KEY_Y_TREE, tables.KEY_Y_PROBABILITIES, "key intra_y_mode")
        if found.y_mode == B:
            above, left = self.at(column, row - 1).subs, self.at(column - 1, row).subs
            for block in range(16):
                up = found.subs[block - 4] if block > 3 else above[block + 12]
                before = found.subs[block - 1] if block % 4 else left[block + 3]
                at = 90 * up + 9 * before
                found.subs[block] = reader.tree(
                    tables.SUB_TREE, tables.KEY_SUBS[at : at + 9], "key intra_b_mode", up, before
                )
        else:
            found.subs = [COUNTERPARTS[found.y_mode]] * 16
        found.uv_mode = reader.tree(tables.UV_TREE, tables.KEY_UV_PROBABILITIES, "key intra_uv_mode")

    def intra_modes(self, found):
        reader, context = self.reader, self.context
        found.y_mode = reader.tree(tables.INTER_Y_TREE, context.y, "intra_y_mode")
        if found.y_mode == B:
            for block in range(16):
                found.subs[block] = reader.tree(tables.SUB_TREE, tables.INTER_SUB_PROBABILITIES, "intra_b_mode")
        else:
            found.subs = [COUNTERPARTS[found.y_mode]] * 16
        found.uv_mode = reader.tree(tables.UV_TREE, context.uv, "intra_uv_mode")

    def inter_modes(self, found, column, row):
        reader, header = self.reader, self.header
        found.reference = LAST
        if reader.bit(header.prob_last, "mb_ref_frame_sel1"):
            found.reference = ALTREF if reader.bit(header.prob_gf, "mb_ref_frame_sel2") else GOLDEN
        near, best, counts = self.near_vectors(found.reference, column, row)
        probabilities = [tables.VECTOR_MODE_PROBABILITIES[count][node] for node, count in enumerate(counts)]
        found.vector_mode = reader.tree(tables.VECTOR_MODE_TREE, probabilities, "mv_mode", *counts)
        if found.vector_mode == SPLIT:
            self.split_vectors(found, column, row, best)
            return
        vector = ORIGIN
        if found.vector_mode == NEAREST:
            vector = self.clamped(near[0], column, row)
        elif found.vector_mode == NEAR:
            vector = self.clamped(near[1], column, row)
        elif found.vector_mode == NEW:
            vector = self.new_vector(best)
        found.vectors = [vector] * 16

    def near_vectors(self, reference, column, row):
        """The nearest and the near vector, the best one clamped, and the counts that select probabilities (section
        16.3).
        """
        biases = self.context.sign_biases
        found, counts = [ORIGIN], [0, 0, 0, 0]
        place = 0
        for neighbour, weight in (
            (self.at(column, row - 1), 2),
            (self.at(column - 1, row), 2),
            (self.at(column - 1, row - 1), 1),
        ):
            if neighbour.reference == INTRA:
                continue
            vector = neighbour.vector
            if vector == ORIGIN:
                counts[0] += weight
                continue
            if biases[neighbour.reference] != biases[reference]:
                vector = (-vector[0], -vector[1])
                self.events.add("sign bias turns a neighbour's vector")
            if place and found[place] == vector:
                counts[place] += weight
            else:
                found.append(vector)
                place += 1
                counts[place] += weight
        while len(found) < 4:
            found.append(ORIGIN)
        # Three different vectors: the third counts as the first if they are equal.
        if counts[3] and found[place] == found[1]:
            counts[1] += 1
            self.events.add("three different neighbours, the third like the first")
        split = 0
        for neighbour, weight in (
            (self.at(column, row - 1), 2),
            (self.at(column - 1, row), 2),
            (self.at(column - 1, row - 1), 1),
        ):
            split += weight * (neighbour.reference != INTRA and neighbour.vector_mode == SPLIT)
        counts[3] = split
        if counts[2] > counts[1]:
            counts[1], counts[2] = counts[2], counts[1]
            found[1], found[2] = found[2], found[1]
        if counts[1] >= counts[0]:
            found[0] = found[1]
        best = self.clamped(found[0], column, row)
        for name, vector in (("nearest", found[1]), ("near", found[2]), ("best", found[0])):
            if vector != self.clamped(vector, column, row):
                self.events.add(f"{name} vector is clamped")
        return (found[1], found[2]), best, counts

    def clamped(self, vector, column, row):
        """A vector that moves the macroblock at most one macroblock out of the frame (section 5)."""
        return (
            min(max(vector[0], -64 * (row + 1)), 64 * (self.rows - row)),
            min(max(vector[1], -64 * (column + 1)), 64 * (self.columns - column)),
        )

    def new_vector(self, best):
        row = best[0] + self.component(0)
        return row, best[1] + self.component(1)

    def component(self, which):
        """A component of a vector in quarter samples (section 17.1)."""
        reader, probabilities = self.reader, self.context.vectors[which]
        if reader.bit(probabilities[0], "mv_long", which):
            size = 0
            for bit in tables.LONG_VECTOR_BITS:
                size |= reader.bit(probabilities[9 + bit], "mv_long_bit", which, bit) << bit
            if not size & 0xFFF0 or reader.bit(probabilities[9 + 3], "mv_long_bit", which, 3):
                size |= 8
        else:
            size = reader.tree(tables.SHORT_VECTOR_TREE, probabilities[2:9], "mv_short", which)
        return -size if size and reader.bit(probabilities[1], "mv_sign", which) else size

    def split_vectors(self, found, column, row, best):
        reader = self.reader
        found.split = reader.tree(tables.SPLIT_TREE, tables.SPLIT_PROBABILITIES, "mv_split_mode")
        above, left = self.at(column, row - 1), self.at(column - 1, row)
        starts = tables.SPLIT_STARTS[found.split]
        for first in sorted(set(starts)):
            up = (
                found.vectors[first - 4]
                if first > 3
                else (above.vectors[first + 12] if above.reference != INTRA else ORIGIN)
            )
            before = (
                found.vectors[first - 1]
                if first % 4
                else (left.vectors[first + 3] if left.reference != INTRA else ORIGIN)
            )
            kind = self.neighbours_kind(before, up)
            choice = reader.tree(tables.PART_VECTOR_TREE, tables.PART_VECTOR_PROBABILITIES[kind], "sub_mv_mode", kind)
            vector = (before, up, ORIGIN, None)[choice]
            if vector is None:
                vector = self.new_vector(best)
            for block in range(16):
                if starts[block] == first:
                    found.vectors[block] = vector

    @staticmethod
    def neighbours_kind(left, above):
        if left == above:
            return 4 if above == ORIGIN else 3
        if above == ORIGIN:
            return 2
        return 1 if left == ORIGIN else 0


class Tokens:
    """Reads the coefficients of a frame's macroblocks (section 13)."""

    def __init__(self, readers, probabilities, columns):
        self.readers, self.probabilities = readers, probabilities
        self.above = [[0] * 9 for _ in range(columns)]
        self.left = [0] * 9

    def read(self, macroblock, column, row):
        if column == 0:
            self.left = [0] * 9
        above, left = self.above[column], self.left
        if macroblock.skip:
            # The flags of Y2 stay if the macroblock has none.
            for flags in (above, left):
                flags[:8] = [0] * 8
                if macroblock.has_y2:
                    flags[8] = 0
            return
        reader = self.readers[row % len(self.readers)]
        begun = reader.taken
        first, kind = 0, 3
        if macroblock.has_y2:
            block, above[8] = self.block(reader, 1, 0, above[8] + left[8])
            left[8] = above[8]
            macroblock.blocks[24] = block
            macroblock.has_tokens |= bool(left[8])
            first, kind = 1, 0
        for number in range(24):
            if number < 16:
                up, before, which = number % 4, number // 4, kind
            else:
                plane = (number - 16) // 4
                up, before, which = 4 + 2 * plane + number % 2, 4 + 2 * plane + number % 4 // 2, 2
            start = first if number < 16 else 0
            block, flag = self.block(reader, which, start, above[up] + left[before])
            above[up] = left[before] = flag
            macroblock.blocks[number] = block
            macroblock.has_tokens |= bool(flag)
        macroblock.token_bits = reader.taken - begun

    def block(self, reader, kind, first, context):
        """The coefficients of a block, or None without tokens, and whether it has one (an end at the first place is
        none).
        """
        values, place, node, last = [0] * 16, first, 0, None
        while place < 16:
            at = ((kind * 8 + tables.BANDS[place]) * 3 + context) * 11
            token = reader.tree(
                tables.TOKEN_TREE,
                self.probabilities[at : at + 11],
                "token",
                kind,
                tables.BANDS[place],
                context,
                int(node == 2),
                node=node,
            )
            if token == 11:
                break
            value = token
            if token > 4:
                extra = 0
                for bit, probability in enumerate(tables.CATEGORY_PROBABILITIES[token - 5]):
                    extra = 2 * extra + reader.bit(probability, "extra_bit", token - 4, bit)
                value = tables.CATEGORY_BASES[token - 5] + extra
            if value:
                negative = reader.flag("coefficient sign", kind)
                values[tables.ZIGZAG[place]] = -value if negative else value
            context = min(value, 2)
            node = 0 if value else 2
            place += 1
            last = place
        return (values if last is not None else None), int(last is not None)


def map_before(header, size, before):
    """The segment map that a frame changes: zeros in a key frame (section 9.3)."""
    return [0] * size if header.is_key or before is None else list(before)


def parse(packet, before, size, segment_map, saw=None):
    """The frame of a packet after a context and a segment map; `size` is that of the last key frame."""
    header, start = start_of(packet, before is not None)
    context = context_for(header, before)
    end = start + header.first_size
    reader = Reader(packet[start:end], saw)
    reader.asked = asked = []
    read_first_fields(reader, header, context)
    partitions = partitions_of(packet, end, 1 << header.log2_nbr_of_dct_partitions)
    after = read_last_fields(reader, header, context)
    header_bits, reader.asked = reader.taken, None
    width, height = (header.width, header.height) if header.is_key else size
    columns, rows = (width + 15) // 16, (height + 15) // 16
    segment_map = map_before(header, columns * rows, segment_map)
    modes = Modes(reader, header, context, columns, rows, segment_map)
    macroblocks = modes.read()
    tokens = Tokens([Reader(text, saw) for text in partitions], context.coefficients, columns)
    for place, macroblock in enumerate(macroblocks):
        tokens.read(macroblock, place % columns, place // columns)
    return Frame(
        header,
        context,
        after,
        columns,
        rows,
        macroblocks,
        segment_map,
        partitions,
        [reader, *tokens.readers],
        header_bits,
        asked,
        modes.events,
    )


class Parsing:
    """Parses one packet after another, without samples. After a packet that is refused, packets are refused up to the
    next key tag.
    """

    def __init__(self):
        self.context, self.segment_map, self.size, self.broken = None, None, None, None

    def packet(self, packet):
        """The frame of a packet, None for a packet of no bytes; raises Refused."""
        if len(packet) >= 3 and not packet[0] & 1:
            self.context, self.segment_map, self.broken = None, None, None
        if self.broken:
            raise Refused(self.broken)
        try:
            return self.frame(packet)
        except Refused as refused:
            self.broken = str(refused)
            raise

    def frame(self, packet):
        if not packet:
            if self.context is None:
                raise Refused("NoKeyFrame")
            return None
        frame = parse(packet, self.context, self.size, self.segment_map)
        if frame.header.is_key:
            self.size = frame.header.width, frame.header.height
        self.context, self.segment_map = frame.context_after, frame.segment_map
        return frame
