"""What is to be reached: each point has a group, a section of RFC 6386 and a name. `Watch` says which of them a stream
reaches.
"""

from . import tables
from .decoder import Decoder, Refused, chroma_vector, factors, level_of, limits_of
from .bits import path_to
from .parser import ALTREF, B, GOLDEN, INTRA, SPLIT

SUB_NAMES = ["DC", "TM", "VE", "HE", "LD", "RD", "VR", "VL", "HD", "HU"]
MODE_NAMES = ["DC", "V", "H", "TM", "B"]
TOKEN_NAMES = ["0", "1", "2", "3", "4", "cat1", "cat2", "cat3", "cat4", "cat5", "cat6", "EOB"]
KINDS = ["Y after Y2", "Y2", "chroma", "Y with DC"]
VECTOR_MODES = ["zero", "nearest", "near", "new", "split"]
PART_MODES = ["left", "above", "zero", "new"]
SPLITS = ["top and bottom", "left and right", "quarters", "sixteenths"]
NEIGHBOURS = ["different", "left zero", "above zero", "same", "both zero"]
COMPONENTS = ["row", "column"]
CAUSES = ["ShortPacket", "Version", "StartCode", "Size", "NoKeyFrame", "FirstPartition", "TokenSizes", "TokenPartition"]
FLAGS = (
    "color_space clamping_type segmentation_enabled update_mb_segmentation_map update_segment_feature_data"
    " segment_feature_mode filter_type loop_filter_adj_enable mode_ref_lf_delta_update refresh_entropy_probs"
    " refresh_golden_frame refresh_alternate_frame sign_bias_golden sign_bias_alternate refresh_last mb_no_coeff_skip"
    " intra_16x16_prob_update_flag intra_chroma_prob_update_flag"
).split()
PROBABILITIES = ("prob_skip_false", "prob_intra", "prob_last", "prob_gf")
EDGES = ["corner", "first row", "first column", "inside"]


def field_points():
    """The fields of the header: each flag, the bounds of each number, each level and sharpness (section 19.2)."""
    for name in FLAGS:
        yield from (f"{name} {value}" for value in (0, 1))
    for name, places, most in (
        ("quantizer_update", 4, 127),
        ("lf_update", 4, 63),
        ("ref_frame_delta", 4, 63),
        ("mb_mode_delta", 4, 63),
    ):
        for place in range(places):
            yield from (f"{name} {place} {value}" for value in ("absent", -most, most))
    for name in ("y_dc_delta", "y2_dc_delta", "y2_ac_delta", "uv_dc_delta", "uv_ac_delta"):
        yield from (f"{name} {value}" for value in ("absent", -15, 15))
    for place in range(3):
        yield from (f"segment_prob_update {place} {value}" for value in (0, 1))
    yield from (f"loop_filter_level {level}" for level in range(64))
    yield from (f"sharpness_level {level}" for level in range(8))
    yield from (f"log2_nbr_of_dct_partitions {count}" for count in range(4))
    yield from (f"y_ac_qi {index}" for index in (0, 127))
    for name in ("copy_buffer_to_golden", "copy_buffer_to_alternate"):
        yield from (f"{name} {value}" for value in range(4))
    for which in ("horizontal", "vertical"):
        yield from (f"{which} scale {value}" for value in range(4))
    yield from (f"version {version} {kind}" for version in range(4) for kind in ("key", "inter"))
    yield from (f"version {version} after {before}" for before in range(4) for version in range(4) if version != before)
    yield from (f"{name} {value}" for name in PROBABILITIES for value in (0, 255))
    yield from (f"segment_prob {place} {value}" for place in range(3) for value in (0, 255))


def update_points():
    for place in range(len(tables.UPDATES)):
        yield from (f"coeff_prob_update {place} {value}" for value in (0, 1))
    for component in range(2):
        for place in range(19):
            yield from (f"mv_prob_update {component} {place} {value}" for value in (0, 1))
    for name, count in (("intra_16x16_prob", 4), ("intra_chroma_prob", 3)):
        yield from (f"{name} {place}" for place in range(count))
        yield from (f"{name} {place} {value}" for place in range(count) for value in (0, 255))
    yield from (f"coeff_prob {value}" for value in (0, 255))
    yield from (
        f"mv_prob {component} {place} {value}" for component in range(2) for place in range(19) for value in (0, 127)
    )


def mode_points():
    yield from (f"key luma {name}" for name in MODE_NAMES)
    yield from (f"key chroma {name}" for name in MODE_NAMES[:4])
    yield from (f"inter frame luma {name}" for name in MODE_NAMES)
    yield from (f"inter frame chroma {name}" for name in MODE_NAMES[:4])
    yield from (f"inter frame sub block {name}" for name in SUB_NAMES)
    yield from (f"segment {number}" for number in range(4))
    yield from (
        f"{name} {value}"
        for name in ("mb_skip_coeff", "is_inter_mb", "mb_ref_frame_sel1", "mb_ref_frame_sel2")
        for value in (0, 1)
    )


def key_sub_points():
    yield from (
        f"above {above}, left {left}: {mode}" for above in SUB_NAMES for left in SUB_NAMES for mode in SUB_NAMES
    )


def token_points():
    """Each token by kind, band and context, at the first node and after a 0 (section 13)."""
    for kind, name in enumerate(KINDS):
        for band in range(8):
            if kind == 0 and band == 0:
                continue
            # Context 0 is that of the first place, and that after a 0, where the end cannot come.
            is_first = band == (1 if kind == 0 else 0)
            for context in range(0 if is_first else 1, 3):
                for token in range(12):
                    yield f"{name}, band {band}, context {context}: {TOKEN_NAMES[token]}"
            if not is_first:
                yield from (f"{name}, band {band}, after 0: {TOKEN_NAMES[token]}" for token in range(11))
    for category, probabilities in enumerate(tables.CATEGORY_PROBABILITIES, 1):
        yield from (f"cat{category} bit {bit} {value}" for bit in range(len(probabilities)) for value in (0, 1))
        yield f"cat{category} all bits 1"
    yield from (f"{name} sign {value}" for name in KINDS for value in (0, 1))
    yield from (f"{name}: zeros up to the last place" for name in KINDS)


def vector_points():
    for node, (name, most) in enumerate((("zero", 5), ("nearest", 5), ("near", 5), ("split", 5))):
        yield from (f"count of {name} {count}, bit {bit}" for count in range(most + 1) for bit in (0, 1))
    yield from (f"mode {name}" for name in VECTOR_MODES)
    yield from (f"split {name}" for name in SPLITS)
    yield from (f"part, neighbours {kind}: {mode}" for kind in NEIGHBOURS for mode in PART_MODES)
    for component in COMPONENTS:
        yield from (f"{component} {value}" for value in ("short", "long", "plus", "minus"))
        yield from (f"{component} short {size}" for size in range(8))
        yield from (f"{component} long bit {bit} {value}" for bit in range(10) for value in (0, 1))
        yield f"{component} long bit 3 not read"
    yield from (f"{component} past 16 bits" for component in COMPONENTS)
    yield "sign bias turns a neighbour's vector"
    yield "three different neighbours, the third like the first"
    yield from (f"{which} vector is clamped" for which in ("nearest", "near", "best"))


def reference_points():
    for golden in ("refreshed", 0, 1, 2):
        for altref in ("refreshed", 0, 1, 2):
            for biases in ("no bias", "golden bias", "altref bias", "both biases"):
                yield from (f"golden {golden}, altref {altref}, {biases}, last {last}" for last in (0, 1))
    yield "probabilities are saved, changed and come back"
    yield from ("hidden frame", "dropped frame", "size changes", "hidden key frame")


def segment_points():
    yield from ("map updated", "map kept", "map kept through a frame without segments", "map cleared by a key frame")
    yield from (f"features {name}" for name in ("absolute", "delta"))
    yield from (f"quantizer index clamped at {value}" for value in (0, 127))
    yield from (f"level clamped at {value} by a segment" for value in (0, 63))
    yield from (f"level clamped at {value} by deltas" for value in (0, 63))
    yield "level 0 by a segment in a filtered frame"


def residual_points():
    yield from ("macroblock without tokens, not skipped", "skipped with Y2", "skipped without Y2")
    yield from (
        f"{kind} factor {name}"
        for kind in ("Y", "Y2", "chroma")
        for name in ("least DC", "greatest DC", "least AC", "greatest AC")
    )
    yield from (
        "clamped at 0",
        "clamped at 255",
        "DC alone",
        "Y2 DC alone",
        "first pass leaves 16 bits",
        "second pass leaves 16 bits",
        "coefficient times factor leaves 16 bits",
    )
    yield from (f"Y2: {which} pass leaves 16 bits" for which in ("first", "second"))


def filter_points():
    for name in ("normal", "simple"):
        for frame in ("key", "inter"):
            yield from (f"{name}, {frame} frame, sharpness {sharpness}" for sharpness in range(8))
    yield from (f"key frame, variance threshold {value}" for value in range(3))
    yield from (f"inter frame, variance threshold {value}" for value in range(4))
    yield from (f"interior limit {value}" for value in range(1, 64))
    yield from (
        f"{name}: inner edges {value}"
        for name in ("normal", "simple")
        for value in ("filtered", "not filtered", "filtered for tokens that are all 0")
    )


def prediction_points():
    for plane in ("luma", "chroma"):
        for frame in ("key", "inter"):
            for mode in MODE_NAMES[:4]:
                yield from (f"{frame} frame {plane} {mode} at the {edge}" for edge in EDGES)
    for mode in ("LD", "VL"):
        yield from (f"{mode} uses samples right of the frame, {row}" for row in ("first row", "later row"))
    for taps in ("six taps", "two taps"):
        yield from (
            f"{taps}: luma 16x16, fraction {across},{down}" for across in range(0, 8, 2) for down in range(0, 8, 2)
        )
        yield from (
            f"{taps}: luma 4x4, fraction {across},{down}" for across in range(0, 8, 2) for down in range(0, 8, 2)
        )
        yield from (f"{taps}: chroma 8x8, fraction {across},{down}" for across in range(8) for down in range(8))
        yield from (f"{taps}: chroma 4x4, fraction {across},{down}" for across in range(8) for down in range(8))
    for side in ("left", "right", "top", "bottom", "top left", "top right", "bottom left", "bottom right"):
        yield from (
            f"vector out of the frame, {side}, by {reach}"
            for reach in ("one sample or more", "a border of 32 or more", "200 or more")
        )
    yield from (
        f"chroma vector rounded {way}"
        for way in ("up from a half, plus", "down from a half, minus", "to whole samples")
    )
    yield "sixteen different vectors in a macroblock"
    yield from (f"reference {name}" for name in ("last", "golden", "altref"))


def partition_points():
    yield from (f"{1 << count} token partitions, {rows}" for count in range(4) for rows in ("fewer rows", "more rows"))
    yield from (
        f"{which} partition {what}" for which in ("first", "token") for what in ("ends early", "begins with FF")
    )
    yield "empty token partition"


def size_points():
    yield from (f"width {side}" for side in range(1, 41))
    yield from (f"height {side}" for side in range(1, 41))
    yield from ("width 16383", "height 16383")


def cause_points():
    yield from CAUSES
    yield from ("lost with a refused packet", "key packet after a refused one")


# Each group: its section, its points, and the points that no stream can reach, with the reason.
NEAR = "the near vector counts at most 2 of the 5 that its neighbours have in all, or it would be the nearest"
BIT3 = "a long size without a bit above bit 3 has bit 3 set, and it is not read"
GROUPS = {
    "header fields": ("19.2", field_points, {}),
    "probability updates": ("13.4, 16.2, 17.2", update_points, {}),
    "modes": ("8.1, 9.3, 11, 16", mode_points, {}),
    "key sub block modes in context": ("11.3, 11.5", key_sub_points, {}),
    "tokens": ("13", token_points, {}),
    "vectors": (
        "16.3, 17",
        vector_points,
        {f"count of near {count}, bit {bit}": NEAR for count in (3, 4, 5) for bit in (0, 1)},
    ),
    "references": ("9.7, 9.11", reference_points, {}),
    "segments": ("9.3, 9.6", segment_points, {}),
    "residuals": ("14", residual_points, {}),
    "loop filter": ("15", filter_points, {}),
    "prediction": ("12, 18", prediction_points, {}),
    "partitions": ("9.5, 7", partition_points, {}),
    "sizes": ("9.1", size_points, {}),
    "refusals": ("9.1", cause_points, {}),
}


def all_points():
    """Pairs of a group and a point."""
    return [(group, point) for group, (_, points, _) in GROUPS.items() for point in points()]


class Watch:
    """Decodes a stream plainly, and collects the points that it reaches."""

    POINTS = frozenset(all_points())

    def __init__(self):
        self.found = set()
        self.decoder = Decoder(self.saw)
        self.category = []
        self.had_segments_off = False
        self.version = None

    def add(self, group, point):
        """Takes note of a point; of values between their bounds there is none."""
        if (group, point) in self.POINTS:
            self.found.add((group, point))

    # Values that are read.

    def saw(self, name, value):
        kind, rest = name[0], name[1:]
        if kind in FLAGS or kind in (
            "copy_buffer_to_golden",
            "copy_buffer_to_alternate",
            "loop_filter_level",
            "sharpness_level",
            "log2_nbr_of_dct_partitions",
            "y_ac_qi",
        ):
            self.add("header fields", f"{kind} {value}")
        elif kind.endswith(("_delta", "_update")) and kind not in ("coeff_prob_update", "mv_prob_update"):
            value = "absent" if value is None else value
            self.add("header fields", " ".join(map(str, (kind, *rest, value))))
        elif kind in ("coeff_prob_update", "mv_prob_update"):
            self.add("probability updates", " ".join(map(str, (kind, *rest, value))))
        elif kind in ("intra_16x16_prob", "intra_chroma_prob", "mv_prob"):
            self.add("probability updates", " ".join(map(str, (kind, *rest))))
            self.add("probability updates", " ".join(map(str, (kind, *rest, value))))
        elif kind == "coeff_prob":
            self.add("probability updates", f"{kind} {value}")
        elif kind in PROBABILITIES or kind == "segment_prob":
            self.add("header fields", " ".join(map(str, (kind, *rest, value))))
        else:
            self.saw_macroblock(kind, rest, value)

    def saw_macroblock(self, kind, rest, value):
        if kind == "key intra_b_mode":
            self.add(
                "key sub block modes in context",
                f"above {SUB_NAMES[rest[0]]}, left {SUB_NAMES[rest[1]]}: {SUB_NAMES[value]}",
            )
        elif kind == "token":
            block, band, context, after = rest
            where = "after 0" if after else f"context {context}"
            self.add("tokens", f"{KINDS[block]}, band {band}, {where}: {TOKEN_NAMES[value]}")
        elif kind == "extra_bit":
            category, bit = rest
            self.category = [value] if bit == 0 else [*self.category, value]
            self.add("tokens", f"cat{category} bit {bit} {value}")
            if len(self.category) == len(tables.CATEGORY_PROBABILITIES[category - 1]) and all(self.category):
                self.add("tokens", f"cat{category} all bits 1")
        elif kind == "coefficient sign":
            self.add("tokens", f"{KINDS[rest[0]]} sign {value}")
        elif kind in ("mb_skip_coeff", "is_inter_mb", "mb_ref_frame_sel1", "mb_ref_frame_sel2"):
            self.add("modes", f"{kind} {value}")
        elif kind == "segment_id":
            self.add("modes", f"segment {value}")
        elif kind == "intra_b_mode":
            self.add("modes", f"inter frame sub block {SUB_NAMES[value]}")
        elif kind.endswith("_mode") and "intra" in kind:
            frame = "key" if kind.startswith("key") else "inter frame"
            self.add("modes", f"{frame} {'chroma' if 'uv' in kind else 'luma'} {MODE_NAMES[value]}")
        else:
            self.saw_vector(kind, rest, value)

    def saw_vector(self, kind, rest, value):
        add = lambda point: self.add("vectors", point)
        if kind == "mv_mode":
            add(f"mode {VECTOR_MODES[value]}")
            for node, bit in path_to(tables.VECTOR_MODE_TREE, value):
                add(f"count of {('zero', 'nearest', 'near', 'split')[node >> 1]} {rest[node >> 1]}, bit {bit}")
        elif kind == "mv_split_mode":
            add(f"split {SPLITS[value]}")
        elif kind == "sub_mv_mode":
            add(f"part, neighbours {NEIGHBOURS[rest[0]]}: {PART_MODES[value]}")
        elif kind == "mv_long":
            add(f"{COMPONENTS[rest[0]]} {('short', 'long')[value]}")
            self.bits_set = 0
        elif kind == "mv_long_bit":
            component, bit = rest
            add(f"{COMPONENTS[component]} long bit {bit} {value}")
            if bit > 3:
                self.bits_set |= value
            if bit == 4 and not self.bits_set:
                add(f"{COMPONENTS[component]} long bit 3 not read")
        elif kind == "mv_short":
            add(f"{COMPONENTS[rest[0]]} short {value}")
        elif kind == "mv_sign":
            add(f"{COMPONENTS[rest[0]]} {('plus', 'minus')[value]}")

    # Packets and frames.

    def packet(self, packet):
        """Decodes a packet, and collects what its frame reaches."""
        before = self.decoder.context, self.decoder.segment_map, self.decoder.size
        was_broken = self.decoder.broken
        is_key = len(packet) >= 3 and not packet[0] & 1
        try:
            self.decoder.decode(packet)
        except Refused as refused:
            self.add("refusals", "lost with a refused packet" if was_broken and not is_key else str(refused).split()[0])
            return
        if was_broken:
            self.add("refusals", "key packet after a refused one")
        if not packet:
            self.add("references", "dropped frame")
            return
        frame = self.decoder.frame
        self.frame(packet, frame, *before)
        for event in frame.events:
            self.add("residuals", event)
            self.add("vectors", event)
        for place, macroblock in enumerate(frame.macroblocks):
            self.macroblock(frame, macroblock, place % frame.columns, place // frame.columns)

    def frame(self, packet, frame, context, segment_map, size):
        header = frame.header
        kind = "key" if header.is_key else "inter"
        self.add("header fields", f"version {header.version} {kind}")
        if not header.is_key and header.version != self.version:
            self.add("header fields", f"version {header.version} after {self.version}")
        self.version = header.version
        if not header.show_frame:
            self.add("references", "hidden frame")
        if header.is_key:
            self.key_frame(header, size)
        else:
            golden = "refreshed" if header.refresh_golden else header.copy_to_golden
            altref = "refreshed" if header.refresh_altref else header.copy_to_altref
            biases = ("no bias", "golden bias", "altref bias", "both biases")[
                frame.context.sign_biases[GOLDEN] + 2 * frame.context.sign_biases[ALTREF]
            ]
            self.add("references", f"golden {golden}, altref {altref}, {biases}, last {header.refresh_last}")
        if not header.refresh_entropy_probs and frame.context.coefficients != frame.context_after.coefficients:
            self.add("references", "probabilities are saved, changed and come back")
        self.segments(header, frame, segment_map)
        self.partitions(packet, frame)
        if header.loop_filter_level:
            self.add(
                "loop filter",
                f"{'simple' if header.filter_type else 'normal'}, {kind} frame, sharpness {header.sharpness_level}",
            )

    def key_frame(self, header, size):
        for which in ("horizontal", "vertical"):
            self.add("header fields", f"{which} scale {getattr(header, which + '_scale')}")
        self.add("sizes", f"width {header.width}")
        self.add("sizes", f"height {header.height}")
        if size and size != (header.width, header.height):
            self.add("references", "size changes")
        if not header.show_frame:
            self.add("references", "hidden key frame")

    def segments(self, header, frame, before):
        if header.segmentation_enabled:
            if header.update_mb_segmentation_map:
                self.add("segments", "map updated")
                self.had_segments_off = False
            elif header.is_key:
                self.add("segments", "map cleared by a key frame")
            elif before and any(before):
                self.add(
                    "segments", "map kept through a frame without segments" if self.had_segments_off else "map kept"
                )
                self.had_segments_off = False
            self.add("segments", "features absolute" if frame.context.segment_absolute else "features delta")
        else:
            self.had_segments_off = True

    def partitions(self, packet, frame):
        count = len(frame.partitions)
        self.add(
            "partitions",
            f"{count} token partitions, {'fewer' if frame.rows < count or count == 1 == frame.rows else 'more'} rows",
        )
        start = 10 if frame.header.is_key else 3
        texts = [packet[start : start + frame.header.first_size], *frame.partitions]
        for number, (text, reader) in enumerate(zip(texts, frame.readers)):
            which = "token" if number else "first"
            if reader.taken > 8 * len(text) + 8:
                self.add("partitions", f"{which} partition ends early")
            if text[:1] == b"\xff":
                self.add("partitions", f"{which} partition begins with FF")
            if number and not text:
                self.add("partitions", "empty token partition")

    # Macroblocks.

    def macroblock(self, frame, macroblock, column, row):
        self.levels(frame, macroblock)
        self.residual(frame, macroblock)
        if macroblock.reference == INTRA:
            self.intra(frame, macroblock, column, row)
        else:
            self.inter(frame, macroblock, column, row)

    def levels(self, frame, macroblock):
        header, context = frame.header, frame.context
        if not header.loop_filter_level:
            return
        own = context.segment_levels[macroblock.segment] if header.segmentation_enabled else 0
        level = header.loop_filter_level
        if header.segmentation_enabled:
            wanted = own if context.segment_absolute else level + own
            for bound, outside in ((0, wanted < 0), (63, wanted > 63)):
                if outside:
                    self.add("segments", f"level clamped at {bound} by a segment")
            level = min(max(wanted, 0), 63)
            if not level:
                self.add("segments", "level 0 by a segment in a filtered frame")
        if header.loop_filter_adj_enable:
            wanted = level + context.reference_deltas[macroblock.reference]
            if macroblock.reference == INTRA:
                wanted += context.mode_deltas[0] if macroblock.y_mode == B else 0
            else:
                wanted += context.mode_deltas[
                    1 if macroblock.vector_mode == 0 else 3 if macroblock.vector_mode == SPLIT else 2
                ]
            for bound, outside in ((0, wanted < 0), (63, wanted > 63)):
                if outside:
                    self.add("segments", f"level clamped at {bound} by deltas")
        level = level_of(macroblock, header, context)
        if level:
            interior, threshold, _, _ = limits_of(level, header)
            self.add("loop filter", f"{'key' if header.is_key else 'inter'} frame, variance threshold {threshold}")
            self.add("loop filter", f"interior limit {interior}")
            inside = macroblock.has_tokens or not macroblock.has_y2
            name = "simple" if header.filter_type else "normal"
            self.add("loop filter", f"{name}: inner edges {'filtered' if inside else 'not filtered'}")
            if macroblock.has_tokens and macroblock.has_y2 and not any(any(block or ()) for block in macroblock.blocks):
                self.add("loop filter", f"{name}: inner edges filtered for tokens that are all 0")

    def residual(self, frame, macroblock):
        header, context = frame.header, frame.context
        if header.segmentation_enabled:
            own = context.segment_quantizers[macroblock.segment]
            index = own if context.segment_absolute else header.y_ac_qi + own
            for bound, outside in ((0, index < 0), (127, index > 127)):
                if outside:
                    self.add("segments", f"quantizer index clamped at {bound}")
        if macroblock.skip:
            self.add("residuals", "skipped with Y2" if macroblock.has_y2 else "skipped without Y2")
            return
        if not macroblock.has_tokens:
            self.add("residuals", "macroblock without tokens, not skipped")
        pairs = factors(header, context, macroblock.segment)
        bounds = (((4, 157), (4, 284)), ((8, 314), (8, 440)), ((4, 132), (4, 284)))
        for kind, pair, bound in zip(("Y", "Y2", "chroma"), pairs, bounds):
            for name, value, (least, greatest) in zip(("DC", "AC"), pair, bound):
                if value == least:
                    self.add("residuals", f"{kind} factor least {name}")
                if value == greatest:
                    self.add("residuals", f"{kind} factor greatest {name}")
        for number, block in enumerate(macroblock.blocks):
            pair = pairs[1 if number == 24 else 0 if number < 16 else 2]
            if block and any(abs(value * pair[place > 0]) > 32767 for place, value in enumerate(block)):
                self.add("residuals", "coefficient times factor leaves 16 bits")
            if block and not any(block):
                self.add(
                    "tokens",
                    (
                        f"{KINDS[1 if number == 24 else 2 if number > 15 else 0 if macroblock.has_y2 else 3]}: zeros up"
                        " to the last place"
                    ),
                )
            if block and block[0] and not any(block[1:]):
                self.add("residuals", "Y2 DC alone" if number == 24 else "DC alone")

    def intra(self, frame, macroblock, column, row):
        kind = "key" if frame.header.is_key else "inter"
        edge = EDGES[(2 if not column else 3) if row else (1 if column else 0)]
        if macroblock.y_mode != B:
            self.add("prediction", f"{kind} frame luma {MODE_NAMES[macroblock.y_mode]} at the {edge}")
        elif column == frame.columns - 1:
            for block in (3, 7, 11, 15):
                mode = SUB_NAMES[macroblock.subs[block]]
                if mode in ("LD", "VL"):
                    self.add("prediction", f"{mode} uses samples right of the frame, {'later' if row else 'first'} row")
        self.add("prediction", f"{kind} frame chroma {MODE_NAMES[macroblock.uv_mode]} at the {edge}")

    def inter(self, frame, macroblock, column, row):
        self.add("prediction", f"reference {('intra', 'last', 'golden', 'altref')[macroblock.reference]}")
        version = frame.header.version
        taps = "two taps" if version else "six taps"
        split = macroblock.vector_mode == SPLIT
        if split and len(set(macroblock.vectors)) == 16:
            self.add("prediction", "sixteen different vectors in a macroblock")
        for vector in macroblock.vectors:
            for component, value in zip(COMPONENTS, vector):
                # libvpx's vectors count halves of a quarter.
                if not -32768 <= 2 * value <= 32767:
                    self.add("vectors", f"{component} past 16 bits")
        for block in range(16) if split else (15,):
            down, across = (2 * component for component in macroblock.vectors[block])
            self.add("prediction", f"{taps}: luma {'4x4' if split else '16x16'}, fraction {across & 7},{down & 7}")
            x, y, side = (
                (16 * column + 4 * (block % 4), 16 * row + 4 * (block // 4), 4)
                if split
                else (16 * column, 16 * row, 16)
            )
            self.reach(frame, x + (across >> 3), y + (down >> 3), side)
        for group in range(4) if split else (0,):
            self.chroma(macroblock, group, version, taps, split)

    def chroma(self, macroblock, group, version, taps, split):
        blocks = [8 * (group // 2) + 2 * (group % 2) + k for k in (0, 1, 4, 5)]
        totals = [sum(macroblock.vectors[block][component] for block in blocks) for component in (0, 1)]
        down, across = (chroma_vector(total, version) for total in totals)
        self.add("prediction", f"{taps}: chroma {'4x4' if split else '8x8'}, fraction {across & 7},{down & 7}")
        for total in totals:
            if total % 4 == 2:
                self.add(
                    "prediction",
                    f"chroma vector rounded {'up from a half, plus' if total > 0 else 'down from a half, minus'}",
                )
            if version == 3 and chroma_vector(total, 0) & 7:
                self.add("prediction", "chroma vector rounded to whole samples")

    def reach(self, frame, x, y, side):
        """How far a block lies outside the planes of whole macroblocks, on each side and corner."""
        outside = {"left": -x, "right": x + side - 16 * frame.columns, "top": -y, "bottom": y + side - 16 * frame.rows}
        for name in list(outside):
            self.reached(name, outside[name])
        for down in ("top", "bottom"):
            for across in ("left", "right"):
                self.reached(f"{down} {across}", min(outside[down], outside[across]))

    def reached(self, side, samples):
        for least, words in ((1, "one sample or more"), (32, "a border of 32 or more"), (200, "200 or more")):
            if samples >= least:
                self.add("prediction", f"vector out of the frame, {side}, by {words}")
