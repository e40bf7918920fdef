"""The objects that `vp8list --header all --json` and `--macroblocks all --json` write of a stream, by the plain
parser.
"""

from .decoder import level_of, limits_of
from .parser import B, INTRA, SPLIT, Parsing, Refused, context_for

REFERENCES = ("intra", "last", "golden", "altref")
LUMA = ("DC_PRED", "V_PRED", "H_PRED", "TM_PRED", "B_PRED")
VECTORS = ("mv_zero", "mv_nearest", "mv_near", "mv_new", "mv_split")
SPLITS = ("mv_top_bottom", "mv_left_right", "mv_quarters", "MV_16")
BITS = ("mode_bits", "token_bits")
SUB_BLOCKS = [f"B_{name}_PRED" for name in ("DC", "TM", "VE", "HE", "LD", "RD", "VR", "VL", "HD", "HU")]
# Values that the header reads, by the field that lists their bits: each by its place, or all together.
EACH = {
    "quantizer_update": "quantizer_update_value",
    "lf_update": "lf_update_value",
    "segment_prob_update": "segment_prob",
}
TOGETHER = {
    "coeff_prob_update": "token_prob_update",
    "coeff_prob": "token_prob_update",
    "mv_prob": "mv_prob_update",
    "copy_buffer_to_alternate": "copy_buffer_to_arf",
}
TOGETHER |= {f"{name}_update_flag": name for name in ("intra_16x16_prob", "intra_chroma_prob")}
PLACES = {
    "quantizer_update_value": 4,
    "lf_update_value": 4,
    "segment_prob": 3,
    "ref_frame_delta": 4,
    "mb_mode_delta": 4,
}
PROBABILITIES = (("coeff_prob", "coefficients"), ("y_mode_prob", "y"), ("uv_mode_prob", "uv"))


def bits_of(frame):
    """The bits of each field: those of the tag and the size by section 9.1, and of each other how many booleans it
    takes.
    """
    header = frame.header
    bits = {"key_frame": 1, "version": 3, "show_frame": 1, "first_part_size": 19}
    bits |= {"width": 14, "horizontal_scale": 2, "height": 14, "vertical_scale": 2} if header.is_key else {}
    if header.loop_filter_adj_enable:
        bits |= {name: [0] * 4 for name in ("ref_frame_delta", "mb_mode_delta")}
    for (name, *place), count in frame.asked:
        field = TOGETHER.get(name, EACH.get(name, name))
        if field in PLACES:
            bits.setdefault(field, [0] * PLACES[field])[place[0]] += count
        else:
            bits[field] = bits.get(field, 0) + count
    return bits | {"token_partition_sizes": 24 * (len(frame.partitions) - 1)}


def header_of(packet, frame):
    """The fields of a header by their names in RFC 6386, section 19.2."""
    header = frame.header
    fields = {
        "packet": packet,
        "key_frame": int(header.is_key),
        "version": header.version,
        "show_frame": header.show_frame,
        "first_part_size": header.first_size,
    }
    if header.is_key:
        fields |= {
            name: getattr(header, name)
            for name in ("width", "horizontal_scale", "height", "vertical_scale", "color_space", "clamping_type")
        }
    fields["segmentation_enabled"] = header.segmentation_enabled
    if header.segmentation_enabled:
        fields |= {
            name: getattr(header, name) for name in ("update_mb_segmentation_map", "update_segment_feature_data")
        }
        if header.update_segment_feature_data:
            fields["segment_feature_mode"] = frame.context.segment_absolute
            fields["quantizer_update_value"] = frame.context.segment_quantizers
            fields["lf_update_value"] = frame.context.segment_levels
        if header.update_mb_segmentation_map:
            fields["segment_prob"] = header.segment_probabilities
    fields |= {
        name: getattr(header, name)
        for name in ("filter_type", "loop_filter_level", "sharpness_level", "loop_filter_adj_enable")
    }
    if header.loop_filter_adj_enable:
        fields |= {"ref_frame_delta": frame.context.reference_deltas, "mb_mode_delta": frame.context.mode_deltas}
    fields["log2_nbr_of_dct_partitions"] = header.log2_nbr_of_dct_partitions
    fields |= dict(
        zip(
            ("y_ac_qi", "y_dc_delta", "y2_dc_delta", "y2_ac_delta", "uv_dc_delta", "uv_ac_delta"),
            (header.y_ac_qi, *header.deltas),
        )
    )
    if not header.is_key:
        fields |= {"refresh_golden_frame": header.refresh_golden, "refresh_alternate_frame": header.refresh_altref}
        fields |= {} if header.refresh_golden else {"copy_buffer_to_golden": header.copy_to_golden}
        fields |= {} if header.refresh_altref else {"copy_buffer_to_arf": header.copy_to_altref}
        fields |= {
            "sign_bias_golden": frame.context.sign_biases[2],
            "sign_bias_alternate": frame.context.sign_biases[3],
        }
    fields["refresh_entropy_probs"] = header.refresh_entropy_probs
    if not header.is_key:
        fields["refresh_last"] = header.refresh_last
    fields["mb_no_coeff_skip"] = header.mb_no_coeff_skip
    if header.mb_no_coeff_skip:
        fields["prob_skip_false"] = header.prob_skip_false
    if not header.is_key:
        fields |= {name: getattr(header, name) for name in ("prob_intra", "prob_last", "prob_gf")}
    fields["token_partition_sizes"] = [len(partition) for partition in frame.partitions]
    return fields | {"bits": bits_of(frame)}


def changes_of(packet, before, after):
    """An object for each probability that a header changes."""
    lists = [(name, getattr(before, list_), getattr(after, list_)) for name, list_ in PROBABILITIES]
    lists += [
        (f"mv_{which}_prob", before.vectors[place], after.vectors[place])
        for place, which in enumerate(("row", "column"))
    ]
    for name, old, new in lists:
        for index, (one, other) in enumerate(zip(old, new)):
            if one != other:
                yield {"packet": packet, "probability": name, "index": index, "old": one, "new": other}


def parts_of(macroblock):
    if macroblock.reference == INTRA:
        return [SUB_BLOCKS[mode] for mode in macroblock.subs] if macroblock.y_mode == B else None
    return [[across, down] for down, across in macroblock.vectors] if macroblock.vector_mode == SPLIT else None


def split_of(macroblock):
    return SPLITS[macroblock.split] if macroblock.reference != INTRA and macroblock.vector_mode == SPLIT else None


def limits(macroblock, frame):
    header = frame.header
    level = level_of(macroblock, header, frame.context) if header.loop_filter_level else 0
    interior, threshold, outer, inner = limits_of(level, header) if level else [None] * 4
    filters_inside = bool(level) and (macroblock.has_tokens or not macroblock.has_y2)
    return {
        "level": level,
        "interior_limit": interior,
        "hev_threshold": threshold,
        "mbedge_limit": outer,
        "sub_bedge_limit": inner,
        "inner": int(filters_inside),
    }


def quantizer_of(macroblock, frame):
    index, context = frame.header.y_ac_qi, frame.context
    if frame.header.segmentation_enabled:
        index = context.segment_quantizers[macroblock.segment] + (0 if context.segment_absolute else index)
    return min(max(index, 0), 127)


def macroblock_of(packet, place, frame):
    macroblock = frame.macroblocks[place]
    is_intra = macroblock.reference == INTRA
    values = [abs(value) for block in macroblock.blocks for value in block or ()]
    return {
        "packet": packet,
        "column": place % frame.columns,
        "row": place // frame.columns,
        "segment": macroblock.segment,
        "skip": macroblock.skip,
        "reference": REFERENCES[macroblock.reference],
        "luma": LUMA[macroblock.y_mode] if is_intra else VECTORS[macroblock.vector_mode],
        "chroma": LUMA[macroblock.uv_mode] if is_intra else None,
        "parts": parts_of(macroblock),
        "split": split_of(macroblock),
        "vector": None if is_intra else [macroblock.vector[1], macroblock.vector[0]],
        "quantizer": quantizer_of(macroblock, frame),
        **limits(macroblock, frame),
        "blocks": "".join(str(int(any(block or ()))) for block in macroblock.blocks),
        "coefficients": sum(value > 0 for value in values),
        "greatest": max(values, default=0),
        "mode_bits": macroblock.bits,
        "token_bits": macroblock.token_bits,
    }


def is_counted(frame):
    """vp8list counts up to 64 bytes past the end of a partition, and four for each macroblock; if one is read further
    its counts mean nothing.
    """
    return all(reader.taken <= 8 * (len(reader.text) + 64 + 4 * len(frame.macroblocks)) for reader in frame.readers)


def frame_objects(packet, frame, before):
    """The objects of the header of a frame, and those of its macroblocks; without the bits of records and tokens if
    they mean nothing.
    """
    records = [macroblock_of(packet, place, frame) for place in range(len(frame.macroblocks))]
    for record in records if not is_counted(frame) else ():
        for name in BITS:
            del record[name]
    return [header_of(packet, frame), *changes_of(packet, context_for(frame.header, before), frame.context)], records


def objects_of(packets):
    """The objects of the headers of a stream, and those of its macroblocks."""
    parsing, headers, macroblocks, broken = Parsing(), [], [], None
    for number, packet in enumerate(packets):
        before = parsing.context
        try:
            frame = parsing.packet(packet)
        except Refused as refused:
            is_lost = broken is not None and str(refused) == broken[1] and (len(packet) < 3 or packet[0] & 1)
            broken = broken if is_lost else (number, str(refused))
            of_header = of_macroblocks = [{"packet": number, "refused": broken[0], "cause": broken[1]}]
        else:
            broken = None
            of_header = of_macroblocks = [{"packet": number, "repeats": True}]
            if frame:
                of_header, of_macroblocks = frame_objects(number, frame, before)
        headers += of_header
        macroblocks += of_macroblocks
    return headers, macroblocks


def differs(one, other):
    """The values of two objects that are not the same, or None; bits that mean nothing are left out."""
    shown = {name: value for name, value in other.items() if name in one or name not in BITS}
    return (
        None
        if one == shown
        else {
            name: (one.get(name, "none"), shown.get(name, "none"))
            for name in one.keys() | shown.keys()
            if one.get(name, "none") != shown.get(name, "none")
        }
    )
