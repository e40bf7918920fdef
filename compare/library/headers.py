"""The fields of packet headers that vp8list prints (RFC 6386, section 19.2), or why decoding refuses them."""

from .conformance import bits, parser


def fields_of(packet, has_key):
    """Token partitions, quantizer index, filter level, references and the two color bits."""
    header, start = parser.start_of(packet, has_key)
    end = start + header.first_size
    reader, context = bits.Reader(packet[start:end]), parser.default_context()
    parser.read_first_fields(reader, header, context)
    count = len(parser.partitions_of(packet, end, 1 << header.log2_nbr_of_dct_partitions))
    parser.read_last_fields(reader, header, context)
    last, golden, altref = "new", "new", "new"
    if not header.is_key:
        golden = "new" if header.refresh_golden else ["-", "last", "altref", "-"][header.copy_to_golden]
        altref = "new" if header.refresh_altref else ["-", "last", "golden", "-"][header.copy_to_altref]
        last = "new" if header.refresh_last else "-"
    colors = [header.color_space, header.clamping_type] if header.is_key else ["-", "-"]
    return [count, header.y_ac_qi, header.loop_filter_level, last, golden, altref, *colors]


def copies_of(packet):
    """`copy_buffer_to_golden` and `copy_buffer_to_arf` of a packet that is not refused, 0 if they are not coded."""
    if not packet:
        return 0, 0
    header, start = parser.start_of(packet, True)
    reader, context = bits.Reader(packet[start : start + header.first_size]), parser.default_context()
    parser.read_first_fields(reader, header, context)
    parser.read_last_fields(reader, header, context)
    return header.copy_to_golden, header.copy_to_altref


def facts(packet, has_key):
    """The columns after the tag's, or a cause, and whether a header has been accepted."""
    if not packet:
        return (["-"] * 8 if has_key else "NoKeyFrame"), has_key
    try:
        return fields_of(packet, has_key), True
    except parser.Refused as refused:
        return str(refused), has_key
