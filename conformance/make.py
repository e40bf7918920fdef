#!/usr/bin/env python3
"""Writes the streams: make.py [FOLDER]

The same bytes at each run: each stream is drawn with a seed of its own toward values that the streams before it do not
have. Without FOLDER they go to streams/ next to this script. Those in which libvpx leaves RFC 6386 go to beyond/ below
it.
"""

import pathlib
import sys

from vp8 import ivf, tables
from vp8.generator import Chooser, Stream

HERE = pathlib.Path(__file__).resolve().parent
MOST_BYTES = 20_000


def drawn_from(*values):
    """A value of these, drawn anew each time."""
    return lambda chooser: chooser.random.choice(values)


def absent(chooser):
    """No value, for a field that is optional."""
    return None


def no_tokens(chooser):
    """The end of the block, nearly always."""
    return 11 if chooser.random.random() < 0.98 else 1


def long_blocks(chooser):
    """Small coefficients up to the last place."""
    return chooser.random.choices(range(12), (30, 25, 10, 5, 5, 4, 3, 1, 1, 1, 0, 1))[0]


def small_index(chooser):
    """A quantizer index with which drawn coefficients stay within 16 bits."""
    return chooser.random.randrange(24)


class Maker:
    """Makes one stream after another. `reached` grows with each."""

    def __init__(self, folder):
        self.folder, self.reached, self.number = folder, set(), 0
        self.made = []

    def stream(self, name, size, frames, beyond=False, **settings):
        """Writes a stream: `frames(stream, chooser)` adds its frames. `settings` are attributes of the chooser."""
        self.number += 1
        chooser = Chooser(1000 + self.number, self.reached)
        chooser.forced = {"y_ac_qi": small_index}
        for key, value in settings.items():
            setattr(chooser, key, {**chooser.forced, **value} if key == "forced" else value)
        stream = Stream(chooser)
        frames(stream, chooser)
        path = self.folder / ("beyond" if beyond else "") / f"{name}.ivf"
        path.parent.mkdir(parents=True, exist_ok=True)
        ivf.write(path, size, stream.packets)
        length = path.stat().st_size
        self.made.append((name, len(stream.packets), length))
        if length > MOST_BYTES:
            raise ValueError(f"{path}: {length} bytes")


def key_and_inters(size, count, version=0, **forced):
    """A key frame, and inter frames after it."""

    def frames(stream, chooser):
        stream.frame(size, version, **forced)
        for _ in range(count):
            stream.frame(None, version, **forced)

    return frames


def keys(size, count, version=0, **forced):
    def frames(stream, chooser):
        for _ in range(count):
            stream.frame(size, version, **forced)

    return frames


def mostly_nearest(chooser):
    return chooser.random.choices(range(5), (1, 12, 2, 3, 1))[0]


def mostly_split(chooser):
    return chooser.random.choices(range(5), (2, 6, 2, 1, 8))[0]


def by_counts(chooser):
    """The nearest vector where it counts 4, a new one among three split macroblocks, and else a split, so that both
    come up.
    """
    _, nearest, _, split = chooser.name[1:]
    if nearest == 4:
        return 1
    return 3 if split == 5 else chooser.random.choices(range(5), (1, 6, 1, 1, 8))[0]


def few_alike(chooser):
    """The nearest vector where it counts 4, and around it two neighbours alike and one that is not."""
    return 1 if chooser.name[2] == 4 else chooser.random.choice((0, 3))


def fifth_band(chooser):
    """Tokens of Y2 up to band 5 with 1 before it, and there those that are seldom drawn."""
    _, kind, band, context, _ = chooser.name
    if kind == 1 and band == 5 and context == 1:
        return chooser.random.choice((4, 5, 5))
    return 1


def last_points(stream, chooser):
    """What the streams before this one do not reach."""
    stream.frame((16, 16), 1)
    stream.frame(None, 1, prob_intra=250, is_inter_mb=1, mv_mode=3, mv_long=0, mv_sign=0, **{"mb_skip_coeff": 0})
    stream.frame((64, 64), mb_skip_coeff=1, mb_no_coeff_skip=1, prob_skip_false=3)
    for number in range(6):
        stream.frame(
            prob_intra=250,
            is_inter_mb=1,
            mb_ref_frame_sel1=0,
            mb_skip_coeff=1,
            mb_no_coeff_skip=1,
            prob_skip_false=3,
            mv_mode=by_counts,
        )
    for number in range(6):
        stream.frame(
            prob_intra=250,
            is_inter_mb=1,
            mb_ref_frame_sel1=0,
            mb_skip_coeff=1,
            mb_no_coeff_skip=1,
            prob_skip_false=3,
            mv_mode=few_alike,
            mv_sign=0,
            mv_long=0,
        )
    for number in range(3):
        stream.frame(
            (16, 16),
            token=fifth_band,
            y_ac_qi=0,
            segmentation_enabled=0,
            mb_skip_coeff=0,
            loop_filter_adj_enable=1,
            mode_ref_lf_delta_update=1,
            ref_frame_delta=absent,
            **{"key intra_y_mode": 0},
        )


def flags(stream, chooser):
    """Every combination of refreshes, copies and sign biases, one frame of one macroblock each."""
    stream.frame((16, 16))
    for golden in (None, 0, 1, 2):
        for altref in (None, 0, 1, 2):
            for biases in range(4):
                for last in (0, 1):
                    stream.frame(
                        refresh_golden_frame=int(golden is None),
                        refresh_alternate_frame=int(altref is None),
                        copy_buffer_to_golden=golden or 0,
                        copy_buffer_to_alternate=altref or 0,
                        sign_bias_golden=biases & 1,
                        sign_bias_alternate=biases >> 1,
                        refresh_last=last,
                        loop_filter_level=0,
                        segmentation_enabled=0,
                        log2_nbr_of_dct_partitions=0,
                        prob_intra=250,
                    )


def levels(filter_type):
    """Each level, in key and inter frames."""

    def frames(stream, chooser):
        for level in range(64):
            fixed = dict(
                filter_type=filter_type,
                loop_filter_level=level,
                sharpness_level=0,
                segmentation_enabled=0,
                log2_nbr_of_dct_partitions=0,
                loop_filter_adj_enable=0,
            )
            stream.frame((32, 16), **fixed)
            stream.frame(**fixed)

    return frames


def sharpnesses(filter_type):
    def frames(stream, chooser):
        for sharpness in range(8):
            for level in (1, 14, 15, 19, 20, 39, 40, 63):
                fixed = dict(
                    filter_type=filter_type,
                    loop_filter_level=level,
                    sharpness_level=sharpness,
                    segmentation_enabled=0,
                    log2_nbr_of_dct_partitions=0,
                    loop_filter_adj_enable=0,
                )
                stream.frame(*(((16, 16),) if level == 1 else ()), **fixed)

    return frames


def updates(stream, chooser):
    """Each coefficient probability is changed once, a part in each frame."""
    stream.frame((16, 16))
    names = list(range(len(tables.UPDATES)))
    chooser.random.shuffle(names)
    for start in range(0, len(names), 132):
        part = set(names[start : start + 132])
        forced = {("coeff_prob_update", place): int(place in part) for place in names}
        for component in range(2):
            for place in range(19):
                forced["mv_prob_update", component, place] = int((component * 19 + place) % 8 == start // 132)
        chooser.forced.update(forced)
        stream.frame(
            refresh_entropy_probs=int(start // 132 % 3 > 0),
            intra_16x16_prob_update_flag=start // 132 % 2,
            intra_chroma_prob_update_flag=start // 132 // 2 % 2,
        )


def segments(stream, chooser):
    """The map is updated, kept, kept through frames without segments, and cleared by a key frame; both modes of the
    features.
    """
    size = (48, 32)
    for absolute in (0, 1):
        stream.frame(
            size,
            segmentation_enabled=1,
            update_mb_segmentation_map=1,
            update_segment_feature_data=1,
            segment_feature_mode=absolute,
        )
        stream.frame(segmentation_enabled=1, update_mb_segmentation_map=0, update_segment_feature_data=0)
        stream.frame(segmentation_enabled=0)
        stream.frame(
            segmentation_enabled=1,
            update_mb_segmentation_map=0,
            update_segment_feature_data=1,
            segment_feature_mode=1 - absolute,
        )
        stream.frame(
            size,
            segmentation_enabled=1,
            update_mb_segmentation_map=0,
            update_segment_feature_data=1,
            segment_feature_mode=absolute,
        )
        stream.frame(segmentation_enabled=1, update_mb_segmentation_map=1, update_segment_feature_data=0)
        for value in (-127, 127, absent):
            stream.frame(
                segmentation_enabled=1,
                update_mb_segmentation_map=0,
                update_segment_feature_data=1,
                segment_feature_mode=0,
                quantizer_update=value,
                lf_update=value if value is absent else value // 127 * 63,
            )


def quantizers(stream, chooser):
    """The least and the greatest index, with each delta at its bounds."""
    for index in (0, 127):
        for delta in (-15, 15, absent, 1, -1):
            deltas = dict.fromkeys(("y_dc_delta", "y2_dc_delta", "y2_ac_delta", "uv_dc_delta", "uv_ac_delta"), delta)
            stream.frame((32, 32), y_ac_qi=index, segmentation_enabled=0, **deltas)


def sizes(stream, chooser):
    """1 to 40 samples each way; the size changes at each key frame."""
    sides = list(range(1, 41))
    heights = sides[:]
    chooser.random.shuffle(heights)
    for width, height in zip(sides, heights):
        stream.frame((width, height), log2_nbr_of_dct_partitions=0)
        stream.frame(log2_nbr_of_dct_partitions=0)


def hidden(stream, chooser):
    """Hidden frames, dropped frames, and both after a key frame of another size."""
    stream.frame((32, 32))
    stream.frame(shown=False, refresh_alternate_frame=1)
    stream.frame()
    stream.packet(b"")
    stream.frame()
    stream.frame((24, 40), shown=False)
    stream.frame()
    stream.packet(b"")
    stream.frame(shown=False)
    stream.frame()


def scales(stream, chooser):
    for horizontal in range(4):
        for vertical in range(4):
            stream.frame(
                (16, 16), scales=(horizontal, vertical), color_space=horizontal & 1, clamping_type=vertical & 1
            )


def causes(stream, chooser):
    """A packet with each cause of a refusal, each before a key frame; and packets that are lost with it."""
    size = (16, 16)
    stream.packet(b"")
    stream.packet(b"\x11\0\0")
    stream.frame(size, log2_nbr_of_dct_partitions=1)
    key = stream.packets[-1]
    stream.frame()
    inter = stream.packets[-1]
    broken = [
        key[:2],
        key[:9],
        key[:1],
        bytes([key[0] | 8]) + key[1:],
        key[:3] + b"\x9d\x01\x2b" + key[6:],
        key[:6] + bytes(2) + key[8:],
        key[:8] + bytes(2) + key[10:],
    ]
    first = int.from_bytes(key[:3], "little") >> 5
    broken += [
        key[: 10 + first - 1],
        key[: 10 + first + 2],
        key[: 10 + first + 3] if key[10 + first : 13 + first] != bytes(3) else key[: 10 + first],
    ]
    for packet in broken:
        stream.packet(packet)
        stream.packet(inter)
        stream.packet(key)


def partitions(stream, chooser):
    """1, 2, 4 and 8 token partitions, with more rows than partitions, and fewer; some of them empty."""
    for count in range(4):
        stream.frame((16, 160), log2_nbr_of_dct_partitions=count)
        stream.frame(log2_nbr_of_dct_partitions=count)
        stream.frame((32, 32), log2_nbr_of_dct_partitions=count)


def cut_short(stream, chooser):
    """Partitions that end early, and empty ones: zeros follow."""
    stream.frame((32, 32), first_cut=3)
    stream.frame(tail=[lambda texts: [text[: len(text) // 2] for text in texts]])
    stream.frame((32, 32), tail=[lambda texts: [b"" for _ in texts]])
    stream.frame(first_cut=2)


def all_ones(stream, chooser):
    """Partitions that begin with FF, of which every bit is 1."""
    stream.frame((16, 16), tail=[lambda texts: [b"\xff" + text[1:] for text in texts]])
    stream.frame(tail=[lambda texts: [b"\xff" + text[1:] for text in texts]])


def first_of_ones(stream, chooser):
    """A first partition of FF alone: every field and every mode is read as ones."""
    first, partition = b"\xff" * 300, b"\0" * 40
    start = (1 << 4 | len(first) << 5).to_bytes(3, "little") + b"\x9d\x01\x2a\x10\0\x10\0"
    stream.packet(start + first + len(partition).to_bytes(3, "little") * 7 + partition * 8)


def far_vectors(version):
    """Long vectors out of the frame, on each side and corner."""

    def frames(stream, chooser):
        stream.frame((32, 32), version)
        for sign in range(4):
            stream.frame(
                None,
                version,
                prob_intra=250,
                is_inter_mb=1,
                mv_mode=drawn_from(3, 4),
                sub_mv_mode=drawn_from(0, 1, 3),
                mv_long=1,
                mv_long_bit=1,
                **{},
            )
            chooser.forced[("mv_sign", 0)], chooser.forced[("mv_sign", 1)] = sign & 1, sign >> 1

    return frames


def fractions(version):
    """Short vectors: every fraction in both directions, for whole macroblocks and for parts."""

    def frames(stream, chooser):
        stream.frame((48, 48), version)
        for number in range(20):
            fixed = {"mv_split_mode": drawn_from(2, 3), "sub_mv_mode": 3} if number % 2 else {"mv_mode": 3}
            stream.frame(
                None,
                version,
                **{
                    "prob_intra": 250,
                    "is_inter_mb": 1,
                    "mv_mode": 4,
                    "mv_long": 0,
                    "segmentation_enabled": 0,
                    "token": no_tokens,
                    **fixed,
                },
            )

    return frames


def zero_runs(chooser):
    """Blocks of zeros up to the last place, blocks without tokens, and blocks of one coefficient."""
    _, kind, band, _, after = chooser.name
    if after:
        return 0
    if band == (1 if kind == 0 else 0):
        return chooser.random.choices((0, 11, 1), (4, 5, 1))[0]
    return 11


def zero_tokens(stream, chooser):
    """Blocks whose tokens are all 0: they have tokens for the contexts of other blocks, and for the inner edges."""
    for filter_type in (0, 1):
        fixed = dict(
            filter_type=filter_type,
            loop_filter_level=24,
            sharpness_level=0,
            segmentation_enabled=0,
            loop_filter_adj_enable=0,
            y_ac_qi=40,
            mb_skip_coeff=0,
        )
        stream.frame((48, 48), token=zero_runs, **fixed)
        # Macroblocks of which no block has another token.
        stream.frame(token=lambda chooser: 0 if chooser.name[1] == 1 or chooser.name[4] else 11, **fixed)
        stream.frame(token=zero_runs, **fixed)


def versions(stream, chooser):
    """Each version after each other one, from frame to frame, without segments and copies, in which decoders are known
    to differ.
    """
    stream.frame((32, 32), 0, segmentation_enabled=0)
    plain = dict(segmentation_enabled=0, copy_buffer_to_golden=0, copy_buffer_to_alternate=0)
    for version in (1, 2, 3, 0, 2, 1, 3, 2, 0, 3, 1, 0):
        stream.frame(
            None, version, prob_intra=250, is_inter_mb=1, mv_mode=drawn_from(3, 4), mv_long=0, refresh_last=1, **plain
        )


def bounds(stream, chooser):
    """Probabilities of 0 and of 255."""
    for value in (0, 255):
        some = {("coeff_prob_update", place): int(place % 97 == 0) for place in range(len(tables.UPDATES))}
        fixed = {
            "segmentation_enabled": 1,
            "update_mb_segmentation_map": 1,
            "update_segment_feature_data": 1,
            "segment_prob_update": 1,
            "segment_prob": value,
            "mb_no_coeff_skip": 1,
            "prob_skip_false": value,
            "coeff_prob": value,
            "also": some,
        }
        stream.frame((48, 32), **fixed)
        for _ in range(3):
            updates = {
                "intra_16x16_prob_update_flag": 1,
                "intra_chroma_prob_update_flag": 1,
                "mv_prob_update": 1,
                "mv_prob": value // 2,
            }
            stream.frame(
                prob_intra=value,
                prob_last=value,
                prob_gf=value,
                intra_16x16_prob=value,
                intra_chroma_prob=value,
                **updates,
                **fixed,
            )


def first_token(token):
    """This token at the first place of a block or none, and no other."""

    def chosen(chooser):
        _, kind, band, context, after = chooser.name
        return chooser.random.choice((token, 11)) if band == (1 if kind == 0 else 0) and not after else 11

    return chosen


def largest_tokens(stream, chooser):
    """Tokens of each category with all its extra bits set, one a block."""
    for token in range(5, 11):
        for size in ((16, 16), None):
            stream.frame(
                size,
                token=first_token(token),
                extra_bit=1,
                y_ac_qi=0,
                segmentation_enabled=0,
                mb_skip_coeff=0,
                y_dc_delta=absent,
                y2_dc_delta=absent,
                uv_dc_delta=absent,
            )


def delta_bounds(stream, chooser):
    """Each change of the filter level at its bounds."""
    stream.frame((32, 32), loop_filter_level=0)
    for name in ("ref_frame_delta", "mb_mode_delta"):
        for place in range(4):
            for value in (-63, 63):
                others = {(other, at): 0 for other in ("ref_frame_delta", "mb_mode_delta") for at in range(4)} | {
                    (name, place): value
                }
                modes = {"mv_mode": 4} if (name, place) == ("mb_mode_delta", 3) else {}
                stream.frame(
                    loop_filter_level=30,
                    sharpness_level=0,
                    filter_type=0,
                    segmentation_enabled=0,
                    loop_filter_adj_enable=1,
                    mode_ref_lf_delta_update=1,
                    prob_intra=100,
                    also=others,
                    **modes,
                )


def far_in_wide_pictures(stream, chooser):
    """Vectors that grow from macroblock to macroblock, to the right and then down."""
    skipped = {"mb_no_coeff_skip": 1, "prob_skip_false": 1, "segmentation_enabled": 0}
    for component, size in ((1, (6400, 16)), (0, (16, 6400))):
        stream.frame(
            size,
            token=no_tokens,
            y_ac_qi=60,
            mb_skip_coeff=drawn_from(0, 1, 1, 1),
            **{"key intra_y_mode": drawn_from(0, 1, 2, 3)},
            **skipped,
        )
        grows = {("mv_long", component): 1, ("mv_long", 1 - component): 0, ("mv_short", 1 - component): 0}
        stream.frame(
            prob_intra=1,
            is_inter_mb=1,
            prob_last=255,
            mb_ref_frame_sel1=0,
            mv_mode=3,
            mv_long_bit=1,
            mv_sign=0,
            mb_skip_coeff=1,
            also=grows,
            **skipped,
        )


def largest_y2(stream, chooser):
    """Coefficients of Y2 whose sums leave 16 bits."""
    for size in ((16, 16), None, None):
        stream.frame(
            size,
            token=lambda chooser: 10 if chooser.name[1] == 1 else 11,
            extra_bit=1,
            y_ac_qi=127,
            segmentation_enabled=0,
            mb_skip_coeff=0,
            **{"key intra_y_mode": 0, "coefficient sign": drawn_from(0, 0, 0, 1)},
        )


def make(folder):
    maker = Maker(folder)
    everything = (
        "token",
        "key intra_b_mode",
        "sub_mv_mode",
        "mv_mode",
        "mv_short",
        "mv_split_mode",
        "extra_bit",
        "intra_b_mode",
        "segment_id",
    )
    modes = dict(directed=("key intra_b_mode", "key intra_y_mode", "key intra_uv_mode"))
    for number in range(4):
        maker.stream(
            f"key-sub-block-modes-{number}",
            (64, 64),
            keys(
                (64, 64),
                2,
                number,
                **{"key intra_y_mode": 4, "mb_skip_coeff": 1, "mb_no_coeff_skip": 1, "prob_skip_false": 20},
            ),
            **modes,
        )
    for number in range(4):
        maker.stream(f"key-modes-{number}", (48, 48), keys((48, 48), 3, number), **modes)
    for number in range(6):
        fixed = {"y_ac_qi": 0, "segmentation_enabled": 0, "mb_skip_coeff": 0}
        maker.stream(
            f"tokens-{number}",
            (32, 32),
            key_and_inters((32, 32), 4, number % 4, **fixed),
            directed=("token", "extra_bit"),
            new=0.8,
        )
    for version in range(4):
        maker.stream(
            f"inter-modes-version-{version}", (48, 48), key_and_inters((48, 48), 8, version), directed=everything
        )
    for version in range(4):
        maker.stream(
            f"fractions-version-{version}",
            (48, 48),
            fractions(version),
            directed=("mv_short", "mv_split_mode"),
            new=0.3,
        )
    for version in range(4):
        maker.stream(f"far-vectors-version-{version}", (32, 32), far_vectors(version))
    for number in range(3):
        fixed = {"y_ac_qi": 0, "segmentation_enabled": 0, "mb_skip_coeff": 0}
        maker.stream(
            f"last-places-{number}",
            (32, 32),
            key_and_inters((32, 32), 4, number, **fixed),
            directed=("last places",),
            new=0.8,
        )
    maker.stream("no-tokens", (48, 48), key_and_inters((48, 48), 4, 0, token=no_tokens, mb_skip_coeff=0))
    maker.stream(
        "same-vectors",
        (80, 80),
        key_and_inters(
            (80, 80), 6, 0, prob_intra=250, is_inter_mb=1, mv_mode=mostly_nearest, token=no_tokens, mb_ref_frame_sel1=0
        ),
        directed=(),
    )
    maker.stream(
        "next-to-same-vectors",
        (80, 80),
        key_and_inters(
            (80, 80), 8, 0, prob_intra=250, is_inter_mb=1, mv_mode=mostly_split, token=no_tokens, mb_ref_frame_sel1=0
        ),
        directed=(),
    )
    maker.stream(
        "split-vectors",
        (64, 64),
        key_and_inters((64, 64), 6, 0, prob_intra=250, is_inter_mb=1, mv_mode=4),
        directed=("sub_mv_mode", "mv_split_mode"),
        new=0.7,
    )
    maker.stream(
        "near-vectors",
        (64, 64),
        key_and_inters((64, 64), 10, 0, prob_intra=200, mb_skip_coeff=1, mb_no_coeff_skip=1, prob_skip_false=3),
        directed=("mv_mode",),
        new=0.7,
    )
    maker.stream("references-and-sign-biases", (16, 16), flags)
    maker.stream("probability-updates", (16, 16), updates, rare=0.0)
    maker.stream(
        "saved-probabilities",
        (32, 32),
        key_and_inters((32, 32), 12, 0, refresh_entropy_probs=drawn_from(0, 1)),
        rare=0.03,
    )
    maker.stream("segments", (48, 32), segments)
    maker.stream("quantizers", (32, 32), quantizers)
    for number, name in enumerate(("normal", "simple")):
        maker.stream(f"{name}-filter-levels", (32, 16), levels(number))
        maker.stream(f"{name}-filter-sharpness", (16, 16), sharpnesses(number))
        maker.stream(
            f"{name}-filter-deltas",
            (48, 32),
            key_and_inters(
                (48, 32),
                16,
                0,
                filter_type=number,
                loop_filter_adj_enable=1,
                mode_ref_lf_delta_update=drawn_from(0, 1, 1),
            ),
            directed=("ref_frame_delta", "mb_mode_delta"),
            new=0.8,
        )
    maker.stream("token-partitions", (16, 160), partitions)
    maker.stream("sizes-1-to-40", (40, 40), sizes)
    maker.stream(
        "widest",
        (16383, 1),
        keys(
            (16383, 1),
            1,
            0,
            **{
                "key intra_y_mode": drawn_from(0, 1, 2, 3),
                "mb_skip_coeff": 1,
                "mb_no_coeff_skip": 1,
                "prob_skip_false": 1,
            },
        ),
    )
    maker.stream(
        "tallest",
        (1, 16383),
        keys(
            (1, 16383),
            1,
            0,
            **{
                "key intra_y_mode": drawn_from(0, 1, 2, 3),
                "mb_skip_coeff": 1,
                "mb_no_coeff_skip": 1,
                "prob_skip_false": 1,
            },
        ),
    )
    maker.stream("hidden-and-dropped", (32, 32), hidden)
    maker.stream("scales-and-colors", (16, 16), scales)
    maker.stream("refused", (16, 16), causes)
    for number in range(4):
        maker.stream(
            f"random-{number}", (40, 24), key_and_inters((40, 24), 8, number), directed=everything, new=0.9, rare=0.01
        )
    maker.stream("last-points", (64, 64), last_points, forced={("mv_short", 0): 1, ("mv_short", 1): 5})
    maker.stream(
        "copy-nothing",
        (16, 16),
        lambda stream, chooser: (
            stream.frame((16, 16)),
            stream.frame(refresh_golden_frame=0, copy_buffer_to_golden=3),
            stream.frame(refresh_alternate_frame=0, copy_buffer_to_alternate=3),
        ),
        beyond=True,
    )
    maker.stream("partitions-cut-short", (32, 32), cut_short, beyond=True)
    maker.stream("partitions-of-ones", (32, 32), all_ones, beyond=True)
    maker.stream("first-partition-of-ones", (16, 16), first_of_ones, beyond=True)
    maker.stream(
        "residuals-past-16-bits",
        (32, 32),
        key_and_inters((32, 32), 3, 0, y_ac_qi=127, token=drawn_from(10, 10, 1, 11), extra_bit=drawn_from(0, 1)),
        beyond=True,
    )
    # Streams that were added later: those above stay the same bytes.
    maker.stream("zero-tokens", (48, 48), zero_tokens)
    maker.stream("versions", (32, 32), versions)
    maker.stream("probabilities-at-bounds", (48, 32), bounds, rare=0.0)
    maker.stream("largest-tokens", (16, 16), largest_tokens)
    maker.stream("filter-deltas-at-bounds", (32, 32), delta_bounds)
    maker.stream("vectors-past-16-bits", (6400, 16), far_in_wide_pictures, beyond=True)
    maker.stream("sums-of-y2-past-16-bits", (16, 16), largest_y2, beyond=True)
    return maker


def main():
    folder = pathlib.Path(sys.argv[1]) if len(sys.argv) > 1 else HERE / "streams"
    maker = make(folder)
    total = sum(length for _, _, length in maker.made)
    print(f"{len(maker.made)} streams, {sum(count for _, count, _ in maker.made)} packets, {total} bytes")


if __name__ == "__main__":
    main()
