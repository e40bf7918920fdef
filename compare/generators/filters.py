#!/usr/bin/env python3
"""A plain loop filter, line by line as RFC 6386, section 15, has it, without segments and changes of the level. Prints
the totals of the planes of the frames with which `crates/test_blocks/src/filters.rt` compares its own.

Run manually: filters.py
"""

COLUMNS, ROWS = 3, 2
WITH_TOKENS = [True, False, True, False, False, True]

# whether the frame is a key frame, whether its filter is the simple one, level, sharpness, the least sample, and how
# many values the samples have
FRAMES = [
    (False, False, 0, 0, 100, 32),
    (False, False, 44, 3, 100, 12),
    (False, False, 15, 0, 100, 5),
    (True, False, 44, 0, 100, 32),
    (True, False, 16, 6, 100, 5),
    (False, True, 9, 0, 100, 32),
    (True, True, 30, 7, 100, 32),
    # each sharpness, at levels on both sides of each threshold of high edge variance
    (True, False, 14, 0, 100, 8),
    (True, False, 15, 1, 100, 8),
    (True, False, 39, 2, 100, 12),
    (True, False, 40, 3, 100, 8),
    (True, False, 63, 4, 100, 8),
    (False, False, 14, 5, 100, 6),
    (False, False, 19, 6, 100, 6),
    (False, False, 20, 7, 100, 6),
    (False, False, 39, 0, 100, 40),
    (False, False, 63, 0, 100, 60),
    (False, True, 1, 0, 100, 4),
    (True, True, 63, 5, 100, 90),
    # samples of any value, most of them clamped
    (True, False, 63, 0, 0, 256),
    (False, False, 63, 0, 0, 256),
    (True, True, 63, 0, 0, 256),
    (True, False, 63, 0, 200, 56),
    (True, False, 63, 0, 0, 40),
]


def held(v):
    return max(-128, min(127, v))


def signed(v):
    return v - 128


def sample(v):
    return held(v) + 128


def common_adjust(use_outer, s, i, d):
    p1, p0, q0, q1 = (signed(s[i + k * d]) for k in (-2, -1, 0, 1))
    a = held((held(p1 - q1) if use_outer else 0) + 3 * (q0 - p0))
    b = held(a + 3) >> 3
    a = held(a + 4) >> 3
    s[i], s[i - d] = sample(q0 - a), sample(p0 + b)
    return a


def is_small_step(edge, s, i, d):
    return abs(s[i - d] - s[i]) * 2 + (abs(s[i - 2 * d] - s[i + d]) >> 1) <= edge


def is_smooth(interior, s, i, d):
    return all(abs(s[i + k * d] - s[i + (k + 1) * d]) <= interior for k in (-4, -3, -2, 0, 1, 2))


def is_varied(threshold, s, i, d):
    return abs(s[i - 2 * d] - s[i - d]) > threshold or abs(s[i + d] - s[i]) > threshold


def simple_line(edge, s, i, d):
    if is_small_step(edge, s, i, d):
        common_adjust(True, s, i, d)


def inner_line(interior, threshold, edge, s, i, d):
    if not (is_small_step(edge, s, i, d) and is_smooth(interior, s, i, d)):
        return
    varied = is_varied(threshold, s, i, d)
    p1, q1 = signed(s[i - 2 * d]), signed(s[i + d])
    a = (common_adjust(varied, s, i, d) + 1) >> 1
    if not varied:
        s[i + d], s[i - 2 * d] = sample(q1 - a), sample(p1 + a)


def macroblock_line(interior, threshold, edge, s, i, d):
    if not (is_small_step(edge, s, i, d) and is_smooth(interior, s, i, d)):
        return
    if is_varied(threshold, s, i, d):
        common_adjust(True, s, i, d)
        return
    p1, p0, q0, q1 = (signed(s[i + k * d]) for k in (-2, -1, 0, 1))
    w = held(held(p1 - q1) + 3 * (q0 - p0))
    for place, share in enumerate((27, 18, 9)):
        a = held((share * w + 63) >> 7)
        q, p = i + place * d, i - (place + 1) * d
        s[q], s[p] = sample(signed(s[q]) - a), sample(signed(s[p]) + a)


def limits(level, sharpness, is_key):
    interior = level
    if sharpness:
        interior >>= 2 if sharpness > 4 else 1
        interior = min(interior, 9 - sharpness)
    interior = interior or 1
    if is_key:
        threshold = 2 if level >= 40 else 1 if level >= 15 else 0
    else:
        threshold = 3 if level >= 40 else 2 if level >= 20 else 1 if level >= 15 else 0
    return interior, threshold, (level + 2) * 2 + interior, level * 2 + interior


def filter_frame(planes, is_key, is_simple, level, sharpness, with_inner):
    if level == 0:
        return
    interior, threshold, outer_edge, inner_edge = limits(level, sharpness, is_key)

    def filter_edge(s, start, before, lines, d, between):
        edge = inner_edge if before else outer_edge
        for line in range(lines):
            i = start + before * d + line * between
            if is_simple:
                simple_line(edge, s, i, d)
            elif before:
                inner_line(interior, threshold, edge, s, i, d)
            else:
                macroblock_line(interior, threshold, edge, s, i, d)

    for place in range(COLUMNS * ROWS):
        my, mx = divmod(place, COLUMNS)
        for side, inner, s in zip((16, 8, 8), ((4, 8, 12), (4,), (4,)), planes):
            if side == 8 and is_simple:
                continue
            stride = side * COLUMNS
            start = my * side * stride + mx * side
            inner = inner if with_inner[place] else ()
            for x in ((0,) if mx else ()) + inner:
                filter_edge(s, start, x, side, 1, stride)
            for y in ((0,) if my else ()) + inner:
                filter_edge(s, start, y, side, stride, 1)


def filled(count, seed, least, values):
    samples = []
    for _ in range(count):
        seed = (seed * 1103515245 + 12345) % 2**32
        samples.append(least + (seed >> 16) % values)
    return samples


def total(samples):
    sum = 0
    for value in samples:
        sum = (sum * 31 + value) % 2**32
    return sum


def main():
    for is_key, is_simple, level, sharpness, least, values in FRAMES:
        count = COLUMNS * ROWS * 64
        planes = [filled(4 * count, 1, least, values), filled(count, 2, least, values), filled(count, 3, least, values)]
        filter_frame(planes, is_key, is_simple, level, sharpness, [True] * 6 if is_key else WITH_TOKENS)
        print(
            "key" if is_key else "inter",
            "simple" if is_simple else "normal",
            level,
            sharpness,
            least,
            values,
            *map(total, planes),
        )


if __name__ == "__main__":
    main()
