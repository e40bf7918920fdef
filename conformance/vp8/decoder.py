"""A plain decoder of VP8 (RFC 6386): `Decoder().decode(packet)` returns a picture, sample by sample, without a thought
for speed.
"""

from . import tables
from .parser import ALTREF, B, GOLDEN, H, INTRA, LAST, SPLIT, TM, V, ZERO, Refused, parse


def clamp(value):
    return 0 if value < 0 else 255 if value > 255 else value


def clamp_signed(value):
    return -128 if value < -128 else 127 if value > 127 else value


def signed16(value):
    """What 16 bits hold of a whole number."""
    return (value + 32768) % 65536 - 32768


class Plane:
    """Rows of samples. Outside the plane its edges repeat."""

    def __init__(self, width, height):
        self.width, self.height = width, height
        self.rows = [[0] * width for _ in range(height)]

    def at(self, x, y):
        return self.rows[min(max(y, 0), self.height - 1)][min(max(x, 0), self.width - 1)]

    def copy(self):
        plane = Plane(0, 0)
        plane.width, plane.height, plane.rows = self.width, self.height, [list(row) for row in self.rows]
        return plane


class Picture:
    """Three planes of whole macroblocks, and the size that is shown."""

    def __init__(self, width, height):
        self.width, self.height = width, height
        columns, rows = (width + 15) // 16, (height + 15) // 16
        self.planes = [Plane(16 * columns, 16 * rows), Plane(8 * columns, 8 * rows), Plane(8 * columns, 8 * rows)]

    def shown(self):
        """The shown samples, plane after plane, as I420."""
        text = bytearray()
        for plane, (width, height) in zip(
            self.planes, ((self.width, self.height), *[((self.width + 1) // 2, (self.height + 1) // 2)] * 2)
        ):
            for row in plane.rows[:height]:
                text += bytes(row[:width])
        return bytes(text)


# Dequantisation and the inverse transforms (section 14).


def factors(header, context, segment):
    """The factors of Y1, Y2 and chroma, each for the first coefficient and for the others (sections 9.6 and 14.1)."""
    index = header.y_ac_qi
    if header.segmentation_enabled:
        own = context.segment_quantizers[segment]
        index = own if context.segment_absolute else index + own
    index = min(max(index, 0), 127)

    def looked_up(table, delta):
        return table[min(max(index + delta, 0), 127)]

    y_dc, y2_dc, y2_ac, uv_dc, uv_ac = header.deltas
    return (
        (looked_up(tables.DC_QUANTIZERS, y_dc), looked_up(tables.AC_QUANTIZERS, 0)),
        (2 * looked_up(tables.DC_QUANTIZERS, y2_dc), max(155 * looked_up(tables.AC_QUANTIZERS, y2_ac) // 100, 8)),
        (min(looked_up(tables.DC_QUANTIZERS, uv_dc), 132), looked_up(tables.AC_QUANTIZERS, uv_ac)),
    )


def dequantised(block, pair):
    return [signed16(value * pair[place > 0]) for place, value in enumerate(block)] if block else [0] * 16


def inverse_wht(values, events):
    """Section 14.3: columns, then rows."""
    middle = [0] * 16
    for i in range(4):
        a1, b1 = values[i] + values[12 + i], values[4 + i] + values[8 + i]
        c1, d1 = values[4 + i] - values[8 + i], values[i] - values[12 + i]
        middle[i], middle[4 + i], middle[8 + i], middle[12 + i] = a1 + b1, c1 + d1, a1 - b1, d1 - c1
    out = [0] * 16
    for i in range(0, 16, 4):
        row = [signed16(value) for value in middle[i : i + 4]]
        if row != middle[i : i + 4]:
            events.add("Y2: first pass leaves 16 bits")
        a1, b1, c1, d1 = row[0] + row[3], row[1] + row[2], row[1] - row[2], row[0] - row[3]
        for place, value in enumerate((a1 + b1, c1 + d1, a1 - b1, d1 - c1)):
            out[i + place] = signed16((value + 3) >> 3)
            if not -32768 <= value + 3 <= 32767:
                events.add("Y2: second pass leaves 16 bits")
    return out


def multiplied(value):
    """By the square root of 2 times the cosine of pi / 8, and by that times its sine, in 65,536ths."""
    return value + (value * 20091 >> 16), value * 35468 >> 16


def inverse_dct(values, events):
    """Section 14.4: columns, then rows; the residual of a block."""
    middle = [0] * 16
    for i in range(4):
        first, second, third, fourth = values[i], values[4 + i], values[8 + i], values[12 + i]
        a1, b1 = first + third, first - third
        c1 = multiplied(second)[1] - multiplied(fourth)[0]
        d1 = multiplied(second)[0] + multiplied(fourth)[1]
        middle[i], middle[12 + i], middle[4 + i], middle[8 + i] = a1 + d1, a1 - d1, b1 + c1, b1 - c1
    out = [0] * 16
    for i in range(0, 16, 4):
        first, second, third, fourth = (signed16(value) for value in middle[i : i + 4])
        if [first, second, third, fourth] != middle[i : i + 4]:
            events.add("first pass leaves 16 bits")
        a1, b1 = first + third, first - third
        c1 = multiplied(second)[1] - multiplied(fourth)[0]
        d1 = multiplied(second)[0] + multiplied(fourth)[1]
        for place, value in ((0, a1 + d1), (3, a1 - d1), (1, b1 + c1), (2, b1 - c1)):
            out[i + place] = (value + 4) >> 3
            if not -32768 <= value + 4 <= 32767:
                events.add("second pass leaves 16 bits")
    return out


def residual_of(macroblock, header, context, events):
    """Sixteen residuals for each block that has any; None for the others."""
    if macroblock.skip:
        return [None] * 24
    y1, y2, uv = factors(header, context, macroblock.segment)
    blocks = [dequantised(block, y1 if number < 16 else uv) for number, block in enumerate(macroblock.blocks[:24])]
    if macroblock.has_y2:
        for block, value in zip(blocks, inverse_wht(dequantised(macroblock.blocks[24], y2), events)):
            block[0] = value
    return [inverse_dct(block, events) if any(block) else None for block in blocks]


# Prediction (sections 12 and 18).


def whole_block(plane, x, y, size, mode):
    """The predicted rows of a block, from the samples above it and to its left."""
    above = [plane.rows[y - 1][x + i] if y else 127 for i in range(size)]
    left = [plane.rows[y + i][x - 1] if x else 129 for i in range(size)]
    if mode == V:
        return [list(above) for _ in range(size)]
    if mode == H:
        return [[value] * size for value in left]
    if mode == TM:
        corner = 127 if not y else plane.rows[y - 1][x - 1] if x else 129
        return [[clamp(before + up - corner) for up in above] for before in left]
    known = (above if y else []) + (left if x else [])
    value = (sum(known) + len(known) // 2) // len(known) if known else 128
    return [[value] * size for _ in range(size)]


def sub_block(mode, above, left, corner):
    """The predicted rows of a block of 4 by 4; `above` has eight samples (section 12.3)."""
    edge = [left[3], left[2], left[1], left[0], corner, *above]

    def two(i):
        return (edge[i] + edge[i + 1] + 1) >> 1

    def three(i):
        return (edge[i - 1] + 2 * edge[i] + edge[i + 1] + 2) >> 2

    if mode == 0:
        value = (sum(above[:4]) + sum(left) + 4) >> 3
        return [[value] * 4 for _ in range(4)]
    if mode == 1:
        return [[clamp(before + up - corner) for up in above[:4]] for before in left]
    if mode == 2:
        row = [three(5 + i) for i in range(4)]
        return [list(row) for _ in range(4)]
    if mode == 3:
        values = [three(3), three(2), three(1), (left[2] + 3 * left[3] + 2) >> 2]
        return [[value] * 4 for value in values]
    if mode == 4:
        line = [three(6 + i) for i in range(6)] + [(above[6] + 3 * above[7] + 2) >> 2]
        return [[line[i + j] for i in range(4)] for j in range(4)]
    if mode == 5:
        return [[three(4 + i - j) for i in range(4)] for j in range(4)]
    rows = [[0] * 4 for _ in range(4)]
    if mode == 6:
        for (column, row), value in {
            (0, 3): three(2),
            (0, 2): three(3),
            (1, 3): three(4),
            (0, 1): three(4),
            (1, 2): two(4),
            (0, 0): two(4),
            (2, 3): three(5),
            (1, 1): three(5),
            (2, 2): two(5),
            (1, 0): two(5),
            (3, 3): three(6),
            (2, 1): three(6),
            (3, 2): two(6),
            (2, 0): two(6),
            (3, 1): three(7),
            (3, 0): two(7),
        }.items():
            rows[row][column] = value
    elif mode == 7:
        for (column, row), value in {
            (0, 0): two(5),
            (0, 1): three(6),
            (0, 2): two(6),
            (1, 0): two(6),
            (1, 1): three(7),
            (0, 3): three(7),
            (1, 2): two(7),
            (2, 0): two(7),
            (1, 3): three(8),
            (2, 1): three(8),
            (2, 2): two(8),
            (3, 0): two(8),
            (2, 3): three(9),
            (3, 1): three(9),
            (3, 2): three(10),
            (3, 3): three(11),
        }.items():
            rows[row][column] = value
    elif mode == 8:
        for (column, row), value in {
            (0, 3): two(0),
            (1, 3): three(1),
            (0, 2): two(1),
            (2, 3): two(1),
            (1, 2): three(2),
            (3, 3): three(2),
            (2, 2): two(2),
            (0, 1): two(2),
            (3, 2): three(3),
            (1, 1): three(3),
            (2, 1): two(3),
            (0, 0): two(3),
            (3, 1): three(4),
            (1, 0): three(4),
            (2, 0): three(5),
            (3, 0): three(6),
        }.items():
            rows[row][column] = value
    else:
        down = [left[0], left[1], left[2], left[3]]
        for (column, row), value in {
            (0, 0): (down[0] + down[1] + 1) >> 1,
            (1, 0): (down[0] + 2 * down[1] + down[2] + 2) >> 2,
            (2, 0): (down[1] + down[2] + 1) >> 1,
            (0, 1): (down[1] + down[2] + 1) >> 1,
            (3, 0): (down[1] + 2 * down[2] + down[3] + 2) >> 2,
            (1, 1): (down[1] + 2 * down[2] + down[3] + 2) >> 2,
            (2, 1): (down[2] + down[3] + 1) >> 1,
            (0, 2): (down[2] + down[3] + 1) >> 1,
            (3, 1): (down[2] + 3 * down[3] + 2) >> 2,
            (1, 2): (down[2] + 3 * down[3] + 2) >> 2,
        }.items():
            rows[row][column] = value
        for column, row in ((2, 2), (3, 2), (0, 3), (1, 3), (2, 3), (3, 3)):
            rows[row][column] = down[3]
    return rows


def filtered(plane, x, y, size, vector, six_taps):
    """The rows of a block that a vector in eighths of a sample predicts (section 18.3)."""
    left, top, across, down = x + (vector[1] >> 3), y + (vector[0] >> 3), vector[1] & 7, vector[0] & 7
    if not across and not down:
        return [[plane.at(left + i, top + j) for i in range(size)] for j in range(size)]
    if six_taps:
        # Without a fraction in one direction only the other one is filtered.
        rows = []
        for j in range(-2, size + 3):
            samples = [plane.at(left + i, top + j) for i in range(-2, size + 3)]
            rows.append([tapped(samples[i : i + 6], tables.SIX_TAP_FILTERS[across]) for i in range(size)])
        return [
            [tapped([rows[j + k][i] for k in range(6)], tables.SIX_TAP_FILTERS[down]) for i in range(size)]
            for j in range(size)
        ]
    first, second = tables.BILINEAR_FILTERS[across], tables.BILINEAR_FILTERS[down]
    rows = [
        [
            (plane.at(left + i, top + j) * first[0] + plane.at(left + i + 1, top + j) * first[1] + 64) >> 7
            for i in range(size)
        ]
        for j in range(size + 1)
    ]
    return [[(rows[j][i] * second[0] + rows[j + 1][i] * second[1] + 64) >> 7 for i in range(size)] for j in range(size)]


def tapped(samples, taps):
    return clamp((sum(sample * tap for sample, tap in zip(samples, taps)) + 64) >> 7)


def chroma_vector(total, version):
    """The rounded mean of four components, in eighths of a chroma sample; whole samples in version 3 (section 5)."""
    mean = (total + 2) // 4 if total >= 0 else -((2 - total) // 4)
    return mean & ~7 if version == 3 else mean


class Reconstruction:
    """The picture of a frame before the loop filter."""

    def __init__(self, frame, references, width, height):
        self.frame, self.references = frame, references
        self.picture = Picture(width, height)

    def made(self):
        frame = self.frame
        for place, macroblock in enumerate(frame.macroblocks):
            column, row = place % frame.columns, place // frame.columns
            residual = residual_of(macroblock, frame.header, frame.context, frame.events)
            if macroblock.reference == INTRA:
                self.intra(macroblock, column, row, residual)
            else:
                self.inter(macroblock, column, row)
                self.add_all(column, row, residual, range(24))
        return self.picture

    def put(self, plane, x, y, rows):
        for j, row in enumerate(rows):
            self.picture.planes[plane].rows[y + j][x : x + len(row)] = row

    def place_of(self, number, column, row):
        if number < 16:
            return 0, 16 * column + 4 * (number % 4), 16 * row + 4 * (number // 4)
        number -= 16
        return 1 + number // 4, 8 * column + 4 * (number % 2), 8 * row + 4 * (number % 4 // 2)

    def add_all(self, column, row, residual, numbers):
        for number in numbers:
            if residual[number]:
                plane, x, y = self.place_of(number, column, row)
                rows = self.picture.planes[plane].rows
                for place, value in enumerate(residual[number]):
                    j, i = y + place // 4, x + place % 4
                    total = rows[j][i] + value
                    rows[j][i] = clamp(total)
                    if rows[j][i] != total:
                        self.frame.events.add("clamped at 0" if total < 0 else "clamped at 255")

    def intra(self, macroblock, column, row, residual):
        planes = self.picture.planes
        if macroblock.y_mode == B:
            for block in range(16):
                self.sub(macroblock.subs[block], block, column, row)
                self.add_all(column, row, residual, [block])
        else:
            self.put(0, 16 * column, 16 * row, whole_block(planes[0], 16 * column, 16 * row, 16, macroblock.y_mode))
            self.add_all(column, row, residual, range(16))
        for plane in (1, 2):
            self.put(plane, 8 * column, 8 * row, whole_block(planes[plane], 8 * column, 8 * row, 8, macroblock.uv_mode))
        self.add_all(column, row, residual, range(16, 24))

    def sub(self, mode, block, column, row):
        plane = self.picture.planes[0]
        _, x, y = self.place_of(block, column, row)

        def above(i, j):
            return 127 if j < 0 else plane.rows[j][min(i, plane.width - 1)]

        # To the right of the last column of sub blocks they are above the macroblock, for each of its rows.
        right = 16 * row if block % 4 == 3 else y
        up = [above(x + i, y - 1) for i in range(4)] + [above(x + i, right - 1) for i in range(4, 8)]
        left = [plane.rows[y + i][x - 1] if x else 129 for i in range(4)]
        corner = 127 if not y else plane.rows[y - 1][x - 1] if x else 129
        self.put(0, x, y, sub_block(mode, up, left, corner))

    def inter(self, macroblock, column, row):
        from_planes = self.references[macroblock.reference].planes
        version = self.frame.header.version
        split = macroblock.vector_mode == SPLIT
        x, y = 16 * column, 16 * row
        if split:
            for block in range(16):
                at = x + 4 * (block % 4), y + 4 * (block // 4)
                vector = [2 * component for component in macroblock.vectors[block]]
                self.put(0, *at, filtered(from_planes[0], *at, 4, vector, version == 0))
        else:
            vector = [2 * component for component in macroblock.vector]
            self.put(0, x, y, filtered(from_planes[0], x, y, 16, vector, version == 0))
        for group in range(4):
            blocks = [8 * (group // 2) + 2 * (group % 2) + k for k in (0, 1, 4, 5)]
            vector = [chroma_vector(sum(macroblock.vectors[block][c] for block in blocks), version) for c in (0, 1)]
            at = 8 * column + 4 * (group % 2), 8 * row + 4 * (group // 2)
            for plane in (1, 2):
                self.put(plane, *at, filtered(from_planes[plane], *at, 4, vector, version == 0))


# The loop filter (section 15).


def level_of(macroblock, header, context):
    level = header.loop_filter_level
    if header.segmentation_enabled:
        own = context.segment_levels[macroblock.segment]
        level = min(max(own if context.segment_absolute else level + own, 0), 63)
    if header.loop_filter_adj_enable:
        level += context.reference_deltas[macroblock.reference]
        if macroblock.reference == INTRA:
            if macroblock.y_mode == B:
                level += context.mode_deltas[0]
        elif macroblock.vector_mode == ZERO:
            level += context.mode_deltas[1]
        elif macroblock.vector_mode == SPLIT:
            level += context.mode_deltas[3]
        else:
            level += context.mode_deltas[2]
    return min(max(level, 0), 63)


def limits_of(level, header):
    """The interior limit, the threshold of high edge variance, and the limits of edges between and inside
    macroblocks.
    """
    interior = level >> (2 if header.sharpness_level > 4 else 1 if header.sharpness_level else 0)
    if header.sharpness_level:
        interior = min(interior, 9 - header.sharpness_level)
    interior = max(interior, 1)
    if header.is_key:
        threshold = 2 if level >= 40 else 1 if level >= 15 else 0
    else:
        threshold = 3 if level >= 40 else 2 if level >= 20 else 1 if level >= 15 else 0
    return interior, threshold, 2 * (level + 2) + interior, 2 * level + interior


def to_signed(value):
    return value - 128


def common_adjust(line, uses_outer):
    """Moves the samples at the edge toward each other; the step by which the one after it was moved."""
    p1, p0, q0, q1 = (to_signed(line[i]) for i in (2, 3, 4, 5))
    a = clamp_signed((clamp_signed(p1 - q1) if uses_outer else 0) + 3 * (q0 - p0))
    after, before = clamp_signed(a + 4) >> 3, clamp_signed(a + 3) >> 3
    line[4], line[3] = clamp_signed(q0 - after) + 128, clamp_signed(p0 + before) + 128
    return after


def is_small_step(line, limit):
    return 2 * abs(line[3] - line[4]) + (abs(line[2] - line[5]) >> 1) <= limit


def simple_line(line, limit):
    if is_small_step(line, limit):
        common_adjust(line, True)


def is_filtered(line, edge, interior):
    return is_small_step(line, edge) and all(abs(line[i] - line[i + 1]) <= interior for i in (0, 1, 2, 4, 5, 6))


def is_variance_high(line, threshold):
    return abs(line[2] - line[3]) > threshold or abs(line[5] - line[4]) > threshold


def inner_line(line, edge, interior, threshold):
    if not is_filtered(line, edge, interior):
        return
    high = is_variance_high(line, threshold)
    a = (common_adjust(line, high) + 1) >> 1
    if not high:
        line[5] = clamp_signed(to_signed(line[5]) - a) + 128
        line[2] = clamp_signed(to_signed(line[2]) + a) + 128


def outer_line(line, edge, interior, threshold):
    if not is_filtered(line, edge, interior):
        return
    if is_variance_high(line, threshold):
        common_adjust(line, True)
        return
    p2, p1, p0, q0, q1, q2 = (to_signed(value) for value in line[1:7])
    w = clamp_signed(clamp_signed(p1 - q1) + 3 * (q0 - p0))
    for weight, before, after, p, q in ((27, 3, 4, p0, q0), (18, 2, 5, p1, q1), (9, 1, 6, p2, q2)):
        a = clamp_signed((weight * w + 63) >> 7)
        line[after], line[before] = clamp_signed(q - a) + 128, clamp_signed(p + a) + 128


def filter_edge(plane, x, y, length, is_column, line_filter, reach):
    """Filters the lines across an edge: of a column edge they are parts of rows."""
    for k in range(length):
        if is_column:
            row = plane.rows[y + k]
            line = [0] * (4 - reach) + row[x - reach : x + reach] + [0] * (4 - reach)
            line_filter(line)
            row[x - reach : x + reach] = line[4 - reach : 4 + reach]
        else:
            line = [0] * 8
            for i in range(-reach, reach):
                line[4 + i] = plane.rows[y + i][x + k]
            line_filter(line)
            for i in range(-reach, reach):
                plane.rows[y + i][x + k] = line[4 + i]


def filter_frame(picture, frame):
    header = frame.header
    if not header.loop_filter_level:
        return
    for place, macroblock in enumerate(frame.macroblocks):
        column, row = place % frame.columns, place // frame.columns
        level = level_of(macroblock, header, frame.context)
        if level:
            filter_macroblock(picture, macroblock, column, row, level, header)


def filter_macroblock(picture, macroblock, column, row, level, header):
    interior, threshold, outer, inner = limits_of(level, header)
    filters_inside = macroblock.has_tokens or not macroblock.has_y2
    planes = picture.planes[:1] if header.filter_type else picture.planes
    for number, plane in enumerate(planes):
        side = 8 if number else 16
        x, y = side * column, side * row
        if header.filter_type:
            reach, between, inside = 2, lambda line: simple_line(line, outer), lambda line: simple_line(line, inner)
        else:
            reach = 4
            between = lambda line: outer_line(line, outer, interior, threshold)
            inside = lambda line: inner_line(line, inner, interior, threshold)
        if column:
            filter_edge(plane, x, y, side, True, between, reach)
        if filters_inside:
            for offset in range(4, side, 4):
                filter_edge(plane, x + offset, y, side, True, inside, reach)
        if row:
            filter_edge(plane, x, y, side, False, between, reach)
        if filters_inside:
            for offset in range(4, side, 4):
                filter_edge(plane, x, y + offset, side, False, inside, reach)


class Decoder:
    """Decodes one packet after another. After a packet that is refused, packets are refused up to the next key tag."""

    def __init__(self, saw=None):
        self.saw = saw
        self.context, self.segment_map, self.references, self.size = None, None, None, None
        self.broken = None
        self.frame = None

    def decode(self, packet):
        """The picture of a packet; raises Refused."""
        is_key = len(packet) >= 3 and not packet[0] & 1
        if is_key:
            self.context, self.segment_map, self.references, self.broken = None, None, None, None
        if self.broken:
            raise Refused(self.broken)
        try:
            return self.step(packet)
        except Refused as refused:
            self.broken = str(refused)
            raise

    def step(self, packet):
        self.frame = None
        if not packet:
            if self.context is None:
                raise Refused("NoKeyFrame")
            return self.references[LAST]
        frame = parse(packet, self.context, self.size, self.segment_map, self.saw)
        header = frame.header
        if header.is_key:
            self.size = header.width, header.height
        picture = Reconstruction(frame, self.references, *self.size).made()
        filter_frame(picture, frame)
        self.references = references_after(header, picture, self.references)
        self.context, self.segment_map, self.frame = frame.context_after, frame.segment_map, frame
        return picture


def references_after(header, picture, before):
    """Altref is copied, then golden, and then come the refreshes (section 9.7)."""
    if header.is_key:
        return {LAST: picture, GOLDEN: picture, ALTREF: picture}
    after = dict(before)
    if header.copy_to_altref in (1, 2):
        after[ALTREF] = after[LAST if header.copy_to_altref == 1 else GOLDEN]
    if header.copy_to_golden in (1, 2):
        after[GOLDEN] = after[LAST if header.copy_to_golden == 1 else ALTREF]
    for name, refreshes in (
        (GOLDEN, header.refresh_golden),
        (ALTREF, header.refresh_altref),
        (LAST, header.refresh_last),
    ):
        if refreshes:
            after[name] = picture
    return after
