"""Where the instructions of a module in WebAssembly are: for changing one of them. It knows the instructions that clang
makes for the page's module.
"""

CODE_SECTION = 10
VECTOR, MEMORY = 0xFD, 0xFC
BLOCKS, LABELS, TABLE, INDIRECT, TYPED_SELECT = (0x02, 0x03, 0x04), (0x0C, 0x0D), 0x0E, 0x11, 0x1C
INDEXED, ACCESSES, SIZES = (0x10, *range(0x20, 0x27)), range(0x28, 0x3F), (0x3F, 0x40)
CONSTANTS = {0x43: 4, 0x44: 8}
NARROW_UNSIGNED, NARROW_SIGNED = 0x66, 0x65  # i8x16.narrow_i16x8_u and _s


class Reader:
    """Reads a module from a position on."""

    def __init__(self, data, at):
        self.data, self.at = data, at

    def byte(self):
        self.at += 1
        return self.data[self.at - 1]

    def number(self):
        """An unsigned number in LEB128. A signed one has as many bytes."""
        value, shift = 0, 0
        while True:
            byte = self.byte()
            value |= (byte & 127) << shift
            shift += 7
            if byte < 128:
                return value

    def numbers(self, count):
        for _ in range(count):
            self.number()


def skip_vector(reader, code):
    """The operands of an instruction on vectors."""
    if code <= 11 or 84 <= code <= 93:
        reader.numbers(2)
    if code in (12, 13):
        reader.at += 16
    if 21 <= code <= 34 or 84 <= code <= 91:
        reader.at += 1


def skip_operands(reader, opcode):
    """The operands of an instruction. Returns the number after a prefix, or None."""
    if opcode in (VECTOR, MEMORY):
        code = reader.number()
        if opcode == VECTOR:
            skip_vector(reader, code)
        else:
            reader.numbers({8: 2, 9: 1, 10: 2, 11: 1}.get(code, 0))
        return code
    if opcode in (TABLE, TYPED_SELECT):
        reader.numbers(reader.number() + (opcode == TABLE))
    elif opcode in CONSTANTS:
        reader.at += CONSTANTS[opcode]
    else:
        one = opcode in (*BLOCKS, *LABELS, *INDEXED, *SIZES, 0x41, 0x42)
        reader.numbers(2 if opcode in ACCESSES or opcode == INDIRECT else 1 if one else 0)
    return None


def body_instructions(reader, end):
    """The position of each instruction in the body of a function, its opcode, and the number after a prefix."""
    for _ in range(reader.number()):
        reader.numbers(1)
        reader.at += 1
    while reader.at < end:
        at, opcode = reader.at, reader.byte()
        yield at, opcode, skip_operands(reader, opcode)


def instructions(data):
    """All instructions of a module."""
    reader = Reader(data, 8)
    while reader.at < len(data):
        section, size = reader.byte(), reader.number()
        end = reader.at + size
        if section == CODE_SECTION:
            for _ in range(reader.number()):
                length = reader.number()
                yield from body_instructions(reader, reader.at + length)
        reader.at = end


def narrowing(data):
    """The position of the number of each instruction that saturates words to unsigned bytes."""
    return [at + 1 for at, opcode, code in instructions(data) if opcode == VECTOR and code == NARROW_UNSIGNED]
