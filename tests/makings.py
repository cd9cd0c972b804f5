"""Records and frames written by their definitions (docs/FORMAT.md), apart from the program's own makers."""
import readings

ONE_RUN = [[128]] * 5


class Encoder:
    """A range encoder: all that it has coded lies between `low` and `low + range`, numbers of `used` bytes."""

    def __init__(self):
        self.low, self.range, self.used = 0, 65280, 2

    def bit(self, row, slot, bit):
        state = row[slot]
        part = self.range * state // 256
        self.low, self.range = (self.low + self.range - part, part) if bit else (self.low, self.range - part)
        row[slot] = readings.AFTER_ONE[state] if bit else 256 - readings.AFTER_ONE[256 - state]
        if self.range < 256:
            self.low, self.range, self.used = self.low * 256, self.range * 256, self.used + 1

    def number(self, row, value, signed=False):
        self.bit(row, 0, value == 0)
        if not value:
            return
        magnitude = abs(value)
        highest = magnitude.bit_length() - 1
        for place in range(highest + 1):
            self.bit(row, 1 + min(place, 9), place < highest)
        for place in reversed(range(highest)):
            self.bit(row, 22 + min(place, 9), magnitude >> place & 1)
        if signed:
            self.bit(row, 11 + min(highest, 10), value < 0)

    def closed(self):
        """The bytes of a record's content, which zeros follow."""
        unit = 256
        while -(-self.low // unit) * unit < self.low + self.range:
            unit *= 256
        unit //= 256
        return (-(-self.low // unit) * unit).to_bytes(self.used, "big").rstrip(b"\0").ljust(2, b"\0")

    def header(self):
        """The bytes of a slice's header: any byte may come after them."""
        if self.range - self.range * 129 // 256 < 256:
            # 0 brings a byte; else neither bit does, and which one it is depends on the byte after it
            self.bit([129], 0, 0)
        front = -(-self.low // 256)
        assert front * 256 + 255 < self.low + self.range
        return front.to_bytes(self.used - 1, "big")


def record_of(grid, shifts=None, tables=ONE_RUN):
    """A record of this grid, gray or with these chroma shifts, with one set of tables given by their runs."""
    encoder, row = Encoder(), [128] * 32
    for number in (3, 4, 0, 0, 8):
        encoder.number(row, number)
    encoder.bit(row, 0, shifts is not None)
    for number in shifts or (0, 0):
        encoder.number(row, number)
    encoder.bit(row, 0, 0)
    for number in (grid[0] - 1, grid[1] - 1, 1):
        encoder.number(row, number)
    for runs in tables:
        own = [128] * 32
        for length in runs:
            encoder.number(own, length - 1)
    encoder.bit(row, 0, 0)
    for number in (1, 1):
        encoder.number(row, number)
    return readings.with_parity(encoder.closed())


class Copier(readings.Coder):
    """Reads a record's content, and writes it anew with other numbers in some places."""

    def __init__(self, content, others):
        super().__init__(content, True)
        self.others, self.made, self.rows, self.inside, self.count = others, Encoder(), {}, False, 0

    def row_of(self, row):
        """The row of states that is written where this one is read."""
        return self.rows.setdefault(id(row), (row, [128] * 32))[1]

    def bit(self, row, slot):
        bit = super().bit(row, slot)
        if not self.inside:
            self.made.bit(self.row_of(row), slot, bit)
        return bit

    def number(self, row, signed=False):
        self.inside = True
        value = super().number(row, signed)
        self.inside = False
        self.made.number(self.row_of(row), self.others.get(self.count, value), signed)
        self.count += 1
        return value


def with_grid(record, grid):
    """A record with another grid."""
    copier, row = Copier(record[:-4], {7: grid[0] - 1, 8: grid[1] - 1}), [128] * 32
    readings.read_fields(copier, row, (readings.GREATEST_SIDE,) * 2, readings.PROFILE)
    readings.initial_states(copier, row, readings.sets_of(copier, row)[1], 1000)
    copier.number(row)
    copier.number(row)
    return readings.with_parity(copier.made.closed())


def frame_of(grid, codes):
    """A frame of tiles with these codes, each in one slice."""
    slices = []
    for tile, code in enumerate(codes):
        encoder, row = Encoder(), [128] * 32
        if tile == 0:
            encoder.bit([128], 0, 1)
        for number in (tile % grid[0], tile // grid[0], 0, 0, 0, 0, 0, 0, 0):
            encoder.number(row, number)
        slices.append(readings.sliced(encoder.header() + code, 0))
    return b"".join(slices)


def codes_of(piece, first):
    """The codes of a slice."""
    coder, row = readings.Coder(piece[:-8]), [128] * 32
    if first:
        coder.bit([128], 0)
    for _ in range(9):
        coder.number(row)
    coder.bit([129], 0)
    return piece[coder.used - 1 : -8]


# ---- damage of copies that keep their length


def element(name, content):
    """An element of Matroska with this ID."""
    size = len(content) | 1 << 28
    return name.to_bytes((name.bit_length() + 7) // 8, "big") + size.to_bytes(4, "big") + content


def inverted(content, *places):
    """A copy of some bytes with those at these places inverted."""
    copy = bytearray(content)
    for place in places:
        copy[place] ^= 0xFF
    return bytes(copy)


def written(content, place, others):
    """A copy of some bytes with others written over them from a place on."""
    return content[:place] + others + content[place + len(others) :]


def forged(content, place, left=readings.parity):
    """Some bytes with the four bytes from a place on made such that a check leaves 0, whatever the others are; that of slices, by
    default.

    Which bits to turn is a linear system over GF(2), as what is left is linear but for a constant: each of the 32 bits changes it by
    what the bit alone changes, and these changes are independent, for the divisor has a degree of 32."""
    reduced, zeros = {}, bytes(len(content))
    for bit in range(32):
        turned, changed = 1 << bit, left(written(zeros, place, (1 << bit).to_bytes(4, "big"))) ^ left(zeros)
        for highest, (other_changed, other_turned) in sorted(reduced.items(), reverse=True):
            if changed >> highest & 1:
                changed, turned = changed ^ other_changed, turned ^ other_turned
        reduced[changed.bit_length() - 1] = changed, turned
    remainder, turn = left(content), 0
    for highest, (changed, turned) in sorted(reduced.items(), reverse=True):
        if remainder >> highest & 1:
            remainder, turn = remainder ^ changed, turn ^ turned
    others = int.from_bytes(content[place : place + 4], "big") ^ turn
    return written(content, place, others.to_bytes(4, "big"))


def two_halves(content, first, second, left=readings.parity):
    """Two copies of some bytes that do not pass a check, but of which two combinations do: the bytes themselves, and others whose byte
    at the first place is inverted and whose four bytes from the second on fit that."""
    other = forged(inverted(content, first), second, left)
    return inverted(content, first), written(content, second, other[second : second + 4])


def lose_sector(numbers, frame, ends):
    """A sector of 512 bytes is zeros."""
    place = 512 * numbers.randrange(-(-len(frame) // 512))
    return written(frame, place, bytes(len(frame[place : place + 512])))


def turn_bits(numbers, frame, ends):
    """One to eight bits are turned."""
    copy = bytearray(frame)
    for _ in range(numbers.randint(1, 8)):
        copy[numbers.randrange(len(copy))] ^= 1 << numbers.randrange(8)
    return bytes(copy)


def spill(numbers, frame, ends):
    """Some bytes that follow each other are garbage."""
    place = numbers.randrange(len(frame))
    return written(frame, place, numbers.randbytes(len(frame[place : place + numbers.randint(4, 256)])))


def damage_size(numbers, frame, ends):
    """A byte of a footer's size is another one."""
    return written(frame, numbers.choice(ends) - 8 + numbers.randrange(3), numbers.randbytes(1))


def damaged(numbers, frame):
    """A copy of a frame with one to four places of damage, of its length."""
    ends, copy = [start + len(piece) for start, piece in readings.links(frame)[0]], frame
    for _ in range(numbers.randint(1, 4)):
        copy = numbers.choice([lose_sector, turn_bits, spill, damage_size])(numbers, copy, ends)
    return copy


def randomly_damaged_copies(numbers, frame):
    """Two to four such copies of a frame."""
    return [damaged(numbers, frame) for _ in range(numbers.randint(2, 4))]


# ---- damage as disks, tapes and memory do it


def lose_aligned(numbers, frame, before, size):
    """A sector or block of a file in which so many bytes stand before the frame is lost: zeros, garbage or another one stand there."""
    first, other = (size * numbers.randrange(before // size, -(-(before + len(frame)) // size)) - before for _ in range(2))
    sector = numbers.choice([bytes(size), numbers.randbytes(size), (bytes(size) + frame + bytes(size))[other + size :][:size]])
    return written(frame, max(first, 0), sector[max(-first, 0) : len(frame) - first])


def lose_sectors(numbers, frame, before):
    for _ in range(numbers.randint(1, 4)):
        frame = lose_aligned(numbers, frame, before, 512)
    return frame


def lose_block(numbers, frame, before):
    return lose_aligned(numbers, frame, before, numbers.choice([1024, 2048, 4096]))


def turn_one_bit(numbers, frame, before):
    """The same bit is turned in up to sixteen bytes, which lie a power of two apart."""
    copy, mask, step = bytearray(frame), 1 << numbers.randrange(8), 1 << numbers.randrange(3, 12)
    for place in range(numbers.randrange(len(frame)), len(frame), step)[: numbers.randint(1, 16)]:
        copy[place] ^= mask
    return bytes(copy)


def aged(numbers, frame, before, count):
    """A copy of a frame with so many places of such damage, of its length."""
    for _ in range(count):
        frame = numbers.choice([lose_sectors, lose_block, turn_one_bit])(numbers, frame, before)
    return frame


def aged_copies(numbers, frame):
    """Two to four such copies of a frame; half of the time all are made of one that was damaged before."""
    before, source = numbers.randrange(1 << 20), frame
    if numbers.random() < 0.5:
        source = aged(numbers, frame, before, 1)
    return [aged(numbers, source, before, numbers.randint(0, 3)) for _ in range(numbers.randint(2, 4))]
