"""Frames of any recording of FFV1 version 3 read to their samples by their definitions (docs/FORMAT.md), apart from the program."""
import collections

from readings import Coder, Fault, SymbolTooLong, passes

# FORMAT: A frame's faults
class FrameFault(Exception):
    """Why a frame has no samples: the fault's name, and where it is."""


# FORMAT: A frame's faults
class Stuck(Exception):
    """Why no sample can be read: the fault's name. `read_slice` adds the plane, the row and the column."""


# FORMAT: Golomb-Rice and range-coded samples
def coded_depth(recording):
    return recording.depth + recording.is_rgb


# FORMAT: Planes and groups
def groups_of(recording):
    """The group of each plane, in coded order."""
    return [0] + [1, 1] * bool(recording.chroma) + [2] * bool(recording.has_alpha)


# FORMAT: Planes and groups
def shifts_of(recording, plane):
    """How a plane is subsampled."""
    return recording.shifts if groups_of(recording)[plane] == 1 else [0, 0]


# FORMAT: Slices of any recording
def pieces_of(payload, footer):
    """The slices of a payload from its front, where the chain is whole."""
    found, end = [], len(payload)
    while end >= footer:
        start = end - footer - int.from_bytes(payload[end - footer : end - footer + 3], "big")
        if start < 0:
            break
        found.append(payload[start:end])
        end = start
    return found[::-1] if end == 0 else None


Header = collections.namedtuple("Header", "x y width height tables picture_structure aspect key")


# FORMAT: Slices of any recording
def read_header(recording, coder, is_first):
    """A slice's header, judged once all of it was read."""
    try:
        key = coder.bit([128], 0) if is_first else None
        row = [128] * 32
        x, y, width, height = (coder.number(row) + place // 2 for place in range(4))
        tables = [coder.number(row) for _ in range(3 if recording.has_alpha else 2)]
        structure, *aspect = (coder.number(row) for _ in range(3))
        if recording.coder == 0:
            coder.bit([129], 0)
    except Fault:
        raise FrameFault("Range") from None
    if x + width > recording.grid[0] or y + height > recording.grid[1]:
        raise FrameFault("OutsideGrid")
    if max(tables) >= len(recording.tables):
        raise FrameFault("TableIndex")
    return Header(x, y, width, height, tables, structure, aspect, key)


# FORMAT: Slices of any recording
def tiles_of_slice(recording, header):
    return {
        line * recording.grid[0] + column
        for line in range(header.y, header.y + header.height)
        for column in range(header.x, header.x + header.width)
    }


# FORMAT: Slices of any recording
def place_in_plane(recording, header, plane):
    """Where a slice is in a plane: column, row, width and height in samples."""
    found = []
    for axis, first, count in ((0, header.x, header.width), (1, header.y, header.height)):
        start, end = (part * recording.size[axis] // recording.grid[axis] for part in (first, first + count))
        shift = shifts_of(recording, plane)[axis]
        found.append((start >> shift, -(-(end - start) >> shift)))
    return found[0][0], found[1][0], found[0][1], found[1][1]


# ---- samples


# FORMAT: Samples, prediction and context
def fold(difference, depth):
    half = 1 << depth - 1
    return (difference + half) % (1 << depth) - half


# FORMAT: Samples, prediction and context
class Lines:
    """A plane of a slice that is read: its rows so far, each with two cells before it and one after it."""

    def __init__(self, width, height):
        self.width, self.height = width, height
        self.far, self.above, self.line = ([0] * (width + 3) for _ in range(3))
        self.rows = []

    def begin_row(self):
        self.line = [0, self.above[2]] + [0] * (self.width + 1)

    def end_row(self):
        self.line[-1] = self.line[-2]
        self.rows.append(self.line[2:-1])
        self.far, self.above = self.above, self.line

    def near(self, x):
        """The samples to the left, above, above left, above right, two to the left and two above."""
        return self.line[x + 1], self.above[x + 2], self.above[x + 1], self.above[x + 3], self.line[x], self.far[x + 2]


# FORMAT: Samples, prediction and context
def context_of(tables, near):
    left, top, top_left, top_right, left_of_left, top_of_top = near
    pairs = (left - top_left, top_left - top, top - top_right, left_of_left - left, top_of_top - top)
    return sum(table[difference % 256] for table, difference in zip(tables, pairs))


# FORMAT: Samples, prediction and context
def prediction_of(near, is_signed):
    left, top, top_left = (sample - 65536 if is_signed and sample >= 32768 else sample for sample in near[:3])
    return sorted((left, top, left + top - top_left))[1]


# FORMAT: Golomb-Rice and range-coded samples
class RangeLines:
    """Reads samples that are range-coded, with a row of 32 states for each context of a group."""

    def __init__(self, recording, coder, states):
        self.coder, self.states, self.depth = coder, states, coded_depth(recording)
        self.is_signed = recording.depth == 16 and not recording.is_rgb

    def begin_plane(self):
        pass

    def read_row(self, lines, tables, group):
        half, lines.x = 1 << self.depth - 1, 0
        for lines.x in range(lines.width):
            near = lines.near(lines.x)
            context, prediction = context_of(tables, near), prediction_of(near, self.is_signed)
            try:
                difference = self.coder.number(self.states[group][abs(context)], True, self.depth)
            except SymbolTooLong:
                raise Stuck("DifferenceTooLarge") from None
            except Fault:
                raise Stuck("Short") from None
            if not -half <= difference < half:
                raise Stuck("DifferenceTooLarge")
            lines.line[lines.x + 2] = (prediction + (-difference if context < 0 else difference)) % (2 * half)


LOG2_RUN = [count for count in range(4) for _ in range(4)] + [4, 4, 5, 5, 6, 6, 7, 7, *range(8, 25)]


# FORMAT: Bits
class Bits:
    """The bits of some bytes, the most significant of each first."""

    def __init__(self, content):
        self.bits, self.length, self.place = int.from_bytes(content, "big"), 8 * len(content), 0

    def take(self, count):
        if self.place + count > self.length:
            raise Stuck("Truncated")
        self.place += count
        return self.bits >> self.length - self.place & (1 << count) - 1


# FORMAT: Codes
class RiceLines:
    """Reads samples by Golomb-Rice codes, with an adaptive state for each context of a group: drift, error_sum, bias and count."""

    def __init__(self, recording, content, states):
        self.bits, self.states, self.depth, self.index = Bits(content), states, coded_depth(recording), 0
        self.is_rgb = recording.is_rgb

    def begin_plane(self):
        if not self.is_rgb:
            self.index = 0

    def number(self, k):
        zeros = 0
        while zeros < 12 and not self.bits.take(1):
            zeros += 1
        if zeros < 12:
            number = zeros << k | self.bits.take(k)
        else:
            number = self.bits.take(self.depth) + 11
            if number >> k < 12:
                raise Stuck("EscapeNotNeeded")
        if number >> self.depth:
            raise Stuck("CodeTooLarge")
        return number

    def difference(self, state, is_level):
        drift, error_sum, bias, count = state
        k = 0
        while count << k < error_sum:
            k += 1
        number = self.number(k)
        value = -(number >> 1) - 1 if number & 1 else number >> 1
        if 2 * drift < -count:
            value = -1 - value
        found = fold(value + bias, self.depth)
        if is_level and found >= 0:
            found += 1
            if found >> self.depth - 1:
                raise Stuck("LevelTooLarge")
        state[:] = updated(state, value)
        return found

    def read_run(self, lines):
        """How many samples a run has, and whether a level comes after it. A word that is cut begins at the first sample not yet skipped."""
        left, run = lines.width - lines.x, 0
        while run < left:
            exponent = LOG2_RUN[self.index]
            try:
                is_whole = self.bits.take(1)
                rest = None if is_whole else self.bits.take(exponent)
            except Stuck:
                lines.x += run
                raise
            if not is_whole:
                self.index = max(self.index - 1, 0)
                return (run + rest, True) if run + rest < left else (left, False)
            run += 1 << exponent
            self.index += run <= left
        return left, False

    def read_row(self, lines, tables, group):
        lines.x, run, is_level = 0, 0, False
        while lines.x < lines.width:
            near = lines.near(lines.x)
            context, prediction = context_of(tables, near), prediction_of(near, False)
            if context == 0 and not run and not is_level:
                run, is_level = self.read_run(lines)
            if run:
                difference, run = 0, run - 1
            else:
                difference = self.difference(self.states[group][abs(context)], is_level)
                is_level = False
            lines.line[lines.x + 2] = (prediction + (-difference if context < 0 else difference)) % (1 << self.depth)
            lines.x += 1


# FORMAT: Codes
def updated(state, value):
    """An adaptive state after a value."""
    drift, error_sum, bias, count = state
    drift, error_sum = drift + value, error_sum + abs(value)
    if count == 128:
        drift, error_sum, count = drift >> 1, error_sum >> 1, count >> 1
    count += 1
    if drift <= -count:
        drift, bias = max(drift + count, 1 - count), max(bias - 1, -128)
    elif drift > 0:
        drift, bias = min(drift - count, 0), min(bias + 1, 127)
    return drift, error_sum, bias, count


# FORMAT: Colours
def colors_of(recording, coded):
    """The samples of G, B, R and A of a place, by its coded samples."""
    offset = 1 << recording.depth
    blue, red = coded[1] - offset, coded[2] - offset
    green = coded[0] - (blue + red >> 2)
    found = [green, blue + green, red + green, *coded[3:]]
    if 9 <= recording.depth <= 15 and not recording.has_alpha:
        found[:2] = found[1::-1]
    return found


# FORMAT: Colours
def color_rows(recording, coded, y):
    """Row y of G, B, R and A, by the coded rows. The first sample that no picture has stops the reading."""
    rows = [[] for _ in coded]
    for x, column in enumerate(zip(*coded)):
        for plane, sample in enumerate(colors_of(recording, column)):
            if sample >> recording.depth:
                raise Stuck("ColorTooLarge", plane, y, x)
            rows[plane].append(sample)
    return rows


# FORMAT: Frames between keyframes
def fresh_states(recording, tables):
    """The states of each group at a keyframe."""
    found = {}
    for group in set(groups_of(recording)):
        number = tables[group]
        count, initial = recording.contexts[number], recording.initial[number]
        if recording.coder == 0:
            found[group] = [[0, 4, 0, 1] for _ in range(count)]
        else:
            found[group] = [list(row) for row in initial] if initial else [[128] * 32 for _ in range(count)]
    return found


# FORMAT: The order of lines
def order_of(recording, heights):
    """The plane of each line in coded order."""
    if recording.is_rgb:
        return [plane for _ in range(heights[0]) for plane in range(len(heights))]
    return [plane for plane, height in enumerate(heights) for _ in range(height)]


# FORMAT: A slice's end
Slice = collections.namedtuple("Slice", "header planes spare is_clean states")


# FORMAT: The order of lines
def read_lines(recording, header, reader):
    """The rows of each plane of a slice; or Stuck with the fault, the plane, the row and the column."""
    planes = [Lines(*place_in_plane(recording, header, plane)[2:]) for plane in range(len(groups_of(recording)))]
    rows = [[] for _ in planes]
    for plane in order_of(recording, [lines.height for lines in planes]):
        lines, group = planes[plane], groups_of(recording)[plane]
        if not lines.rows:
            reader.begin_plane()
        lines.begin_row()
        try:
            reader.read_row(lines, recording.tables[header.tables[group]], group)
        except Stuck as stuck:
            raise Stuck(*stuck.args, plane, len(lines.rows), lines.x) from None
        lines.end_row()
        if recording.is_rgb and plane == len(planes) - 1:
            y = len(lines.rows) - 1
            for place, row in enumerate(color_rows(recording, [lines.rows[y] for lines in planes], y)):
                rows[place].append(row)
    return rows if recording.is_rgb else [lines.rows for lines in planes]


# FORMAT: A slice's end
def end_of_range(coder, content):
    """How many bits are spare after range-coded samples, and whether they end as an encoder ends them."""
    try:
        bit = coder.bit([129], 0)
    except Fault:
        raise Stuck("End") from None
    spare = 8 * (len(content) + 1 - coder.used)
    return spare, spare == 0 and not bit and coder.low < 256


# FORMAT: A slice's end
def end_of_rice(bits):
    spare = bits.length - bits.place
    return spare, spare < 8 and bits.take(spare) == 0


# FORMAT: Slices of any recording
def start_of_slice(recording, content, is_first):
    """A slice's header, and the decoder after it."""
    sample_coder = recording.coder != 0
    try:
        coder = Coder(content + b"\0" * sample_coder, False, recording.one_states)
    except Fault:
        raise FrameFault("Range") from None
    return read_header(recording, coder, is_first), coder


# FORMAT: A slice's end
def read_slice(recording, content, header, coder, states):
    """The samples of a slice, by the states that it begins with, and its end."""
    if recording.coder == 0:
        reader = RiceLines(recording, content[coder.used - 1 :], states)
        planes = read_lines(recording, header, reader)
        return Slice(header, planes, *end_of_rice(reader.bits), states)
    planes = read_lines(recording, header, RangeLines(recording, coder, states))
    return Slice(header, planes, *end_of_range(coder, content), states)


# ---- frames


# FORMAT: A frame's faults
def slices_of(recording, payload):
    """The content of each slice of a payload, its header and the decoder after it."""
    footer = 8 if recording.ec else 3
    pieces = pieces_of(payload, footer)
    if not pieces or len(pieces) > recording.grid[0] * recording.grid[1]:
        raise FrameFault("Chain")
    found = []
    for place, piece in enumerate(pieces):
        if recording.ec and not passes(piece):
            raise FrameFault("Slice", place, "Parity")
        try:
            found.append((piece[:-footer], *start_of_slice(recording, piece[:-footer], place == 0)))
        except FrameFault as fault:
            raise FrameFault("Slice", place, *fault.args) from None
    return found


# FORMAT: A frame's faults
def judge_cover(recording, headers):
    """Each tile is in one slice, and only in one."""
    covered = set()
    for place, header in enumerate(headers):
        tiles = tiles_of_slice(recording, header)
        if tiles & covered:
            raise FrameFault("Overlap", place)
        covered |= tiles
    lost = set(range(recording.grid[0] * recording.grid[1])) - covered
    if lost:
        raise FrameFault("Uncovered", min(lost))


# FORMAT: Frames between keyframes
def like(recording, header):
    """What a slice of the frame before has to have alike, so that its states go on."""
    return header.x, header.y, header.width, header.height, [header.tables[group] for group in sorted(set(groups_of(recording)))]


# FORMAT: Frames between keyframes
def states_before(recording, headers, before):
    """The states that each slice begins with: fresh ones in a keyframe, else those that the slice of its number left in the frame before."""
    if headers[0].key:
        return [fresh_states(recording, header.tables) for header in headers]
    if before is None:
        raise FrameFault("Previous", 0)
    for place, header in enumerate(headers):
        if place >= len(before) or like(recording, before[place].header) != like(recording, header):
            raise FrameFault("Previous", place)
    if len(before) > len(headers):
        raise FrameFault("Previous", len(headers))
    return [each.states for each in before]


# FORMAT: A frame's faults
def frame_of(recording, payload, before=None):
    """The slices of a frame, by those of the frame before; FrameFault where it has no samples."""
    found = slices_of(recording, payload)
    headers = [header for _, header, _ in found]
    judge_cover(recording, headers)
    states, slices = states_before(recording, headers, before), []
    for place, (content, header, coder) in enumerate(found):
        try:
            slices.append(read_slice(recording, content, header, coder, states[place]))
        except Stuck as stuck:
            raise FrameFault("Content", place, *stuck.args) from None
    return slices


# FORMAT: Slices of any recording
def planes_of(recording, slices, absent=None):
    """The planes of a frame, row by row: of the slices that cover a place the last one has it, and where none does stands the half."""
    planes, absent = [], 1 << recording.depth - 1 if absent is None else absent
    for plane in range(len(groups_of(recording))):
        width, height = (-(-side >> shift) for side, shift in zip(recording.size, shifts_of(recording, plane)))
        rows = [[absent] * width for _ in range(height)]
        for each in slices:
            x, y, w, _ = place_in_plane(recording, each.header, plane)
            for number, row in enumerate(each.planes[plane]):
                rows[y + number][x : x + w] = row
        planes.append(rows)
    return planes


# FORMAT: Files of samples
def samples_text(recording, slices, absent=None):
    """The samples of a frame as they are written: planes Y, Cb, Cr, A or G, B, R, A, one byte or two for a sample."""
    samples = [sample for plane in planes_of(recording, slices, absent) for row in plane for sample in row]
    return bytes(samples) if recording.depth == 8 else b"".join(sample.to_bytes(2, "little") for sample in samples)


# FORMAT: Frames between keyframes
def frames_of(recording, payloads):
    """Each frame's slices, or its fault. A frame with a fault leaves no states to the next."""
    before = None
    for payload in payloads:
        try:
            before = frame_of(recording, payload, before)
            yield before
        except FrameFault as fault:
            before = None
            yield fault


# man page: samples
FAULTS = {name: number for number, name in enumerate(("Chain", "Slice", "Overlap", "Uncovered", "Previous", "Content"), 1)}


# man page: samples
def fault_text(number, fault):
    """The line of a frame's fault."""
    name, *where = fault.args
    return f"samples fault {FAULTS[name]} in frame {number}" + "".join(f" at {place}" for place in where[:1])


# man page: samples
def frame_text(number, slices):
    """The lines of a frame that was written."""
    lines = [f"frame {number} key {int(slices[0].header.key)} slices {len(slices)}\n"]
    lines += (f"slice {place} unclean spare {each.spare}\n" for place, each in enumerate(slices) if not each.is_clean)
    return "".join(lines).encode()


# man page: samples
def sampled(recording, frames):
    """What `samples` makes of frames, each with its name and its payload, or None where it can't be read: OUT, or None where nothing was
    written; what is printed; the exit status; and the fault."""
    before, made, printed, clean = None, None, b"", True
    for number, (name, payload) in enumerate(frames, 1):
        if payload is None:
            return made, printed, 1, f"cannot read {name}"
        try:
            before = frame_of(recording, payload, before)
        except FrameFault as fault:
            return made, printed, 1, fault_text(number, fault)
        made = (made or b"") + samples_text(recording, before)
        printed += frame_text(number, before)
        clean = clean and all(each.is_clean for each in before)
    return made, printed, 0 if clean else 3, None
