"""Frames and holding files read by their definitions (docs/FORMAT.md), apart from the program: what tests compare with it."""
import collections
import hashlib
import itertools
import math
import re
import zlib

REVERSED = bytes(int(f"{byte:08b}"[::-1], 2) for byte in range(256))
GREATEST_SIDE, MOST_TILES = 65535, 4096
PAYLOAD_LIMIT, SLICE_LIMIT, RECORD_LIMIT = 1 << 30, 16777223, 1 << 24
ORIGINS_LIMIT = 1 << 26
MAGIC = b"FFV1HLD"


# FORMAT: The holding file
class Fault(Exception):
    """A number that can't be read, or a holding file's fault with its number."""


# FORMAT: Symbols
class SymbolTooLong(Fault):
    """The exponent of a symbol reaches its limit."""


# FORMAT: Parity
def parity(piece):
    """The remainder of some bytes followed by four bytes of 0: zlib's, whose bits are the other way round, from 0 and without
    its inversions. It is 0 exactly where that of the bytes alone is."""
    register = zlib.crc32(piece.translate(REVERSED), 0xFFFFFFFF) ^ 0xFFFFFFFF
    return int(f"{register:032b}"[::-1], 2)


# FORMAT: Parity
def with_parity(content):
    return content + parity(content).to_bytes(4, "big")


# FORMAT: Footers
def sliced(content, status=0):
    """A slice of this content, whose footer fits it."""
    return with_parity(content + (len(content) & 0xFFFFFF).to_bytes(3, "big") + bytes([status]))


# FORMAT: The chain of a payload
def links(payload):
    """The links of a payload from its end, each as its first byte's place and its bytes, and where the chain breaks, or None."""
    found, end = [], len(payload)
    while end >= 8:
        start = end - 8 - int.from_bytes(payload[end - 8 : end - 5], "big")
        if start < 0:
            break
        found.append((start, payload[start:end]))
        end = start
    return found, end or None


# FORMAT: Parity
def passes(piece):
    return len(piece) >= 8 and parity(piece) == 0


# FORMAT: Range coding
def transitions():
    """The state after a 1, by the recipe that the default table was made with: a step towards 1 of a twentieth."""
    one, factor, table = 1 << 32, int(0.05 * 2**32), [0] * 256
    last, chance = 0, one // 2
    for _ in range(128):
        state = max((256 * chance + one // 2) >> 32, last + 1)
        if 0 < last < 256 and state <= 248:
            table[last] = state
        chance += ((one - chance) * factor + one // 2) >> 32
        last = state
    for place in range(8, 249):
        if not table[place]:
            chance = (place * one + 128) >> 8
            chance += ((one - chance) * factor + one // 2) >> 32
            table[place] = min(max((256 * chance + one // 2) >> 32, place + 1), 248)
    return table


AFTER_ONE = transitions()


# FORMAT: Range coding
class Coder:
    """A range decoder. After a record's content it reads zeros, after a slice's header nothing: then it is not closed."""

    def __init__(self, content, closed=False, after_one=AFTER_ONE):
        if len(content) < 2 or content[0] == 0xFF:
            raise Fault
        self.content, self.range, self.low, self.used = content, 65280, content[0] << 8 | content[1], 2
        self.closed, self.after_one = closed, after_one

    def next(self):
        if self.used < len(self.content):
            return self.content[self.used]
        if self.closed:
            return 0
        raise Fault

    def bit(self, row, slot):
        state = row[slot]
        part = self.range * state // 256
        self.range -= part
        bit = self.low >= self.range
        if bit:
            self.low, self.range = self.low - self.range, part
        row[slot] = self.after_one[state] if bit else state and (256 - self.after_one[256 - state]) % 256
        if self.range < 256:
            self.range, self.low = self.range * 256, self.low * 256 + self.next()
            self.used += 1
        return bit

    def number(self, row, signed=False, limit=32):
        if self.bit(row, 0):
            return 0
        highest = 0
        while self.bit(row, 1 + min(highest, 9)):
            highest += 1
            if highest == limit:
                raise SymbolTooLong
        value = 1
        for place in range(highest - 1, -1, -1):
            value = value * 2 + self.bit(row, 22 + min(place, 9))
        return -value if signed and self.bit(row, 11 + min(highest, 10)) else value


# What a record may have: of any recording, and of the profile.
Scope = collections.namedtuple("Scope", "coders spaces depths greatest_shift extra modes")
ANY = Scope((0, 1, 2), (0, 1), (0, *range(8, 17)), 4, (0, 1), (0, 1))
PROFILE = Scope((0,), (0,), (0, 8), 2, (0,), (1,))

Recording = collections.namedtuple(
    "Recording", "micro coder is_rgb depth chroma shifts has_alpha grid tables contexts initial ec intra one_states size"
)


# FORMAT: The configuration record
def judge(holds, number):
    if not holds:
        raise Fault(number)


# FORMAT: Transitions
def one_states(deltas):
    """The state after a bit 1, where each entry of the default table but the first has a delta."""
    return [0] + [(AFTER_ONE[state] + deltas[state - 1]) % 256 for state in range(1, 256)]


# FORMAT: The configuration record
def table_of(coder, scale):
    """A quantization table of 256 entries, and the scale after it."""
    row, half, runs = [128] * 32, [], 0
    while len(half) < 128:
        count = coder.number(row) + 1
        judge(len(half) + count <= 128, 14)
        half += [scale * runs] * count
        runs += 1
    scale *= 2 * runs - 1
    judge(scale <= 65535, 15)
    return half + [-half[127 if place == 0 else 128 - place] for place in range(128)], scale


# FORMAT: The configuration record
def sets_of(coder, row):
    """The tables of each set, and how many contexts each has."""
    count = coder.number(row)
    judge(1 <= count <= 8, 13)
    sets, contexts = [], []
    for _ in range(count):
        scale, tables = 1, []
        for _ in range(5):
            table, scale = table_of(coder, scale)
            tables.append(table)
        sets.append(tables)
        contexts.append((scale + 1) // 2)
    return sets, contexts


# FORMAT: Initial states
class TooManyStates(Exception):
    """A set has initial states for more contexts than are read here."""


# FORMAT: Initial states
def initial_states(coder, row, contexts, most):
    """For each set its initial states, or None where none are coded; TooManyStates where they are of more contexts than the most."""
    rows, initial = [[128] * 32 for _ in range(32)], []
    for count in contexts:
        states, last = None, [128] * 32
        if coder.bit(row, 0):
            if count > most:
                raise TooManyStates
            states = []
            for _ in range(count):
                last = [(state + coder.number(rows[place], True)) % 256 for place, state in enumerate(last)]
                states.append(last)
        initial.append(states)
    return initial


# FORMAT: The configuration record
def read_fields(coder, row, size, scope):
    """What a record has before its tables."""
    judge(coder.number(row) == 3, 4)
    micro = coder.number(row)
    judge(micro >= 4, 5)
    kind = coder.number(row)
    judge(kind in scope.coders, 6)
    deltas = [coder.number(row, True) for _ in range(255)] if kind == 2 else [0] * 255
    space = coder.number(row)
    judge(space in scope.spaces, 7)
    depth = coder.number(row)
    judge(depth in scope.depths, 8)
    chroma = coder.bit(row, 0)
    judge(chroma or not space, 7)
    shifts = []
    for _ in range(2):
        shifts.append(coder.number(row))
        judge(not chroma or shifts[-1] <= (0 if space else scope.greatest_shift), 10)
    has_alpha = coder.bit(row, 0)
    judge(has_alpha in scope.extra, 9)
    grid = coder.number(row) + 1, coder.number(row) + 1
    judge(grid[0] <= size[0] and grid[1] <= size[1], 11)
    judge(grid[0] * grid[1] <= MOST_TILES, 12)
    return micro, kind, space == 1, depth or 8, chroma, shifts if chroma else [0, 0], has_alpha, grid, one_states(deltas)


# FORMAT: The configuration record
def recording_of(record, size, scope=ANY, most=1 << 15):
    """The recording of a record, or Fault with the number of its first fault."""
    judge(len(record) >= 6, 1)
    judge(parity(record) == 0, 2)
    judge(all(1 <= side <= GREATEST_SIDE for side in size), 17)
    try:
        coder, row = Coder(record[:-4], True), [128] * 32
        *fields, transitions = read_fields(coder, row, size, scope)
        tables, contexts = sets_of(coder, row)
        initial = initial_states(coder, row, contexts, most)
        ec = coder.number(row)
        judge(ec in scope.modes, 16)
        return Recording(*fields, tables, contexts, initial, ec, coder.number(row), transitions, size)
    except Fault as fault:
        raise Fault(*(fault.args or [3])) from None


# FORMAT: The configuration record
def setup_of(record, size):
    """The recording of a record that has to be in the profile; None where its initial states are too many to be read here."""
    try:
        return recording_of(record, size, PROFILE, 1000)
    except TooManyStates:
        return None


# FORMAT: Tiles
def tiles_of(setup):
    return setup.grid[0] * setup.grid[1]


# FORMAT: Tiles
def samples_of(setup, size):
    """How many samples a frame has, in all its planes."""
    chroma = [-(-side >> shift) for side, shift in zip(size, setup.shifts)]
    return size[0] * size[1] + 2 * bool(setup.chroma) * chroma[0] * chroma[1]


# man page: show
def show_text(setup):
    """What `show` prints, and `setup` first."""
    lines = [
        f"version 3.{setup.micro}",
        f"coder {setup.coder} colorspace {int(setup.is_rgb)} depth {setup.depth}",
        f"planes {(3 if setup.chroma else 1) + setup.has_alpha} shift {setup.shifts[0]} {setup.shifts[1]}",
        f"grid {setup.grid[0]}x{setup.grid[1]} tiles {tiles_of(setup)}",
        f"tables {len(setup.contexts)} contexts {' '.join(map(str, setup.contexts))}",
        f"ec {setup.ec} intra {setup.intra}",
    ]
    return "".join(line + "\n" for line in lines).encode()


# The pixel formats of FFmpeg 5.1: ffmpeg -h encoder=ffv1. Those that are packed have the planes of the one that stands before them.
ENCODED = """
gray gray9le gray10le gray12le gray16le yuv410p yuv411p yuv420p yuv420p9le yuv420p10le yuv420p12le yuv420p14le yuv420p16le yuv422p yuv422p9le
yuv422p10le yuv422p12le yuv422p14le yuv422p16le yuv440p yuv440p10le yuv440p12le yuv444p yuv444p9le yuv444p10le yuv444p12le yuv444p14le
yuv444p16le yuva420p yuva420p9le yuva420p10le yuva420p16le yuva422p yuva422p9le yuva422p10le yuva422p16le yuva444p yuva444p9le yuva444p10le
yuva444p16le gbrp9le gbrp10le gbrp12le gbrp14le gbrp16le rgb48le gbrap10le gbrap12le gbrap16le rgba64le bgr0 bgra ya8
""".split()
PACKED = {"gbrp": "bgr0", "gbrap": "bgra"}
SUBSAMPLED = {(1, 1): "420", (1, 0): "422", (0, 0): "444", (0, 1): "440", (2, 0): "411", (2, 2): "410"}


# man page: setup
def format_name(recording):
    """The planar format of a recording, or `-` where FFmpeg has none."""
    alpha = "a" * bool(recording.has_alpha)
    if recording.is_rgb:
        name = f"gbr{alpha}p"
    elif recording.chroma:
        name = f"yuv{alpha}{SUBSAMPLED.get(tuple(recording.shifts))}p"
    else:
        name = f"gray{alpha}"
    if recording.depth > 8:
        name += f"{recording.depth}le"
    return name if PACKED.get(name, name) in ENCODED else "-"


# man page: setup
def setup_text(recording):
    """What `setup` prints."""
    states = " ".join("0" if states is None else "1" for states in recording.initial)
    return show_text(recording) + f"states {states}\nformat {format_name(recording)}\n".encode()


# FORMAT: Slice headers
def tile_of(setup, piece, first):
    """The tile of which some bytes are a slice, or None."""
    if not passes(piece) or int.from_bytes(piece[-8:-5], "big") != len(piece) - 8:
        return None
    try:
        coder = Coder(piece[:-8])
        if first and not coder.bit([128], 0):
            return None
        row = [128] * 32
        fields = [coder.number(row) for _ in range(9)]
        coder.bit([129], 0)
    except Fault:
        return None
    column, line, width, height, table_y, table_c = fields[:6]
    tile = line * setup.grid[0] + column
    if column >= setup.grid[0] or line >= setup.grid[1] or width or height or max(table_y, table_c) >= len(setup.contexts):
        return None
    return tile if first == (tile == 0) else None


# FORMAT: Slices of a payload
def found_slices(setup, payload):
    """The slices found in a payload, each with its tile, in the chain's order."""
    found = [(tile_of(setup, piece, start == 0), piece) for start, piece in links(payload)[0]]
    return [each for each in found if each[0] is not None]


# FORMAT: Holdings
def best(pieces):
    """Of some slices those that have the least error status."""
    least = min((piece[-5] for piece in pieces), default=None)
    return [piece for piece in pieces if piece[-5] == least]


# FORMAT: Holdings
def taken(setup, payload):
    """What a copy adds to a holding: the slices found in it, each with its tile and the copy's digest."""
    digest = hashlib.sha256(payload).digest()
    return {each: {digest} for each in found_slices(setup, payload)}


# FORMAT: Holdings
def united(*holdings):
    """The slices of all, each with the digests that any of them has of it."""
    held = {}
    for holding in holdings:
        for each, origins in holding.items():
            held[each] = held.get(each, set()) | origins
    return held


# FORMAT: Holdings
def by_tile(held, tiles):
    """The slices of each tile."""
    found = [[] for _ in range(tiles)]
    for tile, piece in held:
        found[tile].append(piece)
    return found


# FORMAT: Holdings
def standing(held, tiles):
    """How each tile stands: its slices of the least status."""
    return [best(pieces) for pieces in by_tile(held, tiles)]


# FORMAT: The holding file
def entry_text(tile, piece, origins, version=2):
    """An entry of a holding file; one of version 1 has no origins."""
    text = b"\x01" + tile.to_bytes(2, "big") + len(piece).to_bytes(4, "big") + piece
    return text if version == 1 else text + len(origins).to_bytes(4, "big") + b"".join(origins)


# FORMAT: The holding file
def file_text(record, size, entries, version=2):
    """A holding file with these texts of entries."""
    head = b"".join(number.to_bytes(4, "big") for number in (*size, len(record)))
    return MAGIC + bytes([version]) + head + record + b"".join(entries) + b"\x00"


# FORMAT: The holding file
def holding_text(record, size, held, version=2):
    """The file of a holding: of its slices, each with its tile, and the digests of each."""
    return file_text(record, size, (entry_text(*each, sorted(held[each]), version) for each in sorted(held)), version)


# man page: report
def report_text(size, held, tiles):
    """The report of a holding."""
    lines, count = [f"reel {size[0]}x{size[1]} tiles {tiles}"], [0, 0, 0]
    stand = standing(held, tiles)
    for tile, (pieces, many) in enumerate(zip(stand, map(len, by_tile(held, tiles)))):
        if not pieces:
            lines.append(f"tile {tile} missing")
        elif len(pieces) == 1:
            digest = hashlib.sha256(pieces[0]).hexdigest()
            lines.append(f"tile {tile} settled status {pieces[0][-5]} bytes {len(pieces[0])} held {many} sha256 {digest}")
            lines += (f"tile {tile} origin {origin.hex()}" for origin in sorted(held[tile, pieces[0]]))
        else:
            lines.append(f"tile {tile} disputed {len(pieces)} status {pieces[0][-5]} held {many}")
        count[2 if not pieces else min(len(pieces), 2) - 1] += 1
    lines.append(f"settled {count[0]} disputed {count[1]} missing {count[2]}")
    payload = b"".join(pieces[0] for pieces in stand if len(pieces) == 1)
    whole = f"frame bytes {len(payload)} sha256 {hashlib.sha256(payload).hexdigest()}"
    lines.append(whole if count[0] == tiles else "frame incomplete")
    return "".join(line + "\n" for line in lines).encode()


# FORMAT: The holding file
def read_holding(text):
    """The record, size, setup and slices of a holding file, each with its tile and digests, or Fault with the first fault's number;
    None where the record's deltas are too many to be read here."""
    for place in range(8):
        if text[place : place + 1] not in ([b"\x01", b"\x02"] if place == 7 else [MAGIC[place : place + 1]]):
            raise Fault(1 if place < len(text) else 3)
    length = int.from_bytes(text[16:20], "big")
    judge(len(text) < 20 or length <= RECORD_LIMIT, 11)
    judge(len(text) >= 20 + length, 3)
    record, size = text[20 : 20 + length], (int.from_bytes(text[8:12], "big"), int.from_bytes(text[12:16], "big"))
    try:
        setup = setup_of(record, size)
    except Fault:
        raise Fault(2) from None
    return setup and (record, size, setup, read_entries(setup, text, 20 + length))


# FORMAT: The holding file
def read_entries(setup, text, place, tile_of=tile_of, judge_first=lambda setup, first: None):
    """The entries of a holding file from a place on, by what is a slice of the recording. The first one is judged before its digests are read;
    where there is none, that is judged once the end tag was read."""
    held, last = {}, None
    while text[place : place + 1] == b"\x01":
        head = text[place + 1 : place + 7]
        length = int.from_bytes(head[2:6], "big")
        judge(len(head) < 6 or length <= SLICE_LIMIT, 11)
        piece = text[place + 7 : place + 7 + length]
        judge(len(head) == 6 and len(piece) == length, 3)
        tile = int.from_bytes(head[:2], "big")
        judge(tile_of(setup, piece, tile == 0) == tile, 6)
        judge(last is None or last < (tile, piece), 5)
        if last is None:
            judge_first(setup, (tile, piece))
        last, place = (tile, piece), place + 7 + length
        held[last], place = (set(), place) if text[7] == 1 else read_origins(text, place)
    judge(place < len(text), 3)
    judge(text[place] == 0, 4)
    if last is None:
        judge_first(setup, None)
    judge(place + 1 == len(text), 7)
    return held


# FORMAT: The holding file
def read_origins(text, place):
    """The digests after an entry's slice, and the place after them."""
    count = int.from_bytes(text[place : place + 4], "big")
    judge(len(text) >= place + 4, 3)
    judge(count <= ORIGINS_LIMIT, 11)
    origins, place = [], place + 4
    for _ in range(count):
        digest = text[place : place + 32]
        judge(len(digest) == 32, 3)
        judge(not origins or origins[-1] < digest, 5)
        origins.append(digest)
        place += 32
    return set(origins), place


# ---- copies of one length, put together by their footers and parities

MOST_COMBINATIONS, GREATEST_DISTANCE, MOST_REPAIRS, MOST_CROSSED = 4096, 64, 1 << 20, 64
# The distances at which pairs of versions are split, the finest first; after them come the regions of all versions.
DISTANCES = [0, 2, 8, GREATEST_DISTANCE]


# FORMAT: Splicing copies of one length
def claimed_starts(copies, end):
    """Each copy whose footer there gives a start, with it: one of size 0 gives none, nor one of more bytes than come before it."""
    for copy in copies:
        size = int.from_bytes(copy[end - 8 : end - 5], "big") if end >= 8 else 0
        if 0 < size <= end - 8:
            yield copy, end - 8 - size


# FORMAT: Weaving versions of a slice
def differing(versions):
    """The places at which byte strings of one length differ."""
    first, *others = (int.from_bytes(version, "big") for version in versions)
    differences = 0
    for other in others:
        differences |= first ^ other
    return [place for place, differs in enumerate(differences.to_bytes(len(versions[0]), "big")) if differs]


# FORMAT: Weaving versions of a slice
def boundaries(versions, distance):
    """The places at which a streak of some two versions begins, and those after which one ends: these two differ there, and are alike in as
    many bytes before it, or after it, as the distance. So the versions have fewer byte strings there without the place than with it."""
    found = set()
    for place in differing(versions):
        start, end = max(place - distance, 0), place + 1 + distance
        if len({version[start:place] for version in versions}) < len({version[start : place + 1] for version in versions}):
            found.add(place)
        if len({version[place + 1 : end] for version in versions}) < len({version[place:end] for version in versions}):
            found.add(place + 1)
    return found


# FORMAT: Weaving versions of a slice
def ends_of_regions(versions):
    """Both ends of each region: places at which versions differ are of one region if they follow each other closely enough."""
    places = differing(versions)
    far = [0, *(number for number, (one, next) in enumerate(itertools.pairwise(places), 1) if next - one > GREATEST_DISTANCE)]
    return {places[number] for number in far} | {places[number - 1] + 1 for number in far} if places else set()


# FORMAT: Weaving versions of a slice
def splits(versions):
    """The places at which some versions are split, from the finest to the coarsest: their boundaries at each distance, and the ends of their
    regions."""
    yield from (boundaries(versions, distance) for distance in DISTANCES)
    yield ends_of_regions(versions)


# FORMAT: Weaving versions of a slice
def choices(versions, places):
    """For each part of some versions between two places at which they are split, the different bytes that they have there."""
    bounds = sorted({0, len(versions[0])} | places)
    return [{version[start:end] for version in versions} for start, end in itertools.pairwise(bounds)]


# FORMAT: Footers
def is_slice(piece):
    return passes(piece) and int.from_bytes(piece[-8:-5], "big") == len(piece) - 8


# FORMAT: Footers
def sized(version):
    """The bytes with the size field of a slice as long as they are."""
    return version[:-8] + (len(version) - 8).to_bytes(3, "big") + version[-5:]


# FORMAT: Weaving versions of a slice
def combinations(versions):
    """How many combinations some versions have where they are split as finely as can be tried, and these; none of them where there are too
    many however they are split."""
    distinct, number = sorted(set(versions)), 0
    for places in splits(distinct):
        found = choices(distinct, places)
        number = math.prod(map(len, found))
        if number <= MOST_COMBINATIONS:
            return number, map(b"".join, itertools.product(*found))
    return number, ()


# FORMAT: Weaving versions of a slice
def woven(versions, is_valid):
    """How many combinations some versions have, and those that are valid."""
    number, wholes = combinations(versions)
    return number, [whole for whole in wholes if is_valid(whole)]


# FORMAT: What most versions of a slice have
def most_common(versions, start, end):
    """The byte strings that most of some different versions have between two places."""
    counts = collections.Counter(version[start:end] for version in versions)
    return {piece for piece, count in counts.items() if count == max(counts.values())}


# FORMAT: What most versions of a slice have
def voted(versions):
    """How many byte strings have in each segment what most versions have there, at each distance at which they are few enough to be tried; and
    those that are slices. Fewer than three different versions do not vote."""
    distinct, number, found = sorted(set(versions)), 0, set()
    for distance in DISTANCES if len(distinct) > 2 else ():
        bounds = sorted({0, len(distinct[0])} | boundaries(distinct, distance))
        most = [most_common(distinct, start, end) for start, end in itertools.pairwise(bounds)]
        count = math.prod(map(len, most))
        if count <= MOST_COMBINATIONS:
            number += count
            found |= {whole for whole in map(b"".join, itertools.product(*most)) if is_slice(whole)}
    return number, found


DIVISOR = 0x104C11DB7
# What a bit changes of the parity, the last bit first: each twice what the one after it does, less the divisor where that goes past it.
CHANGES = [parity(b"\x01")]


# FORMAT: Parity
def changes_of_bits(bits):
    """What each of so many bits changes of the parity, the last bit first."""
    while len(CHANGES) < bits:
        twice = CHANGES[-1] << 1
        CHANGES.append(min(twice, twice ^ DIVISOR))
    return CHANGES[:bits]


# FORMAT: Repairing a slice with one wrong bit
def repaired(versions):
    """How many byte strings are a combination of some versions with one bit inverted, and those that are slices. None are looked for where
    there are too many."""
    number, wholes = combinations(versions)
    bits = 8 * len(versions[0])
    if number > MOST_COMBINATIONS or number * bits > MOST_REPAIRS:
        return number * bits, set()
    places, found = {change: bit for bit, change in enumerate(changes_of_bits(bits))}, set()
    for whole in wholes:
        bit = places.get(parity(whole))
        if bit is not None:
            found.add((int.from_bytes(whole, "big") ^ 1 << bit).to_bytes(len(whole), "big"))
    return number * bits, {piece for piece in found if is_slice(piece)}


# FORMAT: Splicing copies of one length
def pieces_that_end(copies, end):
    """The different pieces that end there: the footer that ends there in a copy gives where one begins, and it passes."""
    return {piece for piece in {copy[start:end] for copy, start in claimed_starts(copies, end)} if passes(piece)}


# FORMAT: Splicing copies of one length
def pieces_that_begin(copies, start, top):
    """Of the pieces that begin there and end at the top or before it, the different ones that end first."""
    for end in range(start + 9, top + 1):
        cuts = {copy[start:end] for copy, claimed_start in claimed_starts(copies, end) if claimed_start == start}
        if pieces := {piece for piece in cuts if passes(piece)}:
            return pieces
    return set()


# FORMAT: Splicing copies of one length
def settled_down(copies):
    """The only piece that ends at the copies' end, the one that ends where it begins, and so on; and where the first of them begins."""
    found, end = [], len(copies[0])
    while len(pieces := pieces_that_end(copies, end)) == 1:
        found += pieces
        end -= len(found[-1])
    return found, end


# FORMAT: Splicing copies of one length
def settled_up(copies, top):
    """The only shortest piece that begins at the copies' start, the one that begins where it ends, and so on, as long as no other piece
    ends where it ends; and where the last ends. None goes past the top. Where that stops, it goes on over slices that are lost in all copies:
    each place as how it stands and its bytes."""
    found, start, crossed = [], 0, 0
    while start < top:
        if len(pieces := pieces_that_begin(copies, start, top)) == 1 and pieces_that_end(copies, start + len(*pieces)) == pieces:
            found.append(("settled", *pieces))
        elif crossed < MOST_CROSSED and (place := lost_place([copy[start:top] for copy in copies])):
            found.append(place)
            crossed += 1
        else:
            break
        start += len(found[-1][1])
    return found, start


# FORMAT: Splicing copies of one length
def lost_place(copies):
    """The place at the copies' start of a slice that is lost in all of them: no piece begins there, and one end alone is claimed, at which no
    piece ends, but one begins. None where it is not so."""
    top = len(copies[0])
    if pieces_that_begin(copies, 0, top):
        return None
    ends = {end for end in range(9, top + 1) if any(start == 0 for _, start in claimed_starts(copies, end))}
    if len(ends) != 1:
        return None
    (end,) = ends
    if (not pieces_that_begin(copies, end, top) or pieces_that_end(copies, end)
            or {start for _, start in claimed_starts(copies, end)} != {0}):
        return None
    return place_ending_at(copies, end)


# FORMAT: Splicing copies of one length
def place_ending_at(copies, end):
    """The place that ends there: how it stands, and the bytes that stand there; None where what lies before it can't be divided."""
    pieces, starts = pieces_that_end(copies, end), {start for _, start in claimed_starts(copies, end)}
    if len(pieces) == 1:
        return "settled", *pieces
    if not pieces and (len(starts) > 1 or not starts and 8 < end < 8 + (1 << 24)):
        # No start is claimed alone. From each that is, or else from the first byte, the slice would have a known size.
        weaves = [woven([sized(copy[start:end]) for copy in copies], is_slice) for start in sorted(starts or {0})]
        slices = [piece for _, found in weaves for piece in found]
        few = all(number <= MOST_COMBINATIONS for number, _ in weaves)
        return (f"woven {sum(number for number, _ in weaves)}", slices[0]) if few and len(slices) == 1 else None
    if len(starts) != 1:
        return None
    (start,) = starts
    versions = sorted({copy[start:end] for copy in copies})
    number, slices = (0, []) if pieces else woven(versions, is_slice)
    if len(slices) == 1:
        return f"woven {number}", slices[0]
    if pieces or slices:
        return "disputed", versions[0]
    for word, (number, slices) in ("voted", voted(versions)), ("repaired", repaired(versions)):
        if len(slices) == 1:
            return f"{word} {number}", *slices
    return "missing", versions[0]


# FORMAT: Splicing copies of one length
def divided(copies):
    """What lies between the two walks, from its end: how each place stands and its bytes; and how many bytes can't be divided."""
    found, end = [], len(copies[0])
    while end and (place := place_ending_at(copies, end)):
        found.append(place)
        end -= len(place[1])
    return found, end


# FORMAT: Splicing copies of one length
class Splice:
    """Copies of one length put together: the places from their end, each as its start, its end and how it stands; where the front
    that can't be divided ends; and the payload."""

    def __init__(self, copies):
        above, top = settled_down(copies)
        # Nothing is settled from the start into a piece that ends where the walk down stopped.
        bound = min((top - len(piece) for piece in pieces_that_end(copies, top)), default=top)
        below, bottom = settled_up(copies, bound)
        hole, rest = divided([copy[bottom:top] for copy in copies])
        least = min(copy[bottom : bottom + rest] for copy in copies)
        found = [("settled", piece) for piece in above] + hole + [("undivided", least)] + list(reversed(below))
        self.payload = b"".join(piece for _, piece in reversed(found))
        # What can't be divided is a place of its own only where places stand below it.
        self.front = 0 if below else rest
        self.places, end = [], len(copies[0])
        for stands, piece in found:
            if piece and end > self.front:
                self.places.append((end - len(piece), end, stands))
            end -= len(piece)
        self.end = f"end broken at {self.front}" if self.front else "end whole"

    def given_back(self):
        """Whether all of it is settled or woven."""
        return not self.front and all(is_sure(stands) for _, _, stands in self.places)


# FORMAT: Splicing copies of one length
def is_sure(stands):
    """Whether a place that stands so is settled or woven."""
    return stands.split()[0] in ("settled", "woven")


# FORMAT: Splicing copies of one length
def spliced(copies):
    """What `splice` makes of copies of one length: the payload, the lines that it prints, and its exit status."""
    splice = Splice(copies)
    lines = [f"{start}..{end} {stands}\n" for start, end, stands in splice.places]
    return splice.payload, "".join([*lines, splice.end, "\n"]).encode(), 0 if splice.given_back() else 3


# FORMAT: Ranges of a file
def ranges_of(text):
    """The ranges that a list gives, each as its place and size; a fault has the number of the first wrong line."""
    lines, ranges, end = text.split(b"\n"), [], 0
    for number, line in enumerate(lines if lines[-1] else lines[:-1], 1):
        found = re.fullmatch(rb"0*([0-9]{1,20}) 0*([0-9]{1,20})", line)
        place, size = map(int, found.groups()) if found else (0, PAYLOAD_LIMIT + 1)
        if place >= 1 << 64 or size > PAYLOAD_LIMIT or place < end:
            raise Fault(number)
        end = place + size
        ranges.append((place, size))
    return ranges


# FORMAT: Ranges of a file
def scanned(text, content):
    """What `scan` prints of the ranges of some content, its exit status, and its fault, where the file has the name `reel`."""
    try:
        ranges = ranges_of(text)
    except Fault as fault:
        return b"", 1, f"ranges fault {fault.args[0]}"
    printed, sound = "", True
    for number, (place, size) in enumerate(ranges, 1):
        if place + size > len(content):
            return printed.encode(), 1, "cannot read reel"
        found, broken = links(content[place : place + size])
        passing = sum(len(piece) > 8 and passes(piece) for _, piece in found)
        ends = "whole" if broken is None else f"broken at {broken}"
        printed += f"range {number} links {len(found)} pass {passing} {ends}\n"
        sound = sound and broken is None and 0 < len(found) == passing
    return printed.encode(), 0 if sound else 3, None


# ---- a file put together from its copies, by a list of its stretches

# A stretch of a list: its kind, its size, the number of the copy from which it is taken where nothing vouches for its bytes, its place
# in each copy or None, and its parts, each as its offset and its size, and `flac` where it is a frame of FLAC.
Stretch = collections.namedtuple("Stretch", "kind size source places parts")
# What becomes of a stretch: its state, its bytes, and the splice of each part, or that of a frame; of a part that is a frame of FLAC its sound.
Outcome = collections.namedtuple("Outcome", "state bytes splices")


# FORMAT: Stretches of a file
class Sound(collections.namedtuple("Sound", "state payload")):
    """What becomes of a part that is a frame of FLAC: its state, and the version that passes or None."""

    def given_back(self):
        return self.payload is not None


# FORMAT: Ranges of a file
def number_of(word):
    """The number that some digits spell, or None where it is not under 2^64 or there are other characters."""
    digits = re.fullmatch(rb"0*([0-9]{1,20})", word)
    return int(digits.group(1)) if digits and int(digits.group(1)) < 1 << 64 else None


# FORMAT: A list of stretches
def stretch_of(words, copies, ends):
    """The stretch of a line of a list for so many copies, whose stretches so far end at these places; None where it is none."""
    if len(words) != 3 + copies or words[0] not in (b"frame", b"crc32", b"record", b"flac", b"plain"):
        return None
    size, source = map(number_of, words[1:3])
    places = [None if word == b"-" else number_of(word) for word in words[3:]]
    if any(place is None and word != b"-" for place, word in zip(places, words[3:])):
        return None
    if any(place is not None and place < end for place, end in zip(places, ends)):
        return None
    if not size or size > PAYLOAD_LIMIT or not source or source > copies or places[source - 1] is None:
        return None
    return Stretch(words[0].decode(), size, source, places, [])


# FORMAT: A list of stretches
def part_of(words, stretch):
    """The part of a line of a list, as its offset and its size, and `flac` where it is a frame of FLAC, after this stretch with its parts so
    far; None where it is none."""
    if words[3:] not in ([], [b"flac"]) or len(words) < 3 or stretch is None or stretch.kind != "crc32":
        return None
    offset, size = map(number_of, words[1:3])
    least = sum(stretch.parts[-1][:2]) if stretch.parts else 6
    if offset is None or not size or offset < least or offset + size > stretch.size:
        return None
    return (offset, size, *(word.decode() for word in words[3:]))


# FORMAT: A list of stretches
def stretches_of(text, copies):
    """The stretches of a list for so many copies; a fault has the number of the first wrong line."""
    lines, found, ends = text.split(b"\n"), [], [0] * copies
    for number, line in enumerate(lines if lines[-1] else lines[:-1], 1):
        words = line.split(b" ")
        if words[0] == b"part":
            part = part_of(words, found[-1] if found else None)
            judge(part, number)
            found[-1].parts.append(part)
        else:
            stretch = stretch_of(words, copies, ends)
            judge(stretch, number)
            found.append(stretch)
            ends = [end if place is None else place + stretch.size for place, end in zip(stretch.places, ends)]
    return found


# FORMAT: Elements with a CRC-32
def crc_left(content):
    """The sum of the CRC-32 in the content of an element and that of the rest of it."""
    return zlib.crc32(content[6:]) ^ int.from_bytes(content[2:6], "little")


# FORMAT: Elements with a CRC-32
def is_element(content):
    """Whether some bytes are the content of an EBML element that begins with the CRC-32 of the rest of it."""
    return len(content) >= 6 and content[:2] == b"\xbf\x84" and crc_left(content) == 0


# FORMAT: Elements with a CRC-32
def element_of(rest):
    """The content of an element that begins with the CRC-32 of the rest of it."""
    return b"\xbf\x84" + zlib.crc32(rest).to_bytes(4, "little") + rest


# FORMAT: Stretches of a file
def is_record(content):
    """Whether some bytes are a Configuration Record: their parity is right, and not by being all zeros."""
    return len(content) >= 6 and any(content) and parity(content) == 0


# FORMAT: Frames of FLAC
def crc_of(content, width, divisor):
    """What is left of some bytes by a divisor of this many bits, without its highest: from nothing, most significant bit first."""
    register = 0
    for byte in content:
        register ^= byte << width - 8
        for _ in range(8):
            register = (register << 1 ^ (divisor if register >> width - 1 else 0)) & (1 << width) - 1
    return register


# FORMAT: Frames of FLAC
def header_of_flac(frame):
    """How many bytes stand before the CRC-8 in the header of a FLAC frame, or None where some bytes begin with no such header."""
    if len(frame) < 5 or frame[0] != 0xFF or frame[1] not in (0xF8, 0xF9):
        return None
    size, rate, channels, depth = frame[2] >> 4, frame[2] & 15, frame[3] >> 4, frame[3] >> 1 & 7
    if size == 0 or rate == 15 or channels > 10 or depth == 3 or frame[3] & 1:
        return None
    ones = 8 - (frame[4] ^ 0xFF).bit_length()
    if ones in (1, 8) or any(byte >> 6 != 2 for byte in frame[5 : 4 + ones]):
        return None
    return 4 + max(ones, 1) + {6: 1, 7: 2}.get(size, 0) + {12: 1, 13: 2, 14: 2}.get(rate, 0)


# FORMAT: Frames of FLAC
def is_flac(frame):
    """Whether some bytes are a FLAC frame, whose header has a right CRC-8, and all of it a right CRC-16."""
    length = header_of_flac(frame)
    return length is not None and length + 3 <= len(frame) and crc_of(frame[: length + 1], 8, 0x07) == 0 == crc_of(frame, 16, 0x8005)


# FORMAT: Frames of FLAC
def flac_of(header, body):
    """A FLAC frame with this header, which has no CRC-8 yet, and these bytes after it."""
    frame = header + bytes([crc_of(header, 8, 0x07)]) + body
    return frame + crc_of(frame, 16, 0x8005).to_bytes(2, "big")


# FORMAT: Stretches of a file
def with_part(content, offset, piece):
    return content[:offset] + piece + content[offset + len(piece) :]


# FORMAT: Stretches of a file
def part_outcome(versions, sort):
    """What becomes of a part of these versions."""
    return sound_of(versions) if sort else Splice(versions)


# FORMAT: Stretches of a file
def sound_of(versions):
    """What becomes of a part of these versions that is a frame of FLAC."""
    passing = {version for version in versions if is_flac(version)}
    return Sound("whole", passing.pop()) if len(passing) == 1 else Sound("disputed" if passing else "missing", None)


# FORMAT: Stretches of a file
def given_by(part, made):
    """What a part gives to each version of its element: an offset, and the bytes from there on."""
    if isinstance(made, Sound):
        return [(part[0], made.payload)] if made.given_back() else []
    sure = ((start, end) for start, end, stands in made.places if is_sure(stands) or stands.startswith(("voted", "repaired")))
    return [(part[0] + start, made.payload[start:end]) for start, end in sure]


# FORMAT: Stretches of a file
def improved(versions, parts, made):
    """The versions of an element, each with the bytes of all settled, woven, voted and repaired places of the splices of its parts, and with
    each frame of FLAC of which one version alone passes."""
    for part, one in zip(parts, made):
        for offset, piece in given_by(part, one):
            versions = {with_part(version, offset, piece) for version in versions}
    return sorted(versions)


# FORMAT: Stretches of a file
def element_outcome(versions, source, parts):
    """What becomes of an element with a CRC-32, of these versions and that of the copy it is taken from."""
    made = [part_outcome([version[offset : offset + size] for version in versions], sort) for offset, size, *sort in parts]
    passing = sorted({version for version in versions if is_element(version)})
    number, combinations = (0, []) if passing else woven(improved(set(versions), parts, made), is_element)
    if len(passing) == 1:
        return Outcome("whole", passing[0], made)
    if len(combinations) == 1:
        return Outcome(f"woven {number}", combinations[0], made)
    for part, one in zip(parts, made):
        source = with_part(source, part[0], one.payload or b"")
    return Outcome("disputed" if passing else "missing", source, made)


# FORMAT: Stretches of a file
def record_outcome(versions, source):
    """What becomes of a Configuration Record."""
    passing = sorted({version for version in versions if is_record(version)})
    number, combinations = (0, []) if passing else woven(sorted(set(versions)), is_record)
    if len(passing) == 1:
        return Outcome("whole", passing[0], [])
    if len(combinations) == 1:
        return Outcome(f"woven {number}", combinations[0], [])
    return Outcome("disputed" if passing else "missing", source, [])


# FORMAT: Stretches of a file
def flac_outcome(versions, source):
    """What becomes of a frame of FLAC: nothing of it is woven."""
    sound = sound_of(versions)
    return Outcome(sound.state, source if sound.payload is None else sound.payload, [])


# FORMAT: Stretches of a file
def frame_outcome(versions):
    splice = Splice(versions)
    counts = [int(stands.split()[1]) for _, _, stands in splice.places if stands.startswith("woven")]
    state = "whole" if not counts else f"woven {min(math.prod(counts), (1 << 64) - 1)}"
    return Outcome(state if splice.given_back() else "missing", splice.payload, [splice])


# FORMAT: Stretches of a file
def plain_outcome(versions, source):
    state = "alone" if len(versions) == 1 else "agreed" if len(set(versions)) == 1 else "open"
    return Outcome(state, source, [])


# FORMAT: Stretches of a file
def outcome_of(stretch, versions):
    """What becomes of a stretch whose versions these are, each copy's or None."""
    there, source = [version for version in versions if version is not None], versions[stretch.source - 1]
    if stretch.kind == "crc32":
        return element_outcome(there, source, stretch.parts)
    if stretch.kind == "frame":
        return frame_outcome(there)
    return {"record": record_outcome, "flac": flac_outcome, "plain": plain_outcome}[stretch.kind](there, source)


# FORMAT: A list of stretches
def marks(versions, made, start, end):
    """For each copy whether it has in a range what was made."""
    return "".join("-" if version is None else "01"[version[start:end] == made[start:end]] for version in versions)


# FORMAT: A list of stretches
def splice_lines(splice, offset, versions, made):
    """The lines of a splice that stands at an offset."""
    for start, end, stands in splice.places:
        yield f"  {start}..{end} {stands} {marks(versions, made, offset + start, offset + end)}\n"
    yield f"  {splice.end}\n"


# FORMAT: A list of stretches
def part_is_shown(part, made, versions):
    """Whether a part is not settled or whole, or not alike in all copies that have it."""
    offset, size = part[:2]
    there = {version[offset : offset + size] for version in versions if version is not None}
    if isinstance(made, Sound):
        return len(there) > 1 or made.state != "whole"
    return len(there) > 1 or made.front or any(stands != "settled" for _, _, stands in made.places)


# FORMAT: A list of stretches
def part_lines(part, made, versions, content):
    """The lines of a part."""
    offset, size = part[:2]
    if isinstance(made, Sound):
        yield f"  0..{size} {made.state} {marks(versions, content, offset, offset + size)}\n"
    else:
        yield from splice_lines(made, offset, versions, content)


# FORMAT: A list of stretches
def stretch_lines(number, stretch, versions, outcome):
    """What is printed of a stretch."""
    seen = marks(versions, outcome.bytes, 0, stretch.size)
    yield f"stretch {number} {stretch.kind} {outcome.state} {seen}\n"
    if outcome.state == "whole" and "0" not in seen:
        return
    if stretch.kind == "frame":
        yield from splice_lines(outcome.splices[0], 0, versions, outcome.bytes)
    for place, (part, made) in enumerate(zip(stretch.parts, outcome.splices), 1):
        if part_is_shown(part, made, versions):
            yield f"  part {place}\n"
            yield from part_lines(part, made, versions, outcome.bytes)


# FORMAT: Stretches of a file
def is_good(state):
    return state.split()[0] in ("whole", "woven", "agreed")


# FORMAT: A list of stretches
def versions_of(stretch, copies):
    """What each copy, which has a name and a content or None, has of a stretch, or None; a fault has the name of the first one that
    can't be read, or ends within it."""
    for (name, content), place in zip(copies, stretch.places):
        judge(place is None or content is not None and place + stretch.size <= len(content), f"cannot read {name}")
    return [None if place is None else content[place : place + stretch.size] for (_, content), place in zip(copies, stretch.places)]


# FORMAT: A list of stretches
def mended(text, copies):
    """What `mend` makes by a list of copies, each with its name and its content, or None where it can't be read: the file, None where
    nothing was written; what is printed; the exit status; and the fault."""
    try:
        stretches = stretches_of(text, len(copies))
    except Fault as fault:
        return None, b"", 1, f"list fault {fault.args[0]}"
    made, printed, good = [], "", True
    for number, stretch in enumerate(stretches, 1):
        try:
            versions = versions_of(stretch, copies)
        except Fault as fault:
            return b"".join(made) if made else None, printed.encode(), 1, fault.args[0]
        outcome = outcome_of(stretch, versions)
        made.append(outcome.bytes)
        printed += "".join(stretch_lines(number, stretch, versions, outcome))
        good = good and is_good(outcome.state)
    return b"".join(made), printed.encode(), 0 if good else 3, None
