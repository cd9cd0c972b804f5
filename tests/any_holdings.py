"""Holdings of any recording whose slices have parities, read and written by their definitions (docs/FORMAT.md), apart from the program: what the
commands with the word --any make, print and report."""
import readings
import sample_reading
from readings import Fault

MAGIC, VERSION = b"FFV1ANY", 1
PARITY_MODE = 16
# How many contexts may have initial states, where a record is read here.
MOST_CONTEXTS = 10000


# FORMAT: The configuration record
def is_in_profile(recording):
    """Whether a recording with parities is in the profile."""
    fits = recording.coder == 0 and recording.depth == 8 and max(recording.shifts) <= readings.PROFILE.greatest_shift
    return fits and not recording.is_rgb and not recording.has_alpha


# FORMAT: The configuration record
def recording_of(record, size, is_any):
    """The recording of a record; Fault where holdings are of no such recording."""
    scope = readings.ANY._replace(modes=(1,)) if is_any else readings.PROFILE
    return readings.recording_of(record, size, scope, MOST_CONTEXTS)


# FORMAT: Slice headers
def header_of(recording, piece, first, is_any=True):
    """The header of a slice that is of one tile, and the decoder after it; or None. Without --any it is of a keyframe."""
    if not readings.is_slice(piece):
        return None
    try:
        header, coder = sample_reading.start_of_slice(recording, piece[:-8], first)
    except sample_reading.FrameFault:
        return None
    is_taken = header.width == header.height == 1 and first == (header.x == header.y == 0) and (is_any or header.key is not False)
    return (header, coder) if is_taken else None


# FORMAT: Slice headers
def tile_of(recording, piece, first, is_any=True):
    """The tile of which some bytes are a slice, or None."""
    found = header_of(recording, piece, first, is_any)
    return found and found[0].y * recording.grid[0] + found[0].x


# FORMAT: Slices of a payload
def found_slices(recording, payload, is_any=True):
    """The slices found in a payload, each with its tile, in the chain's order."""
    found = [(tile_of(recording, piece, start == 0, is_any), piece) for start, piece in readings.links(payload)[0]]
    return [each for each in found if each[0] is not None]


# FORMAT: Slices of a payload
def is_in_order(recording, payload):
    """Whether the tiles of the slices found in a payload rise from its start, no two being one."""
    tiles = [tile for tile, _ in reversed(found_slices(recording, payload))]
    return all(one < next_one for one, next_one in zip(tiles, tiles[1:]))


# FORMAT: Holdings
def taken(recording, payload, is_any=True):
    """What a copy adds to a holding: the slices found in it, each with its tile and the copy's digest."""
    digest = readings.hashlib.sha256(payload).digest()
    return {each: {digest} for each in found_slices(recording, payload, is_any)}


# FORMAT: The holding file
def is_between(recording, tile, piece):
    """Whether a slice says that its frame is no keyframe: the keyframe bit stands in the slice of tile 0."""
    return tile == 0 and header_of(recording, piece, True)[0].key is False


# FORMAT: The holding file
def holding_text(record, recording, held):
    """The file of a holding: of version 2, if its record is in the profile and no slice has the keyframe bit 0; else of its own magic."""
    text = readings.holding_text(record, recording.size, held)
    is_second = is_in_profile(recording) and not any(is_between(recording, *each) for each in held)
    return text if is_second else MAGIC + bytes([VERSION]) + text[8:]


# FORMAT: The holding file
def judge_first(recording, first):
    """With a record in the profile a file of its own magic begins with a slice that has the keyframe bit 0; the first entry may be None."""
    readings.judge(not is_in_profile(recording) or first and is_between(recording, *first), 1)


# FORMAT: The holding file
def read_head(text, is_any):
    """The record, the recording and the end of the record in a holding file, or Fault with the number of its first fault."""
    heads = [readings.MAGIC + b"\x01", readings.MAGIC + b"\x02", *[MAGIC + bytes([VERSION])] * is_any]
    for place in range(8):
        if not any(head.startswith(text[: place + 1]) for head in heads):
            raise Fault(1)
        readings.judge(place < len(text), 3)
    length = int.from_bytes(text[16:20], "big")
    readings.judge(len(text) < 20 or length <= readings.RECORD_LIMIT, 11)
    readings.judge(len(text) >= 20 + length, 3)
    record, size = text[20 : 20 + length], (int.from_bytes(text[8:12], "big"), int.from_bytes(text[12:16], "big"))
    try:
        return record, recording_of(record, size, text.startswith(MAGIC)), 20 + length
    except Fault:
        raise Fault(2) from None


# FORMAT: The holding file
def read_holding(text, is_any, is_begun=False):
    """The record, the recording and the slices of a holding file, or Fault with the number of its first fault. Of one that is only begun the first
    entry is not judged."""
    record, recording, place = read_head(text, is_any)
    if not text.startswith(MAGIC):
        return record, recording, readings.read_entries(recording, text, place, lambda *words: tile_of(*words, is_any=False))
    judge = (lambda *words: None) if is_begun else judge_first
    return record, recording, readings.read_entries(recording, text[:7] + b"\x02" + text[8:], place, tile_of, judge)


# ---- what the commands make


# man page: take
def took(record, size, payloads, is_any=True):
    """What `take` makes and prints of copies, or Fault with the number of the record's fault."""
    recording, held, lines = recording_of(record, size, is_any), {}, ""
    for number, payload in enumerate(payloads, 1):
        found = taken(recording, payload, is_any)
        word = " unordered" if is_any and not is_in_order(recording, payload) else ""
        slices, new = len(found_slices(recording, payload, is_any)), len(set(found) - set(held))
        lines += f"copy {number} links {len(readings.links(payload)[0])} slices {slices} new {new}{word}\n"
        held = readings.united(held, found)
    return holding_text(record, recording, held), lines.encode()


# man page: take
def take_status(printed):
    """The status of `take`, by what it printed."""
    return 3 if b" unordered\n" in printed else 0


# man page: join
def joined(texts, is_any=True):
    """What `join` and `merge` make of holding files of one recording, and what `join` prints."""
    read, held, lines = [read_holding(text, is_any) for text in texts], {}, ""
    for number, (_, _, more) in enumerate(read, 1):
        lines += f"file {number} new {len(set(more) - set(held))}\n"
        held = readings.united(held, more)
    return holding_text(*read[0][:2], held), lines.encode()


# man page: report
def reported(text, is_any=True):
    _, recording, held = read_holding(text, is_any)
    return readings.report_text(recording.size, held, readings.tiles_of(recording))


# man page: restore
def restored(text, is_any=True):
    """The payload of a holding whose tiles are all settled, or None; and the line that names the first tile that is not settled."""
    _, recording, held = read_holding(text, is_any)
    stand = readings.standing(held, readings.tiles_of(recording))
    for tile, pieces in enumerate(stand):
        if len(pieces) != 1:
            return None, f"{'disputed' if pieces else 'missing'} tile {tile}"
    return b"".join(pieces[0] for pieces in stand), None


# man page: picture
def shown_slice(recording, piece, first):
    """The slice that some bytes are, decoded from initial states, or its fault in a line."""
    header, coder = header_of(recording, piece, first)
    try:
        return sample_reading.read_slice(recording, piece[:-8], header, coder, sample_reading.fresh_states(recording, header.tables))
    except sample_reading.Stuck as stuck:
        return "fault end" if stuck.args[0] == "End" else "fault plane {} y {} x {}".format(*stuck.args[1:])


# man page: picture
def shown(recording, held, is_any=True):
    """What `picture` writes of a holding, what it prints, and its status. Ends that are not an encoder's are reported with --any alone."""
    stand = readings.standing(held, readings.tiles_of(recording))
    first = header_of(recording, stand[0][0], True) if len(stand[0]) == 1 else None
    has_states, slices, lines = not (first and first[0].key is False), [], ""
    if is_any and first is None and recording.intra == 0:
        lines = "keyframe unknown\n"
    for tile, pieces in enumerate(stand):
        if len(pieces) != 1:
            lines += f"tile {tile} " + (f"disputed {len(pieces)}\n" if pieces else "missing\n")
            continue
        found = shown_slice(recording, pieces[0], tile == 0) if has_states else "no keyframe"
        if isinstance(found, str):
            lines += f"tile {tile} {found}\n"
        else:
            slices.append(found)
            lines += "" if found.is_clean or not is_any else f"tile {tile} unclean spare {found.spare}\n"
    return sample_reading.samples_text(recording, slices), lines.encode(), 3 if lines else 0


# man page: picture
def pictured(text, is_any=True):
    """The same of a holding file."""
    _, recording, held = read_holding(text, is_any)
    return shown(recording, held, is_any)
