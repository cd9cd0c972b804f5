"""Frames of any recording, damaged in several copies and held by the commands with the word --any: what these make and print of them, compared with
the frame, with a second reading (tests/any_holdings.py), and with each other in other orders and groupings."""
import copy_damage
import any_holdings
import makings
import readings
import sample_reading


class Held:
    """The commands over holdings of a frame's copies in a folder: each runs the program, and returns what it makes or prints."""

    def __init__(self, run, record, size):
        self.run, self.record, self.size, self.count, self.words = run, record, size, 0, ["--any"]

    def without_any(self):
        """The same without the word --any."""
        found = Held(self.run, self.record, self.size)
        found.words = []
        return found

    def take(self, *copies):
        names = [f"copy-{number}" for number in range(len(copies))]
        files = {"record": self.record, **dict(zip(names, copies))}
        return self.run(["take", *self.words, "record", *map(str, self.size), "out", *names], files)

    def join(self, *holds):
        names = [f"hold-{number}" for number in range(len(holds))]
        return self.run(["join", *self.words, "out", *names], dict(zip(names, holds)))

    def merge(self, one, other):
        return self.run(["merge", *self.words, "out", "hold-0", "hold-1"], {"hold-0": one, "hold-1": other})

    def report(self, hold):
        return self.run(["report", *self.words, "hold-0"], {"hold-0": hold})

    def restore(self, hold):
        return self.run(["restore", *self.words, "hold-0", "out"], {"hold-0": hold})

    def picture(self, hold):
        return self.run(["picture", *self.words, "hold-0", "out"], {"hold-0": hold})


def halves(frame):
    """Two copies of a frame: of one the slices in even places, of the other those in odd ones have a wrong byte."""
    places = [start + (len(piece) - 8) // 2 for start, piece in readings.links(frame)[0]]
    return [makings.inverted(frame, *places[odd::2]) for odd in (0, 1)]


def copies_of(numbers, frame):
    """Copies of a frame in some order: halves, of which each slice comes back, and others that are damaged at random."""
    found = [*halves(frame), *copy_damage.damaged_copies(numbers, frame)]
    numbers.shuffle(found)
    return found


def difference(held, numbers, frame, slices):
    """What is wrong with what the commands make of a frame in damaged copies, or None. `slices` are the frame's, decoded."""
    recording = any_holdings.recording_of(held.record, held.size, True)
    return (union_difference(held, copies_of(numbers, frame)) or frame_difference(held, recording, frame, slices)
            or profile_difference(held, recording, copies_of(numbers, frame)))


def union_difference(held, copies):
    """Whether the holdings of some copies are one file in all orders and groupings, and what is read of it."""
    wanted, lines = any_holdings.took(held.record, held.size, copies)
    if held.take(*copies) != (wanted, lines, 0, ""):
        return "take: another holding"
    alone = [held.take(copy)[0] for copy in copies]
    backwards = any_holdings.joined(alone[::-1])
    if held.join(*alone) != (wanted, any_holdings.joined(alone)[1], 0, "") or held.join(*alone[::-1]) != (*backwards, 0, ""):
        return "join: another holding in some order"
    left = right = alone[0]
    for hold in alone[1:]:
        left, right = held.merge(left, hold)[0], held.merge(hold, right)[0]
    middle = len(alone) // 2
    grouped = held.merge(held.join(*alone[middle:])[0], held.join(*alone[:middle])[0]) if middle else (left, b"", 0, "")
    if (left, right) != (wanted, wanted) or grouped != (wanted, b"", 0, ""):
        return "merge: another holding in some order or grouping"
    if held.report(wanted) != (None, any_holdings.reported(wanted), 0, ""):
        return "report: other lines"
    payload, lacks = any_holdings.restored(wanted)
    if held.restore(wanted) != ((payload, f"restored {len(payload)} bytes\n".encode(), 0, "") if lacks is None else (None, b"", 1, lacks)):
        return "restore: another frame"
    return None if held.picture(wanted) == (*any_holdings.pictured(wanted), "") else "picture: other samples or lines"


def frame_difference(held, recording, frame, slices):
    """Whether halves of a frame give it back, and pictures of them and of it are right: those of a keyframe are its samples, and of a frame between
    keyframes nothing is decoded."""
    whole = held.take(*halves(frame))[0]
    if held.restore(whole) != (frame, f"restored {len(frame)} bytes\n".encode(), 0, ""):
        return "restore: another frame of two halves"
    is_key, tiles = slices[0].header.key, readings.tiles_of(recording)
    said = b"" if is_key else "".join(f"tile {tile} no keyframe\n" for tile in range(tiles)).encode()
    if held.picture(whole) != (sample_reading.samples_text(recording, slices if is_key else []), said, 0 if is_key else 3, ""):
        return "picture: other samples than those of the frame"
    for half in halves(frame):
        hold = held.take(half)[0]
        if held.picture(hold) != (*any_holdings.pictured(hold), ""):
            return "picture: other samples of a half"
    return None


def profile_difference(held, recording, copies):
    """Whether without --any a recording out of the profile is refused, and the holding of its frames. Of one in the profile all is the same, but
    for a slice of tile 0 of a frame between keyframes: that is held with --any alone."""
    plain, hold = held.without_any(), held.take(*copies)[0]
    if any_holdings.is_in_profile(recording):
        taken, lines = any_holdings.took(held.record, held.size, copies, False)
        if plain.take(*copies) != (taken, lines, 0, ""):
            return "take: another holding without --any"
        if not hold.startswith(any_holdings.MAGIC):
            return None if (hold, *results(plain, hold)) == (taken, *results(held, hold)) else "another file or line without --any"
    try:
        readings.recording_of(held.record, held.size, readings.PROFILE)
    except readings.Fault as fault:
        if plain.take(*copies) != (None, b"", 1, f"setup fault {fault.args[0]}"):
            return "take: a recording out of the profile is not refused without --any"
    refused = {found[1:] for found in (plain.report(hold), plain.restore(hold), plain.picture(hold), plain.join(hold), plain.merge(hold, hold))}
    return None if refused == {(b"", 1, "holding file fault 1")} else "a holding of its own magic is not refused without --any"


def results(held, hold):
    """What the commands make and print of a holding, but for the lines of `picture` that stand with --any alone: of ends, and `keyframe unknown`."""
    yield from (held.report(hold), held.restore(hold), held.join(hold, hold), held.merge(hold, hold))
    samples, lines, _, fault = held.picture(hold)
    yield samples, [line for line in lines.splitlines() if b"unclean" not in line and line != b"keyframe unknown"], fault


def refusal_difference(held, frame):
    """Whether a recording without parities is refused."""
    refused = held.take(frame)
    return None if refused == (None, b"", 1, f"setup fault {any_holdings.PARITY_MODE}") else "take: a recording without parities is not refused"
