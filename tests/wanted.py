"""What each command has to report, print and make of its files, by tests/readings.py and the readings of any recording beside it."""
import math

import any_holdings
import check_reading
import readings
import sample_reading

# Of greater frames no samples are read here.
MOST_SAMPLES = 1 << 16


class Wanted:
    """What is known of a run's result: its status, output, made file and line of fault, each None where it is not known, the line
    also a tuple of those that may be; and whether an output and a file fit what is known of them besides."""

    def __init__(self, status=None, printed=None, made=None, reported=None, fits=lambda printed, made: True):
        self.status, self.printed, self.made, self.reported, self.fits = status, printed, made, reported, fits


def fault_wanted(fault, kind):
    return Wanted(1, b"", reported=f"{kind} fault {fault.args[0]}")


def wanted_chain(one):
    found, broken = readings.links(one.payloads[0])
    lines = []
    for start, piece in found:
        judged = "pass" if readings.passes(piece) else "fail"
        lines.append(f"{start}..{start + len(piece)} size {len(piece) - 8} status {piece[-5]} {judged}\n")
    lines.append("end whole\n" if broken is None else f"end broken at {broken}\n")
    return Wanted(0, "".join(lines).encode())


def with_setup(wanted):
    """What is wanted of a command whose record is judged first."""

    def judged(one):
        try:
            setup = readings.setup_of(one.record, one.size)
        except readings.Fault as fault:
            return fault_wanted(fault, "setup")
        return Wanted() if setup is None else wanted(one, setup)

    return judged


def wanted_show(_, setup):
    return Wanted(0, readings.show_text(setup))


def with_recording(wanted):
    """What is wanted of a command of any recording, whose initial states are read here where they are few."""

    def judged(one):
        try:
            recording = readings.recording_of(one.record, one.size, most=10000)
        except readings.TooManyStates:
            return Wanted()
        except readings.Fault as fault:
            return fault_wanted(fault, "setup")
        return wanted(one, recording)

    return judged


def wanted_setup(_, recording):
    return Wanted(0, readings.setup_text(recording))


def wanted_samples(one, recording):
    if math.prod(recording.size) > MOST_SAMPLES:
        return Wanted()
    made, printed, status, reported = sample_reading.sampled(recording, [(f"frame-{number}", payload) for number, payload in enumerate(one.payloads)])
    return Wanted(status, printed, made, reported)


def wanted_take(one):
    try:
        made, printed = any_holdings.took(one.record, one.size, one.payloads, one.is_any)
    except readings.Fault as fault:
        return fault_wanted(fault, "setup")
    return Wanted(any_holdings.take_status(printed), printed, made)


def wanted_decode(one, setup):
    found, broken = readings.links(one.payloads[0])
    for name, frame in one.recording.frames.items():
        samples = one.recording.planes.get(name.replace("frame", "planes"))
        if samples and (frame, one.record, one.size) == (one.payloads[0], one.recording.record, one.recording.size):
            return Wanted(0, made=samples)
    if broken is not None or len(found) != readings.tiles_of(setup):
        return Wanted(1, b"", reported="frame fault 1")
    for place, (start, piece) in enumerate(reversed(found)):
        tile = readings.tile_of(setup, piece, start == 0)
        if tile != place:
            return Wanted(1, b"", reported=f"frame fault {2 if tile is None else 3} at {place}")
    return Wanted()


def wanted_join(one):
    reels = []
    for text in one.texts:
        record, recording, _ = any_holdings.read_holding(text, one.is_any)
        reels.append((record, recording.size))
        if reels[0] != reels[-1]:
            return Wanted(1, b"", reported="hold fault 1")
    made, printed = any_holdings.joined(one.texts, one.is_any)
    return Wanted(0, printed, made)


def heads(one):
    """The bytes of both files of `merge` after their version, up to the end of their records."""
    return [text[8 : 20 + int.from_bytes(text[16:20], "big")] for text in (one.texts[0], one.texts[-1])]


def wanted_merge(one):
    """Either file's fault may come first, and another reel of two heads before a fault after them."""
    texts, faults = [one.texts[0], one.texts[-1]], []
    for text in texts:
        try:
            any_holdings.read_holding(text, one.is_any)
        except readings.Fault as fault:
            faults.append(f"holding file fault {fault.args[0]}")
    left, right = heads(one)
    if left != right:
        faults.append("holding file fault 12")
    if faults:
        return Wanted(1, b"", reported=tuple(faults))
    return Wanted(0, b"", any_holdings.joined(texts, one.is_any)[0])


def wanted_report(one):
    return Wanted(0, any_holdings.reported(one.texts[0], one.is_any))


def wanted_restore(one):
    payload, reported = any_holdings.restored(one.texts[0], one.is_any)
    if reported:
        return Wanted(1, b"", reported=reported)
    return Wanted(0, f"restored {len(payload)} bytes\n".encode(), payload)


def wanted_large_picture(recording, held):
    """What is known of the picture of a frame in the profile whose samples are not read here."""
    stand = readings.standing(held, readings.tiles_of(recording))
    open_tiles = {tile: f"disputed {len(pieces)}" if pieces else "missing" for tile, pieces in enumerate(stand) if len(pieces) != 1}

    def fits(printed, made):
        reported = {int(tile): how for _, tile, how in (line.split(" ", 2) for line in printed.decode().splitlines() if line.startswith("tile "))}
        readable = {tile: how for tile, how in reported.items() if not how.startswith(("fault ", "unclean ", "no keyframe"))}
        return readable == open_tiles and list(reported) == sorted(reported) and len(made) == readings.samples_of(recording, recording.size)

    return Wanted(3 if open_tiles else None, fits=fits)


def wanted_picture(one):
    _, recording, held = any_holdings.read_holding(one.texts[0], one.is_any)
    if math.prod(recording.size) <= MOST_SAMPLES:
        made, printed, status = any_holdings.shown(recording, held, one.is_any)
        return Wanted(status, printed, made)
    return wanted_large_picture(recording, held) if any_holdings.is_in_profile(recording) else Wanted()


def wanted_splice(one):
    copies = [one.payloads[number] for number in one.order]
    for number, copy in zip(one.order, copies):
        if len(copy) != len(copies[0]):
            return Wanted(1, b"", reported=f"cannot splice frame-{number}")
    payload, lines, status = readings.spliced(copies)
    return Wanted(status, lines, payload)


def wanted_scan(one):
    printed, status, reported = readings.scanned(one.list, one.reel)
    return Wanted(status, printed, reported=reported)


def wanted_check(one):
    printed, status = check_reading.checked(one.reel)
    return Wanted(status, printed)


def wanted_mend(one):
    made, printed, status, reported = readings.mended(one.list, [(f"frame-{number}", one.payloads[number]) for number in one.order])
    return Wanted(status, printed, made, reported)


def with_files(wanted):
    """What is wanted of a command that stops at the first fault of a holding file."""

    def judged(one):
        try:
            return wanted(one)
        except readings.Fault as fault:
            return fault_wanted(fault, "holding file")

    return judged


def where_read(wanted):
    """What is wanted of a command where the initial states of its record are read here, which they are where they are few."""

    def judged(one):
        try:
            return wanted(one)
        except readings.TooManyStates:
            return Wanted()

    return judged


WANTED = {
    "chain": wanted_chain,
    "show": with_setup(wanted_show),
    "setup": with_recording(wanted_setup),
    "samples": with_recording(wanted_samples),
    "take": where_read(wanted_take),
    "join": where_read(with_files(wanted_join)),
    "merge": where_read(wanted_merge),
    "report": where_read(with_files(wanted_report)),
    "restore": where_read(with_files(wanted_restore)),
    "picture": where_read(with_files(wanted_picture)),
    "decode": with_setup(wanted_decode),
    "splice": wanted_splice,
    "scan": wanted_scan,
    "check": wanted_check,
    "mend": wanted_mend,
}
