"""Commands with the files that their words name: made at random, or cut and zeroed everywhere."""
import random

import lists
import makings
import readings
from copy_damage import damaged_copies
from damage import damaged, damaged_frame, damaged_holding, damaged_record
from list_damage import make_mended, odd_size, stretches_in
from stored import OFTEN_BELOW, TESTS, other_recordings
from wanted import WANTED, Wanted

# Those that take the word --any.
OF_HOLDINGS = ["take", "join", "merge", "report", "restore", "picture"]
COMMANDS = ["chain", "show", "setup", "take", "join", "merge", "report", "restore", "picture", "decode", "splice", "scan", "check", "mend", "samples"]
OTHERS = other_recordings()
HELD = [recording for recording in OTHERS if recording.holdings]


class Input:
    """A command of a recording with the files that its words name, whether with --any, and what is wanted."""

    def __init__(self, command, recording, payloads, texts, is_any=False):
        self.command, self.recording, self.payloads, self.texts, self.is_any = command, recording, payloads, texts, is_any
        self.record, self.size = recording.record, recording.size
        self.refused, self.scarce, self.order = False, None, range(len(payloads))
        self.list, self.reel = b"", b""

    def words(self):
        """The program's words; where they are to be refused, too few."""
        recording = ["record", *map(str, self.size)]
        copies, files = [f"frame-{n}" for n in range(len(self.payloads))], [f"file-{n}" for n in range(len(self.texts))]
        words = {
            "chain": ["frame-0"],
            "show": recording,
            "setup": recording,
            "take": [*recording, "out", *copies],
            "join": ["out", *files],
            "merge": ["out", files[0], files[-1]] if files else [],
            "report": ["file-0"],
            "restore": ["file-0", "out"],
            "picture": ["file-0", "out"],
            "decode": [*recording, "frame-0", "out"],
            "samples": [*recording, "out", *copies],
            "splice": ["out", *(f"frame-{n}" for n in self.order)],
            "scan": ["list", "reel"],
            "check": ["reel"],
            "mend": ["list", "out", *(f"frame-{n}" for n in self.order)],
        }[self.command]
        if self.refused:
            words = words[1:] if self.command not in ("take", "join", "splice", "mend", "samples") else []
        return [self.command, *["--any"] * self.is_any, *words]

    def wanted(self):
        """What is wanted of the run."""
        if self.refused:
            return Wanted(2, b"", reported="words refused")
        return WANTED[self.command](self)

    def write(self, folder):
        (folder / "record").write_bytes(self.record)
        (folder / "list").write_bytes(self.list)
        (folder / "reel").write_bytes(self.reel)
        for number, payload in enumerate(self.payloads):
            (folder / f"frame-{number}").unlink(missing_ok=True)
            if payload is not None:
                (folder / f"frame-{number}").write_bytes(payload)
        for number, text in enumerate(self.texts):
            (folder / f"file-{number}").write_bytes(text)
        (folder / "out").unlink(missing_ok=True)


def reel_with_ranges(numbers, payloads):
    """Frames in a row with other bytes before each, and the list of their ranges; here and there a line is changed, or the file cut."""
    content, lines = b"", []
    for payload in payloads:
        content += numbers.randbytes(numbers.choice([0, 0, 1, 30, 70000]))
        lines.append(f"{len(content)} {len(payload)}")
        content += payload
    if numbers.random() < 0.2:
        wrong = numbers.randrange(len(lines))
        place, size = map(int, lines[wrong].split())
        lines[wrong] = numbers.choice([f"{place - 1} {size}", f"{place} {size + 1}", f"{place}  {size}", f"+{place} {size}", "", f"00{place} {size}"])
    if numbers.random() < 0.1:
        content = content[: numbers.randrange(len(content) + 1)]
    text = "\n".join(lines) + numbers.choice(["\n", "\n", ""])
    return text.encode(), content


def make_played(numbers, one):
    """Gives an input frames of any recording in their order, some of them damaged; here and there one is left out, or not there."""
    one.recording = numbers.choice(OTHERS)
    one.record, one.size = one.recording.record, one.recording.size
    frames = list(one.recording.frames.values())[: numbers.randint(1, 4)]
    if len(frames) > 1 and numbers.random() < 0.1:
        del frames[numbers.randrange(len(frames))]
    one.payloads = [frame if numbers.random() < 0.5 else damaged_frame(numbers, one.recording, frame) for frame in frames]
    if numbers.random() < 0.05:
        one.payloads[numbers.randrange(len(frames))] = None


def input_of(seed, number, known, others, files):
    """The input with this number."""
    numbers = random.Random(f"{seed} {number}")
    command = numbers.choice(COMMANDS)
    small = [recording for recording in known if recording.width < OFTEN_BELOW]
    recording = numbers.choice(small if numbers.random() < 0.97 else known)
    is_any = command in OF_HOLDINGS and numbers.random() < 0.5
    if command in OF_HOLDINGS and numbers.random() < (0.7 if is_any else 0.1):
        recording = numbers.choice(HELD)
    payloads, texts = [], []
    for _ in range(numbers.randint(1, 3)):
        payload, text = numbers.choice(list(recording.frames.values())), numbers.choice(recording.holdings)
        whole = numbers.random() < 0.1
        payloads.append(payload if whole else damaged_frame(numbers, recording, payload))
        texts.append(text if whole else damaged_holding(numbers, recording, text))
    one = Input(command, recording, payloads, texts, is_any)
    if one.command == "splice":
        frames = [frame for name, frame in recording.frames.items() if name[:5] == "frame"]
        one.payloads = damaged_copies(numbers, numbers.choice(frames if numbers.random() < 0.7 else others))
        one.order = numbers.choices(range(len(one.payloads)), k=numbers.randint(1, 2)) + list(range(len(one.payloads)))
        numbers.shuffle(one.order)
    if one.command == "scan":
        one.list, one.reel = reel_with_ranges(numbers, one.payloads)
    if one.command == "check":
        reel, other = numbers.choices([b"".join(content for _, content, _ in pieces) for pieces in files.values()], k=2)
        one.reel = reel if numbers.random() < 0.1 else damaged(numbers, reel, other)
    if one.command == "mend":
        frames = [next(iter(recording.frames.values())), *others]
        make_mended(numbers, one, numbers.choice(list(files.values())) if numbers.random() < 0.3 else stretches_in(numbers, frames))
    if one.command == "samples" and numbers.random() < 0.7:
        make_played(numbers, one)
    kind = numbers.random()
    if one.command == "setup" and numbers.random() < 0.7:
        other = numbers.choice(OTHERS)
        one.record, one.size = other.record, other.size
    if one.command in ("show", "setup") or kind < 0.1:
        one.record = damaged_record(numbers, recording, one.record)
    if kind > 0.9:
        one.size = odd_size(numbers, one.size)
    one.refused = numbers.random() < 0.01
    one.scarce = numbers.choice([0, 64, 256, 1024]) if numbers.random() < 0.1 else None
    return one


def cut_and_zeroed(content, step=1):
    """Every front of some bytes, and the bytes with every eight of them zeroed; or of so many places one."""
    for end in range(0, len(content), step):
        yield content[:end]
    for start in range(0, len(content) - 7, step):
        yield content[:start] + bytes(8) + content[start + 8 :]


def spliced_inputs(recording, payload):
    """Copies with eight bytes zeroed at each place, beside one with eight others zeroed; and cut ones, in turn before and after it."""
    for place in range(len(payload)):
        zeroed = makings.written(payload, place, bytes(len(payload[place : place + 8])))
        start = (place + len(payload) // 3) % len(payload)
        other = makings.written(payload, start, bytes(len(payload[start : start + 8])))
        yield Input("splice", recording, [zeroed, other], [])
        yield Input("splice", recording, [payload[:place], other] if place % 2 else [other, payload[:place]], [])


def mended_input(recording, text, *copies):
    one = Input("mend", recording, copies, [])
    one.list = text.encode()
    return one


def mended_inputs(recording, payload):
    """The same of an element in which the frame lies between other bytes."""
    content = readings.element_of(b"before" + payload + bytes(range(100)))
    text = f"crc32 {len(content)} 1 0 0\npart 12 {len(payload)}\n"
    for place in range(len(content)):
        zeroed = makings.written(content, place, bytes(len(content[place : place + 8])))
        start = (place + len(content) // 3) % len(content)
        other = makings.written(content, start, bytes(len(content[start : start + 8])))
        yield mended_input(recording, text, zeroed, other)
        if place % 8 == 0:
            yield mended_input(recording, text, other, content[:place])


def file_inputs(name, recording):
    """Copies of a Matroska file with sixteen bytes zeroed here and sixteen there, and cut ones."""
    content = (TESTS / "real" / name / "reel.mkv").read_bytes()
    text = lists.list_text(content, [len(content)] * 2, with_sound=True)
    for place in range(0, len(content), 16):
        start = (place + len(content) // 3) % (len(content) - 16)
        zeroed, other = (makings.written(content, at, bytes(len(content[at : at + 16]))) for at in (place, start))
        yield mended_input(recording, text, zeroed, other)
        if place % 64 == 0:
            yield mended_input(recording, text, zeroed, content[:place])
            yield mended_input(recording, lists.list_text(content, [place, len(content)], with_sound=True), content[:place], other)


def scanned_input(recording, payloads):
    """Frames in a row with a byte before each, and their ranges."""
    one = Input("scan", recording, payloads, [])
    for payload in payloads:
        one.list += f"{len(one.reel) + 1} {len(payload)}\n".encode()
        one.reel += b"x" + payload
    return one


def played_inputs(recording):
    """The frames of any recording up to the second, of which the last is cut everywhere, and has eight bytes of a slice zeroed everywhere, with a
    parity that fits."""
    *before, last = list(recording.frames.values())[:2]
    for end in range(len(last)):
        yield Input("samples", recording, [*before, last[:end]], [])
    for place, piece in readings.links(last)[0]:
        for start in range(len(piece) - 15):
            zeroed = readings.sliced(makings.written(piece[:-8], start, bytes(8)))
            yield Input("samples", recording, [*before, makings.written(last, place, zeroed)], [])


def held_inputs(recording, payload, text):
    """A frame, a holding file and the record of a recording, cut and zeroed everywhere, through each command of holdings; of a recording that is
    not in the profile at each fourth place, with the word --any."""
    is_any, step = recording in OTHERS, 4 if recording in OTHERS else 1
    for damaged_payload in cut_and_zeroed(payload, step):
        yield Input("take", recording, [damaged_payload], [], is_any)
    for damaged_text in cut_and_zeroed(text, step):
        for command in ("report", "restore", "picture", "join"):
            yield Input(command, recording, [], [damaged_text], is_any)
        yield Input("merge", recording, [], [damaged_text, text], is_any)
    for record in cut_and_zeroed(recording.record):
        one = Input("take", recording, [payload], [], is_any)
        one.record = record
        yield one


def every_input(recording):
    """The first frame of a recording, its record and its first holding file, cut and zeroed everywhere, through each command; of a recording that is
    not in the profile the second frame and holding file, where there are two."""
    place = 1 if recording in OTHERS and len(recording.frames) > 1 else 0
    payload = list(recording.frames.values())[place]
    if recording.holdings:
        yield from held_inputs(recording, payload, recording.holdings[place])
    if recording in OTHERS:
        yield from played_inputs(recording)
        return
    for damaged_payload in cut_and_zeroed(payload):
        for command in ("chain", "decode", "samples"):
            yield Input(command, recording, [damaged_payload], [])
        yield scanned_input(recording, [payload, damaged_payload, payload])
    yield from spliced_inputs(recording, payload)
    yield from mended_inputs(recording, payload)
    for record in cut_and_zeroed(recording.record):
        for command in ("show", "setup", "decode", "samples"):
            one = Input(command, recording, [payload], [])
            one.record = record
            yield one
