"""A recording of tests/real as inputs of all commands, and what each command makes of them: by what is recorded there, and by a second
reading (tests/readings.py)."""
import dataclasses
import pathlib

import any_holdings
import check_reading
import held_frames
import makings
import readings

TESTS = pathlib.Path(__file__).resolve().parent


@dataclasses.dataclass
class Command:
    """A command with its words, of which some are names of files; what it prints and makes of them; contents of its inputs that are
    refused, each with what is reported then; how many bytes OUT and standard output have after each part, where it writes parts one after
    the other; and of inputs that are read after some parts, how many these are."""
    words: list
    printed: bytes = b""
    made: bytes = None
    status: int = 0
    refused: dict = dataclasses.field(default_factory=dict)
    steps: list = None
    later: dict = dataclasses.field(default_factory=dict)

    @property
    def name(self):
        return self.words[0]

    def before(self, name):
        """What was printed and made before an input is read: no file where nothing was."""
        if name not in self.later:
            return b"", None
        made, printed = self.steps[self.later[name]]
        return self.printed[:printed], self.made[:made]


def picture_of_tiles(samples, size, grid, tiles):
    """The samples of a gray frame in some tiles, and 128 in the others."""
    def edges(side, count):
        return [side * number // count for number in range(count + 1)]

    picture, columns, lines = bytearray(b"\x80" * len(samples)), edges(size[0], grid[0]), edges(size[1], grid[1])
    for tile in tiles:
        column, line = tile % grid[0], tile // grid[0]
        for row in range(lines[line], lines[line + 1]):
            first, last = (row * size[0] + edge for edge in columns[column : column + 2])
            picture[first:last] = samples[first:last]
    return bytes(picture)


def chain_text(frame):
    """What `chain` prints of a frame that is whole."""
    found, broken = readings.links(frame)
    assert broken is None and all(readings.passes(piece) for _, piece in found)
    lines = (f"{start}..{start + len(piece)} size {len(piece) - 8} status {piece[-5]} pass\n" for start, piece in found)
    return "".join([*lines, "end whole\n"]).encode()


def recorded(path):
    return (TESTS / path).read_bytes()


class Recording:
    """A recording of tests/real: inputs of all commands, and what these make of them."""

    def __init__(self, name):
        self.size = tuple(int(side) for side in name.split("-")[1].split("x"))
        parts = "record", "frame-0", "planes-0", "copy-a", "copy-b"
        record, self.frame, samples, *halves = (recorded(f"real/{name}/{part}") for part in parts)
        self.setup = readings.setup_of(record, self.size)
        self.tiles = readings.tiles_of(self.setup)
        held = [readings.taken(self.setup, half) for half in halves]
        whole = readings.holding_text(record, self.size, readings.united(*held))
        assert whole == recorded(f"holdings/{name}/both-with-origins")
        self.inputs = {"record": record, "frame": self.frame, "copy-a": halves[0], "copy-b": halves[1], "held": whole}
        self.inputs |= {f"held-{letter}": readings.holding_text(record, self.size, each) for letter, each in zip("ab", held)}
        self.commands = [Command(["chain", "frame"], chain_text(self.frame))]
        self.add_commands_of_records(samples, held, whole)
        self.add_unions(held, whole)
        self.add_commands_of_holdings(samples, held)
        self.add_splice(halves)
        self.add_scan()
        self.add_check()
        self.add_mend()
        self.add_samples(name, samples)

    def add_commands_of_records(self, samples, held, whole):
        record, frame = self.inputs["record"], self.frame
        sizes, planes = [str(side) for side in self.size], 3 if self.setup.chroma else 1
        refused = {"record": (makings.inverted(record, 3), "setup fault 2")}
        decoded = "decoded {} x {} planes {}\n".format(*self.size, planes).encode()
        self.commands += [
            Command(["show", "record", *sizes], readings.show_text(self.setup), refused=refused),
            Command(["setup", "record", *sizes], readings.setup_text(self.setup), refused=refused),
            Command(["take", "record", *sizes, "OUT", "copy-a", "copy-b"], self.lines("copy", held), whole, refused=refused),
            Command(["decode", "record", *sizes, "frame", "OUT"], decoded, samples,
                    refused={**refused, "frame": (makings.inverted(frame, 1), "frame fault 2 at 0")}),
        ]

    def add_unions(self, held, whole):
        """Unions of two files of holdings; one of them is refused that is none, or whose frame is a line higher."""
        none = makings.inverted(whole, 3), "holding file fault 1"
        higher = readings.holding_text(self.inputs["record"], (self.size[0], self.size[1] + 1), held[1])
        self.commands += [
            Command(["join", "OUT", "held-a", "held-b"], self.lines("file", held), whole,
                    refused={"held-a": none, "held-b": (higher, "hold fault 1")}),
            Command(["join", "OUT", "held-b", "held-a", "held-b"], self.lines("file", [held[1], *held]), whole),
            Command(["merge", "OUT", "held-a", "held-b"], b"", whole,
                    refused={"held-a": none, "held-b": (higher, "holding file fault 12")}),
        ]

    def add_commands_of_holdings(self, samples, held):
        report = readings.report_text(self.size, readings.united(*held), self.tiles)
        none, half = makings.inverted(self.inputs["held"], 3), self.inputs["held-a"]
        restored = f"restored {len(self.frame)} bytes\n".encode()
        self.commands += [
            Command(["report", "held"], report, refused={"held": (none, "holding file fault 1")}),
            Command(["restore", "held", "OUT"], restored, self.frame, refused={"held": (half, "missing tile 0")}),
            Command(["picture", "held", "OUT"], b"", samples, refused={"held": (self.inputs["held"][:-1], "holding file fault 3")}),
        ]
        if not self.setup.chroma:
            self.add_picture_of_half(samples, held[0])

    def lines(self, what, held):
        """The lines that `take` of copies or `join` of files prints, of what is held of each."""
        seen, lines = set(), ""
        for number, each in enumerate(held, 1):
            found = f"links {self.tiles} slices {len(each)} " if what == "copy" else ""
            lines += f"{what} {number} {found}new {len(set(each) - seen)}\n"
            seen |= set(each)
        return lines.encode()

    def add_picture_of_half(self, samples, held):
        tiles = {tile for tile, _ in held}
        lines = "".join(f"tile {tile} missing\n" for tile in range(self.tiles) if tile not in tiles)
        made = picture_of_tiles(samples, self.size, self.setup.grid, tiles)
        self.commands.append(Command(["picture", "held-a", "OUT"], lines.encode(), made, 3))

    def add_splice(self, halves):
        payload, lines, status = readings.spliced(halves)
        assert payload == self.frame
        refused = {"copy-b": (halves[1][:-1], "cannot splice copy-b")}
        self.commands.append(Command(["splice", "OUT", "copy-a", "copy-b"], lines, payload, status, refused))

    def add_scan(self):
        """Two ranges of a file in which other bytes stand before each."""
        size = len(self.frame)
        self.inputs["list-of-ranges"] = f"5 {size}\n{size + 9} {size}\n".encode()
        self.inputs["recording"] = b"other" + self.frame + b"more" + self.frame
        printed, status, _ = readings.scanned(self.inputs["list-of-ranges"], self.inputs["recording"])
        refused = {"list-of-ranges": (b"5\n", "ranges fault 1")}
        self.commands.append(Command(["scan", "list-of-ranges", "recording"], printed, None, status, refused))

    def add_check(self):
        """A Matroska file of the frame and its record."""
        entry = makings.element(0xD7, b"\1") + makings.element(0x83, b"\1") + makings.element(0x86, b"V_FFV1")
        entry += makings.element(0xE0, b"".join(makings.element(name, side.to_bytes(2, "big")) for name, side in zip((0xB0, 0xBA), self.size)))
        tracks = makings.element(0xAE, entry + makings.element(0x63A2, self.inputs["record"]))
        cluster = makings.element(0xE7, b"\0") + makings.element(0xA3, b"\x81\0\0\x80" + self.frame)
        described, played = makings.element(0x1654AE6B, tracks), makings.element(0x1F43B675, readings.element_of(cluster))
        head = makings.element(0x1A45DFA3, makings.element(0x4282, b"matroska"))
        self.inputs["matroska"] = head + makings.element(0x18538067, described + played)
        self.end_of_tracks = len(self.inputs["matroska"]) - len(played)
        printed, status = check_reading.checked(self.inputs["matroska"])
        self.commands.append(Command(["check", "matroska"], printed, None, status))

    def add_mend(self):
        """Two copies of a file of a few stretches, each damaged in another place of each stretch that has a checksum."""
        element, size = readings.element_of(self.frame + bytes(100)), len(self.frame)
        for name, place in ("file-a", 20), ("file-b", size // 2):
            damaged = makings.inverted(self.frame, place), makings.inverted(element, 6 + place)
            self.inputs[name] = b"head" + b"".join(damaged) + b"tail"
        lines = ["plain 4 1 0 0", f"frame {size} 1 4 4", f"crc32 {len(element)} 1 {4 + size} {4 + size}", f"part 6 {size}"]
        lines.append(f"plain 4 2 {4 + size + len(element)} {4 + size + len(element)}")
        self.inputs["list"] = "".join(f"{line}\n" for line in lines).encode()
        made, printed, status, _ = self.mended()
        assert made == b"head" + self.frame + element + b"tail"
        refused = {"list": (b"plain\n", "list fault 1")}
        self.commands.append(Command(["mend", "list", "OUT", "file-a", "file-b"], printed, made, status, refused, self.steps_of_mend()))

    def add_samples(self, name, samples):
        """Two frames, of which the second is the first again where the folder has no other one."""
        folder = TESTS / "real" / name
        has_other = (folder / "frame-1").exists()
        self.inputs["next"] = (folder / "frame-1").read_bytes() if has_other else self.frame
        made, frames = samples + ((folder / "planes-1").read_bytes() if has_other else samples), [("frame", self.frame), ("next", self.inputs["next"])]
        lines = [f"frame {number} key 1 slices {self.tiles}\n" for number in (1, 2)]
        steps = [(0, 0), (len(samples), len(lines[0])), (len(made), len("".join(lines)))]
        damaged = (makings.inverted(payload, 1) for _, payload in frames)
        refused = {name: (content, f"samples fault 2 in frame {number} at 0") for number, ((name, _), content) in enumerate(zip(frames, damaged), 1)}
        refused["record"] = makings.inverted(self.inputs["record"], 3), "setup fault 2"
        words = ["samples", "record", *map(str, self.size), "OUT", "frame", "next"]
        self.commands.append(Command(words, "".join(lines).encode(), made, 0, refused, steps, {"next": 1}))

    def mended(self, **others):
        """What `mend` makes, where some inputs are others."""
        inputs = {**self.inputs, **{name.replace("_", "-"): content for name, content in others.items()}}
        return readings.mended(inputs["list"], [(name, inputs[name]) for name in ("file-a", "file-b")])

    def steps_of_mend(self):
        """How many bytes OUT and standard output have after each stretch."""
        steps, count = [(0, 0)], len(readings.stretches_of(self.inputs["list"], 2))
        for number in range(1, count + 1):
            made, printed, _, _ = self.mended(list=b"".join(self.list_of(number)))
            steps.append((len(made), len(printed)))
        return steps

    def list_of(self, count):
        """The lines of the first stretches of the list."""
        for line in self.inputs["list"].splitlines(keepends=True):
            count -= not line.startswith(b"part")
            if count < 0:
                return
            yield line


class AnyRecording:
    """A recording of tests/real that is out of the profile: inputs of the commands over holdings with the word --any, of a frame that is named, and
    what these make."""

    def __init__(self, name, frame="frame-0"):
        self.size = tuple(int(side) for side in name.split("-")[1].split("x"))
        self.record, self.frame = (recorded(f"real/{name}/{part}") for part in ("record", frame))
        halves = held_frames.halves(self.frame)
        whole, lines = any_holdings.took(self.record, self.size, halves)
        held = [any_holdings.took(self.record, self.size, [half])[0] for half in halves]
        self.inputs = {"record": self.record, "copy-a": halves[0], "copy-b": halves[1], "held": whole, "held-a": held[0], "held-b": held[1]}
        words = ["take", "--any", "record", *map(str, self.size), "OUT", "copy-a", "copy-b"]
        self.commands = [Command(words, lines, whole, refused={"record": (makings.inverted(self.record, 3), "setup fault 2")})]
        self.add_unions(held, whole)
        self.add_commands_of_holdings(whole)

    def add_unions(self, held, whole):
        """Unions of two files of holdings; one of them is refused that is none, or whose frame is a line higher."""
        none = makings.inverted(whole, 3), "holding file fault 1"
        higher = whole[:12] + (self.size[1] + 1).to_bytes(4, "big") + whole[16:]
        self.commands += [
            Command(["join", "--any", "OUT", "held-a", "held-b"], any_holdings.joined(held)[1], whole,
                    refused={"held-a": none, "held-b": (higher, "hold fault 1")}),
            Command(["merge", "--any", "OUT", "held-a", "held-b"], b"", whole,
                    refused={"held-a": none, "held-b": (higher, "holding file fault 12")}),
        ]

    def add_commands_of_holdings(self, whole):
        samples, lines, status = any_holdings.pictured(whole)
        payload, none = any_holdings.restored(whole)[0], (makings.inverted(whole, 3), "holding file fault 1")
        assert payload == self.frame
        self.commands += [
            Command(["report", "--any", "held"], any_holdings.reported(whole), refused={"held": none}),
            Command(["restore", "--any", "held", "OUT"], f"restored {len(payload)} bytes\n".encode(), payload, refused={"held": none}),
            Command(["picture", "--any", "held", "OUT"], lines, samples, status, {"held": (whole[:-1], "holding file fault 3")}),
        ]
