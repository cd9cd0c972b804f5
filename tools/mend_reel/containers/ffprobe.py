"""The packets of a file that FFmpeg reads, and what else its container says, as ffprobe reports it."""
from __future__ import annotations

import bisect
import collections
import contextlib
import dataclasses
import math
import shutil
import subprocess
import tempfile
import zlib
from collections.abc import Iterable, Iterator, Mapping, Sequence, Set
from typing import NamedTuple

from ..engine.external_programs import run
from ..engine.frame_checks import MOST_BYTES
from ..model import Claims, Content, Copy, Fault, Track, or_fault
from . import own_checks
from .known import structure_of
from .structure import Flaw

# How far after the place that ffprobe reports a packet's bytes are looked for, and after how many misses they no longer are.
FARTHEST, MOST_MISSES = 64, 16
# How far away a frame is looked for by its footers where bytes were lost before it, and how often.
AROUND, MOST_SEARCHES, HEADER = 1 << 15, 8, 1 << 12
# Who watches a copy learns how far ffprobe is once in so many lines.
LINES_BETWEEN = 64
ENTRIES = ("packet=stream_index,pts_time,dts_time,duration_time,size,pos,flags{more}:"
           "stream=index,codec_type,codec_name,width,height,avg_frame_rate,nb_frames,duration,start_time:format=format_name,duration")
PROBE = ("ffprobe", "-v", "quiet", "-protocol_whitelist", "file,subfile")
CONTENTS = {"video": Content.VIDEO, "audio": Content.SOUND, "subtitle": Content.SUBTITLES}
# The containers whose header gives how long they play: of others FFmpeg guesses. An AVI file counts empty frames too.
GIVE_DURATION = {"avi", "mov", "mxf"}
GIVE_COUNTS = {"mov", "mxf"}


class Packet(NamedTuple):
    """A packet as ffprobe reports it, and where its bytes begin in the file, if they are found there as they are."""

    stream: int
    time: float
    reported: int
    size: int
    key: bool
    digest: int | None = None
    place: int | None = None
    lasts: float = 0.0


@dataclasses.dataclass
class Probed:
    """What ffprobe reports of a file: the container's name (empty where it can't be read), its tracks and their packets."""

    form: str = ""
    tracks: list[Track] = dataclasses.field(default_factory=list)
    claims: Claims = Claims()
    packets: list[Packet] = dataclasses.field(default_factory=list)

    def video(self) -> set[int]:
        return {track.number for track in self.tracks if track.is_ffv1}

    def found(self) -> list[Packet]:
        """The packets of FFV1 tracks whose bytes lie in the file as they are."""
        video = self.video()
        return [packet for packet in self.packets if packet.place is not None and packet.stream in video]


# ---- what ffprobe reports


def fields(line: str) -> tuple[str, dict[str, str]]:
    """A line of ffprobe's compact form: its kind, and its fields by their names."""
    kind, *pairs = line.rstrip("\n").split("|")
    return kind, dict(pair.split("=", 1) for pair in pairs if "=" in pair)


def number(text: str | None) -> float | None:
    """A finite number, or None for anything else."""
    try:
        value = float(text or "")
    except ValueError:
        return None
    return value if math.isfinite(value) else None


def whole(text: str | None, base: int = 10) -> int | None:
    """A whole number of at most 64 bits, or None for anything else."""
    digits = "0123456789abcdefABCDEF"[: 22 if base == 16 else base]
    return int(text, base) if text and len(text) < 20 and not text.strip(digits) else None


def read_packet(values: Mapping[str, str]) -> Packet | None:
    time = number(values.get("pts_time"))
    time = number(values.get("dts_time")) if time is None else time
    stream, place, size = (whole(values.get(name)) for name in ("stream_index", "pos", "size"))
    digest = values.get("data_hash", "").rpartition(":")[2]
    sum_ = whole(digest, 16)
    if time is None or stream is None or place is None or not size or digest and (sum_ is None or len(digest) != 8):
        return None
    return Packet(stream, time, place, size, "K" in values.get("flags", ""), sum_, lasts=number(values.get("duration_time")) or 0.0)


def read_track(values: Mapping[str, str]) -> Track:
    codec, rate = values.get("codec_name", ""), values.get("avg_frame_rate", "0/0").split("/")
    frames, seconds = number(rate[0]), number(rate[-1])
    return Track(int(values["index"]), CONTENTS.get(values.get("codec_type", ""), Content.UNKNOWN), codec, codec == "ffv1",
                 int(number(values.get("width")) or 0), int(number(values.get("height")) or 0),
                 step=seconds / frames if frames and seconds and codec == "ffv1" else None, is_flac=codec == "flac")


def read_lines(lines: Iterable[str]) -> Probed:
    """What ffprobe reported, line by line."""
    container, duration = Probed(), None
    ends: dict[int, float] = {}
    counts: dict[int, int] = {}
    for kind, values in map(fields, lines):
        packet = read_packet(values) if kind == "packet" else None
        if packet:
            container.packets.append(packet)
        elif kind == "stream" and whole(values.get("index")) is not None:
            track, count, end = read_track(values), whole(values.get("nb_frames")), number(values.get("duration"))
            container.tracks.append(track)
            counts.update({} if count is None else {track.number: count})
            ends.update({} if end is None else {track.number: end + (number(values.get("start_time")) or 0.0)})
        elif kind == "format":
            container.form, duration = values.get("format_name", "").split(",")[0], number(values.get("duration"))
    if container.form in GIVE_DURATION:
        container.claims = Claims(duration, counts if container.form in GIVE_COUNTS else {}, {}, ends)
    return container


def can_ask() -> bool:
    return shutil.which("ffprobe") is not None


def probe(copy: Copy) -> Probed:
    """What ffprobe reports of a copy. It is asked once."""
    if copy.probed is None:
        copy.probed = ask(copy) if copy.size else Probed()
    return copy.probed


def ask(copy: Copy) -> Probed:
    """What ffprobe reports of a copy, with digests of packets, which cost it all bytes, only where footers do not show where frames lie."""
    if not can_ask():
        raise Fault(f"there is no ffprobe on the PATH, and {copy.path} is no Matroska file that can be read without it")
    container = ask_for(copy, [], "")
    if container.form == "mov":
        container.claims = dataclasses.replace(container.claims, counts=structure_of(copy).counts)
    video = container.video()
    container.packets = locate(copy, container.packets, video)
    if not structure_of(copy).table and any(packet.place is None for packet in container.packets if packet.stream in video):
        hashed = locate(copy, ask_for(copy, ["-show_data_hash", "crc32"], ",data_hash").packets, video)
        container.packets = [one if one.place is not None else other for one, other in zip(container.packets, hashed)]
    return container


@contextlib.contextmanager
def address(copy: Copy) -> Iterator[str]:
    """How FFmpeg gets a copy: up to where there are more parts than are walked, as it would walk them all, or where another file follows one
    whose parts hang together; and where no part leads to its tables, of a file without media in which these lie where they are expected."""
    made = structure_of(copy)
    if made.table is None:
        end = made.end if made.stop is None and [found.flaw for found in made.flaws] == [Flaw.AFTER_END] else made.stop
        yield "file:" + copy.path if end is None else f"subfile,,start,0,end,{end},,:{copy.path}"
        return
    expected, place, size = made.table
    with or_fault("cannot write a working file"), tempfile.NamedTemporaryFile() as view:
        view.write(copy.read(0, min(HEADER, expected)))
        view.seek(expected)
        view.write(copy.read(place, size))
        view.flush()
        yield "file:" + view.name


def ask_for(copy: Copy, more: Sequence[str], entries: str) -> Probed:
    with address(copy) as name, or_fault("cannot run ffprobe"), subprocess.Popen(
            [*PROBE, *more, "-show_entries", ENTRIES.format(more=entries), "-of", "compact", name], stdin=subprocess.DEVNULL,
            stdout=subprocess.PIPE, stderr=subprocess.DEVNULL, encoding="utf-8", errors="replace") as process:
        return read_lines(watched(copy, process.stdout or ()))


def watched(copy: Copy, lines: Iterable[str]) -> Iterator[str]:
    """The lines that ffprobe prints. Whoever watches the copy learns how far it is."""
    for number, line in enumerate(lines):
        if number % LINES_BETWEEN == 0:
            copy.watch(whole(fields(line)[1].get("pos")) or 0)
        yield line


def with_records(copy: Copy, tracks: Sequence[Track]) -> list[Track]:
    """The tracks with their Configuration Records, which ffprobe prints in hexadecimal digits beside their places and characters."""
    made = []
    for track in tracks:
        if track.is_ffv1:
            with address(copy) as name:
                done = run(*PROBE, "-select_streams", str(track.number), "-show_entries", "stream=extradata", "-show_data", "-of",
                           "default=nk=1:nw=1", name)
            lines = done.stdout.decode(errors="replace").splitlines()
            with contextlib.suppress(ValueError):
                track = dataclasses.replace(track, record=bytes.fromhex("".join(line[10:50] for line in lines if line[8:10] == ": ")))
        made.append(track)
    return made


# ---- where the bytes of packets lie


class Locator:
    """Finds where the bytes of a stream's packets begin: some bytes after the place that is reported, or after the packet before it. How
    far after is mostly the same, so what served last is tried first. `reported` are the places of all packets of a file that ends elsewhere
    than it says: bytes are lost or added in it."""

    def __init__(self, copy: Copy, reported: Sequence[int] = ()) -> None:
        self.copy, self.reported = copy, sorted(reported)
        self.steps = [0, 4, 8, *(step for step in range(FARTHEST) if step not in (0, 4, 8))]
        self.misses, self.end, self.searches = 0, -1, 0

    def place(self, packet: Packet) -> int | None:
        if packet.size > MOST_BYTES:
            return None
        place = self.search(packet)
        self.misses = 0 if place is not None else self.misses + 1
        self.end = self.end if place is None else place + packet.size
        return place

    def search(self, packet: Packet) -> int | None:
        for step in self.steps if self.misses < MOST_MISSES else self.steps[:3]:
            if self.lies(packet, packet.reported + step):
                self.steps.remove(step)
                self.steps.insert(0, step)
                return packet.reported + step
        if packet.reported < self.end <= packet.reported + FARTHEST + packet.size and self.lies(packet, self.end):
            return self.end
        return self.search_around(packet)

    def search_around(self, packet: Packet) -> int | None:
        """Looks for a frame further away, and not where another one is reported: bytes were lost or gained before it, and the next ones."""
        if not self.reported or packet.digest is not None or self.searches >= MOST_SEARCHES:
            return None
        self.searches += 1
        start, end = max(packet.reported - AROUND, self.end, 0), packet.reported + packet.size + AROUND
        found = own_checks.nearest(self.copy.read(start, max(end - start, 0)), packet.size, packet.reported - start)
        at = bisect.bisect(self.reported, start + (found or 0))
        if found is None or at and start + found - self.reported[at - 1] <= FARTHEST:
            return None
        self.steps.insert(0, start + found - packet.reported)
        return start + found

    def lies(self, packet: Packet, place: int) -> bool:
        """Whether a packet's bytes lie at a place: they have its digest, or where none was asked for, they are a frame by their footers."""
        if place < 0 or place + packet.size > self.copy.size:
            return False
        if packet.digest is None:
            return own_checks.seems_frame(self.copy, place, place + packet.size)
        piece = self.copy.read(place, packet.size)
        return len(piece) == packet.size and zlib.crc32(piece) == packet.digest


def locate(copy: Copy, packets: Sequence[Packet], video: Set[int]) -> list[Packet]:
    """The packets with their places. Without a digest those of other tracks lie where they are reported, or some bytes after."""
    made = structure_of(copy)
    is_shifted = made.table is not None or made.end is not None and made.end != copy.size
    reported = [packet.reported for packet in packets] if is_shifted else []
    locators: dict[int, Locator] = collections.defaultdict(lambda: Locator(copy, reported))
    return [packet._replace(place=packet.reported) if packet.digest is None and packet.stream not in video
            else packet._replace(place=locators[packet.stream].place(packet)) for packet in packets]
