"""What a Matroska file says of itself: its tracks, its scale of time, how long it plays, its index and its counts of frames (RFC 9559)."""
from __future__ import annotations

import dataclasses
import functools
from collections.abc import Mapping, Sequence

from ..model import Claims, Content, Track
from . import ebml

TRACKS, INFORMATION, CUES, TAGS = 0x1654AE6B, 0x1549A966, 0x1C53BB6B, 0x1254C367
READ = frozenset({TRACKS, INFORMATION, CUES, TAGS})
TRACK, TRACK_NUMBER, TRACK_TYPE, TRACK_UID, CODEC, PRIVATE, STEP, VIDEO, ENCODINGS = (
    0xAE, 0xD7, 0x83, 0x73C5, 0x86, 0x63A2, 0x23E383, 0xE0, 0x6D80)
WIDTH, HEIGHT, SOUND, RATE, CHANNELS, BITS = 0xB0, 0xBA, 0xE1, 0xB5, 0x9F, 0x6264
SCALE, DURATION, WRITER = 0x2AD7B1, 0x4489, 0x5741
POINT, POINT_TIME, POINT_TRACK_PLACES, POINT_TRACK = 0xBB, 0xB3, 0xB7, 0xF7
TAG, TARGETS, TAG_UID, SIMPLE_TAG, TAG_NAME, TAG_TEXT = 0x7373, 0x63C0, 0x63C5, 0x67C8, 0x45A3, 0x4487
NANOSECONDS = 1e9
WINDOWS_CODEC, WINDOWS_HEADER = "V_MS/VFW/FOURCC", 40
# The sample description of a MOV file, as mkvmerge takes it over: its record is in an atom of this name.
QUICKTIME_CODEC, RECORD_ATOM = "V_QUICKTIME", b"glbl"
MOST_TRACKS = 127
BY_TYPE = {1: Content.VIDEO, 2: Content.SOUND, 0x11: Content.SUBTITLES}


@dataclasses.dataclass(frozen=True)
class Metadata:
    """What a file says of itself. `scale` is what its time stamps count, in nanoseconds."""

    tracks: Sequence[Track] = ()
    scale: int = 1_000_000
    claims: Claims = Claims()

    def by_number(self) -> dict[int, Track]:
        return {track.number: track for track in self.tracks}


def read(contents: Mapping[int, bytes]) -> Metadata:
    """Returns what the contents of some top-level elements say, by their IDs."""
    entries = [ebml.Fields(content) for identity, content in ebml.children(contents.get(TRACKS, b"")) if identity == TRACK]
    tracks = [track for track in map(read_track, entries[:MOST_TRACKS]) if track]
    information = ebml.Fields(contents.get(INFORMATION, b""))
    numbers = {entry.number(TRACK_UID): entry.number(TRACK_NUMBER) for entry in entries}
    scale = information.number(SCALE) or Metadata.scale
    duration = information.real(DURATION) * scale / NANOSECONDS
    counts, index = read_counts(contents.get(TAGS, b""), numbers, information.text(WRITER)), read_index(contents.get(CUES, b""), scale)
    return Metadata(tracks, scale, Claims(duration if 0 < duration < float("inf") else None, counts, index))


def read_track(entry: ebml.Fields) -> Track | None:
    """Returns the track of a TrackEntry. A track whose frames are stored in another form (compressed, encrypted) is no FFV1 track here."""
    number, codec, private, is_encoded = entry.number(TRACK_NUMBER), entry.text(CODEC), entry.get(PRIVATE, b""), ENCODINGS in entry
    record, video, sound = record_of(codec, private), entry.inside(VIDEO), entry.inside(SOUND)
    is_ffv1 = record is not None
    rate = sound.real(RATE) * (sound.number(CHANNELS) or 1) * sound.number(BITS) / 8
    return Track(number, BY_TYPE.get(entry.number(TRACK_TYPE), Content.UNKNOWN), codec, is_ffv1 and not is_encoded, video.number(WIDTH),
                 video.number(HEIGHT), private if record is None else record, entry.number(STEP) / NANOSECONDS or None,
                 rate if codec.startswith("A_PCM") and 0 < rate < float("inf") else 0.0, is_ffv1 and is_encoded,
                 codec == "A_FLAC" and not is_encoded) if number else None


def record_of(codec: str, private: bytes) -> bytes | None:
    """The record of a track of FFV1, by its codec and what is private to that; None of another codec."""
    if codec == WINDOWS_CODEC and private[16:20].upper() == b"FFV1":
        return private[WINDOWS_HEADER:]
    if codec == QUICKTIME_CODEC and private[4:8].upper() == b"FFV1":
        at = private.find(RECORD_ATOM)
        return private[at + 4 : at - 4 + int.from_bytes(private[at - 4 : at], "big")] if at >= 8 else b""
    return private if codec == "V_FFV1" else None


@functools.lru_cache(maxsize=8)
def read_index(content: bytes, scale: int) -> Mapping[int, Sequence[float]]:
    """Returns the times in an index, by track. Copies mostly have the same one, so it is read once."""
    index: dict[int, list[float]] = {}
    for point in (value for identity, value in ebml.children(content) if identity == POINT):
        time: float | None = None
        for field, value in ebml.children(point):
            if field == POINT_TIME:
                time = ebml.number(value) * scale / NANOSECONDS
            elif field == POINT_TRACK_PLACES and time is not None:
                index.setdefault(ebml.Fields(value).number(POINT_TRACK), []).append(time)
    return index


def read_counts(content: bytes, numbers: Mapping[int, int], writer: str) -> dict[int, int]:
    """Returns how many frames each track has by the statistics in the tags, which name tracks by their UIDs. Those of another program than
    the one that wrote the file last are of the file that it read."""
    counts: dict[int, int] = {}
    for tag in (value for identity, value in ebml.children(content) if identity == TAG):
        fields = [(field, ebml.Fields(value)) for field, value in ebml.children(tag)]
        named = {each.text(TAG_NAME): each.text(TAG_TEXT) for field, each in fields if field == SIMPLE_TAG}
        count = named.get("NUMBER_OF_FRAMES", "")
        if count.isascii() and count.isdigit() and len(count) < 19 and named.get("_STATISTICS_WRITING_APP") == writer:
            uids = [each.number(TAG_UID) for field, each in fields if field == TARGETS]
            counts.update({numbers[uid]: int(count) for uid in uids if uid in numbers})
    return counts
