"""The recordings of tests/real and tests/made that damage is made of, with their frames and holding files."""
import pathlib

import any_holdings
import casebook
import lists
import readings

TESTS = pathlib.Path(__file__).resolve().parent

OFTEN_BELOW = 20000


class Recording:
    """A folder of recorded frames: its record, size and setup, its frames and copies with their samples, and holding files."""

    def __init__(self, folder):
        self.name = folder.name
        self.record = (folder / "record").read_bytes()
        self.size = tuple(int(side) for side in folder.name.split("-")[1].split("x"))
        self.frames = {path.name: path.read_bytes() for path in sorted(folder.iterdir()) if path.name[:5] in ("frame", "copy-")}
        self.planes = {path.name: path.read_bytes() for path in folder.iterdir() if path.name.startswith("planes")}
        self.setup = readings.setup_of(self.record, self.size)
        self.width = sum(map(len, self.frames.values()))
        kept = TESTS / "holdings" / folder.name
        self.holdings = [path.read_bytes() for path in sorted(kept.iterdir())] if kept.is_dir() else []
        if not self.holdings:
            found = [readings.taken(self.setup, frame) for frame in self.frames.values()]
            self.holdings = [readings.holding_text(self.record, self.size, held, version) for held in found for version in (1, 2)]


def recordings():
    """The recordings that are in the profile: the others have no planes."""
    folders = [folder for kind in ("real", "made") for folder in sorted((TESTS / kind).iterdir())]
    return [Recording(folder) for folder in folders if (folder / "record").exists() and any(folder.glob("planes*"))]


def other_frames():
    """The frames of recordings that are not in the profile and have parities, and a frame of two short slices."""
    folders = [folder for folder in sorted((TESTS / "real").iterdir()) if not any(folder.glob("planes*"))]
    frames = [path for folder in folders for path in sorted(folder.glob("frame-*"))]
    payloads = (path.read_bytes() for path in frames)
    return [*(payload for payload in payloads if readings.links(payload)[1] is None), casebook.shared_contents()["two-slices"]]


class OtherRecording:
    """A folder of a recording that is not in the profile: its record, its size, its frames in their order, and where its slices have parities
    the holding file of each frame."""

    def __init__(self, folder):
        self.name = folder.name
        self.record = (folder / "record").read_bytes()
        self.size = tuple(int(side) for side in folder.name.split("-")[1].split("x"))
        self.frames = {path.name: path.read_bytes() for path in sorted(folder.glob("frame-*"))}
        self.holdings = []
        if readings.recording_of(self.record, self.size).ec == 1:
            self.holdings = [any_holdings.took(self.record, self.size, [frame])[0] for frame in self.frames.values()]


def other_recordings():
    """The recordings that are not in the profile."""
    folders = [folder for folder in sorted((TESTS / "real").iterdir()) if (folder / "record").exists() and not any(folder.glob("planes*"))]
    return [OtherRecording(folder) for folder in folders]


def reels():
    """The Matroska files, by the names of their folders: the stretches of each, by their kinds, bytes and parts."""
    found = {}
    for path in sorted((TESTS / "real").glob("*/reel.mkv")):
        content = path.read_bytes()
        found[path.parent.name] = [(kind, content[place : place + size], parts) for kind, place, size, parts in lists.stretches(content, with_sound=True)]
    return found
