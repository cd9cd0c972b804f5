"""Digests of files, and whether a file is the original by a digest that was kept of it, by its line in a manifest, or by those of its frames
that FFmpeg's framemd5 and framehash write: of packets, or of decoded frames."""
from __future__ import annotations

import collections
import dataclasses
import functools
import hashlib
import itertools
import os
import re
import subprocess
from collections.abc import Callable, Iterable, Iterator, Sequence
from typing import NamedTuple, Union

from ..model import Copy, Fault, or_fault

PIECE = 1 << 20
ALGORITHMS = {32: "md5", 40: "sha1", 64: "sha256", 128: "sha512"}
# A line as md5sum writes it, or with the name of the algorithm. After a backslash two characters of the name stand for one.
LINE = re.compile(r"(\\?)(?:(?P<plain>[0-9a-fA-F]+) [ *](?P<name>.+)|(?P<tag>[A-Za-z0-9]+) \((?P<named>.*)\) = (?P<tagged>[0-9a-fA-F]+))",
                  re.DOTALL)
ESCAPES = {r"\\": "\\", r"\n": "\n", r"\r": "\r"}
# A manifest of a bag has its algorithm in its name, and blanks of any number in a line (RFC 8493, section 2.1.3).
MANIFEST = re.compile(r"(?:tag)?manifest-(\w+)\.txt")
BAG_LINE = re.compile(r"([0-9a-fA-F]+)[ \t]+\*?(.+)")
BAG_ESCAPES = {"%0a": "\n", "%0d": "\r", "%25": "%"}
FRAMES_SIGN = "#format: frame checksums"
MOST_LINE, MOST_LINES, MOST_STREAMS, MOST_RUNS = 1 << 16, 1 << 20, 64, 10
HEADER = re.compile(r"#(\w+)(?: ([0-9]{1,9}))?: ?([A-Za-z0-9_/.-]{1,32})")
DECODED = re.compile(r"rawvideo|wrapped_avframe|pcm_\w+")
KINDS = {"video": "v", "audio": "a", "subtitle": "s"}
FIELDS = {"media_type": "kind", "codec_id": "codec", "tb": "base"}
# Is called with how much of the work is done, and of how much.
Report = Callable[[int, int], None]


def unreported(done: int, whole: int) -> None:
    """Reports to nobody."""


class Compared(NamedTuple):
    """What a kept digest says of a file: whether it is the original, in a sentence; and whether the digest is of the whole file."""

    is_original: bool
    text: str
    is_of_all: bool


def compare(digest_file: str, path: str, named: str, copies: Sequence[str], report: Report = unreported, own: Make | None = None) -> Compared:
    """What a digest file says of a file that is named so. A line of that name is meant, or of that of a copy, or the only one; of a file that
    has this name of its own its line. `own` makes the digests of frames where it can, and else FFmpeg does."""
    if is_of_frames(digest_file):
        return compare_frames(digest_file, path, named, report, own)
    found = entries(digest_file)
    is_line = named == path and len({entry[1:] for entry in found}) > 1
    entry = line_of(found, path, digest_file) if is_line else choose(found, named, copies, digest_file)
    made, algorithm = digest(path, entry.algorithm, report), entry.algorithm.upper()
    if made == entry.digest:
        return Compared(True, f"{named} is the original: its {algorithm} is that of {digest_file}", True)
    return Compared(False, f"{named} is not the original: its {algorithm} is {made}, and {digest_file} has {entry.digest}", True)


# ---- of whole files


class Entry(NamedTuple):
    """A line of a digest file: the name, and the digest in small hexadecimal digits."""

    name: str
    algorithm: str
    digest: str


def sha256(copy: Copy) -> str:
    """The SHA-256 of a copy."""
    made = hashlib.sha256()
    for place in range(0, copy.size, PIECE):
        made.update(copy.read(place, PIECE))
    return made.hexdigest()


def digest(path: str, algorithm: str, report: Report = unreported) -> str:
    made = hashlib.new(algorithm)
    with or_fault(f"cannot read {path}"), open(path, "rb", buffering=0) as file:
        size = os.fstat(file.fileno()).st_size
        while piece := file.read(PIECE):
            made.update(piece)
            report(file.tell(), size)
    return made.hexdigest()


def lines(path: str) -> Iterator[str]:
    """The lines of a digest file, names as the system has them."""
    with or_fault(f"cannot read {path}"), open(path, "rb") as file:
        for line in itertools.islice(iter(lambda: file.readline(MOST_LINE), b""), MOST_LINES):
            if len(line) == MOST_LINE:
                raise Fault(f"{path} is no file of digests: it is too long")
            yield os.fsdecode(line.rstrip(b"\r\n"))
        if file.read(1):
            raise Fault(f"{path} is no file of digests: it is too long")


def is_of_frames(digest_file: str) -> bool:
    """Whether a digest file has the digests of one file's frames."""
    return next(iter(lines(digest_file)), "").startswith(FRAMES_SIGN)


def entries(digest_file: str) -> list[Entry]:
    """The entries of a digest file or a manifest."""
    bag = MANIFEST.fullmatch(os.path.basename(digest_file))
    return [entry for entry in map(read_line if bag is None else functools.partial(read_bag_line, bag[1].lower()), lines(digest_file)) if entry]


def read_bag_line(algorithm: str, line: str) -> Entry | None:
    """The entry of a line of a bag's manifest, if its digest is one of that algorithm."""
    found = BAG_LINE.fullmatch(line)
    if not found or ALGORITHMS.get(len(found[1])) != algorithm:
        return None
    name = re.sub("%(?:0[AaDd]|25)", lambda match: BAG_ESCAPES[match.group().lower()], found[2])
    return Entry(name, algorithm, found[1].lower())


def read_line(line: str) -> Entry | None:
    found = LINE.fullmatch(line)
    made = found and (found["plain"] or found["tagged"])
    algorithm = ALGORITHMS.get(len(made)) if made else None
    if not found or not made or not algorithm or found["tag"] and found["tag"].lower() != algorithm:
        return None
    name = found["name"] or found["named"]
    name = re.sub(r"\\[\\nr]", lambda match: ESCAPES[match.group()], name) if found[1] else name
    return Entry(name, algorithm, made.lower())


def choose(found: Sequence[Entry], named: str, copies: Sequence[str], digest_file: str) -> Entry:
    """The entry that is meant: the one of the file's name, else that of a copy's, else the only one."""
    for names in ([named], copies):
        bases = {os.path.basename(name) for name in names}
        meant = {entry[1:]: entry for entry in found if os.path.basename(entry.name) in bases}
        if len(meant) > 1 and names is copies:
            raise Fault(f"{digest_file} has several digests of the copies' names: give that of the original the name of OUT")
        if meant:
            return max(meant.values(), key=lambda entry: len(entry.digest))
    if len({entry[1:] for entry in found}) == 1:
        return found[0]
    raise Fault(f"{digest_file} has no digest" + (" of the name of OUT or of a copy" if found else " that md5sum, sha1sum, sha256sum or "
                                                  "FFmpeg's framemd5 wrote"))


def line_of(found: Sequence[Entry], path: str, digest_file: str) -> Entry:
    """The entry of a file: that whose path leads to it from the manifest's folder, or is the file's as it is given; else that whose path ends as
    the file's does, by as many names as possible."""
    own = {os.path.abspath(path), os.path.realpath(path)}
    folders = {os.path.dirname(way(digest_file)) for way in (os.path.abspath, os.path.realpath)}
    meant = ([entry for entry in found if any(os.path.normpath(os.path.join(folder, entry.name)) in own for folder in folders)]
             or [entry for entry in found if os.path.normpath(entry.name) == os.path.normpath(path)])
    if not meant:
        ends = [common_end(entry.name, os.path.abspath(path)) for entry in found]
        meant = [entry for entry, end in zip(found, ends) if end and end == max(ends)]
        names = sorted({os.path.normpath(entry.name) for entry in meant})
        if len(names) > 1:
            raise Fault(f"{digest_file} has several lines that may be of {path}: those of {names[0]} and of {names[1]}")
    if not meant:
        raise Fault(f"{digest_file} does not name {path}")
    best = max(meant, key=lambda entry: len(entry.digest))
    if any(entry.algorithm == best.algorithm and entry.digest != best.digest for entry in meant):
        raise Fault(f"{digest_file} has two digests of {best.name}")
    return best


def common_end(path: str, other: str) -> int:
    """How many names at the end of two paths are the same."""
    pairs = zip(reversed(os.path.normpath(path).split("/")), reversed(other.split("/")))
    return sum(1 for _ in itertools.takewhile(lambda pair: pair[0] == pair[1] != "", pairs))


# ---- of frames


@dataclasses.dataclass
class Stream:
    """A stream of a digest file: what it is, the codec of what was digested, and what its times count."""

    kind: str = ""
    codec: str = ""
    base: str = ""

    def is_decoded(self) -> bool:
        return DECODED.fullmatch(self.codec) is not None


@dataclasses.dataclass
class FrameDigests:
    """What a digest file says of a recording: the hash, the streams, and of each the times, sizes and digests of its frames."""

    hash: str = "MD5"
    version: int = 1
    streams: dict[int, Stream] = dataclasses.field(default_factory=lambda: collections.defaultdict(Stream))
    frames: dict[int, list[tuple[str, ...]]] = dataclasses.field(default_factory=lambda: collections.defaultdict(list))

    def count(self) -> int:
        return sum(map(len, self.frames.values()))


# Makes the digests of a file's frames that a digest file has, or None where it can't.
Make = Callable[[FrameDigests, Report], Union[FrameDigests, None]]


def read_frames(found: Iterable[str]) -> FrameDigests:
    """Reads the lines of a digest file, and of what FFmpeg prints."""
    made = FrameDigests()
    for line in found:
        header, columns = HEADER.fullmatch(line), [column.strip() for column in line.split(",")]
        if header and header[1] == "hash":
            made.hash = header[3]
        elif header and header[1] == "version" and re.fullmatch("[0-9]{1,9}", header[3]):
            made.version = int(header[3])
        elif header and header[2] and header[1] in FIELDS:
            setattr(made.streams[int(header[2])], FIELDS[header[1]], header[3])
        elif not line.startswith("#") and len(columns) >= 6 and re.fullmatch("[0-9]{1,3}", columns[0]):
            made.streams[int(columns[0])]
            made.frames[int(columns[0])].append((columns[2], columns[4], columns[5].lower()))
    if max(made.streams, default=0) >= MOST_STREAMS:
        raise Fault("the digest file has too many streams")
    return made


def command(path: str, wanted: FrameDigests) -> list[str]:
    """The words with which FFmpeg makes the same digests of a file: the same streams, decoded or not."""
    words = ["ffmpeg", "-v", "error", "-nostdin", "-protocol_whitelist", "file,pipe", "-i", "file:" + path]
    counts: collections.Counter[str] = collections.Counter()
    for place, (_, stream) in enumerate(sorted(wanted.streams.items())):
        kind, codec = KINDS.get(stream.kind, "v"), stream.codec if not stream.codec or stream.is_decoded() else "copy"
        words += ["-map", f"0:{kind}:{counts[kind]}", *([f"-c:{place}", codec] if codec else [])]
        counts[kind] += 1
    return [*words, "-f", "framehash", "-hash", wanted.hash, "-format_version", str(wanted.version), "-"]


def make_frames(path: str, wanted: FrameDigests, report: Report) -> FrameDigests:
    """The digests of a file's frames, as FFmpeg makes them."""
    count = wanted.count()

    def lines_of(file: Iterable[bytes]) -> Iterator[str]:
        for number, line in enumerate(file, 1):
            report(min(number, count), count)
            yield os.fsdecode(line).rstrip("\r\n")

    with or_fault("cannot run ffmpeg"), subprocess.Popen(command(path, wanted), stdin=subprocess.DEVNULL, stdout=subprocess.PIPE,
                                                         stderr=subprocess.DEVNULL) as process:
        return read_frames(lines_of(process.stdout or ()))


def differences(wanted: FrameDigests, made: FrameDigests) -> dict[int, list[int]]:
    """The numbers of the frames that differ, by stream: by size and digest, and by time too where both files count it alike."""
    found = {}
    for number, frames in sorted(wanted.frames.items()):
        first = 0 if wanted.streams[number].base == made.streams[number].base else 1
        pairs = itertools.zip_longest(frames, made.frames[number], fillvalue=())
        found[number] = [at for at, (one, other) in enumerate(pairs) if one[first:] != other[first:]]
    return {number: own for number, own in found.items() if own}


def compare_frames(digest_file: str, path: str, named: str, report: Report, own: Make | None) -> Compared:
    """Whether a file is the original by the digests of its frames."""
    wanted = read_frames(lines(digest_file))
    if not wanted.count():
        raise Fault(f"{digest_file} has the digest of no frame")
    made = own(wanted, report) if own else None
    found = differences(wanted, made or make_frames(path, wanted, report))
    decoded = all(stream.is_decoded() or not stream.codec for stream in wanted.streams.values())
    what = f"{wanted.count()} {'decoded ' if decoded else ''}frames"
    if not found:
        return Compared(True, f"{named} has the original's frames: the digests of all {what} are those of {digest_file}", False)
    differing = "; ".join(f"stream {number}: {runs(frames)}" for number, frames in found.items())
    return Compared(False, f"{named} does not have the original's frames: digests of {digest_file} differ: {differing}", False)


def runs(numbers: Sequence[int]) -> str:
    """Numbers as ranges, so many at most."""
    groups = [[number for _, number in group] for _, group in itertools.groupby(enumerate(numbers), lambda each: each[1] - each[0])]
    ranges = [str(run[0]) if len(run) == 1 else f"{run[0]} to {run[-1]}" for run in groups[:MOST_RUNS]]
    more = f" and {len(groups) - MOST_RUNS} more" if len(groups) > MOST_RUNS else ""
    return ("frame " if len(numbers) == 1 else "frames ") + ", ".join(ranges) + more
