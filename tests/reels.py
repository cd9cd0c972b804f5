"""Recordings that FFmpeg, mkvmerge and GStreamer make, and damaged copies of them."""
import dataclasses
import pathlib
import shutil
import subprocess

import makings
import readings

FORMATS = ("gray gray10le gray16le ya8 yuv410p yuv420p yuv422p yuv422p9le yuv422p10le yuv444p12le yuv444p14le yuva420p10le "
           "yuv420p16le bgr0 bgra gbrp10le gbrap12le rgb48le rgba64le").split()
# Recordings of these are made so that they are in the profile of holdings.
IN_PROFILE = ["gray", "yuv422p", "yuv444p"]
ENDINGS = ["mkv", "avi", "nut", "mov"]
SOUND = {"mkv": ["flac", "pcm_s16le"], "avi": ["pcm_s16le"], "nut": ["flac", "pcm_s16le"], "mov": ["pcm_s16le"]}
# What is to be heard: a tone, silence, and a tone that begins and ends in silence.
TONES = ["sine=r=8000", "sine=r=8000", "anullsrc=r=8000:cl=mono", "aevalsrc=if(between(t\\,0.05\\,0.12)\\,sin(2000*t)\\,0):s=8000"]


def run(*words, **more):
    return subprocess.run([str(word) for word in words], capture_output=True, stdin=subprocess.DEVNULL, **more)


def ffmpeg(*words):
    done = run("ffmpeg", "-v", "error", "-y", *words)
    if done.returncode:
        raise RuntimeError(f"ffmpeg {words}: {done.stderr.decode(errors='replace')}")


@dataclasses.dataclass
class Reel:
    """A recording: its file, the place and bytes of each of its FFV1 frames, and of each packet of its sound."""

    path: pathlib.Path
    content: bytes
    frames: list
    has_checksums: bool
    about: str
    sound: list = dataclasses.field(default_factory=list)

    @property
    def suffix(self):
        return self.path.suffix


@dataclasses.dataclass
class Damaged:
    """A copy, whether its bytes stand where those of the recording do, what it was before it was damaged, whether it has all tracks, and the
    map that is given of it."""

    path: pathlib.Path
    content: bytes
    is_same_file: bool
    about: str
    recorded: bytes
    has_all: bool = True
    map: pathlib.Path = None

    @property
    def is_undamaged(self):
        return self.content == self.recorded

    def words(self):
        """What names it and its map in a call."""
        return [self.path, *(["--map", f"{self.path}={self.map}"] if self.map else [])]


def packets(path, stream="0:v:0"):
    """What a container says of a stream: the place and the bytes of each packet, which FFmpeg writes. A packet that is not found at
    its place, or some bytes after, is left out."""
    probed = run("ffprobe", "-v", "quiet", "-select_streams", stream[2:], "-show_entries", "packet=size,pos", "-of", "csv=p=0", path)
    payloads = run("ffmpeg", "-v", "quiet", "-i", path, "-map", stream, "-c", "copy", "-f", "data", "-").stdout
    content, found, start = path.read_bytes(), [], 0
    for size, place in (line.split(",")[:2] for line in probed.stdout.decode().split()):
        payload = payloads[start : start + int(size)]
        start += int(size)
        at = content.find(payload, int(place), int(place) + len(payload) + 64) if payload and place.isdigit() else -1
        if at >= 0:
            found.append((at, payload))
    return found


METADATA = """;FFMETADATA1
title=a reel
comment=found in a box
[CHAPTER]
TIMEBASE=1/1000
START=0
END=100
title=the first part
"""
# How often each program makes a recording, where it is installed. FFmpeg does what the others can't.
MAKERS = ["ffmpeg"] * 6 + ["mkvmerge", "gst-launch-1.0"]


def make(numbers, folder):
    """A recording: a test picture, with noise or not, most with sound, some with a second track of FFV1, or with an attachment, tags and
    chapters."""
    maker = numbers.choice(MAKERS)
    if maker == "gst-launch-1.0" and shutil.which(maker):
        return made_by_gstreamer(numbers, folder)
    ending = "mkv" if maker == "mkvmerge" else numbers.choice(["mkv", "mkv", *ENDINGS])
    reel = made_by_ffmpeg(numbers, folder, ending)
    return made_by_mkvmerge(folder, reel) if maker == "mkvmerge" and shutil.which(maker) else reel


def made_by_ffmpeg(numbers, folder, ending):
    pixels, coder, group = numbers.choice(FORMATS), numbers.choice([0, 1, 2]), numbers.choice([1, 3, 12])
    if pixels in IN_PROFILE:
        coder, group = 0, 1
    size, rate = numbers.choice(["64x48", "96x80", "128x96", "176x144"]), numbers.choice([24, 25, "30000/1001"])
    source = f"testsrc2=s={size}:r={rate},noise=alls={numbers.choice([0, 4, 20])}:allf=t"
    words, maps, frames = ["-f", "lavfi", "-i", source], ["-map", "0"], numbers.randint(3, 8)
    sound = numbers.choice(SOUND[ending]) if numbers.random() < 0.8 else None
    if sound:
        words, maps = [*words, "-f", "lavfi", "-i", numbers.choice(TONES)], [*maps, "-map", str(1)]
    second = ending == "mkv" and numbers.random() < 0.2
    if second:
        words, maps = [*words, "-f", "lavfi", "-i", f"testsrc=s=64x48:r={rate}"], [*maps, "-map", str(1 + bool(sound))]
    extras = ending == "mkv" and numbers.random() < 0.3
    if extras:
        words, maps = [*words, *extra_inputs(numbers, folder)], [*maps, *extra_words(folder, words.count("-i"))]
    checked = ending == "mkv" and numbers.random() < 0.8
    more = ["-write_crc32", int(checked), "-cluster_time_limit", numbers.choice([80, 160, 5000])] if ending == "mkv" else []
    path = folder / f"reel.{ending}"
    ffmpeg(*words, *maps, "-t", frames / 24, "-pix_fmt", pixels, "-c:v", "ffv1", "-level", 3, "-strict", -2, "-coder", coder, "-context",
           numbers.randrange(2), "-g", group, "-slices", numbers.choice([4, 6, 9, 12]), "-slicecrc", 1, "-c:a", sound or "copy", *more, path)
    found = packets(path) + (packets(path, "0:v:1") if second else [])
    about = f"{ending} {pixels} coder {coder} sound {sound} crc {checked} second {second} extras {extras}"
    return Reel(path, path.read_bytes(), sorted(found), checked, about, packets(path, "0:a:0"))


def extra_inputs(numbers, folder):
    """Writes tags and chapters, and a file to attach. Returns the words that name the former."""
    (folder / "metadata").write_text(METADATA)
    (folder / "notes.bin").write_bytes(numbers.randbytes(700))
    return ["-i", folder / "metadata"]


def extra_words(folder, number):
    """The words by which the input of a number gives tags and chapters, and a file is attached."""
    return ["-map_metadata", number, "-map_chapters", number, "-attach", folder / "notes.bin", "-metadata:s:t", "mimetype=application/octet-stream"]


def made_by_mkvmerge(folder, reel):
    """A recording as mkvmerge writes it again: without CRC-32 elements, with lacing, tags and an index of its own."""
    path = folder / "source.mkv"
    reel.path.rename(path)
    has_second = b"second True" in reel.about.encode()
    mkvmerge(reel.path, path)
    path.unlink()
    found = packets(reel.path) + (packets(reel.path, "0:v:1") if has_second else [])
    return Reel(reel.path, reel.path.read_bytes(), sorted(found), False, f"mkvmerge {reel.about}", packets(reel.path, "0:a:0"))


def mkvmerge(path, source):
    done = run("mkvmerge", "-q", "--deterministic", "reel", "-o", path, source)
    if done.returncode > 1:
        raise RuntimeError(f"mkvmerge {source}: {done.stdout.decode(errors='replace')}")


def made_by_gstreamer(numbers, folder):
    """A Matroska file as GStreamer writes it, with the slices' parities and no CRC-32 elements."""
    path, frames = folder / "reel.mkv", numbers.randint(3, 8)
    width, height = numbers.choice([(64, 48), (96, 80), (128, 96)])
    pixels, sound = numbers.choice(["I420", "Y42B", "Y444"]), numbers.random() < 0.7
    picture = f"video/x-raw,format={pixels},width={width},height={height},framerate=25/1"
    words = ["videotestsrc", f"num-buffers={frames}", f"pattern={numbers.choice(['smpte', 'snow', 'ball'])}", "!", picture, "!", "avenc_ffv1",
             f"slices={numbers.choice([4, 9])}", "slicecrc=1", f"coder={numbers.randrange(2)}", "!", "matroskamux", "name=m", "!", "filesink",
             f"location={path}"]
    if sound:
        words += ["audiotestsrc", f"num-buffers={frames}", "samplesperbuffer=320", "!", "audio/x-raw,rate=8000,channels=1,format=S16LE", "!", "m."]
    done = run("gst-launch-1.0", "-q", *words)
    if done.returncode:
        raise RuntimeError(f"gst-launch-1.0: {done.stderr.decode(errors='replace')}")
    return Reel(path, path.read_bytes(), sorted(packets(path)), False, f"gstreamer {pixels} sound {sound}", packets(path, "0:a:0"))


def rot_frames(numbers, content, frames):
    """Damages some of the frames of a file."""
    share = numbers.choice([0.2, 0.5, 1])
    for place, payload in frames:
        if numbers.random() < share:
            content[place : place + len(payload)] = makings.damaged(numbers, payload)


def break_head(numbers, content, frames):
    """Turns a bit in what stands before a frame."""
    place = numbers.choice(frames)[0] - numbers.randint(1, 16)
    content[max(place, 0)] ^= 1 << numbers.randrange(8)


def turn_bits(numbers, content, frames):
    """Turns bits anywhere."""
    for _ in range(numbers.randint(1, 12)):
        content[numbers.randrange(len(content))] ^= 1 << numbers.randrange(8)


def lose_sector(numbers, content, frames):
    """A sector anywhere is zero."""
    place = 512 * numbers.randrange(-(-len(content) // 512))
    content[place : place + 512] = bytes(len(content[place : place + 512]))


def lose_first_sector(numbers, content, frames):
    """The first sector is zero."""
    content[:512] = bytes(len(content[:512]))


def spill(numbers, content, frames):
    """Some bytes anywhere are garbage."""
    place = numbers.randrange(len(content))
    content[place : place + 256] = numbers.randbytes(len(content[place : place + 256]))


def fill(numbers, content, frames):
    """Many bytes anywhere have one value."""
    place, size = numbers.randrange(len(content)), numbers.choice([700, 2048, 10000, len(content) // 4])
    content[place : place + size] = numbers.choice([b"\0", b"\xff", b" "]) * len(content[place : place + size])


def invert_bit_of_frame(numbers, content, frames):
    """One bit of one frame is inverted."""
    place, payload = numbers.choice(frames)
    content[place + numbers.randrange(len(payload))] ^= 1 << numbers.randrange(8)


HARMS = [rot_frames, rot_frames, break_head, turn_bits, lose_sector, lose_sector, lose_first_sector, spill, fill, invert_bit_of_frame]


def rot(numbers, content, frames):
    """Damages a file in one to three ways, and keeps its length. Returns what was done."""
    harms = [numbers.choice(HARMS) for _ in range(numbers.randint(1, 3))]
    for harm in harms:
        harm(numbers, content, frames)
    return " ".join(harm.__name__ for harm in harms)


def other_file(numbers, folder, reel, name):
    """The same written again: in another container, or in the same one, all of it or the frames alone; some damaged, before that or after."""
    path, before = folder / f"{name}.{numbers.choice(ENDINGS)}", numbers.random() < 0.4
    silent = path.suffix in (".avi", ".mov") and path.suffix != reel.suffix or numbers.random() < 0.3
    write_again(numbers, path, reel.path, silent)
    recorded = path.read_bytes()
    about = f"{path.name} written again{' without sound' if silent else ''}"
    if numbers.random() < 0.3:
        return Damaged(path, recorded, False, about, recorded, not silent)
    content = bytearray(reel.content if before else recorded)
    rot_frames(numbers, content, reel.frames if before else packets(path))
    if before:
        damaged = folder / f"damaged{reel.suffix}"
        damaged.write_bytes(content)
        write_again(numbers, path, damaged, silent)
        damaged.unlink()
    else:
        path.write_bytes(content)
    return Damaged(path, path.read_bytes(), False, f"{about}, damaged {'before' if before else 'after'} that", recorded, not silent)


def write_again(numbers, path, source, silent):
    """Writes a file again, the same bytes each time: by mkvmerge, if the ending is its own and it is installed, or by FFmpeg."""
    if path.suffix == ".mkv" and source.suffix != ".nut" and not silent and path.stem in "bd" and shutil.which("mkvmerge"):
        mkvmerge(path, source)
    else:
        ffmpeg("-i", source, "-map", "0:v:0" if silent else "0", "-map", "-0:t?", "-c", "copy", "-fflags", "+bitexact", path)


# ---- kinds of copies of a recording's own file, each as its bytes, whether they stand where the recording's do, and what it was before


def lose_sector_of_sound(numbers, folder, reel):
    """A sector within sound is zero."""
    place, payload = numbers.choice(reel.sound)
    start = max(place, (place + numbers.randrange(len(payload))) // 512 * 512)
    size = min(512, place + len(payload) - start)
    return reel.content[:start] + bytes(size) + reel.content[start + size :], True, reel.content


def shift_sound(numbers, folder, reel):
    """Bytes are lost from sound, or put into it."""
    place, payload = numbers.choice(reel.sound)
    at, size = place + numbers.randrange(len(payload)), numbers.choice([1, 2, 64, 512])
    if numbers.random() < 0.5:
        return reel.content[:at] + reel.content[at + size :], False, reel.content
    return reel.content[:at] + numbers.choice([bytes(size), numbers.randbytes(size)]) + reel.content[at:], False, reel.content


def join_files(numbers, folder, reel):
    """Another file stands after it: itself, or the same written again."""
    other = folder / f"other{reel.suffix}"
    write_again(numbers, other, reel.path, True)
    more = numbers.choice([reel.content, other.read_bytes()])
    other.unlink()
    return reel.content + more, True, reel.content


def repeat_cluster(numbers, folder, reel):
    """What lies from a frame to the next one is there twice; in Matroska a cluster is."""
    starts = [place for place, _ in reel.frames]
    if reel.suffix == ".mkv":
        starts = [place for place in range(len(reel.content)) if reel.content[place : place + 4] == b"\x1fC\xb6u"]
    number = numbers.randrange(max(len(starts) - 1, 1))
    start, end = starts[number], (starts + [len(reel.content)])[number + 1]
    return reel.content[:end] + reel.content[start:end] + reel.content[end:], False, reel.content


def change_title(numbers, folder, reel):
    """Another edition of the file, in which mkvpropedit or FFmpeg wrote a title: undamaged, or with one wrong bit in a frame."""
    path = folder / f"edition{reel.suffix}"
    if reel.suffix == ".mkv" and shutil.which("mkvpropedit"):
        path.write_bytes(reel.content)
        done = run("mkvpropedit", path, "--edit", "info", "--set", f"title=reel {numbers.randrange(100)}")
        if done.returncode:
            raise RuntimeError(f"mkvpropedit: {done.stdout.decode(errors='replace')}")
    else:
        title = f"title=reel {numbers.randrange(100)}"
        ffmpeg("-i", reel.path, "-map", "0", "-map", "-0:t?", "-c", "copy", "-fflags", "+bitexact", "-metadata", title, path)
    recorded, frames = path.read_bytes(), packets(path)
    path.unlink()
    content = bytearray(recorded)
    if frames and numbers.random() < 0.4:
        invert_bit_of_frame(numbers, content, frames)
    return bytes(content), False, recorded


KINDS = [lose_sector_of_sound, lose_sector_of_sound, shift_sound, shift_sound, join_files, repeat_cluster, change_title, change_title]


def of_kind(numbers, folder, reel, name):
    """A copy of one of these kinds."""
    kind = numbers.choice([kind for kind in KINDS if reel.sound or "sound" not in kind.__name__])
    content, is_same, recorded = kind(numbers, folder, reel)
    path = folder / f"{name}{reel.suffix}"
    path.write_bytes(content)
    return Damaged(path, content, is_same, f"{path.name} {kind.__name__}", recorded)


def in_turn(numbers, folder, reel):
    """Two or three copies that lack pieces in turn: each byte is intact in one of them."""
    count, size, first = numbers.randint(2, 3), numbers.choice([2048, 4096, 4096, 16384]), numbers.choice([0, 0, 1000])
    made = [bytearray(reel.content) for _ in range(count)]
    for number, place in enumerate(range(first, len(reel.content), size)):
        for copy in (copy for at, copy in enumerate(made) if at != number % count):
            copy[place : place + size] = bytes(len(copy[place : place + size]))
    paths = [folder / f"{name}{reel.suffix}" for name, _ in zip("abc", made)]
    for path, content in zip(paths, made):
        path.write_bytes(content)
    about = f"pieces of {size} from {first} on in turn"
    return [Damaged(path, bytes(content), True, f"{path.name} {about}", reel.content) for path, content in zip(paths, made)]


def map_of_another(numbers, folder, path):
    """The map of another file: sectors that it calls unread are there."""
    size, written = path.stat().st_size, folder / f"{path.name}.map"
    bad = sorted({numbers.randrange(-(-size // 512)) for _ in range(numbers.randint(1, 3))})
    written.write_text("0x0 + 1\n" + "".join(f"{start} {end - start} {status}\n" for start, end, status in blocks(bad, size)))
    return written


def pad(numbers, content):
    """What follows the end of a file that was copied in blocks."""
    size = numbers.choice([1, 512, 4096, 5000])
    content += numbers.choice([bytes(size), b"\xff" * size, numbers.randbytes(size)])


def with_map(numbers, folder, path):
    """Has ddrescue copy a file of which some sectors can't be read. Returns the map that it writes."""
    content = path.read_bytes()
    bad = sorted({numbers.randrange(-(-len(content) // 512)) for _ in range(numbers.randint(1, 3))})
    source, wanted, written = folder / "readable", folder / "bad.map", folder / f"{path.name}.map"
    path.rename(source)
    wanted.write_text("0x0 + 1\n" + "".join(f"{start} {end - start} {status}\n" for start, end, status in blocks(bad, len(content))))
    done = run("ddrescue", "-q", "-b", "512", "-H", wanted, source, path, written)
    source.unlink()
    wanted.unlink()
    if done.returncode or not written.exists():
        raise RuntimeError(f"ddrescue: {done.stderr.decode(errors='replace')}")
    with path.open("r+b") as copy:
        copy.truncate(len(content))
    return written


def blocks(bad, size):
    """The blocks of a map in which some sectors are bad."""
    place = 0
    for sector in bad:
        if place < 512 * sector:
            yield place, 512 * sector, "+"
        place = 512 * sector + 512
        yield 512 * sector, place, "-"
    yield place, max(size, place) + (1 << 20), "+"


def copy_of(numbers, folder, reel, name, is_first):
    """A copy of a recording: damaged, cut, padded, with bytes lost in its middle, with sectors that could not be read, written again, or
    undamaged."""
    kind = numbers.random()
    if kind < 0.2 and not is_first:
        return other_file(numbers, folder, reel, name)
    if 0.6 <= kind < 0.76:
        return of_kind(numbers, folder, reel, name)
    path, content, about, is_same = folder / f"{name}{reel.suffix}", bytearray(reel.content), "undamaged", True
    if kind < 0.88:
        about = rot(numbers, content, reel.frames)
    if 0.2 <= kind < 0.3:
        del content[int(len(content) * numbers.uniform(0.3, 0.95)) :]
        about += " cut"
    elif 0.3 <= kind < 0.4 and (not is_first or reel.suffix == ".mov"):
        place = numbers.randrange(len(content) // 4, len(content) * 3 // 4)
        del content[place : place + numbers.choice([1, 512, 4096])]
        about, is_same = about + " bytes lost in the middle", False
    elif 0.4 <= kind < 0.48:
        pad(numbers, content)
        about += " padded"
    path.write_bytes(content)
    written = with_map(numbers, folder, path) if 0.48 <= kind < 0.6 and shutil.which("ddrescue") else None
    about += " with a map" if written else ""
    if 0.85 <= kind < 0.9:
        written, about = map_of_another(numbers, folder, path), f"{about} with a map of another file"
    return Damaged(path, path.read_bytes(), is_same, f"{path.name} {about}", reel.content, True, written)


def damaged(numbers, folder, reel):
    """Two to four copies of a recording."""
    if numbers.random() < 0.08:
        return in_turn(numbers, folder, reel)
    copies = [copy_of(numbers, folder, reel, name, name == "a") for name in "abcd"[: numbers.randint(2, 4)]]
    numbers.shuffle(copies)
    return copies


def is_readable(copy):
    """Whether FFmpeg reads a copy's container, or a slice of some frame passes where it was recorded."""
    return bool(packets(copy.path))


def serve(copies):
    """Whether some copy can be read."""
    return any(map(is_readable, copies))
