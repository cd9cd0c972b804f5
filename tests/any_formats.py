"""Recordings of every pixel format that FFmpeg's encoder of FFV1 has, and FFmpeg's samples of them in the layout of `samples`."""
import collections
import itertools
import pathlib
import random
import subprocess

# Each pixel format that the encoder lists.
PIXELS = """
bgr0 bgra gbrap10le gbrap12le gbrap16le gbrp10le gbrp12le gbrp14le gbrp16le gbrp9le gray gray10le gray12le gray16le gray9le rgb48le rgba64le ya8
yuv410p yuv411p yuv420p yuv420p10le yuv420p12le yuv420p14le yuv420p16le yuv420p9le yuv422p yuv422p10le yuv422p12le yuv422p14le yuv422p16le
yuv422p9le yuv440p yuv440p10le yuv440p12le yuv444p yuv444p10le yuv444p12le yuv444p14le yuv444p16le yuv444p9le yuva420p yuva420p10le
yuva420p16le yuva420p9le yuva422p yuva422p10le yuva422p16le yuva422p9le yuva444p yuva444p10le yuva444p16le yuva444p9le
""".split()
# The packed ones: how many bytes a sample has, how many samples a pixel, and which of them each plane has, in the order of `samples`.
PACKED = {
    "bgr0": (1, 4, (1, 0, 2)),
    "bgra": (1, 4, (1, 0, 2, 3)),
    "rgb48le": (2, 3, (1, 2, 0)),
    "rgba64le": (2, 4, (1, 2, 0, 3)),
    "ya8": (1, 2, (0, 1)),
}
# FFmpeg's numbers of the coders: Golomb-Rice, range with the default table, and with another. Over 8 bits it takes a range coder in place of
# Golomb-Rice.
CODERS = [0, -2, 2]
SIDES = [(48, 32), (33, 21), (40, 24), (64, 16), (33, 40)]

Recorded = collections.namedtuple("Recorded", "name size record frames samples")
Choice = collections.namedtuple("Choice", "pixels coder context group parity")


def choices():
    """Each way to record, in an order in which neighbours have little in common."""
    found = [Choice(*each) for each in itertools.product(PIXELS, CODERS, (0, 1), (1, 5), (1, 0))]
    random.Random(0).shuffle(found)
    return found


def ffmpeg(*words):
    return subprocess.run(["ffmpeg", "-v", "error", "-y", *map(str, words)], check=True, capture_output=True).stdout


def record_of(recording):
    """The Configuration Record, which ffprobe prints in hexadecimal digits beside their places and characters."""
    command = "ffprobe -v error -select_streams v:0 -show_entries stream=extradata -show_data -of default=nk=1:nw=1".split()
    lines = subprocess.run([*command, recording], check=True, capture_output=True, text=True).stdout.splitlines()
    return bytes.fromhex("".join(line[10:50] for line in lines if line[8:10] == ": "))


def packets_of(recording):
    """The payload of each frame."""
    probe = "ffprobe -v error -select_streams v:0 -show_entries packet=size -of csv=p=0".split()
    listed = subprocess.run([*probe, recording], check=True, capture_output=True, text=True).stdout.split()
    data, found = ffmpeg("-i", recording, "-map", "0:v:0", "-c", "copy", "-f", "data", "-"), []
    for size in (int(line.strip(",")) for line in listed):
        found.append(data[:size])
        data = data[size:]
    return found


def planar(pixels, raw):
    """FFmpeg's samples of a frame, plane after plane."""
    if pixels not in PACKED:
        return raw
    width, count, planes = PACKED[pixels]
    pixel = width * count
    return b"".join(
        b"".join(raw[start : start + width] for start in range(width * plane, len(raw), pixel)) for plane in planes
    )


def recorded(folder, choice, source, size, slices, frames, passes=1):
    """A recording that FFmpeg makes of a source, with the samples that it decodes. What a choice leaves out is as FFmpeg has it."""
    path, log = pathlib.Path(folder) / "small.mkv", pathlib.Path(folder) / "log"
    filters = f"{source},format={choice.pixels},crop={size[0]}:{size[1]}:0:0:exact=1,setsar=1"
    chosen = ("-coder", choice.coder), ("-context", choice.context), ("-g", choice.group), ("-slicecrc", choice.parity)
    encoder = [*"-c:v ffv1 -level 3".split(), *(word for option in chosen if option[1] is not None for word in option)]
    words = ["-f", "lavfi", "-i", filters, "-frames:v", frames, *encoder, "-slices", slices]
    for number in range(1, passes + 1) if passes > 1 else ():
        ffmpeg(*words, "-pass", number, "-passlogfile", log, path)
    if passes == 1:
        ffmpeg(*words, path)
    raw = ffmpeg("-threads", 1, "-i", path, "-pix_fmt", choice.pixels, "-f", "rawvideo", "-")
    each = len(raw) // frames
    samples = [planar(choice.pixels, raw[start : start + each]) for start in range(0, len(raw), each)]
    name = " ".join(map(str, [*choice, f"{size[0]}x{size[1]}", slices]))
    return Recorded(name, size, record_of(path), packets_of(path), samples)


def by_default(folder):
    """A recording of 25 frames by FFmpeg's own settings: Golomb-Rice codes, 8 bits, a keyframe in twelve."""
    choice = Choice("yuv420p", None, None, None, 1)
    return recorded(folder, choice, "mandelbrot=s=48x32:start_x=-0.7:start_y=0.3:start_scale=0.5,noise=alls=4:allf=t", (48, 32), 4, 25)


def made(folder, number):
    """The recording with this number: its choice and picture follow from it."""
    numbers, choice = random.Random(number), choices()[number % len(choices())]
    size = numbers.choice(SIDES)
    whole = "x".join(str(side + -side % 4) for side in size)
    kind = numbers.choice([f"testsrc2=s={whole}", f"mandelbrot=s={whole}:start_x=-0.7:start_y=0.3:start_scale=0.5", f"color=gray:s={whole}"])
    source, frames = f"{kind},noise=alls={numbers.choice([0, 4, 20, 100])}:allf=t", 3 if choice.group > 1 else 1
    try:
        return recorded(folder, choice, source, size, numbers.choice([6, 9, 12]), frames)
    except subprocess.CalledProcessError:
        # So small a frame has no grid of so many slices.
        return recorded(folder, choice, source, size, 4, frames)
