"""What stands in for ffprobe in the unit tests: a program that reports the packets that a table in a file has, whatever container lies around
the table."""
from __future__ import annotations

import pathlib
import struct
import sys
import typing
import zlib

SIGN, ENTRY = b"TABLE OF PACKETS", struct.Struct(">4I")


class Packet(typing.NamedTuple):
    """A packet as the table has it: its stream (0 is video, 1 sound), its time in thousandths, its place and its size."""

    stream: int
    time: int
    place: int
    size: int


def table(packets: typing.Sequence[Packet]) -> bytes:
    return SIGN + len(packets).to_bytes(2, "big") + b"".join(ENTRY.pack(*packet) for packet in packets)


def read(content: bytes) -> list[Packet]:
    """The packets of the table that lie in the file."""
    at = content.find(SIGN) + len(SIGN)
    count = int.from_bytes(content[at : at + 2], "big") if at >= len(SIGN) else 0
    entries = (content[at + 2 + ENTRY.size * number :][: ENTRY.size] for number in range(count))
    packets = [Packet(*ENTRY.unpack(entry)) for entry in entries if len(entry) == ENTRY.size]
    return [packet for packet in packets if packet.stream < 2 and 0 < packet.size and packet.place + packet.size <= len(content)]


def lines(content: bytes) -> typing.Iterator[str]:
    """What is reported of a file."""
    packets = read(content)
    for packet in packets:
        digest = zlib.crc32(content[packet.place : packet.place + packet.size])
        yield (f"packet|stream_index={packet.stream}|pts_time={packet.time / 1000}|size={packet.size}|pos={packet.place}|flags=K_|"
               f"data_hash=CRC32:{digest:08x}")
    if packets:
        frames = sum(packet.stream == 0 for packet in packets)
        yield f"stream|index=0|codec_name=ffv1|codec_type=video|width=48|height=40|avg_frame_rate=25/1|nb_frames={frames}"
        yield "stream|index=1|codec_name=pcm_s16le|codec_type=audio|avg_frame_rate=0/0|nb_frames=96000"
        yield f"format|format_name={'mov' if content[4:8] == b'ftyp' else 'toy'}"


def make(folder: pathlib.Path) -> None:
    """Makes the program in a folder."""
    path = folder / "ffprobe"
    path.write_text(f"#!{sys.executable}\nimport runpy\nrunpy.run_path({__file__!r}, run_name='__main__')\n")
    path.chmod(0o755)


if __name__ == "__main__":
    if "-show_data" not in sys.argv:
        hashed = "-show_data_hash" in sys.argv
        for line in lines(pathlib.Path(sys.argv[-1].partition(":")[2]).read_bytes()):
            print(line if hashed else line.partition("|data_hash")[0])
