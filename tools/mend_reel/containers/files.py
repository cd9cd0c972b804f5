"""What lies where in a file of any container, and where its parts do not hang together."""
from __future__ import annotations

import re
from collections.abc import Iterator, Sequence

from ..engine.frame_checks import Judge
from ..model import MATROSKA, Content, Copy, Kind, Layout
from . import ffmpeg_files, ffprobe, matroska, matroska_checks
from .known import by_start, structure_of
from .structure import Flaw, Found

SECTOR, PIECE, MOST_RUN, MOST_ALIKE = 512, 1 << 16, 1 << 14, 4
FILLING = re.compile(rb"(.)\1{%d,}" % (SECTOR - 1), re.DOTALL)


def form_of(copy: Copy) -> str:
    """The name of a copy's container: what its own start says, or else what FFmpeg finds frames in; nothing where it can't be read."""
    start = by_start(copy)
    if start:
        return start.name
    if matroska.has_elements([copy]):
        return MATROSKA
    probed = ffprobe.probe(copy) if ffprobe.can_ask() else ffprobe.Probed()
    return probed.form if probed.found() else ""


def describe(copies: Sequence[Copy], judge: Judge | None = None, records: bool = True) -> Layout:
    """What lies where in a file, over all its copies."""
    starts = {start.name for start in map(by_start, copies) if start}
    is_matroska = MATROSKA in starts or not starts and matroska.has_elements(copies)
    return matroska.layout(copies) if is_matroska else ffmpeg_files.layout(copies, judge, records)


def flaws_of(copy: Copy, form: str, layout: Layout) -> list[Found]:
    """Where the parts of a file, which a layout describes, do not hang together, and which sectors of its sound seem to be lost."""
    return [*(matroska_checks.flaws(copy, layout) if form == MATROSKA else structure_of(copy).flaws), *lost_sectors(copy, layout)]


def lost_sectors(copy: Copy, layout: Layout) -> Iterator[Found]:
    """Yields runs of one value in sound that no checksum covers, which begin and end where sectors do, but for a byte or two that are alike by
    chance, and not where the sound does: silence that was recorded begins and ends anywhere."""
    for stretch in layout.stretches:
        if stretch.kind is not Kind.PLAIN or stretch.what.content is not Content.SOUND:
            continue
        for place in range(stretch.start, stretch.end, PIECE):
            piece = copy.read(place, min(PIECE + MOST_RUN, stretch.end - place))
            for start, end in (match.span() for match in FILLING.finditer(piece)):
                first, last = -(-(place + start) // SECTOR) * SECTOR, (place + end) // SECTOR * SECTOR
                is_sector = first < last and max(first - place - start, place + end - last) <= MOST_ALIKE
                if is_sector and start and start < PIECE and place + end < stretch.end:
                    yield Found(Flaw.LOST, first, last)
