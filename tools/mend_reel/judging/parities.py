"""Whether the slices of a recording have parities at all."""
from __future__ import annotations

import dataclasses
from collections.abc import Sequence

from ..containers import ebml
from ..containers.own_checks import has_only_sizes, is_uniform, passes, slices
from ..model import Copy, Frame, Kind, Layout

MOST_SAMPLES = 16
NO_PARITIES = ("the slices of this recording have no parities (it was made without -slicecrc 1), so no damage within a frame can be found "
               "or mended by them: frames are judged by the container's checksums, or by whether the copies agree")


def lack_parities(layout: Layout, copies: Sequence[Copy]) -> bool:
    """Whether slices have no parities: of frames all over the recording none passes in any copy, and most seem to be undamaged."""
    count = len(layout.frames)
    step = max(count // MOST_SAMPLES, 1)
    samples = layout.frames[step // 2 :: step][:MOST_SAMPLES]
    believed = 0
    for frame in samples:
        versions = [copy.read(frame.place, frame.size) for copy in copies if frame.end <= copy.size]
        if any(passes(version[start:end]) for version in versions for start, end in slices(version)):
            return False
        believed += is_believed(layout, frame, versions, copies)
    return 2 * believed > len(samples)


def is_believed(layout: Layout, frame: Frame, versions: Sequence[bytes], copies: Sequence[Copy]) -> bool:
    """Whether a frame seems undamaged: its slices are divided by sizes alone, its copies are equal, its element passes, or it is of a
    version of FFV1 that has neither footers nor a record. A frame of bytes that are all the same is lost."""
    if any(map(is_uniform, versions)):
        return False
    track = next((track for track in layout.tracks if track.number == frame.track), None)
    if track and not track.record or any(map(has_only_sizes, versions)):
        return True
    if len(versions) > 1 and len(set(versions)) == 1:
        return True
    around = next((stretch for stretch in layout.stretches if stretch.start <= frame.place < stretch.end), None)
    return around is not None and around.kind is Kind.ELEMENT and any(
        ebml.passes_in(around, copies, number) for number in range(len(copies)))


def without_parts(layout: Layout) -> Layout:
    """The layout of a recording without parities: its frames are plain bytes, and elements have no parts."""
    kinds = {kind: Kind.PLAIN if kind is Kind.FRAME else kind for kind in Kind}
    return dataclasses.replace(layout, stretches=[dataclasses.replace(each, kind=kinds[each.kind], parts=()) for each in layout.stretches])
