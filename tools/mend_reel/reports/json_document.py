"""The report for machines: one document in JSON, written as it goes. docs/mend-reel.schema.json says what it has.

A path that is not UTF-8 has the replacement character U+FFFD in place of each byte that is none in `path`, and all its bytes in hexadecimal
digits in `path_hex`. Copies and stretches count from 1, frames from 0, bytes from 0. A size counts bytes, and a range ends before its
second number. Times are in seconds. What is not known is null. """
from __future__ import annotations

import json
import os
from collections.abc import Iterable, Iterator, Mapping, Sequence
from typing import Any, TextIO

from ..judging.reasons import Reason
from ..judging.results import NO_COPY, FrameResult, Results
from .pictures import Drawn
from .summary import CopySummary, Entry, Role, Summary, Unreadable

FORMAT, FORMAT_VERSION = "mend-reel", 2
Made = dict[str, Any]
NONE_SHOWN: Mapping[int, Drawn] = {}
ROLES = {Role.BASIS: "basis", Role.OTHER: "other file", Role.LEFT: "left out"}


def write(file: TextIO, entries: Sequence[Entry]) -> None:
    """Writes the document: OUT, or each file that was checked."""
    first = entries[0]
    write_open(file, {"format": FORMAT, "format_version": FORMAT_VERSION, "date": first.date, "programs": dict(first.versions),
                      "command": [text_of(word) for word in first.command]}, "files")
    for number, entry in enumerate(entries):
        file.write(",\n" if number else "\n")
        if isinstance(entry, Unreadable):
            json.dump({**name_of(entry.path), "status": entry.status, "fault": text_of(entry.fault)}, file, indent=1)
        else:
            write_judged(file, entry)
    file.write("\n ]\n}\n")


def write_judged(file: TextIO, summary: Summary) -> None:
    """Writes OUT, or a file that was judged. Its stretches come last, one in a line."""
    write_open(file, document(summary), "stretches")
    shown = {each.result.number: each for each in summary.shown}
    for at, stretch in enumerate(listed(summary.verdict.results, shown)):
        file.write((",\n  " if at else "\n  ") + json.dumps(stretch))
    file.write("\n ]\n}")


def write_open(file: TextIO, made: Made, last: str) -> None:
    """Writes an object up to the beginning of its last member, a list."""
    head = json.dumps(made, indent=1)
    file.write(head[: head.rindex("\n}")] + f',\n "{last}": [')


def document(summary: Summary) -> Made:
    """What is known of OUT or of a file, but for its stretches."""
    verdict, counts = summary.verdict, summary.verdict.counts
    return {
        "copies": [{"copy": number, **file_of(copy), "role": ROLES[copy.role], "left_out_because": text_of(copy.why) or None,
                    "verified_size": copy.verified} for number, copy in enumerate(summary.copies, 1)],
        "out": file_of(summary.out) if summary.out else None,
        "tracks": [{"track": track.number, "content": track.content.value, "codec": track.codec, "is_ffv1": track.is_ffv1,
                    "width": track.width or None, "height": track.height or None, "seconds_per_frame": track.step}
                   for track in summary.layout.tracks],
        "frame_counts": {"all": counts.frames, "damaged": counts.damaged, "restored": counts.restored, "woven": counts.woven,
                         "not_restored": counts.lost},
        "sizes": verdict.sums.named(),
        "verdict": {"status": verdict.status, "sentence": text_of(summary.sentence()),
                    "reasons": [reason_of(reason, summary.out_name()) for reason in verdict.reasons]},
        "digest": {"is_original": verdict.compared.is_original, "sentence": text_of(verdict.compared.text)} if verdict.compared else None,
        "notes": [text_of(note) for note in [*summary.notes, *verdict.notes]],
    }


def text_of(text: str) -> str:
    """A text that may have bytes of a path which are none."""
    return os.fsencode(text).decode("utf-8", "replace")


def file_of(copy: CopySummary) -> Made:
    """What a copy and OUT are alike in."""
    return {**name_of(copy.path), "size": copy.size, "container": copy.form or None, "sha256": copy.sha256}


def name_of(path: str) -> Made:
    """A path as text, and its bytes where it is none."""
    return {"path": text_of(path), "path_hex": None if text_of(path) == path else os.fsencode(path).hex()}


def reason_of(reason: Reason, out: str) -> Made:
    return {"why": reason.why.name.lower(), "because": reason.because.name.lower() if reason.because.value else None,
            "content": reason.content.value, "track": reason.track, "first_and_last_frame": reason.frames, "range": reason.bytes,
            "times": times_of(reason.times or (None, None)), "taken_from": counted(reason.source), "copy": counted(reason.copy),
            "sentence": text_of(reason.text(out))}


def counted(copy: int | None) -> int | None:
    """The number of a copy, from 1."""
    return None if copy is None or copy == NO_COPY else copy + 1


def times_of(times: Iterable[float | None]) -> list[float | None] | None:
    """From when to when, or null if that is not known."""
    made = [None if time is None else round(time, 6) for time in times]
    return made if made[0] is not None else None


# ---- stretches


def listed(results: Results, shown: Mapping[int, Drawn] = NONE_SHOWN) -> Iterator[Made]:
    """The stretches that are not whole in every copy, or have a frame that is damaged in each. `shown` has the frames of which a picture was made,
    by their numbers in the layout."""
    damaged = {result.stretch for result in results.frames.values()}
    for number, state in enumerate(results.states):
        if number in results.outcomes or number in damaged or not state.is_good():
            yield stretch_of(results, number, shown)


def stretch_of(results: Results, number: int, shown: Mapping[int, Drawn]) -> Made:
    stretch, outcome, state = results.stretches[number], results.outcomes.get(number), results.states[number]
    what, marks = stretch.what, outcome.marks if outcome else "-" * len(stretch.places)
    return {
        "stretch": number + 1, "content": what.content.value, "track": what.track, "checksum": stretch.kind.value, "state": state.value,
        "is_open": not state.is_good(), "combinations": outcome.count if outcome else 0, "times": times_of((what.start, what.end)),
        "range": [stretch.start, stretch.end], "taken_from": counted(results.source(stretch)),
        # Where each copy has it, and whether it has there what OUT has.
        "places": [{"copy": results.copy_of_mark[at] + 1, "range": None if place is None else [place, place + stretch.size],
                    "is_alike": {"1": True, "0": False}.get(mark)} for at, (place, mark) in enumerate(zip(stretch.places, marks))
                   if results.copy_of_mark[at] != NO_COPY],
        "frames": [frame_of(result, results, shown.get(result.number)) for result in results.within(number)],
    }


def frame_of(result: FrameResult, results: Results, drawn: Drawn | None = None) -> Made:
    """A frame that some copy has damaged, and its slices by their bytes in it, each with the copies that gave what OUT has."""
    return {"frame": result.order, "track": result.frame.track, "time": round(result.frame.time, 6),
            "range": [result.frame.place, result.frame.end], "state": result.state.value,
            "damaged_in": [copy + 1 for copy in result.damaged],
            "guessed_near_end": result.near_end.value if result.near_end else None, "tiles": tiles_of(drawn) if drawn else None,
            "slices": [{"range_in_frame": [place.start, place.end], "state": place.state, "combinations": place.count,
                        "given_by": sorted(copy + 1 for copy in results.copies_with(place.marks, "1"))} for place in result.slices]}


def tiles_of(drawn: Drawn) -> Made:
    """What is said of the tiles of a frame of which a picture was made."""
    tiles = drawn.tiles
    return {"count": drawn.count, "lost": sorted(tiles.lost), "undecodable": sorted(tiles.faulty), "unclean": sorted(tiles.unclean),
            "is_keyframe": tiles.is_key}
