"""A picture of a file from its first byte to its last: for each copy, and for OUT, where frames, sound and the container are damaged."""
from __future__ import annotations

import bisect
import enum
import html
import itertools

from ..judging.reasons import time_code
from ..judging.results import FrameState
from ..model import Content, Frame, Kind, Outcome, State, Stretch
from .summary import Role, Summary

COLUMNS, MOST_COPIES, TICKS = 480, 12, 5
LEFT, WIDTH, RIGHT = 140, 720, 110
BAR, THIN, GAP = 18, 9, 10


class Shade(enum.IntEnum):
    """How a column of a row is shown, the least first."""

    NOTHING, WHOLE, SOME, MANY, ALL, RESTORED, WOVEN, LOST = range(8)


COLOURS = dict(zip(Shade, ("#ffffff", "#dfe7dc", "#f5c26b", "#d9731a", "#8c1c13", "#6aa5d8", "#1f4e8c", "#1a1a1a")))
WORDS = dict(zip(Shade, ("nothing", "undamaged", "under a tenth damaged", "a tenth or more damaged", "all damaged", "mended",
                         "mended from parts of several copies", "not restored")))
OF_COPY = (Shade.WHOLE, Shade.SOME, Shade.MANY, Shade.ALL, Shade.NOTHING)
OF_OUT = (Shade.WHOLE, Shade.RESTORED, Shade.WOVEN, Shade.LOST, Shade.NOTHING)
OF_STATE = dict(zip(FrameState, OF_OUT))
OF_SOUND = frozenset({Content.SOUND, Content.SUBTITLES, Content.CLUSTER})


class Cells:
    """The columns of a row: how much there is in each, how much of it is damaged, and the worst that came of it."""

    def __init__(self) -> None:
        self.total, self.damaged, self.worst = [0] * COLUMNS, [0] * COLUMNS, [Shade.WHOLE] * COLUMNS

    def count(self, span: range, amount: int = 1) -> None:
        for column in span:
            self.total[column] += amount

    def damage(self, span: range, shade: Shade = Shade.ALL) -> None:
        for column in span:
            self.damaged[column] += 1
            self.worst[column] = max(self.worst[column], shade)

    def shares(self) -> list[Shade]:
        """How much of each column is damaged."""
        return [Shade.NOTHING if total <= 0 else Shade.WHOLE if not damaged else Shade.ALL if damaged >= total
                else Shade.MANY if 10 * damaged >= total else Shade.SOME for total, damaged in zip(self.total, self.damaged)]

    def shades(self) -> list[Shade]:
        """The worst of each column."""
        return [shade if total > 0 else Shade.NOTHING for total, shade in zip(self.total, self.worst)]


class Timeline:
    """The rows of the picture, by copy (None is OUT) and by what they show."""

    FRAMES, SOUND, CONTAINER = "frames", "sound", "container"

    def __init__(self, summary: Summary) -> None:
        self.summary, self.results = summary, summary.verdict.results
        self.size = max(summary.layout.size, 1)
        shown = [number for number, copy in enumerate(summary.copies) if copy.role is not Role.LEFT]
        self.copies: list[int | None] = [*shown[:MOST_COPIES], None]
        self.more = len(shown) - len(shown[:MOST_COPIES])
        self.kinds = [self.FRAMES, *([self.SOUND] if any(not track.is_ffv1 for track in summary.layout.tracks) else []), self.CONTAINER]
        self.rows = {(copy, kind): Cells() for copy in self.copies for kind in self.kinds}
        others = {matched.number: matched.places for matched in summary.matched}
        self.marks_of = {copy: [at for at, each in enumerate(self.results.copy_of_mark) if each == copy]
                         for copy in shown[:MOST_COPIES] if copy not in others}
        for number, stretch in enumerate(self.results.stretches):
            self.add(number, stretch)
        # Of copies of OUT's file only what they lack was counted so far.
        for copy, kind in itertools.product(self.marks_of, self.kinds):
            self.rows[copy, kind].total = list(map(int.__add__, self.rows[copy, kind].total, self.rows[None, kind].total))
        for copy, at in ((copy, at) for copy, places in others.items() if (copy, self.FRAMES) in self.rows for at in places):
            self.rows[copy, self.FRAMES].count(self.span_of(summary.layout.frames[at]))
        self.add_damaged_frames()

    def add_damaged_frames(self) -> None:
        for result in self.results.frames.values():
            self.rows[None, self.FRAMES].damage(self.span_of(result.frame), OF_STATE[result.state])
            for copy in (copy for copy in result.damaged if (copy, self.FRAMES) in self.rows):
                self.rows[copy, self.FRAMES].damage(self.span_of(result.frame))

    def span(self, start: int, end: int) -> range:
        """The columns of a range of bytes."""
        return range(min(start * COLUMNS // self.size, COLUMNS - 1), min((max(end, start + 1) - 1) * COLUMNS // self.size, COLUMNS - 1) + 1)

    def span_of(self, frame: Frame) -> range:
        return self.span(frame.place, frame.end)

    def add(self, number: int, stretch: Stretch) -> None:
        """Counts what lies in a stretch, for OUT, and less of it for copies of OUT's file that lack it. Adds damage beside frames."""
        first, last = (bisect.bisect_left(self.results.places, place) for place in (stretch.start, stretch.end))
        spans = [(self.FRAMES, self.span_of(frame)) for frame in self.summary.layout.frames[first:last]]
        kind = self.SOUND if self.SOUND in self.kinds and stretch.what.content in OF_SOUND else self.CONTAINER
        span, outcome = self.span(stretch.start, stretch.end), self.results.outcomes.get(number)
        if stretch.kind is not Kind.FRAME and stretch.what.content not in (Content.FRAME, Content.VIDEO):
            spans.append((kind, span))
            damaged = {copy for result in self.results.within(number) for copy in result.damaged} if outcome and stretch.parts else set()
            if outcome:
                self.damage(kind, span, outcome, damaged, bool(stretch.parts) and not self.results.open_beside(number))
        lacking = self.marks_of.items() if None in stretch.places else ()
        lacking = [copy for copy, own in lacking if all(stretch.places[at] is None for at in own)]
        for row, each in spans:
            self.rows[None, row].count(each)
            for copy in lacking:
                self.rows[copy, row].count(each, -1)

    def damage(self, kind: str, span: range, outcome: Outcome, damaged: set[int], is_alike: bool) -> None:
        """Adds damage beside frames. Where a copy's frames in it are damaged, what else of it is not known, unless all copies have it alike."""
        shade = Shade.WHOLE if is_alike else Shade.LOST
        if outcome.state.is_good():
            shade = Shade.WHOLE if damaged or "0" not in outcome.marks else Shade.WOVEN if outcome.state is State.WOVEN else Shade.RESTORED
        self.rows[None, kind].damage(span, shade)
        for copy, own in self.marks_of.items():
            marks = [outcome.marks[at] for at in own]
            if copy not in damaged and ("0" in marks or "1" in marks and outcome.state in (State.MISSING, State.DISPUTED)):
                self.rows[copy, kind].damage(span)

    # ---- the picture

    def svg(self) -> str:
        """The picture as SVG."""
        parts, top = [], 0
        for copy in self.copies if self.summary.out else self.copies[:-1]:
            name = "OUT" if copy is None else f"copy {copy + 1}" if self.summary.out else "the file"
            for kind in self.kinds:
                parts.append(self.row(copy, kind, name, top))
                top += (BAR if kind == self.FRAMES else THIN) + 2
            top += GAP
        # Times and byte places under the rows.
        for part in range(TICKS):
            x, anchor = LEFT + WIDTH * part // (TICKS - 1), "start" if part == 0 else "end" if part == TICKS - 1 else "middle"
            time, place = self.time_at(COLUMNS * part // (TICKS - 1)), f"{self.size * part // (TICKS - 1):,}"
            parts.append(f'<text x="{x}" y="{top + 8}" text-anchor="{anchor}">{time}</text>'
                         f'<text class="s" x="{x}" y="{top + 24}" text-anchor="{anchor}">byte {place}</text>')
        return (f'<svg viewBox="0 -2 {LEFT + WIDTH + RIGHT} {top + 40}" role="img" aria-label="Damage along the file">'
                + "".join(parts) + "</svg>")

    def row(self, copy: int | None, kind: str, name: str, top: int) -> str:
        """A row: its name, its columns in boxes of one shade, and after that of frames how many are damaged, or not restored."""
        is_first, unit, start = kind == self.FRAMES, WIDTH / COLUMNS, 0
        height, bold = BAR if is_first else THIN, ' font-weight="bold"' if copy is None else ""
        parts = [f'<text x="0" y="{top + 13}"{bold}>{name}</text>'] if is_first else []
        parts.append(f'<text class="s" x="{LEFT - 8}" y="{top + (13 if is_first else 8)}" text-anchor="end">{kind}</text>')
        for shade, run in itertools.groupby(self.rows[copy, kind].shades() if copy is None else self.rows[copy, kind].shares()):
            count = len(list(run))
            title = html.escape(f"{name}, {kind}, {self.time_at(start)} to {self.time_at(start + count)}: {WORDS[shade]}")
            parts += [f'<rect x="{LEFT + start * unit:.1f}" y="{top}" width="{count * unit:.1f}" height="{height}" fill="{COLOURS[shade]}">'
                      f"<title>{title}</title></rect>"] if shade is not Shade.NOTHING else []
            start += count
        parts.append(f'<rect x="{LEFT}" y="{top}" width="{WIDTH}" height="{height}" fill="none" stroke="#888" stroke-width=".6"/>')
        results = self.results.frames.values()
        count = sum(result.state is FrameState.LOST if copy is None else copy in result.damaged for result in results)
        label = f"{count} {'not restored' if copy is None else 'damaged'}"
        return "".join(parts) + (f'<text x="{LEFT + WIDTH + 8}" y="{top + 13}">{label}</text>' if is_first else "")

    def time_at(self, column: int) -> str:
        """The time at which a column begins, by the first frame from there on, or the last one."""
        frames, place = self.summary.layout.frames, column * self.size // COLUMNS
        if not frames:
            return f"byte {place}"
        at = min(bisect.bisect_left(self.results.places, place), len(frames) - 1)
        return time_code(frames[at].time)
