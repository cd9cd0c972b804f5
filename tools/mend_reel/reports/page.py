"""The report for people: one page in HTML that stands alone."""
from __future__ import annotations

import base64
import functools
import html
import itertools
import pkgutil
from collections.abc import Iterable, Iterator, Sequence
from typing import Any, TextIO

from ..judging.reasons import lines, span_of_times, time_code
from ..judging.results import FrameResult, FrameState, Results
from ..model import Kind
from .json_document import Made, frame_of, listed, text_of
from .pictures import Drawn
from .summary import STATES, CopySummary, Entry, Summary, Unreadable, of_files, share_of
from .timeline import COLOURS, OF_COPY, OF_OUT, WORDS, Shade, Timeline

MOST_ROWS, MOST_SLICES = 1000, 24
STYLE = (pkgutil.get_data(__package__, "page.css") or b"").decode().replace("\n", "")
SUMS = {"verified": "pass a checksum", "agreed": "have none, and several copies agree",
        "read": "have none, and only that copy could be read there", "alone": "have none, and one copy alone has them",
        "open": "are damaged, or differ and nothing decides"}
HATCHED = ("Hatched: tiles of which the footers lead to no undamaged slice, or to several, or whose slice can't be decoded. "
           "Of samples of more than 8 bits the upper 8 are shown, and alpha is not.")
STANDS = {"missing": "not restored"}
HOW = {"settled": "that of {many} {givers}", "woven": "woven from several copies, one of {count} combinations",
       "voted": "what most copies have, one of {count} combinations", "repaired": "one wrong bit inverted, one of {count} repairs",
       "disputed": "different ones pass", "missing": "none passes"}
OF_CHECKS = {"missing": "the parity fails"}


def text(words: Any) -> str:
    """A text as HTML."""
    return html.escape(text_of(str(words)))


def write(file: TextIO, entries: Sequence[Entry]) -> None:
    """Writes the page: OUT, or each file that was checked, after a table of them if there are several."""
    title = text(", ".join(entry.title() for entry in entries[:4]))
    file.write(f'<!DOCTYPE html>\n<html lang="en"><head><meta charset="utf-8"><meta name="viewport" content="width=device-width">'
               f"<title>{title}</title><style>{STYLE}</style></head><body>")
    file.write(contents(entries) if len(entries) > 1 else "")
    for number, entry in enumerate(entries, 1):
        file.write(f'<section id="file-{number}"><h1>{text(entry.title())}</h1>\n')
        if isinstance(entry, Unreadable):
            file.write(f'<p class="verdict bad">{text(entry.sentence())}</p>\n')
        else:
            file.writelines(part(entry) + "\n" for part in (verdict, counts, doubts, copies, timeline, frames, pictures, others))
        file.write("</section>")
    first = entries[0]
    made = ", ".join(f"{name} {version}" for name, version in first.versions.items())
    file.write(f"<footer><p>{text(first.date)}. {text(made)}.</p><p><code>{text(' '.join(first.command))}</code></p></footer>"
               "\n</body></html>\n")


def contents(entries: Sequence[Entry]) -> str:
    """How many files are damaged, and a table of all, the worst first, each with a link to its part."""
    worst, rows = max(entry.status for entry in entries), list(STATES)
    ordered = sorted(enumerate(entries, 1), key=lambda each: rows.index(each[1].status))
    cells = "".join(f'<tr><td class="w"><a href="#file-{number}">{text(entry.title())}</a></td><td class="k">{STATES[entry.status]}</td>'
                    f'<td class="w">{text(entry.sentence())}</td></tr>' for number, entry in ordered)
    return (f'<h1>Files</h1><p class="verdict {"bad" if worst else "good"}">{of_files(entries)}</p>'
            f'<table class="wide"><thead><tr><th>File</th><th>State</th><th>What was found</th></tr></thead><tbody>{cells}</tbody></table>\n')


def verdict(summary: Summary) -> str:
    """What is to be known first: the verdict, and what a kept digest says."""
    judged, compared = summary.verdict, summary.verdict.compared
    sentences = [(judged.status == 0, summary.sentence()), *([(compared.is_original, compared.text)] if compared else [])]
    return "".join(f'<p class="verdict {"good" if is_good else "bad"}">{text(sentence)}</p>'
                   for at, (is_good, sentence) in enumerate(sentences) if not at or sentence != sentences[0][1])


def doubts(summary: Summary) -> str:
    """Why OUT may not be what was recorded, and what else is to be said."""
    parts = (("What is in doubt", lines(summary.verdict.reasons, summary.out_name())), ("Notes", [*summary.notes, *summary.verdict.notes]))
    return "".join(f"<h2>{head}</h2><ul>{''.join(f'<li>{text(line)}</li>' for line in entries)}</ul>" for head, entries in parts if entries)


def counts(summary: Summary) -> str:
    sums, named = summary.verdict.sums.named(), summary.verdict.counts.named()
    frames_of = {name: count for name, count in named.items() if summary.out or name in ("frames", "damaged")}
    first = "".join(f'<tr><th scope="row">{name}</th><td class="n">{count:,}</td></tr>' for name, count in frames_of.items())
    second = "".join(f'<tr><th scope="row">{name}</th><td class="n">{sums[name]:,}</td><td>{meaning}</td></tr>'
                     for name, meaning in SUMS.items())
    return (f'<div class="side"><div><h2>Frames</h2><table>{first}</table></div><div><h2>Bytes of {summary.out_name()}</h2>'
            f"<table>{second}</table></div></div>")


def copies(summary: Summary) -> str:
    """A table of the copies and OUT, and the tracks."""
    heads = "".join(f"<th>{head}</th>" for head in ("", "File", "Container", "Bytes", "Verified", *(("Serves as",) if summary.out else ())))
    rows = "".join(copy_row(f"copy {number}", copy, copy.role.value + (f": {copy.why}" if copy.why else "") if summary.out else None)
                   for number, copy in enumerate(summary.copies, 1)) + (copy_row("OUT", summary.out, "") if summary.out else "")
    tracks = "".join(f'<li>track {track.number}: {track.content.value}, {text(track.codec)}'
                     + (f", {track.width} × {track.height}" if track.width else "") + "</li>" for track in summary.layout.tracks)
    return f'<h2>Files</h2><table class="wide"><thead><tr>{heads}</tr></thead><tbody>{rows}</tbody></table><ul>{tracks}</ul>'


def copy_row(name: str, copy: CopySummary, role: str | None) -> str:
    """A row of a file; `role` is how it serves, if it is one of several."""
    digest = f'<br><code class="sha">SHA-256 {copy.sha256}</code>' if copy.sha256 else ""
    verified = "" if copy.verified is None else share_of(copy.verified, copy.size)
    return (f'<tr><th scope="row">{name}</th><td class="w">{text(copy.name())}{digest}</td><td>{text(copy.form or "unknown")}</td>'
            f'<td class="n">{copy.size:,}</td><td class="n">{verified}</td>' + ("" if role is None else f"<td>{text(role)}</td>") + "</tr>")


def timeline(summary: Summary) -> str:
    drawn = Timeline(summary)
    more = f"<p>{drawn.more} further copies are not drawn.</p>" if drawn.more else ""
    of_out = legend("OUT, the worst of each place", OF_OUT) if summary.out else ""
    return "<h2>Where the damage lies</h2>" + drawn.svg() + more + legend("Copies" if summary.out else "The file", OF_COPY) + of_out


def legend(what: str, shades: Sequence[Shade]) -> str:
    keys = "".join(f'<span class="key" style="background:{COLOURS[shade]}"></span>{WORDS[shade]}' for shade in shades)
    return f"<p>{what}:{keys}</p>"


# ---- tables of what is damaged


def frames(summary: Summary) -> str:
    """The frames that are damaged in some copy, those that are not restored first."""
    results = summary.verdict.results
    damaged = sorted(results.frames.values(), key=lambda result: (result.state is not FrameState.LOST, result.number))
    if not damaged:
        return "<h2>Damaged frames</h2><p>No frame is damaged.</p>"
    several = sum(track.is_ffv1 for track in summary.layout.tracks) > 1
    heads = ("Frame", *(("Track",) if several else ()), "Time", *(("Damaged in copy", "Mended") if summary.out else ()),
             "Damaged slices, by bytes of the frame" + (", and how they are mended" if summary.out else ""))
    rows = "".join(frame_row(result, frame_of(result, results), several, summary.out is None) for result in damaged[:MOST_ROWS])
    first = "<p>Those that are not restored come first.</p>" if summary.out else ""
    return f"<h2>Damaged frames</h2>{first}" + table(heads, rows, len(damaged))


def table(heads: Sequence[str], rows: str, count: int) -> str:
    more = f"<p>The first {MOST_ROWS} of {count} are shown.</p>" if count > MOST_ROWS else ""
    cells = "".join(f'<th scope="col">{head}</th>' for head in heads)
    return f'{more}<table class="wide"><thead><tr>{cells}</tr></thead><tbody>{rows}</tbody></table>'


def frame_row(result: FrameResult, frame: Made, several: bool, is_check: bool) -> str:
    """A row of a frame, which the document has so. Of a file that is checked it says what of the frame is damaged."""
    damaged = [place for each, place in zip(result.slices, frame["slices"]) if each.state != "settled" or "0" in each.marks]
    spans = [f"{', '.join('{} to {}'.format(*place['range_in_frame']) for place in group)}: {how}"
             for how, group in itertools.groupby(damaged[:MOST_SLICES], key=functools.partial(how_slice, is_check=is_check))]
    spans += [f"and {len(damaged) - MOST_SLICES} more slices"] if len(damaged) > MOST_SLICES else []
    track = f'<td class="n">{frame["track"]}</td>' if several else ""
    mended = "" if is_check else f"<td>{numbers(frame['damaged_in'])}</td><td class=\"k\">{frame['state']}</td>"
    return (f'<tr><td class="n">{frame["frame"]}</td>{track}<td class="n">{time_code(frame["time"])}</td>{mended}'
            f"<td>{'<br>'.join(map(text, spans))}</td></tr>")


def pictures(summary: Summary) -> str:
    """What can be shown of frames that are not restored, those with the most hatched tiles first."""
    shown = sorted((each for each in summary.shown if each.image is not None), key=lambda each: (-len(each.tiles.hatched()), each.result.number))
    if not shown:
        return ""
    several = sum(track.is_ffv1 for track in summary.layout.tracks) > 1
    figures = "".join(map(functools.partial(figure, results=summary.verdict.results, several=several), shown))
    lost = summary.verdict.counts.lost
    most = f" {len(shown):,} of {lost:,} are shown, those with the most lost tiles." if lost > len(shown) else ""
    what = "frames that are not restored" if summary.out else "damaged frames"
    return f'<h2>What can be shown of {what}</h2><p>{HATCHED}{most}</p><div class="frames">{figures}</div>'


def figure(drawn: Drawn, results: Results, several: bool) -> str:
    frame = frame_of(drawn.result, results)
    name = f"frame {frame['frame']}" + (f" of track {frame['track']}" if several else "") + f", {time_code(frame['time'])}"
    image, said = base64.b64encode(drawn.image or b"").decode(), list(map(text, captions(drawn)))
    alt = f"{name}: {'; '.join(said)}"
    return (f'<figure><img src="data:image/png;base64,{image}" alt="{alt}">'
            f"<figcaption><b>{name}</b><br>{'<br>'.join(said)}</figcaption></figure>")


def captions(drawn: Drawn) -> Iterator[str]:
    """What is to be said of a picture."""
    tiles = drawn.tiles
    yield f"{len(tiles.hatched())} of {drawn.count} tiles hatched"
    if tiles.faulty:
        yield f"{len(tiles.faulty)} of these undamaged, but can't be decoded"
    if not tiles.is_key and len(tiles.hatched()) < drawn.count:
        yield "no keyframe: undamaged tiles are plain gray, as the frames before are needed to decode them"
    if tiles.unclean:
        yield f"{len(tiles.unclean)} shown, but their slices do not end as an encoder ends them"


def how_slice(place: Made, is_check: bool = False) -> str:
    """What OUT has in place of a slice that is damaged in some copy; of a file that is checked, in what it is damaged."""
    many = "copies" if len(place["given_by"]) != 1 else "copy"
    how = (OF_CHECKS if is_check else HOW).get(place["state"], "the footers do not lead there")
    return how.format(many=many, givers=numbers(place["given_by"]), count=place["combinations"])


def numbers(copies_of: Iterable[int]) -> str:
    return ", ".join(map(str, copies_of))


def others(summary: Summary) -> str:
    """What else is damaged in some copy: sound, headers, index and so on."""
    damaged = (stretch for stretch in listed(summary.verdict.results) if stretch["checksum"] != Kind.FRAME.value and not stretch["frames"])
    rows = list(map(functools.partial(other_row, is_check=summary.out is None), itertools.islice(damaged, MOST_ROWS)))
    count = len(rows) + sum(1 for _ in damaged)
    heads = ("What", "Time", "Bytes", *(("Damaged in copy", "Mended") if summary.out else ()))
    return "<h2>Other damage</h2>" + table(heads, "".join(rows), count) if rows else ""


def other_row(stretch: Made, is_check: bool = False) -> str:
    track = "" if stretch["track"] is None else f" of track {stretch['track']}"
    start, end = stretch["times"] or (None, None)
    time = "" if start is None else span_of_times((start, start if end is None else end))
    other = sorted({place["copy"] for place in stretch["places"] if place["is_alike"] is False})
    first, last = stretch["range"]
    mended = "" if is_check else f"<td>{numbers(other)}</td><td>{STANDS.get(stretch['state'], stretch['state'])}</td>"
    return f"<tr><td>{stretch['content']}{track}</td><td>{time}</td><td class=\"n\">{first:,} to {last:,}</td>{mended}</tr>"

