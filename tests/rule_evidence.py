"""What mend-reel makes of the evidence in copies, in their containers and in maps: checks of the rules that tests/rules lists, in several containers
and each order of the copies."""
from __future__ import annotations

import itertools
import pathlib
import tempfile
import typing
from functools import partial

import reels
import small_recordings as small
from rule_checks import ALL, CONTAINERS, WITHOUT_CHECKSUMS, Checks, Problems, gives, in_each_order, of_rule
from rule_desk import Check, Desk, Kit, dishonest, not_out, said_of_check
from small_recordings import SECTOR, Recording

# How the packets of a NUT file begin that have a checksum of their own, by what they are.
NUT_PACKETS = {"main header": "4e4d7a561f5f04ad", "stream header": "4e5311405bf2f9db", "syncpoint": "4e4be4adeeca4569", "index": "4e58dd672f23e64e"}
SEEK_HEAD, CUES, CLUSTER, TIMESTAMP, SIMPLE_BLOCK = 0x114D9B74, 0x1C53BB6B, 0x1F43B675, 0xE7, 0xA3
TITLES = ("the first", "the other", "a title that is longer than the others")


# ---- 5: what a file says of itself is a check


def wrong_claims(recording: Recording) -> typing.Iterator[tuple[str, bytes]]:
    """Files that say of themselves what is not so, by what was changed."""
    of_kind = {"avi": of_avi, "nut": of_nut, "mov": of_mov, "mkv": of_matroska}[recording.ending]
    for what, place in of_kind(recording):
        yield what, small.inverted(recording.content, place, bit=0)


def of_avi(recording: Recording) -> typing.Iterator[tuple[str, int]]:
    index, _ = small.chunk(recording.content, b"idx1")
    yield from {"the offset of an entry of idx1": index + 16 * 3 + 9, "the size of an entry of idx1": index + 16 * 4 + 12,
                "the name of an entry of idx1": index + 16 * 2 + 1}.items()
    yield "the count of frames in avih", small.chunk(recording.content, b"avih")[0] + 16
    yield "the length in strh", small.chunk(recording.content, b"strh")[0] + 32


def of_nut(recording: Recording) -> typing.Iterator[tuple[str, int]]:
    for what, start in NUT_PACKETS.items():
        yield f"a byte of the {what}", recording.content.find(bytes.fromhex(start)) + 12
    yield "the checksum of the index", len(recording.content) - 1
    yield "the size of the index", len(recording.content) - 5


def of_mov(recording: Recording) -> typing.Iterator[tuple[str, int]]:
    content = recording.content
    for track, what in enumerate(("video", "sound")):
        yield f"the place of a chunk of {what}", small.atom(content, b"stco", track)[0] + 8 + 4 * 2 + 3
        yield f"a count of stts of {what}", small.atom(content, b"stts", track)[0] + 8 + 3
    yield "the size of a frame", small.atom(content, b"stsz", 0)[0] + 12 + 4 * 3 + 3
    yield "the count of samples of sound", small.atom(content, b"stsz", 1)[0] + 11


def of_matroska(recording: Recording) -> typing.Iterator[tuple[str, int]]:
    content = recording.content
    _, begin, end = small.top(content, SEEK_HEAD)[0]
    for number, (_, start, stop) in enumerate(within(content, begin, end, (0x4DBB, 0x53AC))):
        yield f"entry {number} of the table of contents", stop - 1
    _, begin, end = small.top(content, CUES)[0]
    yield "the time of an entry of the index", list(within(content, begin, end, (0xBB, 0xB3)))[1][2] - 1
    yield "the place of an entry of the index", list(within(content, begin, end, (0xBB, 0xB7, 0xF1)))[2][2] - 1
    _, begin, end = small.top(content, CLUSTER)[-2]
    yield "the time of a cluster", list(within(content, begin, end, (TIMESTAMP,)))[0][2] - 1


def within(content: bytes, begin: int, end: int, path: typing.Sequence[int]) -> typing.Iterator[tuple[int, int, int]]:
    """The elements in a range that a path of identities leads to."""
    for identity, place, start, stop in small.elements(content, begin, end):
        if identity == path[0] and path[1:]:
            yield from within(content, start, stop, path[1:])
        elif identity == path[0]:
            yield place, start, stop


@of_rule(5)
def claims_are_checked(kit: Kit) -> Checks:
    for recording in kit.some(*WITHOUT_CHECKSUMS, "mov-tables-first", "matroska"):
        for what, content in wrong_claims(recording):
            yield Check(recording.name, f"checked: {what}", partial(is_found, recording=recording, content=content))
            yield from in_each_order(recording, f"undamaged beside {what}", [recording.content, content], partial(gives, recording=recording))


def is_found(desk: Desk, recording: Recording, content: bytes) -> Problems:
    """That a file is called damaged, or can't be read at all."""
    found = desk.check(content, recording.ending)
    if found.status == 0:
        yield f"the status is {found.status}: {found.text.splitlines()[:1]} {found.fault.strip()[-200:]}"
    yield from said_of_check(found)


def of_no_track(recording: Recording) -> typing.Iterator[tuple[str, bytes]]:
    """A Matroska file in which a block says that it is of a track that is not there."""
    for _, begin, end in small.top(recording.content, CLUSTER)[-2:-1] if recording.ending == "mkv" else ():
        _, place, _ = next(within(recording.content, begin, end, (SIMPLE_BLOCK,)))
        yield "the track of a block", small.inverted(recording.content, place)


@of_rule(5)
def copies_that_are_alike_vouch_for_no_claim(kit: Kit) -> Checks:
    for recording in kit.some(*WITHOUT_CHECKSUMS):
        for what, content in (*wrong_claims(recording), *of_no_track(recording)):
            yield Check(recording.name, f"two copies with {what} wrong alike", partial(is_no_better, recording=recording, content=content))


def is_no_better(desk: Desk, recording: Recording, content: bytes) -> Problems:
    """That OUT of copies that are alike has no better status than a check of it."""
    found = desk.mend([content, content], recording.ending)
    if found.status == 0 and found.out is not None and desk.check(found.out, recording.ending).status != 0:
        yield f"status 0, and a check of OUT has another: {found.text.splitlines()[:3]}"


# ---- 6: each change of shift is in doubt, unless a checksum covers it


def shifted(recording: Recording) -> dict[str, bytes]:
    """Copies with bytes lost from sound, or put into it."""
    (one, _), (other, _) = recording.sound[1], recording.sound[3]
    return {"64 bytes lost": small.lost(recording.content, one + 100, 64), "2 bytes lost": small.lost(recording.content, other + 500, 2),
            "64 bytes put in": small.put_in(recording.content, one + 300, b"\x11\x22\x33\x44" * 16),
            "512 zeros put in": small.put_in(recording.content, other + 200, bytes(SECTOR))}


@of_rule(6)
def bytes_lost_from_sound(kit: Kit) -> Checks:
    for recording in kit.some(*ALL):
        for what, content in shifted(recording).items():
            yield Check(recording.name, f"{what}, checked", partial(is_found, recording=recording, content=content))
            for count in (1, 2):
                yield Check(recording.name, f"{what}, {count} alike", partial(is_doubted, recording=recording, contents=[content] * count))
            yield from in_each_order(recording, f"undamaged beside {what}", [recording.content, content], partial(gives, recording=recording))


@of_rule(6)
def bytes_lost_in_different_places(kit: Kit) -> Checks:
    for recording in kit.some(*ALL):
        found = shifted(recording)
        for one, other in itertools.combinations(found, 2):
            yield from in_each_order(recording, f"{one} and {other}", [found[one], found[other]], partial(is_true, recording=recording))


@of_rule(6)
def frames_that_are_there_twice(kit: Kit) -> Checks:
    for recording in kit.some("matroska", "matroska-plain", "avi", "nut", "mov"):
        rotten = small.inverted(recording.content, *(small.places_in_frame(recording, number)["middle of slice 2"] for number in (2, 4, 5)))
        for number in (2, len(recording.frames) - 2):
            (first, _), (after, _) = recording.frames[number : number + 2]
            twice = recording.content[:after] + recording.content[first:]
            yield from in_each_order(recording, f"a damaged copy beside one with frame {number} twice", [rotten, twice],
                                     partial(is_true, recording=recording))


def is_true(desk: Desk, recording: Recording, contents: typing.Sequence[bytes]) -> Problems:
    """That status 0 is given to the recording alone."""
    yield from dishonest(desk.mend(contents, recording.ending), recording.content)


def is_doubted(desk: Desk, recording: Recording, contents: typing.Sequence[bytes]) -> Problems:
    found = desk.mend(contents, recording.ending)
    if found.status != 3 and not recording.has_checksums:
        yield f"the status is {found.status}: {found.text.splitlines()[:1]}"
    yield from dishonest(found, recording.content)


# ---- 7: a map is a witness, not a judge


def map_text(place: int, size: int, whole: int) -> bytes:
    """A mapfile of ddrescue's by which one place is unread."""
    return f"0x00000000 + 1\n0 {place} +\n{place} {size} -\n{place + size} {whole - place - size} +\n".encode()


def sector_in(spot: tuple[int, int]) -> int:
    """The first sector that begins within a frame or a packet."""
    return -(-spot[0] // SECTOR) * SECTOR


@of_rule(7)
def a_map_of_another_file(kit: Kit) -> Checks:
    """A map that calls a place unread which holds content: of sound, or of a frame that the other copy has damaged."""
    for recording in kit.some(*CONTAINERS):
        spots = {"sound": recording.sound[2], "a frame": recording.frames[3]}
        for what, spot in spots.items():
            text = map_text(sector_in(spot), SECTOR, len(recording.content))
            damaged = small.garbled(recording.content, spot[0] + spot[1] // 2, 30) if what == "a frame" else recording.content
            for words in (("--check", "a"), ("-o", "out", "a"), ("-o", "out", "a", "b"), ("-o", "out", "b", "a")):
                yield Check(recording.name, f"{what} is there, {' '.join(words)}",
                            partial(is_of_another_file, recording=recording, damaged=damaged, text=text, words=words))


def is_of_another_file(desk: Desk, recording: Recording, damaged: bytes, text: bytes, words: typing.Sequence[str]) -> Problems:
    """That it is said that the map is of another file, with status 3, and that OUT has what is there."""
    for name, content in ((f"a.{recording.ending}", recording.content), (f"b.{recording.ending}", damaged), ("map", text)):
        desk.write(name, content)
    found = desk.documented("--map", f"a.{recording.ending}=map", *(word if word.startswith("-") else f"{word}.{recording.ending}" for word in words))
    if "-o" in words:
        yield from not_out(found, [recording.content], (3,))
    elif found.status != 3:
        yield f"the status is {found.status}"
    if "map of another file" not in found.text + found.fault:
        yield f"it is not said that the map is of another file: {' / '.join((found.text + found.fault).splitlines())[:300]}"


@of_rule(7)
def a_map_of_this_file(kit: Kit) -> Checks:
    for recording in kit.some(*CONTAINERS):
        for what, spot in (("sound", recording.sound[2]), ("a frame", recording.frames[3])):
            place = sector_in(spot)
            copies = [small.filled(recording.content, place, SECTOR), recording.content]
            for order in ("ab", "ba"):
                yield Check(recording.name, f"{what} could not be read, copies {order}",
                            partial(is_mended_by_map, recording=recording, copies=copies, place=place, order=order))


def is_mended_by_map(desk: Desk, recording: Recording, copies: typing.Sequence[bytes], place: int, order: str) -> Problems:
    for name, content in zip("ab", copies):
        desk.write(f"{name}.{recording.ending}", content)
    desk.write("map", map_text(place, SECTOR, len(recording.content)))
    found = desk.documented("--map", f"a.{recording.ending}=map", "-o", f"out.{recording.ending}", *(f"{name}.{recording.ending}" for name in order))
    yield from not_out(found, [recording.content])
    if "another file" in found.text:
        yield "it is said that the map is of another file"


# ---- 9: a copy's own readable start decides its container


@of_rule(9)
def a_piece_of_another_container_is_content(kit: Kit) -> Checks:
    pieces = {name: kit.recording(name).content[:1200] for name in ("matroska", "avi", "nut", "mov-tables-first")}
    for recording in kit.some("matroska-plain", "avi", "nut", "mov"):
        for what, piece in pieces.items():
            place = recording.sound[2][0] + 300
            content = recording.content[:place] + piece + recording.content[place + len(piece) :]
            holding = recording.changed(content)
            yield Check(recording.name, f"checked with a piece of {what} in its sound", partial(has_container, recording=holding))
            damaged = small.inverted(content, small.places_in_frame(recording, 5)["middle of slice 0"])
            yield from in_each_order(holding, f"undamaged beside one damaged, both with a piece of {what}", [content, damaged],
                                     partial(gives, recording=holding))
            headless = small.filled(content, 0, SECTOR)
            yield from in_each_order(holding, f"undamaged beside one without its first sector, both with a piece of {what}", [content, headless],
                                     partial(gives, recording=holding))


def has_container(desk: Desk, recording: Recording) -> Problems:
    found = desk.check(recording.content, recording.ending)
    container = found.file.get("copies", [{}])[0].get("container") or ""
    if found.status != 0 or not container.startswith(recording.name.split("-")[0]):
        yield f"the status is {found.status}, and the container is {container or 'unknown'}: {found.text.splitlines()[:1]}"


# ---- 10: structure that is contested comes from one copy


def editions(kit: Kit, name: str) -> list[Recording]:
    """Three undamaged files of one recording, which differ in their titles: as FFmpeg or mkvmerge wrote them, or mkvpropedit changed them."""
    if not name.startswith("mkv"):
        return [kit.again(name, name, "-metadata", f"title={title}") for title in TITLES]
    with tempfile.TemporaryDirectory(dir=kit.folder) as folder:
        source, made = kit.again("matroska" if name == "mkvpropedit" else "nut", "matroska"), []
        for number, title in enumerate(TITLES):
            path = pathlib.Path(folder) / f"{number}.mkv"
            path.write_bytes(source.content)
            if name == "mkvmerge":
                reels.mkvmerge(path.with_suffix(".made.mkv"), path)
                path = path.with_suffix(".made.mkv")
            done = reels.run("mkvpropedit", path, "--edit", "info", "--set", f"title={title}", "--edit", "track:a1", "--set", f"name={title}")
            if done.returncode:
                raise RuntimeError(done.stdout.decode(errors="replace"))
            made.append(small.read(path, "matroska-plain"))
        return made


@of_rule(10)
def two_editions_give_one(kit: Kit) -> Checks:
    for name in ("mkvpropedit", "mkvmerge", "matroska", "matroska-plain", "avi", "nut", "mov"):
        files = editions(kit, name)
        for one, other in itertools.permutations(range(3), 2):
            yield Check(name, f"editions {one} and {other}", partial(is_one_edition, files=[files[one], files[other]]))
        place, size = files[1].sound[1]
        shifted = files[1].changed(small.lost(files[1].content, place + size // 2, 2))
        for what, damaged in (("a damaged one of another", damaged_in_frame(files[1], 4)), ("one of another that lost sound", shifted)):
            for copies in ([files[0], damaged], [damaged, files[0]]):
                yield Check(name, f"an edition beside {what}, copies {'0 1' if copies[1] is damaged else '1 0'}",
                            partial(is_one_edition, files=copies, wanted=[files[0].content]))


@of_rule(10)
def damaged_editions_are_not_mixed(kit: Kit) -> Checks:
    for name in ("matroska", "matroska-plain"):
        recording = kit.recording(name)
        edition = edited(kit, recording, TITLES[0])
        changed = damaged_in_frame(edition, 4)
        for order in itertools.permutations(range(3)):
            copies = [[damaged_in_frame(recording, 2), damaged_in_frame(recording, 3), changed][number] for number in order]
            # Of plain Matroska the edition alone has CRC-32s in what describes the recording.
            yield Check(name, f"two damaged copies and a damaged one with another title, copies {' '.join(map(str, order))}",
                        partial(is_one_edition, files=copies, wanted=[recording.content, *[edition.content] * (name == "matroska-plain")]))
        for order in itertools.permutations(range(2)):
            copies = [[recording, changed][number] for number in order]
            yield Check(name, f"an undamaged copy and a damaged one with another title, copies {' '.join(map(str, order))}",
                        partial(is_one_edition, files=copies, wanted=[recording.content]))


@of_rule(10)
def sound_of_editions_is_compared(kit: Kit) -> Checks:
    for name in ("mkvpropedit", "mkvmerge", "matroska-plain", "avi", "nut", "mov"):
        files = editions(kit, name)
        for at in (0, len(files[1].sound) // 2):
            place, size = files[1].sound[at]
            other = files[1].changed(small.inverted(files[1].content, place + size // 2))
            for copies in ([files[0], other], [other, files[0]]):
                yield Check(name, f"editions with other sound in packet {at}, copies {'0 1' if copies[1] is other else '1 0'}",
                            partial(is_in_doubt, files=copies))


def is_in_doubt(desk: Desk, files: typing.Sequence[Recording]) -> Problems:
    found = desk.mend([each.content for each in files], files[0].ending)
    yield from not_out(found, [each.content for each in files], (3,))


def damaged_in_frame(recording: Recording, number: int) -> Recording:
    """The recording with one wrong bit in a slice of a frame."""
    return recording.changed(small.inverted(recording.content, small.places_in_frame(recording, number)["middle of slice 2"]))


def edited(kit: Kit, recording: Recording, title: str) -> Recording:
    """The file of a recording after mkvpropedit gave it a title."""
    with tempfile.TemporaryDirectory(dir=kit.folder) as folder:
        path = pathlib.Path(folder) / "edited.mkv"
        path.write_bytes(recording.content)
        done = reels.run("mkvpropedit", path, "--edit", "info", "--set", f"title={title}")
        if done.returncode:
            raise RuntimeError(done.stdout.decode(errors="replace"))
        return small.read(path, recording.name)


def is_one_edition(desk: Desk, files: typing.Sequence[Recording], wanted: typing.Sequence[bytes] = ()) -> Problems:
    found = desk.mend([each.content for each in files], files[0].ending)
    yield from not_out(found, wanted or [each.content for each in files], (0, 3))
    if "damaged element headers" in found.text:
        yield "it is said that a copy has damaged element headers"
    if len(found.text.splitlines()) < 4 and not wanted:
        yield "no line says that the copies are two editions"


# ---- 11: the end by the header ends the file


@of_rule(11)
def joined_files_give_the_first(kit: Kit) -> Checks:
    for recording in kit.some(*ALL):
        for what, more in (("another recording", kit.recording(recording.name, small.OTHER_PICTURE)), ("itself", recording)):
            joined = recording.content + more.content
            for checks in (True, False):
                yield Check(recording.name, f"joined with {what}, {'checked' if checks else 'alone'}",
                            partial(ends_by_its_header, recording=recording, contents=[joined], checks=checks))
            yield from in_each_order(recording, f"undamaged beside it joined with {what}", [recording.content, joined],
                                     partial(gives, recording=recording, statuses=(0, 3)))
            copies = [small.garbled(recording.content, recording.frames[2][0] + 100, 20), joined]
            yield from in_each_order(recording, f"damaged beside it joined with {what}", copies, partial(ends_by_its_header, recording=recording))
            padded, both = (small.garbled(content, recording.frames[2][0] + start, 20) for content, start in (
                (recording.content + bytes(5000), 100), (joined, 110)))
            yield from in_each_order(recording, f"padded beside it joined with {what}, both damaged", [padded, both], partial(ends_there, recording=recording))


def ends_there(desk: Desk, recording: Recording, contents: typing.Sequence[bytes]) -> Problems:
    found = desk.mend(contents, recording.ending)
    if found.out is None or len(found.out) != len(recording.content):
        yield f"OUT has {len(found.out or b'')} bytes, and not {len(recording.content)}, with status {found.status}"


def ends_by_its_header(desk: Desk, recording: Recording, contents: typing.Sequence[bytes], checks: bool = False) -> Problems:
    found = desk.check(contents[0], recording.ending) if checks else desk.mend(contents, recording.ending)
    if not checks:
        yield from not_out(found, [recording.content], (0, 3))
    if "after the end" not in found.text:
        yield f"what lies after the end is not named: {' / '.join(found.text.splitlines())[:300]}"


# ---- 12: a readable file comes before an unreadable one


def headless(recording: Recording) -> dict[str, bytes]:
    """Copies that can't be opened, with all frames right."""
    content, (first, _) = recording.content, recording.frames[0]
    if recording.name == "mov":
        place, size = small.atom(content, b"moov")
        return {"without its tables": small.filled(content, place - 8, size + 8), "with garbage in its tables": small.garbled(content, place, size)}
    start = min(first, 4096)
    return {"without its start": small.filled(content, 0, start), "with garbage in its start": small.garbled(content, 0, start)}


@of_rule(12)
def a_file_that_can_be_opened(kit: Kit) -> Checks:
    for recording in kit.some(*ALL):
        places = [small.places_in_frame(recording, frame)["middle of slice 2"] for frame in (1, 3, 4, 6)]
        damaged = recording.content
        for place in places:
            damaged = small.garbled(damaged, place - 20, 40)
        for what, unreadable in headless(recording).items():
            yield from in_each_order(recording, f"damaged beside one {what}", [damaged, unreadable], partial(is_shown, recording=recording))


def is_shown(desk: Desk, recording: Recording, contents: typing.Sequence[bytes]) -> Problems:
    """That OUT can be opened, and has each frame."""
    found = desk.mend(contents, recording.ending)
    yield from dishonest(found, recording.content)
    if found.out is None:
        yield f"no OUT was made: {found.fault.strip()[-200:]}"
        return
    shown = small.shows(desk.folder / f"out.{recording.ending}")
    if shown != small.FRAMES:
        yield f"OUT shows {shown} of {small.FRAMES} frames"
    yield from lost_frames(recording, found.out)


def lost_frames(recording: Recording, made: bytes) -> Problems:
    wrong = [number for number, (place, size) in enumerate(recording.frames) if recording.content[place : place + size] not in made]
    if wrong:
        yield f"OUT lacks the frames {wrong}"


# ---- 13: long filling counts as unread


@of_rule(13)
def zeroed_pieces_in_turn(kit: Kit) -> Checks:
    for recording in kit.some(*ALL):
        for size, count, first in ((4096, 2, 0), (2048, 2, 0), (4096, 3, 0), (8192, 2, 0), (4096, 2, 1000)):
            copies = small.in_turn(recording.content, size, count, first)
            what = f"pieces of {size} from {first} on in {count} copies"
            yield from in_each_order(recording, what, copies, partial(comes_back, recording=recording))


def comes_back(desk: Desk, recording: Recording, contents: typing.Sequence[bytes]) -> Problems:
    """All of it where CRC-32s cover it; else the frames."""
    found = desk.mend(contents, recording.ending)
    if recording.has_checksums:
        yield from not_out(found, [recording.content])
    elif found.out is None:
        yield f"no OUT was made: {found.fault.strip()[-200:]}"
    else:
        yield from lost_frames(recording, found.out)
        yield from dishonest(found, recording.content)


# ---- 14: what most have is tried first


def many_wrong(content: bytes, start: int, step: int, count: int, number: int, copies: int) -> bytes:
    """A copy with as many wrong bytes, at places where no other of so many copies has one."""
    return small.inverted(content, *(start + step * (copies * at + number) for at in range(count)))


@of_rule(14)
def many_differences_in_one_element(kit: Kit) -> Checks:
    for recording in kit.some("matroska", "matroska-flac"):
        start, _ = recording.sound[2]
        for copies, count in ((3, 40), (4, 40), (5, 25)):
            made = [many_wrong(recording.content, start + 20, 3, count, number, copies) for number in range(copies)]
            for order in range(copies):
                yield Check(recording.name, f"{count} wrong bytes of sound in each of {copies} copies, from copy {order} on",
                            partial(gives, recording=recording, contents=made[order:] + made[:order]))


@of_rule(14)
def many_differences_in_one_slice(kit: Kit) -> Checks:
    for recording in kit.some(*CONTAINERS):
        start, size = recording.slices(3)[1]
        for copies in (3, 4):
            count = (size - 90) // (3 * copies)
            made = [many_wrong(recording.content, start + 10, 3, count, number, copies) for number in range(copies)]
            for order in range(copies):
                yield Check(recording.name, f"{count} wrong bytes of a slice in each of {copies} copies, from copy {order} on",
                            partial(gives, recording=recording, contents=made[order:] + made[:order], statuses=(0, 3)))


# ---- 15: evidence that is there is used


@of_rule(15)
def sound_of_another_container(kit: Kit) -> Checks:
    pairs = [("avi", "mov"), ("avi", "nut"), ("matroska", "avi"), ("matroska-plain", "nut"), ("nut", "matroska"), ("mov", "matroska")]
    for name, other in pairs:
        one, two = kit.recording(name), kit.again(name, other)
        yield from lost_sound(one, two, small.filled(one.content, sector_in(one.sound[2]), SECTOR))
    for name, other in (("matroska-flac", "nut-flac"), ("nut-flac", "matroska-flac")):
        one, two = kit.recording(name), kit.again(name, other)
        yield from lost_sound(one, two, small.garbled(one.content, one.sound[2][0] + 60, 50))


def lost_sound(one: Recording, two: Recording, damaged: bytes) -> Checks:
    """Checks of a file that lost sound and a frame, and of another one of the recording that lost another frame."""
    copies = [one.changed(small.garbled(damaged, one.frames[1][0] + 200, 30)), two.changed(small.garbled(two.content, two.frames[6][0] + 200, 30))]
    for order in ((0, 1), (1, 0)):
        yield Check(one.name, f"sound of {two.name}, copies {' '.join(map(str, order))}",
                    partial(has_all, copies=[copies[at] for at in order], wanted=[one.content, two.content]))


def has_all(desk: Desk, copies: typing.Sequence[Recording], wanted: typing.Sequence[bytes]) -> Problems:
    found = desk.mend(copies, copies[0].ending)
    yield from not_out(found, wanted, (0, 3))
    if "damaged in every copy" in found.text:
        yield f"it is said: {next(line for line in found.text.splitlines() if 'damaged in every copy' in line)[:200]}"


@of_rule(15)
def damaged_in_every_copy(kit: Kit) -> Checks:
    """It is said where it is so."""
    for recording in kit.some(*CONTAINERS):
        start, size = recording.slices(3)[1]
        copies = [small.garbled(recording.content, start + size // 2, 30, seed) for seed in (1, 2)]
        yield from in_each_order(recording, "a slice that is damaged in both", copies, partial(is_said, recording=recording))


def is_said(desk: Desk, recording: Recording, contents: typing.Sequence[bytes]) -> Problems:
    found = desk.mend(contents, recording.ending)
    if found.status != 3 or "damaged in every copy" not in found.text:
        yield f"the status is {found.status}: {' / '.join(found.text.splitlines())[:300]}"
