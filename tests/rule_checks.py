"""What mend-reel finds of single files, and which copy it follows: checks of the rules that tests/rules lists, in several containers and
each order of the copies."""
from __future__ import annotations

import itertools
import pathlib
import re
import typing
from functools import partial

import small_recordings as small
from rule_desk import NOT_OF_CHECKS, Check, Desk, Kit, dishonest, not_damaged, not_out, said_of_check
from small_recordings import SECTOR, Recording

CONTAINERS = ("matroska", "matroska-plain", "avi", "nut", "mov")
ALL = (*CONTAINERS, "mov-tables-first")
WITHOUT_CHECKSUMS = ("matroska-plain", "avi", "nut", "mov")
Checks = typing.Iterator[Check]
Problems = typing.Iterator[str]
RULES: dict[int, list[typing.Callable[[Kit], Checks]]] = {}


def of_rule(number: int) -> typing.Callable[[typing.Callable[[Kit], Checks]], typing.Callable[[Kit], Checks]]:
    """Makes a function one of those that make the checks of a rule."""
    def add(made: typing.Callable[[Kit], Checks]) -> typing.Callable[[Kit], Checks]:
        RULES.setdefault(number, []).append(made)
        return made
    return add


def in_each_order(recording: Recording, what: str, copies: typing.Sequence[bytes], run: typing.Callable[..., Problems]) -> Checks:
    """A check of copies of one file in each of their orders. `run` is given the desk and the copies."""
    for order, contents in small.orders(*copies):
        yield Check(recording.name, f"{what}, copies {order}", partial(run, contents=contents))


def gives(desk: Desk, recording: Recording, contents: typing.Sequence[bytes], statuses: typing.Sequence[int] = (0,)) -> Problems:
    """That OUT is the recording."""
    yield from not_out(desk.mend(contents, recording.ending), [recording.content], statuses)


# ---- 1: a check repairs nothing


@of_rule(1)
def one_bit_in_a_frame(kit: Kit) -> Checks:
    for recording in kit.some(*ALL):
        for frame in range(small.FRAMES):
            yield Check(recording.name, f"one bit of frame {frame}", partial(is_damage, recording=recording, frame=frame))


def is_damage(desk: Desk, recording: Recording, frame: int) -> Problems:
    """Ten files, each with one wrong bit in the frame: each is damaged, in this frame."""
    places = small.places_in_frame(recording, frame)
    names = [desk.write(f"{number}.{recording.ending}", small.inverted(recording.content, place)) for number, place in enumerate(places.values())]
    found = desk.documented("--check", *names)
    if found.status != 3:
        yield f"the status of all ten is {found.status}"
    for what, entry in itertools.zip_longest(places, found.files):
        if entry is None or entry["verdict"]["status"] != 3:
            yield f"{what}: {entry['verdict']['sentence'] if entry else 'not judged'}"
        elif entry["frame_counts"]["damaged"] != 1 or not is_named(entry, frame):
            yield f"{what}: {entry['frame_counts']['damaged']} frames are damaged, and it is said: {entry['verdict']['reasons'][0]['sentence']}"
    if found.text.splitlines()[-1:] != ["10 files: 0 undamaged, 10 damaged, 0 unreadable"]:
        yield f"the last line is {found.text.splitlines()[-1:]}"
    yield from said_of_check(found)


def is_named(entry: dict[str, typing.Any], frame: int) -> bool:
    """Whether it is said of a file that this frame is damaged."""
    sentences = [reason["sentence"] for reason in entry["verdict"]["reasons"]]
    return any(re.search(rf"\bframe {frame}\b", sentence) and "damaged" in sentence for sentence in sentences)


@of_rule(1)
def what_a_check_says(kit: Kit) -> Checks:
    for recording in kit.some(*ALL):
        yield Check(recording.name, "an undamaged file", partial(is_undamaged, recording=recording))
        yield Check(recording.name, "words of a check", partial(says_what_is, recording=recording))
        yield Check(recording.name, "one of three files", partial(counts_files, recording=recording))


def is_undamaged(desk: Desk, recording: Recording) -> Problems:
    found = desk.check(recording.content, recording.ending)
    if found.status != 0 or "no damage was found" not in found.text:
        yield f"the status is {found.status}: {found.text.splitlines()[:4]}"


def says_what_is(desk: Desk, recording: Recording) -> Problems:
    damaged = small.inverted(recording.content, small.places_in_frame(recording, 3)["middle of slice 2"])
    found = desk.check(damaged, recording.ending, "--report", "made.html")
    yield from not_damaged(found)
    if "mend-reel -o OUT" not in found.text:
        yield "it is not said what mend-reel -o OUT would do about it"
    yield from said_by_page(desk.folder / "made.html")


def said_by_page(page: pathlib.Path) -> Problems:
    """What a page of a check says that a check never says. What the program does about damage is named by its call alone."""
    text = re.sub(r"<(style|script|code)\b.*?</\1>|<[^>]+>", " ", page.read_text(), flags=re.S) if page.exists() else ""
    word = NOT_OF_CHECKS.search(text)
    if word or not text:
        yield f"the page says '{text[word.start() - 60 : word.end() + 60]}'" if word else "there is no page"


def counts_files(desk: Desk, recording: Recording) -> Problems:
    bad = small.inverted(recording.content, small.places_in_frame(recording, 3)["middle of slice 2"])
    names = [desk.write(f"{name}.{recording.ending}", content) for name, content in (("a", recording.content), ("b", bad), ("c", recording.content))]
    found = desk.documented("--check", *names)
    if found.status != 3 or found.text.splitlines()[-1:] != ["3 files: 2 undamaged, 1 damaged, 0 unreadable"]:
        yield f"the status is {found.status}, and the last line {found.text.splitlines()[-1:]}"


@of_rule(1)
def bits_beside_frames(kit: Kit) -> Checks:
    """One bit wherever a check covers it: sound in clusters with a CRC-32 and frames of FLAC, headers and the index of Matroska with CRC-32s."""
    for recording in kit.some("matroska", "matroska-flac", "nut-flac"):
        for number, (place, size) in enumerate(recording.sound[::2]):
            yield Check(recording.name, f"one bit of packet {2 * number} of sound", partial(is_bad, recording=recording, place=place + size // 2))
    plain = kit.recording("matroska")
    for identity, what in ((0x1549A966, "information"), (0x1654AE6B, "tracks"), (0x1C53BB6B, "index"), (0x114D9B74, "table of contents")):
        for _, begin, end in small.top(plain.content, identity):
            yield Check("matroska", f"one bit of the {what}", partial(is_bad, recording=plain, place=(begin + 6 + end) // 2))


def is_bad(desk: Desk, recording: Recording, place: int) -> Problems:
    yield from not_damaged(desk.check(small.inverted(recording.content, place), recording.ending))


# ---- 2: undamaged comes first


def damages(recording: Recording) -> dict[str, bytes]:
    """Damaged copies of a recording, each of which a check can tell, by what was done to them."""
    content, places = recording.content, small.places_in_frame(recording, 2)
    middle = recording.frames[4][0] + recording.frames[4][1] // 2
    return {
        "one bit of a frame": small.inverted(content, places["middle of slice 2"]),
        "one bit in each of three frames": small.inverted(content, *(small.places_in_frame(recording, frame)["first byte"] for frame in (1, 3, 6))),
        "a lost sector": small.filled(content, middle // SECTOR * SECTOR, SECTOR),
        "garbage in a frame": small.garbled(content, places["middle of slice 0"], 40),
        "the end lost": content[: len(content) * 2 // 3],
        "512 bytes lost in a frame": small.lost(content, middle, SECTOR),
        "the first sector lost": small.filled(content, 0, SECTOR),
        "512 bytes put in": small.put_in(content, middle, bytes(SECTOR)),
    }


@of_rule(2)
def an_undamaged_copy_is_out(kit: Kit) -> Checks:
    for recording in kit.some(*ALL):
        for what, damaged in damages(recording).items():
            yield from in_each_order(recording, f"undamaged beside {what}", [recording.content, damaged], partial(gives, recording=recording))


@of_rule(2)
def an_undamaged_copy_is_out_of_three(kit: Kit) -> Checks:
    for recording in kit.some(*CONTAINERS):
        found = damages(recording)
        pairs = [("one bit of a frame", "a lost sector"), ("the end lost", "garbage in a frame"), ("512 bytes lost in a frame", "512 bytes put in")]
        for one, other in pairs:
            copies = [recording.content, found[one], found[other]]
            yield from in_each_order(recording, f"undamaged beside {one} and {other}", copies, partial(gives, recording=recording))
        # Two that are damaged alike are no majority over one that is undamaged.
        copies = [recording.content, found["garbage in a frame"], found["garbage in a frame"]]
        yield from in_each_order(recording, "undamaged beside two damaged alike", copies, partial(gives, recording=recording))


@of_rule(2)
def what_others_have_more_counts_among_damaged_files_alone(kit: Kit) -> Checks:
    """A damaged file of another container, with a second track of sound, or with CRC-32s, beside an undamaged one without."""
    pairs = [*((name, "matroska") for name in WITHOUT_CHECKSUMS), ("matroska", "nut"), ("avi", "nut")]
    for name, other in pairs:
        recording, more = kit.recording(name), kit.again(name, other, "-map", "0:a")
        damaged = more.changed(small.inverted(more.content, small.places_in_frame(more, 5)["middle of slice 0"]))
        for order, copies in (("0 1", [recording, damaged]), ("1 0", [damaged, recording])):
            yield Check(name, f"undamaged beside a damaged {other} with more sound, copies {order}",
                        partial(gives_file, recording=recording, copies=copies))


def gives_file(desk: Desk, recording: Recording, copies: typing.Sequence[Recording], statuses: typing.Sequence[int] = (0, 3)) -> Problems:
    """That OUT is the recording, whatever the status is: it may be said that OUT lacks what another copy has."""
    yield from not_out(desk.mend(copies, recording.ending), [recording.content], statuses)


@of_rule(2)
def heads_that_lead_nowhere(kit: Kit) -> Checks:
    """Where heads are damaged in one copy and not in the undamaged one, and another container has the frames too."""
    for name, other in (("matroska", "avi"), ("matroska-flac", "nut"), ("nut", "mov"), ("mov", "avi")):
        recording, more = kit.recording(name), kit.again(name, other, "-an")
        more = more.changed(small.inverted(more.content, small.places_in_frame(more, 6)["middle of slice 0"]))
        content = recording.content
        for frame in (2, 4):
            place, _ = recording.frames[frame]
            content = small.filled(content, place - 40, 52)
        for order, found in small.orders(recording.content, content):
            for at in range(3):
                copies = [recording.changed(each) for each in found]
                copies.insert(at, more)
                yield Check(name, f"undamaged beside damaged heads, copies {order}, and {other} at {at}",
                            partial(gives_file, recording=recording, copies=copies))


@of_rule(2)
def a_cluster_twice(kit: Kit) -> Checks:
    for recording in kit.some("matroska", "matroska-plain"):
        place, _, end = small.top(recording.content, small.CLUSTER)[1]
        twice = small.put_in(recording.content, end, recording.content[place:end])
        copies = [recording.content, twice]
        yield from in_each_order(recording, "undamaged beside one with a cluster twice", copies, partial(gives, recording=recording))
    for name, parent in (("avi", "a chunk"), ("nut", "a frame")):
        recording = kit.recording(name)
        place, end = recording.frames[2][0] - 8, recording.frames[3][0] - 8
        twice = small.put_in(recording.content, end, recording.content[place:end])
        copies = [recording.content, twice]
        yield from in_each_order(recording, f"undamaged beside one with {parent} twice", copies, partial(gives, recording=recording))


@of_rule(2)
def undamaged_copies_that_differ_are_in_doubt(kit: Kit) -> Checks:
    for recording in kit.some(*WITHOUT_CHECKSUMS):
        place, size = recording.sound[3]
        copies = [recording.content, small.garbled(recording.content, place + size // 3, 20)]
        yield from in_each_order(recording, "sound of which nothing says which is right", copies, partial(is_one_in_doubt, known=copies))


@of_rule(2)
def a_copy_that_ends_early_has_a_say(kit: Kit) -> Checks:
    """A byte that nothing checks is wrong in a file in which a check finds no damage, and right in one whose end is lost."""
    for name, before in (("matroska-plain", b"Lavf"), ("avi", b"JUNK"), ("mov", b"ftypqt  ")):
        recording = kit.recording(name)
        wrong = small.inverted(recording.content, recording.content.index(before) + 8)
        copies = [wrong, recording.content[: len(recording.content) * 2 // 3]]
        yield from in_each_order(recording, "a wrong byte that nothing checks beside the end lost", copies, partial(is_one_in_doubt, known=[wrong]))


def is_one_in_doubt(desk: Desk, contents: typing.Sequence[bytes], known: typing.Sequence[bytes]) -> Problems:
    """That OUT is one of some files, and that it is said that the copies differ."""
    found = desk.mend(contents, "bin")
    yield from not_out(found, known, (3,))
    if not any(reason["why"] == "differ" for reason in found.reasons()):
        yield f"it is not said that the copies differ: {[reason['sentence'] for reason in found.reasons()]}"


# ---- 3: what only seems lost loses a vote, and never removes doubt


def silent(recording: Recording, packet: int, start: int, end: int, value: int = 0) -> Recording:
    """A recording of which a packet of sound has one value from a byte to another one."""
    place, _ = recording.sound[packet]
    return recording.changed(small.filled(recording.content, place + start, end - start, value))


@of_rule(3)
def silence_is_content(kit: Kit) -> Checks:
    """One copy has garbage within silence that goes on before and after it in all copies: nothing says that the silence is lost."""
    for recording, value in itertools.product(kit.some(*WITHOUT_CHECKSUMS), (0, 0x80)):
        recording = silent(recording, 3, 100, 1900, value)
        place = recording.sound[3][0]
        copies = [recording.content, small.garbled(recording.content, place + 400, SECTOR + 100)]
        yield from in_each_order(recording, f"garbage in silence of {value}", copies, partial(seems_not_lost, known=copies))
        yield from in_each_order(recording, f"garbage in silence of {value}, in one of three", [recording.content, *copies],
                                 partial(gives, recording=recording, statuses=(0, 3)))


def seems_not_lost(desk: Desk, contents: typing.Sequence[bytes], known: typing.Sequence[bytes]) -> Problems:
    found = desk.mend(contents, "bin")
    yield from not_out(found, known, (3,))
    if any(reason["because"] == "not_lost" for reason in found.reasons()):
        yield f"silence is taken for a lost sector: {found.reasons()[0]['sentence']}"


@of_rule(3)
def a_lost_sector_is_no_padding(kit: Kit) -> Checks:
    """A run that begins within a packet of sound and goes to its end, where all copies have that value, is a lost sector. OUT has what the other copy
    has, and that is in doubt."""
    for recording in kit.some(*WITHOUT_CHECKSUMS):
        recording = silent(recording, 3, 2048 - 40, 2048)
        place = recording.sound[3][0]
        damaged = small.filled(recording.content, place + 2048 - 700, 700)
        yield from in_each_order(recording, "a lost sector that ends in silence", [recording.content, damaged],
                                 partial(gives, recording=recording, statuses=(3,)))


@of_rule(3)
def a_lost_sector_loses_a_vote(kit: Kit) -> Checks:
    for recording in kit.some(*WITHOUT_CHECKSUMS):
        place = recording.sound[3][0] + 300
        copies = [recording.content, small.filled(recording.content, place, SECTOR + 88)]
        yield from in_each_order(recording, "a lost sector in sound", copies, partial(gives, recording=recording, statuses=(3,)))


# ---- 4: a frame that fails its parity is never verified


def broken_frame(recording: Recording, frame: int = 4) -> bytes:
    """A recording of which a frame has some wrong bytes in two slices, which no repair brings back."""
    made = recording.content
    for start, size in recording.slices(frame)[:2]:
        made = small.garbled(made, start + size // 3, 9)
    return made


@of_rule(4)
def damaged_before_it_was_written_again(kit: Kit) -> Checks:
    """A file with CRC-32s that were taken when a frame was damaged already, alone and twice; and copies that have it damaged alike."""
    for name in ("matroska", "matroska-flac", *WITHOUT_CHECKSUMS):
        recording = kit.recording(name)
        content = broken_frame(recording)
        content = small.sealed(content) if recording.has_checksums else content
        size = recording.frames[4][1]
        yield Check(name, "checked", partial(is_not_verified, recording=recording, contents=[content], size=size, checks=True))
        for count in (1, 2, 3):
            yield Check(name, f"{count} copies alike", partial(is_not_verified, recording=recording, contents=[content] * count, size=size))


@of_rule(4)
def written_again_into_matroska(kit: Kit) -> Checks:
    for name in ("avi", "nut", "mov", "matroska-plain"):
        recording = kit.recording(name)
        yield Check(name, "damaged, and then written into Matroska with CRC-32s", partial(is_lost_in_matroska, kit=kit, recording=recording))


def is_lost_in_matroska(desk: Desk, kit: Kit, recording: Recording) -> Problems:
    made = kit.written_again(recording.changed(broken_frame(recording)), "matroska")
    for contents, checks in (([made.content], True), ([made.content] * 2, False)):
        yield from is_not_verified(desk, made, contents, made.frames[4][1], checks)


@of_rule(4)
def beside_an_undamaged_one(kit: Kit) -> Checks:
    for recording in kit.some("matroska", "matroska-flac"):
        damaged = small.sealed(broken_frame(recording))
        yield from in_each_order(recording, "undamaged beside one that was damaged before it was written", [recording.content, damaged],
                                 partial(gives, recording=recording))
        yield from in_each_order(recording, "undamaged beside two that were damaged before they were written", [recording.content, damaged, damaged],
                                 partial(gives, recording=recording))


def is_not_verified(desk: Desk, recording: Recording, contents: typing.Sequence[bytes], size: int, checks: bool = False) -> Problems:
    """That a frame which fails its parity is in doubt, and counts as damaged and not as verified."""
    found = desk.check(contents[0], recording.ending) if checks else desk.mend(contents, recording.ending)
    whole = len(contents[0])
    if found.status != 3:
        yield f"the status is {found.status}: {found.text.splitlines()[:1]}"
    if found.size("verified") > whole - size:
        yield f"{found.size('verified')} bytes of {whole} are verified, and a frame of {size} fails"
    if found.file and found.file["frame_counts"]["damaged"] != 1:
        yield f"{found.file['frame_counts']['damaged']} frames are damaged"
    if not checks and found.out is not None and found.out != contents[0]:
        yield "OUT is another file than all copies"


# ---- 8: input never reaches an assert


@of_rule(8)
def pieces_lost_anywhere(kit: Kit) -> Checks:
    """A short form of tests/gaps."""
    for recording in kit.some("avi", "nut", "mov", "mov-tables-first", "matroska-plain"):
        for place in range(0, len(recording.content), 13 * SECTOR):
            for what, content in with_gaps(recording.content, place).items():
                yield Check(recording.name, f"{what} at {place}", partial(is_survived, recording=recording, content=content))


def with_gaps(content: bytes, place: int) -> dict[str, bytes]:
    """Copies that lack something from a place on, by what was done to them."""
    return {"cut": content[:place], "512 bytes zeroed": small.filled(content, place, SECTOR), "512 bytes lost": small.lost(content, place, SECTOR),
            "1 KiB lost": small.lost(content, place, 2 * SECTOR)}


def is_survived(desk: Desk, recording: Recording, content: bytes) -> Problems:
    """That a damaged file is judged and mended without a traceback, alone and beside the undamaged one, and that status 0 is true."""
    original, ending = recording.content, recording.ending
    checked = desk.check(content, ending)
    if checked.status == 0 and content != original:
        yield f"checked: status 0: {checked.text.splitlines()[:1]}"
    yield from (f"alone: {problem}" for problem in dishonest(desk.mend([content], ending), original))
    for order, contents in small.orders(content, original):
        yield from (f"beside the undamaged one, copies {order}: {problem}" for problem in not_out(desk.mend(contents, ending), [original], (0, 3)))


# ---- 20: a mend of one copy has the status of a check of the result


@of_rule(20)
def one_copy_with_one_wrong_bit(kit: Kit) -> Checks:
    for recording in kit.some(*ALL):
        for frame, what in ((2, "middle of slice 0"), (5, "middle of slice 2"), (7, "first byte of slice 1")):
            content = small.inverted(recording.content, small.places_in_frame(recording, frame)[what])
            yield Check(recording.name, f"one bit of frame {frame}, {what}", partial(has_status_of_check, recording=recording, content=content))


def has_status_of_check(desk: Desk, recording: Recording, content: bytes) -> Problems:
    found = desk.mend([content], recording.ending)
    yield from not_out(found, [recording.content], (0, 3))
    if found.out is not None:
        checked = desk.check(found.out, recording.ending)
        if found.status != checked.status:
            yield f"status {found.status}, and a check of OUT has {checked.status}: {found.text.splitlines()[3:5]}"


@of_rule(20)
def one_copy_undamaged(kit: Kit) -> Checks:
    for recording in kit.some(*ALL):
        yield Check(recording.name, "an undamaged copy alone", partial(has_status_of_check, recording=recording, content=recording.content))
