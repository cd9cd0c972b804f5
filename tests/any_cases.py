"""The cases of `--any`, and the holding files on which they are run.

tests/cases/any and the files of tests/holdings that it names are made of recorded frames by the second reading of tests/any_holdings.py.
`tests/manual` compares them with what is made here, and with --write it makes them anew.
"""
import hashlib
import pathlib

import any_holdings
import casebook
import makings
import readings

TESTS = pathlib.Path(__file__).resolve().parent
TABLE = TESTS / "cases/any"

# Recordings out of the profile, and a frame of each: RGB of 10 bits; RGB with alpha and Golomb-Rice codes; 4:2:2 of 10 bits; gray of 16 bits
# with a table of transitions; gray with alpha; tiles that overlap in chroma, with initial states; a frame that is no keyframe; and such a frame
# by FFmpeg's own settings, whose record is in the profile. Of its two copies the second lacks tile 0, and so its holding file is of version 2.
RECORDED = [
    ("gbrp10-32x24-4-slices", "frame-0"),
    ("bgra-32x24-6-slices", "frame-0"),
    ("yuv422p10-32x24-4-slices", "frame-0"),
    ("gray16-32x24-4-slices", "frame-0"),
    ("ya8-32x24-4-slices", "frame-0"),
    ("yuv420p-36x28-4-slices", "frame-0"),
    ("yuv422p-32x24-4-slices", "frame-1"),
    ("yuv420p-32x24-4-slices", "frame-13"),
]
PROFILE = "gray-48x32-4-slices"
# The last of these recordings: a keyframe, and the frame after it.
DEFAULT, KEYFRAME, BETWEEN = "yuv420p-32x24-4-slices", "frame-12", "frame-13"
WITHOUT_PARITIES = "yuv444p12-32x24-4-slices"
# Small recordings: the record, the size, and the contents of slices. The second frame of the first is no keyframe.
GRAY = bytes.fromhex("5600302849cd9b366cd9b366c6acf7f3eb")
TWO_SAMPLES = bytes.fromhex("fc164ff2"), bytes.fromhex("7c964a07")
THREE_SAMPLES = bytes.fromhex("fc16482ce59ec4")
CODES_OF_16_BITS = bytes.fromhex("562bf0b0734e9d3a74e9d3a749fea0202e13"), bytes.fromhex("fc158000063ba0b87a11e049c440")
WIDE_SLICES = bytes.fromhex("56002fd228a74e9d3a74e9d3a3fa878fbf38"), bytes.fromhex("994556ae000004003d5044b7e093452f00000400d98d25f4")
COMMANDS = ["take", "join", "merge", "report", "restore", "picture"]


def said(content):
    """A content as a case says it, where no file has it."""
    return f"hex {content.hex()}" if content else "empty"


class Cases:
    """The text of the cases, and the files that they name below tests/."""

    def __init__(self):
        self.text, self.files = [], {}

    def add(self, name, words, inputs, made=None, status=0, stdout=b"", fault=None, output=None):
        """A case: its inputs and OUT are contents as a case says them."""
        lines = [f"case any-{name}", f"words {words}", *(f"in {path} = {content}" for path, content in sorted(inputs.items()))]
        lines += [f"made OUT = {made}"] * (made is not None) + [f"output {output}"] * (output is not None)
        status = (2 if fault == "words refused" else 1) if fault else status
        lines += [f"status {status}"] * (status != 0)
        for stream, text in ("stdout", stdout), ("stderr", f"ffv1restore: {fault}\n".encode() if fault else b""):
            lines += [stream] * (text != b"") + [f"  {line}" for line in text.decode().splitlines()]
        self.text.append("".join(line + "\n" for line in lines))

    def kept(self, path, content):
        """A file of tests/ with this content, as a case says it."""
        self.files[path] = content
        return f"from {path}"


def recording_of(record, size):
    return any_holdings.recording_of(record, size, True)


def lines_of(what, recording, held, payloads):
    """What `take` of copies or `join` of files prints, of what is held of each."""
    seen, lines = set(), ""
    for number, (each, payload) in enumerate(zip(held, payloads), 1):
        found = f"links {len(readings.links(payload)[0])} slices {len(each)} " if what == "copy" else ""
        lines += f"{what} {number} {found}new {len(set(each) - seen)}\n"
        seen |= set(each)
    return lines.encode()


def report_of(recording, held):
    return readings.report_text(recording.size, held, readings.tiles_of(recording))


def restored_line(payload):
    """What `restore` prints, if it gives a payload."""
    return f"restored {len(payload)} bytes\n".encode() if payload else b""


def picture_said(cases, recording, held, known=None):
    """A case's words for what `picture` makes, what it prints, and its status."""
    made, printed, status = any_holdings.shown(recording, held)
    if known and (TESTS / known).exists() and (TESTS / known).read_bytes() == made:
        return f"from {known}", printed, status
    return said(made) if len(made) < 100 else f"sha256 {hashlib.sha256(made).hexdigest()}", printed, status


# ---- recorded frames


def damaged_copies(name, frame):
    """Two copies of a recorded frame, in each of which a slice is damaged, as a case says them, and their bytes."""
    payload = (TESTS / "real" / name / frame).read_bytes()
    (first, _), (second, _) = sorted(readings.links(payload)[0])[:2]
    for place in (second + 40, first + 40):
        yield f"from real/{name}/{frame} with {place} {payload[place] ^ 0xFF:02x}", makings.inverted(payload, place)


def add_recorded(cases, name, frame, kind=""):
    """Each command on two copies of a recorded frame, or on their holdings, with --any. The names begin with the kind, if one is given."""
    size = tuple(int(side) for side in name.split("-")[1].split("x"))
    record = (TESTS / "real" / name / "record").read_bytes()
    recording, sides = recording_of(record, size), " ".join(map(str, size))
    copies, payloads = zip(*damaged_copies(name, frame))
    held = [any_holdings.taken(recording, payload) for payload in payloads]
    union = readings.united(*held)
    texts = [any_holdings.holding_text(record, recording, each) for each in (*held, union)]
    parts, samples = ["copy-a-with-origins", "copy-b-with-origins", "both-with-origins"], f"real/{name}/{frame.replace('frame', 'samples')}"
    a, b, both = (cases.kept(f"holdings/{name}/{kind}{part}", text) for part, text in zip(parts, texts))
    inputs = {"record": f"from real/{name}/record", "a": copies[0], "b": copies[1]}
    title = kind + name
    cases.add(f"take-of-{title}", f"take --any record {sides} OUT a b", inputs, both, stdout=lines_of("copy", recording, held, payloads))
    cases.add(f"take-of-{title}-reversed", f"take --any record {sides} OUT b a b", inputs, both,
              stdout=lines_of("copy", recording, [held[1], *held], [payloads[1], *payloads]))
    cases.add(f"take-of-{title}-one-copy", f"take --any record {sides} OUT a", {key: inputs[key] for key in ("record", "a")}, a,
              stdout=lines_of("copy", recording, held[:1], payloads[:1]))
    files = {"a": a, "b": b}
    cases.add(f"join-of-{title}", "join --any OUT a b", files, both, stdout=lines_of("file", recording, held, payloads))
    cases.add(f"join-of-{title}-reversed", "join --any OUT b a b", files, both,
              stdout=lines_of("file", recording, [held[1], held[0], held[1]], [b""] * 3))
    cases.add(f"merge-of-{title}", "merge --any OUT a b", files, both)
    cases.add(f"merge-of-{title}-reversed", "merge --any OUT b a", files, both)
    for part, hold, text, each in zip(("-one-copy", "-other-copy", ""), (a, b, both), texts, (*held, union)):
        cases.add(f"report-of-{title}{part}", "report --any hold", {"hold": hold}, stdout=report_of(recording, each))
        payload, fault = any_holdings.restored(text)
        older = {"OUT": "older"} if fault else {}
        cases.add(f"restore-of-{title}{part}", "restore --any hold OUT", {"hold": hold, **older}, payload and f"from real/{name}/{frame}",
                  stdout=restored_line(payload), fault=fault)
        made, printed, status = picture_said(cases, recording, each, samples)
        cases.add(f"picture-of-{title}{part}", "picture --any hold OUT", {"hold": hold}, made, status, printed)
        # where each tile is shown, these are the samples that FFmpeg decodes
        assert printed or made == f"from {samples}"
    assert any_holdings.restored(texts[2])[0] == (TESTS / "real" / name / frame).read_bytes()


def add_without(cases):
    """Without --any a recording out of the profile and its holdings are refused as they always were."""
    name = RECORDED[0][0]
    record, hold = f"from real/{name}/record", f"from holdings/{name}/both-with-origins"
    cases.add("left-out-take", "take record 32 24 OUT a", {"record": record, "a": f"from real/{name}/frame-0", "OUT": "older"}, fault="setup fault 6")
    for command, words in (("join", "join OUT hold"), ("report", "report hold"), ("restore", "restore hold OUT"), ("picture", "picture hold OUT")):
        cases.add(f"left-out-{command}", words, {"hold": hold, "OUT": "older"}, fault="holding file fault 1")
    cases.add("left-out-merge", "merge OUT hold hold", {"hold": hold, "OUT": "older"}, fault="holding file fault 1")
    cases.add("left-out-report-of-five-bytes", "report hold", {"hold": hold + " cut 5"}, fault="holding file fault 1")


# ---- the profile


def add_profile(cases):
    """With --any each command makes and prints of a recording in the profile what it does without, but for unclean ends."""
    real, holdings = f"real/{PROFILE}", f"holdings/{PROFILE}"
    frame = (TESTS / real / "frame-0").read_bytes()
    record = (TESTS / real / "record").read_bytes()
    recording = recording_of(record, (48, 32))
    copies = [(TESTS / real / f"copy-{letter}").read_bytes() for letter in "ab"]
    held = [any_holdings.taken(recording, copy) for copy in copies]
    inputs = {"record": f"from {real}/record", "a": f"from {real}/copy-a", "b": f"from {real}/copy-b"}
    both = f"from {holdings}/both-with-origins"
    assert any_holdings.holding_text(record, recording, readings.united(*held)) == (TESTS / holdings / "both-with-origins").read_bytes()
    cases.add("take-of-the-profile", "take --any record 48 32 OUT a b", inputs, both, stdout=lines_of("copy", recording, held, copies))
    files = {letter: f"from {holdings}/copy-{letter}-with-origins" for letter in "ab"}
    cases.add("join-of-the-profile", "join --any OUT a b", files, both, stdout=lines_of("file", recording, held, copies))
    cases.add("join-of-version-1", "join --any OUT a b", {letter: f"from {holdings}/copy-{letter}" for letter in "ab"},
              f"from {holdings}/both-version-2", stdout=lines_of("file", recording, held, copies))
    cases.add("merge-of-the-profile", "merge --any OUT b a", files, both)
    cases.add("report-of-the-profile", "report --any hold", {"hold": both}, stdout=report_of(recording, readings.united(*held)))
    cases.add("restore-of-the-profile", "restore --any hold OUT", {"hold": both}, f"from {real}/frame-0", stdout=restored_line(frame))
    cases.add("picture-of-the-profile", "picture --any hold OUT", {"hold": both}, f"from {real}/planes-0")
    made, printed, status = picture_said(cases, recording, held[0])
    cases.add("picture-of-the-profile-one-copy", "picture --any hold OUT", {"hold": files["a"]}, made, status, printed)


def add_mixed(cases):
    """A holding is not joined with one of another recording or size, whichever magic these have."""
    files = {"of-profile": f"from holdings/{PROFILE}/both-with-origins", "of-other": f"from holdings/{RECORDED[0][0]}/both-with-origins",
             "of-third": f"from holdings/{RECORDED[1][0]}/both-with-origins", "OUT": "older",
             "of-default": f"from holdings/{DEFAULT}/both-with-origins", "of-higher-default": f"from holdings/{DEFAULT}/both-with-origins with 15 19"}
    for left, right in (("of-profile", "of-other"), ("of-other", "of-profile"), ("of-other", "of-third"), ("of-profile", "of-default"),
                        ("of-default", "of-profile"), ("of-default", "of-other"), ("of-default", "of-higher-default")):
        given = {path: files[path] for path in (left, right, "OUT")}
        cases.add(f"join-{left}-and-{right}", f"join --any OUT {left} {right}", given, fault="hold fault 1")
        cases.add(f"merge-{left}-and-{right}", f"merge --any OUT {left} {right}", given, fault="holding file fault 12")


# ---- faults of holding files


def begun_head(content):
    """What `merge` makes of a holding file whose first entry is refused: its head, in version 2 or of its own magic; None if that is refused."""
    try:
        _, _, end = any_holdings.read_head(content, True)
    except readings.Fault:
        return None
    return content[:7] + (b"\x01" if content.startswith(any_holdings.MAGIC) else b"\x02") + content[8:end]


def add_fault(cases, name, hold, content, commands=("report",)):
    """A holding file that is refused, by the second reading of its bytes; where `merge` is one of the commands, at the latest for its first entry."""
    try:
        any_holdings.read_holding(content, True)
    except readings.Fault as fault:
        begun = begun_head(content)
        words = {"report": "report --any hold", "join": "join --any OUT hold", "merge": "merge --any OUT hold hold",
                 "restore": "restore --any hold OUT", "picture": "picture --any hold OUT"}
        for command in commands:
            older, made = {} if command == "report" else {"OUT": "older"}, said(begun) if command == "merge" and begun else None
            cases.add(f"{command}-of-{name}", words[command], {"hold": hold, **older}, made, fault=f"holding file fault {fault.args[0]}")
    else:
        raise ValueError(f"no fault: {name}")


def add_changed(cases, name, base, changes, commands=("report",), left=""):
    """The fault of a file of tests/holdings of which so many bytes are left, with changes as a case says them."""
    content = cases.files.get(f"holdings/{base}") or (TESTS / "holdings" / base).read_bytes()
    text = f"from holdings/{base}" + f" cut {left}" * bool(left) + f" with {changes}" * bool(changes)
    add_fault(cases, name, text, casebook.changed(content, left, changes), commands)


def add_magics(cases):
    """The magic is judged byte by byte; that of another recording with a record in the profile once the first entry's slice was read, or the end
    tag."""
    readers = ("join", "merge", "report", "restore", "picture")
    other, profile = f"{RECORDED[4][0]}/both-with-origins", f"{PROFILE}/both-with-origins"
    end_of_record = 20 + len((TESTS / "real" / PROFILE / "record").read_bytes())
    any_magic, profile_magics = any_holdings.MAGIC + b"\x01", [readings.MAGIC + bytes([version]) for version in (1, 2)]
    add_changed(cases, "version-2", other, "7 02", readers)
    add_changed(cases, "version-0", other, "7 00")
    add_changed(cases, "another-magic", other, "5 4f")
    add_changed(cases, "five-bytes", other, "", left=5)
    add_changed(cases, "the-profile-by-the-other-magic", profile, f"0 {any_magic.hex()}", readers)
    add_changed(cases, "the-profile-by-the-other-magic-and-no-tag", profile, f"0 {any_magic.hex()}", left=end_of_record)
    add_changed(cases, "the-profile-by-the-other-magic-and-another-tag", profile, f"0 {any_magic.hex()}, {end_of_record} 05")
    add_changed(cases, "the-profile-by-the-other-magic-and-a-cut-record", profile, f"0 {any_magic.hex()}", left=end_of_record - 1)
    add_changed(cases, "the-profile-by-the-other-magic-and-a-damaged-record", profile, f"0 {any_magic.hex()}, 30 00")
    add_changed(cases, "another-recording-as-of-the-profile", other, f"0 {profile_magics[1].hex()}", readers)
    add_changed(cases, "another-recording-as-of-version-1", other, f"0 {profile_magics[0].hex()}")
    add_changed(cases, "no-width", other, "8 00000000")


def add_first_entries(cases):
    """With a record in the profile a file of the other magic begins with a slice of tile 0 of a frame between keyframes."""
    record, key, between = ((TESTS / "real" / DEFAULT / part).read_bytes() for part in ("record", KEYFRAME, BETWEEN))
    keys, others = ([piece for _, piece in reversed(readings.links(payload)[0])] for payload in (key, between))
    of_key, of_other, digests = readings.entry_text(0, keys[0], []), readings.entry_text(0, others[0], []), [bytes([number]) * 32 for number in (2, 1)]
    second = readings.file_text(record, (32, 24), [of_other])

    def file_of(*texts):
        return any_holdings.MAGIC + b"\x01" + readings.file_text(record, (32, 24), texts)[8:]

    for name, content in (
        ("a-first-entry-of-a-keyframe", file_of(of_key)),
        ("a-first-entry-of-tile-1", file_of(readings.entry_text(1, others[1], []), readings.entry_text(2, others[2], []))),
        ("a-first-entry-of-a-keyframe-and-falling-digests", file_of(readings.entry_text(0, keys[0], digests))),
        ("a-first-entry-between-keyframes-and-falling-digests", file_of(readings.entry_text(0, others[0], digests))),
        ("a-first-entry-between-keyframes-in-version-2", second),
        ("no-entry", file_of()),
    ):
        add_fault(cases, name, cases.kept(f"holdings/{DEFAULT}/{name}", content), content, ("join", "merge", "report", "restore", "picture"))
    for name, content in (
        ("no-entry-and-a-byte-after-the-end", file_of() + b"\x00"),
        ("no-entry-and-no-end", file_of()[:-1]),
        ("no-entry-and-another-tag", file_of()[:-1] + b"\x02"),
        ("a-keyframe-before-another-frame", file_of(of_key, of_other)),
        ("a-first-entry-of-a-keyframe-and-no-digests", file_of(of_key)[:-5]),
        ("a-first-entry-of-a-keyframe-that-is-cut", file_of(of_key)[:-9]),
        ("a-first-entry-of-a-keyframe-that-is-damaged", file_of(readings.entry_text(0, makings.inverted(keys[0], 9), []))),
        ("a-first-entry-between-keyframes-that-is-damaged", file_of(readings.entry_text(0, makings.inverted(others[0], 9), []))),
        ("a-first-entry-between-keyframes-twice", file_of(of_other, of_other)),
        ("a-first-entry-of-tile-1-as-of-tile-0", file_of(readings.entry_text(0, others[1], []))),
    ):
        add_fault(cases, name, said(content), content)
    cases.add("left-out-report-of-a-frame-between-keyframes-in-version-2", "report hold", {"hold": said(second)}, fault="holding file fault 6")


def add_between(cases):
    """A frame between keyframes of a recording by FFmpeg's own settings, beside a keyframe of it."""
    record, key, between = ((TESTS / "real" / DEFAULT / part).read_bytes() for part in ("record", KEYFRAME, BETWEEN))
    recording, names = recording_of(record, (32, 24)), {"key": KEYFRAME, "between": BETWEEN}
    held = {name: any_holdings.taken(recording, payload) for name, payload in (("key", key), ("between", between))}
    held["both"] = readings.united(*held.values())
    texts = {name: any_holdings.holding_text(record, recording, each) for name, each in held.items()}
    assert [text[:7] for text in texts.values()] == [readings.MAGIC, any_holdings.MAGIC, any_holdings.MAGIC]
    files = {name: cases.kept(f"holdings/{DEFAULT}/whole-{name}-with-origins", text) for name, text in texts.items()}
    copies = {"record": f"from real/{DEFAULT}/record", **{name: f"from real/{DEFAULT}/{frame}" for name, frame in names.items()}}
    for order in ("key", "between"), ("between", "key"):
        those, payloads, words = [held[name] for name in order], [{"key": key, "between": between}[name] for name in order], " ".join(order)
        pair, title = {name: files[name] for name in order}, "-and-".join(order)
        cases.add(f"take-of-{title}", f"take --any record 32 24 OUT {words}", copies, files["both"], stdout=lines_of("copy", recording, those, payloads))
        cases.add(f"join-of-{title}", f"join --any OUT {words}", pair, files["both"], stdout=lines_of("file", recording, those, payloads))
        cases.add(f"merge-of-{title}", f"merge --any OUT {words}", pair, files["both"])
    for name, hold in files.items():
        cases.add(f"report-of-whole-{name}", "report --any hold", {"hold": hold}, stdout=report_of(recording, held[name]))
        made, printed, status = picture_said(cases, recording, held[name], f"real/{DEFAULT}/{KEYFRAME.replace('frame', 'samples')}")
        cases.add(f"picture-of-whole-{name}", "picture --any hold OUT", {"hold": hold}, made, status, printed)
        payload, fault = any_holdings.restored(texts[name])
        cases.add(f"restore-of-whole-{name}", "restore --any hold OUT", {"hold": hold, **({"OUT": "older"} if fault else {})},
                  payload and f"from real/{DEFAULT}/{names[name]}", stdout=restored_line(payload), fault=fault)
    add_copies_between(cases, record, recording, between)
    add_without_between(cases, record, between, copies, files)


def add_copies_between(cases, record, recording, frame):
    """Two copies of a frame between keyframes that both have tile 0; and one of these, with one of version 1 that lacks it."""
    places = [start for start, _ in sorted(readings.links(frame)[0])]
    held = [any_holdings.taken(recording, makings.inverted(frame, places[tile] + 40)) for tile in (1, 2, 0)]
    texts = [any_holdings.holding_text(record, recording, each) for each in held]
    assert [text[:7] for text in texts] == [any_holdings.MAGIC, any_holdings.MAGIC, readings.MAGIC]
    old = {each: set() for each in held[2]}
    for name, pair, those in (("two-copies-between", texts[:2], held[:2]),
                              ("a-copy-between-and-version-1", [texts[0], readings.holding_text(record, (32, 24), old, 1)], [held[0], old])):
        union = any_holdings.holding_text(record, recording, readings.united(*those))
        assert any_holdings.restored(union)[0] == frame
        a, b, both = (cases.kept(f"holdings/{DEFAULT}/{name}-{part}", text) for part, text in zip(("a", "b", "both"), (*pair, union)))
        for words, order in ("a b", those), ("b a", those[::-1]):
            title = name + "-reversed" * (words == "b a")
            cases.add(f"join-of-{title}", f"join --any OUT {words}", {"a": a, "b": b}, both, stdout=lines_of("file", recording, order, [b""] * 2))
            cases.add(f"merge-of-{title}", f"merge --any OUT {words}", {"a": a, "b": b}, both)


def add_without_between(cases, record, between, copies, files):
    """Without --any the slice of tile 0 of a frame between keyframes is not held, and a holding file that has it is refused."""
    made, printed = any_holdings.took(record, (32, 24), [between], False)
    inputs = {name: copies[name] for name in ("record", "between")}
    cases.add("left-out-take-of-a-frame-between-keyframes", "take record 32 24 OUT between", inputs, said(made), stdout=printed)
    cases.add("left-out-restore-of-a-frame-between-keyframes", "restore hold OUT", {"hold": said(made), "OUT": "older"}, fault="missing tile 0")
    for command, words in (("join", "join OUT key between"), ("merge", "merge OUT key between"), ("report", "report between"),
                           ("restore", "restore between OUT"), ("picture", "picture between OUT")):
        given = {name: files[name] for name in ("key", "between") if name in words.split()}
        cases.add(f"left-out-{command}-of-a-holding-between-keyframes", words, {**given, "OUT": "older"}, fault="holding file fault 1")


def add_entries(cases):
    """A recording of two samples: a keyframe and a frame that is none have different slices of its one tile."""
    recording = recording_of(GRAY, (2, 1))
    key, between = (readings.sliced(content) for content in TWO_SAMPLES)
    assert [any_holdings.tile_of(recording, piece, True) for piece in (key, between)] == [0, 0]
    inputs = {"record": said(GRAY), "key": said(key), "between": said(between)}
    held = [any_holdings.taken(recording, piece) for piece in (key, between)]
    both = any_holdings.holding_text(GRAY, recording, readings.united(*held))
    cases.add("take-of-disputed-tile", "take --any record 2 1 OUT key between", inputs, said(both), stdout=lines_of("copy", recording, held, [key, between]))
    cases.add("report-of-disputed-tile", "report --any hold", {"hold": said(both)}, stdout=report_of(recording, readings.united(*held)))
    cases.add("restore-of-disputed-tile", "restore --any hold OUT", {"hold": said(both), "OUT": "older"}, fault="disputed tile 0")
    made, printed, status = picture_said(cases, recording, readings.united(*held))
    cases.add("picture-of-disputed-tile", "picture --any hold OUT", {"hold": said(both)}, made, status, printed)
    entries = [readings.entry_text(0, piece, []) for piece in (between, key)]

    def file_of(*texts):
        return any_holdings.MAGIC + b"\x01" + readings.file_text(GRAY, (2, 1), texts)[8:]

    digests = [bytes([number]) * 32 for number in (1, 2)]
    for name, content in (
        ("entries-that-fall", file_of(*reversed(entries))),
        ("an-entry-twice", file_of(entries[0], entries[0])),
        ("digests-that-fall", file_of(readings.entry_text(0, key, digests[::-1]))),
        ("an-entry-of-no-tile", file_of(readings.entry_text(1, key, []))),
        ("an-entry-that-is-damaged", file_of(readings.entry_text(0, makings.inverted(key, 2), []))),
        ("another-tag", file_of(*entries)[:-1] + b"\x02"),
        ("no-end", file_of(*entries)[:-1]),
        ("a-byte-after-its-end", file_of(*entries) + b"\x00"),
        ("no-origins", file_of(readings.entry_text(0, key, [], 1))),
        ("a-cut-digest", file_of(readings.entry_text(0, key, digests))[:-2]),
    ):
        add_fault(cases, name, said(content), content)
    add_statuses(cases, recording, key, between)


def add_statuses(cases, recording, key, between):
    """Of the slices of a tile only those with the least error status count."""
    worse = readings.sliced(between[:-8], 1)
    held = {(0, key): set(), (0, worse): set()}
    hold = {"hold": said(any_holdings.holding_text(GRAY, recording, held))}
    cases.add("report-of-lesser-status", "report --any hold", hold, stdout=report_of(recording, held))
    made, printed, status = picture_said(cases, recording, held)
    cases.add("picture-of-lesser-status", "picture --any hold OUT", hold, made, status, printed)
    cases.add("restore-of-lesser-status", "restore --any hold OUT", hold, said(key), stdout=restored_line(key))


# ---- pictures


def cut_content(recording, whole, wanted):
    """A content with the header of a whole one that ends in another line of `picture`: some of its bytes, and one after them."""
    for end in range(len(whole), 3, -1):
        for byte in range(256):
            content = whole[:end] + bytes([byte])
            piece = readings.sliced(content)
            if any_holdings.tile_of(recording, piece, True) == 0 and wanted in any_holdings.shown(recording, {(0, piece): set()})[1]:
                return content
    raise ValueError(f"no content ends so: {wanted}")


def add_pictures(cases):
    """Slices whose samples can't be read, or that do not end as an encoder ends them."""
    gray, codes = recording_of(GRAY, (3, 1)), recording_of(CODES_OF_16_BITS[0], (2, 2))
    for name, record, recording, content in (
        ("a-byte-too-many", GRAY, gray, THREE_SAMPLES + b"\x00"),
        ("a-cut-slice", GRAY, gray, THREE_SAMPLES[:4]),
        ("a-slice-that-ends-too-early", GRAY, gray, cut_content(gray, THREE_SAMPLES, b"fault end")),
        ("another-last-bit", GRAY, gray, cut_content(gray, THREE_SAMPLES[:-1], b"unclean spare 0")),
        ("codes-of-16-bits", *CODES_OF_16_BITS[:1], codes, CODES_OF_16_BITS[1]),
        ("codes-with-a-byte-too-many", *CODES_OF_16_BITS[:1], codes, CODES_OF_16_BITS[1] + b"\x00"),
        ("codes-that-are-cut", *CODES_OF_16_BITS[:1], codes, CODES_OF_16_BITS[1][:-3]),
    ):
        held = {(0, readings.sliced(content)): set()}
        hold = {"hold": said(any_holdings.holding_text(record, recording, held))}
        made, printed, status = picture_said(cases, recording, held)
        cases.add(f"picture-of-{name}", "picture --any hold OUT", hold, made, status, printed)


# ---- slices that do not stand in the order of their tiles


def add_orders(cases):
    """Copies with two slices exchanged, and with one that stands there twice: said with --any, and held in the order of the tiles."""
    for name, frame, sides in ((PROFILE, "frame-0", "48 32"), ("ya8-32x24-4-slices", "frame-0", "32 24")):
        record, payload = ((TESTS / "real" / name / part).read_bytes() for part in ("record", frame))
        first, second, third, last = (piece for _, piece in reversed(readings.links(payload)[0]))
        size = tuple(map(int, sides.split()))
        for order, pieces in (("exchanged", [first, third, second, last]), ("repeated", [first, second, second, third, last])):
            text, lines = any_holdings.took(record, size, [b"".join(pieces), payload])
            assert lines.decode().split("\n")[0].endswith(" unordered") and any_holdings.restored(text)[0] == payload
            inputs = {"record": f"from real/{name}/record", "a": said(b"".join(pieces)), "b": f"from real/{name}/{frame}"}
            cases.add(f"take-of-{name}-{order}", f"take --any record {sides} OUT a b", inputs, f"sha256 {hashlib.sha256(text).hexdigest()}", 3, lines)
            if name == PROFILE:
                cases.add(f"profile-take-{order}", f"take record {sides} OUT a b", inputs, f"sha256 {hashlib.sha256(text).hexdigest()}",
                          stdout=any_holdings.took(record, size, [b"".join(pieces), payload], False)[1])


# ---- what is refused


def add_records(cases):
    """Records that --any refuses, and slices of several tiles, which are not held."""
    payload = said(readings.sliced(TWO_SAMPLES[0]))
    none = (TESTS / "real" / WITHOUT_PARITIES / "record").read_bytes()
    cases.add("take-without-parities", "take --any record 32 24 OUT a", {"record": f"from real/{WITHOUT_PARITIES}/record", "a": payload, "OUT": "older"},
              fault="setup fault 16")
    text = any_holdings.MAGIC + b"\x01" + readings.holding_text(none, (32, 24), {})[8:]
    add_fault(cases, "recording-without-parities", said(text), text)
    cases.add("take-of-damaged-record", "take --any record 2 1 OUT a", {"record": said(makings.inverted(GRAY, 3)), "a": payload, "OUT": "older"},
              fault="setup fault 2")
    record, frame = WIDE_SLICES
    recording = recording_of(record, (2, 2))
    assert not any_holdings.taken(recording, frame)
    cases.add("take-of-slices-of-two-tiles", "take --any record 2 2 OUT a", {"record": said(record), "a": said(frame)},
              said(any_holdings.holding_text(record, recording, {})), stdout=b"copy 1 links 2 slices 0 new 0\n")


# Words that are no command: `--any` stands just after one of six commands, and there alone.
REFUSED = """
--any
--any report hold
report hold --any
report --any
report --any --any hold
report --ANY hold
report --any=1 hold
report -any hold
report --any hold hold
take record --any 2 1 OUT hold
take record 2 1 OUT hold --any
take --any --any record 2 1 OUT hold
take --any record 2 1 OUT
join OUT --any hold
join --any OUT
merge OUT --any hold hold
merge --any OUT hold
restore hold --any OUT
restore --any hold
picture hold OUT --any
picture --any hold
chain --any hold
scan --any hold hold
show --any record 2 1
setup --any record 2 1
splice --any OUT hold
mend --any hold OUT hold
decode --any record 2 1 hold OUT
samples --any record 2 1 OUT hold
help --any
version --any
""".strip().splitlines()


def add_words(cases):
    recording = recording_of(GRAY, (2, 1))
    held = {(0, readings.sliced(TWO_SAMPLES[0])): set()}
    hold, report = said(any_holdings.holding_text(GRAY, recording, held)), report_of(recording, held)
    for words in REFUSED:
        cases.add(f"words-{words.replace(' ', '-').replace('=', '-is-')}", words, {"hold": hold, "record": said(GRAY), "OUT": "older"}, fault="words refused")
    cases.add("words-dash-after-separator", "report --any -- -hold", {"-hold": hold}, stdout=report)
    cases.add("words-any-after-separator", "report -- --any", {"--any": hold}, fault="holding file fault 1")
    cases.add("words-any-twice-after-separator", "report --any -- --any", {"--any": hold}, stdout=report)
    for command, words, paths in (("take", "record 2 1 OUT a", ["record"]), ("join", "OUT hold a", ["hold"]), ("merge", "OUT hold a", ["hold"]),
                                  ("report", "a", []), ("restore", "a OUT", []), ("picture", "a OUT", [])):
        given = {path: {"record": said(GRAY), "hold": hold}[path] for path in paths}
        cases.add(f"{command}-of-file-not-there", f"{command} --any {words}", {**given, "OUT": "older"}, fault="cannot read a")
    cases.add("merge-into-its-first-input", "merge --any hold hold a", {"hold": hold}, fault="cannot write hold")
    cases.add("picture-to-folder-not-there", "picture --any hold folder/OUT", {"hold": hold}, fault="cannot write folder/OUT")
    cases.add("report-with-output-full", "report --any hold", {"hold": hold}, fault="cannot write standard output", output="full")


def made():
    """All cases, and the files that they name."""
    cases = Cases()
    for name, frame in RECORDED:
        add_recorded(cases, name, frame)
    add_recorded(cases, DEFAULT, KEYFRAME, "keyframe-")
    for add in (add_without, add_profile, add_mixed, add_between, add_magics, add_first_entries, add_entries, add_pictures, add_orders, add_records, add_words):
        add(cases)
    return {"cases/any": "\n".join(sorted(cases.text)).encode(), **cases.files}


def faults():
    """What of tests/cases/any and of the holding files is not as it is made."""
    for path, content in made().items():
        if not (TESTS / path).exists() or (TESTS / path).read_bytes() != content:
            yield f"tests/{path} is not what tests/any_cases.py makes: tests/manual --write makes it anew"
    names = [case.name for case in casebook.cases()]
    yield from (f"two cases have the name {name}" for name in sorted(set(names)) if names.count(name) > 1)


def write():
    for path, content in made().items():
        (TESTS / path).parent.mkdir(exist_ok=True)
        (TESTS / path).write_bytes(content)
