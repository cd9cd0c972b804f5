"""What mend-reel says, and what it overwrites: checks of the rules that tests/rules lists, in several containers."""
from __future__ import annotations

import hashlib
import pathlib
import re
import shutil
import subprocess
import sys
import time
import typing
from functools import partial

import small_recordings as small
from rule_checks import ALL, CONTAINERS, Checks, Problems, broken_frame, damages, of_rule
from rule_desk import TOOL, Check, Desk, Found, Kit
from small_recordings import Recording

# So many seconds a slow program waits before it mends.
WAIT = 10


# ---- 16: a mistyped command loses no recording


@of_rule(16)
def reports_overwrite_no_recording(kit: Kit) -> Checks:
    for recording in kit.some(*ALL):
        for option in ("--json", "--report"):
            for words in (["--check", "a"], ["-o", "out", "a"]):
                run = partial(is_refused, recording=recording, words=[option, "film", *words])
                yield Check(recording.name, f"{option} at a recording, {words[0]}", run)
        for option, name in (("--keep", "list"), ("--keep", "frame-3.hold"), ("--pictures", "frame-3.png")):
            yield Check(recording.name, f"{option} at a recording named {name}",
                        partial(is_refused, recording=recording, words=[option, ".", "-o", "out", "a"], film=name))


def is_refused(desk: Desk, recording: Recording, words: typing.Sequence[str], film: str = "film") -> Problems:
    """That a call is refused, with --force too, and nothing is written."""
    desk.write("a", recording.content)
    desk.write(film, recording.content)
    for force in ([], ["--force"]):
        found = desk.call(*force, *words)
        if found.status != 1 or found.text or len(found.fault.splitlines()) != 1:
            yield f"with {force} the status is {found.status}: {found.fault.strip()[:200]}"
        if {path.name for path in desk.folder.iterdir()} != {"a", film, "work"} or (desk.folder / film).read_bytes() != recording.content:
            yield f"with {force} something was written"


@of_rule(16)
def the_second_run_is_refused(kit: Kit) -> Checks:
    for recording in kit.some(*CONTAINERS):
        yield Check(recording.name, "two runs at one OUT", partial(second_is_refused, recording=recording))


def second_is_refused(desk: Desk, recording: Recording) -> Problems:
    """That while a run makes OUT another is refused, that nothing is called killed, and that the first one's OUT is there at the end."""
    for name in ("a", "b"):
        desk.write(name, recording.content)
    slow = desk.folder / "work" / "slow"
    slow.parent.mkdir()
    slow.write_text(f'#!/bin/sh\n[ "$1" = mend ] && sleep {WAIT}\nexec "{desk.program}" "$@"\n')
    slow.chmod(0o755)
    first = subprocess.Popen([sys.executable, str(TOOL), "-o", "out", "a", "b"], cwd=desk.folder, stdout=subprocess.PIPE, stderr=subprocess.STDOUT,
                             env=dict(FFV1RESTORE=str(slow), TMPDIR=str(desk.folder / "work"), PATH=path_of_programs()))
    while first.poll() is None and not list(desk.folder.glob("out.*.part")):
        time.sleep(0.01)
    second, other = (subprocess.run([sys.executable, str(TOOL), "--force", *words, "a", "b"], cwd=desk.folder, capture_output=True, check=False,
                                    env=dict(FFV1RESTORE=desk.program, TMPDIR=str(desk.folder / "work"), PATH=path_of_programs()))
                     for words in (["-o", "out"], ["--check"]))
    is_running = first.poll() is None
    printed = first.communicate()[0].decode()
    if not is_running:
        yield "the first run ended too early for this check"
    elif second.returncode != 1 or second.stdout or len(second.stderr.splitlines()) != 1:
        yield f"the second run ends with {second.returncode}: {second.stderr.decode()[:200]}"
    for said in (second.stderr, other.stdout, printed.encode()):
        if b"killed" in said:
            yield f"it is said that something was killed: {said.decode()[:200]}"
    if first.returncode != 0 or (desk.folder / "out").read_bytes() != recording.content:
        yield f"the first run ends with {first.returncode}: {printed[:200]}"
    shutil.rmtree(desk.folder / "work")
    (desk.folder / "work").mkdir()


def path_of_programs() -> str:
    found = shutil.which("ffprobe")
    return f"{pathlib.Path(found).parent if found else '/usr/bin'}:/usr/bin:/bin"


# ---- 17: a batch loses nothing


@of_rule(17)
def files_that_can_not_be_read(kit: Kit) -> Checks:
    for recording in kit.some(*CONTAINERS):
        yield Check(recording.name, "a batch with files that can't be read", partial(loses_nothing, recording=recording))
        for what in ("md5", "sha1", "sha256", "sha512", "bag"):
            yield Check(recording.name, f"a batch with a manifest: {what}", partial(is_by_manifest, recording=recording, what=what))


def loses_nothing(desk: Desk, recording: Recording) -> Problems:
    bad = damages(recording)["garbage in a frame"]
    contents = {"good": recording.content, "empty": b"", "bad": bad, "text": b"a text, and no film\n" * 100}
    for name, content in contents.items():
        desk.write(name, content)
    names = ["missing", "good", "empty", "bad", "text"]
    found = desk.documented("--report", "made.html", "--check", *names)
    statuses = [each["verdict"]["status"] if "verdict" in each else each.get("fault") and 1 for each in found.files]
    if (found.status, statuses) != (1, [1, 0, 1, 3, 1]):
        yield f"the status is {found.status}, and of the files {statuses}"
    if [each.get("path") for each in found.files if "fault" in each] != ["missing", "empty", "text"]:
        yield "the document does not name the files that can't be read"
    if found.text.splitlines()[-1:] != ["5 files: 1 undamaged, 1 damaged, 3 unreadable"]:
        yield f"the last line is {found.text.splitlines()[-1:]}"
    yield from (f"the lines do not name {name}" for name in names if name not in found.text)
    yield from bad_page((desk.folder / "made.html").read_text(), names)
    for words, status, counts in ((["good", "bad"], 3, "1 undamaged, 1 damaged"), (["good", "good"], 0, "2 undamaged, 0 damaged")):
        found = desk.call("--check", *words)
        if (found.status, found.text.splitlines()[-1:]) != (status, [f"2 files: {counts}, 0 unreadable"]):
            yield f"of {words} the status is {found.status}, and the last line {found.text.splitlines()[-1:]}"


def bad_page(page: str, names: typing.Sequence[str]) -> Problems:
    """That a page of several files does not begin with a table of them, the worst first, with links to their parts."""
    table = page[page.index("<table") : page.index("</table>")]
    links = re.findall(r'<a href="#([^"]*)">([^<]*)</a>', table)
    if sorted(name for _, name in links) != sorted(names):
        yield f"the first table of the page has {[name for _, name in links]}"
    if [name for _, name in links][-2:] != ["bad", "good"]:
        yield f"the worst does not come first: {[name for _, name in links]}"
    yield from (f"a link leads nowhere: {target}" for target, _ in links if f'id="{target}"' not in page)


def is_by_manifest(desk: Desk, recording: Recording, what: str) -> Problems:
    """That each file is judged by its line in a manifest, as the sum programs or BagIt write it."""
    algorithm = "sha256" if what == "bag" else what
    digest = hashlib.new(algorithm, recording.content).hexdigest()
    (desk.folder / "bag/data/more").mkdir(parents=True)
    for name in ("a", "c"):
        desk.write(f"bag/data/{name}", recording.content)
    desk.write("bag/data/more/a", damages(recording)["garbage in a frame"])
    between, manifest = (" ", "bag/manifest-sha256.txt") if what == "bag" else ("  ", "bag/sums")
    desk.write(manifest, "".join(f"{digest}{between}{name}\n" for name in ("data/more/a", "data/a", "data/b")).encode())
    found = desk.documented("--digest", manifest, "--check", "bag/data/a", "bag/data/more/a", "bag/data/c")
    said = [each.get("digest", {}).get("is_original") if "verdict" in each else each["fault"] for each in found.files]
    if found.status != 1 or said[:2] != [True, False] or "bag/data/c" not in str(said[2:]):
        yield f"the status is {found.status}, and of the files it is said {said}"


# ---- 18: damage that spreads is told


@of_rule(18)
def frames_that_depend_on_a_keyframe(kit: Kit) -> Checks:
    for name in ALL:
        recording = kit.recording(name, group=4)
        content = broken_frame(recording, 4)
        for checks in (True, False):
            run = partial(spreads, recording=recording, content=content, checks=checks)
            yield Check(name, f"a damaged keyframe, {'checked' if checks else 'mended'}", run)
        last = broken_frame(recording, 7)
        yield Check(name, "the last frame of its keyframe, checked", partial(spreads, recording=recording, content=last, checks=True, spread=None))


def spreads(desk: Desk, recording: Recording, content: bytes, checks: bool, spread: str | None = "5 to 7") -> Problems:
    found = desk.check(content, recording.ending) if checks else desk.mend([content], recording.ending)
    said = re.findall(r"frames? ([\d, to]+?) depends? on it", found.text)
    if said != ([spread] if spread else []):
        yield f"{said} are said to depend on it: {[line for line in found.text.splitlines() if 'frame 4' in line or 'frame 7' in line][:1]}"


# ---- 19: numbers of one call agree


@of_rule(19)
def bytes_add_up(kit: Kit) -> Checks:
    for recording in kit.some(*ALL, "matroska-flac"):
        for what, content in damages(recording).items():
            for count in (0, 1, 2):
                yield Check(recording.name, f"{what}, {f'{count} copies' if count else 'checked'}",
                            partial(adds_up, recording=recording, content=content, count=count))


def adds_up(desk: Desk, recording: Recording, content: bytes, count: int) -> Problems:
    """That the counts of bytes are those of the file, in the lines and in the document, and that no share is called all that is not."""
    copies, words = [content, recording.content][:count], (recording.ending, "--report", "made.html")
    found = desk.mend(copies, *words) if count else desk.check(content, *words)
    if found.status == 1:
        return
    whole = len(content) if found.out is None else len(found.out)
    lines = [line for line in found.text.splitlines() if line.startswith("bytes: ")]
    printed = sum(int(number.replace(",", "")) for number in re.findall(r"([\d,]+) (?:verified|agreed|read|alone|open)", " ".join(lines)))
    if (printed, sum(found.file["sizes"].values())) != (whole, whole):
        yield f"of {whole} bytes the line has {printed}, and the document {sum(found.file['sizes'].values())}"
    if found.size("verified") != whole and "(100 %)" in " ".join(lines):
        yield "the line says that all is verified"
    all_of = sum(copy["verified_size"] == copy["size"] for copy in found.file["copies"])
    if len(re.findall(r">100(?:\.0)? %<", (desk.folder / "made.html").read_text())) != all_of:
        yield f"the page does not say of {all_of} copies that all is verified"
    yield from wrong_frames(found)


def wrong_frames(found: Found) -> Problems:
    """That the counts of frames do not fit each other."""
    counts = found.file["frame_counts"]
    line = next(line for line in found.text.splitlines() if line.startswith("frames: "))
    if found.out is not None and counts["damaged"] != counts["restored"] + counts["not_restored"]:
        yield f"the counts of frames do not fit: {counts}"
    if f"frames: {counts['all']}, {counts['damaged']} damaged" not in line:
        yield f"the line is '{line}', and the document has {counts}"


@of_rule(19)
def what_can_not_be_verified_beside_frames(kit: Kit) -> Checks:
    for recording in kit.some("matroska", "matroska-flac"):
        for count in (0, 1, 2):
            what = f"beside a lost frame, {f'{count} copies' if count else 'checked'}"
            yield Check(recording.name, what, partial(is_the_rest, recording=recording, count=count))


def is_the_rest(desk: Desk, recording: Recording, count: int) -> Problems:
    """That what is said to be beside frames is what is open less the frames; and that what all copies have alike there is agreed."""
    content = broken_frame(recording, 4)
    found = desk.mend([content] * count, recording.ending, "--report", "made.html") if count else desk.check(content, recording.ending)
    lost = sum(frame["range"][1] - frame["range"][0] for frame in found.frames() if frame["state"] == "not restored")
    said = re.findall(r"([\d,]+) bytes of sound and headers can't be verified", found.text)
    if said != ([str(found.size("open") - lost)] if found.size("open") > lost else []):
        yield f"{said} bytes are said to lie beside the frames, {found.size('open')} are open, and the frames have {lost}"
    if count == 2:
        yield from not_agreed(desk, recording, found)


def not_agreed(desk: Desk, recording: Recording, found: Found) -> Problems:
    """That sound which both copies have alike, in a cluster with a lost frame, is not agreed, or is drawn as lost."""
    _, begin, end = next(each for each in small.top(recording.content, small.CLUSTER) if each[1] <= recording.frames[4][0] < each[2])
    sound = sum(size for place, size in recording.sound if begin <= place < end)
    if found.size("agreed") + found.size("verified") < len(recording.content) - recording.frames[4][1]:
        yield f"{found.size('open')} bytes are open, and the sound of {sound} bytes is alike in all copies"
    drawn = [title for title in re.findall(r"<title>(OUT, sound, [^<]*)</title>", (desk.folder / "made.html").read_text()) if "not restored" in title]
    if drawn:
        yield f"sound that all copies have alike is drawn as lost: {drawn[0]}"
