"""What becomes of a reel: its copies are checked, alone and by the digests that lie with them, and mended where none is undamaged."""
from __future__ import annotations

import filecmp
import json
import os
import pathlib
import shutil
import subprocess
import sys
import tempfile
from collections.abc import Mapping, Sequence
from typing import Any

from mend_reel.judging import kept_digests
from mend_reel.model import Fault, or_fault

from .collection import Collection, Copy, Counts, Reel, Result, State, Verdict, state_of

MOST_REASONS, STATES = 3, {0: State.UNDAMAGED, 3: State.DAMAGED}


def find_mend_reel() -> str:
    """mend-reel: the one beside this program, or the one on the PATH."""
    found = shutil.which("mend-reel", path=os.pathsep.join([os.path.dirname(os.path.realpath(sys.argv[0])), os.environ.get("PATH", os.defpath)]))
    if not found:
        raise Fault("there is no mend-reel on the PATH")
    return found


def mend_reel(words: Sequence[str], folder: str) -> tuple[list[dict[str, Any]], str]:
    """Runs mend-reel in a folder. Returns the files of its document, and the last line of its faults."""
    with or_fault("cannot run mend-reel"):
        done = subprocess.run([find_mend_reel(), "--quiet", "--force", "--json=document", *words], cwd=folder, check=False,
                              stdin=subprocess.DEVNULL, stdout=subprocess.DEVNULL, stderr=subprocess.PIPE)
    fault = (os.fsdecode(done.stderr).strip().splitlines() or [f"mend-reel ended with status {done.returncode}"])[-1]
    try:
        with open(os.path.join(folder, "document"), encoding="utf-8") as file:
            return json.load(file)["files"], fault
    except (OSError, ValueError, KeyError):
        return [], fault.replace("mend-reel: ", "", 1)


def check(paths: Sequence[str]) -> list[Copy]:
    """What `mend-reel --check` says of some files: of all, or else of each alone. Another checker of a kind of files can take its place."""
    with tempfile.TemporaryDirectory() as folder:
        files, fault = mend_reel(["--check", "--", *paths], folder) if paths else ([], "")
    if len(files) == len(paths):
        return list(map(copy_of, files))
    return [check([path])[0] for path in paths] if len(paths) > 1 else [Copy(State.UNREADABLE, fault)]


def copy_of(found: Mapping[str, Any]) -> Copy:
    """What a document has of a file that was checked, or of OUT."""
    if "verdict" not in found:
        return Copy(State.UNREADABLE, found["fault"])
    status, sentence, frames, sizes = found["verdict"]["status"], found["verdict"]["sentence"].rstrip("."), found["frame_counts"], found["sizes"]
    counts = Counts(frames["all"], frames["damaged"], frames["restored"], frames["not_restored"], sizes["read"] + sizes["alone"] + sizes["open"])
    return Copy(STATES[status], sentence.replace(found["copies"][0]["path"] + ": ", "", 1) if status else "", counts)


def common_judges(reel: Reel) -> list[Sequence[str]]:
    """The digests that lie with any copy, if they are of one file."""
    judges = [judge for own in reel.judges for judge in own]
    return judges if len({tuple(judge[:2]) for judge in judges}) == len({judge[0] for judge in judges}) else []


def by_digests(path: str, copy: Copy, judges: Sequence[Sequence[str]]) -> Copy:
    """A copy as digests judge it, which say more than a check. What can't be read stays as it is."""
    try:
        made = {algorithm: kept_digests.digest(path, algorithm) for algorithm in sorted({judge[0] for judge in judges})}
    except Fault:
        return copy
    for algorithm, _, source in (judge for judge in judges if made[judge[0]] != judge[1]):
        return Copy(State.DAMAGED, f"its {algorithm.upper()} is not that of {source}", copy.counts, False)
    return Copy(State.UNDAMAGED, "", copy.counts._replace(damaged=0, unchecked_bytes=0), True) if judges else copy


def run_task(path: str) -> int:
    """Judges the reels of a task that have no result yet. Returns 1 if one of them can't be read, so that it is tried again."""
    with open(path, encoding="utf-8") as file:
        circumstances, listed = json.load(file)
    collection, worst = Collection(**circumstances), 0
    reels = [reel for reel in map(Reel._make, listed) if not collection.is_settled(reel)]
    paths = [os.path.join(root, reel.path) for reel in reels for root, file in zip(collection.roots, reel.files) if file is not None]
    checked = dict(zip(paths, check(paths)))
    for reel in reels:
        result = judged(collection, reel, checked)
        if not os.path.exists(path):
            raise Fault(f"{path} is gone: the run was stopped, and another goes on")
        collection.write(result)
        worst = max(worst, int(result.verdict is Verdict.UNREADABLE))
    return worst


def judged(collection: Collection, reel: Reel, checked: Mapping[str, Copy]) -> Result:
    """What becomes of a reel. Digests of all copies judge each, if they agree, and else those that lie with it."""
    judges, paths = common_judges(reel), [os.path.join(root, reel.path) for root in collection.roots]
    copies = [Copy(State.MISSING, "lacks it") if file is None else by_digests(path, checked[path], judges or own)
              for path, file, own in zip(paths, reel.files, reel.judges)]
    result = Result(reel.path, collection.mark(reel), Verdict.UNDAMAGED, "", copies)
    try:
        if result.good():
            compare(result, paths, collection.names)
        if collection.is_written or not result.good():
            mend(collection, reel, result, paths)
        verify(paths, reel)
    except (Fault, OSError) as fault:
        result.verdict, result.reason = Verdict.UNREADABLE, str(fault) if any(copy.state in STATES.values() for copy in copies) else ""
    sources = [] if judges else dict.fromkeys(judge[2] for own in reel.judges for judge in own)
    said = [result.reason, f"{' and '.join(sources)} have different digests" if sources else "",
            *(f"{name}: {copy.why}" if copy.why else "" for name, copy in zip(collection.names, copies))]
    result.reason = "; ".join(filter(None, said))
    return result


def verify(paths: Sequence[str], reel: Reel) -> None:
    """Refuses a result of files that are no longer what they were."""
    for path, file in zip(paths, reel.files):
        if file is not None and state_of(path) != list(file):
            raise Fault(f"{path} changed while it was judged")


def compare(result: Result, paths: Sequence[str], names: Sequence[str]) -> None:
    """Compares the undamaged copies: if they are alike, they vouch for each other unless they are one file, and else the reel is in doubt."""
    first, *others = result.good()
    counts, damaged = result.copies[first].counts, max(copy.counts.damaged or 0 for copy in result.copies)
    for number in others:
        if not filecmp.cmp(paths[first], paths[number], shallow=False):
            result.verdict, result.reason = Verdict.DOUBT, f"{names[first]} and {names[number]} have undamaged copies that differ"
    is_vouched = not result.reason and any(not os.path.samefile(paths[first], paths[number]) for number in others)
    result.counts = Counts(counts.frames, damaged, 0, 0, 0 if is_vouched else counts.unchecked_bytes)


def mend(collection: Collection, reel: Reel, result: Result, paths: Sequence[str]) -> None:
    """Has mend-reel make the file of a reel in a folder of its own, and gives it, its page and its document their places in DIR. Where it can't
    be made of all copies, those alone serve that could be judged. The verdict on undamaged copies stays."""
    name, out, judges = os.path.basename(reel.path), os.path.join(collection.out, reel.path), common_judges(reel)
    own = [path for path, copy in zip(paths, result.copies) if copy.state is not State.MISSING]
    readable = [path for path, copy in zip(paths, result.copies) if copy.state in STATES.values()]
    with tempfile.TemporaryDirectory(dir=collection.place("work")) as folder:
        words = ["--report=page", *(["--digest=digest"] if judges else []), f"--out={name}", "--"]
        pathlib.Path(folder, "digest").write_text(f"{max((judge[1] for judge in judges), key=len, default='')}  digest\n")
        files, fault = mend_reel([*words, *own], folder)
        if not files and readable:
            files, fault = mend_reel([*words, *readable], folder)
        if not files:
            raise Fault(fault)
        verify(paths, reel)
        os.makedirs(os.path.dirname(out), exist_ok=True)
        for own_name, ending in (("document", ".json"), ("page", ".html"), (name, "")):
            os.replace(os.path.join(folder, own_name), out + ending)
    result.is_made = True
    if not result.good():
        made, reasons = copy_of(files[0]), [reason["sentence"] for reason in files[0]["verdict"]["reasons"][:MOST_REASONS]]
        result.counts, result.verdict = made.counts, Verdict.MENDED if made.state is State.UNDAMAGED else Verdict.DOUBT
        result.reason = "; ".join([made.why, *reasons]) if made.why else ""
