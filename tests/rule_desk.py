"""Calls of tools/mend-reel for tests/rules, and what has to hold of each of them."""
from __future__ import annotations

import concurrent.futures
import dataclasses
import functools
import json
import os
import pathlib
import re
import subprocess
import sys
import tempfile
import typing

import small_recordings as small

TOOL = pathlib.Path(__file__).resolve().parent.parent / "tools/mend-reel"
# What a check never says of the file, as it changes nothing: that something of it is back.
NOT_OF_CHECKS = re.compile(r"\b(?:restored|mended|repaired)\b|\bOUT has it\b", re.I)


@dataclasses.dataclass
class Found:
    """How a call ended: its status, what it printed and reported, OUT if it was made, and the entries of its document."""

    status: int
    text: str
    fault: str
    out: bytes | None
    files: list[dict[str, typing.Any]]

    @property
    def file(self) -> dict[str, typing.Any]:
        return self.files[0] if self.files else {}

    def size(self, name: str) -> int:
        """How many bytes have a name: verified, agreed, read, alone or open."""
        return self.file.get("sizes", {}).get(name, 0)

    def frames(self) -> list[dict[str, typing.Any]]:
        """The frames that the document names."""
        return [frame for stretch in self.file.get("stretches", ()) for frame in stretch["frames"]]

    def reasons(self) -> list[dict[str, typing.Any]]:
        return self.file.get("verdict", {}).get("reasons", [])


class Desk:
    """A folder for one check, the calls made in it, and what was wrong with any of them whatever the check is."""

    def __init__(self, folder: pathlib.Path, program: str) -> None:
        self.folder, self.program, self.wrong = folder, program, []

    def write(self, name: str, content: bytes) -> str:
        (self.folder / name).write_bytes(content)
        return name

    def call(self, *words: str, program: str | None = None) -> Found:
        """Calls the tool. A traceback, another exit status than 0, 1 and 3, and a copy that is not what it was are wrong in each call."""
        before = self.contents()
        (self.folder / "work").mkdir(exist_ok=True)
        environment = dict(os.environ, FFV1RESTORE=program or self.program, TMPDIR=str(self.folder / "work"), PYTHONDONTWRITEBYTECODE="1")
        done = subprocess.run([sys.executable, str(TOOL), *words], cwd=self.folder, env=environment, stdin=subprocess.DEVNULL, capture_output=True,
                              check=False, timeout=300)
        found = Found(done.returncode, done.stdout.decode(errors="replace"), done.stderr.decode(errors="replace"), None, [])
        self.wrong += [f"a traceback: {found.fault.strip().splitlines()[-1]}"] if "Traceback" in found.fault else []
        self.wrong += [f"the exit status is {found.status}"] if found.status not in (0, 1, 3) else []
        after = self.contents()
        self.wrong += [f"{name} was changed" for name, content in before.items() if after.get(name) != content]
        self.wrong += ["working files are left"] if list((self.folder / "work").iterdir()) or list(self.folder.glob("*.part")) else []
        return found

    def contents(self) -> dict[str, bytes]:
        return {path.name: path.read_bytes() for path in self.folder.iterdir() if path.is_file() and path.name[:4] not in ("out.", "made")}

    def documented(self, *words: str) -> Found:
        """Calls the tool for its document too."""
        document, out = self.folder / "made.json", next(iter(self.folder.glob("out.*")), None)
        for path in filter(None, (document if document.exists() else None, out)):
            path.unlink()
        found = self.call("--json", "made.json", *words)
        out = next((path for path in self.folder.glob("out.*") if not path.name.endswith(".part")), None)
        found.out = out.read_bytes() if out else None
        found.files = json.loads(document.read_text())["files"] if document.exists() else []
        return found

    def check(self, content: bytes, ending: str, *words: str) -> Found:
        """Has one file checked."""
        return self.documented(*words, "--check", self.write(f"a.{ending}", content))

    def mend(self, contents: typing.Sequence[bytes | small.Recording], ending: str, *words: str) -> Found:
        """Has OUT made of copies: of contents with this ending, or of recordings with their own."""
        names = [self.write(f"{name}.{copy.ending}", copy.content) if isinstance(copy, small.Recording) else self.write(f"{name}.{ending}", copy)
                 for name, copy in zip("abcdefgh", contents)]
        return self.documented(*words, "-o", f"out.{ending}", *names)


class Check(typing.NamedTuple):
    """One check: in which container, what it is, and what is wrong when it runs."""

    container: str
    name: str
    run: typing.Callable[[Desk], typing.Iterable[str]]


class Kit:
    """The recordings, each made once."""

    def __init__(self, folder: pathlib.Path) -> None:
        self.folder = folder

    @functools.lru_cache(maxsize=None)
    def recording(self, name: str, picture: str = small.PICTURE, group: int = 1) -> small.Recording:
        with tempfile.TemporaryDirectory(dir=self.folder) as made:
            return small.make(pathlib.Path(made), name, picture, group)

    @functools.lru_cache(maxsize=None)
    def again(self, source: str, name: str, *more: str) -> small.Recording:
        """The recording of one container as FFmpeg writes it into another."""
        return self.written_again(self.recording(source), name, *more)

    def written_again(self, recording: small.Recording, name: str, *more: str) -> small.Recording:
        with tempfile.TemporaryDirectory(dir=self.folder) as made:
            return small.written_again(pathlib.Path(made), recording, name, *more)

    def some(self, *names: str) -> typing.Iterator[small.Recording]:
        yield from map(self.recording, names)


def problem_of(check: Check, program: str, folder: pathlib.Path) -> str:
    """What is wrong with a check, in a line, or nothing."""
    with tempfile.TemporaryDirectory(dir=folder) as own:
        desk = Desk(pathlib.Path(own), program)
        try:
            return "; ".join(dict.fromkeys([*check.run(desk), *desk.wrong]))
        except Exception as error:  # so that the other checks run
            return f"the check itself failed: {type(error).__name__}: {error}"


def run_all(checks: typing.Sequence[tuple[str, Check]], program: str, folder: pathlib.Path, workers: int) -> typing.Iterator[tuple[str, bool]]:
    """Runs checks, each with what it belongs to, so many at a time, and prints a line for each that fails. Yields what each belongs to, and
    whether it failed."""
    with concurrent.futures.ThreadPoolExecutor(workers) as pool:
        for (group, check), problem in zip(checks, pool.map(lambda each: problem_of(each[1], program, folder), checks)):
            if problem:
                print(f"{group}, {check.container}, {check.name}: {problem}", flush=True)
            yield group, bool(problem)


# ---- what is wrong with a result


def not_out(found: Found, wanted: typing.Sequence[bytes], statuses: typing.Sequence[int] = (0,)) -> typing.Iterator[str]:
    """That OUT is none of some files, or that the status is none of these."""
    if found.out is None:
        yield f"no OUT was made, with status {found.status}: {found.fault.strip()[-200:]}"
    elif found.out not in wanted:
        yield f"OUT is another file, with status {found.status}, {how_far(found.out, wanted[0])}"
    elif found.status not in statuses:
        yield f"the status is {found.status}: {' / '.join(found.text.splitlines()[:1] + found.text.splitlines()[3:5])[:300]}"


def how_far(made: bytes, wanted: bytes) -> str:
    """In what a file differs from the one that is wanted."""
    if len(made) != len(wanted):
        return f"of {len(made)} bytes in place of {len(wanted)}"
    wrong = [at for at, pair in enumerate(zip(made, wanted)) if pair[0] != pair[1]]
    return f"with {len(wrong)} wrong bytes from {wrong[0]} to {wrong[-1]}"


def not_damaged(found: Found) -> typing.Iterator[str]:
    """That a check does not call a file damaged, or says of a file what a check never says."""
    if found.status != 3:
        yield f"the status is {found.status}: {found.text.splitlines()[:1]} {found.fault.strip()[-200:]}"
    elif "damaged" not in found.text:
        yield f"it is not called damaged: {' / '.join(found.text.splitlines())[:300]}"
    yield from said_of_check(found)


def said_of_check(found: Found) -> typing.Iterator[str]:
    word = NOT_OF_CHECKS.search(found.text)
    if word:
        yield f"a check says '{word.group()}': {next(line for line in found.text.splitlines() if word.group() in line)[:200]}"


def dishonest(found: Found, original: bytes) -> typing.Iterator[str]:
    """That status 0 is given to what is not the recording."""
    if found.status == 0 and found.out is not None and found.out != original:
        yield f"status 0, and OUT is another file, {how_far(found.out, original)}"
