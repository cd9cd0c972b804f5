"""What stands in for ffv1restore in the unit tests: tests/readings.py, its second reading, as a program."""
from __future__ import annotations

import itertools
import pathlib
import sys

if not hasattr(itertools, "pairwise"):  # Python 3.9, which the tool has to work with
    itertools.pairwise = lambda items: zip(items, list(items)[1:])  # type: ignore[attr-defined]
if __name__ == "__main__":
    sys.dont_write_bytecode = True
    sys.path.insert(0, str(pathlib.Path(__file__).resolve().parent.parent))

import any_holdings
import check_reading
import readings
import sample_reading


def scan(words: list[str]) -> int:
    printed, status, fault = readings.scanned(pathlib.Path(words[0]).read_bytes(), pathlib.Path(words[1]).read_bytes())
    return end(printed, status, fault)


def check(words: list[str]) -> int:
    printed, status = check_reading.checked(pathlib.Path(words[0]).read_bytes())
    return end(printed, status, None)


def mend(words: list[str]) -> int:
    copies = [(path, pathlib.Path(path).read_bytes()) for path in words[2:]]
    made, printed, status, fault = readings.mended(pathlib.Path(words[0]).read_bytes(), copies)
    if made is not None:
        pathlib.Path(words[1]).write_bytes(made)
    return end(printed, status, fault)


def setup(words: list[str]) -> int:
    try:
        return end(readings.setup_text(recording(words)), 0, None)
    except readings.Fault as fault:
        return end(b"", 1, f"setup fault {fault.args[0]}")


def samples(words: list[str]) -> int:
    try:
        frames = [(path, pathlib.Path(path).read_bytes()) for path in words[4:]]
        made, printed, status, fault = sample_reading.sampled(recording(words), frames)
    except readings.Fault as fault:
        return end(b"", 1, f"setup fault {fault.args[0]}")
    if made is not None:
        pathlib.Path(words[3]).write_bytes(made)
    return end(printed, status, fault)


def take(words: list[str]) -> int:
    is_any, words = any_first(words)
    payloads = [pathlib.Path(path).read_bytes() for path in words[4:]]
    try:
        made, printed = any_holdings.took(pathlib.Path(words[0]).read_bytes(), (int(words[1]), int(words[2])), payloads, is_any)
    except readings.Fault as fault:
        return end(b"", 1, f"setup fault {fault.args[0]}")
    return written(words[3], made, printed, any_holdings.take_status(printed))


def join(words: list[str], prints: bool = True) -> int:
    is_any, words = any_first(words)
    try:
        made, printed = any_holdings.joined([pathlib.Path(path).read_bytes() for path in words[1:]], is_any)
    except readings.Fault as fault:
        return end(b"", 1, f"holding file fault {fault.args[0]}")
    return written(words[0], made, printed if prints else b"")


def merge(words: list[str]) -> int:
    return join(words, False)


def report(words: list[str]) -> int:
    is_any, words = any_first(words)
    try:
        return end(any_holdings.reported(pathlib.Path(words[0]).read_bytes(), is_any), 0, None)
    except readings.Fault as fault:
        return end(b"", 1, f"holding file fault {fault.args[0]}")


def restore(words: list[str]) -> int:
    is_any, words = any_first(words)
    try:
        payload, lacks = any_holdings.restored(pathlib.Path(words[0]).read_bytes(), is_any)
    except readings.Fault as fault:
        return end(b"", 1, f"holding file fault {fault.args[0]}")
    return end(b"", 1, lacks) if payload is None else written(words[1], payload, f"restored {len(payload)} bytes\n".encode())


def picture(words: list[str]) -> int:
    is_any, words = any_first(words)
    try:
        made, printed, status = any_holdings.pictured(pathlib.Path(words[0]).read_bytes(), is_any)
    except readings.Fault as fault:
        return end(b"", 1, f"holding file fault {fault.args[0]}")
    return written(words[1], made, printed, status)


def any_first(words: list[str]) -> tuple[bool, list[str]]:
    """Whether the first word is --any, and the other words."""
    is_any = words[0] == "--any"
    return is_any, words[is_any:]


def written(path: str, made: bytes, printed: bytes, status: int = 0) -> int:
    pathlib.Path(path).write_bytes(made)
    return end(printed, status, None)


def recording(words: list[str]) -> readings.Recording:
    """The recording of a record and a size."""
    return readings.recording_of(pathlib.Path(words[0]).read_bytes(), (int(words[1]), int(words[2])))


def end(printed: bytes, status: int, fault: str | None) -> int:
    sys.stdout.write(printed.decode())
    if fault:
        sys.stderr.write(f"ffv1restore: {fault}\n")
    return status


COMMANDS = {"scan": scan, "check": check, "mend": mend, "setup": setup, "samples": samples, "take": take, "join": join, "merge": merge, "report": report,
            "restore": restore, "picture": picture}


def make(folder: pathlib.Path, before: str = "") -> str:
    """Makes the program in a folder: a command in Python, with lines before it that see `words`."""
    path = folder / "ffv1restore"
    path.write_text(f"#!{sys.executable}\nimport runpy, sys\nwords = sys.argv[1:]\n{before}\nrunpy.run_path({__file__!r}, run_name='__main__')\n")
    path.chmod(0o755)
    return str(path)


if __name__ == "__main__":
    if sys.argv[1] not in COMMANDS:
        sys.exit(f"ffv1restore: the stand-in has no {sys.argv[1]}")
    sys.exit(COMMANDS[sys.argv[1]](sys.argv[2:]))
