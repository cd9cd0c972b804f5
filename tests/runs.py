"""Runs of the program: what no run may do, and where one is not what was wanted."""
import pathlib
import shutil
import signal
import subprocess
import sys
import tempfile

import any_holdings
import readings
from wanted import heads

# Those whose exit status can be 3.
THREE = ["take", "picture", "splice", "scan", "check", "mend", "samples"]

MEMORY, FILE_SIZE, PATIENCE = 256 << 20, 4 << 20, 20


def run(program, words, folder, kilobytes=None):
    """A command's exit status, output and line of fault; the status is None where it did not end."""
    command = [program, *words]
    if kilobytes:
        command = ["/bin/sh", "-c", f'ulimit -S -v {kilobytes}; exec "$0" "$@"', *command]
    try:
        done = subprocess.run(command, cwd=folder, stdin=subprocess.DEVNULL, capture_output=True, timeout=PATIENCE, restore_signals=False)
    except subprocess.TimeoutExpired:
        return None, b"", b""
    return done.returncode, done.stdout, done.stderr


def is_front(one, made, printed):
    """Whether what `mend` or `samples` made and printed beside a fault are fronts of what is wanted: no file is made before its first byte."""
    wanted = one.wanted()
    if wanted.printed is None:
        return True
    begun = not printed if made is None else wanted.made is not None and wanted.made.startswith(made) and bool(made) == bool(wanted.made)
    return begun and wanted.printed.startswith(printed)


def begins(one, made):
    """Whether a file that `merge` began beside a fault is a head and entries of its files, with their origins, without the end; the magic is that of
    any recording where one of the files has it."""
    if one.command != "merge" or len(set(heads(one))) > 1:
        return False
    texts = one.texts[0], one.texts[-1]
    if made.startswith(any_holdings.MAGIC) != any(text.startswith(any_holdings.MAGIC) for text in texts):
        return False
    try:
        _, _, held = any_holdings.read_holding(made + b"\x00", one.is_any, is_begun=True)
    except readings.Fault:
        return False
    except readings.TooManyStates:
        return True
    both = b"".join(texts)
    return all(piece in both and all(origin in both for origin in origins) for (_, piece), origins in held.items())


def breach(one, ran, made):
    """What a run did that no run may do, or None."""
    status, printed, reported = ran
    if status is None:
        return "did not end"
    if status < 0:
        return f"was stopped by {signal.Signals(-status).name}"
    if status not in ([2] if one.refused else [0, 1, 3] if one.command in THREE else [0, 1]):
        return f"ended with status {status}"
    if status in (0, 3):
        return "reported a fault" if reported else None
    if reported.count(b"\n") != 1 or not reported.startswith(b"ffv1restore: ") or not reported.endswith(b"\n"):
        return "did not report its fault in one line"
    if one.command in ("mend", "samples") and status == 1:
        return None if is_front(one, made, printed) else "what was made or printed beside a fault is no front"
    if printed and one.command != "scan":
        return "printed beside a fault"
    if made is None or b"cannot write out" in reported or begins(one, made):
        return None
    return "made an output beside a fault"


def differs(one, ran, made):
    """Where a run is not what was wanted of it, or None. To be out of memory, or of room for a file, excuses."""
    status, printed, reported = ran
    line = reported.decode(errors="replace")[len("ffv1restore: ") : -1]
    if line == "memory" or (line == "cannot write out" and len(made or b"") == FILE_SIZE):
        return None
    wanted = one.wanted()
    for name, want, got in (
        ("status", wanted.status, status),
        ("output", wanted.printed, printed),
        ("file", wanted.made, made),
        ("fault", wanted.reported, line),
    ):
        if want is not None and want != got and not (isinstance(want, tuple) and got in want):
            return f"another {name} than was wanted: {got if len(str(got)) < 200 else '..'} for {want if len(str(want)) < 200 else '..'}"
    return None if status == 1 or wanted.fits(printed, made) else "lines or a file that do not fit"


def outcome(program, one, folder, kilobytes):
    """What a run of an input comes to, and the file that it makes."""
    one.write(folder)
    ran = run(program, one.words(), folder, kilobytes)
    out = folder / "out"
    return ran, out.read_bytes() if out.exists() else None


def complaint(program, beside, one, folder, least):
    """What is wrong with the run of an input, or None."""
    ran, made = outcome(program, one, folder, None if one.scarce is None else least + one.scarce)
    wrong = breach(one, ran, made) or differs(one, ran, made)
    if wrong or beside is None or one.scarce is not None:
        return wrong
    other = outcome(beside, one, folder, "unlimited")
    if other == (ran, made) or any(reported.endswith(b": memory\n") for (_, _, reported), _ in (other, (ran, made))):
        return None
    return f"another outcome than of the program beside it, which reported {other[0]}"[:400]


def least_memory(program, folder):
    """The address space in KiB with which the program just starts, so that it refuses to be given no words."""
    for kilobytes in range(1024, MEMORY >> 10, 64):
        if run(program, [], folder, kilobytes)[0] == 2:
            return kilobytes
    sys.exit("tests/fuzz: the program does not start")


def keep(folder, text):
    """Reports what is wrong, and keeps what it was made of."""
    kept = tempfile.mkdtemp(prefix="ffv1restore-fuzz-")
    shutil.copytree(folder, kept, dirs_exist_ok=True)
    (pathlib.Path(kept) / "wrong").write_text(text + "\n")
    print(f"{text}\n    kept in {kept}", flush=True)
