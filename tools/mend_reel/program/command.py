"""The tool itself: what is asked for, what is done, and how it ends."""
from __future__ import annotations

import contextlib
import io
import os
import signal
import sys
from collections.abc import Iterable
from typing import Any, NoReturn, TextIO

from ..model import Fault, Interrupted
from . import options, session
from .kept_frames import refuse_kept
from .output_files import (INTERRUPTS, Files, WorkFolder, descriptor_of, holds_data, in_one_line, is_recording, is_same, is_written_to,
                           uninterrupted)
from .progress import Progress
from .session import Outputs


def ignore_interrupts() -> None:
    for number in INTERRUPTS:
        signal.signal(number, signal.SIG_IGN)


def interrupted(*_: Any) -> NoReturn:
    """Ends the work. What comes while it is cleared away is ignored."""
    ignore_interrupts()
    raise Interrupted("interrupted")


def check(asked: options.Options) -> None:
    """Refuses to write over what is read or there, and two files to one place, by files and not by names. A device takes several."""
    places: list[int | str] = []
    for path in asked.made():
        descriptor = descriptor_of(path)
        place = os.path.realpath(path) if descriptor is None else descriptor
        for read in (*asked.copies, *asked.read()):
            if is_same(path, read):
                raise Fault(f"{path} is {'one of the copies' if read in asked.copies else f'read: it is {read}'}")
        if os.path.isdir(path) and descriptor is None:
            raise Fault(f"cannot write {path}: it is a folder")
        if path != asked.out and is_recording(path):
            raise Fault(f"{path} is a recording: only -o overwrites one")
        if holds_data(path) and not asked.force:
            raise Fault(f"{path} is there (--force overwrites it)")
        if place in places and (descriptor is not None or not is_written_to(path)):
            raise Fault(f"{path} is named twice")
        places.append(place)
    refuse_kept(filter(None, (asked.keep, asked.pictures)), asked.copies, asked.force)


def write_out(lines: Iterable[str], stream: TextIO) -> None:
    """Prints the lines. A reader that takes no more of them has what it wants."""
    try:
        print("\n".join(map(in_one_line, lines)), file=stream, flush=True)
    except OSError as error:
        os.dup2(os.open(os.devnull, os.O_WRONLY), stream.fileno())
        if not isinstance(error, BrokenPipeError):
            raise Fault(f"cannot write standard {'output' if stream is sys.stdout else 'error'}: {error.strerror}") from None


def say(fault: BaseException, asked: options.Options, outputs: Outputs | None) -> None:
    """Reports a fault on standard error, if there is one, and whether OUT was made before it where that is to be said."""
    is_made = outputs is not None and outputs.is_out_made
    more = f"; {asked.out} was made" if is_made else ", and no OUT was made" if isinstance(fault, Interrupted) else ""
    line = f"mend-reel: {in_one_line(f'{fault}{more}')}".encode(errors="surrogateescape").decode(errors="replace")
    with contextlib.suppress(OSError):
        print(line, file=sys.stderr or io.StringIO(), flush=True)


def finish(asked: options.Options, outputs: Outputs, lines: list[str], status: int, faults: list[Fault]) -> int:
    """Prints what was found, and then what could not be judged or written. Returns the exit status."""
    to_other = any(descriptor_of(path) == 1 for path in asked.made())
    try:
        write_out(lines, sys.stderr or io.StringIO() if to_other else sys.stdout)
    except Fault as fault:
        faults.append(fault)
    for fault in faults:
        say(fault, asked, outputs)
    return 1 if faults else status


def main() -> int:
    asked = options.read(sys.argv[1:])
    for number in INTERRUPTS:
        signal.signal(number, interrupted)
    if isinstance(sys.stdout, io.TextIOWrapper):
        sys.stdout.reconfigure(errors="surrogateescape")
    files, progress, work, outputs = Files(), Progress(asked.quiet), None, None
    try:
        if sys.stdout is None:
            raise Fault("cannot write standard output: it is closed")
        check(asked)
        with uninterrupted():
            work = WorkFolder()
        outputs = Outputs(asked, files, work)
        # Another run may have made one of the files meanwhile: from here on their parts are held.
        check(asked)
        finished = session.run(asked, work.path, outputs, progress)
        progress.end()
        return finish(asked, outputs, *finished)
    except (Fault, OSError, Interrupted) as fault:
        progress.end()
        say(fault, asked, outputs)
        return 1
    finally:
        ignore_interrupts()
        if work:
            work.remove()
        files.remove()
