"""The tool itself: what is asked for, how GNU parallel runs the tasks, and how it ends."""
from __future__ import annotations

import argparse
import contextlib
import dataclasses
import json
import os
import shlex
import shutil
import signal
import subprocess
import sys
import tempfile
from collections.abc import Iterator, Sequence
from typing import NoReturn

from mend_reel.engine.external_programs import find_ffv1restore, run
from mend_reel.model import Fault, Interrupted, or_fault
from mend_reel.program.options import VERSION
from mend_reel.program.output_files import INTERRUPTS, in_one_line
from mend_reel.program.progress import Progress

from . import reports
from .collection import Collection, Reel, Result, Verdict, find, pair, read_judges, refuse
from .judging import find_mend_reel, run_task

DESCRIPTION = """Judges each reel that folders of copies have by one path, and mends it into DIR where no copy is undamaged. DIR gets index.html,
collection.csv and collection.json. GNU parallel runs the tasks. Called again it judges what is new or changed. No copy is changed."""
EPILOG = "exit status: 0 each reel has an undamaged or a mended file; 1 some can't be read, or a fault; 2 wrong words; 3 some are in doubt"
# The most reels and bytes of a task, in how many tasks few reels are divided, the seconds between looks at the log, and the options passed on.
MOST_REELS, MOST_BYTES, FEW_TASKS, PAUSE, MOST_LINES = 128, 1 << 28, 32, 0.5, 100
PASSED = {"hosts": "--sshloginfile", "jobs": "--jobs", "memfree": "--memfree", "retries": "--retries"}


def parser() -> argparse.ArgumentParser:
    made = argparse.ArgumentParser("mend-collection", usage="%(prog)s [options] -o DIR COPY-DIR COPY-DIR...", description=DESCRIPTION, epilog=EPILOG,
                                   allow_abbrev=False)
    add = made.add_argument
    add("folders", nargs="*", metavar="COPY-DIR", help="the folders of copies")
    add("-o", "--out", metavar="DIR", help="the folder for what is made")
    add("--write", action="store_true", help="write each reel to DIR, also where a copy is undamaged")
    add("--anew", action="store_true", help="judge all reels, also those that have a result")
    add("--hosts", metavar="FILE", help="run the tasks on the machines of FILE, the --sshloginfile of GNU parallel")
    add("--jobs", metavar="N", help="so many tasks at a time, as GNU parallel takes it")
    add("--memfree", metavar="SIZE", help="begin a task only where so much memory is free, as GNU parallel takes it")
    add("--retries", metavar="N", help="try a task so often, as GNU parallel takes it; 3 times with --hosts")
    add("--quiet", action="store_true", help="report no progress")
    add("--version", action="version", version=f"mend-collection {VERSION}")
    add("--task", help=argparse.SUPPRESS)
    return made


def find_parallel() -> str:
    """GNU parallel. Another program of that name is not it."""
    found = shutil.which("parallel")
    if not found or not run(found, "--version").stdout.startswith(b"GNU parallel"):
        raise Fault("GNU parallel is missing; install it, as by: sudo apt-get install parallel")
    return found


def divided(reels: Sequence[Reel]) -> Iterator[list[Reel]]:
    """The reels of each task: some small ones together, as each call of a program costs time."""
    most, task, size = max(1, min(MOST_REELS, len(reels) // FEW_TASKS)), list[Reel](), 0
    for reel in reels:
        own = sum(file[0] for file in reel.files if file)
        if task and (len(task) == most or size + own > MOST_BYTES):
            yield task
            task, size = [], 0
        task, size = [*task, reel], size + own
    yield from [task] if task else []


def write_tasks(collection: Collection, tasks: Sequence[Sequence[Reel]]) -> str:
    """Writes a file for each task, and one of the commands that run them, each ended by a NUL. Returns the path of this one."""
    folder = tempfile.mkdtemp(dir=collection.place("tasks"))
    with open(collection.place("log", "commands"), "w", encoding="utf-8", errors="surrogateescape") as commands:
        for number, reels in enumerate(tasks, 1):
            with open(os.path.join(folder, str(number)), "w", encoding="utf-8") as file:
                json.dump([dataclasses.asdict(collection), reels], file)
            commands.write(shlex.join([os.path.abspath(sys.argv[0]), f"--task={file.name}"]) + "\0")
    return commands.name


def run_tasks(asked: argparse.Namespace, collection: Collection, tasks: Sequence[Sequence[Reel]], progress: Progress) -> dict[str, str]:
    """Has GNU parallel run the tasks. Returns of each reel how its task ended."""
    words = [f"{option}={getattr(asked, name)}" for name, option in PASSED.items() if getattr(asked, name) is not None]
    words += [*(["--retries=3"] if asked.hosts and asked.retries is None else []), *(["--env=FFV1RESTORE"] if "FFV1RESTORE" in os.environ else [])]
    commands, log = write_tasks(collection, tasks), collection.place("log", "jobs")
    with open(commands, "rb") as listed, open(log, "wb"), open(collection.place("log", "faults"), "w+b") as faults:
        child = subprocess.Popen([find_parallel(), "--null", "--joblog", log, *words], stdin=listed, stdout=subprocess.DEVNULL, stderr=faults,
                                 start_new_session=True)
        try:
            while child.poll() is None:
                with contextlib.suppress(subprocess.TimeoutExpired):
                    child.wait(PAUSE)
                progress.at(sum(len(tasks[number - 1]) for number in read_log(log)), sum(map(len, tasks)))
        except Interrupted:
            os.killpg(child.pid, signal.SIGTERM)
            child.wait()
            raise
        faults.seek(0)
        fault = (faults.read().decode(errors="replace").strip().splitlines() or [f"GNU parallel ended with status {child.returncode}"])[-1]
    if not any(collection.read(reel) for reels in tasks for reel in reels):
        raise Fault(f"no task could be run: {fault}")
    ended = read_log(log)
    return {reel.path: ended.get(number, fault) for number, reels in enumerate(tasks, 1) for reel in reels}


def read_log(path: str) -> dict[int, str]:
    """How each task ended, by its number: the log of GNU parallel has its machine at the second place, its status and signal at the seventh."""
    with open(path, encoding="utf-8", errors="replace") as file:
        rows = [line.split("\t") for line in file if line.endswith("\n") and line[0].isdigit()]
    return {int(row[0]): f"its task ended on {row[1]} with status {row[6]}, signal {row[7]}" for row in rows}


def judge(asked: argparse.Namespace, progress: Progress) -> int:
    """Judges the collection, and writes its reports. Returns the exit status."""
    with or_fault(f"cannot read {asked.hosts}"), open(asked.hosts or os.devnull, "rb"):
        refuse(asked.folders, asked.out)
    find_mend_reel(), find_parallel(), find_ffv1restore()
    folders = [find(name) for name in asked.folders]
    lost, notes = read_judges(folders)
    reels, collection = pair(folders), Collection(list(map(os.path.abspath, asked.folders)), asked.folders, os.path.abspath(asked.out), asked.write)
    lock = collection.open(asked.anew)
    tasks = list(divided([reel for reel in reels if not collection.is_settled(reel)]))
    progress.begin("judging the reels")
    ended = run_tasks(asked, collection, tasks, progress) if tasks else {}
    progress.end()
    results = [collection.read(reel) or Result(reel.path, "", Verdict.UNREADABLE, ended[reel.path]) for reel in reels]
    results += [Result(path, "", Verdict.UNREADABLE, f"{source} names it, and no folder has it") for path, source in lost.items()]
    lines = reports.write(collection, sorted(results, key=lambda result: os.fsencode(result.path)), notes)
    os.close(lock)
    more = [f"{len(lines) - MOST_LINES} further lines are in {asked.out}/index.html"] if len(lines) > MOST_LINES else []
    with contextlib.suppress(BrokenPipeError), open(1, "wb", closefd=False) as stdout:
        stdout.write(os.fsencode("".join(in_one_line(line) + "\n" for line in (*lines[:-1][:MOST_LINES], *more, lines[-1]))))
    verdicts = {result.verdict for result in results}
    return 1 if Verdict.UNREADABLE in verdicts else 3 if Verdict.DOUBT in verdicts else 0


def main() -> NoReturn:
    def interrupted(*_: object) -> NoReturn:
        raise Interrupted("interrupted; call it again to go on")

    asked = parser().parse_intermixed_args()
    if not asked.task and (not asked.out or len(asked.folders) < 2):
        parser().error("the following arguments are required: -o DIR, COPY-DIR COPY-DIR...")
    for number in INTERRUPTS:
        signal.signal(number, interrupted)
    progress = Progress(asked.quiet, program="mend-collection")
    try:
        sys.exit(run_task(asked.task) if asked.task else judge(asked, progress))
    except (Fault, OSError, Interrupted) as fault:
        progress.end()
        print(f"mend-collection: {in_one_line(os.fsencode(str(fault)).decode(errors='replace'))}", file=sys.stderr)
        sys.exit(1)
