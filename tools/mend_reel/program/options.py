"""The words of the command line."""
from __future__ import annotations

import argparse
import dataclasses
from collections.abc import Mapping, Sequence

VERSION = "0.2.0"
USAGE = """mend-reel [options] -o OUT COPY...
       mend-reel --check [options] COPY..."""
DESCRIPTION = """Makes OUT, one good recording, from damaged copies of a recording with FFV1 video. No copy is changed. Every byte of OUT is
verified by a checksum, or copies agree on it, or it is reported. Without -o the first COPY is OUT, as it was before there was -o: for
scripts. An OUT that is one of the copies is refused. Where OUT or FILE is a device, a pipe or -, it is written to, not replaced; - is
standard output."""
EPILOG = """exit status: 0 OUT is what was recorded, as far as any check can tell (with --check: no copy is damaged); 1 a fault, reported on standard
error, and no OUT was made, or the line says that it was (with --check: a copy could not be judged); 2 the command line was not
understood; 3 OUT was made and something is open or missing in it (with --check: a copy is damaged)"""
END_OF_OPTIONS = "--"


@dataclasses.dataclass(frozen=True)
class Options:
    """What is asked for."""

    out: str | None  # nothing where copies are only checked
    is_named: bool  # OUT was named by -o
    copies: tuple[str, ...]
    maps: Mapping[int, str]  # the file of unread places of some copies, by their numbers
    force: bool
    keep: str | None
    pictures: str | None
    report: str | None
    json: str | None
    digest: str | None
    digests: bool
    jobs: int
    quiet: bool

    def made(self) -> list[str]:
        """The files that are made, in the order in which they are named here."""
        return [path for path in (self.out, self.report, self.json) if path is not None]

    def read(self) -> list[str]:
        """The files that are read beside the copies."""
        return [*([self.digest] if self.digest is not None else []), *self.maps.values()]


def count(word: str) -> int:
    """A number of jobs."""
    number = int(word)
    if number < 1:
        raise argparse.ArgumentTypeError(f"{word} is less than 1")
    return number


count.__name__ = "number"


def parser() -> argparse.ArgumentParser:
    """The parser, whose messages name the word that is wrong."""
    made = argparse.ArgumentParser("mend-reel", usage=USAGE, description=DESCRIPTION, epilog=EPILOG, allow_abbrev=False)
    add = made.add_argument
    add("paths", nargs="*", metavar="COPY", help="the copies; without -o and --check the first one is OUT")
    add("-o", "--out", metavar="OUT", help="the file to make")
    add("--check", action="store_true", help="report what is damaged in one or more copies, and write no OUT")
    add("--force", action="store_true", help="overwrite files that exist; recordings only as OUT, one of the same video only as that of -o")
    add("--report", metavar="FILE", help="write a page in HTML: the verdict, a timeline, a table of what is damaged")
    add("--json", metavar="FILE", help="write the same for machines")
    add("--digest", metavar="FILE", help="compare OUT with the digest that md5sum, sha1sum, sha256sum, sha512sum or FFmpeg's framemd5 wrote; "
        "with --check each copy with its line in a manifest of these or of BagIt")
    add("--digests", action="store_true", help="take the SHA-256 of OUT and of each copy into the reports")
    add("--map", metavar="COPY=FILE", action="append", default=[],
        help="what GNU ddrescue's mapfile FILE calls unread is no version of COPY")
    add("--keep", metavar="DIR", help="keep in DIR the list of what lies where, and the holding file and report of each damaged frame")
    add("--pictures", metavar="DIR", help="write to DIR an image of what can be shown of each frame that is not restored")
    add("--jobs", metavar="N", type=count, default=1, help="have ffprobe read, and take the digests of, N copies at a time")
    add("--quiet", action="store_true", help="report no progress")
    add("--version", action="version", version=f"mend-reel {VERSION}")
    return made


def read(words: Sequence[str]) -> Options:
    """Reads the command line. It ends the program with status 2 where it is not understood."""
    made = parser()
    end = words.index(END_OF_OPTIONS) if END_OF_OPTIONS in words else len(words)
    asked = made.parse_intermixed_args(words[:end])
    paths, is_named = [*asked.paths, *words[end + 1 :]], asked.out is not None
    for option, given in (("-o", asked.out), ("--keep", asked.keep), ("--pictures", asked.pictures)):
        if asked.check and given:
            made.error(f"argument {option}: not allowed with argument --check")
    if not asked.check and not is_named and paths:
        asked.out = paths.pop(0)
    if not paths:
        made.error(f"the following arguments are required: {'COPY' if asked.check or asked.out is not None else 'OUT, COPY'}")
    named = {field.name: getattr(asked, field.name) for field in dataclasses.fields(Options) if hasattr(asked, field.name)}
    if "" in (*named.values(), *paths):
        made.error("a name is empty")
    return Options(is_named=is_named, copies=tuple(paths), maps=maps_of(asked.map, paths, made), **named)


def maps_of(words: Sequence[str], copies: Sequence[str], made: argparse.ArgumentParser) -> dict[int, str]:
    """The paths of maps by the numbers of their copies. A copy and a path may have equals signs, so the longest name of a copy is meant."""
    maps: dict[int, str] = {}
    for word in words:
        named = [number for number, copy in enumerate(copies) if word.startswith(copy + "=")]
        number = max(named, key=lambda number: len(copies[number]), default=-1)
        path = word[len(copies[number]) + 1 :]
        if not named or not path:
            made.error(f"argument --map: {word} is not the name of a copy, =, and its map")
        if number in maps:
            made.error(f"argument --map: {copies[number]} has two maps")
        maps[number] = path
    return maps
