"""The cases of tests/cases: what the program is run on, and what it has to do.

tests/cases/files names contents that several cases share: a line each, the name and the bytes in hexadecimal digits. Each other
file of tests/cases has the cases of a command, and `any` those of `--any`, which tests/any_cases.py makes. An empty line stands between
two cases, and each line of a case begins with one of these words:

    case NAME            the case's name
    words WORD...        the program's words, quoted as a shell would have them
    in PATH = CONTENT    a file that lies where it runs; of a PATH that ends in / an empty folder
    made PATH = CONTENT  a file that it has to make, or the SHA-256 of its bytes after 'sha256'
    status N             its exit status, where that is not 0
    stdout, stderr       what it has to print: the lines after it, without the two spaces before them
    output KIND          'full' where standard output takes nothing, 'closed' where neither it nor standard input is open, 'none'
                         where no standard stream is
    limit N              the greatest size of a file that it makes, in KiB: a write past it takes less than it is given, and the
                         next one fails
    open N               how many files it may have open at once

A CONTENT is a name of tests/cases/files, 'hex' and digits, 'from' and a path below tests/, 'lines' and the lines of a text, parted by
' / ', or 'list', a path below tests/ and lengths: the list of that file for copies of these lengths (tests/lists.py). After it can come
'cut' and how many bytes of it are left, and then 'with' and changes: a place and the digits of the bytes that stand from that place
on, or 'zero' and how many bytes are zero there, or 'gone' and how many bytes are lost there; places count before any change.

The cases of tests/cases/mend-reel are of that tool, which runs the program.
"""
import dataclasses
import hashlib
import pathlib
import shlex

import lists

TESTS = pathlib.Path(__file__).resolve().parent
FOLDER = TESTS / "cases"


@dataclasses.dataclass
class Case:
    name: str
    tool: bool = False
    words: list = dataclasses.field(default_factory=list)
    inputs: dict = dataclasses.field(default_factory=dict)
    folders: list = dataclasses.field(default_factory=list)
    made: dict = dataclasses.field(default_factory=dict)
    status: int = 0
    stdout: bytes = b""
    stderr: bytes = b""
    output: str = ""
    limit: int = 0
    open: int = 0


def shared_contents():
    """The contents that tests/cases/files names."""
    lines = (line.partition(" ") for line in (FOLDER / "files").read_text().splitlines())
    return {name: bytes.fromhex(digits) for name, _, digits in lines}


class Digest(bytes):
    """The SHA-256 digest of a file that has to be made, in place of its bytes."""

    def is_of(self, content):
        return hashlib.sha256(content).digest() == self


def changed(content, left, changes):
    """A content of which so many bytes are left, where a number says so, with changes as a case says them."""
    new_content = bytearray(content[: int(left)] if left else content)
    for change in reversed(changes.split(", ") if changes else []):
        place, what = change.split(" ", 1)
        word, _, number = what.partition(" ")
        new = bytes(int(number)) if word == "zero" else b"" if word == "gone" else bytes.fromhex(what)
        new_content[int(place) : int(place) + (int(number) if word == "gone" else len(new))] = new
    return bytes(new_content)


def content_of(text, shared):
    base, _, changes = text.partition(" with ")
    base, _, left = base.partition(" cut ")
    kind, _, rest = base.partition(" ")
    if kind == "hex":
        content = bytes.fromhex(rest)
    elif kind == "from":
        content = (TESTS / rest).read_bytes()
    elif kind == "lines":
        content = "".join(line + "\n" for line in rest.split(" / ")).encode()
    elif kind == "list":
        path, *lengths = rest.split()
        content = lists.list_text((TESTS / path).read_bytes(), list(map(int, lengths))).encode()
    else:
        content = shared[base]
    return changed(content, left, changes)


def read_line(case, line, shared):
    """Takes a line of a case that is none of printed text."""
    word, _, rest = line.partition(" ")
    if word == "words":
        case.words = shlex.split(rest)
    elif word in ("in", "made"):
        path, _, content = rest.partition(" = ")
        if path.endswith("/"):
            case.folders.append(path)
        else:
            digest = word == "made" and content.startswith("sha256 ")
            (case.inputs if word == "in" else case.made)[path] = Digest.fromhex(content[7:]) if digest else content_of(content, shared)
    elif word in ("status", "limit", "open"):
        setattr(case, word, int(rest))
    elif word == "output":
        case.output = rest
    elif line not in ("stdout", "stderr"):
        raise ValueError(f"no line of a case: {line}")


def cases():
    """All cases, by table and in their order there."""
    shared = shared_contents()
    for table in sorted(FOLDER.iterdir()):
        if table.name == "files":
            continue
        case, printed = None, ""
        for line in table.read_text(encoding="utf-8", errors="surrogateescape").split("\n"):
            if line.startswith("  "):
                setattr(case, printed, getattr(case, printed) + line[2:].encode("utf-8", "surrogateescape") + b"\n")
            elif line.startswith("case "):
                if case:
                    yield case
                case = Case(line[5:], table.name == "mend-reel")
            elif line:
                printed = line
                read_line(case, line, shared)
        yield case
