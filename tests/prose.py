"""How long the documents are, how long their sentences, and words that are not to be used.

tests/ceilings says how many words the documents may have together. A word has a letter or a digit: bars of tables and dashes are none. What is made
by a script or checked elsewhere is not counted: the part of a document between the lines `<!-- made -->` and `<!-- /made -->`, and what is
indented or fenced, as programs, commands, what these print, and pictures.
"""
from __future__ import annotations

import pathlib
import re
import typing

TOP = pathlib.Path(__file__).resolve().parent.parent
LONGEST = 35

# Words that documents, comments and names of the code don't use, each with what stands in its place.
BANNED = {
    "answer": "result, or what a call returns",
    "hurt": "damaged",
    "rotten": "damaged",
    "torn": "damaged",
    "seam": "boundary",
    "leg": "crossing",
    "told": "reported",
    "behind": "after",
}
# Names of the kit that have one of them, and what makes a word of the code another one.
KEPT = re.compile(r"\w+-append_seam|tests/fuzz|\bAnswers\b|Answers\.antt|\.answers?\b")


def written(page: str) -> str:
    """A document without the part that a script makes."""
    return re.sub(r"<!-- made -->.*?<!-- /made -->", "", page, flags=re.S)


def blocks(page: str) -> typing.Iterator[str]:
    """The running texts of a document: its paragraphs, items of lists and cells of tables. What is indented or fenced is no text."""
    page = re.sub(r"^ *```.*?^ *```$", "", page, flags=re.S | re.M)
    lines: typing.List[str] = []
    for line in [*page.splitlines(), ""]:
        starts = not line.strip() or line.startswith(("#", "|", "    ")) or re.match(r" *(?:[-*]|\d+\.) ", line)
        if starts and lines:
            yield " ".join(lines)
            lines = []
        if line.startswith("|"):
            yield from (cell.strip() for cell in re.split(r"(?<!\\)\|", line) if cell.strip(" -"))
        elif line.strip() and not line.startswith(("#", "    ")):
            lines.append(re.sub(r"^ *(?:[-*]|\d+\.) ", "", line).strip())


def sentences(block: str) -> typing.List[str]:
    plain = re.sub(r"`[^`]*`", "Code", re.sub(r"\[([^]]*)\]\([^)]*\)", r"\1", block))
    return re.split(r"(?<=[.?!])\s+(?=[A-Z`*\"(])", plain)


def word_count(page: str) -> int:
    """How many words of text a document has, with those of its headings."""
    page = re.sub(r"^ *```.*?^ *```$|^ {4}[^\n]*$", "", written(page), flags=re.S | re.M)
    return sum(re.search(r"[^\W_]", word) is not None for word in page.split())


def ceiling(text: str) -> int:
    """How many words the documents may have together: the only number in the lines that are no comments."""
    number, = (line for line in text.splitlines() if line and not line.startswith("#"))
    return int(number)


def faults_of_all(pages: typing.Dict[str, str], most: int) -> typing.Iterator[str]:
    """What is wrong with documents that may have so many words together."""
    counts = {path: word_count(page) for path, page in pages.items()}
    if sum(counts.values()) > most:
        each = ", ".join(f"{path} {count}" for path, count in counts.items())
        yield f"the documents have {sum(counts.values())} words: at most {most}, by tests/ceilings ({each})"
    for path, page in pages.items():
        yield from faults_of(path, page)


def faults_of(path: str, page: str) -> typing.Iterator[str]:
    """What is wrong with the sentences of a document."""
    for sentence in (sentence for block in blocks(written(page)) for sentence in sentences(block)):
        if len(sentence.split()) > LONGEST:
            yield f"{path} has a sentence of {len(sentence.split())} words: {sentence[:70]} .."
        yield from (f"{path}: not '{word}' but {better}: {sentence[:70]} .." for word, better in BANNED.items()
                    if re.search(rf"\b{word}s?\b", sentence, re.I))


def banned_in_code(text: str) -> typing.Iterator[str]:
    """The banned words of code or definitions, also as a part of a name."""
    plain = KEPT.sub("", text)
    parts = set(re.findall(r"[A-Z]?[a-z]+", plain))
    yield from (word for word in BANNED if {word, word + "s", word.title(), word.title() + "s"} & parts)


def faults() -> typing.Iterator[str]:
    paths = ["README.md", "CONTRIBUTING.md", "CHANGELOG.md", *(f"docs/{path.name}" for path in sorted(TOP.glob("docs/*.md")))]
    pages = {path: (TOP / path).read_text() for path in paths}
    yield from faults_of_all(pages, ceiling((TOP / "tests/ceilings").read_text()))
    for path in sorted([*TOP.glob("crates/*/src/**/*.rt"), *TOP.glob("crates/*/specs/**/*.antt")]):
        yield from (f"{path.relative_to(TOP)}: not '{word}' but {BANNED[word]}" for word in banned_in_code(path.read_text()))
