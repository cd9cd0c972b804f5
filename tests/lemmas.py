"""Lemmas that nothing cites: no other lemma, proof of a function, definition or line of code. Worked rows stand for themselves: those are
in files whose names end in Vectors."""
from __future__ import annotations

import pathlib
import re
import typing

TOP = pathlib.Path(__file__).resolve().parent.parent
WORD = re.compile(r"[^\s(){}\[\],;.]+")
MODULE = re.compile(r"^( *)module\b")
DECLARES = re.compile(r"^( *)(?:(?:abbrev|unfoldable|private) )?(?:pub )?(?:data |record )?([^\s(){}\[\]]+)(?= [:({]|$)")


def blocks(text: str) -> typing.Iterator[typing.Tuple[str, str]]:
    """The declarations of a file of lemmas: each name with its lines. What stands before the first, or heads a module, has no name."""
    name, lines, within = "", [], [0]
    for line in (re.sub(r"--.*", "", line).rstrip() for line in text.splitlines()):
        indent = len(line) - len(line.lstrip())
        if line:
            while indent < within[-1]:
                within.pop()
        head = MODULE.match(line) or (DECLARES.match(line) if indent == within[-1] and " : " in f"{line} " else None)
        if head:
            yield name, "\n".join(lines)
            opens = line.lstrip().startswith("module")
            name, lines = ("" if opens else head.group(2)), []
            within.extend([indent + 2] if opens else [])
        lines.append(line)
    yield name, "\n".join(lines)


def words_of(text: str) -> typing.Set[str]:
    return set(WORD.findall(text.replace("::", " ")))


def uncited(files: typing.Dict[str, str], lemmas: typing.Iterable[str]) -> typing.Iterator[str]:
    """Of files by their paths, those of lemmas among them: each lemma that stands in no declaration but its own, and in no import that is used."""
    cites: typing.Dict[str, int] = {}
    declared: typing.List[typing.Tuple[str, str, typing.Set[str]]] = []
    for path, text in files.items():
        body = re.sub(r"^ *(?:pub )?(?:ghost )?use .*$", "", text, flags=re.M)
        parts = list(blocks(body)) if path in lemmas else [("", body)]
        for name, part in parts:
            words = words_of(part)
            declared.append((path, name, words))
            for word in words - {name}:
                cites[word] = cites.get(word, 0) + 1
    yield from (f"{path}: nothing cites {name}" for path, name, _ in declared if name and not cites.get(name))


def faults() -> typing.Iterator[str]:
    paths = [path for pattern in ("src/**/*.rt", "specs/**/*.antt", "proofs/**/*.antt") for path in TOP.glob(f"crates/*/{pattern}")]
    files = {str(path.relative_to(TOP)): path.read_text() for path in sorted(paths)}
    lemmas = {path for path in files if path.split("/")[2] == "proofs" and len(path.split("/")) == 4 and not path.endswith(("/Lib.antt", "Vectors.antt"))}
    yield from uncited(files, lemmas)
