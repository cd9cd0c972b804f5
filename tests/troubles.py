"""Whether docs/TROUBLES.md has each message of mend-reel that says what is in doubt, and none that the program doesn't print."""
from __future__ import annotations

import ast
import pathlib
import re
import typing

TOP = pathlib.Path(__file__).resolve().parent.parent
REASONS = "tools/mend_reel/judging/reasons.py"
# What stands in a message for what differs from call to call.
GAPS = re.compile(r"\.\.\.|\b(?:PATH|MAP|COPY|NAME|OUT|FILE|[A-Z]|\d+|it|them|sound)\b")


def texts(source: str) -> typing.Iterator[str]:
    """The texts of a module, without its comments; what is put into one when it runs is a line feed here."""
    for node in ast.walk(ast.parse(source)):
        if isinstance(node, ast.JoinedStr):
            yield "".join(part.value if isinstance(part, ast.Constant) else "\n" for part in node.values)
        elif isinstance(node, ast.Constant) and isinstance(node.value, str):
            yield re.sub(r"\{\w*\}", "\n", node.value)


def reasons(source: str) -> typing.Iterator[str]:
    """How each text of the enum Why begins, up to what is put into it or its first clause."""
    for node in ast.walk(ast.parse(source)):
        if isinstance(node, ast.ClassDef) and node.name == "Why":
            values = [item.value.value for item in node.body if isinstance(item, ast.Assign) and isinstance(item.value, ast.Constant)]
            yield from (re.split(r" ?[{;,:]", value)[0] for value in values)


def messages(page: str) -> typing.Iterator[str]:
    """The messages in the first column of the tables."""
    for line in page.splitlines():
        if line.startswith("| `"):
            yield from re.findall(r"`([^`]*)`", line.split(" | ")[0])


def pieces(message: str) -> typing.List[str]:
    """What of a message is the same in each call."""
    return [piece.strip(" ;,:()") for piece in GAPS.split(message) if len(piece.strip(" ;,:()")) > 3]


def faults() -> typing.Iterator[str]:
    page = (TOP / "docs/TROUBLES.md").read_text()
    said = list(messages(page))
    for begins in reasons((TOP / REASONS).read_text()):
        if not any(begins.strip() in " ".join(message.split()) or message in begins for message in said):
            yield f"docs/TROUBLES.md lacks a message: {begins}"
    printed = "\n".join(text for path in sorted((TOP / "tools").rglob("*.py")) for text in texts(path.read_text()))
    printed += (TOP / "crates/ffv1_commands/src/fault.rt").read_text()
    for message in said:
        if not all(piece in printed for piece in pieces(message)):
            yield f"docs/TROUBLES.md has a message that is not printed: {message}"
