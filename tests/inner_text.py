"""Where the definitions of specs/ stand: what readers are to believe apart from what only proofs are for, and what each theorem rests on.

A definition that a contract of a public call cites, or that such a definition cites, says what is promised. The others are invariants of
loops and contracts of private calls: nothing that is promised rests on them, as they are proved to hold. They stand in specs/Inner/.
"""
from __future__ import annotations

import re
import typing

import specs_text

# A definition: the path of its file below crates/, and its name.
Name = typing.Tuple[str, str]
BEGINS = re.compile(r"^(?:(?:abbrev|unfoldable) )?(?:pub )?(?:(?:data|record) )?(\S+)(?= |$)")
PARTS = ("use ", "pub use ", "pub mod ", "infix", "unfolding", "--", " ", "}")
# By how many spaces what stands in a module is indented.
STEP = 2


def definitions(text: str) -> typing.Dict[str, str]:
    """What a file of specs defines: each name with the lines that define it. What stands in a module within the file, `module _ ..`, has
    the head of the module before it, as the module's parameters are also its own."""
    found: typing.Dict[str, typing.List[str]] = {}
    heads: typing.List[str] = []
    name = ""
    for line in text.splitlines():
        if line.strip():
            heads = heads[: (len(line) - len(line.lstrip())) // STEP]
        here = line[STEP * len(heads) :]
        if here.startswith("module _ "):
            heads.append(line)
            name = ""
            continue
        begins = BEGINS.match(here) if here and not here.startswith(PARTS) else None
        if begins and (re.match(r"(?:abbrev|unfoldable|pub) ", here) or re.match(r"\S+ : ", here)):
            name = begins.group(1)
            found.setdefault(name, list(heads))
        if name and not here.lstrip().startswith("--") and not here.startswith(("use ", "pub use ", "infix")):
            found[name].append(line)
    return {name: "\n".join(lines) for name, lines in found.items()}


def line_count(body: str) -> int:
    """How many lines define a name, without the heads of the modules around it."""
    return sum(not line.lstrip().startswith("module _ ") for line in body.splitlines())


def cited_in(path: str, text: str, body: str) -> typing.Iterator[Name]:
    """The definitions that a definition of this file cites: of other files, and of its own."""
    yield from specs_text.citations(text, body)
    words = set(re.findall(r"[\w'-]+|[^\s\w(){}]+", body))
    yield from ((path, name) for name in definitions(text) if name.replace("◌", "") in words)


def reached(source: typing.Callable[[str], str], first: typing.Iterable[Name]) -> typing.Set[Name]:
    """These definitions, and all that they cite. `source` gives the text of a file."""
    found: typing.Set[Name] = set()
    rest = list(first)
    while rest:
        path, name = rest.pop()
        if (path, name) not in found:
            found.add((path, name))
            text = source(path)
            rest.extend(cited_in(path, text, definitions(text).get(name, "")))
    return found


def public_in(path: str) -> typing.List[str]:
    """The public definitions of a file, without those in a module within it, and without laws, which have a dash in their names."""
    text = specs_text.source(path)
    return [name for name in specs_text.names_defined(text) if name in definitions(text) and "-" not in name]


def faults() -> typing.Iterator[str]:
    believed = reached(specs_text.source, specs_text.cited_by_contracts())
    for crate in specs_text.crates():
        for path in specs_text.files_of(crate):
            yield from (f"no contract of a public call reaches {name} in {path}" for name in public_in(path) if (path, name) not in believed)
        for path in specs_text.inner_files_of(crate):
            yield from (f"a contract of a public call reaches {name} in {path}" for name in public_in(path) if (path, name) in believed)


# The theorems of docs/PROMISES.md for which it lists what to read, each with its mark and the calls whose contracts state it: a function by its
# crate and its name, with its type where it is one of a type's own, and where only some of its clauses do with their names.
THEOREMS = {
    "C": ["ffv1_holding.copies_restore_the_original"],
    "T": ["ffv1_splice.true_splices_are_the_original"],
    "H": ["ffv1_commands.same_copies_make_one_file", "ffv1_commands.commands_restore_the_original"],
    "S": ["ffv1_commands.same_copies_make_one_splice", "ffv1_commands.splice_gives_the_original", "ffv1_commands.splice_weaves_the_original"],
    "G": ["ffv1_mend.good_is_the_original"],
    "M": ["ffv1_commands.any_order_makes_one_file", "ffv1_commands.mend_claims_what_is_vouched", "ffv1_commands.mend_gives_the_original"],
    "R": ["ffv1_plane.one_reading", "ffv1_plane.one_fault"],
    "A": ["ffv1_player.Player::decode: shown, sought"],
    "P": ["ffv1_commands.run_samples: shown"],
    "F": ["ffv1_player.Player::decode: ok, found, err, nothing_left", "ffv1_samples.tile_is_slice", "ffv1_player.frame_is_played"],
    "D": ["ffv1_bits.burst_seen", "ffv1_slice.near_found"],
}
NAMES = {
    "C": "copies", "T": "true splices", "H": "holdings", "S": "splicing", "G": "good stretches", "M": "files", "R": "one reading",
    "A": "one frame of any recording", "P": "samples", "F": "with faults", "D": "small damage",
}
MADE = re.compile(r"(?<=<!-- made -->\n).*?(?=<!-- /made -->)", re.S)


def head_of(text: str, kind: str, name: str) -> str:
    """The head of a public function of the text of a file of code, of a type's own where a type is named; empty if it has none."""
    if kind:
        own = re.search(rf"^impl {kind} \{{\n.*?^\}}", text, re.S | re.M)
        text = own.group() if own else ""
    found = re.search(rf"^{'    ' if kind else ''}pub fn {name}\b.*?^ *\{{", text, re.S | re.M)
    return found.group() if found else ""


def of_clauses(head: str, names: typing.List[str]) -> str:
    """What of a function's head these of its clauses say, with all that it requires."""
    parts = re.split(r"^(?= *(?:requires|ensures)\b)", head, flags=re.M)
    named = {found.group(1): part for part in parts for found in [re.match(r" *ensures (\w+) \{", part)] if found}
    return "".join([*(part for part in parts if not part.lstrip().startswith("ensures")), *(named[name] for name in names)])


def statement(call: str) -> typing.Tuple[str, str]:
    """The text of the file of code in which a public function stands, without comments, and the function's head; where clauses are named, what
    these say."""
    call, _, clauses = call.partition(": ")
    crate, _, path = call.partition(".")
    kind, _, name = path.rpartition("::")
    sources = sorted((specs_text.TOP / "crates" / crate / "src").glob("*.rt"))
    texts = [re.sub(r"^ *//.*\n", "", source.read_text(), flags=re.M) for source in sources]
    found = [(text, head) for text, head in ((text, head_of(text, kind, name)) for text in texts) if head]
    if len(found) != 1:
        raise KeyError(call)
    text, head = found[0]
    return text, of_clauses(head, clauses.split(", ")) if clauses else head


def rests_on(calls: typing.Iterable[str]) -> typing.Set[Name]:
    """The definitions that the contracts of these calls reach."""
    first = [name for call in calls for name in specs_text.citations(*statement(call))]
    return {(path, name) for path, name in reached(specs_text.source, first) if name in definitions(specs_text.source(path))}


def reading_list() -> str:
    """For each theorem how many lines are to be read, and a row for each file with the definitions that some theorem reaches."""
    reach = {mark: rests_on(calls) for mark, calls in THEOREMS.items()}
    lines = {path: {name: line_count(body) for name, body in definitions(specs_text.source(path)).items()} for path in specs_text.files()}
    sums = {mark: sum(lines[path][name] for path, name in names) for mark, names in reach.items()}
    page = "".join(f"- {mark}, {NAMES[mark]}: {len(reach[mark])} definitions, {sums[mark]} lines\n" for mark in THEOREMS)
    page += "\n| File | Definitions, with their lines | For |\n|---|---|---|\n"
    for path in specs_text.files():
        names = [name for name in lines[path] if any((path, name) in found for found in reach.values())]
        marks = "".join(mark for mark, found in reach.items() if any((path, name) in found for name in names))
        if names:
            page += f"| `{path}` | {', '.join(f'`{name}` {lines[path][name]}' for name in names)} | {marks} |\n"
    return page
