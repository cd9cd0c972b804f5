"""The definitions of specs/: which there are, what each file cites, and what contracts of public calls cite of them."""
from __future__ import annotations

import pathlib
import re
import typing

TOP = pathlib.Path(__file__).resolve().parent.parent
# The folder in a crate's specs for definitions that no contract of a public call reaches.
INNER = "Inner"


def source(path: str) -> str:
    return (TOP / "crates" / path).read_text()


def names_defined(text: str) -> typing.List[str]:
    """The public names that a file of specs defines, in their order."""
    # what is indented is in a module within the file, if it is no field of a record
    found = re.findall(r"^(?: *(?:abbrev|unfoldable) pub|pub(?: data| record)?) (?!(?:mod|use|data|record) )(\S+)", text, re.M)
    return list(dict.fromkeys(found))


def crates() -> typing.List[str]:
    """The crates that have definitions, lowest first."""
    listed = re.findall(r"^(\w+):", (TOP / "crates.txt").read_text(), re.M)
    return [crate for crate in listed if (TOP / "crates" / crate / "specs/Lib.antt").is_file()]


def files_of(crate: str, module: str = "Lib", folder: str = "specs") -> typing.List[str]:
    """The files of a crate's specs, in the order in which it lists them: those that readers are to believe, so not those in `Inner`."""
    listed = re.findall(r"^pub mod (\w+)$", source(f"{crate}/specs/{module}.antt"), re.M)
    return [f"{crate}/{folder}/{name}.antt" for name in listed if name != INNER]


def inner_files_of(crate: str) -> typing.List[str]:
    """The files of a crate's specs that only its loops, its private calls and proofs are for."""
    return files_of(crate, INNER, f"specs/{INNER}") if (TOP / "crates" / crate / f"specs/{INNER}.antt").is_file() else []


def files() -> typing.List[str]:
    return [path for crate in crates() for path in files_of(crate)]


def home(crate: str, module: str) -> str:
    """The file of a module, which the crate has or passes on under this name; empty if it is none of these crates'."""
    if not (TOP / "crates" / crate / "specs").is_dir():
        return ""
    path = f"{crate}/specs/{module.replace('.', '/')}.antt"
    if module != "Lib" and (TOP / "crates" / path).is_file():
        return path
    passed = re.findall(r"^pub use Rattle\.(\w+)\.specs\.(\w+)(?: as (\w+))?$", source(f"{crate}/specs/Lib.antt"), re.M)
    return next((home(lower, name) for lower, name, other in passed if (other or name) == module), "")


def citations(text: str, cites: str) -> typing.Iterator[typing.Tuple[str, str]]:
    """The definitions that words cite, each with its file, by the `use` lines of the text of their own file."""
    words = set(re.findall(r"[\w'-]+|[^\s\w(){}]+", cites))
    lines = r"^ *(?:pub )?(?:ghost )?use Rattle\.(\w+)\.specs\.((?:Inner\.)?\w+)(?:\.(\w+))?(?:\.\{([^}]*)\})?(?: as (\w+))?;?$"
    for crate, module, within, names, other in re.findall(lines, text, re.M):
        path = home(crate, module)
        if path and not names:
            yield from ((path, name) for name in re.findall(rf"\b{other or module.rpartition('.')[2]}\.([\w'-]+)", cites))
        for name, _, renamed in (item.strip().partition(" as ") for item in names.split(",") if path):
            if (renamed or name).replace("◌", "") in words:
                # what stands within a module of the file is a constructor or a field of the type with that name
                yield path, within or name


def exported(crate: str) -> typing.Set[str]:
    """The names of what a crate gives to others."""
    root, = (path for path in (TOP / "crates" / crate / "src").glob("*.rt") if path.stem in ("lib", "main"))
    text = root.read_text()
    uses = " ".join(re.findall(r"^pub use ([^;]*);", text, re.M))
    names = {*re.findall(r"\w+", uses), *re.findall(r"^pub \w+ (\w+)", text, re.M)}
    # a type of another name, whose own functions are those of the type that it stands for
    kinds = (kind for path in sorted(root.parent.glob("*.rt")) for kind in re.findall(r"^pub type (\w+).*? = (\w+)", path.read_text(), re.M))
    return {*names, *(other for name, other in kinds if name in names)}


def own_traits(texts: typing.Iterable[str]) -> typing.Set[str]:
    """The traits that a crate keeps to itself: what they say of a public type is no promise."""
    return {name for text in texts for name in re.findall(r"^pub\(crate\) trait (\w+)", text, re.M)}


def contracts(text: str, public: typing.Set[str], hidden: typing.Container[str] = ()) -> typing.Iterator[str]:
    """What is promised of public items: the heads of functions, and what types and traits say beside their functions' bodies, but for traits
    that are hidden."""
    starts = r"^(?:pub (?:const )?fn|pub struct|pub enum|pub trait|impl)\b"
    for item in re.findall(rf"{starts}[^\n]*;$|{starts}.*?^(?:\}}|\{{\}})$", text, re.S | re.M):
        head = re.sub(r"<[^{]*?>(?= |\()", "", item.split("\n")[0].split("{")[0])
        name = re.search(r"(?:fn|struct|enum|trait|impl|for) (\w+)(?!.* for )", head)
        of_trait = re.search(r"^impl (\w+) for ", head)
        if of_trait and of_trait.group(1) in hidden or not public & {found.group(1) for found in (name, of_trait) if found}:
            continue
        item = re.sub(r"^( *)\{$.*?^\1\}$", "", item, flags=re.S | re.M)
        if item.startswith("impl") and " for " not in head:
            # of a type's own functions those that are public
            item = "".join(re.findall(r"^    (?:pub (?:const )?fn|ghost) .*?(?=^    (?:pub|fn|ghost|const|#)|^\}|\Z)", item, re.S | re.M))
        yield item


def cited_by_contracts() -> typing.Iterator[typing.Tuple[str, str]]:
    for crate in crates():
        public = exported(crate)
        texts = [re.sub(r"^ *//.*\n", "", path.read_text(), flags=re.M) for path in sorted((TOP / "crates" / crate / "src").glob("*.rt"))]
        hidden = own_traits(texts)
        for text in texts:
            for contract in contracts(text, public, hidden):
                yield from citations(text, contract)


def faults() -> typing.Iterator[str]:
    """Files of specs that no module lists, or that don't begin with a line that says what they define."""
    listed = files()
    there = {str(path.relative_to(TOP / "crates")) for path in TOP.glob("crates/*/specs/*.antt") if path.stem not in ("Lib", INNER)}
    yield from (f"{path} is not among the modules of its crate's specs/Lib.antt" for path in sorted(there - set(listed)))
    yield from (f"{path} does not begin with a line that says its notion" for path in listed if not source(path).startswith("-- "))
