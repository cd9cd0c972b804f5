"""The containers that are known here, a row each, and which one a file is of."""
from __future__ import annotations

from ..model import Copy
from .avi import Avi
from .matroska import Matroska
from .mov import Mov
from .mxf import Mxf
from .nut import ID, Nut
from .structure import Container, Structure

KNOWN: tuple[Container, ...] = (Matroska(), Avi(), Nut(), Mov(), Mxf())
OTHER = Container()
ENDINGS = {each.name: each.endings for each in KNOWN}


def by_start(copy: Copy) -> Container | None:
    """The container that a file's own first bytes name, if they name one."""
    head = copy.read(0, len(ID))
    return next((each for each in KNOWN if each.begins(head)), None)


def structure_of(copy: Copy) -> Structure:
    """What the parts of a file say, by its first bytes. It is read once."""
    if copy.structure is None:
        copy.structure = (by_start(copy) or OTHER).read(copy)
    return copy.structure
