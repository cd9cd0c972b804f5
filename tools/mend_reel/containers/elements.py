"""Divides an EBML master into its children, by the heads that all copies of one file have.

A place is the same byte of the file in each copy, though a copy may end early. At a place each copy reports what element begins there; the
ID of one and the size of another count too, since damage may lie in both. Of the paths from the master's start to its end the one with the
fewest doubtful bytes is taken: those that no element covers, or an element that no CRC-32 vouches for and after which nothing known begins.
"""
from __future__ import annotations

import bisect
import dataclasses
import heapq
import os
from collections.abc import Callable, Iterable, Iterator, Mapping, Sequence
from typing import Any, NamedTuple

from ..model import Copy
from . import ebml

WINDOW = 1024
FEWEST_STEPS, BYTES_PER_STEP = 1 << 15, 512
Numbers = frozenset[int]
NONE: Numbers = frozenset()
PIECE = 1 << 16
MOST_STEPS = 3
# How many steps it costs to read the heads at a place where copies differ, or nothing known begins.
CAREFUL_STEPS = 8
UNDIVIDED = 0
Cost = tuple[int, int, int]


class Steps:
    """How many heads of elements may be read up to a place in a pass over a file, so that a file of heads alone takes no longer than one
    of frames. A good file has far fewer than it may have; what lies after the last head that may be read is not divided."""

    def __init__(self, fewest: int = FEWEST_STEPS) -> None:
        self.used, self.fewest = 0, fewest

    def take(self, place: int, count: int = 1) -> bool:
        """Takes some steps at a place, and reports whether they were left."""
        self.used += count
        return self.are_left(place)

    def are_left(self, place: int) -> bool:
        return self.used <= self.fewest + place // BYTES_PER_STEP


class AlignedCopies:
    """The copies of one file, read in windows. `numbers` are those that count."""

    def __init__(self, copies: Sequence[Copy], numbers: Iterable[int] | None = None, steps: Steps | None = None) -> None:
        self.copies = copies
        self.numbers = tuple(range(len(copies)) if numbers is None else numbers)
        self.end = max((copies[number].size for number in self.numbers), default=0)
        self.everyone = frozenset(self.numbers)
        self._least = min((copies[number].size for number in self.numbers), default=0)
        self.steps = steps or Steps()
        self._windows: list[tuple[int, bytes]] = [(0, b"")] * len(copies)

    def reaching(self, place: int) -> Sequence[int]:
        """Returns the copies that have a byte at a place."""
        return self.numbers if place < self._least else [number for number in self.numbers if place < self.copies[number].size]

    def peek(self, number: int, place: int, size: int) -> bytes:
        """Returns some bytes of a copy, fewer where it ends."""
        start, window = self._windows[number]
        at = place - start
        if at < 0 or at + size > len(window):
            if place >= self.copies[number].size:
                return b""
            window, at = self.copies[number].read(place, max(WINDOW, size)), 0
            self._windows[number] = place, window
        return window[at : at + size]

    def agreed(self, place: int, size: int) -> bytes:
        """Returns some bytes that all copies have alike, fewer where they end or differ."""
        first = self.peek(self.numbers[0], place, size)
        for number in self.numbers[1:]:
            other = self.peek(number, place, len(first))
            if other != first:
                first = os.path.commonprefix([first, other])
        return first


class Budget:
    """How many bytes may still be read for CRC-32s, so that sizes that lie cost no more than some passes over the file."""

    def __init__(self, left: int) -> None:
        self.left = left
        self._known: dict[tuple[int, int], Numbers] = {}

    def passing(self, aligned: AlignedCopies, content: int, end: int) -> Numbers:
        """Returns the copies whose content of an element matches its CRC-32."""
        if (content, end) not in self._known:
            passing = set()
            for number in aligned.numbers:
                if end <= aligned.copies[number].size and aligned.peek(number, content, 2) == ebml.CRC_HEAD and self.left >= end - content:
                    self.left -= end - content
                    passing.update({number} if ebml.passes(aligned.copies[number], content, end) else ())
            self._known[content, end] = frozenset(passing)
        return self._known[content, end]


# ---- children


class Child(NamedTuple):
    """A child, or bytes that no copy can divide. An opened element ends where its content starts."""

    identity: int
    place: int
    content: int
    end: int
    identified: Numbers = NONE  # the copies whose ID is the child's, where its end is no mere guess
    sized: Numbers = NONE  # and those whose size is
    is_cut: bool = False
    is_headless: bool = False  # it is known by its children alone

    @property
    def vouched(self) -> Numbers:
        return self.identified & self.sized


def decided(child: Child, rivals: Sequence[Child]) -> Child:
    """Returns a child, for whose ID and size no copy vouches where what else may stand there speaks as well for others."""
    is_named = all(rival.identity == child.identity for rival in rivals)
    is_sized = all(rival.end == child.end and rival.content == child.content for rival in rivals)
    return child._replace(identified=child.identified if is_named else NONE, sized=child.sized if is_sized else NONE)


@dataclasses.dataclass(frozen=True)
class Schema:
    """What may stand in a master."""

    known: Numbers
    strong: Numbers = NONE  # IDs that lead on; a master that is cut short may end within such an element
    opened: Numbers = NONE  # these are entered: their children are of the same schema
    live: Numbers = NONE  # so are the children of these, if of unknown size, with those of `inner`
    inner: Numbers = NONE
    signs: Callable[[bytes], Iterable[int]] = lambda piece: ()  # gives offsets in some bytes at which an element may begin
    reach: int = 4  # how many bytes of an element `signs` needs
    longest: Mapping[int, int] = dataclasses.field(default_factory=dict)  # how many bytes of content an element has at most
    confirms: Callable[[AlignedCopies, Child], bool | None] = lambda aligned, child: None  # whether content shows where a child ends


def by_value(found: Mapping[int, Any]) -> list[tuple[Any, Numbers]]:
    """The values that copies have, but for none, each with the copies that have it."""
    values = sorted({value for value in found.values() if value}, key=lambda value: (value[0] or 0, value[1]))
    return [(value, frozenset(number for number, other in found.items() if other == value)) for value in values]


class Walk:
    """One division of a master over all copies of a aligned. `is_cut` says that the master's end is missing from all of them."""

    def __init__(self, aligned: AlignedCopies, start: int, end: int, schema: Schema, budget: Budget, is_cut: bool = False) -> None:
        self.aligned, self.start, self.end, self.schema, self.budget, self.is_cut = aligned, start, end, schema, budget, is_cut
        self._leads: dict[tuple[int, bool, int], bool] = {}
        self._searched: list[tuple[int, int]] = []

    def divide(self) -> list[Child]:
        """Returns the children, which follow each other and cover the master."""
        return self.quick() or self.careful()

    # ---- where all copies agree

    def quick(self) -> list[Child] | None:
        """Returns the children if all copies have the same known heads up to the master's end, and None if not."""
        children, place, live = [], self.start, False
        while place < self.end:
            child = self._agreed(place, live)
            if child is None or not self.aligned.steps.take(place):
                return None
            children.append(child)
            place, live = child.end, self._stays_live(child, live)
        return children

    def _agreed(self, place: int, live: bool) -> Child | None:
        """Returns the child at a place of which all copies that reach there have the same known head."""
        numbers = self.aligned.reaching(place)
        first = self.aligned.peek(numbers[0], place, ebml.LONGEST_HEAD) if numbers else b""
        head = ebml.read_head(first, 0, place)
        if head is None or not self._is_known(head.identity, live):
            return None
        size = head.content - place
        for number in numbers[1:]:
            if self.aligned.peek(number, place, size) != first[:size]:
                return None
        everyone = self.aligned.everyone if numbers is self.aligned.numbers else frozenset(numbers)
        child = self._child(place, head, everyone, everyone)
        return child if child and not child.is_cut else None

    def _is_known(self, identity: int, live: bool) -> bool:
        return identity in self.schema.known or live and identity in self.schema.inner

    def _stays_live(self, child: Child, live: bool) -> bool:
        """Reports whether what follows a child may belong to an element of unknown size."""
        return child.end == child.content if child.identity in self.schema.live else live

    def _child(self, place: int, head: ebml.Head, identified: Numbers, sized: Numbers) -> Child | None:
        """Returns the child that a head begins, or None where its size can't be."""
        identity, _, content, end = head
        if identity in self.schema.opened or end is None and identity in self.schema.live:
            end = content
        if end is None or content > self.end or end - content > self.schema.longest.get(identity, end):
            return None
        if end > self.end:
            may_be_cut = self.is_cut or identity in self.schema.strong
            return Child(identity, place, content, self.end, is_cut=True) if may_be_cut else None
        return Child(identity, place, content, end, identified, sized)

    # ---- where they do not

    def _candidates(self, place: int, live: bool, known: bool = True) -> list[Child]:
        """Returns the children that may begin at a place: the ID that any copy has there with the size that any has after it."""
        data = {number: self.aligned.peek(number, place, ebml.LONGEST_HEAD) for number in self.aligned.numbers}
        found = []
        for (value, length), identified in by_value({number: ebml.read_identity(each, 0) for number, each in data.items()}):
            sizes = by_value({number: ebml.read_size(each, length) for number, each in data.items()})
            for (size, more), sized in sizes if self._is_known(value, live) == known else ():
                content = place + length + more
                head = ebml.Head(value, place + length, content, None if size is None else content + size)
                found.append(self._child(place, head, identified, sized))
        return [child for child in found if child]

    def _leads_on(self, child: Child, live: bool, depth: int = 0) -> bool:
        """Reports whether a child ends where the master does, or where something known begins: an element with a strong ID, or several."""
        place, live = child.end, self._stays_live(child, live)
        if child.is_cut or place == self.end:
            return not child.is_cut
        if (place, live, depth) not in self._leads:
            self._leads[place, live, depth] = any(
                each.identity in self.schema.strong or depth + 1 >= MOST_STEPS or self._leads_on(each, live, depth + 1)
                for each in self._candidates(place, live))
        return self._leads[place, live, depth]

    def _passes(self, child: Child) -> bool:
        return child.end > child.content and not child.is_cut and bool(self.budget.passing(self.aligned, child.content, child.end))

    def _confirms(self, child: Child) -> bool | None:
        return self.schema.confirms(self.aligned, child) if child.content < child.end and not child.is_cut else None

    def _edges(self, place: int, live: bool) -> list[tuple[Cost, Child]]:
        """Returns the steps from a place, and what each costs."""
        candidates, reach = self._candidates(place, live), len(self.aligned.reaching(place))
        is_known = bool(candidates)
        if not is_known:
            # One within which an element with a strong ID begins is an opened element with a wrong ID.
            candidates = [child for child in self._candidates(place, live, known=False) if self._leads_on(child, live) and not any(
                each.identity in self.schema.strong and self._leads_on(each, False) for each in self._candidates(child.content, False))]
        if len(candidates) == 1 and len(candidates[0].vouched) == reach and self._leads_on(candidates[0], live):
            return [((0, 0, 0), candidates[0])]
        # A known ID with a wrong bit leads on too.
        candidates = candidates if is_known else [child._replace(identified=NONE) for child in candidates]
        passing = [child for child in candidates if self._passes(child)]
        leading = [child for child in candidates if child not in passing and self._leads_on(child, live)]
        if passing:
            # Another edition of the file may have something else here, which leads to what passes in it.
            others = [((0, 0, reach - len(child.vouched)), decided(child, leading)) for child in leading if child.vouched]
            return [((0, 0, 0), decided(child, passing)) for child in passing] + others
        shows = {child: self._confirms(child) for child in candidates if len(candidates) > 1 or not leading}
        shown = [child for child in candidates if shows.get(child)]
        edges = []
        for child in candidates:
            if child in shown or child in leading:
                weaker = reach if shown and child not in shown else 0
                edges.append(((0, 0, reach - len(child.vouched) + weaker), decided(child, shown or leading)))
            else:
                undivided = child.end - place if shows[child] is False else 0
                guess = child._replace(identified=NONE, sized=NONE) if child.content < child.end else child
                edges.append(((child.end - place, undivided, reach), guess))
        return edges

    def careful(self) -> list[Child]:
        """Returns the children on the path with the fewest doubtful bytes. A place's way past bytes that no copy divides is looked for
        only once no cheaper path is left. Where no steps are left, what comes after the last place is not divided."""
        best: dict[int, tuple[Cost, Child | None, bool]] = {self.start: ((0, 0, 0), None, False)}
        heap: list[tuple[Cost, int, bool]] = [((0, 0, 0), self.start, False)]
        done: set[int] = set()
        last, rest = self.end, []
        while heap:
            _, place, is_search = heapq.heappop(heap)
            cost, _, live = best[place]
            if place == self.end and not is_search:
                break
            if place in done and not is_search:
                continue
            if is_search:
                after = self._next_sign(place)
                edges = [((after - place, after - place, 0), Child(UNDIVIDED, place, place, after))]
            elif not self.aligned.steps.take(place, CAREFUL_STEPS):
                last = max(done, default=self.start)
                rest = [Child(UNDIVIDED, last, last, self.end)]
                break
            else:
                done.add(place)
                edges = self._edges(place, live)
                if not any(each == (0, 0, 0) for each, _ in edges):
                    heapq.heappush(heap, ((cost[0] + 1, cost[1] + 1, cost[2]), place, True))
            for added, child in edges:
                total = cost[0] + added[0], cost[1] + added[1], cost[2] + added[2]
                if child.end not in best or total < best[child.end][0]:
                    best[child.end] = total, child, self._stays_live(child, live)
                    heapq.heappush(heap, (total, child.end, False))
        child = best[last][1]
        while child is not None:
            rest.append(child)
            child = best[child.place][1]
        return sorted(rest, key=lambda each: each.place)

    # ---- past what no copy divides

    def _next_sign(self, place: int) -> int:
        """The next place after one at which an element surely begins, or the master's end. What was searched is not searched again."""
        at = bisect.bisect(self._searched, (place, self.end + 1))
        if at and place < self._searched[at - 1][1]:
            return self._searched[at - 1][1]
        stop, known = (self._searched[at][0] + 1, self._searched[at][1]) if at < len(self._searched) else (self.end, self.end)
        found = next(filter(self._is_sure, self._signs(place + 1, stop)), known)
        self._searched.insert(at, (place, found))
        return found

    def _signs(self, place: int, stop: int) -> Iterator[int]:
        """Yields the places in a range at which an element seems to begin in some copy."""
        while place < stop and self.aligned.steps.are_left(place):
            size, signs = min(PIECE, stop - place), set()
            for number in self.aligned.numbers:
                piece = self.aligned.copies[number].read(place, size + self.schema.reach - 1)
                signs.update(place + offset for offset in self.schema.signs(piece) if offset < size)
            yield from sorted(signs)
            place += size

    def _is_sure(self, place: int) -> bool:
        if not self.aligned.steps.take(place, CAREFUL_STEPS):
            return False
        candidates = [child for child in self._candidates(place, False) if not self.schema.strong or child.identity in self.schema.strong]
        return any(self._leads_on(child, False) or self._confirms(child) or self._passes(child) for child in candidates)


def divide(aligned: AlignedCopies, start: int, end: int, schema: Schema, budget: Budget, is_cut: bool = False) -> list[Child]:
    """Returns the children of a master whose content lies between two places: they follow each other and cover it."""
    return Walk(aligned, start, end, schema, budget, is_cut).divide()


def divides(aligned: AlignedCopies, start: int, end: int, known: Numbers) -> bool:
    """Reports whether elements of known IDs cover a range, in all copies alike or in one."""
    budget, schema = Budget(0), Schema(known)
    views = [aligned, *(AlignedCopies(aligned.copies, [number], aligned.steps) for number in aligned.numbers if len(aligned.numbers) > 1)]
    return any(Walk(each, start, end, schema, budget).quick() for each in views)
