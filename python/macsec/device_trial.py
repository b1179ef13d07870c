"""Frames that go through a device under test, beside what the library's endpoint does with them."""

from __future__ import annotations

import math
import time
from collections.abc import Iterable, Iterator, Sequence
from typing import NamedTuple

from .errors import MacsecError
from .hostile import CLAUSE_OF
from .interface import Interface
from .secy import SecY

# No frame on an Ethernet is shorter, without its check sequence.
SHORTEST = 60
_ADDRESSES, _HEADER = 12, 14
# Frames that are late are sent faster, until none is later than so many seconds.
_MOST_LATE = 0.05


class Judgement(NamedTuple):
    """What the endpoint of the library does with a frame: its verdict, and what its client gets, or None.

    `sent` is the frame as it is on the wire. `addresses` are those by which the client's frame is recognised. `clause`
    is the one that gives the verdict."""

    name: str
    sent: bytes
    verdict: str
    expected: bytes | None
    clause: str = "none"

    @property
    def addresses(self) -> bytes:
        return self.sent[:_ADDRESSES]


class Outcome(NamedTuple):
    """A frame with the frames that came out of the device for it."""

    judged: Judgement
    delivered: tuple[bytes, ...]

    @property
    def agrees(self) -> bool:
        """Did the device do what the endpoint does? It may drop what is too short for an Ethernet header."""
        expected = self.judged.expected
        if not self.delivered:
            return expected is None or len(expected) < _HEADER
        return expected is not None and len(self.delivered) == 1 and _padded(self.delivered[0]) == _padded(expected)

    @property
    def device(self) -> str:
        """What the device did, in a few words."""
        if not self.delivered:
            return "dropped"
        if len(self.delivered) > 1:
            return f"delivered {len(self.delivered)} times"
        octets = self.delivered[0]
        expected = self.judged.expected
        is_other = expected is not None and _padded(octets) != _padded(expected)
        return f"delivered {len(octets)}" + (", other" if is_other else "")


def judged(endpoint: SecY, frames: Iterable[tuple[str, bytes]]) -> Iterator[Judgement]:
    """What an endpoint does with named frames, in this order. Each is as long as a frame on a wire must be."""
    for name, frame in frames:
        sent = _padded(frame)
        try:
            made = endpoint.receive(sent)
            yield Judgement(name, sent, made.verdict.name, made.frame, CLAUSE_OF.get(made.verdict, "none"))
        except MacsecError as why:
            yield Judgement(name, sent, why.name, None)


def passes(frames: Sequence[Judgement]) -> Iterator[range]:
    """The frames that can be on the way at the same time: no two of them have the same addresses."""
    start, seen = 0, set[bytes]()
    for number, it in enumerate(frames):
        if it.addresses in seen:
            yield range(start, number)
            start, seen = number, set()
        seen.add(it.addresses)
    if start < len(frames):
        yield range(start, len(frames))


def tried(
    frames: Sequence[Judgement], link: Interface, client: Interface, seconds: float, rate: float = math.inf
) -> tuple[list[Outcome], int]:
    """Sends frames on one interface, and collects what comes out on the other one.

    The frames of a pass are sent one after another, at most so many a second as `rate` is. The next pass begins so many
    seconds later. Returns what became of each frame, and how many frames came out that are for none."""
    came: list[list[bytes]] = [[] for _ in frames]
    owners: dict[bytes, int] = {}
    others = 0
    client.frames(0)
    due = time.monotonic()
    for numbers in passes(frames):
        for number in numbers:
            owners[frames[number].addresses] = number
        for number in numbers:
            others += _sort(client.frames(max(due - time.monotonic(), 0)), owners, came)
            due = max(due, time.monotonic() - _MOST_LATE) + 1 / rate
            link.send(frames[number].sent)
        others += _sort(client.frames(seconds), owners, came)
    return [Outcome(it, tuple(got)) for it, got in zip(frames, came)], others


def _sort(found: list[bytes], owners: dict[bytes, int], came: list[list[bytes]]) -> int:
    """Adds frames to those that came for each frame. Returns how many are for none."""
    others = 0
    for frame in found:
        owner = owners.get(frame[:_ADDRESSES])
        if owner is None:
            others += 1
        else:
            came[owner].append(frame)
    return others


def _padded(frame: bytes) -> bytes:
    """A frame as long as one on an Ethernet must be."""
    return frame.ljust(SHORTEST, b"\0")
