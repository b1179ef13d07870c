"""The smallest frames on which a device still does something else than the library's endpoint, by delta debugging."""

from __future__ import annotations

from collections.abc import Iterator, Sequence
from typing import Callable, TypeVar

from .endpoint_of_config import Configuration
from .errors import MacsecError
from .frames import ICV_OCTETS, read_tag
from .hostile import BITS, MACSEC, Shape, Source, marked, ordinary_tag, short_length

_T = TypeVar("_T")
# A packet number in a SecTAG that is farther than this from the IV's stays as it is when the IV's changes.
_NEAR = 1 << 16


def fewest(items: Sequence[_T], holds: Callable[[list[_T]], bool]) -> list[_T]:
    """The items without those that are not needed: all are left out, then each half, each quarter, and so on.

    >>> fewest("abcdefgh", lambda it: {"c", "g"} <= {*it})
    ['c', 'g']
    """
    kept, size = list(items), len(items)
    while size:
        at, before = 0, len(kept)
        while at < len(kept):
            fewer = kept[:at] + kept[at + size :]
            if holds(fewer):
                kept = fewer
            else:
                at += size
        if size > 1 or len(kept) == before:
            size //= 2
    return kept


def raw_shape(frame: bytes) -> Shape:
    """A frame as it is: everything after the addresses is its SecTAG, and its ICV is left out."""
    tag = read_tag(frame)
    return Shape(frame[:12], frame[12:], tag.pn if tag else 0, False, cut=ICV_OCTETS)


def shape_of(frame: bytes, configuration: Configuration, source: Source) -> Shape:
    """How the source seals this frame; of any other frame, what it is."""
    tag, raw = read_tag(frame), raw_shape(frame)
    try:
        client = configuration.alone(frame).frame if tag else None
    except MacsecError:
        client = None
    if tag is None or client is None:
        return raw
    conf = bool(tag.tci & BITS["E"])
    made = Shape(client, frame[12 : tag.end], source.pn >> 32 << 32 | tag.pn, conf)
    octets = made.frame(source)
    return made._replace(pad=frame[len(octets) :]) if frame.startswith(octets) else raw


def moved(shapes: Sequence[Shape], first: int) -> tuple[list[Shape], int]:
    """The frames with packet numbers from `first` on, as far from each other as they were, and the first number after
    those in their IVs. A frame with number 0 stays as it is."""
    numbers = [number for it in shapes if it.pn for number in (it.pn, it.pn + (_distance(it) or 0))]
    by = first - min(numbers, default=first)
    made = [_moved(it, by) if it.pn else it for it in shapes]
    return made, max((it.pn + 1 for it in made), default=first)


def _distance(shape: Shape) -> int | None:
    """How far the packet number in the SecTAG is from the IV's; None if it is not near it."""
    number = int.from_bytes(shape.tag[4:8], "big")
    distance = (number - shape.pn + _NEAR) % 2**32 - _NEAR
    return distance if len(shape.tag) >= 8 and number and distance < _NEAR else None


def _moved(shape: Shape, by: int) -> Shape:
    pn, distance = shape.pn + by, _distance(shape)
    is_marked = shape.client[:6] == marked(shape.client, shape.pn)[:6]
    client = marked(shape.client, pn) if is_marked else shape.client
    number = b"" if distance is None else ((pn + distance) % 2**32).to_bytes(4, "big")
    return shape._replace(client=client, pn=pn, tag=shape.tag[:4] + number + shape.tag[4 + len(number) :])


_Holds = Callable[[Shape], bool]


def shrunk(shapes: Sequence[Shape], source: Source, holds: Callable[[Sequence[Shape]], bool]) -> list[Shape] | None:
    """The smallest frames for which it holds: the last one with few octets, as ordinary as it can be, and before it
    those that are needed. None if it does not hold for the frames as they are."""
    known: dict[tuple[Shape, ...], bool] = {}

    def tried(some: Sequence[Shape]) -> bool:
        key = tuple(some)
        if key not in known:
            known[key] = holds(some)
        return known[key]

    *before, last = (raw_shape(it.frame(source)) if it.cut >= ICV_OCTETS else it for it in shapes)
    if not tried([last]) and not tried([*before, last]):
        return None
    kept = [*fewest(before, lambda it: tried([*it, last])), last]
    for shape in dict.fromkeys(reversed(kept)):
        # Frames with packet number 0 keep their octets, so that the number has one content.
        if shape.pn or shape.cut:
            smallest = _smallest(shape, source, lambda it: tried([it if each == shape else each for each in kept]))
            kept = [smallest if each == shape else each for each in kept]
    return kept


def _smallest(shape: Shape, source: Source, holds: _Holds) -> Shape:
    """The shape with as few octets as it can have, and as ordinary as it can be."""
    before = None
    while shape != before:
        before = shape
        shape = _first(shape, holds, _ordinary_parts)
        shape = _first(shape, holds, lambda it: _ordinary_tags(it, source))
        shape = _few_data(shape, holds)
        shape = shape._replace(pad=bytes(fewest(shape.pad, lambda it: holds(shape._replace(pad=bytes(it))))))
        if shape.cut >= ICV_OCTETS:
            shape = shape._replace(tag=bytes(fewest(shape.tag, lambda it: holds(shape._replace(tag=bytes(it))))))
        shape = _zeros(shape, holds)
    return shape


def _first(shape: Shape, holds: _Holds, changes: Callable[[Shape], Iterator[Shape]]) -> Shape:
    """The shape with each change after which it still holds."""
    while (found := next((it for it in changes(shape) if it != shape and holds(it)), None)) is not None:
        shape = found
    return shape


def _ordinary_parts(shape: Shape) -> Iterator[Shape]:
    """The shape with one of its parts as in an ordinary frame, except the SecTAG."""
    ordinary: dict[str, object] = {"pad": b"", "icv": None, "iv_sci": None, "offset": None}
    if shape.cut < ICV_OCTETS:
        ordinary.update(cut=0, conf=bool(shape.tag[2:3] and shape.tag[2] & BITS["E"]))
    for name, value in ordinary.items():
        yield shape._replace(**{name: value})  # type: ignore[arg-type]


def _ordinary_tags(shape: Shape, source: Source) -> Iterator[Shape]:
    """The shape without the SCI, or with one field or bit of the SecTAG as in an ordinary frame."""
    tag = shape.tag
    if len(tag) < 8:
        return
    ordinary = ordinary_tag(source, shape.pn, len(shape.client) - 12).octets()
    if tag[2] & BITS["SC"] and len(tag) >= 16:
        yield shape._replace(tag=tag[:2] + bytes([tag[2] ^ BITS["SC"]]) + tag[3:8] + tag[16:])
    yield shape._replace(tag=MACSEC + tag[2:])
    yield shape._replace(tag=tag[:4] + ordinary[4:8] + tag[8:])
    if tag[2] & BITS["SC"]:
        yield shape._replace(tag=tag[:8] + source.sci + tag[16:])
    for at, left in ((2, BITS["SC"]), (3, 0)):
        for bit in range(8):
            if (tag[at] ^ ordinary[at]) & ~left & (1 << bit):
                yield shape._replace(tag=tag[:at] + bytes([tag[at] ^ 1 << bit]) + tag[at + 1 :])


def _few_data(shape: Shape, holds: _Holds) -> Shape:
    """The shape with few octets of data. SL says their number as it did before; if it did not, it can also stay."""
    found, data = shape, shape.client[12:]

    def still(octets: list[int]) -> bool:
        nonlocal found
        tag, length = bytearray(shape.tag), short_length(len(data))
        tag[3:4] = bytes(it ^ length ^ short_length(len(octets)) for it in tag[3:4])
        made = shape._replace(client=shape.client[:12] + bytes(octets))
        for each in (made._replace(tag=bytes(tag)), *([] if shape.tag[3:4] == bytes([length]) else [made])):
            if holds(each):
                found = each
                return True
        return False

    fewest(data, still)
    return found


def _zeros(shape: Shape, holds: _Holds) -> Shape:
    """The shape with as many data as possible that are 0."""

    def only(places: Sequence[int]) -> Shape:
        data = bytes(it if place in places else 0 for place, it in enumerate(shape.client[12:]))
        return shape._replace(client=shape.client[:12] + data)

    return only(fewest(range(len(shape.client) - 12), lambda it: holds(only(it))))
