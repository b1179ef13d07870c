"""Frames at random for a receiver under test. The same text makes the same ones again."""

from __future__ import annotations

import random
from collections.abc import Iterator
from typing import Callable

from .forging import Changes, octet_of
from .hostile import BITS, Shape, Source, client_frame, marked

# One of so many frames is an earlier one again, and one of so many is long.
_AGAIN, _LONG = 64, 16
_FORMS = ("SC,E,C", "SC,E,C", "SC,E,C", "SC", "SC,C", "E,C", "ES,E,C", "SCB,E,C")


def _octets(number: int, count: int) -> bytes:
    return number.to_bytes(count, "big")


# What is changed: its name, and the change for this packet number.
_Way = Callable[[random.Random, Changes, int], Changes]
_WAYS: dict[str, _Way] = {
    "TCI": lambda some, it, _: it._replace(octet=(it.octet or 0) ^ 1 << some.randrange(8)),
    "SL": lambda some, it, _: it._replace(sl=some.randrange(256)),
    "PN": lambda some, it, pn: it._replace(tag_pn=some.choice((0, pn - 1, pn + 1, some.getrandbits(32)))),
    "SCI": lambda some, it, _: it._replace(tag_sci=_octets(some.getrandbits(64), 8)[: some.randrange(9)]),
    "EtherType": lambda some, it, _: it._replace(ethertype=_octets(0x88E5 ^ 1 << some.randrange(16), 2)),
    "sealing": lambda _, it, __: it._replace(conf=not (it.octet or 0) & BITS["E"]),
    "ICV": lambda some, it, _: it._replace(icv=_octets(1 << some.randrange(128), 16)),
    "padding": lambda some, it, _: it._replace(pad=1 + some.randrange(64)),
    "end": lambda some, it, _: it._replace(cut=1 + some.randrange(64)),
}


def random_shapes(source: Source, text: str, count: int, is_marked: bool = False) -> Iterator[tuple[str, Shape]]:
    """So many frames, and what they are. They have the packet numbers from the source's on; an earlier frame again has
    its own one again."""
    some = random.Random(text)
    made: list[Shape] = []
    for number in range(count):
        if made and not some.randrange(_AGAIN):
            earlier = some.randrange(len(made))
            yield f"random {number}: random {earlier} again", made[earlier]
            made.append(made[earlier])
            continue
        client = client_frame(source, some.randrange(1400 if not some.randrange(_LONG) else 100))
        pn = source.pn + number
        changes = Changes(octet=octet_of(some.choice(_FORMS), source))
        names = some.sample(sorted(_WAYS), some.choice((0, 1, 1, 1, 2)))
        for name in names:
            changes = _WAYS[name](some, changes, pn)
        shape = changes.shape(source, marked(client, pn) if is_marked else client, pn)
        made.append(shape)
        yield f"random {number}: {' and '.join(names) or 'an ordinary frame'}", shape
