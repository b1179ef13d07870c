"""The records of a report's captures with what it says of each one as a comment, for Wireshark. macsec-decrypt writes
comments of the same form, and integrations/wireshark reads both."""

from __future__ import annotations

import heapq
import itertools
from collections.abc import Iterable, Iterator
from operator import itemgetter

from ..capture import Packet
from ..explanation import Group
from ..frames import MACSEC, without_vlan
from ..ivs import UsedTwice
from ..names import Verdict
from .drawn import Row
from .judging import Judged


def commented(packets: Iterable[Packet], judged: Judged) -> Iterator[tuple[Packet, str]]:
    """Each record with its comment: the verdict, SCI, AN, packet number, key and causes, as far as they are known."""
    groups = {record: it for it in judged.groups for record in it.records}
    twice = {record: it for it in judged.twice for record in it.records}
    rows = (zip(it.records, it.numbers, it.verdicts, itertools.repeat(it)) for it in judged.drawn.rows.values())
    frames = iter(heapq.merge(*rows, key=itemgetter(0)))
    following = next(frames, None)
    for packet in packets:
        record = packet.number
        while following is not None and following[0] < record:
            following = next(frames, None)
        if following is not None and following[0] == record:
            yield packet, _of_frame(*following, judged, groups.get(record), twice.get(record))
        else:
            yield packet, _of_other(packet, groups.get(record))


def _of_frame(
    record: int, number: int, verdict: int, row: Row, judged: Judged, group: Group | None, twice: UsedTwice | None
) -> str:
    """The comment of a protected frame."""
    place = judged.keys[record] if record < len(judged.keys) else 0
    key = judged.key_names[place - 1] if place else row.key
    parts = [Verdict(verdict).name, f"SCI {row.sci}", f"AN {row.an}", f"PN 0x{number:x}", *[key] * bool(key)]
    if group is not None and group.changes:
        parts.append("cause " + " and ".join(it.cause for it in group.changes))
    also = f"; IV USED TWICE: also in record {twice.other(record)}" if twice else ""
    return f"macsec: {', '.join(parts)}{also}"


def _of_other(packet: Packet, group: Group | None) -> str:
    """The comment of a record that is not drawn."""
    if not packet.is_whole:
        return "macsec: not whole or not Ethernet"
    is_protected = without_vlan(packet.frame)[0][12:14] == MACSEC
    verdict = f" ({group.verdict})" if group else ""
    return f"macsec: {'not opened' if is_protected else 'not protected'}{verdict}"
