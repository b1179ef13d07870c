"""Finds initialization vectors (IVs) that frames with other octets use under one key. That breaks GCM."""

from __future__ import annotations

import dataclasses
from collections.abc import Sequence
from typing import NamedTuple

from .frames import SecTag, without_padding
from .ledger import Ledger, Use
from .pairs import Pairs
from .summary import ranges
from .trial import Key

MOST_LINES = 8


def iv_of(key: Key, sci: bytes, ssci: int, pn: int) -> bytes:
    """The IV of a frame: SCI and packet number, or under an extended suite SSCI and packet number XOR the salt.

    >>> from .names import Suite
    >>> iv_of(Key(bytes(16), Suite.gcm128), bytes.fromhex("0200000000010001"), 0, 3).hex()
    '020000000001000100000003'
    >>> iv_of(Key(bytes(16), Suite.xpn128, salt=bytes(11) + b"\\x01"), bytes(8), 5, 0x200000003).hex()
    '000000050000000200000002'
    """
    if not key.suite.is_extended:
        return sci + pn.to_bytes(4, "big")
    return (int.from_bytes(key.salt, "big") ^ (ssci << 64 | pn)).to_bytes(12, "big")


def _pn_of(key: Key, iv: int) -> int:
    """The packet number in an IV."""
    return (iv ^ int.from_bytes(key.salt, "big")) % 2**64 if key.suite.is_extended else iv % 2**32


def _digest(frame: bytes, tag: SecTag) -> int:
    """What distinguishes the octets of a frame. Each process hashes by a secret of its own."""
    return hash(without_padding(frame, tag) if tag.sl else frame)


@dataclasses.dataclass(eq=False)
class Sender:
    """What the frames of a key and a sender have in common: the number of the key, that of key and SCI, and the number
    of the key before the IV with packet number 0."""

    key: Key
    sci: bytes
    number_of_key: int
    number: int
    base: int


class _Use(NamedTuple):
    """A frame that opened: its record and a digest of its octets, the name of the key, SCI and packet number, and
    whether it is encrypted."""

    record: int
    digest: int
    key: str
    sci: bytes
    pn: int
    is_encrypted: bool


class UsedTwice:
    """An IV that several frames with other octets use under one key, `earlier` one of another capture."""

    def __init__(self, first: _Use, earlier: Use | None = None) -> None:
        self._uses, self._earlier = {first.digest: first}, earlier

    def add(self, use: _Use) -> int | str:
        """Adds a frame, unless it repeats one of them. Returns the record of one that has other octets; of another
        capture as text."""
        self._uses.setdefault(use.digest, use)
        return next((it.record for it in self._uses.values() if it.digest != use.digest), str(self._earlier))

    def other(self, record: int) -> int | str:
        """Another record than this one; of another capture as text."""
        return next((it for it in self.records if it != record), str(self._earlier))

    @property
    def records(self) -> list[int]:
        """The records, in order, each with other octets."""
        return sorted(it.record for it in self._uses.values())

    @property
    def is_encrypted(self) -> bool:
        """Are two of the frames encrypted?"""
        encrypted = [it.is_encrypted for it in self._uses.values()] + [it.is_encrypted for it in self.earlier]
        return sum(encrypted) > 1

    @property
    def earlier(self) -> list[Use]:
        """The use in another capture, if there is one."""
        return [self._earlier] if self._earlier else []

    @property
    def is_of_one_sender(self) -> bool:
        """Have all frames one SCI?"""
        return len({it.sci for it in self._uses.values()}) == 1

    def as_dict(self) -> dict[str, object]:
        """The records, key and SCI by their names, and the packet number. Several names are joined by `and`."""
        uses = list(self._uses.values())
        keys, scis = dict.fromkeys(it.key for it in uses), dict.fromkeys(it.sci.hex() for it in uses)
        earlier = {"earlier": it.as_dict() for it in self.earlier}
        names = {"key": " and ".join(keys), "sci": " and ".join(scis), "pn": uses[0].pn}
        return {"records": self.records, **earlier, **names}

    def __str__(self) -> str:
        it = self.as_dict()
        records = " and ".join(map(str, self.records)) if len(self.records) == 2 else ranges(self.records)
        records = f"record{'s' * (len(self.records) > 1)} {records}" + "".join(
            f", and record {it}" for it in self.earlier
        )
        return f"IV USED TWICE: {records}, {it['key']}, SCI {it['sci']}, PN 0x{it['pn']:x}"


class UsedIvs:
    """The IVs that the frames of a capture use, of each key. A frame that is repeated octet for octet is one use.

    Of a capture without an end, the last ones: at most `most`, fewer if they do not follow each other. A ledger has
    those of other captures.
    """

    def __init__(self, most: int | None = None, ledger: Ledger | None = None) -> None:
        self._ledger = ledger
        # The first frame of each key and IV, by the key's number and the IV: a digest of its octets; and its record
        # and 1, the number of the key and SCI, and whether it is encrypted.
        self._first = Pairs(most)
        self._keys: dict[bytes, int] = {}
        self._senders: dict[tuple[Key, bytes], int] = {}
        self._twice: dict[int, UsedTwice] = {}
        # The IV of the last frame that was added, if it is used twice.
        self.last: UsedTwice | None = None

    def sender(self, key: Key, sci: bytes, ssci: int) -> Sender:
        """A key and a sender whose frames are added."""
        number_of_key = self._keys.setdefault(key.octets, len(self._keys))
        number = self._senders.setdefault((key, sci), len(self._senders))
        base = number_of_key << 96 | int.from_bytes(iv_of(key, sci, ssci, 0), "big")
        return Sender(key, sci, number_of_key, number, base)

    def add(
        self, record: int, sender: Sender, pn: int, frame: bytes, tag: SecTag
    ) -> tuple[UsedTwice, int | str] | None:
        """Adds a frame of a sender that opened. `frame` is what the ICV was checked for, without VLAN tags before the
        SecTAG; `pn` is the whole packet number. Returns its IV, and the record of a frame that used it with other
        octets, if there is one so far; of another capture as text."""
        place, digest, is_encrypted = sender.base ^ pn, _digest(frame, tag), tag.tci >> 3 & 1
        first = self._first.setdefault(place, digest, record + 1 << 32 | sender.number << 1 | is_encrypted)
        found = self.last = self._twice.get(place) if self._twice else None
        if first is None and found is None and self._ledger is None:
            return None
        earlier, key, sci = None, sender.key, sender.sci
        if first is None and self._ledger is not None:
            iv = (place % 2**96).to_bytes(12, "big")
            earlier = self._ledger.add(record, key.octets, iv, without_padding(frame, tag), bool(is_encrypted))
        if found is None and earlier is None and (first is None or first[0] == digest):
            return None
        use = _Use(record, digest, key.name, sci, pn, bool(is_encrypted))
        if found is None:
            first_use = self._use(*first, place) if first else use
            found = self.last = self._twice[place] = UsedTwice(first_use, earlier)
        return found, found.add(use)

    def _use(self, digest: int, about: int, place: int) -> _Use:
        """The first frame of an IV."""
        key, sci = list(self._senders)[about >> 1 & 0x7FFF_FFFF]
        return _Use((about >> 32) - 1, digest, key.name, sci, _pn_of(key, place % 2**96), bool(about & 1))

    @property
    def twice(self) -> list[UsedTwice]:
        """The IVs that are used twice."""
        return sorted(self._twice.values(), key=lambda it: it.records)


def lines_of(found: Sequence[UsedTwice]) -> list[str]:
    """A line for each IV that is used twice; many are summarized in one more. The last line says what that means."""
    lines = [str(it) for it in found[:MOST_LINES]]
    more = more_of(found[MOST_LINES:])
    return lines + more + ([lost_by(found)] if found else [])


def more_of(found: Sequence[UsedTwice]) -> list[str]:
    """A line for IVs that have none of their own."""
    records = sorted(record for it in found for record in it.records)
    return [f"IV USED TWICE: {len(found)} more, records {ranges(records)}"] if found else []


def lost_by(found: Sequence[UsedTwice]) -> str:
    """What is lost by IVs that are used twice, and what to do."""
    xor = "reads the XOR of their data, and " if any(it.is_encrypted for it in found) else ""
    why = "two senders have one SSCI"
    if any(it.is_of_one_sender for it in found):
        why = "a sender began again at a used packet number, or two senders have one SCI"
        why += " or SSCI" * any(it.earlier for it in found)
    return f"  whoever has both frames {xor}can forge frames under the key. Stop using it: {why}"


def dicts_of(found: Sequence[UsedTwice]) -> list[dict[str, object]]:
    """An object for each IV that is used twice."""
    return [{"iv used twice": it.as_dict()} for it in found]
