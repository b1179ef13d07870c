"""Counts the frames of each sender and association: packet numbers, gaps, repeats, verdicts."""

from __future__ import annotations

import collections
from collections import Counter
from collections.abc import Sequence

from .frames import SecTag, ethertype, read_tag, sender_of, without_fcs, without_padding, without_vlan
from .pairs import Pairs

_HALF = 2**31
# How many heads of frames are known at one time.
MOST_HEADS = 4096


def ranges(numbers: Sequence[int], most: int = 8) -> str:
    """Numbers in order as a short text.

    >>> ranges([0, 1, 2, 5, 7, 8])
    '0-2, 5, 7-8'
    """
    found: list[list[int]] = []
    for each in numbers:
        if found and each == found[-1][1] + 1:
            found[-1][1] = each
        else:
            found.append([each, each])
    text = ", ".join(str(a) if a == b else f"{a}-{b}" for a, b in found[:most])
    return text + (f" and {len(found) - most} more ranges" if len(found) > most else "")


def frames_text(count: int) -> str:
    """A number of frames."""
    return f"{count} frame" + ("" if count == 1 else "s")


class Association:
    """The frames of one SCI and association number."""

    def __init__(self, sci: str, an: int) -> None:
        self.sci, self.an, self.repeats = sci, an, 0
        self.place: tuple[str, int | None] = sci, an
        # Records that have a packet number of an earlier one, and other octets; each with that one.
        self.reused: dict[int, int] = {}
        # The reused ones that are known to be under another key than the earlier one.
        self.rekeyed: list[int] = []
        self.verdicts: dict[str, int] = collections.defaultdict(int)
        self._tcis: dict[int, int] = collections.defaultdict(int)
        # How many packet numbers there are, the lowest and the highest; and of the last frame with each of them a hash
        # of its octets, and its record and 1.
        self._count = self._first = self._last = 0
        self._seen = Pairs()

    def add(self, record: int, tag: SecTag, pn: int, frame: bytes, verdict: str) -> None:
        """Counts a frame, without a frame check sequence. A number that falls by more than half of all is taken for one
        of the next upper half. `tag` can have another packet number."""
        self._tcis[tag.tci] += 1
        self.verdicts[verdict] += 1
        last = self._last
        number = last & ~0xFFFF_FFFF | pn
        if number == last + 1:
            pass
        elif self._count and number + _HALF < last:
            number += 1 << 32
        elif number > last + _HALF and number >= 1 << 32:
            number -= 1 << 32
        # Padding is no other octets of the frame.
        octets = hash(without_padding(frame, tag) if tag.sl else frame)
        earlier = self._seen.setdefault(number, octets, record + 1)
        if earlier is None:
            if number > last:
                self._last = number
            if number < self._first or not self._count:
                self._first = number
            self._count += 1
        elif earlier[0] == octets:
            self.repeats += 1
        else:
            self._seen.replace(number, octets, record + 1)
            self.reused[record] = earlier[1] - 1

    def note_keys(self, keys: Sequence[int]) -> None:
        """Notes which of the records that reuse a number are under another key, given the number of the key of each
        record that opened, and 0 for the others."""
        self.rekeyed = [
            record for record, earlier in self.reused.items()
            if record < len(keys) and keys[record] and keys[earlier] not in (0, keys[record])
        ]  # fmt: skip

    @property
    def frames(self) -> int:
        """How many frames there are."""
        return sum(self.verdicts.values())

    @property
    def missing(self) -> int:
        """How many numbers between the lowest and the highest were not seen."""
        return self._last - self._first + 1 - self._count

    @property
    def flags(self) -> dict[str, int]:
        """How many SecTAGs have which bits."""
        return {SecTag(tci, 0, 0, 0, None, 0).flags: count for tci, count in self._tcis.items()}

    def as_dict(self) -> dict[str, object]:
        return {
            "sci": self.sci, "an": self.an, "frames": self.frames, "first": f"{self._first & 0xFFFFFFFF:08x}",
            "last": f"{self._last & 0xFFFFFFFF:08x}", "missing": self.missing, "repeated": self.repeats,
            "reused": list(self.reused), "rekeyed": self.rekeyed, "flags": self.flags, "verdicts": dict(self.verdicts),
        }  # fmt: skip

    def __str__(self) -> str:
        it = self.as_dict()
        verdicts = ", ".join(f"{name} {count}" for name, count in Counter(self.verdicts).most_common())
        rekeyed = set(self.rekeyed)
        others = [record for record in self.reused if record not in rekeyed]
        reused = f"; a number again with other octets in record {ranges(others)}" if others else ""
        reused += f"; a number again under another key in record {ranges(self.rekeyed)}: a rekey" * bool(self.rekeyed)
        return (
            f"SCI {self.sci} AN {self.an}: {frames_text(self.frames)}, PN {it['first']} to {it['last']}, "
            f"{self.missing} missing, {self.repeats} repeated: {verdicts}{reused}"
        )


class Summary:
    """The associations of a capture, and its frames without a SecTAG by their EtherType."""

    def __init__(self) -> None:
        self.associations: dict[tuple[str, int], Association] = {}
        self.others: dict[str, Counter[str]] = {}
        # The association of an address and a SecTAG, without packet number and SL.
        self._known: dict[bytes, Association] = {}

    def add(self, record: int, frame: bytes, verdict: str) -> tuple[str, int | None]:
        """Counts a frame, and returns what it is of: an SCI and an association number, or an EtherType."""
        plain, _ = without_vlan(frame)
        tag = read_tag(plain)
        if tag is None:
            return self.add_other(frame, verdict)
        found = self.of(plain, tag)
        found.add(record, tag, tag.pn, without_fcs(plain), verdict)
        return found.place

    def add_other(self, frame: bytes, verdict: str) -> tuple[str, int | None]:
        """Counts a frame without a SecTAG."""
        kind = ethertype(frame)
        self.others.setdefault(kind, collections.Counter())[verdict] += 1
        return kind, None

    def of(self, plain: bytes, tag: SecTag) -> Association:
        """The association of a frame without VLAN tags before its SecTAG."""
        head = plain[6:15] + (tag.sci or b"")
        found = self._known.get(head)
        if found is None:
            sci = f"({plain[6:12].hex()})" if tag.names_nobody else sender_of(plain, tag).hex()
            if len(self._known) >= MOST_HEADS:
                self._known.clear()
            found = self._known[head] = self.associations.setdefault((sci, tag.an), Association(sci, tag.an))
        return found

    def note_keys(self, keys: Sequence[int]) -> None:
        """Notes under which keys records opened: a number that comes again under another key is a rekey."""
        for each in self.associations.values():
            each.note_keys(keys)

    def lines(self) -> list[str]:
        """The summary as text. An SCI in parentheses is a source address: the tag names no sender."""
        found = [str(it) for it in self.associations.values()]
        for kind, verdicts in self.others.items():
            text = ", ".join(f"{name} {count}" for name, count in verdicts.most_common())
            found.append(f"no SecTAG, EtherType {kind}: {frames_text(sum(verdicts.values()))}: {text}")
        return found

    def as_dicts(self) -> list[dict[str, object]]:
        found: list[dict[str, object]] = [{"association": it.as_dict()} for it in self.associations.values()]
        return found + [{"ethertype": kind, "verdicts": dict(it)} for kind, it in self.others.items()]
