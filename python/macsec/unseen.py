"""The records of a capture that no endpoint can judge: why, and what to do. And which frames were in tunnels."""

from __future__ import annotations

import collections
from array import array
from collections import Counter

from .capture import Packet
from .frames import ETHERNET
from .plan import OBSERVER_MAX
from .summary import frames_text, ranges

# How many records are kept of each reason.
_MOST_RECORDS = 1 << 20
_COOKED = "a cooked frame of the device any, without the destination address, which is authenticated"
_IP = "IP packets alone"
_LINK_TYPES = {
    0: f"NULL: {_IP}", 12: f"RAW: {_IP}", 14: f"RAW: {_IP}", 101: f"RAW: {_IP}", 108: f"LOOP: {_IP}",
    113: f"LINUX_SLL: {_COOKED}", 228: f"IPV4: {_IP}", 229: f"IPV6: {_IP}", 276: f"LINUX_SLL2: {_COOKED}",
}  # fmt: skip
# How frames of each reason are called, and what is to be done.
_REASONS = {
    "partial": ("cut", "capture whole frames (-s 0 of tcpdump, dumpcap and tshark)"),
    "mirror": (
        "cut by the switch that mirrors them",
        "let its ERSPAN session send whole frames, over a path whose MTU takes them with their new headers",
    ),
    "fragment": (
        "in IP fragments",
        "others of their packets are missing: capture without a filter by port or protocol, which leaves fragments "
        "out, or raise the MTU of the path from the switch",
    ),
    "Short": ("of fewer than 14 octets", "these are no Ethernet frames"),
    "Long": (
        f"of more than {OBSERVER_MAX:,} octets",
        f"the library takes at most {OBSERVER_MAX:,}: give the link an MTU of {OBSERVER_MAX - 46:,} or less; if it has "
        "one, the capturing host joined frames: ethtool -K DEVICE gro off lro off",
    ),
}


class _Reason:
    """The records with one reason. `length` is the largest number of octets of one that was captured."""

    def __init__(self, name: str) -> None:
        self.name, self.count, self.length, self.records = name, 0, 0, array("Q")
        # Can one of them be a protected frame?
        self.may_be_protected = False

    def add(self, packet: Packet) -> None:
        """Adds a record."""
        self.count += 1
        self.length = max(self.length, len(packet.frame))
        self.may_be_protected = self.may_be_protected or packet.may_be_protected
        if len(self.records) < _MOST_RECORDS:
            self.records.append(packet.number)

    @property
    def called(self) -> str:
        """What the records are, for counts."""
        kind, _, number = self.name.partition(" ")
        return f"of link type {number}" if kind == "linktype" else _REASONS[self.name][0]

    @property
    def advice(self) -> str:
        """What they are, and what to do."""
        kind, _, number = self.name.partition(" ")
        if kind == "linktype":
            what = _LINK_TYPES.get(int(number), "not Ethernet")
            return f"{what}: capture on the Ethernet device of the link (tcpdump -i eth0)"
        cut = f"cut to {self.length} octets" + " at most" * (self.count > 1) + ": " if self.name == "partial" else ""
        return cut + _REASONS[self.name][1]


class Unseen:
    """Counts the records of a run that no endpoint can judge."""

    def __init__(self) -> None:
        self._reasons: dict[str, _Reason] = {}
        self._fragments = 0
        # How many frames were found in which tunnels.
        self.inside: Counter[str] = collections.Counter()

    def add(self, packet: Packet) -> str:
        """Adds a record. Returns why no endpoint can judge it; nothing if one can."""
        _, _, frame, length, link_type, _, lack, inside, fragments = packet
        if link_type == ETHERNET and len(frame) >= length and not lack and not inside:
            return ""
        if inside and lack in ("", "mirror"):
            self.inside[inside] += 1
            self._fragments -= fragments
        name = packet.unseen
        if name:
            self._fragments += name == "fragment"
            self._add(packet, name)
        return name

    def add_fault(self, packet: Packet, name: str) -> str:
        """Adds a frame if the library finds it too short or too long. Returns the name; nothing of another verdict."""
        if name not in ("Short", "Long"):
            return ""
        self._add(packet, name)
        return name

    def _add(self, packet: Packet, name: str) -> None:
        if name not in self._reasons:
            self._reasons[name] = _Reason(name)
        self._reasons[name].add(packet)

    def _missing(self) -> list[_Reason]:
        """The reasons, without fragments if their packets are complete."""
        return [it for it in self._reasons.values() if it.name != "fragment" or self._fragments]

    @property
    def has_protected(self) -> bool:
        """Is there a record that may have a protected frame? One of fewer than 14 octets has none."""
        return any(it.may_be_protected and it.name != "Short" for it in self._missing())

    def counts(self) -> list[str]:
        """The number of records of each reason."""
        return [f"{frames_text(it.count)} {it.called}" for it in self._reasons.values()]

    def hints(self) -> list[str]:
        """What to do for each reason."""
        return [
            f"{frames_text(it.count)} {it.called}, from record {it.records[0]}: {it.advice}" for it in self._missing()
        ]

    def tunnels(self) -> list[str]:
        """How many frames were in which tunnels."""
        return [f"{frames_text(count)} inside {name}" for name, count in self.inside.items()]

    def lines(self) -> list[str]:
        """The records of each reason, and what to do."""
        missing = self._missing()
        found = [f"record {ranges(it.records)}: {it.name}" for it in self._reasons.values() if it not in missing]
        return self.tunnels() + found + [f"record {ranges(it.records)}: {it.name}: {it.advice}" for it in missing]

    def as_dicts(self) -> list[dict[str, object]]:
        """The same for JSON."""
        found: list[dict[str, object]] = [{"inside": name, "frames": count} for name, count in self.inside.items()]
        missing = self._missing()
        for it in self._reasons.values():
            hint = {"hint": it.advice} if it in missing else {}
            found.append({"not seen": it.name, "records": list(it.records), **hint})
        return found
