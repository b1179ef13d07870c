"""The endpoint that opens a capture: from the capture itself, and from keys."""

from __future__ import annotations

import collections
from collections import Counter
from collections.abc import Iterable, Sequence
from typing import NamedTuple

from . import capture
from .cak import Cak
from .frames import ethertype, has_fcs, read_tag, sender_of, vlan_octets, without_vlan
from .names import Suite
from .opener import Live, Opener
from .plan import OBSERVER_MAX, Plan, PlannedSa
from .summary import frames_text, ranges
from .trial import KeyArgument, own_sci
from .unseen import Unseen


class _Use(NamedTuple):
    """An association under a key: its first record, and how the library opened it."""

    record: int
    live: Live
    first_pn: int


class Scan:
    """What a capture has."""

    def __init__(self, packets: Iterable[capture.Packet], opener: Opener) -> None:
        self.forms: dict[tuple[bytes, int], Counter[str]] = {}
        self.numbers: dict[tuple[bytes, int], list[int]] = {}
        self.others: Counter[str] = collections.Counter()
        # Senders whose tags mean another SCI than their IVs have.
        self.without_config: set[tuple[bytes, int]] = set()
        self.uses: dict[tuple[bytes, int], list[_Use]] = {}
        self.vlan = self.fcs = 0
        self.unopened: list[int] = []
        self.other_ivs: dict[str, None] = {}
        self.unseen = Unseen()
        for packet in packets:
            if not self.unseen.add(packet):
                self._add(packet, opener)
        self.saks, self.hints = [str(it) for it in opener.agreements.saks], [
            line for it in opener.hints() for line in it.split("\n")
        ]

    def _add(self, packet: capture.Packet, opener: Opener) -> None:
        plain, tags = without_vlan(packet.frame)
        tag = read_tag(plain)
        if tag is None:
            opener.open(packet.number, packet.frame, packet.fcs)
            self.others[ethertype(packet.frame)] += 1
            return
        opened = opener.open(packet.number, packet.frame, packet.fcs)
        if self.unseen.add_fault(packet, opened.verdict):
            return
        live = opener.last
        if live and live.trial.sci_of_iv is not None:
            # No CONFIG opens such a frame.
            self.other_ivs[opened.sci] = None
            self.without_config.add((live.trial.sci, tag.an))
            live = None
        place = live.trial.sci if live else sender_of(plain, tag), tag.an
        self.forms.setdefault(place, collections.Counter())[tag.flags] += 1
        self.numbers.setdefault(place, []).append(tag.pn)
        self.vlan += bool(tags and vlan_octets(packet.frame))
        if opened.state != "opened" or live is None:
            self.unopened.append(packet.number)
            return
        self.fcs += bool(live.cut or packet.fcs or has_fcs(packet.frame))
        uses = self.uses.setdefault(place, [])
        if all(it.live.trial.key.octets != live.trial.key.octets for it in uses):
            uses.append(_Use(packet.number, live, opened.pn or tag.pn))

    def notes(self) -> list[str]:
        """What was found, a line each."""
        found = list(self.saks)
        for (sci, an), forms in self.forms.items():
            numbers = self.numbers[(sci, an)]
            flags = ", ".join(f"{name} x{count}" for name, count in forms.items())
            span = f"PN {numbers[0]:08x} to {numbers[-1]:08x}"
            found.append(f"SCI {sci.hex()} AN {an}: {frames_text(len(numbers))}, {span}, {flags}")
            uses = self.uses.get((sci, an), [])
            for it in uses[1:]:
                found.append(
                    f"SCI {sci.hex()} AN {an} is under {it.live.trial.key.name} from record {it.record} on: "
                    "one CONFIG has one key for it; macsec-decrypt opens all"
                )
        if (
            len(
                {
                    sci
                    for (sci, _), forms in self.forms.items()
                    if not {"SC", "ES", "SCB"} & set(" ".join(forms).split())
                }
            )
            > 1
        ):
            found.append(
                "senders that no tag names: a CONFIG with one channel opens one of them; macsec-decrypt opens all"
            )
        found += [f"{frames_text(count)} of EtherType {kind} without a SecTAG" for kind, count in self.others.items()]
        if self.vlan:
            found.append(f"{frames_text(self.vlan)} with a VLAN tag before the SecTAG: macsec-decrypt opens these")
        if self.fcs:
            found.append(f"{frames_text(self.fcs)} with a frame check sequence: macsec-decrypt cuts it off")
        found += [f"{it}: macsec-decrypt and macsec-why take these out" for it in self.unseen.tunnels()]
        found += self.unseen.hints()
        if self.unopened:
            found.append(f"not opened by any key: record {ranges(self.unopened)}")
        if self.other_ivs:
            named = ", ".join(list(self.other_ivs)[:8])
            found.append(f"tags with ES or SCB whose IVs have SCI {named}: no CONFIG opens these; macsec-decrypt does")
        return found + self.hints

    def plan(self, own: bytes | None = None, suite: Suite | None = None) -> Plan:
        """The endpoint that opens the capture: an observer, or the end with this SCI."""
        suites = [use.live.trial.key.suite for uses in self.uses.values() for use in uses]
        first = suites[0] if suites else suite or Suite.gcm128
        plan = Plan(own or own_sci(*(sci for sci, _ in self.forms)), first, "sci", OBSERVER_MAX, replay=False)
        plan.notes = self.notes()
        for (sci, an), uses in self.uses.items():
            trial = uses[0].live.trial
            key = plan.key_of(trial.key.octets, trial.key.salt, trial.key.offset, trial.key.suite)
            if sci == own:
                numbers = self.numbers[(sci, an)]
                plan.notes.append(
                    f"txsa {an} goes on after the last packet number here: use a new key if more was sent"
                )
                plan.tx[an] = PlannedSa(key, (uses[0].first_pn >> 32 << 32) + max(numbers) + 1, True, trial.ssci)
                plan.keys[key].ssci, plan.encoding, plan.replay = trial.ssci, an, True
                plan.encrypt = any("E" in it.split() for it in self.forms[(sci, an)])
            else:
                sa = PlannedSa(key, uses[0].first_pn >> 32 << 32 | 1, True, trial.ssci)
                plan.rx.setdefault(sci, {})[an] = sa
        _without_keys(plan, self, own)
        return plan


def _without_keys(plan: Plan, scan: Scan, own: bytes | None) -> None:
    """Says which associations have no key."""
    for sci, an in scan.forms:
        if (sci, an) not in scan.uses and (sci, an) not in scan.without_config and sci != own:
            plan.notes.append(
                f"A rxsc {sci.hex()}, A rxsa {sci.hex()} {an} N 1, A rxon {sci.hex()} {an}: key N is not known"
            )


def scan(
    packets: Iterable[capture.Packet],
    keys: Sequence[KeyArgument],
    suite: Suite | None = None,
    offset: int | None = None,
    caks: Sequence[Cak] = (),
) -> Scan:
    """Reads the records of a capture under keys, and under those that its frames of MKA distribute."""
    opener = Opener(keys, suite, offset, caks=caks)
    try:
        return Scan(packets, opener)
    finally:
        opener.close()
