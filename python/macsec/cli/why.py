"""macsec-why: the cause of a verdict, found by asking the proved library about other settings."""

from __future__ import annotations

import argparse
import json
import sys
from array import array
from collections.abc import Iterable, Sequence

from .. import capture
from ..cak import Cak, KeyAgreements
from ..causes import Search
from ..endpoint_of_config import Configuration, Refusal
from ..errors import FrameFault, UsageError
from ..explanation import Explanation, Group, Seen, Unopened
from ..frames import MACSEC, SecTag, ethertype, pn_of, read_tag, sender_of, without_fcs, without_vlan
from ..grammar import MOST_OCTETS
from ..ivs import Sender, UsedIvs, UsedTwice, dicts_of, lines_of
from ..ledger import Ledger
from ..names import Verdict
from ..settings import Setting
from ..summary import MOST_HEADS, Association, Summary
from ..trial import key_argument, whole_number
from ..unseen import Unseen
from ..ways import upper_half
from . import new_parser, run, say
from .decrypt import keys_of_file
from .key_agreement import add_cak_options, caks_of
from .reading import Reading
from .seen import add_seen_options, ledger_of, seen_in

_OK = Verdict.OK
_DELIVERED_AS_SENT = (_OK, Verdict.Delayed)
# Verdicts on frames whose packet number is below the next one that is expected.
_BELOW = (*_DELIVERED_AS_SENT, Verdict.Unchecked, Verdict.Late)
# Verdicts on frames of which an IV is noted, if their ICV is valid.
_IF_VALID = (*_DELIVERED_AS_SENT, Verdict.Late)
# An association of CONFIG.
Place = tuple[bytes, int]


class Ivs:
    """The keys and IVs of the frames that open: under CONFIG, or under the setting that explains them."""

    def __init__(self, search: Search, only: int | None, ledger: Ledger | None = None) -> None:
        # The number of the key of each record, 0 for others; and the names of the keys.
        self.keys = array("I")
        self.names: list[str] = []
        self._search, self._only = search, only
        self._used = UsedIvs(ledger=ledger)
        self._of_only: list[UsedTwice] = []
        # Of each association the setting of CONFIG, and what its frames have in common once one is added.
        self._bases: dict[Place, Setting | None] = {}
        self._senders: dict[Place, Sender] = {}

    def add(self, record: int, setting: Setting, number: int, frame: bytes, tag: SecTag) -> None:
        """Adds a frame that opens under a setting, with its whole packet number."""
        self._add(record, self._sender(setting), number, frame, tag)

    def _sender(self, setting: Setting) -> Sender:
        sender = self._used.sender(setting.key, setting.sci, setting.ssci)
        if sender.number_of_key == len(self.names):
            self.names.append(setting.key.name)
        return sender

    def _add(self, record: int, sender: Sender, number: int, frame: bytes, tag: SecTag) -> None:
        if record >= len(self.keys):
            self.keys.frombytes(bytes(4 * (record + 1 - len(self.keys))))
        self.keys[record] = sender.number_of_key + 1
        found = self._used.add(record, sender, number, frame, tag)
        if found and record == self._only:
            self._of_only = [found[0]]

    def add_received(self, record: int, frame: bytes, tag: SecTag, number: int, verdict: Verdict, place: Place) -> None:
        """Adds a frame that is OK, Delayed or Late, if its ICV is valid. The number is the whole packet number."""
        sender = self._senders.get(place)
        # The ICV of a late frame is not checked if it is dropped, nor under `validate disabled`.
        is_checked = verdict is _OK
        if sender is None or not is_checked:
            base = self._base(place)
            if not base or not (is_checked or base._replace(upper=number >> 32).opens(self._search.trials, frame)):
                return
            sender = self._senders.setdefault(place, self._sender(base))
        self._add(record, sender, number, frame, tag)

    def _base(self, place: Place) -> Setting | None:
        """What CONFIG opens the frames of an association under."""
        if place not in self._bases:
            self._bases[place] = self._search.setting(*place)
        return self._bases[place]

    @property
    def twice(self) -> list[UsedTwice]:
        """The IVs that are used twice: all, or only the IV of the record that was asked for."""
        return self._used.twice if self._only is None else self._of_only


class Run:
    """What `macsec validate` makes of a capture, and the frames that it did not open."""

    def __init__(
        self,
        configuration: Configuration,
        search: Search,
        packets: Iterable[capture.Packet],
        only: int | None,
        caks: Sequence[Cak] = (),
        ledger: Ledger | None = None,
    ) -> None:
        self._configuration, self._search, self._secy = (configuration, search, configuration.secy)
        self._is_extended, self._only = configuration.is_extended, only
        # By addresses and SecTAG, without packet number: the first tag of frames with an SCI, and their association.
        self._known: dict[bytes, tuple[SecTag, Association]] = {}
        self.summary = Summary()
        self.agreements = KeyAgreements(caks)
        self.ivs = Ivs(search, only, ledger)
        self.unopened = Unopened()
        self.unseen = Unseen()
        self.only: capture.Packet | None = None
        self.only_verdict = ""
        for packet in packets:
            verdict = self._add(packet)
            if packet.number == only:
                self.only, self.only_verdict = packet, verdict
                break
        if only is not None and self.only is None:
            raise UsageError(f"the capture has no record {only}")

    def _add(self, packet: capture.Packet) -> str:
        """Gives a record to the endpoint, and notes what it is. Returns the verdict, or why the endpoint has none."""
        record, _, frame = packet[:3]
        known, name = self._known.get(frame[:16] + frame[20:28]), self.unseen.add(packet)
        if known is None:
            plain = frame if frame[12:14] == MACSEC else without_vlan(frame)[0]
            tag = read_tag(plain)
        else:
            plain, tag = frame, known[0]
        try:
            received = None if name else self._secy.judged(frame)
        except FrameFault as why:
            received, name = None, self.unseen.add_fault(packet, why.name)
        if received is None:
            self._show(packet, plain, tag)
            return name
        verdict, _, sci, an, _ = received
        if tag is None:
            self._show(packet, plain, tag)
            of = self.summary.add_other(frame, verdict._name_)
        else:
            found = known[1] if known else self._know(packet, plain, tag)
            (pn,) = pn_of(plain)
            of, number, place = found.place, pn, None if sci is None or an is None else (sci, an)
            if self._is_extended and place is not None:
                number = self._whole(verdict, place, pn)
            if place is not None and verdict in _IF_VALID:
                self.ivs.add_received(record, frame, tag, number, verdict, place)
            # What is OK ends with its ICV, or its tag says where that is.
            found.add(record, tag, pn, plain if verdict is _OK else without_fcs(plain), verdict._name_)
            self.note(packet, found, number, verdict, place)
        if verdict in _DELIVERED_AS_SENT:
            self.unopened.add_opened(of, record, frame)
            self._search.note_opened(frame)
        elif self._only is None or self._only == record:
            self.unopened.add((verdict, *of), Seen(record, frame, self._expected(plain, tag)))
        return verdict._name_

    def _know(self, packet: capture.Packet, plain: bytes, tag: SecTag) -> Association:
        """The association of frames whose head is new, or that have no SCI."""
        self._show(packet, plain, tag)
        found = self.summary.of(plain, tag)
        if len(self._known) >= MOST_HEADS:
            self._known.clear()
        if tag.sci is not None:
            self._known[plain[:16] + tag.sci] = tag, found
        return found

    def _show(self, packet: capture.Packet, plain: bytes, tag: SecTag | None) -> None:
        """Notes what a record shows: addresses, SCIs, and keys that MKA distributes."""
        self._search.shown.add(plain, tag)
        if tag is not None:
            return
        count = self.agreements.seen
        key = self.agreements.add(packet.number, packet.frame)
        if key is not None:
            self._search.add_key(key, key.name)
        if count < self.agreements.seen:
            for sci in self.agreements.scis:
                self._search.shown.add_sci(sci)

    def _whole(self, verdict: Verdict, place: Place, pn: int) -> int:
        """The whole packet number of a frame, as its association has it or expects it."""
        following = self._secy.rx_sa(*place).next
        return whole_number(pn, following) if verdict in _BELOW else upper_half(pn, following) << 32 | pn

    def _expected(self, plain: bytes, tag: SecTag | None) -> int | None:
        """The whole packet number that the association of a frame expects, or another one of its sender, if they have
        extended ones."""
        if tag is None or not self._is_extended:
            return None
        channels = self._configuration.channels()
        sci = channels[0] if tag.names_nobody and channels else sender_of(plain, tag)
        for an in (tag.an, *range(4)) if sci in channels else ():
            if self._configuration.rx_sa(sci, an):
                return self._secy.rx_sa(sci, an).next
        return None

    def note(
        self, packet: capture.Packet, found: Association, number: int, verdict: Verdict, place: Place | None
    ) -> None:
        """Is called for each frame with a SecTAG that the endpoint judged, with its association and its whole packet
        number, and the one of CONFIG or None. Here it does nothing."""


def _record_lines(packet: capture.Packet, verdict: str) -> list[str]:
    """The fields of one record."""
    plain, tags = without_vlan(packet.frame)
    tag = read_tag(plain)
    lines = [
        f"record {packet.number} {verdict}: {len(packet.frame)} octets, DA {plain[:6].hex()} SA {plain[6:12].hex()}"
    ]
    if packet.inside:
        lines.append(f"  inside {packet.inside}")
    if tags:
        lines.append(f"  VLAN tag {tags.hex()} before the SecTAG")
    if tag is None:
        return [*lines, f"  no SecTAG, EtherType {ethertype(packet.frame)}"]
    sci = tag.sci.hex() if tag.sci else "none"
    return [*lines, f"  SecTAG: {tag.flags}, AN {tag.an}, SL {tag.sl}, PN {tag.pn:08x}, SCI {sci}"]


def parser() -> argparse.ArgumentParser:
    """The arguments of the command."""
    parser = new_parser(
        "macsec-why",
        "CONFIG IN [K] [OPTION]..",
        "Names the frames with other octets that use one IV under one key, and the cause of each verdict other than OK "
        "and Delayed, and summarizes a capture.",
        "0 if every protected frame opens, 3 if not, or if an IV is used twice; 1 for a file, 2 for arguments or "
        "CONFIG.",
        "macsec-why receiver.config link.pcap",
        "macsec-why receiver.config link.pcap 7",
    )
    parser.add_argument("config", metavar="CONFIG", help="the configuration of `macsec validate`")
    parser.add_argument("capture", metavar="IN", help="pcap or pcapng, also compressed; - for standard input")
    parser.add_argument("record", metavar="K", type=int, nargs="?", help="a record alone, from 0")
    parser.add_argument(
        "--key", action="append", default=[], metavar="KEY[:SALT[:SSCI[:UPPER]]]", help="one more key to try"
    )
    parser.add_argument(
        "--keys", action="append", default=[], metavar="FILE", help="a file with such a key on each line"
    )
    add_cak_options(parser)
    add_seen_options(parser)
    parser.add_argument("--json", action="store_true", help="one JSON object on each line")
    return parser


def main(words: Sequence[str] | None = None) -> int:
    """Runs the command, and returns its exit status."""
    asked = parser().parse_args(words)
    return run("macsec-why", lambda: _why(asked))


def search_of(path: str, asked: argparse.Namespace) -> Search:
    """The search under a CONFIG, and the keys of the options --key and --keys."""
    with open(path, "rb") as file:
        search = Search(Configuration(file.read(MOST_OCTETS + 1)))
    for place, text in enumerate(asked.key, 1):
        search.add_key(key_argument(text), f"--key {place}")
    for name in asked.keys:
        for place, key in enumerate(keys_of_file(name), 1):
            search.add_key(key, f"key {place} of {name}")
    return search


def objects_of(
    twice: Sequence[UsedTwice], summary: Sequence[dict[str, object]], unseen: Unseen, groups: list[Group],
    refusals: Sequence[Refusal] = (),
) -> list[dict[str, object]]:  # fmt: skip
    """What --json prints, an object for each line."""
    objects = [*dicts_of(twice)]
    objects += [{"refused": it._asdict()} for it in refusals]
    objects += summary
    objects += unseen.as_dicts()
    return objects + [{"unopened": it.as_dict()} for it in groups]


def lines_of_all(
    twice: Sequence[UsedTwice], summary: list[str], unseen: Unseen, groups: list[Group],
    refusals: Sequence[Refusal] = (),
) -> list[str]:  # fmt: skip
    """The same as text."""
    lines = [*lines_of(twice), *(it.message for it in refusals), *summary, *unseen.lines()]
    return lines + [line for it in groups for line in it.lines()]


def _why(asked: argparse.Namespace) -> int:
    search = search_of(asked.config, asked)
    with ledger_of(asked) as ledger:
        return _explained(asked, search, ledger)


def _explained(asked: argparse.Namespace, search: Search, ledger: Ledger | None) -> int:
    configuration = search.configuration
    with Reading("macsec-why", asked.capture) as reading:
        packets = seen_in(ledger, asked.capture, reading)
        made = Run(configuration, search, packets, asked.record, caks_of(asked), ledger)
        groups = Explanation(made.unopened, search, made.ivs.add).groups
    search.close()
    made.summary.note_keys(made.ivs.keys)
    twice = made.ivs.twice
    found, refusals = (made.unseen, groups), configuration.refusals
    if asked.json:
        summary = [] if made.only else made.summary.as_dicts()
        objects = objects_of(twice, summary, *found, refusals)
        objects += [{"hint": it} for it in reading.times]
        lines = [json.dumps(it) for it in objects + ([ledger.as_dict()] if ledger else [])]
    else:
        text = _record_lines(made.only, made.only_verdict) if made.only else made.summary.lines()
        lines = lines_of_all(twice, text, *found, refusals) + reading.times + (ledger.lines() if ledger else [])
    say("".join(f"{it}\n" for it in lines))
    if reading.is_cut:
        return 1
    return 3 if twice or made.unseen.has_protected or any(it.an is not None or it.changes for it in groups) else 0


if __name__ == "__main__":
    sys.exit(main())
