"""Captures in which the frames of one association have different causes: macsec-why names no false one."""

from __future__ import annotations

import collections
import json
import random
import re
import struct
from collections.abc import Sequence
from typing import Any, Callable, Counter, NamedTuple
from unittest import mock

from macsec import SecY, Suite, causes, seal
from macsec.causes import Search
from macsec.cli.why import main

from .frames import ip_packet, vlan, with_fcs
from .helpers import LONG_KEY, OTHER, RECEIVER, SALT, SENDER, InFolder, main_of

SCI, PEER = bytes.fromhex(SENDER), bytes.fromhex(OTHER)[:6]
# The keys of a link: CONFIG has the first two, the first for the association; --key gives the third; nobody the last.
OURS, SECOND, GIVEN, UNKNOWN = range(4)


def packet(rng: random.Random, length: int) -> bytes:
    """An IPv4 packet with so many octets of data, sometimes after a VLAN tag."""
    made = ip_packet(rng.getrandbits(16), rng.randbytes(length))
    return rng.choice((b"", b"", b"", b"\x81\x00\0\x05")) + made


class Link:
    """A sender, and the CONFIG of its receiver, which can lack the association. `first` is the whole packet number of
    the first frame; under an extended suite the upper half can change within a capture.
    """

    def __init__(self, rng: random.Random) -> None:
        self.rng = rng
        self.suite = rng.choice([it for it in Suite if it])
        self.replay, self.has_an = rng.random() < 0.5, rng.random() < 0.85
        self.upper = rng.choice((0, 0, 2)) if self.suite.is_extended else 0
        self.first = self.upper << 32 | (rng.choice((2, 0xFFFF_FFE0)) if self.upper and self.has_an else 2)
        self.keys = [(LONG_KEY[n:] + LONG_KEY[:n])[: self.suite.key_octets] for n in range(4)]
        # The frames that open, and the highest packet number of them.
        self.accepted: list[bytes] = []
        self.highest = 0

    def frame(
        self, pn: int, key: int = OURS, tci: int = 0x2C, an: int = 0, conf: bool = True, offset: int = 0, ssci: int = 1,
        salt: bytes = SALT, suite: Suite | None = None, is_long: bool = False,
    ) -> bytes:  # fmt: skip
        """A frame as a sender seals it. One in four is short, so that its SL is not 0, if it need not be long."""
        is_short = not is_long and self.rng.random() < 0.25
        data = packet(self.rng, self.rng.randrange(4, 20) if is_short else self.rng.randrange(60, 200))
        head = PEER + SCI[:6] + struct.pack("!HBBI", 0x88E5, tci | an, len(data) if len(data) < 48 else 0, pn % 2**32)
        how: dict[str, Any] = {"suite": suite or self.suite, "conf": conf, "offset": offset}
        if how["suite"].is_extended:
            how.update(ssci=ssci, salt=salt)
        else:
            pn %= 2**32
        return seal(head + SCI + data, len(head) + 8, key=self.keys[key], sci=SCI, pn=pn, **how)

    def config(self) -> str:
        extended = f" 0000000f {SALT.hex()}" if self.suite.is_extended else ""
        an, ssci = 0 if self.has_an else 1, " 00000001" if extended else ""
        return "\n".join([
            f"end A {self.suite.name} {RECEIVER} 1546 sci", f"A replay {'on' if self.replay else 'off'} 0",
            *(f"A key {n} {self.keys[n].hex()} 0{extended}" for n in (OURS, SECOND)), f"A rxsc {SENDER}",
            f"A rxsa {SENDER} {an} 0 {self.upper << 32 | 1:x}{ssci}", f"A rxon {SENDER} {an}", "",
        ])  # fmt: skip

    def flipped(self, frame: bytes, first: int, end: int) -> bytes:
        """A frame with another bit in one of these octets."""
        at = self.rng.randrange(first, end)
        return frame[:at] + bytes([frame[at] ^ 1 << self.rng.randrange(8)]) + frame[at + 1 :]

    def altered(self, frame: bytes) -> bytes:
        """A frame with another bit after the headers, or in the ICV."""
        return self.flipped(frame, 28 + 26, len(frame))

    def repeated(self) -> bytes:
        """A frame that was accepted; nothing if there is none."""
        return self.rng.choice(self.accepted) if self.accepted else b""


def fcs(frame: bytes) -> bytes:
    """With a frame check sequence, if that is not taken for padding."""
    return b"" if not frame or frame[15] else with_fcs(frame)


def padded(frame: bytes) -> bytes:
    """With padding, if SL says where the ICV is."""
    return frame + bytes(9) if frame[15] else b""


class Cause(NamedTuple):
    """How a frame with a cause is made; nothing if there can be none now. Which causes are right: sets divided by |, or
    `OK`. A pattern of their texts. For which links it is.

    `unknown` is an empty set: of such a frame nothing can be known, since its key or salt is not given, or since its
    packet number was altered, which is in the IV. `tag`: its SecTAG is no sender's, for which no cause is named.
    """

    make: Callable[[Link, int], bytes]
    right: str
    text: str = ""
    fits: Callable[[Link], bool] = lambda _: True


def extended(it: Link) -> bool:
    return it.suite.is_extended


def plain(it: Link) -> bool:
    return not it.suite.is_extended


def strict(it: Link) -> bool:
    return it.replay and it.has_an


CAUSES = {
    "key of --key": Cause(lambda it, pn: it.frame(pn, GIVEN), "key", "--key 1"),
    "key of CONFIG": Cause(lambda it, pn: it.frame(pn, SECOND), "key", "key 1"),
    "unknown key": Cause(lambda it, pn: it.frame(pn, UNKNOWN), "unknown"),
    "numbers again": Cause(lambda it, pn: it.frame(it.upper << 32 | 1 + pn % 32, GIVEN), "key", "--key 1"),
    "FCS": Cause(lambda it, pn: fcs(it.frame(pn, is_long=True)), "fcs"),
    "trailer": Cause(lambda it, pn: it.frame(pn, is_long=True) + it.rng.randbytes(7), "padding", "last 7 octets"),
    "longer trailer": Cause(lambda it, pn: it.frame(pn, is_long=True) + it.rng.randbytes(51), "padding", "last 51 "),
    "cut": Cause(lambda it, pn: it.frame(pn, is_long=True)[: -it.rng.randrange(1, 50)], "cut", "cut off"),
    "altered data or ICV": Cause(lambda it, pn: it.altered(it.frame(pn)), "altered", "IV are right .key 0"),
    "altered address": Cause(lambda it, pn: it.flipped(it.frame(pn), 0, 12), "altered|address"),
    "altered SL": Cause(lambda it, pn: it.flipped(it.frame(pn, is_long=True), 15, 16), "altered|cut|unknown|tag"),
    "altered PN": Cause(lambda it, pn: it.flipped(it.frame(pn), 16, 20), "unknown"),
    "altered SCI": Cause(lambda it, pn: it.flipped(it.frame(pn), 20, 28), "sci altered|sci"),
    "altered AN": Cause(lambda it, pn: it.frame(pn, an=it.rng.randrange(1, 4))[:14] + b"\x2e" + it.frame(pn)[15:],
                        "an altered|an|unknown"),
    "C cleared": Cause(lambda it, pn: it.frame(pn)[:14] + b"\x28" + it.frame(pn)[15:], "tag"),
    "version set": Cause(lambda it, pn: it.frame(pn)[:14] + b"\xac" + it.frame(pn)[15:], "tag"),
    "offset 30": Cause(lambda it, pn: it.frame(pn, offset=30, is_long=True), "offset", "offset 30", plain),
    "offset 50": Cause(lambda it, pn: it.frame(pn, offset=50, is_long=True), "offset", "offset 50", plain),
    "offset 30, FCS": Cause(lambda it, pn: fcs(it.frame(pn, offset=30, is_long=True)), "fcs offset", "offset 30",
                            plain),
    "integrity alone, E and C": Cause(lambda it, pn: it.frame(pn, conf=False, is_long=True), "bits", "integrity alone"),
    "encrypted, E clear": Cause(lambda it, pn: it.frame(pn, tci=0x20), "bits", "E is clear"),
    "integrity alone, altered": Cause(lambda it, pn: it.altered(it.frame(pn, tci=0x20, conf=False)), "unknown"),
    "VLAN tag": Cause(lambda it, pn: vlan(it.frame(pn)), "vlan", "81000064"),
    "two VLAN tags": Cause(lambda it, pn: vlan(it.frame(pn), "88a8000a81000064"), "vlan", "88a8000a81000064"),
    "VLAN tag, FCS": Cause(lambda it, pn: vlan(fcs(it.frame(pn, is_long=True))), "fcs vlan"),
    "VLAN tag, altered": Cause(lambda it, pn: vlan(it.altered(it.frame(pn))), "altered vlan", "right"),
    "repeated": Cause(lambda it, pn: it.repeated(), "replay", "", strict),
    "repeated, FCS": Cause(lambda it, pn: fcs(it.repeated()), "fcs replay", "", strict),
    "late": Cause(lambda it, pn: it.frame(it.highest - 1) if it.accepted else b"", "replay", "", strict),
    "SSCI": Cause(lambda it, pn: it.frame(pn, ssci=3), "ssci", "SSCI 00000003", extended),
    "salt reversed": Cause(lambda it, pn: it.frame(pn, salt=SALT[::-1]), "salt", "", extended),
    "unknown salt": Cause(lambda it, pn: it.frame(pn, salt=bytes(12)), "unknown", "", extended),
    "upper half": Cause(lambda it, pn: it.frame(pn + (5 << 32)), "upper", "upper half", extended),
    "suite": Cause(lambda it, pn: it.frame(pn | 1, suite=Suite(it.suite - 2)), "suite", "gcm", extended),
    "another AN": Cause(lambda it, pn: it.frame(pn, an=3), "an", "AN 3 .*opens under key 0"),
    "another AN and key": Cause(lambda it, pn: it.frame(pn, GIVEN, an=3), "an|an key", "AN 3 .*--key 1"),
    "rewritten address": Cause(lambda it, pn: b"\x02\x77\0\0\0\x09" + it.frame(pn)[6:], "address", PEER.hex()),
    "another key, FCS": Cause(lambda it, pn: fcs(it.frame(pn, GIVEN, is_long=True)), "fcs key", "--key 1"),
    "another key, altered": Cause(lambda it, pn: it.altered(it.frame(pn, GIVEN)), "altered key", "--key 1"),
    "padding of a short frame": Cause(lambda it, pn: padded(it.frame(pn)), "OK"),
}  # fmt: skip


def right_of(it: Link, cause: Cause) -> list[set[str]]:
    """The sets of causes that are right of a frame of this link."""
    found = [set(one.split()) for one in cause.right.split("|")]
    if not it.has_an:
        # CONFIG lacks the association, and this can say under which key a frame opens.
        with_an = lambda one, left: one if one & {"tag", "sci"} else {"an", *one} - {"OK", *left}
        found = [with_an(one, left) for one in found for left in ((), ("key",))]
    return [one - {"unknown", "tag"} for one in found]


class Capture(NamedTuple):
    """A mixed capture: the link, its frames, and the cause of each, or nothing."""

    link: Link
    frames: list[bytes]
    causes: list[str]


def mixed(number: int, seed: str) -> Capture:
    """A capture with two to four causes, one after another or shuffled. Each number has one of the causes."""
    rng = random.Random(f"{seed}/{number}")
    wanted = list(CAUSES)[number % len(CAUSES)]
    link = next(it for it in (Link(rng) for _ in range(1000)) if CAUSES[wanted].fits(it))
    others = [name for name, it in CAUSES.items() if it.fits(link) and name != wanted]
    order = [name for name in (wanted, *rng.sample(others, rng.randrange(1, 4))) for _ in range(rng.randrange(1, 9))]
    order += [""] * rng.randrange(8)
    if rng.random() < 0.7:
        rng.shuffle(order)
    # A frame that opens: others repeat it, and the receiver comes to the next upper half by it.
    order.insert(0, "")
    made = Capture(link, [], [])
    for place, name in enumerate(order):
        pn = link.first + 2 * place
        frame = CAUSES[name].make(link, pn) if name else link.frame(pn, is_long=not place)
        if frame:
            made.frames.append(frame)
            made.causes.append(name)
        if not name and link.has_an:
            link.accepted.append(frame)
            link.highest = pn
    return made


class Figures:
    """Frames by their causes: those whose causes are found, whole or in part, and what is named falsely."""

    def __init__(self) -> None:
        self.found: Counter[str] = collections.Counter()
        self.unnamed: Counter[str] = collections.Counter()
        self.wrong: list[str] = []

    def add(self, number: int, it: Capture, groups: Sequence[dict[str, Any]]) -> None:
        """Compares what is named with what was planted."""
        named = {record: group["causes"] for group in groups for record in group["records"]}
        for record, name in enumerate(it.causes):
            found = named.get(record)
            cause = CAUSES[name] if name else Cause(lambda *_: b"", "OK")
            kinds = [one["cause"].replace("rekey", "key").replace("own-", "") for one in found or ()]
            names = {"OK"} if found is None else set(kinds)
            right = right_of(it.link, cause)
            if names in right and (not found or re.search(cause.text, " ".join(one["text"] for one in found))):
                self.found[name] += 1
            elif any(names < one for one in right):
                self.unnamed[name] += 1
            else:
                self.wrong.append(f"capture {number}, record {record}, {name or 'nothing'}: {found}")


class Case(InFolder):
    def explained(self, config: str, frames: Sequence[bytes], *words: str) -> list[dict[str, Any]]:
        status, out, error = main_of(main, self.put("CONFIG", config), self.put("IN", frames), "--json", *words)
        self.assertEqual((error, status in (0, 3)), ("", True))
        return [it["unopened"] for it in map(json.loads, out.splitlines()) if "unopened" in it]

    def figures(self, count: int, seed: str) -> Figures:
        found = Figures()
        for number in range(count):
            it = mixed(number, seed)
            key = it.link.keys[GIVEN].hex() + (f":{SALT.hex()}" if it.link.suite.is_extended else "")
            found.add(number, it, self.explained(it.link.config(), it.frames, "--key", key))
        return found


def old_rule(real: Callable[..., Any]) -> Callable[..., Any]:
    """A search with a mistake: what nothing opens has the cause of the first such frame of its sender and verdict."""
    first: dict[object, Any] = {}

    def of(self: Search, frame: bytes, verdict: object, sender: object, *more: Any) -> Any:
        found = first.get((self, verdict, sender)) or real(self, frame, verdict, sender, *more)
        if found and not found.setting and {it.cause for it in found.changes} & {"altered", "cut"}:
            first[self, verdict, sender] = found
        return found

    return of


# The widest search is shorter here, so that the test does not take long.
@mock.patch("macsec.alternatives.WIDE", 0x100)
class Mixed(Case):
    def test_no_false_cause(self) -> None:
        """And nearly all that can be known is named."""
        found = self.figures(len(CAUSES), "1")
        self.assertEqual(found.wrong, [])
        self.assertEqual({*found.found, *found.unnamed} - {""}, set(CAUSES))
        self.assertLess(20 * sum(found.unnamed.values()), sum(found.found.values()), found.unnamed)

    def test_one_cause_for_a_whole_group_is_noticed(self) -> None:
        with mock.patch.object(Search, "of", old_rule(Search.of)):
            self.assertTrue(self.figures(12, "1").wrong)

    def test_altered_frames_take_few_calls(self) -> None:
        """A frame is received, tried as it is, and sealed to see its data: so 2,000 of them take a second."""
        link = Link(random.Random("1"))
        link.suite, link.has_an, link.keys = (Suite.gcm128, True, [it[:16] for it in link.keys])
        frames = [link.altered(link.frame(pn)) for pn in range(1, 401)]
        with mock.patch.object(SecY, "receive", autospec=True, side_effect=SecY.receive) as received:
            with mock.patch.object(causes, "data_under", side_effect=causes.data_under) as shown:
                (group,) = self.explained(link.config(), frames, "--key", link.keys[GIVEN].hex())
        self.assertEqual([it["cause"] for it in group["causes"]], ["altered"])
        self.assertEqual(len(group["records"]), 400)
        self.assertLess((received.call_count - causes._MOST_ADDRESSES) / 400, 3)
        self.assertLess(shown.call_count / 400, 2)
