"""Planted causes over captures of Linux 6.1 and wpa_supplicant, and over frames that the library makes: macsec-why has
to name each one, and nothing else. Those that one frame can have are in test_mixed.py."""

from __future__ import annotations

import json
import struct
import unittest
from collections.abc import Sequence
from typing import Any, Callable, NamedTuple, Union
from unittest import mock

from macsec import Suite, capture, seal
from macsec.altered import packet_of
from macsec.capture import pcap_header
from macsec.cli.config import main as config_main
from macsec.cli.why import main
from macsec.frames import without_vlan

from .frames import ip_packet, protected, vlan, with_fcs
from .helpers import DATA, KEYS, OTHER, RECEIVER, SALT, SENDER, InFolder, main_of
from .test_cak import HAS_CRYPTOGRAPHY

ICV = 16
Frames = Sequence[bytes]


class Planted(NamedTuple):
    """A planted cause: its name, the capture, what is done to CONFIG (old and new texts) and to the frames, more
    options, and what has to be named: kinds of causes of all frames that stay closed, in any order, or `note:` and a
    part of the note. Nothing, if every frame opens."""

    name: str
    source: str
    config: Sequence[tuple[str, str]]
    frames: Callable[[Frames], Union[Frames, bytes]]
    expected: str
    options: Sequence[str] = ()


def same(frames: Frames) -> Frames:
    return frames


def each(change: Callable[[bytes], bytes]) -> Callable[[Frames], Frames]:
    return lambda frames: [change(it) for it in frames]


def long_ones(frames: Frames) -> Frames:
    """Without frames whose SL is not 0: of them the octets after the ICV are no fault."""
    return [it for it in frames if it[15] == 0 or it[12:14] != b"\x88\xe5"]


def snapped(frames: Frames) -> bytes:
    """A capture of 60 octets of each frame."""
    records = (struct.pack("<IIII", 1_700_000_000, 0, 60, len(it)) + it[:60] for it in frames)
    return pcap_header() + b"".join(records)


def ip_frames(count: int) -> list[bytes]:
    addresses = bytes.fromhex(OTHER)[:6] + bytes.fromhex(SENDER)[:6]
    return [addresses + ip_packet(number, bytes(range(64))) for number in range(count)]


def sealed(tci: int, conf: bool = True, length: int = 200, sci: str = SENDER) -> list[bytes]:
    """Frames that are sealed as their bits say, or not. Without SC the IVs have this SCI all the same, as Linux makes
    them."""
    made = []
    for number, frame in enumerate(ip_frames(6), 1):
        data = frame[12:length]
        head = frame[:12] + b"\x88\xe5" + bytes([tci, len(data) if len(data) < 48 else 0]) + number.to_bytes(4, "big")
        head += bytes.fromhex(sci) if tci & 0x20 else b""
        made.append(seal(head + data, len(head), key=KEYS[0], sci=sci, pn=number, conf=conf))
    return made


def made(*how: Any, **more: Any) -> Callable[[Frames], Frames]:
    return lambda _: sealed(*how, **more)


def xpn_frames(suite: Suite = Suite.xpn128, **how: object) -> list[bytes]:
    return protected(ip_frames(6), suite=suite, key=KEYS[0] if suite == Suite.xpn128 else KEYS[0] * 2, **how)


def linux(frames: Frames) -> Frames:
    """The capture `below` without its VLAN tags: plain MACsec of Linux."""
    return [without_vlan(it)[0] for it in frames]


ONE, TWO = KEYS[0].hex(), KEYS[1].hex()
LONG = "e3c08a8f06c6e3ad95a70557b23f75483ce33021a9c72b7025666204c69c0b72"
FAR = "0200000000010009"
CHANGES = ((SENDER, 0, 9), (OTHER, 1, 0), (SENDER, 9, 1))
SWAP = [(f"rxsa {sci} 0 {old}", f"rxsa {sci} 0 {new}") for sci, old, new in CHANGES]
OF_FIRST = "note:another key"
EXTENDED = f"end A xpn128 {RECEIVER} 1546 sci\nA key 0 {ONE} 0 0000000f {SALT.hex()}\nA rxsc {SENDER}\n"
EXTENDED += f"A rxsa {SENDER} 0 0 1 00000001\nA rxon {SENDER} 0\n"
LONGER = EXTENDED.replace("xpn128", "xpn256").replace(ONE, ONE * 2)
PLAIN = f"end A gcm128 {RECEIVER} 1546 sci\nA key 0 {ONE} 0\nA rxsc {FAR}\nA rxsa {FAR} 0 0 1\nA rxon {FAR} 0\n"
CHANNEL = f"A rxsc {OTHER}\nA rxsa {OTHER} 0 0 1\nA rxon {OTHER} 0\n"
REPLAY, BACK = ("replay off 0", "replay on 0"), SALT[::-1].hex()
CAUSES = (
    Planted("key", "linux", [(ONE, "00" * 16), (f"A rxsc {SENDER}", f"A key 7 {ONE} 0\nA rxsc {SENDER}")], same, "key"),
    Planted("key of an option", "linux", [(ONE, "00" * 16)], same, "key", ("--key", ONE)),
    Planted("key of MKA", "cak-256", [("a8467657", "00000000")], same, "key",
            ("--cak-file", str(DATA / "cak-256.cak"))),
    Planted("keys of two channels swapped", "linux", SWAP, same, "key"),
    Planted("SCI", "linux", [("020000000001", "020000000077")], same, "sci"),
    Planted("a channel missing", "linux", [("A rxsc 0200000000020001\n", ""), ("A rxsa 0200000000020001 0 1 1\n", ""),
            ("A rxon 0200000000020001 0\n", "")], same, "sci"),
    Planted("AN", "linux", [("0001 0 0 1", "0001 3 0 1"), ("rxon 0200000000010001 0", "rxon 0200000000010001 3")], same,
            "an"),
    Planted("suite", "linux", [("end A gcm128", "end A xpn128"), ("0 0 1\n", "0 0 1 00000001\n"),
            ("0 1 1\n", "0 1 1 00000002\n")], same, "suite"),
    Planted("offset 50 for 30", "cak-offset", [(" 30\n", " 50\n")], same, "offset"),
    Planted("offset 30 for 0", "linux", [(f"{ONE} 0", f"{ONE} 30")], same, "offset"),
    Planted("rxon missing", "linux", [("A rxon 0200000000010001 0\n", "")], same, "off"),
    Planted("PN too high", "linux", [("0001 0 0 1\n", "0001 0 0 9\n"), REPLAY], same, "pn"),
    Planted("PN too high, tags", "linux", [("0001 0 0 1\n", "0001 0 0 9\n"), REPLAY], each(vlan), "vlan pn"),
    Planted("own SCI", "linux", [("02ffffffffff0001", "0200000000010001"), ("A rxsc 0200000000010001\n", ""),
            ("A rxsa 0200000000010001 0 0 1\n", ""), ("A rxon 0200000000010001 0\n", "")], same, "own-sci"),
    Planted("offset, VLAN tag and check sequence", "cak-offset", [(" 30\n", " 0\n")],
            lambda it: [with_fcs(vlan(each_)) for each_ in long_ones(it)], "offset vlan fcs"),
    Planted("salt reversed, VLAN tag, check sequence", "xpn", [(SALT.hex(), BACK)],
            lambda it: [with_fcs(vlan(each_)) for each_ in long_ones(it)], "salt vlan fcs"),
    Planted("SSCI reversed, check sequence", "xpn", [(" 00000001\n", " 01000000\n")],
            lambda it: [*map(with_fcs, long_ones(it))], "ssci fcs"),
    Planted("SSCIs swapped", "above", [("1 00000001\n", "1 0000000x\n"), ("1 00000002\n", "1 00000001\n"),
            ("1 0000000x\n", "1 00000002\n")], same, "ssci"),
    Planted("no SCI, two channels", PLAIN + CHANNEL, [], made(0x0C, sci=FAR), "channel"),
    Planted("no SCI, another AN", PLAIN.replace(f"{FAR} 0", f"{FAR} 2"), [], made(0x0C, sci=FAR), "an"),
    Planted("ES beside an SCI", "linux", [], each(lambda it: it[:14] + bytes([it[14] | 0x40]) + it[15:]),
            "note:SecTAG is malformed"),
    Planted("reorder", "linux", [REPLAY], lambda it: [*it[:6], it[8], it[7], it[6], *it[9:]], "replay"),
    Planted("loss", "linux", [REPLAY], lambda it: [*it[:6], *it[13:]], ""),
    Planted("4 octets after the ICV", "linux", [], lambda it: [each_ + b"\xde\xad\xbe\xef" for each_ in long_ones(it)],
            "fcs"),
    Planted("EtherType", "linux", [], each(lambda it: it[:12] + b"\x88\xe6" + it[14:]), "note:EtherType 88e6"),
    Planted("cut to 64 octets", "linux", [], each(lambda it: it[:64]), "cut"),
    Planted("snapshot length", "linux", [], snapped, "partial"),
    Planted("wrong salt", "xpn", [(SALT.hex(), "00" * 12)], same, "note:another key or salt"),
    Planted("key length", "above", [("end A xpn256", "end A xpn128")], same, "refused"),
    Planted("wrong key, integrity alone", "cak-integrity", [("7f81f62a", "00000000"), ("6d6362e2", "00000001")], same,
            OF_FIRST),
    Planted("replay across an upper half", "xpn", [REPLAY], lambda it: [*it, *it[2:5]], "replay"),
    Planted("gcm256 for xpn256", "xpn", [("end A xpn256", "end A gcm256")], same, "refused suite"),
    Planted("decimal PN of 10 digits", "linux", [("0001 0 0 1\n", "0001 0 0 4294967297\n")], same, "refused"),
    Planted("SSCI above 16", EXTENDED, [], lambda _: xpn_frames(ssci=0x1234), "ssci"),
    Planted("upper half above ff", EXTENDED, [], lambda _: xpn_frames(pn=0x100_0000_0001), "upper"),
    Planted("upper half above ff, long key", LONGER, [], lambda _: xpn_frames(Suite.xpn256, pn=0x1AF3 << 32 | 1),
            "upper"),
    Planted("source rewritten", "linux", [], each(lambda it: it[:6] + b"\x02\x77\0\0\0\1" + it[12:]), "address"),
    Planted("both addresses rewritten", "linux", [],
            each(lambda it: bytes.fromhex("027700000002027700000001") + it[12:]), "address"),
    Planted("no SCI, a wrong one in CONFIG", PLAIN.replace(FAR, OTHER), [], made(0x0C, sci="0200000000011234"), "sci"),
    Planted("ES, another SCI", PLAIN, [], made(0x4C, sci=FAR), "iv-sci"),
    Planted("ES, the SCI of another address", PLAIN.replace(FAR, OTHER), [], made(0x4C, sci=OTHER), "iv-sci"),
    Planted("integrity alone, E and C, data of no packet", PLAIN.replace(FAR, SENDER), [],
            made(0x2C, False, 40), "bits"),
    Planted("validate disabled", "linux", [("A replay off 0", "A validate disabled\nA replay off 0")], same, "mode"),
    Planted("SCB, another SCI", PLAIN.replace(FAR, SENDER[:12] + "0000"), [], made(0x1C, sci=FAR), "iv-sci"),
)  # fmt: skip


class Causes(InFolder):
    def source(self, name: str) -> tuple[str, Frames]:
        """The CONFIG that opens a capture, and its frames."""
        if name.startswith("end "):
            return name, []
        file = "below" if name == "linux" else name
        frames: Frames = [it.frame for it in capture.read(str(DATA / f"{file}.pcap"))]
        if name == "linux":
            frames = linux(frames)
        keys = DATA / f"{file}.keys"
        words = ["--keys", keys] if keys.exists() else ["--key", f"{LONG}:{SALT.hex()}"]
        status, text, error = main_of(config_main, "--capture", self.put("SOURCE", frames), *words)
        self.assertEqual((status, error), (0, ""))
        return text, frames

    def named(self, it: Planted) -> tuple[int, set[str], str]:
        """The status, the kinds of causes, and all notes."""
        text, frames = self.source(it.source)
        for old, new in it.config:
            self.assertIn(old, text, it.name)
            text = text.replace(old, new)
        path = self.put("IN", it.frames(frames))
        status, out, error = main_of(main, self.put("CONFIG", text), path, "--json", *it.options)
        self.assertEqual(error, "", it.name)
        shown = [json.loads(line) for line in out.splitlines()]
        groups = [group["unopened"] for group in shown if "unopened" in group]
        names = {cause["cause"] for group in groups for cause in group["causes"]}
        names |= {seen["not seen"] for seen in shown if "not seen" in seen}
        notes = "; ".join(group["note"] for group in groups if "note" in group and group.get("ethertype") != "888e")
        return status, names, notes

    # Some searches end earlier here, so that the test does not take long.
    @mock.patch("macsec.alternatives.WIDE", 0x2000)
    def test_all(self) -> None:
        self.assertEqual((len(CAUSES), len({it.name for it in CAUSES})), (44, 44))
        for it in CAUSES if HAS_CRYPTOGRAPHY else [it for it in CAUSES if "--cak-file" not in it.options]:
            with self.subTest(it.name):
                status, names, notes = self.named(it)
                if it.expected.startswith("note:"):
                    self.assertEqual(names, set(), it.name)
                    self.assertIn(it.expected[5:], notes)
                else:
                    self.assertEqual((names, notes), (set(it.expected.split()), ""), it.name)
                if it.name not in ("EtherType", "snapshot length"):
                    self.assertEqual(status, 3 if it.expected else 0, it.name)

    def test_shorter_icvs(self) -> None:
        """Octets that each frame lacks can be those of an ICV that is shorter, unless a frame is whole."""
        whole, text = sealed(0x2C, True), PLAIN.replace(FAR, SENDER)
        for count, more, expected in ((8, [], "icvlen 8,"), (4, [], "icvlen 12,"), (3, [], ""), (8, whole[5:], "")):
            frames = [it[:-count] for it in whole[:5]] + more
            told = main_of(main, self.put("CONFIG", text), self.put("IN", frames))[1]
            self.assertIn(f"cut: {count} octets were cut off the end", told)
            self.assertEqual(expected in told and "icvlen" in told, bool(expected), told)

    def test_a_length_that_one_altered_bit_would_explain(self) -> None:
        """Such a frame is cut if all others of its association lack as many octets, and else altered."""
        whole, text = sealed(0x2C, True), PLAIN.replace(FAR, SENDER)
        data = bytes.fromhex("86dd60000000006c1140") + bytes(32 + 108)
        head = whole[0][:12] + bytes.fromhex("88e52c0000000009" + SENDER)
        cut = seal(head + data, len(head), key=KEYS[0], sci=SENDER, pn=9)[:-8]
        for frames, expected in ((whole[:1], True), ([it[:-8] for it in whole], False)):
            told = main_of(main, self.put("CONFIG", text), self.put("IN", [*frames, cut]))[1]
            self.assertEqual(("altered:" in told, "cut:" in told), (expected, not expected), told)

    def test_many_groups_that_differ_in_their_numbers_are_one(self) -> None:
        whole = sealed(0x2C, True) * 2
        for count, groups in ((8, 8), (12, 1)):
            frames = [it[:-number] for number, it in enumerate(whole[:count], 1)]
            text = self.put("CONFIG", PLAIN.replace(FAR, SENDER))
            told = main_of(main, text, self.put("IN", frames))[1]
            self.assertEqual((told.count("cut: "), told.count("others differ")), (groups, int(groups == 1)), told)


class Packets(unittest.TestCase):
    def test_what_data_begin_as(self) -> None:
        """The length counts the packet and its EtherTypes. Other data are not taken for a packet."""
        ip = ip_frames(1)[0][12:]
        arp = bytes.fromhex("080600010800060400010200000000010a090001000000000000") + b"\x0a\x09\0\x02"
        ipv6 = bytes.fromhex("86dd6000000000103a40") + bytes(32) + bytes(16)
        for data, length in (
            (ip, 86), (b"\x81\x00\0\x05" + ip, 90), (arp, 30), (ipv6, 58), (ip[:10] + b"\x01" + ip[11:], None),
            (b"\x08\x01" + ip[2:], None), (ip[:2] + b"\x46" + ip[3:], None), (ip[:21], None), (arp[:6], None),
            (ipv6[:2] + b"\x40" + ipv6[3:], None), (ipv6[:8] + b"\xc8" + ipv6[9:], None), (ipv6[:30], None),
            (b"", None),
        ):  # fmt: skip
            found = packet_of(data)
            self.assertEqual(found and found.octets, length, data.hex())
        found = packet_of(ipv6)
        # Its length is 16, without a checksum: one bit makes it of 0, and not of 8.
        self.assertEqual([found.can_be_altered(it) for it in (8, 16)] if found else None, [False, True])
