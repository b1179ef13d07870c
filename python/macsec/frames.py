"""The fields of a frame, for showing and sorting. Nothing here judges a frame: that is the library's."""

from __future__ import annotations

import struct
import zlib
from typing import Any, NamedTuple

ETHERNET = 1
MACSEC = b"\x88\xe5"
# EAPOL, and what some devices send in its place to pass bridges.
EAPOL = (b"\x88\x8e", b"\x87\x6f")
# Tags between the addresses and what follows, and their octets: VLAN tags, and those of ports of switches, which are
# 802.1BR, VN-Tag, and EDSA.
VLAN = {
    b"\x81\x00": 4, b"\x88\xa8": 4, b"\x91\x00": 4, b"\x89\x3f": 8, b"\x89\x26": 6, b"\xda\xda": 8,
}  # fmt: skip
ICV_OCTETS = 16
# EtherType, TCI and AN, SL, PN, and SCI.
_tag_of = struct.Struct(">2sBBI8s").unpack_from
# The packet number of a frame with a SecTAG after its addresses, in a tuple.
pn_of = struct.Struct(">16xI").unpack_from
# The checksum of octets that end with their own one.
_CRC_OF_ALL = 0x2144_DF1C
# Link types, and where the network's protocol begins in their frames: LINUX_SLL, LINUX_SLL2; NULL, LOOP, PPP; IP.
# Of the first two, where its EtherType is. The others have IPv4 or IPv6.
_NETWORKS = {113: 16, 276: 20, 0: 4, 108: 4, 9: 4, 12: 0, 14: 0, 101: 0, 228: 0, 229: 0}
_COOKED = {113: 14, 276: 0}
# Makes a named tuple in less time than its class does.
new_tuple: Any = tuple.__new__


class SecTag(NamedTuple):
    """The fields of a SecTAG. `sci` is None if the tag has none; `end` is where the data begin."""

    tci: int
    an: int
    sl: int
    pn: int
    sci: bytes | None
    end: int

    @property
    def flags(self) -> str:
        """The names of the bits that are set.

        >>> read_tag(bytes(12) + bytes.fromhex("88e52c02000000010200000000010001")).flags
        'SC E C'
        """
        names = ((0x80, "V"), (0x40, "ES"), (0x20, "SC"), (0x10, "SCB"), (0x08, "E"), (0x04, "C"))
        return " ".join(name for bit, name in names if self.tci & bit) or "none"

    @property
    def names_nobody(self) -> bool:
        """Has it neither SCI nor ES nor SCB?"""
        return self.sci is None and not self.tci & 0x50


def read_tag(frame: bytes) -> SecTag | None:
    """The SecTAG after the two addresses; None if there is none, or if the frame ends within it."""
    kind, octet, sl, pn, sci = _tag_of(frame if len(frame) > 27 else frame.ljust(28, b"\0"), 12)
    end = 28 if octet & 0x20 else 20
    if kind != MACSEC or len(frame) < end:
        return None
    tag: SecTag = new_tuple(SecTag, (octet & 0xFC, octet & 3, sl, pn, sci if end == 28 else None, end))
    return tag


def head_of(frame: bytes) -> bytes:
    """What frames of a sender have in common if their tags have SCIs: source address, SecTAG without packet number."""
    return frame[6:16] + frame[20:28]


def sender_of(frame: bytes, tag: SecTag) -> bytes:
    """The SCI that the tag names: its own, or the source address with port 0000 (SCB) or 0001.

    >>> frame = bytes.fromhex("ffffffffffff02000000000188e50c0200000001")
    >>> sender_of(frame, read_tag(frame)).hex()
    '0200000000010001'
    """
    return tag.sci or frame[6:12] + (b"\0\0" if tag.tci & 0x10 else b"\0\1")


def vlan_octets(frame: bytes) -> int:
    """How many octets of VLAN and other tags are between the addresses and what follows.

    >>> vlan_octets(bytes(12) + bytes.fromhex("810000640800"))
    4
    """
    at = 12
    while frame[at : at + 2] in VLAN and len(frame) >= at + VLAN[frame[at : at + 2]] + 2:
        at += VLAN[frame[at : at + 2]]
    return at - 12


def may_be_protected(frame: bytes) -> bool:
    """Can the frame that begins with these octets have a SecTAG?

    >>> may_be_protected(bytes(12) + MACSEC), may_be_protected(bytes(14)), may_be_protected(bytes(13))
    (True, False, True)
    """
    at = 12 + vlan_octets(frame)
    return len(frame) < at + 2 or frame[at : at + 2] in (MACSEC, *VLAN)


def network_of(frame: bytes, link_type: int) -> tuple[int, int] | None:
    """The EtherType of what a record has, and where that begins; None if it is cut, or its link type is not known here.

    >>> network_of(bytes(14) + b"\\x88\\xe5", 113), network_of(bytes(14) + b"\\x08\\x00", 1), network_of(b"`", 101)
    ((35045, 16), (25944, 0), (34525, 0))
    """
    if link_type == ETHERNET:
        return 0x6558, 0
    at = _NETWORKS.get(link_type)
    if at is None:
        return None
    if link_type in _COOKED:
        field = _COOKED[link_type]
        if len(frame) < field + 2:
            return None
        return int.from_bytes(frame[field : field + 2], "big"), at
    return 0x86DD if frame[at : at + 1] >= b"\x60" else 0x0800, at


# Link types whose records have an Ethernet frame and more: where that begins, and how many octets it has there. They
# are netANALYZER, without and with the preamble, mPackets, and what switches of Broadcom and Marvell send to their
# processor; and PPI and ERF, whose headers have several lengths.
_FRAMED = {240: (0, 4), 241: (0, 12), 274: (0, 8), 281: (12, 4), 282: (0, 4), 284: (12, 4), 285: (12, 8)}
_PPI, _ERF = 192, 197


def in_ethernet(frame: bytes, link_type: int) -> tuple[int, int] | None:
    """What such a record has that its Ethernet frame has not; None if it is of another link type.

    >>> in_ethernet(bytes(60), 285), in_ethernet(bytes.fromhex("0000080001000000"), 192), in_ethernet(bytes(60), 1)
    ((12, 8), (0, 8), None)
    """
    if link_type == _PPI and frame[4:8] == b"\1\0\0\0":
        return 0, int.from_bytes(frame[2:4], "little")
    if link_type == _ERF and frame[8:9] in (b"\x02", b"\x82"):
        extensions = 0
        while frame[8 + 8 * extensions : 9 + 8 * extensions] >= b"\x80" and extensions < 8:
            extensions += 1
        return 0, 18 + 8 * extensions
    return _FRAMED.get(link_type)


def without_vlan(frame: bytes) -> tuple[bytes, bytes]:
    """A frame without the VLAN tags before a SecTAG, and those tags. Other frames stay as they are."""
    if frame[12:14] not in VLAN:
        return frame, b""
    count = vlan_octets(frame)
    if frame[12 + count : 14 + count] != MACSEC:
        return frame, b""
    return frame[:12] + frame[12 + count :], frame[12 : 12 + count]


def without_padding(frame: bytes, tag: SecTag) -> bytes:
    """A frame up to its ICV. If SL says where that is, what follows is padding and is not of the frame.

    >>> frame = bytes(12) + bytes.fromhex("88e50c0200000001") + bytes(2 + 16 + 22)
    >>> len(frame), len(without_padding(frame, read_tag(frame)))
    (60, 38)
    """
    return frame[: tag.end + tag.sl + ICV_OCTETS] if tag.sl else frame


def has_fcs(frame: bytes) -> bool:
    """Are the last four octets the frame check sequence of those before?

    >>> frame = bytes(60)
    >>> has_fcs(frame), has_fcs(frame + zlib.crc32(frame).to_bytes(4, "little"))
    (False, True)
    """
    return len(frame) > 18 and zlib.crc32(frame) == _CRC_OF_ALL


def without_fcs(frame: bytes) -> bytes:
    """A frame without its frame check sequence, if it has one."""
    return frame[:-4] if has_fcs(frame) else frame


def octets_after(frame: bytes, most: int = 64) -> int:
    """How many octets at the end are a frame check sequence and what a tap has added after it; 0 if none is found.

    >>> frame = bytes(60)
    >>> octets_after(frame), octets_after(frame + zlib.crc32(frame).to_bytes(4, "little") + bytes(8))
    (0, 12)
    """
    at = max(len(frame) - most, 18)
    crc = zlib.crc32(frame[:at])
    while crc != _CRC_OF_ALL and at < len(frame):
        crc = zlib.crc32(frame[at : at + 1], crc)
        at += 1
    return len(frame) - at + 4 if crc == _CRC_OF_ALL else 0


def ethertype(frame: bytes) -> str:
    """The EtherType after all VLAN tags, in hex."""
    at = 12 + vlan_octets(frame)
    return frame[at : at + 2].hex()
