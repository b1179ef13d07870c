"""What was altered on the way, or sealed against its bits: what the data of a frame show whose ICV is wrong. The library
decrypts and computes ICVs."""

from __future__ import annotations

from typing import NamedTuple

from .frames import ICV_OCTETS, SecTag
from .sealing import sealed
from .secy import sak_of
from .settings import Change, Found, Setting

_IPV4, _IPV6, _ARP = b"\x08\x00", b"\x86\xdd", b"\x08\x06"
_ARP_START = bytes.fromhex("0001080006")
# The longest frame that the library takes.
_MOST_OCTETS = 9_248
# Of a frame that is encrypted, and of one that is not.
AGAINST_BITS = {
    True: "E is clear, and the frame is encrypted: its ICV is right so, and no receiver opens it",
    False: "E and C are set, and the ICV is right for integrity alone, or for an offset that covers all data",
}


def _octets(count: int) -> str:
    return "1 octet was" if count == 1 else f"{count} octets were"


def cut_of(frame: bytes, tag: SecTag) -> Found | None:
    """The octets that SL counts and that the frame lacks."""
    missing = tag.sl - max(len(frame) - tag.end - ICV_OCTETS, 0)
    if not 0 < tag.sl < 48 or missing <= 0:
        return None
    text = f"{_octets(missing)} cut off the end, as SL says, or SL is wrong"
    return Found((Change("cut", text),), missing=missing)


def too_short(what: str, missing: int) -> Change:
    """The octets that a packet in the data counts and that the frame lacks."""
    return Change("cut", f"{_octets(missing)} cut off the end, as {what} says")


def altered(setting: Setting, what: str) -> Change:
    """The key and the IV of a frame are right, and its ICV is not."""
    text = f"key and IV are right ({setting.key.name}), since the data begin as {what}: addresses, SecTAG, data or ICV were"
    return Change("altered", f"{text} altered, or octets cut off")


def _seal(frame: bytes, tag: SecTag, setting: Setting, conf: bool) -> bytes:
    """What the library makes of a frame without its ICV under a setting."""
    key = setting.key
    sak = sak_of(key.octets, number=0, offset=key.offset, suite=key.suite, ssci=setting.ssci, salt=key.salt)
    upper = setting.upper if key.suite.is_extended else 0
    status, made = sealed(
        sak, setting.iv_sci or setting.sci, upper << 32 | tag.pn, conf, tag.end, frame + bytes(ICV_OCTETS)
    )
    return made if not status else b""


def data_under(frame: bytes, tag: SecTag, setting: Setting, is_encrypted: bool) -> bytes:
    """What follows the SecTAG, with the data as they are under a setting. Sealing decrypts, as the cipher is a stream.
    Nobody authenticated what it shows."""
    return _seal(frame, tag, setting, True)[tag.end : -ICV_OCTETS] if is_encrypted else frame[tag.end :]


def is_sealed(frame: bytes, tag: SecTag, setting: Setting, is_encrypted: bool) -> bool:
    """Has a frame the ICV that the library computes, if its data are encrypted or not, whatever its bits say?"""
    end = tag.end + tag.sl if tag.sl else len(frame) - ICV_OCTETS
    if end < tag.end or len(frame) < end + ICV_OCTETS:
        return False
    data = data_under(frame[:end], tag, setting, is_encrypted)
    return _seal(frame[: tag.end] + data, tag, setting, is_encrypted) == frame[: end + ICV_OCTETS]


class Packet(NamedTuple):
    """What data begin with, how many octets that has with its EtherTypes, and its length if no checksum covers that."""

    name: str
    octets: int
    unchecked: int = 0

    def can_be_altered(self, missing: int) -> bool:
        """Can one altered bit of its length be why octets seem to be missing?"""
        return self.unchecked > 0 and bin(self.unchecked ^ (self.unchecked - missing)).count("1") == 1


def packet_of(data: bytes) -> Packet | None:
    """The packet that data begin with; None if it is nothing known."""
    kind, packet = data[:2], data[2:]
    at = 0
    while kind in (b"\x81\x00", b"\x88\xa8") and len(packet) >= 4:
        kind, packet, at = packet[2:4], packet[4:], at + 4
    if kind == _IPV4 and len(packet) >= 20 and packet[0] == 0x45 and _checksum(packet[:20]) == 0xFFFF:
        return Packet("an IPv4 header with a right checksum", at + 2 + int.from_bytes(packet[2:4], "big"))
    length = int.from_bytes(packet[4:6], "big")
    if (
        kind == _IPV6
        and len(packet) >= 40
        and packet[0] >> 4 == 6
        and packet[6] in (0, 6, 17, 43, 44, 50, 51, 58, 59, 60)
        and length <= _MOST_OCTETS
    ):
        return Packet("an IPv6 header", at + 42 + length, length)
    if kind == _ARP and packet[:5] == _ARP_START:
        return Packet("an ARP packet", at + 30)
    return None


def _checksum(octets: bytes) -> int:
    total = sum(int.from_bytes(octets[at : at + 2], "big") for at in range(0, len(octets), 2))
    while total >> 16:
        total = (total & 0xFFFF) + (total >> 16)
    return total
