"""The frames of the tests, and what is done to them."""

from __future__ import annotations

import struct
import zlib
from collections.abc import Sequence

from macsec import SecY, Suite

from .helpers import KEYS, SALT, SENDER


def client_frames(count: int, source: str = SENDER, length: int = 100) -> list[bytes]:
    """Frames of a client, all different. The EtherType is one for experiments."""
    head = bytes.fromhex("02000000000f") + bytes.fromhex(source)[:6] + b"\x88\xb5"
    return [head + bytes([number]) * (length - 14) for number in range(count)]


def sender(
    suite: Suite = Suite.gcm128, sci: str = SENDER, key: bytes = KEYS[0], an: int = 0, pn: int = 1, offset: int = 0,
    ssci: int = 1, form: str = "sci", conf: bool = True,
) -> SecY:  # fmt: skip
    """An endpoint that sends."""
    it = SecY(sci, suite, form)
    extended = {"ssci": ssci, "salt": SALT} if suite.is_extended else {}
    it.install_key(0, key, offset=offset, **extended)  # type: ignore[arg-type]
    it.add_tx_sa(an, 0, pn, conf)
    it.enable_tx_sa(an)
    return it


def protected(frames: Sequence[bytes], **how: object) -> list[bytes]:
    """What a sender sends for some frames."""
    with sender(**how) as it:  # type: ignore[arg-type]
        return [sent.frame for sent in map(it.send, frames) if sent.frame is not None]


def ip_packet(number: int, data: bytes) -> bytes:
    """An IPv4 packet with these data and a right header checksum, and the EtherType before it."""
    fields = 0x45, 0, 20 + len(data), number, 0, 64, 17
    head = struct.pack("!BBHHHBBH4s4s", *fields, 0, b"\x0a\x09\0\1", b"\x0a\x09\0\2")
    total = sum(struct.unpack("!10H", head))
    total = (total & 0xFFFF) + (total >> 16)
    checksum = ((total & 0xFFFF) + (total >> 16) ^ 0xFFFF).to_bytes(2, "big")
    return b"\x08\x00" + head[:10] + checksum + head[12:] + data


def with_fcs(frame: bytes) -> bytes:
    return frame + zlib.crc32(frame).to_bytes(4, "little")


def vlan(frame: bytes, tags: str = "81000064") -> bytes:
    """A frame with VLAN tags before its EtherType."""
    return frame[:12] + bytes.fromhex(tags) + frame[12:]


def altered(frame: bytes, place: int = -1) -> bytes:
    """A frame with another bit in one octet."""
    octets = bytearray(frame)
    octets[place] ^= 1
    return bytes(octets)
