"""MKPDUs: the EAPOL frames of MACsec Key Agreement (MKA, IEEE Std 802.1X-2020, clause 11). Their grammar alone: `cak`
has the keys, and checks ICVs."""

from __future__ import annotations

from typing import NamedTuple

from .frames import EAPOL, vlan_octets
from .names import SUITES, Suite

ICV_OCTETS = 16
# The Algorithm Agility whose ICVs are AES-CMACs of 16 octets.
AGILITY = bytes.fromhex("0080c201")
_HEAD, _PACKET_TYPE, _BASIC_OCTETS, _PEER_OCTETS = 18, 5, 28, 16
_LIVE, _SAK_USE, _DISTRIBUTED_SAK, _XPN, _ICV = 1, 3, 4, 8, 255
# The identifiers of 802.1AE-2018, Table 14-1, and the one of 802.1AE-2006, which wpa_supplicant sends.
_SUITES = {**{it.identifier: it for it in SUITES}, bytes.fromhex("0080020001000001"): Suite.gcm128}
# The confidentiality offset by its number; 0 is integrity alone.
_OFFSETS = (0, 0, 30, 50)


class WrappedSak(NamedTuple):
    """A Distributed SAK parameter set. `suite` is None if its identifier is unknown."""

    an: int
    offset: int
    number: int
    suite: Suite | None
    wrapped: bytes


class Mkpdu(NamedTuple):
    """An MKPDU. `covered` is what its ICV covers, from the destination address on. `live` are the member identifiers of
    the live peers, `first_ssci` the SSCI of the key server (0: none is given). Of the latest key and the one before,
    `used` are the key servers and key numbers, `uppers` the upper halves of the packet numbers."""

    covered: bytes
    icv: bytes
    sci: bytes
    member: bytes
    agility: bytes
    ckn: bytes
    live: tuple[bytes, ...] = ()
    first_ssci: int = 0
    used: tuple[tuple[bytes, int], ...] = ()
    uppers: tuple[int, ...] = ()
    sak: WrappedSak | None = None


def read_mkpdu(frame: bytes) -> Mkpdu | None:
    """The MKPDU in a frame; None if it is another frame, or if a length in it is wrong. VLAN tags are left out.

    >>> read_mkpdu(bytes(12) + bytes.fromhex("888e0305ffff")) is None
    True
    """
    count = vlan_octets(frame)
    plain = frame[:12] + frame[12 + count :]
    if plain[12:14] not in EAPOL or len(plain) < _HEAD or plain[15] != _PACKET_TYPE:
        return None
    body = plain[_HEAD : _HEAD + int.from_bytes(plain[16:18], "big")]
    if len(body) < int.from_bytes(plain[16:18], "big") or len(body) < 4 + _BASIC_OCTETS + ICV_OCTETS:
        return None
    sets, icv = body[:-ICV_OCTETS], body[-ICV_OCTETS:]
    length = _length(sets)
    if not _BASIC_OCTETS <= length <= len(sets) - 4:
        return None
    basic = sets[4 : 4 + length]
    covered = plain[: _HEAD + len(sets)]
    made = Mkpdu(covered, icv, basic[:8], basic[8:20], basic[24:28], basic[28:])
    return _with_sets(made, sets[_after(length) :])


def _length(octets: bytes) -> int:
    return int.from_bytes(octets[2:4], "big") & 0xFFF


def _after(length: int) -> int:
    """The octets of a parameter set whose body has this length, with its padding."""
    return 4 + (length + 3) // 4 * 4


def _with_sets(made: Mkpdu, sets: bytes) -> Mkpdu | None:
    """An MKPDU with its other parameter sets; None if one of them does not end within it."""
    at = 0
    while at < len(sets) and sets[at] != _ICV and len(sets) - at >= 4:
        length = _length(sets[at : at + 4])
        if len(sets) - at < 4 + length:
            return None
        kind, octet, body = sets[at], sets[at + 1], sets[at + 4 : at + 4 + length]
        if kind == _LIVE:
            members = tuple(body[it : it + 12] for it in range(0, length - _PEER_OCTETS + 1, _PEER_OCTETS))
            made = made._replace(live=members, first_ssci=octet)
        elif kind == _SAK_USE and length >= 40:
            numbers = tuple((body[it : it + 12], int.from_bytes(body[it + 12 : it + 16], "big")) for it in (0, 20))
            made = made._replace(used=tuple(it for it in numbers if any(it[0])))
        elif kind == _DISTRIBUTED_SAK:
            made = made._replace(sak=_sak(octet, body))
        elif kind == _XPN and length >= 8:
            made = made._replace(uppers=(int.from_bytes(body[:4], "big"), int.from_bytes(body[4:8], "big")))
        at += _after(length)
    return made


def _sak(octet: int, body: bytes) -> WrappedSak | None:
    """The Distributed SAK parameter set with this second octet; None if it says that there is no SAK."""
    if len(body) < 28:
        return None
    # The shortest form, without an identifier, is of GCM-AES-128.
    suite = Suite.gcm128 if len(body) == 28 else _SUITES.get(body[4:12])
    wrapped = body[4:] if len(body) == 28 else body[12:]
    return WrappedSak(octet >> 6, _OFFSETS[octet >> 4 & 3], int.from_bytes(body[:4], "big"), suite, wrapped)
