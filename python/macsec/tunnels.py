"""Finds protected frames, and those of MKA, in the packets that carry them to where they are captured: ERSPAN, in which
switches mirror a port, GRE, VXLAN and others, over IPv4 and IPv6, in any order and at any depth."""

from __future__ import annotations

import collections
from collections import OrderedDict
from collections.abc import Iterable, Iterator
from typing import Callable, NamedTuple, Optional

from .capture import Packet
from .frames import EAPOL, ETHERNET, MACSEC, VLAN, in_ethernet, network_of

# The frames that are looked for: those with a SecTAG, and those of MKA.
_WANTED = (MACSEC, *EAPOL)
# What a header is of: a protocol of IP, or an EtherType, with which GRE names protocols too.
_IPV4_IN_IP, _UDP, _IPV6_IN_IP, _GRE, _ETHERIP, _L2TP, _MPLS_IN_IP = 4, 17, 41, 47, 97, 115, 137
_ETHERNET, _IPV4, _IPV6, _MPLS, _MPLS_MULTICAST = 0x6558, 0x0800, 0x86DD, 0x8847, 0x8848
_ERSPAN, _ERSPAN_III, _PPPOE, _MAC_IN_MAC, _NSH = 0x88BE, 0x22EB, 0x8864, 0x88E7, 0x894F
# Ports of UDP. The first three are VXLAN: of the standard, of Linux, of Cisco ACI. It is found at other ports too.
_VXLAN, _GRE_IN_UDP, _VXLAN_GPE, _GENEVE, _TZSP = (4789, 8472, 48879), 4754, 4790, 6081, 37008
_GTP, _MPLS_IN_UDP = 2152, 6635
# Of other ports, the name, and where a frame with a SecTAG can begin: after cookies of several lengths, or one header.
_OTHER_PORTS = {
    1701: ("L2TPv3", (8, 12, 16, 20)), 5555: ("ERM of Aruba", (16,)), 7932: ("ERM of HP", (12,)),
    30030: ("JMIRROR", (8,)),
}  # fmt: skip
# What the headers of VXLAN-GPE and of services (NSH) have, and what is in PPP.
_GPE = {1: _IPV4, 2: _IPV6, 3: _ETHERNET, 4: _NSH}
_PPP = {0x21: _IPV4, 0x57: _IPV6}
# Headers of IPv6 between the first one and that of the protocol.
_HOPS, _ROUTING, _FRAGMENT, _OPTIONS = 0, 43, 44, 60
# How many packets are kept of which some IP fragments have come.
_MOST_PACKETS, _MOST_OCTETS = 64, 65_535


class _Part(NamedTuple):
    """An IP fragment: what it is of, where its octets belong, and whether others come after them."""

    packet: bytes
    at: int
    has_more: bool


class _Header(NamedTuple):
    """What comes after a header: the kind of the next one, where it begins, and where what it is in ends. `name` is
    that of a tunnel that begins here."""

    kind: int
    at: int
    end: int
    name: str = ""
    is_cut: bool = False
    part: Optional[_Part] = None


def _number(octets: bytes, at: int, count: int = 2) -> int:
    return int.from_bytes(octets[at : at + count], "big")


def _is_link_frame(octets: bytes, at: int) -> bool:
    """Is this a frame with a SecTAG or of MKA?"""
    header = _ethernet(octets, at, len(octets))
    return octets[header.at - 2 : header.at] in _WANTED


def _ethernet(octets: bytes, at: int, end: int) -> _Header:
    at += 12
    while octets[at : at + 2] in VLAN:
        at += VLAN[octets[at : at + 2]]
    return _Header(_number(octets, at), at + 2, end)


def _tagged(octets: bytes, at: int, end: int) -> _Header:
    """After the EtherType of a VLAN tag, where the addresses are not."""
    return _ethernet(octets, at - 10, end)


def _first_frame(octets: bytes, begins: Iterable[int], end: int, name: str) -> _Header | None:
    """The frame of a tunnel whose header does not say how long it is."""
    return next((_Header(_ETHERNET, at, end, name) for at in begins if _is_link_frame(octets, at)), None)


def _ipv4(octets: bytes, at: int, end: int) -> _Header | None:
    length, total, field = 4 * (octets[at] & 15), _number(octets, at + 2), _number(octets, at + 6)
    if octets[at] >> 4 != 4 or length < 20:
        return None
    # A host that gives a long packet to its device can leave the length out.
    end = min(end, at + total) if total else end
    packet = octets[at + 12 : at + 20] + octets[at + 4 : at + 6] + octets[at + 9 : at + 10]
    part = _Part(packet, 8 * (field & 0x1FFF), bool(field & 0x2000)) if field & 0x3FFF else None
    return _Header(octets[at + 9], at + length, end, part=part)


def _ipv6(octets: bytes, at: int, end: int) -> _Header | None:
    if octets[at] >> 4 != 6:
        return None
    addresses, kind, total = octets[at + 8 : at + 40], octets[at + 6], _number(octets, at + 4)
    at += 40
    end = min(end, at + total) if total else end
    while kind in (_HOPS, _ROUTING, _OPTIONS):
        kind, at = octets[at], at + 8 + 8 * octets[at + 1]
    if kind != _FRAGMENT:
        return _Header(kind, at, end)
    field = _number(octets, at + 2)
    part = _Part(addresses + octets[at + 4 : at + 8], field & 0xFFF8, bool(field & 1))
    return _Header(octets[at], at + 8, end, part=part)


def _gre(octets: bytes, at: int, end: int) -> _Header | None:
    flags, kind = _number(octets, at), _number(octets, at + 2)
    if flags & 0x4007:  # routing, or another version
        return None
    at += 4 + 4 * sum(bool(flags & it) for it in (0x8000, 0x2000, 0x1000))
    if kind == _ERSPAN:
        # The second type has a sequence number, and a header of its own; the first type has neither.
        has_header = bool(flags & 0x1000) and octets[at] >> 4 == 1
        if _is_link_frame(octets, at + 8 * (not has_header)) and not _is_link_frame(octets, at + 8 * has_header):
            has_header = not has_header
        is_cut = has_header and bool(octets[at + 2] & 4)
        return _Header(_ETHERNET, at + 8 * has_header, end, "ERSPAN II" if has_header else "ERSPAN I", is_cut)
    if kind == _ERSPAN_III:
        more = 8 if octets[at + 11] & 1 else 0
        is_frame = octets[at + 10] >> 2 & 31 == 0
        return _Header(_ETHERNET, at + 12 + more, end, "ERSPAN III", bool(octets[at + 2] & 4)) if is_frame else None
    return _Header(kind, at, end, "GRE")


def _udp(octets: bytes, at: int, end: int) -> _Header | None:
    port, total, data = _number(octets, at + 2), _number(octets, at + 4), at + 8
    end = min(end, at + total) if total else end
    if port == _GRE_IN_UDP:
        return _Header(_GRE, data, end)
    if port == _GENEVE:
        return _Header(_number(octets, data + 2), data + 8 + 4 * (octets[data] & 63), end, "Geneve")
    if port == _VXLAN_GPE and octets[data] & 4:
        return _Header(_GPE.get(octets[data + 3], 0), data + 8, end, "VXLAN-GPE")
    if port == _TZSP and _number(octets, data + 2) == 1:
        return _Header(_ETHERNET, _after_tags(octets, data + 4), end, "TZSP")
    if port == _MPLS_IN_UDP:
        return _Header(_MPLS, data, end)
    if port == _GTP and octets[data] & 0xF0 == 0x30 and octets[data + 1] == 255:
        return _gtp(octets, data, end)
    if port in _OTHER_PORTS:
        name, begins = _OTHER_PORTS[port]
        return _first_frame(octets, (data + it for it in begins), end, name)
    is_like_vxlan = octets[data : data + 4] == b"\x08\0\0\0" and octets[data + 7] == 0
    if port in _VXLAN and octets[data] & 8 or is_like_vxlan and _is_link_frame(octets, data + 8):
        return _Header(_ETHERNET, data + 8, end, "VXLAN")
    return None


def _gtp(octets: bytes, at: int, end: int) -> _Header:
    flags, kind, at = octets[at] & 7, octets[at + 11], at + 8
    if flags:
        at += 4
        while flags & 4 and kind:
            more = 4 * (octets[at] or 1)
            kind, at = octets[at + more - 1], at + more
    if _is_link_frame(octets, at):
        return _Header(_ETHERNET, at, end, "GTP-U")
    return _Header({4: _IPV4, 6: _IPV6}.get(octets[at] >> 4, _ETHERNET), at, end, "GTP-U")


def _after_tags(octets: bytes, at: int) -> int:
    """The first octet after the tags of TZSP."""
    while octets[at] != 1:
        at += 1 if octets[at] == 0 else 2 + octets[at + 1]
    return at + 1


def _mpls(octets: bytes, at: int, end: int) -> _Header:
    while not octets[at + 2] & 1:
        at += 4
    at += 4
    if _is_link_frame(octets, at):
        return _Header(_ETHERNET, at, end, "MPLS")
    # A control word begins with zeros.
    kind = {4: _IPV4, 6: _IPV6}.get(octets[at] >> 4, _ETHERNET)
    return _Header(kind, at + 4 if kind == _ETHERNET else at, end, "MPLS")


def _etherip(_: bytes, at: int, end: int) -> _Header:
    return _Header(_ETHERNET, at + 2, end, "EtherIP")


def _l2tp(octets: bytes, at: int, end: int) -> _Header | None:
    return _first_frame(octets, range(at + 4, at + 20, 4), end, "L2TPv3")


def _pppoe(octets: bytes, at: int, end: int) -> _Header:
    return _Header(_PPP.get(_number(octets, at + 6), 0), at + 8, end, "PPPoE")


def _mac_in_mac(_: bytes, at: int, end: int) -> _Header:
    return _Header(_ETHERNET, at + 4, end, "MAC-in-MAC")


def _nsh(octets: bytes, at: int, end: int) -> _Header:
    return _Header(_GPE.get(octets[at + 3], 0), at + 4 * (octets[at + 1] & 63), end, "NSH")


_HEADERS: dict[int, Callable[[bytes, int, int], Optional[_Header]]] = {
    _ETHERNET: _ethernet, _IPV4: _ipv4, _IPV4_IN_IP: _ipv4, _IPV6: _ipv6, _IPV6_IN_IP: _ipv6, _GRE: _gre, _UDP: _udp,
    _MPLS: _mpls, _MPLS_MULTICAST: _mpls, _MPLS_IN_IP: _mpls, _ETHERIP: _etherip, _L2TP: _l2tp, _PPPOE: _pppoe,
    _MAC_IN_MAC: _mac_in_mac, _NSH: _nsh, **{int.from_bytes(it, "big"): _tagged for it in VLAN},
}  # fmt: skip


class _Found(NamedTuple):
    """A frame: its octets as far as they are there, how many it has, and the tunnels that it is in, the innermost
    first. `lack` is why it is not here."""

    frame: bytes
    length: int
    inside: str
    lack: str = ""
    fragments: int = 0


class _Fragments:
    """The parts of a packet. `noted` of them were called fragments of a packet with such a frame."""

    def __init__(self) -> None:
        self._octets: dict[int, bytes] = {}
        self._end: int | None = None
        self._count = self.noted = 0
        self.is_of_a_frame = False

    def add(self, part: _Part, octets: bytes) -> bytes | None:
        """Adds a part. Returns the whole packet, if it was the last one that was missing."""
        self._count += len(octets) - len(self._octets.get(part.at, b""))
        self._octets[part.at] = octets
        if not part.has_more:
            self._end = part.at + len(octets)
        if self._count != self._end:
            return None
        whole = bytearray()
        for at, each in sorted(self._octets.items()):
            if at != len(whole):
                return None
            whole += each
        return bytes(whole)

    @property
    def is_too_long(self) -> bool:
        """Are there more octets than a packet has?"""
        return self._count > _MOST_OCTETS


class Tunnels:
    """Finds the frames in the records of a capture."""

    def __init__(self) -> None:
        self._packets: OrderedDict[bytes, _Fragments] = collections.OrderedDict()

    def opened(self, packet: Packet) -> Packet:
        """The protected frame, or that of MKA, in a record; the record, if it has none, or if that is not all here."""
        more = in_ethernet(packet.frame, packet.link_type)
        if more is not None:
            at, count = more
            octets, length = packet.frame[:at] + packet.frame[at + count :], max(packet.length - count, 0)
            packet = packet._replace(frame=octets, length=length, link_type=ETHERNET)
        network = network_of(packet.frame, packet.link_type)
        if network is None:
            return packet
        found = self._found(packet.frame, *network, max(packet.length, len(packet.frame)), [])
        if found is None:
            return packet
        if not found.frame:
            return packet._replace(lack=found.lack, inside=found.inside)
        return Packet(packet.number, packet.time, *found[:2], ETHERNET, 0, found.lack, found.inside, found.fragments)

    def _found(self, octets: bytes, kind: int, at: int, end: int, path: list[str]) -> _Found | None:
        """The frame of a link below a header of this kind."""
        is_cut = False
        try:
            while kind in _HEADERS and at <= end:
                if path and kind == _ETHERNET and _is_link_frame(octets, at):
                    return _Found(octets[at:end], end - at, _inside(path), "mirror" if is_cut else "")
                header = _HEADERS[kind](octets, at, end)
                if header is None:
                    return None
                kind, at, end, name, cut_here, part = header
                path += [name] if name else []
                is_cut = is_cut or cut_here
                if part is not None:
                    return self._of_part(part, octets, kind, at, end, path)
        except IndexError:
            if kind in (_IPV4, _IPV6, _IPV4_IN_IP, _IPV6_IN_IP):
                return None
            path += [] if path else {_GRE: ["GRE"], _UDP: ["UDP"]}.get(kind, [])
            at = len(octets) + 1
        # A record that ends within the header of a tunnel, or of Ethernet in one, can have such a frame.
        return _Found(b"", 0, _inside(path), "partial") if path and len(octets) < min(at, end) else None

    def _of_part(self, part: _Part, octets: bytes, kind: int, at: int, end: int, path: list[str]) -> _Found | None:
        """The same in an IP fragment, and in the packet if it is complete now."""
        if part.at + end - at > _MOST_OCTETS or kind not in _HEADERS:
            return None
        if len(octets) < end:
            return None if part.at else self._found(octets, kind, at, end, path)
        packet = self._packets.pop(part.packet, None) or _Fragments()
        whole = packet.add(part, octets[at:end])
        if whole is not None:
            found = self._found(whole, kind, 0, len(whole), path)
            return found and found._replace(fragments=packet.noted)
        if not packet.is_too_long:
            self._packets[part.packet] = packet
        if len(self._packets) > _MOST_PACKETS:
            self._packets.popitem(last=False)
        if part.at == 0 and self._found(octets, kind, at, end, path):
            packet.is_of_a_frame = True
        if not packet.is_of_a_frame:
            return None
        packet.noted += 1
        return _Found(b"", 0, _inside(path), "fragment")


def _inside(path: list[str]) -> str:
    return " in ".join(reversed(path))


def is_protected(frame: bytes) -> bool:
    """Has the frame of a client a SecTAG, or one that is in GRE in it?

    >>> is_protected(bytes(12) + MACSEC), is_protected(bytes(12) + b"\\x08\\0")
    (True, False)
    """
    if frame[12:14] == MACSEC:
        return True
    return frame[23:24] == b"\x2f" and bool(Tunnels().opened(Packet(0, 0, frame, len(frame))).inside)


def opened(packets: Iterable[Packet]) -> Iterator[Packet]:
    """The records of a capture, with the frames that are in tunnels in place of those with the tunnel."""
    tunnels = Tunnels()
    for packet in packets:
        if packet.frame[12:14] == MACSEC and packet.link_type == ETHERNET:
            yield packet
        else:
            yield tunnels.opened(packet)
