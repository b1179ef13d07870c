"""Ethernet payloads in clear, as an attacker on LINK sends them."""

from __future__ import annotations

import socket
import struct

from macsecd_world import checksum

BROADCAST, ALL_NODES = b"\xff" * 6, bytes.fromhex("333300000001")


def ethernet(target: bytes, source: bytes, kind: int, payload: bytes) -> bytes:
    """A frame."""
    return target + source + struct.pack("!H", kind) + payload


def ipv4(source: str, target: str, protocol: int, payload: bytes) -> bytes:
    """A packet of IPv4."""
    head = struct.pack("!BBHHHBBH", 0x45, 0, 20 + len(payload), 1, 0, 64, protocol, 0)
    head += socket.inet_aton(source) + socket.inet_aton(target)
    return head[:10] + struct.pack("!H", checksum(head)) + head[12:] + payload


def ipv6(source: str, target: str, protocol: int, payload: bytes, at: int) -> bytes:
    """A packet of IPv6, whose payload gets its checksum at an offset."""
    ends = socket.inet_pton(socket.AF_INET6, source) + socket.inet_pton(socket.AF_INET6, target)
    total = checksum(ends + struct.pack("!II", len(payload), protocol) + payload)
    payload = payload[:at] + struct.pack("!H", total) + payload[at + 2 :]
    return struct.pack("!IHBB", 6 << 28, len(payload), protocol, 255) + ends + payload


def datagram(port: int) -> bytes:
    """A datagram of UDP, without a checksum."""
    return struct.pack("!HHHH", 4000, port, 8 + 5, 0) + b"clear"


def request(source: bytes, sender: str, target: str) -> bytes:
    """A request of ARP."""
    own, other = source + socket.inet_aton(sender), bytes(6) + socket.inet_aton(target)
    return struct.pack("!HHBBH", 1, 0x800, 6, 4, 1) + own + other


def advertisement(source: bytes, prefix: str) -> bytes:
    """A router advertisement with a prefix, from the link-local address of a router."""
    option = bytes([1, 1]) + source + bytes([3, 4, 64, 0xC0]) + struct.pack("!III", 86400, 14400, 0)
    octets = struct.pack("!BBHBBHII", 134, 0, 0, 64, 0, 1800, 0, 0) + option + socket.inet_pton(socket.AF_INET6, prefix)
    return ipv6("fe80::bad", "ff02::1", 58, octets, 2)


def reset(source: str, target: str, ports: tuple[int, int], number: int) -> bytes:
    """A reset of a TCP connection, with a sequence number."""
    segment = struct.pack("!HHIIBBHHH", *ports, number, 0, 0x50, 4, 0, 0, 0)
    ends = socket.inet_aton(source) + socket.inet_aton(target) + struct.pack("!BBH", 0, 6, len(segment))
    segment = segment[:16] + struct.pack("!H", checksum(ends + segment)) + segment[18:]
    return ipv4(source, target, 6, segment)
