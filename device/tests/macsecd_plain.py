"""Validation modes that deliver frames without protection. Over a virtual LINK these come without a checksum, and
several segments in one."""

from __future__ import annotations

import contextlib
import hashlib
import itertools
import random
import socket
import struct
import threading

from house.reporting import call, report
from macsecd_losses import count_all
from macsecd_world import SOL_PACKET, End, Packets, World, checksum, connect, udp_socket

UDP_SEGMENT = 103
BROADCAST = bytes.fromhex("ffffffffffff")
# An IPv4 address and an IPv6 address of each end, which are LINK's at the end without macsecd.
ADDRESSES, WILD = ("10.9.0.", "fd09::"), ("0.0.0.0", "::")


def wrong_sums(end: End) -> int:
    """How many checksums of TCP and UDP the system has found wrong."""
    shown = call(*end.enter, "cat", "/proc/net/snmp", "/proc/net/snmp6")
    lines = [line.split() for line in shown.splitlines()]
    found = 0
    for names, values in zip(lines, lines[1:]):
        if names[0] == values[0] and names[0] in ("Tcp:", "Udp:"):
            found += int(dict(zip(names, values))["InCsumErrors"])
    return found + sum(int(it[1]) for it in lines if it[0] in ("Udp6InCsumErrors", "Tcp6InCsumErrors"))


def transfer(by: End, to: End, address: str, octets: int, seed: str) -> None:
    """Sends random octets by TCP, which have to arrive as they are."""
    data = random.Random(seed).randbytes(octets)
    sender, receiver = connect(by, to, address)

    def send() -> None:
        sender.sendall(data)
        sender.shutdown(socket.SHUT_WR)

    thread = threading.Thread(target=send)
    thread.start()
    got = hashlib.sha256()
    while part := receiver.recv(1 << 18):
        got.update(part)
    thread.join()
    for each in (sender, receiver):
        each.close()
    report(got.digest() == hashlib.sha256(data).digest(), f"plain: TCP to {address}: other octets arrived")


def datagrams(by: End, to: End, address: str, seed: str) -> None:
    """Sends datagrams, which the sender lets the system cut out of long ones. All have to arrive as they are."""
    data = random.Random(seed).randbytes(20 * 1200 + 77)
    got = b""
    with udp_socket(to.namespace, 9031, address) as receiver, udp_socket(
        by.namespace, 0, WILD[":" in address]
    ) as sender:
        receiver.settimeout(5)
        sender.setsockopt(socket.IPPROTO_UDP, UDP_SEGMENT, 1200)
        sender.sendto(data, (address, 9031))
        with contextlib.suppress(socket.timeout):
            while len(got) < len(data):
                got += receiver.recv(65536)
    report(got == data, f"plain: UDP to {address}: {len(got)} octets of {len(data)}")


def check_mode(a: End, b: End, octets: int, seed: str) -> None:
    """TCP and UDP both ways, by IPv4 and IPv6. End a has no macsecd."""
    before = b.counters()
    for address in ADDRESSES:
        for by, to in ((a, b), (b, a)):
            transfer(by, to, f"{address}{to.number}", octets, seed)
            datagrams(by, to, f"{address}{to.number}", seed)
    report(wrong_sums(b) == 0 == wrong_sums(a), f"plain: wrong checksums: {wrong_sums(a)}, {wrong_sums(b)}")
    c = b.counters()
    untagged = c["InPktsUntagged"] - before["InPktsUntagged"]
    report(untagged > 2 * octets // 1500, f"plain: only {untagged} frames without a tag were delivered")
    report(c["device LinkTooLong"] == 0 == c["device LinkLost"], f"plain: frames were too long or lost: {c}")
    count_all(b)


def check_plain(world: World, octets: int, seed: str) -> None:
    """A network that is changed over: one end has no macsecd, the other delivers and sends without protection."""
    world.prepare()
    a, b = world.ends
    allowed = "device allow validate check\ndevice allow validate disabled\ndevice allow protect off\n"
    a.sysctl("net.ipv6.conf.link0.disable_ipv6=0")
    a.ip("addr", "replace", "10.9.0.1/24", "dev", "link0")
    a.ip("addr", "replace", "fd09::1/64", "dev", "link0", "nodad")
    for mode, line in (("check", ""), ("disabled", "device segments off\n")):
        b.stop()
        b.write_config(device=f"device link link0\n{line}{allowed}")
        b.start()
        b.carry_out("A protect off", f"A validate {mode}")
        a.ip("link", "set", "link0", "mtu", b.ip("link", "show", "macsec0").split(" mtu ")[1].split()[0])
        b.ip("neigh", "flush", "dev", "macsec0")
        check_mode(a, b, octets, seed)
    check_segments(a, b)


# ---- Frames with a VLAN tag, as a sender leaves them to a network card

TCP4, TCP6, UDP, LACKS_SUM, SIZE = 1, 4, 5, 1, 1000
FLAGS = 0x99  # FIN, PSH, ACK and CWR


def unfinished(version: int, is_udp: bool, data: bytes) -> tuple[bytes, bytes]:
    """What is before a frame at a packet socket, and a frame with a VLAN tag: segments with SIZE octets of data."""
    own, peer = b"\x0a\x09\0\1", b"\x0a\x09\0\2"
    if version == 6:
        own, peer = b"\xfd\x09" + bytes(14), b"\xfd\x0a" + bytes(14)
    protocol, length = (17, 8 + len(data)) if is_udp else (6, 32 + len(data))
    pseudo = ~checksum(own + peer + struct.pack("!II", length, protocol)) & 0xFFFF
    if is_udp:
        head = struct.pack("!HHHH", 7, 9, length, pseudo)
    else:
        head = struct.pack("!HHIIBBHHH", 7, 9, 0xFFFFFF00, 5, 0x80, FLAGS, 512, pseudo, 0) + b"\1\1\x08\x0a" + bytes(8)
    if version == 4:
        ip = struct.pack("!BBHHHBBH", 0x45, 1, 20 + length, 0xFFFE, 0x4000, 64, protocol, 0) + own + peer
        ip = ip[:10] + struct.pack("!H", checksum(ip)) + ip[12:]
    else:
        ip = struct.pack("!IHBB", 0x60000000, length, protocol, 64) + own + peer
    ethernet = BROADCAST + bytes.fromhex("020000000009" "81000005") + (b"\x08\0" if version == 4 else b"\x86\xdd")
    kind, at = (UDP, 6) if is_udp else (TCP4 if version == 4 else TCP6, 16)
    start = len(ethernet) + len(ip)
    about = struct.pack("=BBHHHH", LACKS_SUM, kind, start + len(head), SIZE, start, at)
    return about, ethernet + ip + head + data


def segments(frames: list[bytes], version: int, is_udp: bool) -> list[bytes]:
    """The data of the segments. The lengths and the checksums of each segment have to be right."""
    got = []
    for number, frame in enumerate(frames):
        report(frame[12:16] == bytes.fromhex("81000005"), f"plain: a segment without its tag: {frame[:20].hex()}")
        packet = frame[18:]
        if version == 4:
            ip, whole = packet[:20], int.from_bytes(packet[2:4], "big")
            addresses, name = ip[12:], int.from_bytes(ip[4:6], "big")
            right = checksum(ip) == 0 and name == (0xFFFE + number) % 65536
        else:
            ip, whole = packet[:40], 40 + int.from_bytes(packet[4:6], "big")
            addresses, right = ip[8:], True
        body = packet[len(ip) :]
        pseudo = addresses + struct.pack("!II", len(body), 17 if is_udp else 6)
        right = right and whole == len(packet) and checksum(pseudo + body) == 0
        if is_udp:
            right = right and int.from_bytes(body[4:6], "big") == len(body)
        else:
            last = number == len(frames) - 1
            flags = 0x10 | (0x09 if last else 0) | (0x80 if number == 0 else 0)
            right = right and body[13] == flags
            right = right and int.from_bytes(body[4:8], "big") == (0xFFFFFF00 + SIZE * number) % (1 << 32)
        report(right, f"plain: segment {number} of IPv{version}: {packet[:60].hex()}")
        got.append(body[8 if is_udp else 32 :])
    return got


def check_segments(a: End, b: End) -> None:
    """Frames of several segments with a VLAN tag."""
    wire, client = Packets(a.namespace, "link0"), Packets(b.namespace, "macsec0")
    wire.socket.setsockopt(SOL_PACKET, 15, 1)  # PACKET_VNET_HDR
    data = random.Random(1).randbytes(5 * SIZE - 321)
    for version, is_udp in itertools.product((4, 6), (False, True)):
        client.frames(0.1)
        wire.send(b"".join(unfinished(version, is_udp, data)))
        found = [it for it in client.frames(0.3) if it[6:12] == bytes.fromhex("020000000009")]
        got = segments(found, version, is_udp)
        report(len(got) == 5 and b"".join(got) == data, f"plain: IPv{version}: {[len(it) for it in got]}")
