"""Segments that pass TAP in one frame. Linux joins and divides them too, by its own code: what arrives must be what was
sent, octet for octet and in order."""

from __future__ import annotations

import fcntl
import itertools
import json
import os
import random
import secrets
import select
import signal
import struct
from collections.abc import Iterator
from typing import NamedTuple

from house.reporting import report, until
from macsecd_losses import count_all, sent_of
from macsecd_plain import TCP4, TCP6, UDP
from macsecd_world import SOL_PACKET, End, Packets, World, checksum, inside

TUNSETIFF, TAP, NO_PI = 0x400454CA, 2, 0x1000
# Frames that are sent at once: no queue of the system is full.
AT_ONCE = 150
DESTINATION, SOURCE = bytes.fromhex("020000000022"), bytes.fromhex("020000000011")
FIN, PSH, ACK, URG, ECE, CWR = 1, 8, 16, 32, 64, 128


class Plain:
    """A TAP of the test, which takes whole frames alone, in a bridge with macsecd's: Linux divides what it gets."""

    def __init__(self, end: End) -> None:
        self.end = end
        with inside(end.namespace):
            self.file = os.open("/dev/net/tun", os.O_RDWR | os.O_NONBLOCK)
            fcntl.ioctl(self.file, TUNSETIFF, struct.pack("16sH22x", b"plain0", TAP | NO_PI))
        end.ip("link", "add", "br0", "type", "bridge", "forward_delay", "0", "mcast_snooping", "0")
        end.ip("addr", "flush", "dev", "macsec0")
        for name in ("br0", "plain0", "macsec0"):
            end.without_ipv6(name)
        for name in ("plain0", "macsec0"):
            end.ip("link", "set", name, "mtu", "1468", "master", "br0", "up")
        end.ip("link", "set", "br0", "up")
        report(until(lambda: "forwarding" in end.ip("-d", "link", "show", "macsec0")), "the bridge does not forward")

    def frames(self, seconds: float) -> Iterator[bytes]:
        """The frames of the test that are there, or come in this time."""
        while select.select([self.file], [], [], seconds)[0]:
            got = os.read(self.file, 65600)
            if got[6:12] == SOURCE:
                yield got

    def close(self) -> None:
        """Removes it, and the bridge."""
        os.close(self.file)
        self.end.ip("link", "del", "br0")


class Stream(NamedTuple):
    """What the frames of a stream have in common."""

    version: int
    protocol: int
    tags: bytes
    options: bytes
    size: int
    first: int


def begin(rng: random.Random) -> Stream:
    """A random stream."""
    options = rng.choice((b"", bytes.fromhex("0101080a0000000100000002"), bytes([1]) * 4 * rng.randrange(11)))
    tags = rng.choice((b"", b"", bytes.fromhex("81000005"), bytes.fromhex("88a8000681000005")))
    size = rng.choice((rng.randrange(1, 60), 1300, rng.randrange(1, 1300)))
    return Stream(rng.choice((4, 6)), rng.choice((6, 6, 17)), tags, options, size, rng.randrange(1 << 32))


def frame(it: Stream, number: int, at: int, flags: int, data: bytes, rng: random.Random | None) -> bytes:
    """A frame of a stream, whose data begin at this octet. With `rng` it may be odd."""
    odd = (lambda times: rng.randrange(times) == 0) if rng else (lambda _: False)
    addresses = b"\x0a\x09\0\1\x0a\x09\0\2" if it.version == 4 else (b"\xfd\x09" + bytes(14)) * 2
    if it.protocol == 17:
        head, place = struct.pack("!HHHH", 7, 9, 8 + len(data), 0), 6
    else:
        urgent = 5 if odd(100) else 0
        offset = (20 + len(it.options)) // 4 << 4
        head = struct.pack("!HHIIBBHHH", 7, 9, (it.first + at) % 2**32, 5, offset, flags, 512, 0, urgent) + it.options
        place = 16
    body = head + data
    pseudo = addresses + struct.pack("!II", len(body), it.protocol)
    body = body[:place] + struct.pack("!H", checksum(pseudo + body) or 0xFFFF * (place == 6)) + body[place + 2 :]
    if odd(60):
        body = body[:-1] + bytes([body[-1] ^ 1])  # a wrong checksum
    class_of_traffic = 3 if odd(60) else 0  # a router has marked it (ECN)
    if it.version == 4:
        fragment = rng.choice((0x2000, 0x00B9, 0)) if rng and odd(60) else 0x4000
        options = bytes([1]) * 4 if odd(60) else b""
        ip = struct.pack("!BBHHHBBH", 0x45 + len(options) // 4, class_of_traffic, 20 + len(options) + len(body),
                         number % 2**16, fragment, 64, it.protocol, 0) + addresses + options  # fmt: skip
        ip = ip[:10] + struct.pack("!H", checksum(ip)) + ip[12:]
    else:
        more = bytes([it.protocol]) + bytes(7) if odd(60) else b""  # hop-by-hop options
        first = 0x60000000 | class_of_traffic << 20
        ip = struct.pack("!IHBB", first, len(more) + len(body), 0 if more else it.protocol, 64) + addresses + more
    return DESTINATION + SOURCE + it.tags + (b"\x08\0" if it.version == 4 else b"\x86\xdd") + ip + body


def random_frames(count: int, rng: random.Random) -> Iterator[bytes]:
    """Frames of streams, most of which can be joined, and some that must not be."""
    noise = rng.randbytes(4096)
    while count > 0:
        it, at, number = begin(rng), 0, rng.randrange(1 << 16)
        for _ in range(rng.randrange(1, 120)):
            size = rng.randrange(it.size + 1) if rng.randrange(30) == 0 else it.size
            flags = ACK | rng.choice((PSH, PSH, FIN, URG, ECE, CWR, ECE | CWR, 2, 4)) * (rng.randrange(20) == 0)
            start = rng.randrange(2048)
            yield frame(it, number, at, flags, noise[start : start + size], rng)
            at += size + (rng.randrange(60) == 0)
            number += 1 + (rng.randrange(60) == 0)
            count -= 1


def pass_frames(world: World, count: int, rng: random.Random) -> tuple[int, str]:
    """Sends frames through both macsecd, many at once. Returns how many there were, and what is wrong."""
    a, b = world.ends
    sender, receiver = (Plain(end) for end in world.ends)
    frames, sent = random_frames(count, rng), 0
    while burst := list(itertools.islice(frames, AT_ONCE)):
        before = sent_of(a)
        b.send_signal(signal.SIGSTOP)
        for each in burst:
            os.write(sender.file, each)
        came = until(lambda: sent_of(a) >= before + len(burst))
        b.send_signal(signal.SIGCONT)
        got = list(itertools.islice(receiver.frames(5), len(burst)))
        wrong = [number for number, (it, other) in enumerate(zip(burst, got)) if it != other]
        if not came or wrong or len(got) < len(burst):
            return sent, f"of {len(burst)} frames after {sent} {len(got)} arrive, and others: {wrong}"
        sent += len(burst)
    return sent, ""


def deliveries(end: End) -> int:
    """How many frames the system has got from macsecd."""
    return json.loads(end.ip("-s", "-j", "link", "show", "macsec0"))[0]["stats64"]["rx"]["packets"]


def check_joined(world: World, count: int, seed: str) -> None:
    """Frames that one client sends alone are joined for the other one, whose system divides them."""
    world.start()
    a, b = world.ends
    before, calls = b.counters(), deliveries(b)
    sent, fault = pass_frames(world, count, random.Random(seed))
    after, calls = b.counters(), deliveries(b) - calls
    frames, refused = (after[it] - before[it] for it in ("device TapOut", "device TapRefused"))
    report(not fault, f"segments: joined: {fault}")
    holds = 0 <= frames - sent < 50 and refused == 0  # the bridge can send some too
    report(holds, f"segments: {sent} frames were sent, {frames} counted and {refused} refused")
    report(calls < frames * 3 / 4, f"segments: {frames} frames are {calls} deliveries: few are joined")
    print(f"segments: {frames} frames in {calls} deliveries", flush=True)
    for end in (a, b):
        count_all(end)


def whole(it: Stream, number: int, flags: int, data: bytes, size: int) -> bytes:
    """A frame of segments of this size, after what a packet socket wants to know of it."""
    octets = frame(it, number, 0, flags, data, None)
    start = 14 + len(it.tags) + (20 if it.version == 4 else 40)
    header, place = (8, 6) if it.protocol == 17 else (20 + len(it.options), 16)
    pseudo = octets[start - (8 if it.version == 4 else 32) : start]
    pseudo += struct.pack("!II", len(octets) - start, it.protocol)
    octets = octets[: start + place] + struct.pack("!H", ~checksum(pseudo) & 0xFFFF) + octets[start + place + 2 :]
    kind = UDP if it.protocol == 17 else TCP4 if it.version == 4 else TCP6
    kind |= 0x80 if it.protocol == 6 and flags & CWR else 0
    return struct.pack("=BBHHHH", 1, kind, start + header, size, start, place) + octets


def whole_frames(rng: random.Random, count: int) -> list[bytes]:
    """Random frames of several segments."""
    found = []
    for _ in range(count):
        it = begin(rng)
        size, flags = max(it.size, 8), ACK | rng.choice((0, PSH, FIN | PSH, ECE, CWR))
        most = min(60000, size * (60 if it.protocol == 17 else 150))  # more than macsecd takes at once
        number, data = rng.randrange(1 << 16), rng.randbytes(rng.randrange(size + 1, most + 2))
        found.append(whole(it, number, flags, data, size))
    return found


def divided(world: World, frames: list[bytes]) -> list[list[bytes]]:
    """What arrives of each frame that one client leaves to its network card."""
    sender, receiver = Packets(world.ends[0].namespace, "macsec0"), Plain(world.ends[1])
    sender.socket.setsockopt(SOL_PACKET, 15, 1)  # PACKET_VNET_HDR
    found = []
    for each in frames:
        _, _, header, size, _, _ = struct.unpack_from("=BBHHHH", each)
        sender.send(each)
        count = -(-(len(each) - 10 - header) // size)
        found.append(list(itertools.islice(receiver.frames(5), count)))
    report(not list(receiver.frames(0.2)), "segments: a frame is divided into too many")
    receiver.close()
    return found


def check_divided(world: World, frames: list[bytes]) -> None:
    """With `device segments off` Linux divides what macsecd divides without this line: to the same frames."""
    world.prepare()
    a, b = world.ends
    got = []
    for line in ("device segments off\n", ""):
        # Other keys: after so many frames a receiver has reserved more packet numbers than the sender has used.
        world.keys = [secrets.token_hex(16) for _ in world.keys]
        for end in (a, b):
            end.write_config(device=f"device link link0\n{line}")
            end.start()
        shown = f"segments {'off' if line else 'TCP'}"
        report(shown in a.ask("show"), f"segments: show does not say {shown}")
        got.append(divided(world, frames))
        for end in (a, b):
            count_all(end)
            report(end.stop() == 0, f"segments: macsecd does not end well: {end.log()}")
    for number, (linux, own) in enumerate(zip(*got)):
        holds = linux == own and len(own) > 1
        report(holds, f"segments: frame {number} is divided in another way: {len(linux)} and {len(own)} segments")
