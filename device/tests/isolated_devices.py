"""A device of the host's namespace over LINK, which is in another one. `ip` can't make it: a program that a user with
CAP_NET_ADMIN alone runs.

usage: isolated_devices.py PROCESS INDEX KIND

It makes the device up0 of this KIND over the device of this INDEX in the network namespace of a PROCESS."""

from __future__ import annotations

import os
import socket
import struct
import sys

REQUEST, ACK, CREATE = 1, 4, 0x600
NEWLINK, GETNSID = 16, 90
IFNAME, LINK, LINKINFO, NETNSID = 3, 5, 18, 37


def attribute(number: int, octets: bytes) -> bytes:
    """An attribute, filled up to four octets."""
    return struct.pack("=HH", 4 + len(octets), number) + octets + bytes(-len(octets) % 4)


def ask(it: socket.socket, number: int, flags: int, octets: bytes) -> bytes:
    """Makes a request. Returns the answer after its header."""
    it.send(struct.pack("=IHHII", 16 + len(octets), number, REQUEST | flags, 1, 0) + octets)
    got = it.recv(65536)
    if struct.unpack("=H", got[4:6])[0] == 2:
        error = -struct.unpack("=i", got[16:20])[0]
        if error:
            raise OSError(error, os.strerror(error))
    return got[16:]


def make(process: int, index: int, kind: str) -> None:
    """Makes the device."""
    with socket.socket(socket.AF_NETLINK, socket.SOCK_RAW, 0) as it:
        got = ask(it, GETNSID, 0, bytes(4) + attribute(2, struct.pack("=I", process)))
        namespace = struct.unpack("=i", got[8:12])[0]
        if namespace < 0:  # it gets a number now: NEWNSID
            ask(it, 88, ACK, bytes(4) + attribute(2, struct.pack("=I", process)) + attribute(1, struct.pack("=i", -1)))
            got = ask(it, GETNSID, 0, bytes(4) + attribute(2, struct.pack("=I", process)))
            namespace = struct.unpack("=i", got[8:12])[0]
        data = {
            "macvlan": attribute(2, attribute(1, struct.pack("=I", 4))),
            "vlan": attribute(2, attribute(1, b"\5\0")),
            "vxlan": attribute(2, attribute(1, struct.pack("=I", 5))),
        }
        about = attribute(1, kind.encode() + b"\0") + data.get(kind, b"")
        over = attribute(LINK, struct.pack("=I", index)) + attribute(NETNSID, struct.pack("=i", namespace))
        ask(it, NEWLINK, ACK | CREATE, bytes(16) + attribute(IFNAME, b"up0\0") + over + attribute(LINKINFO, about))


if __name__ == "__main__":
    make(int(sys.argv[1]), int(sys.argv[2]), sys.argv[3])
