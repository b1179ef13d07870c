"""Frames of a Linux network interface: sent as they are, and collected with the VLAN tags that they had."""

from __future__ import annotations

import errno
import socket
import struct
import time

_ALL_FRAMES = 3
_SOL_PACKET, _ADD_MEMBERSHIP, _AUXDATA = 263, 1, 8
_PROMISCUOUS = 1
_OUTGOING = 4
_VLAN_VALID = 1 << 4
_AUXDATA_FORM = "=IIIHHHH"
_BUFFER = 8 << 20
_LONGEST = 65536


class Interface:
    """A packet socket of an interface, which receives all frames, also those for other addresses."""

    def __init__(self, name: str) -> None:
        self.name = name
        family = getattr(socket, "AF_PACKET", None)
        if family is None:
            raise OSError(f"{name}: this system has no packet sockets, only Linux does")
        try:
            self._socket = socket.socket(family, socket.SOCK_RAW, 0)
        except PermissionError:
            raise OSError(f"{name}: frames of an interface need root or CAP_NET_RAW") from None
        try:
            self._prepare(name)
        except OSError as why:
            self._socket.close()
            raise _named(name, why) from None

    def _prepare(self, name: str) -> None:
        number = socket.if_nametoindex(name)
        self._socket.setsockopt(_SOL_PACKET, _AUXDATA, 1)
        self._socket.setsockopt(socket.SOL_SOCKET, socket.SO_RCVBUF, _BUFFER)
        self._socket.bind((name, _ALL_FRAMES))
        self._socket.setsockopt(_SOL_PACKET, _ADD_MEMBERSHIP, struct.pack("IHH8s", number, _PROMISCUOUS, 0, b""))

    def send(self, frame: bytes) -> None:
        """Sends a frame."""
        try:
            self._socket.settimeout(None)
            self._socket.send(frame)
        except OSError as why:
            raise _named(self.name, why) from None

    def frames(self, seconds: float) -> list[bytes]:
        """The frames that arrive within so many seconds, and those that have arrived."""
        found: list[bytes] = []
        end = time.monotonic() + seconds
        while True:
            left = end - time.monotonic()
            self._socket.settimeout(max(left, 0.0))
            try:
                frame, about, _, address = self._socket.recvmsg(_LONGEST, 256)
            except (socket.timeout, BlockingIOError):
                if left <= 0:
                    return found
                continue
            except OSError as why:
                raise _named(self.name, why) from None
            if address[2] != _OUTGOING:
                found.append(with_vlan_tag(frame, about))

    def close(self) -> None:
        """Closes the socket."""
        self._socket.close()

    def __enter__(self) -> Interface:
        return self

    def __exit__(self, *_: object) -> None:
        self.close()


def with_vlan_tag(frame: bytes, about: list[tuple[int, int, bytes]]) -> bytes:
    """A frame with the VLAN tag that the system took out of it.

    >>> data = struct.pack(_AUXDATA_FORM, _VLAN_VALID, 0, 0, 0, 0, 7, 0x88A8)
    >>> with_vlan_tag(bytes(12) + b"end", [(_SOL_PACKET, _AUXDATA, data)])[12:].hex()
    '88a80007656e64'
    """
    for level, kind, data in about:
        if (level, kind) == (_SOL_PACKET, _AUXDATA) and len(data) >= struct.calcsize(_AUXDATA_FORM):
            status, _, _, _, _, control, protocol = struct.unpack_from(_AUXDATA_FORM, data)
            if status & _VLAN_VALID:
                return frame[:12] + struct.pack("!HH", protocol or 0x8100, control) + frame[12:]
    return frame


def _named(name: str, why: OSError) -> OSError:
    """An error with the interface's name."""
    text = why.strerror or str(why)
    if why.errno == errno.EPERM:
        text += "; root or CAP_NET_RAW is needed"
    return OSError(f"{name}: {text}")
