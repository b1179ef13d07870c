"""A local user that tries to attach to a TAP until standard input ends. device/tests/isolated_users.py runs it.

usage: python3 -c TEXT TAP USER FRAME STEPS

Attached, it gives TAP carrier, makes the STEPS, and reads; at the end it sends the FRAME (hex) 50 times, and deletes TAP.
It prints an empty line after its first try, and at the end what it has done, as JSON. STEPS are separated by commas:

claim    takes TAP for this user and its group
poison   leaves filters and, while TAP is down, another type, which keep frames from its next reader
fake     makes root the owner
vanish   lets TAP end with the last file that is attached
hide     sends the file to itself, so that no process has it open
leave    lets TAP go and tries no more
release  lets TAP go after 50 ms, and tries again"""

from __future__ import annotations

import array
import contextlib
import ctypes
import fcntl
import json
import os
import select
import socket
import struct
import sys
import time

TUNSETIFF, TUNSETPERSIST, TUNSETOWNER, TUNSETLINK = 0x400454CA, 0x400454CB, 0x400454CC, 0x400454CD
TUNSETGROUP, TUNSETTXFILTER, TUNSETSNDBUF, TUNSETCARRIER = 0x400454CE, 0x400454D1, 0x400454D4, 0x400454E2
INFINIBAND = 32


class User:
    """What it has, and what it has done."""

    def __init__(self, tap: str, user: int, frame: bytes, steps: list[str]) -> None:
        self.request = struct.pack("16sH22x", tap.encode(), 0x1002)  # IFF_TAP, IFF_NO_PI
        self.user, self.frame, self.steps = user, frame, steps
        self.file, self.goes_on = -1, True
        self.tries = self.attached = self.read = 0
        self.hidden = socket.socketpair()

    def attach(self) -> None:
        """Tries once."""
        self.tries += 1
        file = os.open("/dev/net/tun", os.O_RDWR | os.O_NONBLOCK)
        try:
            fcntl.ioctl(file, TUNSETIFF, self.request)
        except OSError:
            os.close(file)
            return
        self.attached, self.file = self.attached + 1, file
        for step in ("carrier", *self.steps):
            with contextlib.suppress(OSError):
                getattr(self, step)()

    def carrier(self) -> None:
        """Gives TAP carrier."""
        fcntl.ioctl(self.file, TUNSETCARRIER, struct.pack("i", 1))

    def claim(self) -> None:
        """Takes TAP for this user and its group."""
        fcntl.ioctl(self.file, TUNSETOWNER, self.user)
        fcntl.ioctl(self.file, TUNSETGROUP, self.user)

    def poison(self) -> None:
        """Leaves what keeps frames from the next reader: one address passes, a frame of memory is left, another type."""
        fcntl.ioctl(self.file, TUNSETTXFILTER, struct.pack("HH6s", 0, 1, b"\2\0\0\0\0\x77"))
        fcntl.ioctl(self.file, TUNSETSNDBUF, struct.pack("i", 1))
        fcntl.ioctl(self.file, TUNSETLINK, INFINIBAND)

    def fake(self) -> None:
        """Makes root the owner."""
        fcntl.ioctl(self.file, TUNSETOWNER, 0)

    def vanish(self) -> None:
        """Lets TAP end with its last file."""
        fcntl.ioctl(self.file, TUNSETPERSIST, 0)

    def hide(self) -> None:
        """Sends the file to itself. It stays open in the queue of a socket, where no process has it."""
        rights = [(socket.SOL_SOCKET, socket.SCM_RIGHTS, array.array("i", [self.file]))]
        self.hidden[0].sendmsg([b"x"], rights)
        os.close(self.file)
        self.file, self.goes_on = -1, False

    def seek(self) -> None:
        """Takes it from there."""
        _, about, _, _ = self.hidden[1].recvmsg(1, socket.CMSG_SPACE(4))
        self.file = struct.unpack("i", about[0][2])[0]

    def leave(self) -> None:
        """Lets TAP go, and tries no more."""
        self.release()
        self.goes_on = False

    def release(self) -> None:
        """Lets TAP go after a moment."""
        time.sleep(0.05)
        self.look()
        os.close(self.file)
        self.file = -1

    def send(self) -> None:
        """Sends the frame."""
        for _ in range(50):
            os.write(self.file, self.frame)

    def look(self) -> None:
        """Reads what has come."""
        with contextlib.suppress(OSError, ValueError):
            while True:
                self.read += b"SECRET" in os.read(self.file, 65536)

    def run(self) -> None:
        """Does all of it until standard input ends."""
        self.attach()
        print(flush=True)
        while not select.select([sys.stdin], [], [], 0 if self.file < 0 and self.goes_on else 0.01)[0]:
            if self.file >= 0:
                self.look()
            elif self.goes_on:
                self.attach()
        if "hide" in self.steps and self.attached:
            self.seek()
        self.look()
        for last in (self.send, self.vanish):
            with contextlib.suppress(OSError, ValueError):
                last()
        print(json.dumps({it: getattr(self, it) for it in ("tries", "attached", "read")}))


if __name__ == "__main__":
    name, number, octets, does = sys.argv[1:]
    ctypes.CDLL(None).prctl(15, b"intruder\x1b[31m", 0, 0, 0)  # PR_SET_NAME
    os.setgroups([])
    os.setresgid(*[int(number)] * 3)
    os.setresuid(*[int(number)] * 3)
    User(name, int(number), bytes.fromhex(octets), [it for it in does.split(",") if it]).run()
