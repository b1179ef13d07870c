#!/usr/bin/env python3
"""Asks a control socket for the port over and over, until standard input ends. It prints how many answers there were,
the seconds of the slowest one, and by how many a sleep between was too long. It runs before other processes if it may,
so that what it sees are pauses of macsecd, or of the machine, which make sleeps too long.

usage: macsecd_polls.py SOCKET INTERVAL"""

from __future__ import annotations

import contextlib
import os
import select
import socket
import sys
import time


def main() -> None:
    """Asks, and prints."""
    with contextlib.suppress(PermissionError):
        os.sched_setscheduler(0, os.SCHED_FIFO, os.sched_param(11))
    count, slowest, overslept, interval = 0, 0.0, 0.0, float(sys.argv[2])
    with socket.socket(socket.AF_UNIX, socket.SOCK_SEQPACKET) as it, contextlib.suppress(OSError):
        it.connect(sys.argv[1])
        print("begins", flush=True)
        before = time.monotonic()
        while not select.select([sys.stdin], [], [], interval)[0]:
            began = time.monotonic()
            overslept = max(overslept, began - before - interval)
            it.send(b"port")
            if not it.recv(100):
                break
            before = time.monotonic()
            count, slowest = count + 1, max(slowest, before - began)
    print(count, slowest, overslept)


if __name__ == "__main__":
    main()
