"""What runs inside the virtual machine of device/tests/device-installed.

usage: installed_guest.py commands | traffic SECONDS ADDRESS..

commands  carries out the scripts that come over the second serial line, and returns status and output
traffic   sends a datagram to port 7000 of each address, again and again after so many seconds, without an end"""

from __future__ import annotations

import contextlib
import json
import os
import socket
import subprocess
import sys
import time
import tty

LINE = "/dev/ttyS1"
SECRET = b"SECRET"


def carried_out(order: dict) -> dict:
    """Runs a script. Returns its status, or None if it does not end in time, and its output."""
    try:
        ended = subprocess.run(
            ["sh", "-c", order["script"]],
            stdin=subprocess.DEVNULL,
            stdout=subprocess.PIPE,
            stderr=subprocess.STDOUT,
            timeout=order["seconds"],
        )
        status, output = ended.returncode, ended.stdout
    except subprocess.TimeoutExpired as why:
        status, output = None, why.stdout or b""
    return {"status": status, "output": output.decode(errors="replace")}


def commands() -> None:
    """Carries out what comes over the line. Each order and each answer is a line of JSON."""
    with open(LINE, "r+b", buffering=0) as line:
        tty.setraw(line)
        line.write(b'{"ready": true}\n')
        kept = b""
        while True:
            kept += os.read(line.fileno(), 65536)
            while b"\n" in kept:
                order, _, kept = kept.partition(b"\n")
                answer = json.dumps(carried_out(json.loads(order))).encode() + b"\n"
                while answer:
                    answer = answer[line.write(answer) :]


def traffic(seconds: float, addresses: list[str]) -> None:
    """Sends to all addresses. What the system refuses is tried again."""
    by = socket.socket(socket.AF_INET, socket.SOCK_DGRAM)
    while True:
        for each in addresses:
            with contextlib.suppress(OSError):
                by.sendto(SECRET, (each, 7000))
        time.sleep(seconds)


def main() -> None:
    if sys.argv[1] == "commands":
        commands()
    else:
        traffic(float(sys.argv[2]), sys.argv[3:])


if __name__ == "__main__":
    main()
