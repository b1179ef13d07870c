"""Capture files, by the package in python/."""

from __future__ import annotations

import contextlib
import pathlib
import subprocess
import sys
from collections.abc import Iterable

from house import ROOT

sys.path.insert(0, str(ROOT / "python"))
from macsec.capture import Packet, pcap_header, pcap_record, read, write_pcap
from macsec.errors import CaptureError

sys.path.pop(0)

__all__ = ["Packet", "frames_so_far", "pcap_header", "pcap_record", "read", "write_equal_frames", "write_pcap"]

_SCI, _KEY = "0200000000010001", "A key 0 ad7a2bd03eac835a6f620fdcb506b345 0\n"
_SENDER = f"end A gcm128 {_SCI} 9248 sci\n{_KEY}A txsa 0 0 1 conf\nA txon 0\n"
_RECEIVER = f"end A gcm128 0200000000020001 9248 sci\n{_KEY}A rxsc {_SCI}\nA rxsa {_SCI} 0 0 1\nA rxon {_SCI} 0\n"


def write_equal_frames(folder: str, program: str, length: int, counts: Iterable[int]) -> None:
    """Writes captures of so many frames of a client with so many octets of data, as clear300, and of what the program
    sends for them, as sealed300; and its configurations, protect and validate."""
    frame = bytes.fromhex("ffffffffffff020000000001") + bytes(i * 7 & 255 for i in range(length))
    pathlib.Path(folder, "protect").write_text(_SENDER, encoding="utf-8")
    pathlib.Path(folder, "validate").write_text(_RECEIVER, encoding="utf-8")
    for count in counts:
        clear = pathlib.Path(folder, f"clear{count}")
        clear.write_bytes(pcap_header(1000) + pcap_record(0, frame, 1000) * count)
        words = [program, "protect", f"{folder}/protect", str(clear), f"{folder}/sealed{count}"]
        subprocess.run(words, check=True, stdout=subprocess.DEVNULL)


def frames_so_far(path: object) -> list[bytes]:
    """The whole frames of a capture file that may end in a record."""
    frames: list[bytes] = []
    with contextlib.suppress(CaptureError):
        for packet in read(str(path)):
            frames.append(packet.frame)
    return frames
