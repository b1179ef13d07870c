"""Captures as they are made: in tunnels, compressed, cut and cooked. All are made by Scapy (captures_by_scapy.py)."""

from __future__ import annotations

import contextlib
import importlib.util
import io
import json
import os
import pathlib
import random
import struct
import subprocess
import sys
import tempfile
import unittest
from typing import Any

from macsec import CaptureError, capture, tunnels
from macsec.cli import config, decrypt, report, why

from .helpers import RECEIVER, SENDER, InFolder, main_of

DEBIANS = "/usr/bin/python3"
PYTHON = sys.executable if importlib.util.find_spec("scapy") or not os.path.exists(DEBIANS) else DEBIANS
SCRIPT = pathlib.Path(__file__).with_name("captures_by_scapy.py")
# The link of the captures whose key has no salt and whose tags have an SCI.
CONFIG = (
    f"end A gcm128 {RECEIVER} 1546 sci\nA key 0 {{}} 0\nA rxsc {SENDER}\nA rxsa {SENDER} 0 0 1\nA rxon {SENDER} 0\n"
)


class Made(InFolder):
    rows: list[dict[str, Any]] = []

    @classmethod
    def setUpClass(cls) -> None:
        room = tempfile.TemporaryDirectory()
        cls.addClassCleanup(room.cleanup)
        cls.room = pathlib.Path(room.name)
        status = subprocess.run([PYTHON, str(SCRIPT), room.name]).returncode
        if status == 77:
            raise unittest.SkipTest("Scapy is not installed")
        assert status == 0
        cls.rows = json.loads((cls.room / "index.json").read_text())

    def opened(self, row: dict[str, Any], file: str) -> tuple[int, str, list[str]]:
        """The status, what is said, and the frames that open."""
        out = self.folder / "OUT"
        out.unlink(missing_ok=True)
        told = main_of(decrypt.main, self.room / file, out, "--key", row["key"], "--only-opened")
        return told[0], told[1] + told[2], [it.frame.hex() for it in capture.read(str(out))]

    def test_all(self) -> None:
        self.assertGreaterEqual((len(self.rows), len({it["kind"] for it in self.rows})), (140, 40))
        for row in self.rows:
            with self.subTest(row["kind"], key=row["key"]):
                status, text, frames = self.opened(row, row["file"])
                if not row["says"]:
                    self.assertEqual((status, frames), (0, row["clients"]), text)
                    continue
                self.assertEqual((status, frames == row["clients"], row["says"] in text), (3, False, True), text)
                self.assertEqual(self.opened(row, row["then"])[::2], (0, row["clients"]))

    def test_mutated_captures(self) -> None:
        """No fault but of the file; a frame is octets of its record, or of several fragments."""
        rng, inside = random.Random(1), 0
        for row in self.rows:
            whole = (self.room / row["file"]).read_bytes()
            for _ in range(10):
                octets = bytearray(whole)
                for _ in range(rng.choice((1, 2, 4))):
                    octets[rng.randrange(24, len(octets))] = rng.choice((0, 1, 8, 0x45, 0xFF, rng.randrange(256)))
                records = []
                with contextlib.suppress(CaptureError):
                    records += capture.read(io.BytesIO(octets[: rng.choice((len(octets), rng.randrange(len(octets))))]))
                found = list(tunnels.opened(records))
                self.assertEqual([it.number for it in found], [it.number for it in records])
                for it, record in zip(found, records):
                    self.assertTrue(it.frame in record.frame or row["kind"] == "EDSA" or "fragments" in row["kind"])
                    inside += bool(it.inside)
        self.assertGreater(inside, 1000)

    def test_fragments_are_bounded(self) -> None:
        """Of many packets the last ones are kept, and of each no more than a packet can have."""

        def part(packet: int, at: int, count: int) -> capture.Packet:
            head = struct.pack("!BBHHHBBHII", 0x45, 0, 20 + count, packet, 0x2000 | at, 64, 47, 0, 1, 2)
            frame = bytes(12) + b"\x08\0" + head + bytes(count)
            return capture.Packet(0, 0, frame, len(frame))

        it = tunnels.Tunnels()
        for packet in range(100):
            for at in range(100):
                it.opened(part(packet, at, 1000))
        kept = list(it._packets.values())
        self.assertLessEqual(len(kept), 64)
        self.assertLess(sum(len(octets) for each in kept for octets in each._octets.values()), 64 * 65_536)

    def test_the_other_commands(self) -> None:
        """They read the same: each kind of the first link."""
        first = {it["kind"]: it for it in reversed(self.rows) if ":" not in it["key"] and len(it["key"]) == 32}
        # The endpoint of a CONFIG takes no frame with VLAN tags before the SecTAG, or with an FCS.
        for kind in ("with VLAN tags", "ERSPAN, with an FCS inside and outside", "ERF", "with what a tap adds"):
            del first[kind]
        for kind, row in first.items():
            with self.subTest(kind):
                file, count = self.room / row["file"], len(row["clients"])
                text = self.put("CONFIG", CONFIG.format(row["key"]))
                told = main_of(why.main, text, file)
                self.assertEqual(told[0], 3 if row["says"] else 0, told)
                self.assertIn(row["says"] or f"OK {count}", told[1])
                told = main_of(config.main, "--capture", file, "--key", row["key"])
                self.assertEqual((told[0], row["says"] in told[1]), (3 if row["says"] else 0, True), told)
                for options in (["--config", text], ["--key", row["key"]])[: 1 + (kind in ("ERSPAN II", "too long"))]:
                    told = main_of(report.main, file, "-o", "-", *options)
                    self.assertEqual((told[0], row["says"] in told[1]), (3 if row["says"] else 0, True), kind)
