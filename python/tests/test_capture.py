"""Capture files are read as fuzz/captures.py reads them, and what is written is read back."""

from __future__ import annotations

import bz2
import gzip
import os
import random
import struct
import sys
from typing import Any
from unittest import mock

from macsec import CaptureError, capture

from .helpers import ROOT, InFolder

sys.path.insert(0, str(ROOT / "fuzz"))
import blocks  # noqa: E402
import captures  # noqa: E402

sys.path.pop(0)


class Reading(InFolder):
    def read(self, octets: bytes) -> list[tuple[int, Any]]:
        """The times and the frames; of others what they are."""
        path = self.put("IN", octets)
        return [
            (it.time, it.frame) if it.is_whole else (0, it.link_type if it.link_type != 1 else None)
            for it in capture.read(path)
        ]

    def expected(self, octets: bytes) -> list[tuple[int, Any]]:
        is_nano, records = captures.read_capture(octets)
        unit = 1 if is_nano else 1000
        found = []
        for seconds, fraction, frame in records:
            found.append((seconds * 10**9 + fraction * unit if isinstance(frame, bytes) else 0, frame))
        return found

    def test_pcap(self) -> None:
        frames = [bytes([n % 256]) * n for n in (14, 60, 1500)]
        for order in "<>":
            for magic in (0xA1B2C3D4, 0xA1B23C4D):
                octets = struct.pack(order + "IHHiIII", magic, 2, 4, 0, 0, 65535, 1)
                for number, frame in enumerate(frames):
                    octets += struct.pack(order + "IIII", number, 999_999, len(frame), len(frame) + number % 2) + frame
                self.assertEqual(self.read(octets), self.expected(octets))

    def test_pcapng(self) -> None:
        source = random.Random(1)
        for _ in range(300):
            frames = [source.randbytes(source.randrange(80)) for _ in range(source.randrange(6))]
            octets = blocks.made_file(source, frames, True)
            self.assertEqual(self.read(octets), self.expected(octets))

    def test_faults(self) -> None:
        """A file that the program refuses may be read here, but a fault is never another exception."""
        source, faults = random.Random(2), 0
        for _ in range(300):
            octets = bytearray(blocks.made_file(source, [bytes(60)] * 3))
            for _ in range(source.randrange(4)):
                octets[source.randrange(len(octets))] = source.randrange(256)
            octets = octets[: source.choice((len(octets), source.randrange(len(octets) + 1)))]
            try:
                self.read(bytes(octets))
            except CaptureError:
                faults += 1
        self.assertGreater(faults, 20)
        for octets in (b"", b"text", struct.pack("<IHHiIII", 0xA1B2C3D4, 2, 4, 0, 0, 65535, 1)[:-1]):
            self.assertRaises(CaptureError, self.read, octets)

    def test_files_one_after_another(self) -> None:
        """Each has a header: of any order, unit of time and link type."""
        head = [struct.pack(order + "IHHiIII", 0xA1B2C3D4, 2, 4, 0, 0, 0, kind) for order, kind in (("<", 1), (">", 9))]
        octets = [it + struct.pack(order + "IIII", 5, 6, 60, 60) + bytes(60) for it, order in zip(head, "<>")]
        self.assertEqual(self.read(octets[0] + octets[1] + octets[0]), ([(5_000_006_000, bytes(60)), (0, 9)] * 2)[:3])

    def test_other_files(self) -> None:
        """What to do is said; what is compressed twice is read, and a time that no pcap has is the last one or 0."""
        capture_of = (
            struct.pack("<IHHiIII", 0xA1B2C3D4, 2, 4, 0, 0, 0, 1) + bytes(8) + struct.pack("<II", 9, 9) + bytes(9)
        )
        self.assertEqual(self.read(gzip.compress(bz2.compress(capture_of))), [(0, bytes(9))])
        for octets, says in (
            (b"", "the file is empty"), (b"PK\3\4", "an archive"), (b"16:40:00 IP", "this is text"),
            (gzip.compress(bytes(257) + b"ustar"), "an archive"), (bytes(99), "if Wireshark opens it"),
            (capture_of + bytes(8) + b"\xff" * 8, "damaged, or if Wireshark opens it"),
        ):  # fmt: skip
            with self.assertRaisesRegex(CaptureError, says):
                self.read(octets)
        late = struct.pack("<IIIIIII", 6, 44, 0, 2**32 - 1, 2**32 - 1, 9, 9) + bytes(12) + struct.pack("<I", 44)
        section = struct.pack("<IIIHHqI", 0x0A0D0D0A, 28, 0x1A2B3C4D, 1, 0, -1, 28)
        interface = struct.pack("<IIHHII", 1, 20, 1, 0, 0, 20)
        self.assertEqual(self.read(section + interface + late), [(2**32 * 10**9 - 1, bytes(9))])

    def test_announced_check_sequences(self) -> None:
        header = struct.pack("<IHHiIII", 0xA1B2C3D4, 2, 4, 0, 0, 65535, 0x4400_0001)
        (packet,) = capture.read(self.put("IN", header + struct.pack("<IIII", 0, 0, 18, 18) + bytes(18)))
        self.assertEqual((packet.link_type, packet.fcs), (1, 4))


class Writing(InFolder):
    def test_what_is_written_is_read(self) -> None:
        self.check_writing()
        # On a system that has no files without a name.
        with mock.patch.object(capture, "_nameless_file", return_value=None):
            self.check_writing()

    def check_writing(self) -> None:
        path = str(self.folder / "OUT")
        writer = capture.PcapngFile(path)
        for number in range(9):
            writer.write(10**18 + number, bytes([number]) * (14 + number), 14 + number, "a comment"[:number])
        self.assertFalse(os.path.exists(path))
        writer.close()
        writer.close()
        writer.discard()
        self.assertEqual(
            [(it.time, it.frame) for it in capture.read(path)],
            [(10**18 + n, bytes([n]) * (14 + n)) for n in range(9)],
        )
        octets = (self.folder / "OUT").read_bytes()
        self.assertEqual([it[2] for it in captures.read_capture(octets)[1]], [bytes([n]) * (14 + n) for n in range(9)])
        self.assertEqual((self.names(), os.stat(path).st_mode & 0o777), (["OUT"], 0o600))
        os.unlink(path)

    def test_a_file_that_appears_meanwhile_is_kept(self) -> None:
        for made in (mock.DEFAULT, None):
            with mock.patch.object(capture, "_nameless_file", wraps=capture._nameless_file, return_value=made):
                writer = capture.PcapngFile(str(self.folder / "OUT"))
                self.put("OUT", "another's")
                self.assertRaises(FileExistsError, writer.close)
            self.assertEqual((self.names(), (self.folder / "OUT").read_text()), (["OUT"], "another's"))
            os.unlink(self.folder / "OUT")
