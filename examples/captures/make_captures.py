#!/usr/bin/env python3
"""Makes the captures of this folder, which the pages use, but for linux.pcap.

usage: make_captures.py MACSEC FOLDER

The program MACSEC protects the frames; times and client frames are fixed, so the files are the same each time.
linux.pcap was captured from the driver of Linux 6.1, configured as docs/INTEROP.md says ("A worked pair")."""

from __future__ import annotations

import os
import pathlib
import struct
import subprocess
import sys
import tempfile

sys.dont_write_bytecode = True
sys.path.insert(0, str(pathlib.Path(__file__).resolve().parents[2] / "python"))
from macsec import capture

Record = "tuple[int, bytes]"  # microseconds after START, and a frame

ADDRESS_1, ADDRESS_2 = bytes.fromhex("020000000001"), bytes.fromhex("020000000002")
IP_1, IP_2 = bytes([192, 0, 2, 1]), bytes([192, 0, 2, 2])
SCI_1, SCI_2 = f"{ADDRESS_1.hex()}0001", f"{ADDRESS_2.hex()}0001"
KEYS = ["ad7a2bd03eac835a6f620fdcb506b345", "000102030405060708090a0b0c0d0e0f", "101112131415161718191a1b1c1d1e1f"]
SALT = "a0a1a2a3a4a5a6a7a8a9aaab"
START = 1_700_000_000

# A frame of LLDP, which is not protected.
LLDP = bytes.fromhex("0180c200000e020000000009" "88cc" "0207040200000000090403653000" "06020078" "0000")


def checksum(octets: bytes) -> bytes:
    """The checksum of IP and ICMP."""
    total = sum(struct.unpack(f">{len(octets) // 2}H", octets))
    while total >> 16:
        total = (total & 0xFFFF) + (total >> 16)
    return struct.pack(">H", ~total & 0xFFFF)


def arp(operation: int, sender: tuple[bytes, bytes], target: tuple[bytes, bytes]) -> bytes:
    """A frame of ARP between two pairs of addresses: 1 asks, 2 answers."""
    is_request = operation == 1
    head = (b"\xff" * 6 if is_request else target[0]) + sender[0] + bytes.fromhex("0806" "000108000604")
    return head + struct.pack(">H", operation) + b"".join(sender) + (bytes(6) if is_request else target[0]) + target[1]


def ping(kind: int, sender: tuple[bytes, bytes], target: tuple[bytes, bytes], number: int) -> bytes:
    """A frame of a ping: of kind 8 an echo request, of kind 0 the reply."""
    icmp = struct.pack(">BBHHH", kind, 0, 0, 0x4D53, number) + bytes(range(0x10, 0x48))
    icmp = icmp[:2] + checksum(icmp) + icmp[4:]
    ip = struct.pack(">BBHHHBBH", 0x45, 0, 20 + len(icmp), number, 0x4000, 64, 1, 0) + sender[1] + target[1]
    return target[0] + sender[0] + b"\x08\x00" + ip[:10] + checksum(ip) + ip[12:] + icmp


def mirrored(frame: bytes, number: int) -> bytes:
    """A frame as a switch mirrors it by ERSPAN of the second type, to 192.0.2.9."""
    gre, erspan = bytes.fromhex("100088be") + number.to_bytes(4, "big"), bytes.fromhex("1000000900000001")
    ip = (
        struct.pack(">BBHHHBBH", 0x45, 0, 36 + len(frame), number, 0x4000, 64, 47, 0)
        + IP_1[:3]
        + b"\x08"
        + IP_1[:3]
        + b"\x09"
    )
    return bytes.fromhex("020000000009" "020000000008" "0800") + ip[:10] + checksum(ip) + ip[12:] + gre + erspan + frame


def write(path: str, records: list[Record]) -> None:
    """Writes a pcap file, with times in microseconds."""
    capture.write_pcap(path, ((START * 10**9 + time * 1000, frame) for time, frame in records), 1000)


def read(path: str) -> list[Record]:
    """The records of a pcap file that the program wrote."""
    return [(it.time // 1000 - START * 10**6, it.frame) for it in capture.read(path)]


def config(sci: str, key: str, an: int, pn: str, suite: str = "gcm128", extended: str = "", form: str = "sci") -> str:
    """A configuration of a sender."""
    return f"end A {suite} {sci} 1546 {form}\nA key 0 {key} 0{extended}\nA txsa {an} 0 {pn} conf\nA txon {an}\n"


def protect(program: str, text: str, records: list[Record]) -> list[Record]:
    """What the program sends for some client frames. Each of them has to be protected."""
    with tempfile.TemporaryDirectory() as folder:
        sender, clients, link = (f"{folder}/{it}" for it in ("sender.config", "client.pcap", "link.pcap"))
        with open(sender, "w", encoding="ascii") as file:
            file.write(text)
        write(clients, records)
        ran = subprocess.run([program, "protect", sender, clients, link], capture_output=True, text=True, check=True)
        assert "refused" not in ran.stdout and "dropped" not in ran.stdout, ran.stdout
        return read(link)


def main() -> None:
    program, folder = os.path.abspath(sys.argv[1]), sys.argv[2]
    one, two = (ADDRESS_1, IP_1), (ADDRESS_2, IP_2)
    from_1 = [(0, arp(1, one, two)), (1_000, ping(8, one, two, 1)), (1_001_000, ping(8, one, two, 2))]
    from_2 = [(400, arp(2, two, one)), (1_300, ping(0, two, one, 1)), (1_001_300, ping(0, two, one, 2))]
    later = [(2_001_000 + 1_000_000 * it, ping(8, one, two, 3 + it)) for it in range(3)]

    def sent(records: list[Record], *words: str | int, **more: str) -> list[Record]:
        return protect(program, config(*words, **more), records)

    def put(name: str, records: list[Record]) -> None:
        write(f"{folder}/{name}", records)

    # What a client sends, and what its SecY sends for it from packet number 1 on.
    link = sent(from_1, SCI_1, KEYS[0], 0, "1")
    put("client.pcap", from_1)
    put("link.pcap", link)
    # Both directions, long after the start, as a mirror port shows them: one frame twice, and one of LLDP.
    late_1, late_2 = sent(from_1, SCI_1, KEYS[0], 0, "1f4"), sent(from_2, SCI_2, KEYS[0], 0, "2c")
    again = (late_1[1][0] + 50, late_1[1][1])
    put("observed.pcap", sorted([*late_1, *late_2, again, (500_000, LLDP)]))
    # Both directions without the SCI in the SecTAG.
    both = [sent(it, sci, KEYS[0], 0, "1", form="auto") for it, sci in ((from_1, SCI_1), (from_2, SCI_2))]
    put("no-sci.pcap", sorted(both[0] + both[1]))
    # Extended packet numbers that cross 3 * 2^32.
    extended = {"suite": "xpn128", "extended": f" 00000001 {SALT}"}
    put("xpn.pcap", sent(from_1 + later[:1], SCI_1, KEYS[0], 1, "2fffffffe", **extended))
    # Three SAKs: AN 0, AN 1, and AN 0 again.
    keyed = [sent(from_1[:2], SCI_1, KEYS[0], 0, "1"), sent(later[:1], SCI_1, KEYS[1], 1, "1")]
    put("rekey.pcap", [*keyed[0], *keyed[1], *sent(later[1:], SCI_1, KEYS[2], 0, "1")])
    # Two runs with one CONFIG, whose third client frames differ.
    changed = [*((5_000_000 + time, frame) for time, frame in from_1[:2]), (6_001_000, ping(8, one, two, 7))]
    put("two-runs.pcap", [*link, *sent(changed, SCI_1, KEYS[0], 0, "1")])
    # The frame check sequence left on; a VLAN tag before the SecTAG; mirrored by a switch.
    put("fcs.pcap", [(time, frame + bytes.fromhex("deadbeef")) for time, frame in link])
    put("erspan.pcap", [(time, mirrored(frame, number)) for number, (time, frame) in enumerate(link)])
    put("vlan.pcap", [(time, frame[:12] + bytes.fromhex("81000064") + frame[12:]) for time, frame in link])


if __name__ == "__main__":
    main()
