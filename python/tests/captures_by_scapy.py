"""Makes captures of many kinds by Scapy: its MACsec, its headers and its files share no code with this project.

usage: captures_by_scapy.py FOLDER

FOLDER gets the captures, and `index.json` has a row for each: its kind and file, the value of --key, the clients'
frames, what a command has to say of it, and the file that is captured as that says. The status is 77 without Scapy.
"""

from __future__ import annotations

import bz2
import gzip
import json
import logging
import lzma
import pathlib
import shutil
import struct
import subprocess
import sys
import zlib
from typing import Any, Callable, NamedTuple

logging.getLogger("scapy").setLevel(logging.ERROR)
try:
    from scapy.all import GRE, IP, UDP, CookedLinux, Dot1AD, Dot1Q, Ether, IPv6, Raw, fragment, fragment6, raw
    from scapy.contrib.erspan import ERSPAN_II, ERSPAN_III, ERSPAN_PlatformSpecific
    from scapy.contrib.etherip import EtherIP
    from scapy.contrib.geneve import GENEVE
    from scapy.contrib.macsec import MACsecSA
    from scapy.contrib.mpls import MPLS
    from scapy.contrib.tzsp import TZSP, TZSPTagEnd
    from scapy.layers.inet6 import IPv6ExtHdrDestOpt, IPv6ExtHdrFragment, IPv6ExtHdrHopByHop
    from scapy.layers.l2 import CookedLinuxV2
    from scapy.layers.vxlan import VXLAN
    from scapy.utils import PcapWriter
except ImportError:
    sys.exit(77)

OUTER = {"src": "02:00:00:00:aa:01", "dst": "02:00:00:00:aa:02"}
V4, V6 = {"src": "192.0.2.1", "dst": "192.0.2.2"}, {"src": "2001:db8::1", "dst": "2001:db8::2"}
SCI, SALT = bytes.fromhex("0200000000010001"), bytes.fromhex("12153525c0895e8000000000")
SHORT, LONG = bytes(range(16)), bytes(range(100, 132))
ETHERNET, SLL, SLL2, RAW_IP, NULL, PPP, PPI, ERF, EDSA = 1, 113, 276, 101, 0, 9, 192, 197, 285


class Link(NamedTuple):
    """A sender of protected frames, and the value of --key that opens them."""

    key: str
    sa: dict[str, Any]

    def frames(self, clients: list[bytes]) -> list[bytes]:
        """What it sends."""
        made = []
        for number, client in enumerate(clients):
            sa = MACsecSA(**{**self.sa, "pn": self.sa["pn"] + number})
            packet = sa.encap(Ether(client))
            end = 12 + 8 + 8 * self.sa["send_sci"]
            made.append(raw(sa.encrypt(packet, end if self.sa["encrypt"] else len(packet))))
        return made


def sa_of(key: bytes, **more: object) -> dict[str, Any]:
    return {"sci": SCI, "an": 0, "pn": 1, "key": key, "icvlen": 16, "encrypt": 1, "send_sci": 1, **more}


EXTENDED = {"xpn_en": True, "ssci": 5, "salt": SALT, "pn": (3 << 32) + 7}
LINKS = (
    Link(SHORT.hex(), sa_of(SHORT)), Link(LONG.hex(), sa_of(LONG, an=3)),
    Link(f"{SHORT.hex()}:{SALT.hex()}:00000005", sa_of(SHORT, **EXTENDED)),
    Link(SHORT.hex(), sa_of(SHORT, encrypt=0, send_sci=0)),
)  # fmt: skip


def client(number: int, length: int = 0) -> bytes:
    """A client's frame. Each is another one."""
    data = bytes([number]) * (length or (20, 200, 1400)[number])
    return raw(Ether(src="02:00:00:00:00:01", dst="02:00:00:00:00:0f") / IP(**V4) / UDP(sport=7, dport=9) / Raw(data))


def erspan(frame: bytes, number: int, **more: int) -> Any:
    """GRE and ERSPAN of the second type."""
    head = GRE(proto=0x88BE, seqnum_present=1, sequence_number=number)
    return head / ERSPAN_II(ver=1, session_id=9, **more) / Raw(frame)


def erspan3(frame: bytes, number: int, o: int = 0) -> Any:
    head = GRE(proto=0x22EB, seqnum_present=1, sequence_number=number)
    more = ERSPAN_PlatformSpecific(platf_id=3) / Raw(frame) if o else Raw(frame)
    return head / ERSPAN_III(session_id=9, timestamp=number, gra=2, o=o) / more


def v4(packet: Any, **more: object) -> Any:
    return Ether(**OUTER) / IP(**V4, **more) / packet


def v6(packet: Any) -> Any:
    return Ether(**OUTER) / IPv6(**V6) / packet


def udp(port: int, packet: Any) -> Any:
    return UDP(sport=49152, dport=port) / packet


def vxlan(frame: bytes, number: int = 0, port: int = 4789) -> Any:
    return udp(port, VXLAN(flags=8, vni=number + 7) / Raw(frame))


def gre(frame: bytes, **more: object) -> Any:
    return GRE(proto=0x6558, **more) / Raw(frame)


def tagged(frame: bytes) -> bytes:
    """A frame with the tag of a port and VLAN tags before its EtherType."""
    return frame[:12] + bytes.fromhex("893f00000000000088a8000581000006") + frame[12:]


def with_fcs(frame: bytes) -> bytes:
    return frame + zlib.crc32(frame).to_bytes(4, "little")


def behind(head: str, packet: Any, **outer: object) -> Any:
    """A packet, or a frame, after a header in hex, in a frame or in IPv4."""
    data = Raw(bytes.fromhex(head) + raw(packet))
    return Ether(**OUTER, **outer) / data if "type" in outer else IP(**V4, **outer) / data


def in_parts(packet: Any, order: int = 1) -> list[Any]:
    """IP fragments of at most 600 octets."""
    if IPv6 in packet:
        ip = packet[IPv6]
        parts = fragment6(IPv6(**V6) / IPv6ExtHdrFragment(id=len(packet)) / ip.payload, 640)
    else:
        parts = fragment(packet[IP], 600)
    return [Ether(**OUTER) / it for it in parts][::order]


def cooked(protocol: int, data: bytes, kind: Any = CookedLinux) -> Any:
    return kind(lladdrtype=1, lladdrlen=6, src=SCI[:6] + b"\0\0", proto=protocol) / Raw(data)


def ip(packet: Any) -> bytes:
    """The IP packet of a frame."""
    return raw(packet[IPv6] if IPv6 in packet else packet[IP])


# Kinds that open: what carries the frame number N, and the link type. The octets of several packets are a list.
Wrap = Callable[[bytes, int], Any]
KINDS: dict[str, tuple[Wrap, int]] = {
    "ERSPAN I": (lambda f, n: v4(GRE(proto=0x88BE) / Raw(f)), ETHERNET),
    "ERSPAN II": (lambda f, n: v4(erspan(f, n)), ETHERNET),
    "ERSPAN III": (lambda f, n: v4(erspan3(f, n)), ETHERNET),
    "ERSPAN III with a subheader": (lambda f, n: v4(erspan3(f, n, 1)), ETHERNET),
    "ERSPAN over IPv6 with options": (
        lambda f, n: v6(IPv6ExtHdrHopByHop() / IPv6ExtHdrDestOpt() / erspan(f, n)), ETHERNET),
    "ERSPAN after tags, with IP options": (
        lambda f, n: Ether(**OUTER) / Dot1AD(vlan=5) / Dot1Q(vlan=6) / IP(**V4, options=[b"\x94\4\0\0"]) / erspan(f, n),
        ETHERNET),
    "GRE with a checksum and a key": (lambda f, n: v4(gre(f, chksum_present=1, key_present=1, key=4)), ETHERNET),
    "GRE over IPv6, with a sequence number": (lambda f, n: v6(gre(f, seqnum_present=1)), ETHERNET),
    "VXLAN": (lambda f, n: v4(vxlan(f, n)), ETHERNET),
    "VXLAN over IPv6": (lambda f, n: v6(vxlan(f, n)), ETHERNET),
    "VXLAN of Linux": (lambda f, n: v4(vxlan(f, n, 8472)), ETHERNET),
    "VXLAN at another port": (lambda f, n: v4(vxlan(f, n, 10053)), ETHERNET),
    "VXLAN-GPE": (lambda f, n: v4(udp(4790, VXLAN(flags=12, NextProtocol=3, vni=1) / Raw(f))), ETHERNET),
    "Geneve with an option": (
        lambda f, n: v4(udp(6081, GENEVE(optionlen=2, proto=0x6558, vni=1, options=Raw(b"\1\2\x80\1abcd")) / Raw(f))),
        ETHERNET),
    "ERSPAN in VXLAN in GRE": (
        lambda f, n: v4(gre(raw(v6(vxlan(raw(v4(erspan(f, n))), n))))), ETHERNET),
    "VXLAN in ERSPAN, IP in IP": (
        lambda f, n: v4(IP(**V4) / erspan(raw(Ether(**OUTER) / Dot1Q(vlan=3) / IP(**V4) / vxlan(f, n)), n)), ETHERNET),
    "VXLAN in ERSPAN I": (lambda f, n: v4(GRE(proto=0x88BE) / Raw(raw(v4(vxlan(f, n))))), ETHERNET),
    "EtherIP and MPLS": (
        lambda f, n: v4(EtherIP() / Raw(f)) if n % 2 else
        Ether(**OUTER) / MPLS(label=7, s=0) / MPLS(label=8, s=1) / IP(**V4) / erspan(f, n), ETHERNET),
    "TZSP": (lambda f, n: v4(udp(37008, TZSP(encapsulated_protocol=1) / TZSPTagEnd() / Raw(f))), ETHERNET),
    "ERSPAN in fragments": (lambda f, n: in_parts(v4(erspan(f, n), id=n)), ETHERNET),
    "VXLAN in fragments of IPv6": (lambda f, n: in_parts(v6(vxlan(f, n))), ETHERNET),
    "VXLAN in fragments, the last one first": (lambda f, n: in_parts(v4(vxlan(f, n), id=n), -1), ETHERNET),
    "ERSPAN on the device any": (
        lambda f, n: cooked(0x800, ip(v4(erspan(f, n)))), SLL),
    "ERSPAN on any, newer": (lambda f, n: cooked(0x86DD, ip(v6(erspan(f, n))), CookedLinuxV2), SLL2),
    "GRE on a tunnel's device": (lambda f, n: ip(v6(gre(f)) if n % 2 else v4(gre(f))), RAW_IP),
    "VXLAN on a loopback": (lambda f, n: struct.pack("=I", 2) + ip(v4(vxlan(f, n))), NULL),
    "ERSPAN, with an FCS inside and outside": (
        lambda f, n: raw(v4(erspan(with_fcs(f), n))) + b"\1\2\3\4", ETHERNET),
    "MAC-in-MAC": (lambda f, n: behind("00000007", f, type=0x88E7), ETHERNET),
    "NSH": (lambda f, n: behind("0fc2020300000aff", f, type=0x894F), ETHERNET),
    "ERSPAN in PPP over Ethernet": (
        lambda f, n: behind("1100000105800021", ip(v4(erspan(f, n))), type=0x8864), ETHERNET),
    "GTP-U with a frame": (
        lambda f, n: v4(udp(2152, Raw(bytes.fromhex("34ff0000000012340000008501000900") + f))), ETHERNET),
    "VXLAN in GTP-U": (
        lambda f, n: v4(udp(2152, Raw(bytes.fromhex("30ff000000001234") + ip(v4(vxlan(f)))))), ETHERNET),
    "L2TPv3 with cookies": (
        lambda f, n: Ether(**OUTER) / behind("00001111" + "ca" * 4 * n, f, proto=115), ETHERNET),
    "L2TPv3 over UDP": (lambda f, n: v4(udp(1701, Raw(b"\0\3\0\0\0\0\0\1" + bytes(4 * n) + f))), ETHERNET),
    "MPLS over UDP": (lambda f, n: v4(udp(6635, MPLS(label=7, s=1) / Raw(bytes(4) + f))), ETHERNET),
    "ERM of HP and Aruba": (
        lambda f, n: v4(udp((7932, 5555)[n % 2], Raw(bytes((12, 16)[n % 2]) + f))), ETHERNET),
    "ERSPAN on any, after a VLAN tag": (
        lambda f, n: cooked(0x8100, b"\0\7\x08\0" + ip(v4(erspan(f, n)))), SLL),
    "ERSPAN over PPP": (lambda f, n: b"\xff\3\0\x21" + ip(v4(erspan(f, n))), PPP),
    "PPI": (lambda f, n: bytes.fromhex("0000080001000000") + f, PPI),
    "ERF": (lambda f, n: bytes(8) + b"\x82" + bytes(17) + with_fcs(f) + bytes(6), ERF),
    "EDSA": (lambda f, n: f[:12] + bytes(8) + f[12:], EDSA),
    "with what a tap adds": (lambda f, n: with_fcs(f) + bytes(12), ETHERNET),
    "with VLAN tags": (lambda f, n: v4(erspan(tagged(f), n)), ETHERNET),
    "as it is": (lambda f, n: f, ETHERNET),
}  # fmt: skip


def written(path: pathlib.Path, packets: list[bytes], link_type: int, snap: int = 0, nano: bool = False) -> str:
    """A capture by Scapy, each record cut to `snap` octets if that is not 0."""
    writer = PcapWriter(str(path), linktype=link_type, nano=nano)
    writer.write_header(None)
    for number, it in enumerate(packets):
        captured = it[:snap] if snap else it
        writer.write_packet(captured, sec=1_700_000_000 + number, usec=0, caplen=len(captured), wirelen=len(it))
    writer.close()
    return path.name


def compressed(path: pathlib.Path) -> dict[str, str]:
    """The same capture, compressed in each way for which there is a program."""
    octets, found = path.read_bytes(), {}
    for name, made in (
        ("gzip", gzip.compress), ("bzip2", bz2.compress), ("xz", lzma.compress),
        ("several parts of xz", lambda it: lzma.compress(it[:99]) + lzma.compress(it[99:])),
        ("lzma", lambda it: lzma.compress(it, lzma.FORMAT_ALONE)),
    ):  # fmt: skip
        (path.parent / name).write_bytes(made(octets))
        found[name] = name
    for name in ("zstd", "lz4"):
        if shutil.which(name):
            with open(path, "rb") as source, open(path.parent / name, "wb") as to:
                subprocess.run([name, "-qc"], stdin=source, stdout=to, check=True)
            found[name] = name
    return found


def packets_of(made: list[Any]) -> list[bytes]:
    """The octets of packets, of which each can be several."""
    return [raw(it) for each in made for it in (each if isinstance(each, list) else [each])]


class Maker:
    """Writes the captures and their rows."""

    def __init__(self, folder: pathlib.Path) -> None:
        self._folder = folder
        self.rows: list[dict[str, object]] = []

    def add(self, kind: str, key: str, clients: list[bytes], file: str, says: str = "", then: str = "") -> None:
        """Adds a row."""
        self.rows.append(
            {"kind": kind, "key": key, "clients": [it.hex() for it in clients], "file": file, "says": says,
             "then": then}
        )  # fmt: skip

    def path(self) -> pathlib.Path:
        """A new name."""
        return self._folder / f"{len(self.rows)}-{len(list(self._folder.iterdir()))}.pcap"

    def that_open(self) -> None:
        """Each kind over each link."""
        for place, (kind, (wrap, link_type)) in enumerate(KINDS.items()):
            for number, link in enumerate(LINKS):
                clients = [client(it) for it in range(3)]
                made = packets_of([wrap(it, n) for n, it in enumerate(link.frames(clients))])
                if kind == "with VLAN tags":
                    clients = [tagged(it) for it in clients]
                file = written(self.path(), made, link_type, nano=bool((place + number) % 2))
                self.add(kind, link.key, clients, file)

    def compressed(self) -> None:
        link, clients = LINKS[0], [client(it) for it in range(3)]
        written(self._folder / "whole", link.frames(clients), ETHERNET)
        for kind, file in compressed(self._folder / "whole").items():
            self.add(f"compressed: {kind}", link.key, clients, file)

    def that_say(self) -> None:
        """Captures that do not open, and what is captured in their place."""
        for link in LINKS:
            clients = [client(it) for it in range(3)]
            frames = link.frames(clients)
            mirrored = packets_of([v4(erspan(it, n)) for n, it in enumerate(frames)])
            whole, in_erspan = written(self.path(), frames, ETHERNET), written(self.path(), mirrored, ETHERNET)
            parts = packets_of([in_parts(v4(vxlan(frames[2], 2), id=2))])
            longer = [client(2, 9216 - 28)]
            shorter = [client(2, 9202 - 28)]
            for kind, packets, link_type, snap, says, then in (
                ("cut", frames, ETHERNET, 68, "cut to 68 octets at most: capture whole frames (-s 0", whole),
                ("ERSPAN, cut", mirrored, ETHERNET, 96, "cut to 46 octets at most: capture whole frames", in_erspan),
                ("ERSPAN, cut in its headers", mirrored, ETHERNET, 40, "capture whole frames (-s 0", in_erspan),
                ("ERSPAN, cut by the switch", packets_of([v4(erspan(it[:60], 0, t=1)) for it in frames]), ETHERNET, 0,
                 "let its ERSPAN session send whole frames, over a path whose MTU", in_erspan),
                ("device any", packets_of([cooked(0x88E5, it[14:]) for it in frames]), SLL, 0,
                 "LINUX_SLL: a cooked frame of the device any, without the destination address", whole),
                ("device any, newer", packets_of([cooked(0x88E5, it[14:], CookedLinuxV2) for it in frames]), SLL2, 0,
                 "LINUX_SLL2: a cooked frame of the device any, without the destination address", whole),
                ("a fragment that is missing", parts[:-1], ETHERNET, 0, "others of their packets are missing", whole),
            ):  # fmt: skip
                file = written(self.path(), packets, link_type, snap)
                self.add(kind, link.key, clients, file, says, then)
            file = written(self.path(), link.frames(longer), ETHERNET)
            then = written(self.path(), link.frames(shorter), ETHERNET)
            self.add("too long", link.key, shorter, file, "give the link an MTU of 9,202 or less", then)

    def mixed(self) -> None:
        """pcapng with interfaces of several link types, of which mergecap of Wireshark makes one of several files."""
        for link in LINKS if shutil.which("mergecap") else ():
            clients, path = [client(it) for it in range(3)], self.path()
            one, two, three = link.frames(clients)
            parts = [(one, ETHERNET), (raw(cooked(0x800, ip(v4(erspan(two, 1))))), SLL), (ip(v6(vxlan(three))), RAW_IP)]
            names = [path.with_name(f"{path.name}.{number}") for number in range(3)]
            for name, (packet, link_type) in zip(names, parts):
                written(name, [packet], link_type)
            subprocess.run(["mergecap", "-a", "-w", str(path), *map(str, names)], check=True)
            self.add("pcapng of several link types", link.key, clients, path.name)


def main() -> None:
    folder = pathlib.Path(sys.argv[1])
    made = Maker(folder)
    made.that_open()
    made.compressed()
    made.that_say()
    made.mixed()
    (folder / "index.json").write_text(json.dumps(made.rows))


if __name__ == "__main__":
    main()
