"""Reads and writes capture files: pcap and pcapng, which can be compressed."""

from __future__ import annotations

import collections
import contextlib
import errno
import os
import secrets
import struct
from collections import Counter
from collections.abc import Iterable, Iterator
from typing import BinaryIO, NamedTuple, cast

from .compressed import compression_of, uncompressed
from .errors import CaptureError
from .frames import ETHERNET, may_be_protected, network_of, new_tuple

MOST_OCTETS = 262_144
# The limits of a pcapng file: the octets of a block that is read (others are skipped), the options of a block, the
# interfaces of a section, and how many blocks without a packet can follow each other.
MOST_BLOCK, MOST_OPTIONS, MOST_INTERFACES, MOST_WITHOUT_PACKET = 16 << 20, 1000, 4096, 1 << 16
_PIECE = 1 << 16
# The last time of pcap, in 2106.
_LAST = (10**9 << 32) - 1
# Where a process finds its open files.
_DESCRIPTORS = "/proc/self/fd"
# The blocks that have a packet: obsolete, simple and enhanced.
_PACKETS = (2, 3, 6)
_PCAPNG = b"\x0a\x0d\x0d\x0a"
_BY_EDITCAP = "if Wireshark opens it, make pcapng of it by editcap -F pcapng IN NEW, with -T ether if it refuses that"
_MAGIC = {0xA1B2C3D4: 1000, 0xA1B23C4D: 1}
# With what a file of pcap begins, in both orders, and the order and the unit of its times.
_STARTS = {struct.pack(order + "I", it): (order, unit) for order in "<>" for it, unit in _MAGIC.items()}
_VERSIONS = (b"\2\0\4\0", b"\0\2\0\4")
# The head of an enhanced packet block, and of a comment.
_HEAD, _COMMENT = struct.Struct("<7I"), struct.Struct("<HH")
# What comes after octets of which so many are more than a multiple of four, and after an option that is the last one.
_PADDING = (b"", bytes(3), bytes(2), bytes(1))
_ENDS = tuple(it + bytes(4) for it in _PADDING)


class Packet(NamedTuple):
    """A record, numbered from 0 as `macsec` numbers them. `time` is in nanoseconds since 1970, `fcs` the length of a
    frame check sequence that the file announces. `lack` says why a frame of a tunnel is not here (`tunnels`); a frame
    that is was `inside` one, and in so many IP fragments before this one."""

    number: int
    time: int
    frame: bytes
    length: int
    link_type: int = ETHERNET
    fcs: int = 0
    lack: str = ""
    inside: str = ""
    fragments: int = 0

    @property
    def is_whole(self) -> bool:
        """Was all of an Ethernet frame captured?"""
        return self.link_type == ETHERNET and len(self.frame) >= self.length and not self.lack

    @property
    def unseen(self) -> str:
        """Why an endpoint cannot judge it; nothing if one can."""
        if self.lack or self.link_type != ETHERNET:
            return self.lack or f"linktype {self.link_type}"
        return "partial" if len(self.frame) < self.length else ""

    @property
    def may_be_protected(self) -> bool:
        """Can it be a protected frame, as far as it was captured?"""
        if self.lack or self.link_type == ETHERNET:
            return bool(self.lack) or may_be_protected(self.frame)
        network = network_of(self.frame, self.link_type)
        return network is None or may_be_protected(bytes(12) + network[0].to_bytes(2, "big"))


def read(source: str | BinaryIO, counts: Counter[str] | None = None) -> Iterator[Packet]:
    """The records of a capture file, which is named or open. A fault raises CaptureError after the records before it.
    A time that pcap has not is the first or the last one, which is counted as `outside`.

    Of an open file no more is read than is needed for the next record, so that it can be a pipe.
    """
    if isinstance(source, str):
        with open(source, "rb") as named:
            yield from read(named, counts)
        return
    with uncompressed(source, source.read(4)) as (file, start):
        if start == _PCAPNG:
            yield from _read_pcapng(file, start, collections.Counter() if counts is None else counts)
        else:
            yield from _read_pcap(file, start)


def is_capture(start: bytes) -> bool:
    """Can a capture begin with these 4 octets?

    >>> is_capture(bytes.fromhex("d4c3b2a1")), is_capture(b"end ")
    (True, False)
    """
    return start in _STARTS or start == _PCAPNG or compression_of(start) is not None


def _exactly(file: BinaryIO, count: int, what: str) -> bytes:
    octets = file.read(count)
    if len(octets) != count:
        raise CaptureError(f"the file ends within {what}")
    return octets


def _skip(file: BinaryIO, count: int, what: str) -> None:
    while count:
        count -= len(_exactly(file, min(count, _PIECE), what))


def _other_file(start: bytes, file: BinaryIO) -> str:
    """What a file is that is no capture, and how to make one of it."""
    if not start:
        return "the file is empty"
    octets = start + file.read(512)
    if start == b"PK\3\4" or octets[257:262] == b"ustar":
        return "this is an archive: take the capture out of it (unzip, tar -xf)"
    if octets.isascii() and b"\0" not in octets:
        return f"this is text: give the capture itself, as tcpdump -w writes it; {_BY_EDITCAP}"
    return f"this is neither pcap nor pcapng: {_BY_EDITCAP}"


def _header(octets: bytes) -> tuple[struct.Struct, int, int, int]:
    """What the header of a pcap file says: the head of a record, the unit of times, an FCS's length, the link type."""
    order, unit = _STARTS[octets[:4]]
    kind = struct.unpack(order + "I", octets[20:])[0]
    # The upper half of the link type can announce a frame check sequence.
    return struct.Struct(order + "IIII"), unit, 4 if kind & 0x0400_0000 and kind >> 28 else 0, kind & 0xFFFF


def _read_pcap(file: BinaryIO, start: bytes) -> Iterator[Packet]:
    if start not in _STARTS:
        raise CaptureError(_other_file(start, file))
    head, unit, fcs, link_type = _header(start + _exactly(file, 20, "its header"))
    number, read = 0, file.read
    while True:
        octets = read(16)
        if len(octets) < 16:
            if not octets:
                return
            raise CaptureError(f"the file ends within record {number}")
        seconds, fraction, captured, length = head.unpack(octets)
        if not captured and octets[:4] in _STARTS and octets[4:8] in _VERSIONS:
            # The header of another file, which was put after this one.
            head, unit, fcs, link_type = _header(octets + _exactly(file, 8, "a header"))
            continue
        if captured > MOST_OCTETS:
            raise CaptureError(f"record {number} has {captured} octets: damaged, or {_BY_EDITCAP}")
        frame = read(captured)
        if len(frame) < captured:
            raise CaptureError(f"the file ends within record {number}")
        time = seconds * 10**9 + fraction * unit
        yield new_tuple(Packet, (number, time, frame, length, link_type, fcs, "", "", 0))
        number += 1


class _Interface(NamedTuple):
    link_type: int
    snap: int
    units: int  # in a second
    offset: int  # seconds
    fcs: int


def _options(octets: bytes, at: int, order: str) -> dict[int, bytes]:
    """The options of a block from an offset on: of a repeated one, the first."""
    found: dict[int, bytes] = {}
    for _ in range(MOST_OPTIONS):
        if at + 4 > len(octets):
            break
        code, size = struct.unpack_from(order + "HH", octets, at)
        if code == 0:
            break
        found.setdefault(code, octets[at + 4 : at + 4 + size])
        at += 4 + (size + 3) // 4 * 4
    else:
        raise CaptureError(f"a block has more than {MOST_OPTIONS} options")
    return found


def _interface(body: bytes, order: str) -> _Interface:
    link_type, _, snap = struct.unpack_from(order + "HHI", body)
    options = _options(body, 8, order)
    resolution = (options.get(9) or b"\x06")[0]
    units = 2 ** (resolution & 0x7F) if resolution & 0x80 else 10**resolution
    offset = struct.unpack(order + "q", options[14])[0] if len(options.get(14, b"")) == 8 else 0
    return _Interface(link_type, snap, units, offset, (options.get(13) or b"\0")[0])


def _read_pcapng(file: BinaryIO, start: bytes, counts: Counter[str]) -> Iterator[Packet]:
    order, interfaces, number, without = "<", cast(list[_Interface], []), 0, 0
    while start:
        if len(start) < 4:
            raise CaptureError("the file ends within a block")
        size_octets, body = _exactly(file, 4, "a block"), b""
        if start == _PCAPNG:
            body = _exactly(file, 4, "a block")
            order = "<" if body == b"\x4d\x3c\x2b\x1a" else ">"
            if body not in (b"\x4d\x3c\x2b\x1a", b"\x1a\x2b\x3c\x4d"):
                raise CaptureError("a section's byte-order magic is wrong")
            interfaces = []
        kind, size = struct.unpack(order + "II", start + size_octets)
        body = _block(file, kind, size, body)
        without += 1
        try:
            if kind == 1:
                interfaces.append(_interface(body, order))
            elif kind in _PACKETS:
                packet = _packet(number, kind, body, order, interfaces)
                if not 0 <= packet.time <= _LAST:
                    counts["outside"] += 1
                    packet = packet._replace(time=min(max(packet.time, 0), _LAST))
                yield packet
                number, without = number + 1, 0
        except (struct.error, IndexError):
            raise CaptureError(f"record {number}: its block is at fault") from None
        if len(interfaces) > MOST_INTERFACES:
            raise CaptureError(f"the file has more than {MOST_INTERFACES} interfaces")
        if without > MOST_WITHOUT_PACKET:
            raise CaptureError(f"the file has more than {MOST_WITHOUT_PACKET} blocks without a packet in a row")
        start = file.read(4)


def _block(file: BinaryIO, kind: int, size: int, start: bytes) -> bytes:
    """The body of a block, whose first octets may be read already; nothing of one that is skipped."""
    rest = size - 12 - len(start)
    if rest < 0 or size % 4:
        raise CaptureError(f"a block has the length {size}")
    if kind != 1 and kind not in _PACKETS:
        _skip(file, rest + 4, "a block")
        return b""
    if size > MOST_BLOCK:
        raise CaptureError(f"a block has {size} octets, at most {MOST_BLOCK} expected")
    body = _exactly(file, rest, "a block")
    _skip(file, 4, "a block")
    return body


def _packet(number: int, kind: int, body: bytes, order: str, interfaces: list[_Interface]) -> Packet:
    """The packet of an enhanced, a simple or an obsolete packet block."""
    time = 0
    if kind == 3:
        of, at, length = interfaces[0], 4, struct.unpack_from(order + "I", body)[0]
        captured, options = min(length, of.snap or length), len(body)
    else:
        which, high, low, captured, length = struct.unpack_from(order + ("IIIII" if kind == 6 else "HxxIIII"), body)
        of, at = interfaces[which], 20
        time = (high << 32 | low) * 10**9 // of.units + of.offset * 10**9
        options = at + (captured + 3) // 4 * 4
    if captured > MOST_OCTETS or at + captured > len(body):
        raise CaptureError(f"record {number} has more octets than its block")
    flags = _options(body, options, order).get(2, b"")
    fcs = struct.unpack(order + "I", flags)[0] >> 5 & 15 if len(flags) == 4 else 0
    return Packet(number, time, body[at : at + captured], length, of.link_type, fcs or of.fcs)


def pcap_header(unit: int = 1) -> bytes:
    """The header of a pcap file whose times are in units of 1 or 1000 nanoseconds."""
    magic = next(it for it, nanoseconds in _MAGIC.items() if nanoseconds == unit)
    return struct.pack("<IHHiIII", magic, 2, 4, 0, 0, 65535, ETHERNET)


def pcap_record(time: int, frame: bytes, unit: int = 1) -> bytes:
    """A frame with its time in nanoseconds, as a record of such a file."""
    seconds, rest = divmod(time, 10**9)
    return struct.pack("<IIII", seconds, rest // unit, len(frame), len(frame)) + frame


def write_pcap(path: str, packets: Iterable[tuple[int, bytes]], unit: int = 1) -> None:
    """Writes frames with their times in nanoseconds as a pcap file."""
    with open(path, "wb") as file:
        file.write(pcap_header(unit))
        for time, frame in packets:
            file.write(pcap_record(time, frame, unit))


class PcapngWriter:
    """Writes frames as pcapng to a file that is open."""

    def __init__(self, file: BinaryIO) -> None:
        self._file, self._write = file, file.write
        self._interfaces: dict[int, int] = {}
        self._put(0x0A0D0D0A, struct.pack("<IHHq", 0x1A2B3C4D, 1, 0, -1))

    def _put(self, kind: int, body: bytes) -> None:
        body += bytes(-len(body) % 4)
        size = struct.pack("<I", 12 + len(body))
        self._write(struct.pack("<I", kind) + size + body + size)

    def write(self, time: int, frame: bytes, length: int, comment: str = "", link_type: int = ETHERNET) -> None:
        """Adds a frame with its time in nanoseconds, its original length and a comment."""
        if link_type not in self._interfaces:
            self._interfaces[link_type] = len(self._interfaces)
            # if_tsresol: nanoseconds.
            self._put(1, struct.pack("<HHIHHBxxxI", link_type, 0, 0, 9, 1, 9, 0))
        octets, captured = comment.encode(), len(frame)
        count = len(octets)
        padding = _PADDING[captured & 3]
        options = b"".join((_COMMENT.pack(1, count), octets, _ENDS[count & 3])) if comment else b""
        size = 32 + captured + len(padding) + len(options)
        head = _HEAD.pack(6, size, self._interfaces[link_type], time >> 32, time & 0xFFFF_FFFF, captured, length)
        self._write(b"".join((head, frame, padding, options, head[4:8])))

    def close(self) -> None:
        """Writes what is buffered. The file stays open."""
        self._file.flush()

    def discard(self) -> None:
        """What was written stays."""


class PcapngStream(PcapngWriter):
    """The same, to a pipe: the reader has each frame at once."""

    def __init__(self, file: BinaryIO) -> None:
        super().__init__(file)
        # The reader learns the link type before the first frame comes.
        self._interfaces[ETHERNET] = 0
        self._put(1, struct.pack("<HHIHHBxxxI", ETHERNET, 0, 0, 9, 1, 9, 0))
        self._file.flush()

    def write(self, time: int, frame: bytes, length: int, comment: str = "", link_type: int = ETHERNET) -> None:
        super().write(time, frame, length, comment, link_type)
        self._file.flush()


class NewFile:
    """A new file, which appears under its name only when `close` is called.

    Until then it has no name, so that nothing is left of it, however the process ends. Where the system has no such
    files, it has another name in the same folder, which `discard` removes. It can be read by its owner alone, since
    what it holds was protected. One that `replaces` takes the place of another file then, also if the power fails.
    """

    def __init__(self, path: str, replaces: bool = False) -> None:
        self._path, self._is_there, self._replaces = path, True, replaces
        if not replaces and os.path.lexists(path):
            raise FileExistsError(f"{path} exists: name a new file")
        folder = os.path.dirname(os.path.abspath(path))
        self._temporary: str | None = None
        self._name = os.path.join(folder, f".macsec-{secrets.token_hex(8)}")
        try:
            handle = _nameless_file(folder)
            if handle is None:
                self._temporary = self._name
                handle = os.open(self._temporary, os.O_CREAT | os.O_EXCL | os.O_WRONLY | os.O_CLOEXEC, 0o600)
            self._file = os.fdopen(handle, "wb", _PIECE)
        except BaseException as why:
            self._remove()
            if isinstance(why, OSError):
                # The name that was asked for, not the temporary file's.
                raise OSError(why.errno, why.strerror, path) from None
            raise

    def write(self, octets: bytes) -> None:
        """Adds octets."""
        try:
            self._file.write(octets)
        except OSError as why:
            raise OSError(why.errno, why.strerror, self._path) from None

    def close(self) -> None:
        """Gives the file its name. A file of that name, made meanwhile, raises FileExistsError."""
        if not self._is_there:
            return
        try:
            self._give_name()
        except FileExistsError:
            raise FileExistsError(f"{self._path} exists: name a new file") from None
        except OSError as why:
            raise OSError(why.errno, why.strerror, self._path) from None
        finally:
            self.discard()

    def _give_name(self) -> None:
        self._file.flush()
        if self._replaces:
            os.fsync(self._file.fileno())
        if self._temporary is None:
            # Python follows the link only if a descriptor is named too, which an absolute path does not need.
            handle, name = self._file.fileno(), self._name if self._replaces else self._path
            os.link(f"{_DESCRIPTORS}/{handle}", name, src_dir_fd=handle, follow_symlinks=True)
            if not self._replaces:
                return
            self._temporary = name
        self._file.close()
        if self._replaces:
            os.replace(self._temporary, self._path)
            return
        try:
            os.link(self._temporary, self._path)
        except FileExistsError:
            raise
        except OSError:  # a file system without links
            os.rename(self._temporary, self._path)

    def discard(self) -> None:
        """Removes what was written, unless the file has its name."""
        if not self._is_there:
            return
        self._is_there = False
        with contextlib.suppress(OSError):
            self._file.close()
        self._remove()

    def _remove(self) -> None:
        """Removes the name that the file has until it is complete."""
        if self._temporary is not None:
            with contextlib.suppress(FileNotFoundError):
                os.unlink(self._temporary)


class PcapngFile(PcapngWriter):
    """A new pcapng file."""

    def __init__(self, path: str) -> None:
        self._new = NewFile(path)
        try:
            super().__init__(cast(BinaryIO, self._new))
        except BaseException:
            self._new.discard()
            raise

    def close(self) -> None:
        """Gives the file its name. A file of that name, made meanwhile, raises FileExistsError."""
        self._new.close()

    def discard(self) -> None:
        """Removes what was written, unless the file has its name."""
        self._new.discard()


def _nameless_file(folder: str) -> int | None:
    """A new file in a folder, without a name and for its owner alone; None if the system has no such files there."""
    if not hasattr(os, "O_TMPFILE") or not os.path.isdir(_DESCRIPTORS):
        return None
    try:
        return os.open(folder, os.O_TMPFILE | os.O_WRONLY | os.O_CLOEXEC, 0o600)
    except OSError as why:
        if why.errno in (errno.EOPNOTSUPP, errno.EISDIR, errno.EINVAL):
            return None
        raise
