"""The rules of docs/CAPTURES.md for capture files: what a file contains in either format, and what is written."""

from __future__ import annotations

import struct

MAX_RECORD, MAX_BODY, MAX_INTERFACES = 262_144, 262_164, 256
ETHERNET = 1
# The types of the blocks that are not skipped, and their minimum lengths in octets; it is 12 for any other block.
SECTION, INTERFACE, OBSOLETE, SIMPLE, ENHANCED = 0x0A0D0D0A, 1, 2, 3, 6
LEAST = {SECTION: 28, INTERFACE: 20, OBSOLETE: 32, SIMPLE: 16, ENHANCED: 32}
# The numbers before the octets of a packet: its interface, the halves of its time, and its two lengths.
NUMBERS = {OBSOLETE: "HxxIIII", ENHANCED: "IIIII"}
ORDERS = {b"\x1a\x2b\x3c\x4d": ">", b"\x4d\x3c\x2b\x1a": "<"}


class PcapFault(Exception):
    """The fault of a capture file."""


def fail(applies, fault):
    if applies:
        raise fault


def read_capture(file):
    """Whether the unit is a nanosecond, and the records: seconds, fraction, and the frame.

    In place of the frame a partial record has None, and a packet that is not of Ethernet has its link type.
    """
    if file[:4] == struct.pack(">I", SECTION) and len(file) >= 24:
        return True, read_packets(file, *read_first_block(file))
    order, is_nano = read_header(file)
    return is_nano, read_records(file, order)


# The pcap format.


def read_header(file):
    """The byte order, and whether the unit is a nanosecond."""
    fail(len(file) < 24, PcapFault("CutHeader"))
    for order in "<>":
        magic, major, minor = struct.unpack_from(order + "IHH", file)
        if magic in (0xA1B2C3D4, 0xA1B23C4D):
            fail((major, minor) != (2, 4), PcapFault("Version"))
            fail(struct.unpack_from(order + "I", file, 20) != (ETHERNET,), PcapFault("LinkType"))
            return order, magic == 0xA1B23C4D
    raise PcapFault("Magic")


def read_records(file, order):
    place = 24
    while place < len(file):
        fail(len(file) - place < 16, PcapFault("CutRecord"))
        seconds, fraction, captured, original = struct.unpack_from(order + "IIII", file, place)
        place += 16
        fail(captured > MAX_RECORD, PcapFault("RecordLength"))
        fail(len(file) - place < captured, PcapFault("CutRecord"))
        yield seconds, fraction, file[place : place + captured] if captured >= original else None
        place += captured


def write_header(is_nano):
    return struct.pack("<IHHIIII", 0xA1B23C4D if is_nano else 0xA1B2C3D4, 2, 4, 0, 0, 65_535, 1)


def write_record(seconds, fraction, frame):
    return struct.pack("<IIII", seconds, fraction, len(frame), len(frame)) + frame


# The pcapng format.


def read_block(file, place, order):
    """The block at an offset: its byte order, its type, its body, and the offset after it."""
    fail(len(file) - place < 8, PcapFault("CutRecord"))
    (kind,) = struct.unpack_from(order + "I", file, place)
    if kind == SECTION:
        magic = file[place + 8 : place + 12]
        fail(len(magic) < 4, PcapFault("CutRecord"))
        fail(magic not in ORDERS, PcapFault("Magic"))
        order = ORDERS[magic]
    (length,) = struct.unpack_from(order + "I", file, place + 4)
    fail(length % 4 or length < LEAST.get(kind, 12), PcapFault("BlockLength"))
    end = place + length
    fail(len(file) < end, PcapFault("CutRecord"))
    fail(struct.unpack_from(order + "I", file, end - 4) != (length,), PcapFault("BlockLength"))
    return order, kind, file[place + 8 : end - 4], end


def test_version(order, body):
    fail(struct.unpack_from(order + "HH", body, 4) not in ((1, 0), (1, 2)), PcapFault("Version"))


def read_first_block(file):
    """The byte order of the first section, and the offset after its header."""
    try:
        order, _, body, place = read_block(file, 0, ">")
    except PcapFault as fault:
        raise PcapFault("CutHeader" if fault.args == ("CutRecord",) else fault.args[0]) from None
    test_version(order, body)
    return order, place


def read_packets(file, order, place):
    """The packets after the first section header, with times in nanoseconds."""
    interfaces, has_ethernet = [], False
    while place < len(file):
        order, kind, body, place = read_block(file, place, order)
        if kind == SECTION:
            test_version(order, body)
            interfaces = []
        elif kind == INTERFACE:
            interface = read_interface(order, body)
            fail(len(interfaces) == MAX_INTERFACES, PcapFault("InterfaceCount"))
            interfaces.append(interface)
            has_ethernet = has_ethernet or interface[0] == ETHERNET
        elif kind in NUMBERS:
            number, high, low, captured, original = struct.unpack_from(order + NUMBERS[kind], body)
            link, _, resolution, offset = interface_of(interfaces, number)
            if link == ETHERNET:
                yield packet(body, 20, captured, original, lambda: time_of(high << 32 | low, resolution, offset))
            else:
                yield other_packet(link, has_ethernet)
        elif kind == SIMPLE:
            link, snap, *_ = interface_of(interfaces, 0)
            (original,) = struct.unpack_from(order + "I", body)
            if link == ETHERNET:
                yield packet(body, 4, min(original, snap or original), original, lambda: (0, 0))
            else:
                yield other_packet(link, has_ethernet)


def read_interface(order, body):
    """The link type, the snap length, the resolution of the times, and their offset in seconds."""
    fail(len(body) > MAX_BODY, PcapFault("BlockLength"))
    link, snap = struct.unpack_from(order + "HxxI", body)
    resolution = offset = None
    place = 8
    while len(body) - place >= 4:
        code, size = struct.unpack_from(order + "HH", body, place)
        if code == 0:
            break
        value = body[place + 4 : place + 4 + size]
        place += 4 + (size + 3) // 4 * 4
        fail(len(body) < place or size != {9: 1, 14: 8}.get(code, size), PcapFault("BlockLength"))
        if code == 9 and resolution is None:
            resolution = value[0]
        elif code == 14 and offset is None:
            (offset,) = struct.unpack(order + "q", value)
    return link, snap, 6 if resolution is None else resolution, offset or 0


def interface_of(interfaces, number):
    fail(number >= len(interfaces), PcapFault("NoInterface"))
    return interfaces[number]


def other_packet(link, has_ethernet):
    """The record of a packet of another link type. Nothing else of the packet is read."""
    if not has_ethernet:
        raise PcapFault("LinkType")
    return 0, 0, link


def packet(body, start, captured, original, time):
    fail(captured > MAX_RECORD, PcapFault("RecordLength"))
    fail(len(body) < start + captured, PcapFault("BlockLength"))
    return *time(), body[start : start + captured] if captured >= original else None


def time_of(ticks, resolution, offset):
    """Seconds and nanoseconds, rounded down."""
    units = 2 ** (resolution - 128) if resolution > 127 else 10**resolution
    seconds, fraction = divmod(ticks * 10**9 // units, 10**9)
    fail(not 0 <= seconds + offset < 2**32, PcapFault("Time"))
    return seconds + offset, fraction
