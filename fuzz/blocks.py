"""Makes pcapng files from frames: in every form that docs/CAPTURES.md names, and with faults.

A file has one or more sections. Each section has its own byte order and its own interfaces. Between the packet blocks
are blocks that the program skips.
"""

from __future__ import annotations

import struct

SECTION, INTERFACE, OBSOLETE, SIMPLE, ENHANCED = 0x0A0D0D0A, 1, 2, 3, 6
# Names, statistics, secrets and custom blocks; and types that are not assigned.
OTHERS = (4, 5, 10, 0x0BAD, 0x40000BAD, 0, 7, 0xFFFFFFFF)
# Values of if_tsresol: powers of ten and of two, some of them with units finer than a nanosecond.
RESOLUTIONS = (0, 3, 6, 6, 9, 9, 10, 12, 19, 20, 127, 0x80, 0x80 | 10, 0x80 | 20, 0x80 | 30, 0x80 | 63, 0x80 | 64, 0xFF)
OFFSETS = (0, 1, -1, 1_700_000_000, -(2**31), 2**32 - 1, 2**63 - 1, -(2**63))


def padded(octets):
    return octets + bytes(-len(octets) % 4)


def units_of(resolution):
    return 2 ** (resolution - 128) if resolution > 127 else 10**resolution


def option(order, code, value):
    return struct.pack(order + "HH", code, len(value)) + padded(value)


class Blocks:
    def __init__(self, rng, is_sound):
        self.rng, self.is_sound, self.octets = rng, is_sound, b""
        self.begin_section()

    def odd(self, odds, choices, usual):
        """The usual value; in a file that may have faults, once in `odds` times one of the choices."""
        return usual if self.is_sound or self.rng.randrange(odds) else self.rng.choice(choices)

    def add(self, kind, body):
        """Appends a block, rarely with an invalid length."""
        body, length = padded(body), len(padded(body)) + 12
        first = self.odd(80, (length - 4, length + 4, length + 1, 0, 8, 2**32 - 4), length)
        last = self.odd(80, (length - 4, length + 4, 0, 2**32 - 4), first)
        self.octets += struct.pack(self.order + "II", kind, first) + body + struct.pack(self.order + "I", last)

    def begin_section(self):
        """Appends a section header; some sections give their length."""
        rng = self.rng
        self.order, self.interfaces = rng.choice("<<>"), []
        magic = self.odd(40, (0x1A2B3C4E, 0, 0xA1B2C3D4), 0x1A2B3C4D)
        version = self.odd(20, ((2, 0), (1, 1), (0, 0), (1, 256)), rng.choice(((1, 0), (1, 0), (1, 2))))
        length = rng.choice((2**64 - 1, 2**64 - 1, 0, rng.randrange(2**64)))
        options = rng.choice((b"", option(self.order, 4, b"a maker") + option(self.order, 0, b"")))
        self.add(SECTION, struct.pack(self.order + "IHHQ", magic, *version, length) + options)
        for _ in range(rng.choice((1, 1, 2, 3))):
            self.describe()

    def describe(self):
        """Appends an interface, with options in any order. The program skips some of them."""
        rng, order = self.rng, self.order
        resolution, offset, options = 6, 0, []
        if rng.randrange(4):
            resolution = rng.choice(RESOLUTIONS)
            value = bytes((resolution,))
            options.append(option(order, 9, value + self.odd(30, (b"\0", b"\0\0\0"), b"")))
        if rng.randrange(3) == 0:
            offset = rng.choice((0, 1, -1, -(2**31), 1_700_000_000) if self.is_sound or rng.randrange(2) else OFFSETS)
            if self.is_sound and (1 - offset) * units_of(resolution) > 2**64:
                offset = 0
            options.append(option(order, 14, struct.pack(order + "q", offset)[: self.odd(30, (0, 4, 7), 8)]))
        others = ((2, b"eth0"), (11, b"\0tcp"), (3, b""))
        options += [option(order, code, value) for code, value in others if rng.randrange(2)]
        rng.shuffle(options)
        if rng.randrange(6) == 0 and any(it[:2] == struct.pack(order + "H", 9) for it in options):
            # Of two equal options the first counts.
            options.append(option(order, 9, bytes((rng.choice(RESOLUTIONS),))))
        if rng.randrange(2):
            # Nothing after the last option is read.
            options += [option(order, 0, b""), rng.choice((b"", option(order, 9, b"\x03"), b"\xff" * 4))]
        link = self.odd(20, (0, 113, 257, 65_535), 1)
        snap = rng.choice((0, 262_144, 65_535, 65_535, 14, 20, 1_518))
        self.interfaces.append((snap, resolution, offset))
        self.add(INTERFACE, struct.pack(order + "HHI", link, rng.choice((0, 0, 9)), snap) + b"".join(options))

    def between(self):
        """Appends a block that the program skips, of a known type or an unassigned one."""
        rng = self.rng
        self.add(rng.choice(OTHERS), rng.randbytes(rng.choice((0, 4, 20, 20, 33, 100, 5_000))))

    def ticks(self, resolution, offset):
        """A time, usually one of a few values; in a file that may have faults, any time."""
        rng, units = self.rng, units_of(resolution)
        odd = self.odd(4, (2**32, -1 - offset), 0)
        seconds = max(0, rng.choice((rng.randrange(100), 2**32 - 1 - offset, 1_700_000_000, odd)))
        if self.is_sound or rng.randrange(2):
            seconds = max(seconds, -offset)
        ticks = seconds * units + rng.choice((0, units - 1, rng.randrange(units)))
        if self.is_sound:
            return ticks if ticks < 2**64 else max(0, -offset) * units
        return ticks % 2**64 if rng.randrange(4) else rng.choice((1, rng.randrange(2**32), 2**64 - 1))

    def send(self, frame):
        """Appends a packet with this frame, or with part of it."""
        rng = self.rng
        whole = len(frame) + self.odd(12, (1, 6, 1_000, -6, -1), 0)
        if self.interfaces and rng.randrange(5) == 0 and self.fits(len(frame)):
            self.add(SIMPLE, struct.pack(self.order + "I", max(0, whole)) + frame)
            return
        number = rng.randrange(len(self.interfaces))
        _, resolution, offset = self.interfaces[number]
        number = self.odd(40, (len(self.interfaces), 255, 256, 2**32 - 1), number)
        captured = self.odd(25, (len(frame) + 1, len(frame) + 8, 262_144, 262_145, max(0, len(frame) - 3)), len(frame))
        high, low = divmod(self.ticks(resolution, offset), 2**32)
        kind, first = ENHANCED, struct.pack(self.order + "I", number)
        if rng.randrange(5) == 0:
            # The number of packets dropped before it is ignored.
            kind, first = OBSOLETE, struct.pack(self.order + "HH", number % 2**16, rng.choice((0, 7, 65_535)))
        fields = first + struct.pack(self.order + "IIII", high, low, captured, max(0, whole))
        options = rng.choice((b"", b"", option(self.order, 1, b"a comment"), b"\xff" * 8))
        self.add(kind, fields + padded(frame) + options)

    def fits(self, size):
        """Can a simple packet have all of this number of octets?"""
        snap = self.interfaces[0][0]
        return not self.is_sound or snap == 0 or size <= snap

    def many(self):
        """Appends interfaces up to the limit of a section, or one more."""
        for _ in range(256 + self.rng.randrange(2) - len(self.interfaces)):
            self.describe()


def made_file(rng, frames, is_sound=False):
    """A file with these frames; if it is sound, it has all of them complete."""
    blocks = Blocks(rng, is_sound)
    for frame in frames:
        way = rng.randrange(12)
        if way == 0:
            blocks.begin_section()
        elif way < 4:
            blocks.between()
        elif way == 4:
            blocks.describe()
        elif way == 5 and not is_sound and rng.randrange(30) == 0:
            blocks.many()
        blocks.send(frame)
    if rng.randrange(3) == 0:
        blocks.between()
    return blocks.octets
