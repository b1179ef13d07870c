"""Looks for keys in the memory of a process, from outside."""

from __future__ import annotations

import contextlib
import pathlib
import re
from collections.abc import Collection, Iterable, Iterator
from typing import NamedTuple

PAGE = 4096
# Zeros between which most of a large memory is. What is looked for has fewer one after another.
ZEROS = re.compile(rb"\0{33,}")
GAP = bytes(32)
# The first line of a mapping in smaps.
MAPPING = re.compile(r"([0-9a-f]+)-([0-9a-f]+) (\S+) \S+ \S+ \S+ *(.*)\n")
MAIN_STACK = "[stack]"
# So many places are named in a message.
MOST = 4


class Section(NamedTuple):
    """A part of a key's row: where it begins and ends, counted from the row's first copy of the key. And the pieces of
    it that are looked for: how many octets each has, how far apart they begin, and how many different octets there are
    at least in one, so that nothing else has it by chance."""

    name: str
    first: int
    end: int
    piece: int
    step: int
    different: int


# The second copy of the key, and what is prepared from it. An octet of the planes has one bit of a round key. A table
# depends on 11 bits of a power of the hash subkey, so a piece is two of them.
AGAIN, TABLE = 78, 16
SECTIONS = (
    Section("the round keys in planes", 125, 2045, 64, 64, 2),
    Section("the round keys for look-ups", 2045, 2285, 16, 16, 10),
    Section("the hash subkey", 2301, 2317, 16, 16, 10),
    Section("the tables of the subkey's powers", 2317, 4493, 32, TABLE, 10),
)


class Region(NamedTuple):
    """Pages of a process, one after another, that are not all zero: their address and their octets; the end, the name
    and the flags of their mapping."""

    place: str
    octets: bytes
    flags: frozenset[str] = frozenset()
    first: int = 0
    end: int = 0

    @property
    def is_stack(self) -> bool:
        return self.place.startswith("[stack")

    def named(self, at: int) -> str:
        """The address of an octet, for a message."""
        address = self.first + at
        if self.is_stack:
            return f"at {address:x}, {self.end - address:,} octets below the top of {self.place}"
        return f"at {address:x} in {self.place}, {self.end - address:,} octets below the end of its mapping"


class Hits(NamedTuple):
    """How often something of a key is in memory."""

    octets: int
    digits: int
    parts: int


NOTHING = Hits(0, 0, 0)


class Mapping(NamedTuple):
    """Addresses that a process can write."""

    first: int
    last: int
    place: str
    flags: frozenset[str]


def stack_pointers(number: int) -> dict[int, int]:
    """Of each thread that waits in a system call, its number and its stack pointer."""
    found = {}
    for each in pathlib.Path(f"/proc/{number}/task").iterdir():
        with contextlib.suppress(OSError, IndexError, ValueError):  # it has ended, or it runs
            found[int(each.name)] = int((each / "syscall").read_text().split()[-2], 16)
    return found


def mappings(number: int) -> list[Mapping]:
    """The memory that a process can write. The stack of a thread has its number."""
    found, at, pointers = [], None, stack_pointers(number)
    with open(f"/proc/{number}/smaps", encoding="utf-8") as lines:
        for line in lines:
            if it := MAPPING.fullmatch(line):
                at = it if "w" in it[3] else None
            elif at and line.startswith("VmFlags:"):
                first, last = int(at[1], 16), int(at[2], 16)
                threads = [f"[stack of thread {it}]" for it, pointer in pointers.items() if first <= pointer < last]
                place = at[4] or (threads or ["anonymous"])[0]
                found.append(Mapping(first, last, place, frozenset(line.split()[1:])))
    return found


def regions(number: int) -> list[Region]:
    found = []
    with open(f"/proc/{number}/mem", "rb", buffering=0) as memory:
        for it in mappings(number):
            memory.seek(it.first)
            for at, each in pages(memory.read(it.last - it.first)):
                found.append(Region(it.place, each, it.flags, it.first + at, it.last))
    return found


def pages(octets: bytes) -> list[tuple[int, bytes]]:
    """The pages one after another that are not all zero, and where they begin."""
    found, run, first, zero = [], bytearray(), 0, bytes(PAGE)
    for at in range(0, len(octets) + PAGE, PAGE):
        page = octets[at : at + PAGE]
        if page and page != zero:
            first = first if run else at
            run += page
        elif run:
            found.append((first, bytes(run)))
            run.clear()
    return found


def is_table(octets: bytes) -> bool:
    """Are these the products of all nibbles with a number: each the sum of those of its bits, the first 0?"""
    return all(octets[it] == octets[it & it - 1] ^ octets[it & -it] for it in range(TABLE))


def is_row(row: bytes, key: bytes) -> bool:
    """Are the parts of a key's row where `SECTIONS` says? The second copy of the key and all tables show it."""
    tables = SECTIONS[-1]
    within = (row[at : at + TABLE] for at in range(tables.first, tables.end, TABLE))
    beyond = (row[at : at + TABLE] for at in (tables.first - TABLE, tables.end))
    is_there = row[AGAIN : AGAIN + len(key)] == key and any(row[tables.first : tables.end])
    return is_there and all(map(is_table, within)) and not any(any(it) and is_table(it) for it in beyond)


def rows_of(memory: Iterable[Region], key: bytes) -> Iterator[bytes]:
    """The rows of a key, which are not on a stack."""
    for it in memory:
        at = -1 if it.is_stack else it.octets.find(key)
        while at >= 0:
            length = SECTIONS[-1].end + TABLE
            row = it.octets[at : at + length].ljust(length, b"\0")  # pages of zeros are left out
            if is_row(row, key):
                yield row
            at = it.octets.find(key, at + 1)


def parts_of(memory: Iterable[Region], key: bytes) -> dict[bytes, int]:
    """The pieces of what was prepared from a key, and where each is in the key's row."""
    parts: dict[bytes, int] = {}
    for row in rows_of(memory, key):
        for each in SECTIONS:
            for at in range(each.first, each.end - each.piece + 1, each.step):
                piece = row[at : at + each.piece]
                if len(set(piece)) >= each.different:
                    parts.setdefault(piece, at)
    return parts


def hits(memory: Iterable[Region], key: bytes, parts: Collection[bytes] = ()) -> Hits:
    """How often a key and these parts are in memory."""
    digits = key.hex().encode()
    whole = [it.octets for it in memory]
    dense = ZEROS.sub(GAP, GAP.join(whole)) if parts else b""
    return Hits(
        sum(it.count(key) for it in whole),
        sum(it.count(digits) + it.count(digits.upper()) for it in whole),
        sum(1 for part in parts if part in dense),
    )


def places(memory: Iterable[Region], key: bytes, parts: dict[bytes, int]) -> str:
    """Where a key and these parts are in memory: which octets of the key's row, and at which addresses."""
    names = {key: "the key", key.hex().encode(): "its digits", key.hex().upper().encode(): "its digits"}
    for part, at in parts.items():
        section = next(it for it in SECTIONS if it.first <= at < it.end)
        names[part] = f"{len(part)} octets of {section.name}, from offset {at:,} of the key's row on"
    found = [
        (it.first + at, f"{name} {it.named(at)}")
        for it in memory
        for octets, name in names.items()
        if (at := it.octets.find(octets)) >= 0
    ]
    told = [text for _, text in sorted(found)]
    return "; ".join([*told[:MOST], *([f"and {len(told) - MOST} more"] if len(told) > MOST else [])])
