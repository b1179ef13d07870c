"""Journals of packet numbers, worked out from the rules: names, records and what they reserve. calls.py compares the C
library's journals with these."""

from __future__ import annotations

import hashlib
import struct
from collections.abc import Iterator

RECORD = 64
LAST = 2**64 - 1
TITLE = b"macsec journal 1"

# A reservation: a name of 32 octets, and the last packet number that may have been used under it.
Reservation = tuple[bytes, int]


def digest(*parts: bytes) -> bytes:
    """The SHA-256 of these octets, one after another."""
    return hashlib.sha256(b"".join(parts)).digest()


def sending_name(salt: bytes, key: bytes) -> bytes:
    return digest(b"macsec reserve: sending", salt, key)


def receiving_name(name: bytes, sci: bytes, an: int) -> bytes:
    """The name for receiving from an SCI and AN, under the key that has this name for sending."""
    return digest(b"macsec reserve: receiving", sci, bytes([an]), name)


def record(reservation: Reservation) -> bytes:
    name, last = reservation
    number = struct.pack(">Q", last)
    return name + number + digest(b"macsec reserve: check", name, number)[:24]


def read_record(octets: bytes) -> Reservation | None:
    """What the octets of a record reserve, if their check holds."""
    read = octets[:32], struct.unpack(">Q", octets[32:40])[0]
    return read if record(read) == octets else None


def header(salt: bytes) -> bytes:
    return TITLE + salt + digest(b"macsec reserve: header", TITLE, salt)[:24]


def is_journal(octets: bytes) -> bool:
    """Is a file with these octets a journal: does it begin with the header of its salt?"""
    return len(octets) >= RECORD and octets[:RECORD] == header(salt_of(octets))


def salt_of(journal: bytes) -> bytes:
    return journal[16:40]


def reservations(octets: bytes) -> Iterator[Reservation]:
    """What a journal reserves, record for record."""
    for at in range(0, len(octets) - RECORD + 1, RECORD):
        read = read_record(octets[at : at + RECORD])
        if read is not None:
            yield read


def highest(each: list[Reservation], name: bytes) -> int:
    """The last packet number that some reservations say of a name together, 0 if they say nothing."""
    return max((last for its, last in each if its == name), default=0)


def one_a_name(each: Iterator[Reservation]) -> dict[bytes, int]:
    """The highest number of each name, in the order in which the names first occur."""
    found: dict[bytes, int] = {}
    for name, last in each:
        found[name] = max(found.get(name, 0), last)
    return found


def compacted(octets: bytes) -> bytes:
    """A journal with the same header that reserves the same, with one record for each name."""
    return octets[:RECORD] + b"".join(record(it) for it in one_a_name(reservations(octets[RECORD:])).items())


def wanted_last(reserved: int, next_number: int, amount: int) -> int | None:
    """The last packet number to reserve, if fewer than half of `amount` are left."""
    if next_number > LAST or min(next_number + amount // 2, LAST) <= reserved:
        return None
    return min(next_number + amount, LAST)
