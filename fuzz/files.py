"""A journal as a file, worked out from the rules: what the file has, which system call is next, and what a disk that
fails makes of it. handles.py compares the C library's calls with this."""

from __future__ import annotations

import journals

TITLE = b"macsec journal 2"
SECTOR = 4096
FRONT = 2 * journals.RECORD
# The steps by their names in the header, each with the one that follows it if its system call succeeds.
APPENDS = ["APPENDING", "SYNCING", "LOOKING_AFTER", "RESTING"]
REPLACES = ["LOOKING_BEFORE", "REMOVING", "CREATING", "LOCKING", "FILLING", "SYNCING_NEW", "RENAMING", "SYNCING_FOLDER"]
AFTER = dict(zip([*APPENDS, *REPLACES], [*APPENDS[1:], "RESTING", *REPLACES[1:], "RESTING"]))


class Refused(Exception):
    """Why a process can't begin, or an order is refused: the name of the status."""


def refuse(status: str, applies: bool) -> None:
    if applies:
        raise Refused(status)


def header(salt: bytes) -> bytes:
    return TITLE + salt + journals.digest(b"macsec journal: header", TITLE, salt)[:24]


def count_of(salt: bytes, entries: bytes) -> bytes:
    """The record with the number of the entries, and a digest of them."""
    name = journals.digest(b"macsec journal: table", salt, entries)
    return journals.record((name, len(entries) // journals.RECORD))


def file_of(salt: bytes, table: dict[bytes, int]) -> bytes:
    entries = b"".join(map(journals.record, table.items()))
    return header(salt) + count_of(salt, entries) + entries


def has_header(octets: bytes) -> bool:
    return len(octets) >= journals.RECORD and octets[: journals.RECORD] == header(journals.salt_of(octets))


def is_whole(octets: bytes) -> bool:
    """Do the entries agree with the count?"""
    count = journals.read_record(octets[journals.RECORD : FRONT]) if len(octets) >= FRONT else None
    if count is None or count[1] > (len(octets) - FRONT) // journals.RECORD:
        return False
    counted = octets[FRONT : FRONT + journals.RECORD * count[1]]
    return count_of(journals.salt_of(octets), counted) == octets[journals.RECORD : FRONT]


def ceiling(at: int) -> int:
    """Where the next sector begins."""
    return -(-at // SECTOR) * SECTOR


def fits(limit: int, count: int) -> bool:
    return count + 1 < limit // journals.RECORD


class File:
    """What a process knows of its journal."""

    def __init__(self, octets: bytes, limit: int) -> None:
        is_older = journals.is_journal(octets)
        refuse("E_NOT_JOURNAL", not is_older and not has_header(octets))
        refuse("E_JOURNAL_DAMAGED", not is_older and not is_whole(octets))
        self.table = journals.one_a_name(journals.reservations(octets[0 if is_older else FRONT :]))
        refuse("E_JOURNAL_FULL", not fits(limit, len(self.table)))
        self.salt, self.limit = journals.salt_of(octets), limit
        self.step, self.doubt, self.at, self.after = "RESTING", True, 0, 0
        self.ordered: list[journals.Reservation] = []
        self.shown: list[journals.Reservation] = []

    def copy(self) -> bytes:
        """The records of an order, to the end of their last sector."""
        octets = b"".join(map(journals.record, self.ordered))
        return octets.ljust(ceiling(len(octets)), b"\0")

    def written(self) -> bytes:
        """What the system call that is next writes."""
        if self.step == "FILLING":
            return file_of(self.salt, self.table)
        return 2 * self.copy() if self.step == "APPENDING" else b""

    def order(self, octets: bytes, anew: bool) -> None:
        count = len(octets) // journals.RECORD
        records = list(journals.reservations(octets))
        refuse("E_JOURNAL_BUSY", self.step != "RESTING")
        refuse("E_JOURNAL_FULL", count > self.limit // journals.RECORD)
        refuse("E_NOT_RECORD", len(octets) % journals.RECORD != 0 or len(records) != count)
        new = sum(name not in self.table for name, _ in records)
        refuse("E_JOURNAL_FULL", count >= self.limit // journals.RECORD or not fits(self.limit, len(self.table) + new))
        after = self.at + 2 * ceiling(journals.RECORD * count)
        replaces = self.doubt or anew or self.limit < after
        self.table = journals.one_a_name(iter([*self.table.items(), *records]))
        self.ordered, self.shown = [] if replaces else records, []
        self.step = "LOOKING_BEFORE" if replaces else "APPENDING"
        if replaces:
            self.doubt = True
        else:
            self.after = after

    def answer(self, good: bool) -> None:
        self.shown = []
        if not good:
            self.doubt, self.step = True, "RESTING"
            return
        if self.step == "SYNCING":
            self.at = self.after
        if self.step == "LOOKING_AFTER":
            self.shown = self.ordered
        if self.step == "SYNCING_FOLDER":
            self.at, self.doubt = ceiling(len(file_of(self.salt, self.table))), False
            self.shown = list(self.table.items())
        self.step = AFTER[self.step]

    def let_go(self, name: bytes) -> None:
        refuse("E_JOURNAL_BUSY", self.step != "RESTING")
        self.table.pop(name, None)
        self.ordered, self.shown = [], []

    def for_endpoint(self) -> bytes:
        return journals.header(self.salt) + b"".join(map(journals.record, self.table.items()))
