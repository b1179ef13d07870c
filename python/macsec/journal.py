"""A journal as a file: which system call is next, and which records are durable. The library decides both. It opens no
file: the caller makes each call, and says truly whether it succeeded."""

from __future__ import annotations

import ctypes
import enum
import threading
from typing import Iterable, NamedTuple

from . import _library
from .errors import error
from .names import Status
from .secy import Octets, number_of, octets_of

# The system call that is next, as include/macsec.h says for each.
Step = enum.IntEnum(
    "Step",
    "resting appending syncing looking_after looking_before removing creating locking filling syncing_new renaming"
    " syncing_folder",
    start=0,
)


class Call(NamedTuple):
    """The system call that is next. `octets` are to be written at `at`; the file has at least `end` octets."""

    step: Step
    at: int
    end: int
    octets: bytes


def octets_with(length: int, octets: Octets, what: str) -> bytes:
    """Octets of this length."""
    found = octets_of(octets)
    if len(found) != length:
        raise ValueError(f"{what} has {length} octets, not {len(found)}")
    return found


def journal_created(salt: Octets) -> bytes:
    """The octets of a new file. `salt` is 24 random octets: other journals name the same key otherwise."""
    made = ctypes.create_string_buffer(128)
    _library.load().macsec_journal_created(octets_with(24, salt, "the salt of a journal"), made)
    return made.raw


class Journal:
    """A journal, of all octets of its file, which is locked. The file may have `limit` octets.

    A file that is no journal, or that is damaged, raises `JournalFault`. Threads may share a journal: one call at a
    time is made. The octets that `next` returns stay as they are.

    >>> journal = Journal(journal_created(bytes(24)))
    >>> journal.order([])
    >>> steps = []
    >>> while journal.next().step != Step.resting:
    ...     steps.append(journal.next().step.name)
    ...     journal.answered(True)
    >>> steps[:5]
    ['looking_before', 'removing', 'creating', 'locking', 'filling']
    """

    def __init__(self, octets: Octets, limit: int = 1 << 20) -> None:
        self._library = _library.load()
        self._lock = threading.Lock()
        self._journal = _library.Journal()
        self._handle = ctypes.addressof(self._journal)
        found, most = octets_of(octets), number_of(limit, 32, "limit")
        self._checked(self._library.macsec_journal_begin_raw(self._handle, found, len(found), most))
        self._room = ctypes.create_string_buffer(most)

    @staticmethod
    def _checked(status: int) -> None:
        if status:
            raise error(status)

    def order(self, records: Iterable[Octets], anew: bool = False) -> None:
        """Orders that records be made durable; with `anew`, by replacing the file."""
        octets = b"".join(octets_with(64, it, "a record") for it in records)
        with self._lock:
            self._checked(self._library.macsec_journal_order_raw(self._handle, octets, len(octets), bool(anew)))

    def next(self) -> Call:
        """The system call that is next."""
        it, room = _library.JournalCall(), self._room
        with self._lock:
            self._checked(self._library.macsec_journal_next_raw(self._handle, room, len(room), ctypes.byref(it)))
            return Call(Step(it.step), it.at, it.end, room.raw[: it.length])

    def answered(self, good: bool) -> None:
        """Notes whether it succeeded."""
        with self._lock:
            self._checked(self._library.macsec_journal_answered(self._handle, bool(good)))

    def _records(self, name: str) -> list[bytes]:
        found: list[bytes] = []
        record = _library.Record()
        call = getattr(self._library, name)
        with self._lock:
            while (status := call(self._handle, len(found), ctypes.byref(record))) == Status.OK:
                found.append(bytes(record.octets))
        if status != Status.NotFound:
            raise error(status)
        return found

    def shown(self) -> list[bytes]:
        """The records that the last answer showed to be durable, for `SecY.reserve_granted`."""
        return self._records("macsec_journal_shown")

    def records(self) -> list[bytes]:
        """The entry of each name, durable or not."""
        return self._records("macsec_journal_record")

    def let_go(self, name: Octets) -> None:
        """Lets a name go, the first 32 octets of its records. No later endpoint may have its key."""
        with self._lock:
            self._checked(self._library.macsec_journal_let_go(self._handle, octets_with(32, name, "a name")))

    def whole(self) -> bytes:
        """What an endpoint is made with: `SecY(.., journal=journal.whole())`."""
        written, room = ctypes.c_size_t(), self._room
        with self._lock:
            self._checked(self._library.macsec_journal_whole_raw(self._handle, room, len(room), ctypes.byref(written)))
            return room.raw[: written.value]

    def close(self) -> None:
        """Frees the journal. Every later call raises, except this one."""
        with self._lock:
            self._library.macsec_journal_free_raw(self._handle)

    def __del__(self) -> None:
        if hasattr(self, "_handle"):
            self.close()
