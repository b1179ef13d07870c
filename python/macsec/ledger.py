"""A ledger of used IVs, which finds an IV that captures of several days or places use under one key. It is a file of
digests under a random salt, and holds no key and no octets of a frame.

The digest of a key and an IV has 80 bits. So the chance that any two of 10,000,000 frames are taken for a reuse that is
none is below 1 in 10,000,000,000. A second digest, of the frame, distinguishes a copy from another frame.
"""

from __future__ import annotations

import bisect
import contextlib
import fcntl
import hashlib
import itertools
import json
import os
import secrets
import time
import zlib
from collections import Counter
from collections.abc import Iterable, Iterator
from typing import Any, BinaryIO, NamedTuple

from .capture import NewFile, Packet
from .errors import CaptureError
from .summary import frames_text

MOST = 10_000_000
_MAGIC, _SALT, _SUM = b"macsec ledger 1\n", 16, 32
# Two octets of the first digest choose a part of the table, and the entry has the others; then the digest of the frame,
# the number of earlier entries, the number of the capture, and the record with a bit that says whether it is encrypted.
_PARTS, _KEY, _FRAME, _AGE, _CAPTURE, _RECORD = 1 << 16, 8, 6, 5, 3, 5
_ENTRY = _KEY + _FRAME + _AGE + _CAPTURE + _RECORD
# How many entries above 33/32 of the limit there can be until the earliest are forgotten; the most octets of a head;
# and how many captures are named.
_SLACK, _MOST_HEAD, _MOST_NAMES = 1 << 16, 1 << 28, 8


class Use(NamedTuple):
    """Where a key and an IV were used first: the record of a capture, and the time of its first record."""

    capture: str
    record: int
    time: int
    is_encrypted: bool

    def as_dict(self) -> dict[str, object]:
        return {"capture": self.capture, "record": self.record, "first record at": self._date}

    @property
    def _date(self) -> str:
        return time.strftime("%Y-%m-%d %H:%M:%S UTC", time.gmtime(self.time // 10**9))

    def __str__(self) -> str:
        return f"{self.record} of {self.capture} ({self._date})"


class _Capture:
    """A capture, and how many of its frames are kept. `first` is the number of its first record, and `about` the end of
    an entry for a record with the number 0."""

    def __init__(self, number: int, name: str, time: int, frames: int = 0, first: int = 0) -> None:
        self.number, self.name, self.time, self.frames, self.first = number, name, time, frames, first
        self.about = (number << 8 * _RECORD) - (first << 1)


def _write(new: NewFile, salt: bytes, head: dict[str, Any], parts: Iterable[bytes] = ()) -> None:
    """Writes the file of a ledger, which then gets its name."""
    packed, sum_of = zlib.compress(json.dumps(head).encode()), hashlib.blake2b(digest_size=_SUM)
    try:
        for octets in (_MAGIC, salt, len(packed).to_bytes(4, "big"), packed, *parts):
            sum_of.update(octets)
            new.write(octets)
        new.write(sum_of.digest())
        new.close()
    finally:
        new.discard()


class Ledger:
    """A ledger in a file, which is made if it is not there, and locked until it is closed. `save` replaces the file at
    once: a process that is killed leaves the old one or the new one.

    At most `limit` frames are kept, and the earliest are forgotten; without one as many as the ledger kept before.

    >>> import tempfile
    >>> folder = tempfile.TemporaryDirectory()
    >>> for name, frame in (("monday", b"one"), ("tuesday", b"one"), ("wednesday", b"another")):
    ...     with Ledger(f"{folder.name}/ledger") as ledger:
    ...         for packet in ledger.reading(name, [Packet(0, 0, frame, 3)]):
    ...             print(ledger.add(0, b"key", b"IV", packet.frame, True))
    ...         ledger.save()
    None
    None
    0 of monday (1970-01-01 00:00:00 UTC)
    """

    def __init__(self, path: str, limit: int | None = None) -> None:
        self._path, self._shown = os.path.realpath(path), path
        # How many frames were asked for, and how many of which capture were forgotten.
        self.asked = 0
        self.forgotten_now: Counter[str] = Counter()
        # The captures that are read now.
        self._now: list[_Capture] = []
        self.limit = self._age = self.forgotten = 0
        self._file = self._locked(limit or MOST)
        try:
            self._read()
        except (ValueError, KeyError, TypeError, AttributeError, RecursionError, zlib.error):
            self.close()
            raise CaptureError(f"{path}: the ledger is damaged: take a copy, or name a new file") from None
        except BaseException:
            self.close()
            raise
        self._before, self.limit = (self._age, self.limit), limit or self.limit

    # The file.

    def _locked(self, limit: int) -> BinaryIO:
        """The file, locked. A new one appears at once, so that two commands cannot begin it."""
        if not os.path.exists(self._path):
            head = {"limit": limit, "age": 0, "forgotten": 0, "captures": [], "counts": [0] * _PARTS}
            with contextlib.suppress(FileExistsError):
                _write(NewFile(self._path), secrets.token_bytes(_SALT), head)
        if not os.path.isfile(self._path):
            raise CaptureError(f"{self._shown}: this is no file")
        while True:
            with contextlib.ExitStack() as opened:
                file = opened.enter_context(open(self._path, "rb"))
                try:
                    fcntl.flock(file, fcntl.LOCK_EX | fcntl.LOCK_NB)
                except BlockingIOError:
                    raise CaptureError(f"{self._shown}: another command has this ledger") from None
                # Meanwhile another command may have replaced it.
                if os.path.samestat(os.fstat(file.fileno()), os.stat(self._path)):
                    opened.pop_all()
                    return file

    def _read(self) -> None:
        file, sum_of = self._file, hashlib.blake2b(digest_size=_SUM)

        def take(count: int) -> bytes:
            octets = file.read(count)
            if len(octets) != count:
                raise ValueError("it is cut")
            sum_of.update(octets)
            return octets

        if file.read(len(_MAGIC)) != _MAGIC:
            raise CaptureError(f"{self._shown}: this is no ledger of macsec-decrypt, macsec-why and macsec-report")
        sum_of.update(_MAGIC)
        self._salt = take(_SALT)
        size, length = os.fstat(file.fileno()).st_size, int.from_bytes(take(4), "big")
        packed = take(min(length, size))
        head = json.loads(zlib.decompressobj().decompress(packed, _MOST_HEAD))
        counts = head["counts"]
        if len(counts) != _PARTS or file.tell() + sum(counts) * _ENTRY + _SUM != size or min(counts) < 0:
            raise ValueError("it has another length")
        self._parts = [bytearray(take(count * _ENTRY) if count else b"") for count in counts]
        if file.read() != sum_of.digest():
            raise ValueError("it has another sum")
        self.limit, self._age, self.forgotten = int(head["limit"]), int(head["age"]), int(head["forgotten"])
        self._captures = {it[0]: _Capture(*it) for it in head["captures"]}
        self._of_key = hashlib.blake2b(b"key", digest_size=2 + _KEY, key=self._salt)
        self._of_frame = hashlib.blake2b(b"frame", digest_size=_FRAME, key=self._salt)

    def save(self) -> None:
        """Replaces the file, if something is new."""
        if self._before == (self._age, self.limit):
            return
        self._forget()
        head = {
            "limit": self.limit, "age": self._age, "forgotten": self.forgotten,
            "captures": [(it.number, it.name, it.time, it.frames) for it in self._kept_captures()],
            "counts": [len(it) // _ENTRY for it in self._parts],
        }  # fmt: skip
        _write(NewFile(self._path, replaces=True), self._salt, head, filter(None, self._parts))

    def close(self) -> None:
        """Ends the lock."""
        self._file.close()

    def __enter__(self) -> Ledger:
        return self

    def __exit__(self, *_: object) -> None:
        self.close()

    # The frames.

    def reading(self, name: str, packets: Iterable[Packet], before: int = 0) -> Iterator[Packet]:
        """The records of a capture, whose frames are added from now on. Their numbers begin at `before`."""
        for count, packet in enumerate(packets):
            if not count:
                # A capture that is read again stays the same one.
                again = [it for it in self._now if (it.first, it.name, it.time) == (before, name, packet.time)]
                self._now = [it for it in self._now if it.first < before] + (again or [self._new(name, packet, before)])
            yield packet

    def _new(self, name: str, packet: Packet, before: int) -> _Capture:
        """Another capture."""
        number = next(it for it in itertools.count() if it not in self._captures)
        return self._captures.setdefault(number, _Capture(number, name, packet.time, 0, before))

    def add(self, record: int, key: bytes, iv: bytes, frame: bytes, is_encrypted: bool) -> Use | None:
        """Adds a frame. Returns where its key and IV were used first, if that was with other octets."""
        self.asked += 1
        of_key, of_frame = self._of_key.copy(), self._of_frame.copy()
        of_key.update(key + iv)
        of_frame.update(frame)
        digest, octets = of_key.digest(), of_frame.digest()
        part, wanted = self._parts[digest[0] << 8 | digest[1]], digest[2:]
        at = part.find(wanted)
        while at > 0 and at % _ENTRY:
            at = part.find(wanted, at + 1)
        if at >= 0:
            return None if part[at + _KEY : at + _KEY + _FRAME] == octets else self._use(part, at)
        it = self._now[-1]
        if record < it.first:
            it = self._now[bisect.bisect_right([each.first for each in self._now], record) - 1]
        it.frames += 1
        about = self._age << 8 * (_CAPTURE + _RECORD) | it.about + (record << 1) + is_encrypted
        part += wanted + octets + about.to_bytes(_AGE + _CAPTURE + _RECORD, "big")
        self._age += 1
        if self._age > self.forgotten + self.limit + self.limit // 32 + _SLACK:
            self._forget()
        return None

    def _use(self, part: bytearray, at: int) -> Use:
        """The use of an entry."""
        at += _KEY + _FRAME + _AGE
        it = self._captures[int.from_bytes(part[at : at + _CAPTURE], "big")]
        about = int.from_bytes(part[at + _CAPTURE : at + _CAPTURE + _RECORD], "big")
        return Use(it.name, about >> 1, it.time, bool(about & 1))

    def _kept_captures(self) -> list[_Capture]:
        """The captures of which frames are kept."""
        return [it for it in self._captures.values() if it.frames]

    @property
    def new(self) -> int:
        """How many of the frames were new."""
        return self._age - self._before[0]

    @property
    def kept(self) -> int:
        """How many frames it has."""
        return self._age - self.forgotten

    def _forget(self) -> None:
        """Forgets the earliest frames until there are as many as the limit."""
        floor = self._age - self.limit
        if floor <= self.forgotten:
            return
        left: Counter[int] = Counter()
        at, end = _KEY + _FRAME, _KEY + _FRAME + _AGE
        for part in self._parts:
            count = 0
            while count < len(part) and int.from_bytes(part[count + at : count + end], "big") < floor:
                left[int.from_bytes(part[count + end : count + end + _CAPTURE], "big")] += 1
                count += _ENTRY
            del part[:count]
        self.forgotten = floor
        for it in filter(lambda it: it.number in left, self._captures.values()):
            it.frames -= left[it.number]
            self.forgotten_now[it.name] += left[it.number]

    # What it says.

    def as_dict(self) -> dict[str, object]:
        """What a run has found, and what the ledger has."""
        self._forget()
        return {"seen": {
            "frames": self.asked, "new": self.new, "kept": self.kept, "captures": len(self._kept_captures()),
            "limit": self.limit, "forgotten": self.forgotten, "forgotten now": dict(self.forgotten_now),
        }}  # fmt: skip

    def lines(self) -> list[str]:
        """The same as text."""
        self._forget()
        count = len(self._kept_captures())
        has = f"the ledger has {frames_text(self.kept)} of {count} capture{'s' * (count != 1)}"
        found = [f"seen: {frames_text(self.asked)}, {self.new} of them new; {has}"]
        if self.forgotten:
            now = [f"{count} of {name}" for name, count in self.forgotten_now.items()]
            names = [", now " + ", ".join(now[:_MOST_NAMES])] * bool(now)
            names += [f" and of {len(now) - _MOST_NAMES} more captures"] * (len(now) > _MOST_NAMES)
            forgotten = f"{frames_text(self.forgotten)}{''.join(names)}"
            found.append(f"seen: the ledger has forgotten {forgotten}: its limit is {frames_text(self.limit)}")
        return found
