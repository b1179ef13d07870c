"""Random calls with a journal as a file, on a disk that fails, tears writes, and loses what was not synchronized.
Whatever happens, a later process begins with the file, and reads all that was shown to be durable. calls.py makes the
calls."""

from __future__ import annotations

import random
from collections.abc import Iterator
from typing import Any

import files
import journals
from handles import Model

Call = tuple[str, tuple[Any, ...]]


class Disk:
    """A file with its name, and the new file that may take its place. Pieces that were written and not synchronized may
    be there, or not, or in part."""

    def __init__(self, octets: bytes) -> None:
        self.firm, self.new = octets, b""
        self.fresh: list[tuple[int, bytes]] = []
        # What the name can lead to after a crash, beside the file that has it.
        self.others: list[bytes] = []

    def write(self, at: int, octets: bytes) -> None:
        self.fresh.append((at, octets))

    def left(self, chooser: random.Random) -> bytes:
        """What a crash leaves."""
        if self.others and chooser.random() < 0.5:
            return chooser.choice(self.others)
        left = bytearray(self.firm)
        for at, octets in self.fresh:
            torn = at + chooser.choice((0, len(octets), chooser.randrange(len(octets) + 1)))
            left.extend(bytes(max(torn - len(left), 0)))
            left[at:torn] = octets[: torn - at]
        return bytes(left)

    def make(self, step: str, octets: bytes, at: int, good: bool) -> None:
        """Does what the system call of a step does, if it succeeds and if it fails."""
        if step == "APPENDING":
            self.write(at, octets)
        elif step == "SYNCING" and good:
            for begin, piece in self.fresh:
                self.firm = self.firm[:begin].ljust(begin, b"\0") + piece + self.firm[begin + len(piece) :]
            self.fresh = []
        elif step == "FILLING":
            self.new = octets if good else octets[: len(octets) // 2]
        elif step == "RENAMING" and not good:
            self.others.append(self.new)
        elif step == "RENAMING":
            self.others.append(self.firm)
            self.firm, self.fresh = self.new, []
        elif step == "SYNCING_FOLDER" and good:
            self.others = []


class Filed:
    """Calls with journals as files. calls.py has the others."""

    random: random.Random
    model: Model
    JOURNAL: bytes
    JOURNAL_SALT: bytes
    PNS: list[int]

    # Limits of a file: too short for any entry, for one, for a few, and for two orders.
    LIMITS = [0, 64, 191, 192, 256, 320, 512, 16_384, 16_384, 16_384, 20_480]
    NAMES = [bytes([it] * 32) for it in range(9)]

    def name(self) -> bytes:
        return self.random.choice(self.NAMES)

    def orders(self) -> bytes:
        """Mostly records; else some octets are no record, or too many."""
        made = b"".join(self.order() for _ in range(self.random.choice((0, 1, 1, 2, 3, 9))))
        chance = self.random.random()
        if chance < 0.05:
            return made + bytes(self.random.choice((1, 63, 64)))
        return self.order() * 300 if chance < 0.07 else made

    def order(self) -> bytes:
        return journals.record((self.name(), self.random.choice(self.PNS)))

    def file(self) -> bytes:
        """Octets of a file: of this form or of the earlier one, and most often as they were written."""
        table = {self.name(): self.random.choice(self.PNS) for _ in range(self.random.choice((0, 1, 2, 5)))}
        made = files.file_of(self.JOURNAL_SALT, table) + self.orders()
        chance = self.random.random()
        if chance < 0.2:
            return self.JOURNAL + self.orders() + bytes(self.random.choice((0, 1, 63)))
        if chance < 0.4:
            damaged = bytearray(made)
            damaged[self.random.randrange(len(made))] ^= 1 << self.random.randrange(8)
            return bytes(damaged)
        return made[: self.random.choice((0, 63, 64, 127, 128, 191))] if chance < 0.5 else made

    def rarely_filed(self) -> Iterator[Call]:
        """Each refusal, and each step of both kinds of orders."""
        table = dict.fromkeys(self.NAMES[:3], 7)
        whole, records = files.file_of(self.JOURNAL_SALT, table), b"".join(map(journals.record, table.items()))
        longer, other = whole + bytes(64), whole[:128] + records[64:] + records[:64]
        for octets in (b"", whole[:63], whole[:127], whole[:-1], whole[:40] + whole, other, longer, self.JOURNAL):
            for limit in (0, 192, 319, 320, 16_384):
                yield "journal_begin", (0, 1, octets, limit)
                yield "journal_free", (0, 1)
        yield "journal_created", (0, self.JOURNAL_SALT)
        yield "journal_noted", (0, self.NAMES[0], journals.LAST)
        yield "journal_begin", (0, 1, self.JOURNAL + records, 20_480)
        few = records[:64]
        for order, anew in ((few, 0), (few, 0), (b"", 0), (records, 1), (records * 50, 0), (few, 0), (few * 400, 0)):
            for octets in (order, few[:63], few[1:] + few[:1]):
                yield "journal_order", (0, 1, octets, anew)
            yield from self.walked()
        for octets in (few * 320, few * 321, few * 316, few * 315):
            yield "journal_order", (0, 1, octets, 0)
        yield from self.walked()
        yield "journal_order", (0, 1, records, 0)
        yield "journal_let_go", (0, 1, self.NAMES[1])
        yield "journal_answered", (0, 1, 0)
        yield "journal_answered", (0, 1, 1)
        for name in (self.NAMES[1], self.NAMES[1]):
            yield "journal_let_go", (0, 1, name)
            yield "journal_record", (0, 1, 1)
            yield "journal_record", (0, 1, 2)
        for room in (191, 192, 193):
            yield "journal_whole", (0, 1, room)

    def walked(self) -> Iterator[Call]:
        """The steps of an order, each shown in buffers that are too small and large enough."""
        file = self.model.files[1]
        assert file is not None
        while file.step != "RESTING":
            size = len(file.written())
            for room in (max(size - 1, 0), size, 20_480):
                yield "journal_next", (0, 1, room)
            yield "journal_order", (0, 1, b"", 0)
            yield "journal_answered", (0, 1, 1)
            yield "journal_shown", (0, 1, 0)
        yield "journal_next", (0, 1, 0)
        for index in range(len(file.shown) + 1):
            yield "journal_shown", (0, 1, index)

    def filed(self) -> Iterator[Call]:
        """A life of a journal: processes that begin, order and let go, on a disk that fails sometimes, until a crash
        ends each. Each reads what was shown to be durable to those before."""
        disk, shown = Disk(files.file_of(self.JOURNAL_SALT, {})), dict[bytes, int]()
        fails = self.random.choice((0, 0.05, 0.2))
        for _ in range(self.random.choice((1, 2, 4))):
            octets = disk.left(self.random)
            yield "journal_free", (0, 0)
            yield "journal_begin", (0, 0, octets, 20_480)
            file = self.model.files[0]
            assert file is not None and file.salt == self.JOURNAL_SALT, "a crash has left no journal"
            for name, last in shown.items():
                assert file.table.get(name, 0) >= last, "a crash has lost what was shown to be durable"
            disk.firm, disk.fresh, disk.others = octets, [], [*disk.others, octets]
            for _ in range(self.random.choice((1, 3, 6))):
                yield "journal_order", (0, 0, self.orders(), self.random.choice((0, 0, 0, 1)))
                yield from self.carried_out(file, disk, fails)
                if file.step != "RESTING":
                    break
                shown |= {name: max(last, shown.get(name, 0)) for name, last in file.shown}
                for index in range(len(file.shown) + 1):
                    yield "journal_shown", (0, 0, index)
                if self.random.random() < 0.1:
                    name = self.name()
                    shown.pop(name, None)
                    yield "journal_let_go", (0, 0, name)
            yield "journal_whole", (0, 0, 20_480)
            yield "journal_record", (0, 0, len(file.table) // 2)

    def carried_out(self, file: files.File, disk: Disk, fails: float) -> Iterator[Call]:
        """The system calls of an order, until none is next or the process ends."""
        while file.step != "RESTING" and self.random.random() > fails / 8:
            step, octets, at, good = file.step, file.written(), file.at, self.random.random() >= fails
            yield "journal_next", (0, 0, 20_480)
            disk.make(step, octets, at, good)
            yield "journal_answered", (0, 0, int(good))
