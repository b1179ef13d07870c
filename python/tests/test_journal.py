"""A journal in a file: which system calls are made, what becomes of calls that fail, and which files are refused."""

from __future__ import annotations

import contextlib
import errno
import fcntl
import os
from collections.abc import Iterator
from typing import Any
from unittest import mock

import macsec
from macsec import JournalFile, SecY

from .helpers import KEYS, SENDER, InFolder

# The calls of both kinds of orders, as "A journal as a file" in include/macsec.h lists them.
REPLACEMENT = ["stat journal", "unlink journal.new", "open journal.new", "flock journal.new", "pwrite journal.new",
               "fsync journal.new", "rename journal.new", "fsync folder"]  # fmt: skip
APPEND = ["pwrite journal", "fdatasync journal", "stat journal"]


@contextlib.contextmanager
def watched(fails: int = 0, is_done: bool = False) -> Iterator[list[str]]:
    """The calls that are made. The one of this number fails, counted from 1, although it may be done."""
    made: list[str] = []

    def watching(name: str, call: Any) -> Any:
        def made_call(*arguments: Any, **more: Any) -> Any:
            it = arguments[0]
            path = os.readlink(f"/proc/self/fd/{it}") if isinstance(it, int) else it
            made.append(f"{name} {os.path.basename(path)}")
            if len(made) != fails:
                return call(*arguments, **more)
            with contextlib.suppress(OSError):
                _ = is_done and call(*arguments, **more)
            raise OSError(errno.EIO, name)

        return made_call

    with contextlib.ExitStack() as stack:
        for name in ("stat", "unlink", "open", "flock", "pwrite", "fsync", "fdatasync", "rename"):
            module = fcntl if name == "flock" else os
            stack.enter_context(mock.patch.object(module, name, watching(name, getattr(module, name))))
        yield made


def record(amount: int) -> bytes:
    """A record that reserves so many packet numbers of one key."""
    with SecY(SENDER, journal=macsec.journal_header(bytes(24))) as secy:
        secy.install_key(0, KEYS[0])
        secy.add_tx_sa(0, key=0, pn=1, conf=True)
        return secy.reserve_wanted(0, amount) or b""


class Files(InFolder):
    def setUp(self) -> None:
        super().setUp()
        self.folder = self.folder / "folder"
        self.folder.mkdir()
        self.path = self.folder / "journal"
        JournalFile.create(self.path)

    def read(self) -> list[bytes]:
        """The entries that a later process reads."""
        return macsec.Journal(self.path.read_bytes()).records()

    def test_the_calls_of_the_header(self) -> None:
        with watched() as made:
            JournalFile.create(self.folder / "new")
        self.assertEqual(made, ["open new", "flock new", "pwrite new", "fsync new", "open folder", "fsync folder"])
        with JournalFile(self.path) as journal:
            for amount, calls in ((1, REPLACEMENT), (2, APPEND)):
                with watched() as made:
                    journal.write([record(amount)])
                self.assertEqual((made, self.read()), (calls, [record(amount)]))

    def test_calls_that_fail(self) -> None:
        """A failure is reported, and no call is made after it. The next order replaces the file, and loses nothing."""
        for first, calls in ((False, REPLACEMENT), (True, APPEND)):
            for number, is_done in ((it // 2 + 1, it % 2 == 1) for it in range(2 * len(calls))):
                with self.subTest(calls=calls, number=number, is_done=is_done):
                    self.path.unlink()
                    JournalFile.create(self.path)
                    with JournalFile(self.path) as journal:
                        journal.write([record(1)]) if first else None
                        with self.assertRaises(OSError), watched(number, is_done) as made:
                            journal.write([record(2)])
                        self.assertEqual(made, calls[:number])
                        with watched() as made:
                            journal.write([])
                        self.assertEqual(made[-7:], REPLACEMENT[1:])
                    self.assertEqual(self.read(), [record(2)])

    def test_short_writes(self) -> None:
        write = os.pwrite
        with mock.patch.object(os, "pwrite", lambda file, octets, at: write(file, octets[:100], at)):
            with JournalFile(self.path) as journal:
                for amount in (1, 2):
                    journal.write([record(amount)])
                    self.assertEqual(self.read(), [record(amount)])
        self.assertEqual(self.path.stat().st_size, 3 * 4096)

    def test_other_programs(self) -> None:
        """A new file that another program has made is not taken. A file that is cut is written again; one that has
        another name is not."""
        with JournalFile(self.path) as journal, mock.patch.object(os, "unlink"):
            self.path.with_suffix(".new").touch()
            self.assertRaises(FileExistsError, journal.write, [])
        for change, error, then in (
            (lambda: os.truncate(self.path, 99), errno.ENODATA, contextlib.nullcontext()),
            (lambda: os.rename(self.path, f"{self.path}.old"), errno.ESTALE, self.assertRaises(OSError)),
        ):
            with JournalFile(self.path) as journal:
                journal.write([record(1)])
                change()
                with self.assertRaises(OSError) as raised:
                    journal.write([record(2)])
                self.assertEqual(raised.exception.errno, error)
                with then:
                    journal.write([])

    def test_files_that_are_refused(self) -> None:
        file, other = self.path, self.folder / "other"
        with JournalFile(file):
            self.assertRaises(BlockingIOError, JournalFile, file)
        for change, error in (
            (lambda: file.chmod(0o640), PermissionError), (lambda: file.chmod(0o600), None),
            (lambda: os.link(file, other), OSError), (other.unlink, None),
            (lambda: os.rename(file, other) or file.symlink_to(other), OSError), (lambda: other.replace(file), None),
            (lambda: file.write_bytes(bytes(128)), macsec.JournalFault),
            (file.unlink, FileNotFoundError),
        ):  # fmt: skip
            change()
            if error is None:
                JournalFile(file).close()
            else:
                self.assertRaises(error, JournalFile, file)
        file.touch()
        self.assertRaises(FileExistsError, JournalFile.create, file)
