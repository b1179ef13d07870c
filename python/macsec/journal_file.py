"""A journal in a file: the system calls that `Journal` says are next, one function each. Which one is next, and what
its answer means, the library decides."""

from __future__ import annotations

import contextlib
import errno
import fcntl
import os
import secrets
import stat
import threading
from collections.abc import Iterable

from .journal import Call, Journal, Step, journal_created
from .secy import Octets

_FLAGS = os.O_RDWR | os.O_CLOEXEC | os.O_NOFOLLOW | os.O_NOCTTY
_FOLDER = os.O_RDONLY | os.O_DIRECTORY | os.O_CLOEXEC


def _fault(number: int, path: str) -> OSError:
    return OSError(number, os.strerror(number), path)


def _put(file: int, octets: bytes, at: int) -> None:
    """Writes all octets."""
    while octets:
        count = os.pwrite(file, octets, at)
        octets, at = octets[count:], at + count


class JournalFile:
    """The file of a journal, locked until it is closed. One endpoint at a time may be made with it.

    A file that another process has raises `BlockingIOError`; one that others can read or write, `PermissionError`; one
    that is damaged or no journal, `JournalFault`. Threads may share it. After a fork only one process may use it.

    >>> import tempfile
    >>> folder = tempfile.TemporaryDirectory()
    >>> JournalFile.create(f"{folder.name}/journal")
    >>> with JournalFile(f"{folder.name}/journal") as journal:
    ...     journal.write([])
    ...     len(journal.whole())
    64
    """

    def __init__(self, path: str | os.PathLike[str], limit: int = 1 << 20) -> None:
        self._path, self._writing = os.fspath(path), threading.Lock()
        folder, self._name = os.path.split(self._path)
        self._new_name = f"{self._name}.new"
        self._file = self._new = -1
        self._folder = os.open(folder or ".", _FOLDER)
        try:
            self._file = os.open(self._name, _FLAGS | os.O_NONBLOCK, dir_fd=self._folder)
            self._lock(self._file)
            self._looking_before()
            self._length = self._checked_length()
            octets = os.pread(self._file, self._length, 0)
            if len(octets) != self._length:
                raise _fault(errno.EIO, self._path)
            self._journal = Journal(octets, limit)
        except BaseException:
            self._close_files()
            raise

    @staticmethod
    def create(path: str | os.PathLike[str]) -> None:
        """Creates a journal without records. It replaces no file.

        Do this when the operator asks for it, and never because a journal can't be opened: without its records all
        packet numbers can be used again. A crash can leave a file that is no journal: remove it."""
        file = os.open(path, _FLAGS | os.O_CREAT | os.O_EXCL, 0o600)
        try:
            JournalFile._lock(file)
            _put(file, journal_created(secrets.token_bytes(24)), 0)
            os.fsync(file)
            folder = os.open(os.path.dirname(path) or ".", _FOLDER)
            try:
                os.fsync(folder)
            finally:
                os.close(folder)
        except BaseException:
            os.unlink(path)
            raise
        finally:
            os.close(file)

    def write(self, records: Iterable[Octets], anew: bool = False) -> None:
        """Makes records durable together; with `anew` by a new file. Once this returns, they are for
        `SecY.reserve_granted`.

        If a system call fails, OSError is raised, and nothing is granted. The next `write` replaces the file: wait a
        second before it."""
        with self._writing:
            self._journal.order(records, anew)
            try:
                while (call := self._journal.next()).step != Step.resting:
                    getattr(self, f"_{call.step.name}")(call)
                    self._journal.answered(True)
            except BaseException:
                self._journal.answered(False)
                raise

    def whole(self) -> bytes:
        """What an endpoint is made with: `SecY(.., journal=journal.whole())`."""
        return self._journal.whole()

    def let_go(self, name: Octets) -> None:
        """Lets a name go, as `Journal.let_go`."""
        self._journal.let_go(name)

    def close(self) -> None:
        """Frees the journal, and lets another process have the file. No later call succeeds, except this one."""
        self._journal.close()
        self._close_files()

    def __enter__(self) -> JournalFile:
        return self

    def __exit__(self, *_: object) -> None:
        self.close()

    # ---- What the calls share

    def _close_files(self) -> None:
        for file in (self._file, self._new, self._folder):
            if file >= 0:
                os.close(file)
        self._file = self._new = self._folder = -1

    @staticmethod
    def _lock(file: int) -> None:
        fcntl.flock(file, fcntl.LOCK_EX | fcntl.LOCK_NB)

    def _checked_length(self) -> int:
        """The file's length, if it is a file of this user, or of the folder's owner, that nobody else can open."""
        it, folder = os.fstat(self._file), os.fstat(self._folder)
        if not stat.S_ISREG(it.st_mode) or it.st_nlink > 1:
            raise _fault(errno.EINVAL, self._path)
        if it.st_mode & 0o077 or it.st_uid not in (os.geteuid(), folder.st_uid):
            raise _fault(errno.EACCES, self._path)
        return it.st_size

    def _is_named(self, file: int) -> bool:
        """Does the name lead to this file?"""
        with contextlib.suppress(FileNotFoundError):
            named = os.stat(self._name, dir_fd=self._folder, follow_symlinks=False)
            return os.path.samestat(named, os.fstat(file))
        return False

    def _check_length(self) -> None:
        """Raises if another program has changed the length of the file."""
        if os.fstat(self._file).st_size != self._length:
            raise _fault(errno.ENODATA, self._path)

    def _take_new(self) -> None:
        """The new file has the name, and is the journal from now on."""
        os.close(self._file)
        self._file, self._new = self._new, -1

    # ---- The steps: each makes one call, and raises if that does not succeed

    def _appending(self, call: Call) -> None:
        self._check_length()
        _put(self._file, call.octets, call.at)

    def _syncing(self, _: Call) -> None:
        os.fdatasync(self._file)

    def _looking_after(self, call: Call) -> None:
        self._length = call.end
        if not self._is_named(self._file):
            raise _fault(errno.ESTALE, self._path)
        self._check_length()

    def _looking_before(self, _: Call | None = None) -> None:
        # A rename that failed may be done all the same.
        if self._new >= 0 and self._is_named(self._new):
            self._take_new()
        if not self._is_named(self._file):
            raise _fault(errno.ESTALE, self._path)

    def _removing(self, _: Call) -> None:
        if self._new >= 0:
            os.close(self._new)
            self._new = -1
        with contextlib.suppress(FileNotFoundError):
            os.unlink(self._new_name, dir_fd=self._folder)

    def _creating(self, _: Call) -> None:
        self._new = os.open(self._new_name, _FLAGS | os.O_CREAT | os.O_EXCL, 0o600, dir_fd=self._folder)

    def _locking(self, _: Call) -> None:
        self._lock(self._new)

    def _filling(self, call: Call) -> None:
        self._length = len(call.octets)
        _put(self._new, call.octets, call.at)

    def _syncing_new(self, _: Call) -> None:
        os.fsync(self._new)

    def _renaming(self, _: Call) -> None:
        os.rename(self._new_name, self._name, src_dir_fd=self._folder, dst_dir_fd=self._folder)
        self._take_new()

    def _syncing_folder(self, _: Call) -> None:
        os.fsync(self._folder)
