"""A file with the first packet number of a key that no run has used, for tests that send frames again and again."""

from __future__ import annotations

import fcntl
import hashlib
import json
import os
import tempfile

from .errors import UsageError
from .hostile import Source

_FORM = "macsec packet numbers 1"
_LONGEST = 4096


def name_of_key(source: Source) -> str:
    """A name of a key and of what else is in its IVs, except the packet number. The key can't be read from it."""
    parts = (source.suite.name.encode(), source.key, source.sci, source.ssci.to_bytes(4, "big"), source.salt)
    made = hashlib.sha256()
    for it in (_FORM.encode(), *parts):
        made.update(len(it).to_bytes(4, "big") + it)
    return made.hexdigest()


class NumberFile:
    """The file, locked until it is closed. `next` is the first packet number that no run has used."""

    def __init__(self, path: str, source: Source) -> None:
        self.path, self._name = path, name_of_key(source)
        self._file = self._opened()
        try:
            self.next = self._read()
        except BaseException:
            self.close()
            raise

    def _opened(self) -> int:
        """The file, locked. It is an error if another run has it."""
        file = os.open(self.path, os.O_RDWR | os.O_CREAT | os.O_CLOEXEC, 0o600)
        try:
            fcntl.flock(file, fcntl.LOCK_EX | fcntl.LOCK_NB)
            # A run that has ended since may have put another file there.
            if not os.path.samestat(os.fstat(file), os.stat(self.path)):
                raise BlockingIOError
        except BlockingIOError:
            os.close(file)
            raise OSError(f"{self.path}: another run uses this file") from None
        except BaseException:
            os.close(file)
            raise
        return file

    def _read(self) -> int:
        text = os.read(self._file, _LONGEST)
        if not text:
            return 1
        try:
            found = json.loads(text)
            form, name, number = found["form"], found["key"], int(found["next"], 16)
        except (ValueError, TypeError, KeyError):
            form = name = number = None
        if form != _FORM or number is None or number < 1:
            raise UsageError(f"{self.path}: no file of packet numbers, or a damaged one; use a new key and a new file")
        if name != self._name:
            raise UsageError(f"{self.path}: of another key, suite, SCI, SSCI or salt")
        return number

    def reserve(self, end: int) -> None:
        """Makes `end` the first unused packet number. It is on disk when this returns."""
        if end <= self.next:
            raise UsageError(f"{self.path}: the first unused packet number is {self.next:x} already")
        folder = os.path.dirname(os.path.abspath(self.path))
        text = json.dumps({"form": _FORM, "key": self._name, "next": f"{end:x}"}) + "\n"
        made, path = tempfile.mkstemp(prefix=os.path.basename(self.path) + ".", dir=folder)
        try:
            fcntl.flock(made, fcntl.LOCK_EX)
            os.write(made, text.encode())
            os.fsync(made)
            os.replace(path, self.path)
        except BaseException:
            os.close(made)
            os.unlink(path)
            raise
        os.close(self._file)
        self._file, self.next = made, end
        holder = os.open(folder, os.O_RDONLY | os.O_DIRECTORY)
        try:
            os.fsync(holder)
        finally:
            os.close(holder)

    def close(self) -> None:
        """Closes the file, and lets another run have it."""
        os.close(self._file)

    def __enter__(self) -> NumberFile:
        return self

    def __exit__(self, *_: object) -> None:
        self.close()
