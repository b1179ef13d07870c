"""Files that are compressed: gzip, bzip2 and xz, which Python reads, and zstd and lz4, which their programs read."""

from __future__ import annotations

import contextlib
import gzip
import importlib
import shutil
import subprocess
import threading
import zlib
from collections.abc import Iterator
from typing import Any, BinaryIO, Callable, cast

from .errors import CaptureError

_PIECE = 1 << 16
# What xz may take. The highest preset of its program takes 65 MiB.
_MOST_MEMORY = 80 << 20
_PROGRAMS = ("zstd", "lz4")


def compression_of(start: bytes) -> str | None:
    """By what a file is compressed that begins with these 4 octets; None if by nothing that is read here.

    >>> compression_of(bytes.fromhex("28b52ffd")), compression_of(bytes.fromhex("d4c3b2a1"))
    ('zstd', None)
    """
    if start[1:] == b"\x2a\x4d\x18" and start[0] >> 4 == 5:
        # A frame to skip, which both have. The program zstd reads what such files have in practice.
        return "zstd"
    magics = {
        b"\x1f\x8b": "gzip", b"BZh": "bzip2", b"\xfd7zX": "xz", b"\x5d\0\0": "xz", b"\x28\xb5\x2f\xfd": "zstd",
        b"\x04\x22\x4d\x18": "lz4", b"\x02\x21\x4c\x18": "lz4",
    }  # fmt: skip
    return next((name for magic, name in magics.items() if start.startswith(magic)), None)


@contextlib.contextmanager
def uncompressed(file: BinaryIO, start: bytes, most: int = 3) -> Iterator[tuple[BinaryIO, bytes]]:
    """A file of which 4 octets were read already, and those of what is in it, which can be compressed again up to
    `most` times. A fault of the compression while it is read raises CaptureError."""
    name = compression_of(start)
    if name is None or not most:
        yield file, start
        return
    whole = cast(BinaryIO, _PutBack(file, start))
    program = _Program(name, whole) if name in _PROGRAMS else None
    try:
        found = cast(BinaryIO, program or _by_python(name, whole))
        with uncompressed(found, found.read(4), most - 1) as inner:
            yield inner
    except EOFError:
        raise CaptureError("the compressed file is cut") from None
    except (gzip.BadGzipFile, zlib.error, _Damaged) as why:
        raise CaptureError(f"the compressed file is damaged: {why}") from None
    finally:
        if program:
            program.close()


class _Damaged(Exception):
    """The compressed octets are not right."""


def _by_python(name: str, file: BinaryIO) -> object:
    if name == "gzip":
        return gzip.GzipFile(fileobj=file)
    try:
        module = importlib.import_module("bz2" if name == "bzip2" else "lzma")
    except ImportError:
        raise CaptureError(f"compressed by {name}, which this Python does not read: uncompress it first") from None
    if name == "bzip2":
        return _Pieces(file, module.BZ2Decompressor, OSError)
    return _Pieces(file, lambda: module.LZMADecompressor(memlimit=_MOST_MEMORY), module.LZMAError)


class _Pieces:
    """What is in a file of bzip2 or xz, which can have several parts one after another."""

    def __init__(self, file: BinaryIO, make: Callable[[], Any], fault: type[Exception]) -> None:
        self._file, self._make, self._fault, self._it = file, make, fault, make()

    def read(self, count: int) -> bytes:
        """So many octets; fewer at the end."""
        found = b""
        while len(found) < count:
            octets = b""
            if self._it.eof:
                octets = (self._it.unused_data or self._file.read(_PIECE)).lstrip(b"\0")
                if not octets:
                    return found
                self._it = self._make()
            elif self._it.needs_input:
                octets = self._file.read(_PIECE)
                if not octets:
                    raise EOFError
            found += self._piece(octets, count - len(found))
        return found

    def _piece(self, octets: bytes, most: int) -> bytes:
        try:
            return cast(bytes, self._it.decompress(octets, most))
        except self._fault as why:
            raise _Damaged(why) from None


class _Program:
    """What is in a file as a program uncompresses it. A thread gives it the octets."""

    def __init__(self, name: str, file: BinaryIO) -> None:
        path = shutil.which(name)
        if path is None:
            raise CaptureError(f"compressed by {name}: install the program {name}, which reads it")
        self._name, self._file = name, file
        self._fault: Exception | None = None
        self._process = subprocess.Popen(
            [path, "-dc"], stdin=subprocess.PIPE, stdout=subprocess.PIPE, stderr=subprocess.DEVNULL
        )
        self._thread = threading.Thread(target=self._feed, daemon=True)
        self._thread.start()

    def _feed(self) -> None:
        assert self._process.stdin
        try:
            for octets in iter(lambda: self._file.read(_PIECE), b""):
                self._process.stdin.write(octets)
        except BrokenPipeError:  # the program has ended
            pass
        except Exception as why:
            self._fault = why
        with contextlib.suppress(OSError):
            self._process.stdin.close()

    def read(self, count: int) -> bytes:
        """So many octets; fewer at the end."""
        assert self._process.stdout
        octets = self._process.stdout.read(count)
        if len(octets) < count:
            status = self._process.wait()
            if self._fault:
                raise self._fault
            if status:
                raise CaptureError(f"the compressed file is cut or damaged: {self._name} ended with status {status}")
        return octets

    def close(self) -> None:
        """Ends the program, if it has not ended."""
        self._process.kill()
        self._process.wait()
        assert self._process.stdout
        self._process.stdout.close()


class _PutBack:
    """A file whose first octets were read already, and which cannot be read again."""

    def __init__(self, file: BinaryIO, start: bytes) -> None:
        self._file, self._start = file, start

    def read(self, count: int = -1) -> bytes:
        start, self._start = self._start, b""
        if count < 0:
            return start + self._file.read()
        if len(start) > count:
            start, self._start = start[:count], start[count:]
        return start + self._file.read(count - len(start))
