"""The records of a capture as a command reads them: up to a fault, from a pipe, and with progress on a terminal."""

from __future__ import annotations

import collections
import contextlib
import os
import signal
import sys
import threading
import time
from collections import Counter
from collections.abc import Iterator, Sequence
from types import FrameType, TracebackType
from typing import BinaryIO, Callable, cast

from .. import capture, tunnels
from ..cak import Cak, KeyAgreements
from ..errors import CaptureError
from ..trial import KeyArgument
from . import warn

STDIN = "-"
# A command that takes longer than the first time (in seconds) shows how far it is, again after each second one.
_PATIENCE, _EACH = 2.0, 0.5


class Reading:
    """The records of IN, a path or `-`, and how far the command is, which a terminal shows until the end. A protected
    frame, or one of MKA, takes the place of the packet of the tunnel that it is in.

    A fault after the first record ends them with a warning, and `is_cut` says so: the records before it are whole. From
    standard input, SIGINT ends them too, so that the keyboard ends `tcpdump -w - | macsec-why CONFIG -` and the result
    is still printed; a second SIGINT ends the process.
    """

    def __init__(self, command: str, path: str) -> None:
        self.is_cut = False
        self.count = 0
        self._counts: Counter[str] = collections.Counter()
        self._command, self._path, self._is_read = command, path, False
        self._progress: _Progress | None = None
        self._file = cast(BinaryIO, _Stdin()) if path == STDIN else open(path, "rb")

    def __enter__(self) -> Reading:
        if self._path != STDIN and sys.stderr is not None and sys.stderr.isatty():
            self._progress = _Progress(lambda: f"{self._command}: {self._done()}")
        return self

    def __exit__(self, kind: type[BaseException] | None, _: BaseException | None, __: TracebackType | None) -> None:
        if self._progress is not None:
            self._progress.close()
        self._file.close()

    def __iter__(self) -> Iterator[capture.Packet]:
        try:
            for packet in tunnels.opened(capture.read(self._file, self._counts)):
                self.count += 1
                yield packet
        except CaptureError as why:
            if not self.count:
                raise CaptureError(f"{self._path}: {why}") from None
            self.is_cut = True
            if self._progress is not None:
                self._progress.clear()
            warn(self._command, f"{self._path}: {why}; {records_text(self.count)} before that")
        self._is_read = True

    @property
    def times(self) -> list[str]:
        """How many records have other times here than in the file."""
        count = self._counts["outside"]
        return [f"{records_text(count)} with a time outside 1970 to 2106: the nearest one is taken"] * bool(count)

    def _done(self) -> str:
        """How far it is."""
        text = records_text(self.count)
        if self._is_read:
            return f"{text} read, searching"
        try:
            size = os.fstat(self._file.fileno()).st_size
            return f"{text}, {100 * self._file.tell() // size} %" if size else text
        except (OSError, ValueError):
            return text


def can_be_read_again(path: str) -> bool:
    """Is this a file, and no pipe?"""
    return path != STDIN and os.path.isfile(path)


def keys_of_mka(paths: Sequence[str], caks: Sequence[Cak]) -> list[KeyArgument]:
    """The keys that frames of MKA distribute in captures which can be read twice: so a key is known for frames before
    the one that has it. A fault ends this: the command finds it when it reads the file again."""
    found: list[KeyArgument] = []
    agreements = KeyAgreements(caks)
    for path in paths if caks and all(map(can_be_read_again, paths)) else ():
        with open(path, "rb") as file, contextlib.suppress(CaptureError):
            for packet in tunnels.opened(capture.read(file)):
                key = agreements.add(packet.number, packet.frame) if packet.is_whole else None
                found += [key] if key else []
    return found


def records_text(count: int) -> str:
    """A number of records."""
    return f"{count} record" + ("" if count == 1 else "s")


class _Stdin:
    """Standard input, which SIGINT ends once."""

    def __init__(self) -> None:
        if sys.stdin is None:
            raise OSError("standard input is closed")
        self._file = sys.stdin.buffer
        self._is_over = self._is_waiting = self._is_caught = False
        if signal.getsignal(signal.SIGINT) == signal.default_int_handler:
            try:
                signal.signal(signal.SIGINT, self._end)
                self._is_caught = True
            except ValueError:  # not the main thread
                pass

    def _end(self, _: int, __: FrameType | None) -> None:
        signal.signal(signal.SIGINT, signal.default_int_handler)
        self._is_over = True
        if self._is_waiting:
            raise KeyboardInterrupt

    def read(self, count: int = -1) -> bytes:
        try:
            self._is_waiting = True
            return b"" if self._is_over else self._file.read(count)
        except KeyboardInterrupt:
            return b""
        finally:
            self._is_waiting = False

    def close(self) -> None:
        if self._is_caught:
            signal.signal(signal.SIGINT, signal.default_int_handler)


class _Progress:
    """A line on a terminal about how far a command is, which is renewed and then removed."""

    def __init__(self, done: Callable[[], str]) -> None:
        self._done = done
        self._over = threading.Event()
        self._thread = threading.Thread(target=self._show, daemon=True)
        self._thread.start()

    def _show(self) -> None:
        begin = time.monotonic()
        if self._over.wait(_PATIENCE):
            return
        while not self._over.is_set():
            sys.stderr.write(f"\r{self._done()}, {time.monotonic() - begin:.0f} s\x1b[K")
            sys.stderr.flush()
            self._over.wait(_EACH)
        self.clear()

    @staticmethod
    def clear() -> None:
        sys.stderr.write("\r\x1b[K")
        sys.stderr.flush()

    def close(self) -> None:
        self._over.set()
        self._thread.join()
