"""What the tests share."""

from __future__ import annotations

import contextlib
import io
import os
import pathlib
import tempfile
import unittest
from collections.abc import Iterator, Sequence
from typing import Callable

from macsec import capture

ROOT = pathlib.Path(__file__).resolve().parent.parent.parent
CAPTURES, DATA = ROOT / "examples" / "captures", ROOT / "python" / "tests" / "data"
SENDER, OTHER, RECEIVER = "0200000000010001", "0200000000020001", "0200000000030001"
KEYS = [bytes.fromhex(it) for it in (
    "ad7a2bd03eac835a6f620fdcb506b345", "000102030405060708090a0b0c0d0e0f", "101112131415161718191a1b1c1d1e1f",
    "202122232425262728292a2b2c2d2e2f", "303132333435363738393a3b3c3d3e3f",
)]  # fmt: skip
LONG_KEY = bytes(range(64, 96))
SALT = bytes.fromhex("a0a1a2a3a4a5a6a7a8a9aaab")
START = 1_700_000_000 * 10**9


def main_of(main: Callable[[Sequence[str]], int], *words: object) -> tuple[int, str, str]:
    """The status of a command, and what it prints on both streams."""
    out, error = io.StringIO(), io.StringIO()
    with contextlib.redirect_stdout(out), contextlib.redirect_stderr(error):
        try:
            status = main([str(it) for it in words])
        except SystemExit as it:
            status = int(it.code or 0)
    return status, out.getvalue(), error.getvalue()


class InFolder(unittest.TestCase):
    def setUp(self) -> None:
        room = tempfile.TemporaryDirectory()
        self.addCleanup(room.cleanup)
        self.folder = pathlib.Path(room.name)

    def put(self, name: str, what: object) -> str:
        """Writes a text, octets, or frames as a capture, and returns the path."""
        path = self.folder / name
        if isinstance(what, str):
            path.write_text(what)
        elif isinstance(what, bytes):
            path.write_bytes(what)
        else:
            frames = list(what)  # type: ignore[call-overload]
            capture.write_pcap(str(path), [(START + number * 10**6, it) for number, it in enumerate(frames)])
        return str(path)

    def names(self) -> list[str]:
        return sorted(os.listdir(self.folder))


@contextlib.contextmanager
def environment(**values: str) -> Iterator[None]:
    before = dict(os.environ)
    os.environ.update(values)
    try:
        yield
    finally:
        os.environ.clear()
        os.environ.update(before)
