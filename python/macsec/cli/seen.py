"""The options of the ledger of used IVs, which several commands share."""

from __future__ import annotations

import argparse
import contextlib
from collections.abc import Iterable, Iterator

from ..capture import Packet
from ..errors import UsageError
from ..ledger import MOST, Ledger
from .reading import STDIN


def add_seen_options(parser: argparse.ArgumentParser) -> None:
    """The options of the ledger."""
    parser.add_argument(
        "--seen", metavar="FILE",
        help="a ledger of used IVs, made if it is not there: an IV that another capture used is named too",
    )  # fmt: skip
    parser.add_argument(
        "--seen-limit",
        type=number,
        metavar="N",
        help=f"how many frames it keeps, at first {MOST:,}; then the last ones",
    )


def number(text: str) -> int:
    """A number from 1 on."""
    found = int(text)
    if found < 1:
        raise ValueError
    return found


@contextlib.contextmanager
def ledger_of(asked: argparse.Namespace) -> Iterator[Ledger | None]:
    """The ledger that the options name, or none. At the end it is saved, however the command ends."""
    if asked.seen_limit and not asked.seen:
        raise UsageError("--seen-limit is for a ledger: name it by --seen")
    if not asked.seen:
        yield None
        return
    with Ledger(asked.seen, asked.seen_limit) as ledger:
        try:
            yield ledger
        finally:
            ledger.save()


def seen_in(ledger: Ledger | None, path: str, packets: Iterable[Packet], before: int = 0) -> Iterator[Packet]:
    """The records of a capture, whose frames a ledger gets from now on."""
    if ledger is None:
        return iter(packets)
    return ledger.reading("standard input" if path == STDIN else path, packets, before)
