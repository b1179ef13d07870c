"""What a report draws of each frame: its record, time, packet number and verdict, in 32 octets of memory and some three
in the file; and the replay windows."""

from __future__ import annotations

import base64
import itertools
import operator
import sys
import zlib
from array import array
from collections.abc import Sequence
from typing import Any

from ..names import Verdict

# How many associations are drawn, how many points of each window, and how many numbers stand in a list as they are.
MOST_ROWS, MOST_POINTS, _SHORT_LIST = 64, 1024, 32
_MASK = 2**64 - 1


def packed(numbers: Sequence[int], before: int = 0) -> dict[str, object]:
    """Numbers in little space: the difference of each from the one before it, as a signed number with as many octets as
    the largest one needs, or 8; of all of them first the lowest octets, then the next ones, and so on; compressed by
    zlib, and in base64.

    >>> unpacked(packed([7, 3, 2**64 - 1])), unpacked(packed([300, 100, 428]))
    ([7, 3, 18446744073709551615], [300, 100, 428])
    """
    differences = list(map(operator.sub, numbers, itertools.chain((before,), numbers)))
    largest = max(max(differences, default=0), -min(differences, default=0))
    width = min(8, largest.bit_length() // 8 + 1)
    columns = array("Q", map(operator.and_, differences, itertools.repeat(_MASK)))
    if sys.byteorder == "big":
        columns.byteswap()
    octets = columns.tobytes()
    text = base64.b64encode(zlib.compress(b"".join(octets[it::8] for it in range(width)))).decode()
    return {"count": len(numbers), "packed": text}


def unpacked(column: Any, before: int = 0) -> list[int]:
    """The numbers of a list that may be packed."""
    if isinstance(column, list):
        return column
    octets, count, found = (zlib.decompress(base64.b64decode(column["packed"])), column["count"], [])
    for it in range(count):
        before = (before + int.from_bytes(octets[it::count], "little", signed=True)) & _MASK
        found.append(before)
    return found


def compact(value: Any) -> Any:
    """A value for JSON in which long lists of numbers are packed."""
    if isinstance(value, dict):
        return {name: compact(it) for name, it in value.items()}
    if not isinstance(value, list):
        return value
    if len(value) > _SHORT_LIST and isinstance(value[0], int):
        return packed(value)
    return [compact(it) for it in value]


class Row:
    """The frames of one association under one key, and the replay window over time."""

    def __init__(self, sci: str, an: int, key: str) -> None:
        self.sci, self.an, self.key = sci, an, key
        self.records, self.times, self.numbers, self.verdicts = array("Q"), array("Q"), array("Q"), array("B")
        # Times, the lowest acceptable packet numbers and the next expected ones, not closer than `_every` nanoseconds;
        # and when the next such point is due.
        self.window: list[tuple[int, int, int]] = []
        self._every = self.due = 0

    def add(self, record: int, time: int, number: int, verdict: int) -> None:
        """Adds a frame."""
        self.records.append(record)
        self.times.append(time)
        self.numbers.append(number)
        self.verdicts.append(verdict)

    def add_window(self, time: int, lowest: int, following: int) -> None:
        """Adds a point. Of too many each second one goes, and the next ones are less close."""
        self.window.append((time, lowest, following))
        if len(self.window) > MOST_POINTS:
            self._every = 2 * (time - self.window[0][0]) // MOST_POINTS
            del self.window[1::2]
        self.due = time + self._every

    def as_dict(self, start: int) -> dict[str, object]:
        """What the page draws. Times are nanoseconds after `start`, numbers are differences from `base`."""
        base = self.numbers[0] if self.numbers else 0
        window = [(time - start, lowest - base, following - base) for time, lowest, following in self.window]
        return {
            "sci": self.sci, "an": self.an, "key": self.key, "base": f"{base:x}", "window": window,
            "records": packed(self.records), "times": packed(self.times, start), "numbers": packed(self.numbers, base),
            "verdicts": packed(self.verdicts),
        }  # fmt: skip


class Drawn:
    """The rows of a report, by an association and a key."""

    def __init__(self) -> None:
        self.rows: dict[tuple[str, int, str], Row] = {}

    def row(self, place: tuple[str, int, str]) -> Row:
        """The row of an association under a key."""
        found = self.rows.get(place)
        if found is None:
            found = self.rows[place] = Row(*place)
        return found

    def shown(self) -> list[Row]:
        """The rows that are drawn: those with most frames, in the order of their first records."""
        most = sorted(self.rows.values(), key=lambda it: -len(it.records))[:MOST_ROWS]
        return sorted(most, key=lambda it: it.records[0])

    def as_dict(self, start: int) -> dict[str, object]:
        """The same for the page, and how much is not drawn."""
        shown = self.shown()
        names = [Verdict(it).name for it in range(1 + max((max(it.verdicts) for it in shown), default=0))]
        left = sum(len(it.records) for it in self.rows.values()) - sum(len(it.records) for it in shown)
        return {
            "verdicts": names, "rows": [it.as_dict(start) for it in shown],
            "not drawn": {"associations": len(self.rows) - len(shown), "frames": left},
        }  # fmt: skip
