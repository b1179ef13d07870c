"""A pair of numbers for each of many packet numbers or IVs, in little memory: a capture can have millions."""

from __future__ import annotations

from array import array

# As many numbers share a block as have the same bits but for these.
_BITS = 3
_LAST = (1 << _BITS) - 1
_EMPTY = array("q", bytes(16 << _BITS))


class Pairs:
    """Pairs by a number. Both have 63 bits and a sign, and the second one is not 0. If most numbers follow each other,
    a pair takes some 40 octets. Of many, the last ones are kept: at most `most`.

    >>> found = Pairs()
    >>> found.setdefault(2**90 + 5, -1, 7), found.setdefault(2**90 + 5, 3, 4), found.setdefault(2**90 + 4, 3, 4)
    (None, (-1, 7), None)
    >>> found.replace(2**90 + 5, 2**63 - 1, 6)
    >>> found.setdefault(2**90 + 5, 0, 1) == (2**63 - 1, 6)
    True
    """

    def __init__(self, most: int | None = None) -> None:
        self._most = most
        self._blocks: dict[int, array[int]] = {}

    def setdefault(self, number: int, one: int, other: int) -> tuple[int, int] | None:
        """The pair of a number; if it has none, it gets this one, and None is returned."""
        block = self._blocks.get(number >> _BITS)
        if block is None:
            block = self._blocks[number >> _BITS] = _EMPTY[:]
            if self._most is not None and len(self._blocks) << _BITS > self._most:
                del self._blocks[next(iter(self._blocks))]
        at = (number & _LAST) << 1
        if block[at + 1]:
            return block[at], block[at + 1]
        block[at], block[at + 1] = one, other
        return None

    def replace(self, number: int, one: int, other: int) -> None:
        """Another pair for a number that has one."""
        at = (number & _LAST) << 1
        self._blocks[number >> _BITS][at : at + 2] = array("q", (one, other))
