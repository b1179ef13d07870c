"""The settings that opened frames of an association, each with an endpoint that follows the packet numbers."""

from __future__ import annotations

from collections.abc import Sequence

from .alternatives import address_change
from .frames import ICV_OCTETS, SecTag, read_tag
from .settings import Change, Found, Option, Setting, changed
from .trial import OPENED, Trials

MOST_WAYS = 8
# Changes of the frame and not of what it is opened under.
_OF_FRAMES = ("cut", "addresses")


def data_octets(frame: bytes, tag: SecTag) -> int:
    """How many octets are between the SecTAG and the ICV."""
    return tag.sl or max(len(frame) - tag.end - ICV_OCTETS, 0)


def upper_half(pn: int, next_number: int) -> int:
    """The upper half that a packet number has most likely, if its association expects this one.

    >>> [upper_half(pn, 0x2_FFFF_FFF0) for pn in (0xFFFF_FFF5, 3)]
    [2, 3]
    """
    return min((next_number >> 32) + (next_number >> 31 & 1 and not pn >> 31), 0xFFFF_FFFF)


def near(base: Setting, pn: int, next_number: int | None) -> Setting:
    """A setting with the upper half that its association has come to."""
    if next_number is None or not base.key.suite.is_extended:
        return base
    return base._replace(upper=upper_half(pn, next_number))


def covers_all(setting: Setting, frame: bytes) -> bool:
    """Is the confidentiality offset so large that it leaves nothing to encrypt? Then it says nothing of the frame."""
    octets = setting.octets(frame)
    tag = read_tag(octets)
    return bool(setting.key.offset) and tag is not None and data_octets(octets, tag) <= setting.key.offset


class Way:
    """Changes of a setting that opened a frame. `before` are the causes that come before these changes."""

    def __init__(self, base: Setting, chosen: Sequence[Option], setting: Setting, before: tuple[Change, ...]) -> None:
        self.base, self.chosen, self.before = base, tuple(chosen), before
        self._setting, self._trial, self._upper = setting, setting.trial(), setting.upper
        self._follows = setting.key.suite.is_extended and all("upper" not in given for _, given in chosen)
        self._number: int | None = None

    def open(self, frame: bytes, tag: SecTag, start: Setting | None, trials: Trials) -> Found | None:
        """Opens a frame, as one after those before or as the first one of the upper half of `start`: the changes that
        this frame needs, its setting and its number."""
        octets = self._setting.octets(frame)
        if read_tag(octets) is None or not self._receives(octets, frame, start, trials):
            return None
        self._number = self._trial.packet_number(tag.pn)
        setting = self._setting._replace(upper=self._number >> 32)
        needed = self._needed(frame, tag, trials)
        return Found((*self.before, *(_change_of(it, frame) for it in needed)), setting, self._number)

    def _receives(self, octets: bytes, frame: bytes, start: Setting | None, trials: Trials) -> bool:
        if self._trial.receive(octets).verdict in OPENED:
            return True
        if start is None or not self._follows or start.upper == self._upper:
            return False
        if not self._setting._replace(upper=start.upper).opens(trials, frame):
            return False
        self._upper = start.upper
        self._trial.begin(self._upper)
        return self._trial.receive(octets).verdict in OPENED

    def _needed(self, frame: bytes, tag: SecTag, trials: Trials) -> tuple[Option, ...]:
        """The changes without which a frame does not open. Others of the same association needed all of them."""
        needed = self.chosen
        for option in self.chosen:
            if not _can_be_spared(option, frame, tag):
                continue
            fewer = tuple(it for it in needed if it is not option)
            setting = changed(self.base, fewer)
            if setting and self._number is not None and setting.key.suite.is_extended:
                setting = setting._replace(upper=self._number >> 32)
            if setting and setting.opens(trials, frame):
                needed = fewer
        return needed

    def of_keys(self, tag: SecTag) -> tuple[tuple[Option, ...], Setting | None]:
        """The changes that are not of the frame, and the setting with them alone, at the packet number of a frame."""
        chosen = tuple(it for it in self.chosen if not any(name in it[1] for name in _OF_FRAMES))
        setting = changed(self.base, chosen)
        if setting and self._number is not None:
            setting = near(setting, tag.pn, self._number + 1)
        return chosen, setting

    def close(self) -> None:
        self._trial.close()


def _can_be_spared(option: Option, frame: bytes, tag: SecTag) -> bool:
    """Can a frame open without a change that it opens with?"""
    given = option[1]
    if "cut" in given:
        # Octets after the ICV are no fault if SL says where that is.
        return bool(tag.sl)
    if "addresses" in given:
        return given["addresses"] == frame[:12]
    return "offset" in given and (not tag.tci & 8 or data_octets(frame, tag) <= 50)


def _change_of(option: Option, frame: bytes) -> Change:
    """A change as it is of this frame."""
    sent = option[1].get("addresses")
    return address_change(sent, frame) if isinstance(sent, bytes) else option[0]
