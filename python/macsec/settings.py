"""What a frame is opened under, and changes of that."""

from __future__ import annotations

from collections.abc import Sequence
from typing import NamedTuple

from .names import Suite
from .trial import IvTrial, Key, Trial, Trials, of_iv


class Change(NamedTuple):
    """A change of the settings: what kind of cause it is, and what it is, in words."""

    cause: str
    text: str
    line: int | None = None


class Setting(NamedTuple):
    """What a frame is opened under. `cut` octets are left out at its end. `addresses` are those that it was sent with,
    if others are in it, and `iv_sci` is the SCI in the IV, if the tag means another one."""

    key: Key
    sci: bytes
    an: int
    ssci: int = 0
    upper: int = 0
    cut: int = 0
    addresses: bytes = b""
    iv_sci: bytes | None = None

    def octets(self, frame: bytes) -> bytes:
        """The octets of a frame that are opened."""
        whole = frame[: len(frame) - self.cut] if self.cut else frame
        return self.addresses + whole[len(self.addresses) :]

    def opens(self, trials: Trials, frame: bytes) -> bool:
        """Does the library open a frame so?"""
        octets = self.octets(frame)
        if self.iv_sci is not None:
            without_port, port = self.iv_sci[:6] + bytes(2), int.from_bytes(self.iv_sci[6:], "big")
            return trials.opens(of_iv(self.key, without_port), self.sci, self.an, octets, 1, port)
        upper = self.upper if self.key.suite.is_extended else 0
        return trials.opens(self.key, self.sci, self.an, octets, self.ssci, upper)

    def trial(self) -> Trial:
        """An association for frames one after another."""
        if self.iv_sci is not None:
            made: Trial = IvTrial(self.key, self.iv_sci, self.sci, self.an)
        else:
            made = Trial(self.key, self.sci, self.an, self.ssci)
        made.begin(self.upper if self.key.suite.is_extended else 0)
        return made


# One way to change a setting: its name among the ways, and what it gives.
Option = tuple[Change, dict[str, object]]


class Found(NamedTuple):
    """Why a frame does not open. `setting` opens it, and `number` is its whole packet number then; without a setting it
    was not opened. `missing` octets were cut off, or could be if that is negative. `is_partial`: is this a part of the
    cause, since nothing opened it?
    """

    changes: tuple[Change, ...]
    setting: Setting | None = None
    number: int | None = None
    missing: int = 0
    is_partial: bool = False


def go_together(base: Setting, ways: Sequence[str]) -> bool:
    """Can settings be changed in these ways together? Some are of extended suites alone, or of others."""
    if "suite" in ways or "key" in ways:
        return True
    return not {"offset", "iv-sci"} & {*ways} if base.key.suite.is_extended else not {"upper", "ssci", "salt"} & {*ways}


def changed(base: Setting, chosen: Sequence[Option]) -> Setting | None:
    """A setting with some changes; None if they do not go together, or change nothing."""
    given: dict[str, object] = {}
    for _, values in chosen:
        given.update(values)
    key = given.get("key", base.key)
    assert isinstance(key, Key)
    suite = given.get("suite")
    if suite is not None:
        assert isinstance(suite, Suite)
        if suite.key_octets != len(key.octets):
            return None
        key = key._replace(suite=suite, offset=0 if suite.is_extended else key.offset)
    is_extended = key.suite.is_extended
    if (
        is_extended
        and {"offset", "iv_sci"} & given.keys()
        or not is_extended
        and {"upper", "ssci", "salt"} & given.keys()
    ):
        return None
    offset = given.get("offset", key.offset)
    if "offset" in given and offset == key.offset or offset and "iv_sci" in given:
        return None
    assert isinstance(offset, int)
    key = key._replace(offset=offset, salt=key.salt[::-1] if "salt" in given else key.salt)
    others = {name: it for name, it in given.items() if name in ("sci", "ssci", "upper", "cut", "addresses", "iv_sci")}
    return base._replace(key=key, **others)  # type: ignore[arg-type]
