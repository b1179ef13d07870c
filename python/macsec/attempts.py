"""Which keys, SCIs, SSCIs and upper halves are tried for a frame that no association opens: the likely ones first, and
in all no more than grow with the keys and the frames."""

from __future__ import annotations

from collections.abc import Iterable, Iterator, Sequence
from typing import NamedTuple

from .frames import SecTag, sender_of
from .names import Suite
from .trial import IvTrial, Key, KeyArgument, Trial, Trials, of_iv

# How many settings are tried in a run: at first, for each key, and for each frame that does not open at once.
_AT_FIRST, _FOR_A_KEY, _FOR_A_FRAME = 90_000, 100, 40
UPPER_HALVES, SSCIS, WIDE = 256, 16, 65_536
_FEW_UPPER_HALVES, _FEW_SSCIS = 4, 4
_USUAL_PORTS, PORTS = (0, 2, 3), 65_536
_MOST_KNOWN = 64
# How many tries the endpoint of another key takes.
_NEW_KEY = 10


class Known(NamedTuple):
    """What the capture and earlier frames show: SCIs, the SSCI of each, and upper halves."""

    scis: dict[bytes, None]
    sscis: dict[bytes, int]
    uppers: dict[int, None]

    def note(self, trial: Trial, upper: int) -> None:
        """Notes how a frame was opened."""
        sci = trial.sci_of_iv or trial.sci
        if len(self.scis) < _MOST_KNOWN:
            self.scis[sci] = None
        if trial.key.suite.is_extended and trial.sci_of_iv is None:
            self.sscis[sci] = trial.ssci
            if len(self.uppers) < _MOST_KNOWN:
                self.uppers[upper] = None


class Attempt(NamedTuple):
    """A setting. `iv_sci` is the SCI in the IV, if the tag means another one."""

    key: Key
    sci: bytes
    ssci: int = 0
    upper: int = 0
    iv_sci: bytes | None = None

    def opens(self, trials: Trials, an: int, frame: bytes) -> bool:
        """Does a frame open so?"""
        if self.iv_sci is not None:
            # The upper half is where the port is in the IV, so one endpoint tries all ports.
            without_port, port = self.iv_sci[:6] + bytes(2), int.from_bytes(self.iv_sci[6:], "big")
            return trials.opens(of_iv(self.key, without_port), self.sci, an, frame, 1, port)
        return trials.opens(self.key, self.sci, an, frame, self.ssci, self.upper)

    def trial(self, frame: Frame) -> Trial:
        """An association for this frame and those after it."""
        if self.iv_sci is not None and not frame.names_nobody:
            return IvTrial(self.key, self.iv_sci, self.sci, frame.tag.an)
        made = Trial(self.key, self.iv_sci or self.sci, frame.tag.an, self.ssci)
        made.begin(self.upper)
        return made


class Frame(NamedTuple):
    """A frame to be opened, without VLAN tags before its SecTAG, and its tag."""

    octets: bytes
    tag: SecTag

    @property
    def address(self) -> bytes:
        return self.octets[6:12]

    @property
    def meant(self) -> bytes:
        """The SCI that the tag means."""
        return sender_of(self.octets, self.tag)

    @property
    def names_nobody(self) -> bool:
        """Has the tag neither SCI nor ES nor SCB?"""
        return self.tag.names_nobody


class Keys:
    """The keys of a run, with their names, in the order in which they are tried: first the one that opened last, and
    those after it; then those that a frame of MKA distributed last."""

    def __init__(self, keys: Sequence[KeyArgument], suite: Suite | None, offset: int | None) -> None:
        self._keys = list(keys)
        self.suite, self._offset = suite, offset
        self._names = [it.name or it.id or f"key {number}" for number, it in enumerate(self._keys, 1)]
        self._first = 0

    def add(self, key: KeyArgument) -> None:
        """Adds a key, unless it is there, and tries it first from here on."""
        if key not in self._keys:
            self._keys.append(key)
            self._names.append(key.name)
        self._first = self._keys.index(key)

    def opened(self, name: str) -> None:
        """Notes the key that opened a frame."""
        self._first = self._names.index(name)

    def __len__(self) -> int:
        return len(self._keys)

    def fitting(self, frame: Frame, count: int | None = None) -> Iterator[tuple[KeyArgument, Key]]:
        """The keys that a frame can have, once for each suite and offset. `count` is how many there were."""
        order = [*range(self._first, len(self._keys)), *range(self._first)] if count is None else range(count)
        for place in order:
            argument = self._keys[place]
            if argument.an in (None, frame.tag.an) and _is_whose(argument, frame):
                for suite in argument.suites(self.suite):
                    for offset in self._offsets(argument, suite):
                        yield argument, Key(
                            argument.octets, suite, offset, argument.salt or bytes(12), self._names[place]
                        )

    def _offsets(self, argument: KeyArgument, suite: Suite) -> tuple[int, ...]:
        if suite.is_extended:
            return (0,)
        asked = self._offset if argument.offset is None else argument.offset
        return (0, 30, 50) if asked is None else (asked,)

    def restrictions(self) -> list[str]:
        """What the options --suite and --offset left out."""
        found = [f"suites other than {self.suite.name} (--suite)"] if self.suite else []
        return found + ([f"offsets other than {self._offset} (--offset)"] if self._offset is not None else [])

    def misfit(self, frame: Frame, count: int) -> str:
        """Why none of the first keys fits a frame."""
        if not count:
            return "no key was known before it" if self._keys else "no key is known"
        of_an = [it for it in self._keys[:count] if it.an in (None, frame.tag.an)]
        if not of_an:
            return f"no key is for AN {frame.tag.an}"
        if not any(_is_whose(it, frame) for it in of_an):
            return f"no key for AN {frame.tag.an} is for this SCI"
        return f"no key for it is of the suite {self.suite.name}" if self.suite else "no key is for it"


def _is_whose(argument: KeyArgument, frame: Frame) -> bool:
    """Can the sender that a key is for have sent a frame? A tag without an SCI can be of any."""
    return argument.sci is None or frame.tag.sci is None or argument.sci == frame.tag.sci


class Effort:
    """How many settings a run may try still."""

    def __init__(self, keys: int) -> None:
        self._left = _AT_FIRST + _FOR_A_KEY * keys
        self._taken = 0
        self._last: Key | None = None
        # Was something left out for the last frame?
        self.is_spent = False

    def begin(self) -> None:
        """Another frame."""
        self._left += _FOR_A_FRAME
        self._taken, self.is_spent = 0, False

    def take(self, key: Key, frame: bytes) -> bool:
        """Takes one try from what is left. A long frame counts for more, and so does another key."""
        count = 1 + len(frame) // 800 + (0 if key is self._last else _NEW_KEY)
        self._last = key
        self._taken += count
        self._left -= count
        self.is_spent = self._left <= 0
        return not self.is_spent

    def add_key(self) -> None:
        """Another key."""
        self._left += _FOR_A_KEY

    def refund(self) -> None:
        """The last frame opened: what it took counts for nothing."""
        self._left += self._taken
        self._taken = 0


class Place(NamedTuple):
    """Where a frame is in the stream of its sender: the last upper half there, and whether it is searched widely."""

    upper: int
    is_wide: bool


def usual_attempts(keys: Keys, frame: Frame, known: Known, place: Place) -> Iterator[Attempt]:
    """The settings that are likely for a frame, of all keys; then those that are common."""
    for argument, key in keys.fitting(frame):
        yield from _likely(argument, key, frame, known, place)
    for argument, key in keys.fitting(frame):
        yield from _usual(argument, key, frame, known, place)


def wide_attempts(keys: Keys, frame: Frame, known: Known) -> Iterator[Attempt]:
    """The settings that take long."""
    for argument, key in keys.fitting(frame):
        yield from _wide(argument, key, frame, known)


def _sci_of(argument: KeyArgument, frame: Frame) -> bytes:
    """The SCI of the sender: in the tag, of the key, or what the tag means."""
    return argument.sci if argument.sci and frame.names_nobody else frame.meant


def _likely(argument: KeyArgument, key: Key, frame: Frame, known: Known, place: Place) -> Iterator[Attempt]:
    """What a frame needs if nothing is unusual."""
    sci = _sci_of(argument, frame)
    if not key.suite.is_extended:
        yield Attempt(key, sci)
        return
    near = place.upper if argument.upper is None else argument.upper
    uppers = [near, min(near + 1, 0xFFFF_FFFF), max(near - 1, 0)]
    uppers += [] if argument.upper is not None else list(known.uppers)[:_FEW_UPPER_HALVES]
    for ssci in _sscis(argument, sci, known, 2):
        yield from (Attempt(key, sci, ssci, it) for it in dict.fromkeys(uppers))


def _sscis(argument: KeyArgument, sci: bytes, known: Known, count: int) -> list[int]:
    """The SSCI of the key, or the one that the sender has under another key, those that MKA gives it, and the first."""
    if argument.ssci is not None:
        return [argument.ssci]
    found = [known.sscis[sci]] if sci in known.sscis else []
    found += [ssci for whose, ssci in argument.sscis if whose == sci]
    return list(dict.fromkeys([*found, *range(1, count + 1)]))


def _usual(argument: KeyArgument, key: Key, frame: Frame, known: Known, place: Place) -> Iterator[Attempt]:
    """What is common: other ports, low SSCIs, low upper halves."""
    sci = _sci_of(argument, frame)
    if not key.suite.is_extended:
        if frame.tag.sci is None:
            yield from _other_scis(argument, key, frame, known)
        return
    sscis = _sscis(argument, sci, known, SSCIS if place.is_wide else _FEW_SSCIS)
    if argument.ssci is None:
        sscis += [it << 24 for it in range(1, _FEW_SSCIS + 1)]
    uppers: Iterable[int] = range(UPPER_HALVES if place.is_wide else _FEW_UPPER_HALVES)
    if argument.upper is not None:
        uppers = (argument.upper,)
    # One endpoint tries all upper halves, so these are the inner loop.
    for ssci in sscis:
        yield from (Attempt(key, sci, ssci, it) for it in uppers)


def _other_scis(argument: KeyArgument, key: Key, frame: Frame, known: Known) -> Iterator[Attempt]:
    """SCIs that a tag does not carry: the key's, the other senders', and the usual ports of the source address."""
    scis = [argument.sci] if argument.sci else [*(frame.address + bytes([0, it]) for it in _USUAL_PORTS), *known.scis]
    for sci in dict.fromkeys(scis):
        if frame.names_nobody:
            yield Attempt(key, sci)
        elif not key.offset:
            yield Attempt(key, frame.meant, iv_sci=sci)


def _wide(argument: KeyArgument, key: Key, frame: Frame, known: Known) -> Iterator[Attempt]:
    """All ports of the source address; all upper halves below 2^16 of one SSCI, or all SSCIs below it of one half."""
    if not key.suite.is_extended:
        if frame.tag.sci is None and argument.sci is None and not key.offset:
            yield from (Attempt(key, frame.meant, iv_sci=frame.address + it.to_bytes(2, "big")) for it in range(PORTS))
        return
    sci = _sci_of(argument, frame)
    ssci = argument.ssci if argument.ssci is not None else known.sscis.get(sci)
    if argument.upper is not None and argument.ssci is None:
        yield from (Attempt(key, sci, it, argument.upper) for it in range(WIDE))
    elif argument.upper is None and ssci is not None:
        yield from (Attempt(key, sci, ssci, it) for it in range(UPPER_HALVES, WIDE))
