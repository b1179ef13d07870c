"""The endpoint of a CONFIG, as `macsec validate` has it: every command is carried out, and a refused one is noted."""

from __future__ import annotations

import re
from typing import NamedTuple

from .capture import is_capture
from .errors import Refused, UsageError, error
from .grammar import Command, parse
from .names import SUITES, Suite, suite_of
from .secy import Received, RxSa, SecY


class KeyLine(NamedTuple):
    """A key that CONFIG installed. It is called by its number, or as it was called before CONFIG was made of it."""

    line: int
    number: int
    octets: bytes
    offset: int
    suite: Suite
    ssci: int
    salt: bytes
    called: str = ""

    @property
    def name(self) -> str:
        return self.called or f"key {self.number}"


class Refusal(NamedTuple):
    """A line that was refused."""

    line: int
    number: int
    name: str
    message: str


_OTHER_LENGTH = {it: suite_of(32 if it.key_octets == 16 else 16, it.is_extended) for it in SUITES}


def key_line(command: Command, default: Suite) -> KeyLine:
    """The key of a line `key`. One that names no suite is of the endpoint's."""
    it = command
    return KeyLine(it.line, it.key, it.octets, it.offset, it.suite or default, it.ssci, it.salt)


def without_device_lines(text: bytes) -> bytes:
    """A text in which the lines of macsecd's own, as in NAME.conf, are comments. The others keep their numbers.

    >>> without_device_lines(b" device link eth0\\nend A\\ndevices\\n")
    b' #evice link eth0\\nend A\\ndevices\\n'
    """
    return re.sub(rb"^((?:\xef\xbb\xbf)?[ \t]*)device(?=[ \t\r]|$)", rb"\1#evice", text, flags=re.M)


class Configuration:
    """A CONFIG that the library has carried out; or macsecd's file, without what is for the device alone."""

    def __init__(self, text: bytes) -> None:
        if is_capture(text[:4]):
            raise UsageError("this is a capture, not a CONFIG")
        end, self.commands, faults = parse(without_device_lines(text))
        if faults or end is None:
            raise UsageError(str(faults[0]))
        self.text = text
        self.end_line, self.suite, self.sci, self.max_frame, self.form = end
        self.keys: dict[int, KeyLine] = {}
        self.refusals: list[Refusal] = []
        self._lines = text.split(b"\n")
        self._alone: SecY | None = None
        self._unused: SecY | None = None
        self._channels: list[bytes] | None = None
        self.secy = self._made(True)

    def _made(self, is_first: bool) -> SecY:
        """An endpoint of this text."""
        secy = SecY(self.sci, self.suite, self.form, self.max_frame)
        for command in self.commands:
            try:
                secy.command(self._lines[command.line - 1])
            except Refused as why:
                if is_first:
                    told = str(error(why.number, command.line))
                    self.refusals.append(Refusal(command.line, why.number, why.name, told))
                continue
            if is_first and command.keyword == "key":
                made = key_line(command, self.suite)
                self.keys[made.number] = made
        return secy

    @property
    def is_extended(self) -> bool:
        """Is a key of an extended suite?"""
        return any(it.suite.is_extended for it in self.keys.values())

    def refused_keys(self) -> list[KeyLine]:
        """The keys whose length does not fit their suite, as keys of the suite that it fits."""
        refused = {it.line for it in self.refusals if it.name == "KeyLength"}
        lines = [key_line(it, self.suite) for it in self.commands if it.keyword == "key" and it.line in refused]
        return [it._replace(suite=_OTHER_LENGTH[it.suite]) for it in lines]

    def fresh(self) -> SecY:
        """Another endpoint of the same text, for receiving alone."""
        return self._made(False)

    def alone(self, frame: bytes) -> Received:
        """What becomes of a frame that is the first one."""
        received = self._first().receive(frame)
        if received.frame is not None:
            self._first().close()
            self._unused = None
        return received

    def _first(self) -> SecY:
        """An endpoint that has accepted nothing so far."""
        if self._unused is None:
            self._unused = self.fresh()
        return self._unused

    def channels(self) -> list[bytes]:
        """The SCIs of the receive channels."""
        if self._channels is None:
            self._channels = self._state().rx_scs()
        return self._channels

    def rx_sa(self, sci: bytes, an: int) -> RxSa | None:
        """A receive association as CONFIG leaves it, before any frame; None if there is none."""
        try:
            return self._state().rx_sa(sci, an)
        except LookupError:
            return None

    def close(self) -> None:
        """Frees the endpoints, and the keys in them."""
        self.secy.close()
        for each in (self._alone, self._unused):
            if each is not None:
                each.close()

    def _state(self) -> SecY:
        """An endpoint that receives nothing."""
        if self._alone is None:
            self._alone = self.fresh()
        return self._alone

    def _line_of(self, *wanted: object) -> int | None:
        found = [it.line for it in self.commands if (it.keyword, it.sci, it.an) == wanted]
        return found[-1] if found else None

    def line_of_rxsa(self, sci: bytes, an: int) -> int | None:
        """The number of the last line `rxsa` for an association."""
        return self._line_of("rxsa", sci, an)

    def line_of_rxsc(self, sci: bytes) -> int | None:
        """The number of the last line `rxsc` for a channel."""
        return self._line_of("rxsc", sci, 0)

    def line_of_validate(self) -> int | None:
        """The number of the last line `validate`."""
        return self._line_of("validate", bytes(8), 0)
