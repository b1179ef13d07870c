"""Which association a CONFIG has for a frame; why it has none, and what a sender can then have used."""

from __future__ import annotations

from collections.abc import Iterator
from typing import Callable, NamedTuple

from .alternatives import key_of
from .endpoint_of_config import Configuration, Refusal
from .frames import SecTag, sender_of
from .grammar import Command
from .secy import RxSa
from .settings import Change, Setting
from .trial import Key


class Row(NamedTuple):
    """A receive association of CONFIG as it is before any frame."""

    sci: bytes
    an: int
    sa: RxSa


class Associations:
    """The receive associations of one CONFIG. `keys` are all keys that one with an association number can have."""

    def __init__(self, configuration: Configuration, keys: Callable[[int], list[Key]]) -> None:
        self._configuration, self._keys = configuration, keys
        self._rows: list[Row] | None = None

    def row_of(self, frame: bytes, tag: SecTag) -> Row | None:
        """The association that CONFIG has for a frame."""
        named = sender_of(frame, tag)
        scis = self._configuration.channels()
        # Without an SCI, ES and SCB a receiver takes its only channel.
        if tag.names_nobody:
            named = scis[0] if len(scis) == 1 else named
        sa = self._configuration.rx_sa(named, tag.an)
        return Row(named, tag.an, sa) if sa else None

    def setting_of(self, row: Row) -> Setting | None:
        """What CONFIG opens the frames of an association under."""
        line = self._configuration.keys.get(row.sa.key)
        return Setting(key_of(line), row.sci, row.an, row.sa.ssci, row.sa.lowest >> 32) if line else None

    def setting(self, sci: bytes, an: int) -> Setting | None:
        """The same, of the association of a sender; None if CONFIG has none."""
        sa = self._configuration.rx_sa(sci, an)
        return self.setting_of(Row(sci, an, sa)) if sa else None

    def rows(self) -> list[Row]:
        """All of them."""
        if self._rows is None:
            numbers = [(sci, an) for sci in self._configuration.channels() for an in range(4)]
            found = [(sci, an, self._configuration.rx_sa(sci, an)) for sci, an in numbers]
            self._rows = [Row(sci, an, sa) for sci, an, sa in found if sa]
        return self._rows

    def why_none(self, frame: bytes, tag: SecTag) -> Change:
        """Why CONFIG has no association for a frame."""
        rows, channels = self.rows(), self._configuration.channels()
        if tag.names_nobody and len(channels) == 1:
            return Change("an", f"AN {tag.an}; CONFIG has AN {', '.join(str(it.an) for it in rows) or 'none'}")
        if tag.names_nobody and channels:
            why = "no SCI in the SecTAG"
            return Change("channel", f"{why}: CONFIG has {len(channels)} channels; one alone is expected")
        return self._why_none(sender_of(frame, tag), tag.an, rows, channels)

    def _why_none(self, sci: bytes, an: int, rows: list[Row], channels: list[bytes]) -> Change:
        configuration = self._configuration
        off = configuration.rx_sa(sci, an)
        refused = self._refused(sci, an)
        if off is not None and not off.on:
            text = f"SCI {sci.hex()} AN {an} is not enabled: rxon is missing"
            return Change("off", text, configuration.line_of_rxsa(sci, an))
        if sci == configuration.sci:
            text = f"the line end has the frame's SCI {sci.hex()} as its own"
            return Change("own-sci", text, configuration.end_line)
        if refused:
            command, refusal = refused
            text = f"this line is refused, so there is no association: {refusal.name}"
            return Change("refused", text, command.line)
        if sci in channels:
            has = ", ".join(f"AN {it.an}" for it in rows if it.sci == sci) or "no association"
            return Change("an", f"AN {an} of SCI {sci.hex()}; CONFIG has {has}", configuration.line_of_rxsc(sci))
        has = ", ".join(it.hex() for it in channels) or "none"
        return Change("sci", f"SCI {sci.hex()}; CONFIG has {has}")

    def with_hint(self, change: Change) -> Change:
        """The cause, and what is likely if it is a refused line whose packet number is too large."""
        command = next((it for it in self._configuration.commands if it.line == change.line), None)
        if change.cause != "refused" or command is None or command.keyword != "rxsa":
            return change
        digits = f"{command.pn:x}"
        if len(digits) < 9 or not digits.isdecimal():
            return change
        return change._replace(text=f"{change.text}; packet numbers are hex, and decimal {digits} is {int(digits):x}")

    def _refused(self, sci: bytes, an: int) -> tuple[Command, Refusal] | None:
        """The first refused line without which there is no such association: for its key, its channel or itself."""
        configuration = self._configuration
        refusals = {it.line: it for it in configuration.refusals}
        wanted = self._lines_of(sci, an)
        keys = [it.key for it in wanted]
        for command in configuration.commands:
            is_of = command.keyword == "key" and command.key in keys
            is_of = is_of or command.keyword == "rxsc" and command.sci == sci or command in wanted
            if is_of and command.line in refusals:
                return command, refusals[command.line]
        return None

    def _lines_of(self, sci: bytes, an: int) -> list[Command]:
        """The lines `rxsa` for an association."""
        return [it for it in self._configuration.commands if (it.keyword, it.sci, it.an) == ("rxsa", sci, an)]

    def settings(self, an: int) -> list[Setting]:
        """What CONFIG opens frames with an association number under, whoever sends them."""
        return [it for it in map(self.setting_of, self.rows()) if it and it.an == an]

    def likely(self, frame: bytes, tag: SecTag) -> list[Setting]:
        """Settings for an association that CONFIG lacks: from its own line if that is refused, then from the other
        lines, the same SCI or AN first. A frame that names nobody can be of any channel."""
        found: dict[Setting, Setting] = {}
        for it in self._likely(frame, tag):
            # Without extended packet numbers the SSCI makes no difference.
            found.setdefault(it if it.key.suite.is_extended else it._replace(ssci=0), it)
        return list(found.values())

    def _likely(self, frame: bytes, tag: SecTag) -> Iterator[Setting]:
        rows, channels = self.rows(), self._configuration.channels()
        if tag.names_nobody and channels:
            yield from filter(None, (self.setting_of(it._replace(an=tag.an)) for it in rows))
            return
        sci, an = sender_of(frame, tag), tag.an
        refused = self._configuration.refused_keys()
        lines = {**{it.number: it for it in refused}, **self._configuration.keys}
        for it in self._lines_of(sci, an):
            if it.key in lines:
                # Without an SSCI it is likely the first one.
                yield Setting(key_of(lines[it.key]), sci, an, it.ssci or 1, it.pn >> 32)
        for row in sorted(rows, key=lambda it: (it.sci != sci) + (it.an != an)):
            setting = self.setting_of(row._replace(sci=sci, an=an))
            if setting:
                yield setting
        for key in [*map(key_of, refused), *self._keys(an)]:
            yield Setting(key, sci, an, 1)
