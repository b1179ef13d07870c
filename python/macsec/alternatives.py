"""The ways to change a setting: the likely ones, more of each if it is changed alone, and those that take long."""

from __future__ import annotations

import dataclasses
from collections.abc import Iterator, Sequence

from .endpoint_of_config import Configuration, KeyLine
from .frames import SecTag
from .names import SUITES, suite_of
from .settings import Change, Option, Setting
from .trial import Key, KeyArgument

_TWINS = {it: suite_of(it.key_octets, not it.is_extended) for it in SUITES}
UPPER_HALVES, _FEW_UPPER_HALVES = 256, 8
SSCIS, _FEW_SSCIS, _FEW_SCIS = 16, 4, 8
WIDE, _TOGETHER = 65_536, 2_048
_LONGEST_TRAILER = 64
_MOST_KEYS, _MOST_ADDRESSES, _FEW_ADDRESSES = 64, 32, 8
_BROADCAST = b"\xff" * 6


@dataclasses.dataclass
class Shown:
    """What a capture and the options show: SCIs, addresses, SSCIs and upper halves, each in the order of its coming."""

    scis: dict[bytes, None] = dataclasses.field(default_factory=dict)
    addresses: dict[bytes, None] = dataclasses.field(default_factory=dict)
    sscis: dict[int, None] = dataclasses.field(default_factory=dict)
    uppers: dict[int, None] = dataclasses.field(default_factory=dict)

    def add(self, frame: bytes, tag: SecTag | None) -> None:
        """Adds a frame."""
        if len(self.addresses) < _MOST_ADDRESSES:
            self.addresses[frame[6:12]] = self.addresses[frame[:6]] = None
        if tag is not None and tag.sci:
            self.add_sci(tag.sci)

    def add_key(self, key: KeyArgument) -> None:
        """Adds what is known with a key."""
        if key.upper is not None and len(self.uppers) < _MOST_ADDRESSES:
            self.uppers[key.upper] = None
        for ssci in (key.ssci, *(ssci for _, ssci in key.sscis)):
            if ssci is not None and len(self.sscis) < _MOST_ADDRESSES:
                self.sscis[ssci] = None

    def add_sci(self, sci: bytes) -> None:
        """Adds the SCI of a sender."""
        if len(self.scis) < _MOST_ADDRESSES:
            self.scis[sci] = None


def key_of(line: KeyLine) -> Key:
    """The key of a line of CONFIG."""
    return Key(line.octets, line.suite, line.offset, line.salt, line.name)


def reversed_ssci(ssci: int) -> int:
    """The SSCI with its octets in the other order."""
    return int.from_bytes(ssci.to_bytes(4, "big"), "little")


class Alternatives:
    """The ways to change settings of one CONFIG. Each of more keys can be for an association number alone."""

    def __init__(self, configuration: Configuration, more_keys: Sequence[tuple[Key, int | None]], shown: Shown) -> None:
        self._configuration, self._more_keys, self._shown = configuration, more_keys, shown
        self._lines = list(configuration.keys.values())[:_MOST_KEYS]

    def keys(self, an: int) -> list[Key]:
        """The keys of CONFIG, and more that an association of this number can have."""
        return [*map(key_of, self._lines), *(key for key, only in self._more_keys if only in (None, an))]

    def usual(
        self, base: Setting, line: int | None, frame: bytes, tag: SecTag | None, is_alone: bool
    ) -> dict[str, list[Option]]:
        """The ways by their names; more of each if it alone is changed."""
        of_key, most = self._line_of(base), None if is_alone else _FEW_SCIS
        twin = _TWINS[base.key.suite]
        found: dict[str, list[Option]] = {
            "key": [
                (Change("key", f"{it.name} in place of {base.key.name}", line), {"key": it})
                for it in self.keys(base.an) if it.octets != base.key.octets
            ],
            "sci": [
                (_sci(it, base, line), {"sci": it})
                for it in self._scis(base, frame, tag)[:most] if it != base.sci
            ],
            "suite": [
                (Change("suite", f"suite {twin.name}, not {base.key.suite.name}", of_key), {"suite": twin})
            ],
            "offset": self.offsets(base),
        }  # fmt: skip
        uppers = range(UPPER_HALVES if is_alone else _FEW_UPPER_HALVES)
        found["upper"] = [
            (_upper(it, base, line), {"upper": it})
            for it in dict.fromkeys([max(base.upper - 1, 0), base.upper + 1, *self._shown.uppers, *uppers])
            if it != base.upper
        ]
        sscis = [reversed_ssci(base.ssci), *self._shown.sscis, *range(1, 1 + (SSCIS if is_alone else _FEW_SSCIS))]
        sscis += [own for it in self._lines for own in (it.ssci, reversed_ssci(it.ssci))]
        found["ssci"] = [(_ssci(it, base, line), {"ssci": it}) for it in dict.fromkeys(sscis) if it != base.ssci]
        found["salt"] = [(Change("salt", "the salt's octets in the other order", of_key), {"salt": True})]
        cuts = [4, *range(1, 4), *range(5, _LONGEST_TRAILER + 1)] if is_alone else [4]
        found["cut"] = [trailer(it) for it in cuts]
        if tag is not None and tag.sci is None and not tag.names_nobody:
            found["iv-sci"] = [
                (_iv_sci(it, base, tag), {"iv_sci": it}) for it in self._iv_scis(frame)[:most] if it != base.sci
            ]
        return found

    def offsets(self, base: Setting) -> list[Option]:
        """Other confidentiality offsets."""
        of_key, own = self._line_of(base), base.key.offset
        return [(Change("offset", f"offset {it}, not {own}", of_key), {"offset": it}) for it in (0, 30, 50)]

    def _line_of(self, base: Setting) -> int | None:
        """The line of a setting's key."""
        return next((it.line for it in self._lines if it.octets == base.key.octets), None)

    def _scis(self, base: Setting, frame: bytes, tag: SecTag | None) -> list[bytes]:
        """The SCIs that the sender of a frame can have whose tag names nobody."""
        if tag is None or not tag.names_nobody:
            return []
        return list(dict.fromkeys([*_ports_of(base.sci), *_ports_of(frame[6:12]), *self._shown.scis]))

    def _iv_scis(self, frame: bytes) -> list[bytes]:
        """The SCIs that the IV of a frame with ES or SCB can have."""
        return list(dict.fromkeys([*self._configuration.channels(), *self._shown.scis, *_ports_of(frame[6:12])]))

    def addresses(self, base: Setting, frame: bytes) -> list[Option]:
        """Addresses that a frame can have been sent with: of its SCI, of CONFIG, and of the other frames."""
        named = [base.sci[:6], self._configuration.sci[:6], *(it[:6] for it in self._configuration.channels())]
        others = list(dict.fromkeys([*named, *self._shown.addresses, _BROADCAST]))
        destination, source = frame[:6], frame[6:12]
        sent = [it + source for it in others] + [destination + it for it in others]
        sent += [one + other for one in others[:_FEW_ADDRESSES] for other in others[:_FEW_ADDRESSES]]
        return [(address_change(it, frame), {"addresses": it}) for it in dict.fromkeys(sent) if it != frame[:12]]

    def wide(self, base: Setting, line: int | None, frame: bytes, tag: SecTag) -> Iterator[Option]:
        """The ways that take long: all upper halves and SSCIs below 2^16, all ports of the source address."""
        if base.key.suite.is_extended:
            for first in range(0, WIDE, _TOGETHER):
                numbers = range(first, first + _TOGETHER)
                for it in numbers:
                    yield _upper(it, base, line), {"upper": it}
                for it in numbers:
                    yield _ssci(it, base, line), {"ssci": it}
        elif tag.sci is None and not base.key.offset:
            for port in range(WIDE):
                sci = frame[6:12] + port.to_bytes(2, "big")
                yield _sci(sci, base, line) if tag.names_nobody else _iv_sci(sci, base, tag), {"iv_sci": sci}


def _sci(sci: bytes, base: Setting, line: int | None) -> Change:
    return Change("sci", f"SCI {sci.hex()}, not {base.sci.hex()}", line)


def _iv_sci(sci: bytes, base: Setting, tag: SecTag) -> Change:
    bit = "ES" if tag.tci & 0x40 else "SCB"
    text = f"the IV has SCI {sci.hex()}, the tag means {base.sci.hex()} by {bit}: no receiver opens it"
    return Change("iv-sci", f"{text}; send the SCI in the tag")


def _upper(upper: int, base: Setting, line: int | None) -> Change:
    return Change("upper", f"upper half 0x{upper:x} of the packet number, not 0x{base.upper:x}", line)


def _ssci(ssci: int, base: Setting, line: int | None) -> Change:
    order = ": its octets in the other order" if ssci == reversed_ssci(base.ssci) else ""
    return Change("ssci", f"SSCI {ssci:08x}, not {base.ssci:08x}{order}", line)


def address_change(sent: bytes, frame: bytes) -> Change:
    names = ("destination", sent[:6], frame[:6]), ("source", sent[6:], frame[6:12])
    texts = [f"{name} address {was.hex()}, not {now.hex()}" for name, was, now in names if was != now]
    return Change("address", f"sent with {' and '.join(texts)}: rewritten on the way")


def trailer(count: int) -> Option:
    """Octets after the ICV."""
    if count == 4:
        return Change("fcs", "without the last 4 octets: a frame check sequence"), {"cut": 4}
    return Change("padding", f"without the last {count} octets: padding or a trailer"), {"cut": count}


def _ports_of(sci: bytes) -> list[bytes]:
    """The SCIs of the address with the usual ports."""
    return [sci[:6] + port.to_bytes(2, "big") for port in (1, 0, 2, 3)]
