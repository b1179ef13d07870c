"""Frames for the receiver of a CONFIG: clients' frames with any SecTAG, and the verdict that each one gets."""

from __future__ import annotations

from collections.abc import Iterable, Iterator
from typing import Any, NamedTuple

from .endpoint_of_config import Configuration
from .errors import MacsecError, UsageError
from .hostile import BITS, MACSEC, Shape, Source, Tag, short_length
from .names import Verdict
from .secy import Octets, SecY, octets_of


class Forged(NamedTuple):
    """A frame, the verdict that the receiver has to give, and what its client then gets, or None. The verdict is None
    if no receiver takes such a frame: it is shorter than an Ethernet header, or too long."""

    frame: bytes
    verdict: Verdict | None
    client: bytes | None


class Changes(NamedTuple):
    """What is changed of an ordinary encrypted frame with the SCI: fields of the SecTAG (`octet` has TCI and AN, and
    `tag` is all of it), how it is sealed, and what becomes of it then, as `Shape` says."""

    octet: int | None = None
    sl: int | None = None
    tag_pn: int | None = None
    tag_sci: bytes | None = None
    ethertype: bytes = MACSEC
    tag: bytes | None = None
    conf: bool | None = None
    icv: bytes | None = None
    pad: int = 0
    cut: int = 0

    def shape(self, source: Source, client: bytes, pn: int) -> Shape:
        """The frame that is made of a client's frame."""
        if len(client) < 12:
            raise UsageError("a client's frame ends within its addresses")
        octet = self.octet if self.octet is not None else octet_of("SC,E,C", source)
        data = len(client) - 12
        sci = (source.sci if octet & BITS["SC"] else None) if self.tag_sci is None else self.tag_sci
        sl = short_length(data) if self.sl is None else self.sl
        made = Tag(octet, sl, pn if self.tag_pn is None else self.tag_pn, sci, self.ethertype)
        tag = made.octets() if self.tag is None else self.tag
        conf = bool(tag[2:3] and tag[2] & BITS["E"]) if self.conf is None else self.conf
        return Shape(client, tag, pn, conf, self.icv, bytes(self.pad), self.cut)


def octet_of(bits: str, source: Source) -> int:
    """The octet of TCI and AN in which these bits are set, such as SC,E,C or none."""
    names = {it for it in bits.upper().replace(" ", ",").split(",") if it not in ("", "NONE")}
    if unknown := names - {*BITS}:
        raise UsageError(f"--bits: {min(unknown)!r}, {', '.join(BITS)} expected")
    return sum(BITS[it] for it in names) | source.an & 3


def source_of(configuration: Configuration, sci: bytes | None = None, an: int | None = None) -> Source:
    """Whose frames a CONFIG receives: its first association, or the one that is named; else whose frames it sends."""
    for channel in configuration.channels():
        for number in range(4):
            row = configuration.rx_sa(channel, number)
            if row is not None and sci in (None, channel) and an in (None, number):
                key = configuration.keys[row.key]
                return Source(key.octets, key.suite, channel, number, row.lowest, key.offset, row.ssci, key.salt)
    for number in range(4):
        try:
            own = configuration.secy.tx_sa(number)
        except LookupError:
            continue
        if sci in (None, configuration.sci) and an in (None, number):
            key = configuration.keys[own.key]
            return Source(key.octets, key.suite, configuration.sci, number, own.next, key.offset, key.ssci, key.salt)
    raise UsageError("CONFIG has no such association")


def missing_line(configuration: Configuration) -> str | None:
    """Why a CONFIG receives no protected frame; None if it can receive some.

    >>> missing_line(Configuration(b"end A gcm128 0200000000010001 1546 sci\\nA rxsc 0200000000020001\\n"))
    'CONFIG receives nothing: it has no line "A rxsa 0200000000020001 AN N PN"'
    """
    missing = "A rxsc SCI"
    for sci in configuration.channels():
        rows = [(an, configuration.rx_sa(sci, an)) for an in range(4)]
        if any(row and row.on for _, row in rows):
            return None
        missing = next((f"A rxon {sci.hex()} {an}" for an, row in rows if row), f"A rxsa {sci.hex()} AN N PN")
    refused = "".join(f"; refused: {it.message}" for it in configuration.refusals[:1])
    return f'CONFIG receives nothing: it has no line "{missing}"{refused}'


def forged(
    config: str | Octets, frames: Iterable[Octets], *, protect: bool = True, pn: int | None = None, bits: str = "",
    **changes: Any,
) -> Iterator[Forged]:  # fmt: skip
    """Frames for the receiver of a CONFIG, each with the verdict that it has to give when it receives them in this
    order. A frame is octets, or a packet of Scapy.

    Each is a client's frame, and is protected as the sender of CONFIG's first association does, with packet numbers
    from that association's on, or from `pn` on. `bits` are those that are set in the SecTAG, and `changes` are the
    members of `Changes`. **It repeats packet numbers, and so IVs, if it is called again: use a key of the test alone.**
    With `protect=False` each is a frame of the link, and stays as it is.

    >>> config = "end A gcm128 0200000000030001 1546 sci\\nA key 0 ad7a2bd03eac835a6f620fdcb506b345 0\\n"
    >>> config += "A rxsc 0200000000010001\\nA rxsa 0200000000010001 0 0 1\\nA rxon 0200000000010001 0\\n"
    >>> client = bytes.fromhex("02000000000f02000000000188b5") + bytes(40)
    >>> for changes in ({}, {"bits": "SC E"}, {"icv": b"\\1"}, {"cut": 1}, {"protect": False}):
    ...     (made,) = forged(config, [client], **changes)
    ...     print(made.verdict.name, len(made.frame))
    OK 86
    Reserved 86
    NotValid 86
    BadTag 85
    NoTag 54
    """
    configuration = Configuration(config.encode() if isinstance(config, str) else octets_of(config))
    try:
        given: Iterable[bytes] = map(octets_of, frames)
        if protect:
            source = source_of(configuration)
            how = Changes(**changes)
            how = how._replace(octet=octet_of(bits, source)) if bits else how
            first = source.pn if pn is None else pn
            given = (how.shape(source, it, number).frame(source) for number, it in enumerate(given, first))
        with configuration.fresh() as secy:
            for frame in given:
                yield received(secy, frame)
    finally:
        configuration.close()


def received(secy: SecY, frame: bytes) -> Forged:
    """What an endpoint does with a frame."""
    try:
        made = secy.receive(frame)
        return Forged(frame, made.verdict, made.frame)
    except MacsecError:
        return Forged(frame, None, None)
