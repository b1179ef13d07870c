"""Frames for tests: a SecTAG of any content, sealed by the library, and a list of frames that a receiver must judge."""

from __future__ import annotations

from collections.abc import Iterator
from typing import Any, Callable, NamedTuple

from .names import Suite, Verdict
from .sealing import ICV_OCTETS, seal

MACSEC = b"\x88\xe5"
BITS = {"V": 0x80, "ES": 0x40, "SC": 0x20, "SCB": 0x10, "E": 0x08, "C": 0x04}
# SL says the length of data that are shorter than this.
SHORT = 48
# What each clause of IEEE Std 802.1AE that is tried is about, and the clause that gives a frame its verdict.
CLAUSES = {
    "9.3": "parts of the SecTAG", "9.4": "EtherType", "9.5": "TCI", "9.7": "SL", "9.8": "PN", "9.9": "SCI",
    "9.11": "where the ICV is", "9.12": "faults of the SecTAG", "10.6": "frames without a SecTAG",
    "10.6.1": "the receive SA", "10.6.2": "packet numbers", "10.6.3": "the ICV", "10.6.5": "delivery",
}  # fmt: skip
CLAUSE_OF = {
    Verdict.Untagged: "10.6", Verdict.NoTag: "10.6", Verdict.BadTag: "9.12", Verdict.Reserved: "9.5",
    Verdict.NoSA: "10.6.1", Verdict.NoSAError: "10.6.1", Verdict.Late: "10.6.2", Verdict.Delayed: "10.6.5",
    Verdict.Unchecked: "10.6.3", Verdict.Invalid: "10.6.3", Verdict.NotValid: "10.6.3", Verdict.OK: "10.6.5",
}  # fmt: skip
# The first octet of the destination address of a marked frame: of one station, and locally administered.
_MARK = b"\x66"


class Source(NamedTuple):
    """Who a frame claims to be from: key, IV and association. `pn` is the packet number of the first frame."""

    key: bytes
    suite: Suite
    sci: bytes
    an: int = 0
    pn: int = 1
    offset: int = 0
    ssci: int = 0
    salt: bytes = bytes(12)


class Tag(NamedTuple):
    """The fields of a SecTAG, of any content. `sci` is None or any octets; `octet` has TCI and AN."""

    octet: int
    sl: int
    pn: int
    sci: bytes | None
    ethertype: bytes = MACSEC

    def octets(self) -> bytes:
        """The SecTAG.

        >>> Tag(0x2C, 0, 1, bytes.fromhex("0200000000010001")).octets().hex()
        '88e52c00000000010200000000010001'
        """
        fixed = bytes([self.octet, self.sl]) + (self.pn & 0xFFFF_FFFF).to_bytes(4, "big")
        return self.ethertype + fixed + (self.sci or b"")


class Shape(NamedTuple):
    """A frame to make: what its client sent, its SecTAG, how it is sealed, and what becomes of it then.

    `tag` are the octets of the SecTAG. With `conf` the data are encrypted. `icv` is what is added to the ICV bit by
    bit, or None. `pad` are octets after the ICV, and `cut` is how many of the last octets are left out.
    """

    client: bytes
    tag: bytes
    pn: int
    conf: bool = True
    icv: bytes | None = None
    pad: bytes = b""
    cut: int = 0
    iv_sci: bytes | None = None
    offset: int | None = None

    def frame(self, source: Source) -> bytes:
        """The octets of the frame."""
        head = self.client[:12] + self.tag
        made = seal(
            head + self.client[12:], len(head), key=source.key, suite=source.suite, sci=self.iv_sci or source.sci,
            pn=self.pn, conf=self.conf, offset=source.offset if self.offset is None else self.offset,
            ssci=source.ssci, salt=source.salt,
        )  # fmt: skip
        if self.icv is not None:
            icv = bytes(a ^ b for a, b in zip(made[-ICV_OCTETS:], self.icv.rjust(ICV_OCTETS, b"\0")))
            made = made[:-ICV_OCTETS] + icv
        made += self.pad
        return made[: max(len(made) - self.cut, 0)]


def short_length(data: int) -> int:
    """SL for so many octets of data."""
    return data if data < SHORT else 0


def ordinary_tag(source: Source, pn: int, data: int) -> Tag:
    """The SecTAG of an encrypted frame with the SCI."""
    return Tag(BITS["SC"] | BITS["E"] | BITS["C"] | source.an & 3, short_length(data), pn, source.sci)


def client_frame(source: Source, data: int = 46) -> bytes:
    """A client's frame from the source's address, with so many octets after the addresses. Its EtherType is one for
    experiments."""
    return (bytes.fromhex("02000000000f") + source.sci[:6] + b"\x88\xb5" + bytes(range(256)) * 40)[: 12 + data]


def marked(client: bytes, pn: int) -> bytes:
    """A client's frame whose destination address has the packet number, so that a device's frames can be told apart.

    >>> marked(bytes(14), 0x1234).hex(":")
    '66:00:00:00:12:34:00:00:00:00:00:00:00:00'
    """
    return _MARK + (pn & 0xFF_FFFF_FFFF).to_bytes(5, "big") + client[6:]


class Hostile(NamedTuple):
    """A frame of the list: its name, the clause that it tries, what is unusual, the verdict of this endpoint in mode
    strict, and the frame."""

    name: str
    clause: str
    what: str
    verdict: Verdict
    shape: Shape


_Change = Callable[[Source, Tag, Shape], Shape]


class _Case(NamedTuple):
    """An entry of the list before it has a source: how many octets of data, what is changed, and the port of the SCI
    that the SecTAG means, if it means one."""

    name: str
    clause: str
    what: str
    verdict: Verdict
    change: _Change
    data: int = 46
    port: int | None = None

    def verdict_for(self, source: Source) -> Verdict:
        """The verdict, for a source of any port."""
        is_other = self.port is not None and int.from_bytes(source.sci[6:], "big") != self.port
        return Verdict.NoSAError if is_other else self.verdict


def _tag(**fields: Any) -> _Change:
    """Other fields of the SecTAG."""
    return lambda source, tag, shape: shape._replace(tag=tag._replace(**fields).octets())


def _bits(text: str, conf: bool = True, keep_sci: bool = True) -> _Change:
    """Other bits of the TCI: those that are named, and no others. The AN stays."""
    octet = sum(BITS[it] for it in text.split())

    def change(source: Source, tag: Tag, shape: Shape) -> Shape:
        changed = tag._replace(octet=octet | tag.octet & 3, sci=tag.sci if keep_sci else None)
        return shape._replace(tag=changed.octets(), conf=conf)

    return change


def _shape(**fields: Any) -> _Change:
    """Another way to seal the frame, or to alter it then."""
    return lambda source, tag, shape: shape._replace(**fields)


def _other(sci: bytes) -> bytes:
    """Another SCI: of another port."""
    return sci[:6] + bytes([sci[6], sci[7] ^ 2])


def _from_other(source: Source, tag: Tag, shape: Shape) -> Shape:
    other = _other(source.sci)
    return shape._replace(tag=tag._replace(sci=other).octets(), iv_sci=other)


def _other_an(source: Source, tag: Tag, shape: Shape) -> Shape:
    return shape._replace(tag=tag._replace(octet=tag.octet ^ 1).octets())


def _number_0(source: Source, tag: Tag, shape: Shape) -> Shape:
    return shape._replace(tag=tag._replace(pn=0).octets(), pn=0)


def _other_number_in_iv(source: Source, tag: Tag, shape: Shape) -> Shape:
    return shape._replace(pn=shape.pn ^ 0x100)


CASES = (
    _Case("ordinary", "10.6.5", "an encrypted frame with the SCI", Verdict.OK, _shape()),
    _Case("long", "9.7", "SL 0 and 48 octets of data", Verdict.OK, _shape(), 48),
    _Case("integrity", "9.5", "E and C clear", Verdict.OK, _bits("SC", conf=False)),
    _Case("c-without-e", "9.5", "C set, E clear: integrity alone", Verdict.OK, _bits("SC C", conf=False)),
    _Case("padded", "9.7", "20 octets after the ICV", Verdict.OK, _shape(pad=bytes(20))),
    _Case("one-octet", "9.7", "SL 1", Verdict.OK, _shape(), 1),
    _Case("v", "9.5", "the version bit set", Verdict.BadTag, _bits("V SC E C")),
    _Case("es-and-sc", "9.5", "ES set beside an SCI", Verdict.BadTag, _bits("ES SC E C")),
    _Case("scb-and-sc", "9.5", "SCB set beside an SCI", Verdict.BadTag, _bits("SCB SC E C")),
    _Case("sl-48", "9.7", "SL 48, as many octets of data", Verdict.BadTag, _tag(sl=48), 48),
    _Case("sl-63", "9.7", "SL 63, as many octets of data", Verdict.BadTag, _tag(sl=63), 63),
    _Case("sl-bit-6", "9.7", "a reserved bit beside SL", Verdict.BadTag, _tag(sl=0x40 | 46)),
    _Case("sl-bit-7", "9.7", "a reserved bit beside SL", Verdict.BadTag, _tag(sl=0x80 | 46)),
    _Case("sl-long", "9.7", "SL 47, 46 octets of data", Verdict.BadTag, _tag(sl=47)),
    _Case("sl-short", "9.11", "SL 45, 46 octets of data", Verdict.NotValid, _tag(sl=45)),
    _Case("sl-0", "9.7", "SL 0, 46 octets of data", Verdict.BadTag, _tag(sl=0)),
    _Case("no-data", "9.7", "SL 0, no data", Verdict.BadTag, _shape(), 0),
    _Case("e-without-c", "9.5", "E set, C clear", Verdict.Reserved, _bits("SC E")),
    _Case("encrypted-no-e", "10.6.3", "E clear, data encrypted", Verdict.NotValid, _bits("SC")),
    _Case("clear-with-e", "10.6.3", "E set, data not encrypted", Verdict.NotValid, _shape(conf=False)),
    _Case("an", "10.6.1", "another AN", Verdict.NoSAError, _other_an),
    _Case("sci", "10.6.1", "another SCI, in the SecTAG and in the IV", Verdict.NoSAError, _from_other),
    _Case("pn-0", "9.8", "packet number 0", Verdict.BadTag, _number_0),
    _Case("iv-pn", "10.6.3", "another packet number in the IV", Verdict.NotValid, _other_number_in_iv),
    _Case("icv", "10.6.3", "the last bit of the ICV changed", Verdict.NotValid, _shape(icv=b"\1")),
    _Case("icv-0", "10.6.3", "the first bit of the ICV changed", Verdict.NotValid, _shape(icv=b"\x80" + bytes(15))),
    _Case("icv-cut", "9.11", "the last octet of the ICV left out", Verdict.BadTag, _shape(cut=1)),
    _Case("long-and-more", "9.11", "SL 0, an octet after the ICV", Verdict.NotValid, _shape(pad=b"\0"), 60),
    _Case("tag-cut", "9.3", "the frame ends within the SecTAG", Verdict.BadTag, _shape(cut=16 + 46 + 1)),
    _Case("ethertype", "9.4", "EtherType 88e6", Verdict.NoTag, _tag(ethertype=b"\x88\xe6")),
    _Case("no-sci", "9.9", "no SCI, ES and SCB clear", Verdict.OK, _bits("E C", keep_sci=False)),
    _Case("es", "9.9", "no SCI, ES set", Verdict.OK, _bits("ES E C", keep_sci=False), port=1),
    _Case("scb", "9.9", "no SCI, SCB set", Verdict.OK, _bits("SCB E C", keep_sci=False), port=0),
    _Case("es-and-scb", "9.9", "no SCI, ES and SCB set", Verdict.OK, _bits("ES SCB E C", keep_sci=False), port=0),
    _Case("last", "10.6.5", "an ordinary frame: after all of these it still opens", Verdict.OK, _shape()),
)  # fmt: skip


def hostile_frames(source: Source, is_marked: bool = False) -> Iterator[Hostile]:
    """The list, for a receiver that has one association for the source and takes its packet number. With extended
    packet numbers above 2^32 number 0 can be Late, or another number in the IV than in the receiver's. Each frame can
    be `marked` by the packet number in its IV."""
    for number, case in enumerate(CASES):
        pn = source.pn + number
        client = client_frame(source, case.data)
        tag = ordinary_tag(source, pn, case.data)
        shape = case.change(source, tag, Shape(client, tag.octets(), pn))
        if is_marked:
            shape = shape._replace(client=marked(shape.client, shape.pn))
        yield Hostile(case.name, case.clause, case.what, case.verdict_for(source), shape)


def unused_number(source: Source) -> Source:
    """The source with a packet number for which no IV of the list has a lower one, except number 0."""
    while any(0 < it.shape.pn < source.pn for it in hostile_frames(source)):
        source = source._replace(pn=source.pn + 1)
    return source


def hostile_list(source: Source, is_marked: bool = False) -> list[tuple[Hostile, bytes]]:
    """The list with its frames. The last is the first one again."""
    made = [(it, it.shape.frame(source)) for it in hostile_frames(source, is_marked)]
    first = made[0]
    again = Hostile("again", "10.6.2", "the first frame again", Verdict.Late, first[0].shape)
    return [*made, (again, first[1])]
