"""SAKs from a CAK: the keys of MACsec Key Agreement (IEEE Std 802.1X-2020, 6.2.1, 9.3.3 and 9.4.1). The package
`cryptography` computes AES-CMAC and unwraps keys. Without it, UsageError says where to get it."""

from __future__ import annotations

import hmac
from collections.abc import Callable, Sequence
from typing import NamedTuple

from .errors import UsageError
from .mka import AGILITY, Mkpdu, read_mkpdu
from .summary import ranges
from .trial import KeyArgument

_MISSING = (
    "--cak and --cak-file need the Python package cryptography: install Debian's python3-cryptography, or "
    "pip install cryptography"
)
# What a capture can make this keep: members of all agreements, SAKs, and CAK names that are tried.
_MOST_MEMBERS, _MOST_SAKS, _MOST_NAMES = 4096, 16_384, 256
_MOST_CKN, _MOST_HINTS = 32, 64


class Cak(NamedTuple):
    """A CAK, and its name (CKN). Without a name it is tried for every name of a capture."""

    octets: bytes
    ckn: bytes | None = None


class Sak(NamedTuple):
    """A SAK as the record of an MKPDU distributes it, with its key number, and the SCI of the key server."""

    record: int
    key: KeyArgument
    number: int
    server: bytes
    ckn: bytes

    def as_dict(self) -> dict[str, object]:
        """What is known of it, without its octets."""
        suite, offset = self.key.suite, self.key.offset
        return {
            "record": self.record, "name": self.key.name, "key_number": self.number, "an": self.key.an,
            "suite": suite.name if suite else None, "offset": offset, "server": self.server.hex(),
            "ckn": self.ckn.hex(),
        }  # fmt: skip

    def __str__(self) -> str:
        it = self.as_dict()
        offset = f", offset {it['offset']}" if it["offset"] else ""
        return (
            f"record {self.record}: {it['name']}: key number {self.number}, AN {it['an']}, {it['suite']}{offset}, "
            f"from {it['server']}"
        )


class _Cryptography:
    """What this takes of the package cryptography."""

    def __init__(self) -> None:
        try:
            from cryptography.hazmat.primitives import cmac, keywrap
            from cryptography.hazmat.primitives.ciphers.algorithms import AES
        except ImportError:
            raise UsageError(_MISSING) from None
        self._cmac, self._aes, self._keywrap = cmac.CMAC, AES, keywrap

    def cmac(self, key: bytes, octets: bytes) -> bytes:
        """AES-CMAC."""
        it = self._cmac(self._aes(key))
        it.update(octets)
        return it.finalize()

    def unwrapped(self, kek: bytes, wrapped: bytes) -> bytes | None:
        """The key that was wrapped (RFC 3394); None if it was not, by this KEK."""
        try:
            return self._keywrap.aes_key_unwrap(kek, wrapped)
        except (self._keywrap.InvalidUnwrap, ValueError):
            return None


def derived(cmac: Callable[[bytes, bytes], bytes], cak: bytes, label: bytes, ckn: bytes) -> bytes:
    """The KEK or ICK of a CAK, as long as the CAK: the KDF of 6.2.1 over the label and the first octets of the name."""
    context, bits = ckn[:16].ljust(16, b"\0"), 8 * len(cak)
    blocks = range(1, len(cak) // 16 + 1)
    return b"".join(cmac(cak, bytes([it]) + label + b"\0" + context + bits.to_bytes(2, "big")) for it in blocks)


def salt_of(member: bytes, number: int) -> bytes:
    """The salt under the extended suites, from the member identifier of the key server and the key number.

    >>> salt_of(bytes(12), 0x01020304).hex()
    '030401020000000000000000'
    """
    octets = number.to_bytes(4, "big")
    return bytes(a ^ b for a, b in zip(member, octets[2:] + octets[:2] + bytes(8)))


class KeyAgreements:
    """Follows the MKPDUs of a capture under some CAKs, and takes the SAKs that they distribute."""

    def __init__(self, caks: Sequence[Cak]) -> None:
        self._caks = list(dict.fromkeys(caks))
        self._cryptography = _Cryptography() if caks else None
        self._keys: dict[tuple[bytes, bytes], tuple[bytes, bytes]] = {}
        self._members: dict[bytes, bytes] = {}
        self._octets: set[bytes] = set()
        # The keys that valid MKPDUs call in use, and those that they distribute: key server and key number.
        self._in_use: dict[tuple[bytes, int], None] = {}
        self._distributed: set[tuple[bytes, int]] = set()
        self.saks: list[Sak] = []
        # Numbers of MKPDUs: all, those whose ICV is valid, those with a name that no CAK has, those with another ICV.
        self.seen, self.valid, self.unnamed, self.invalid = 0, 0, 0, 0
        # The SCIs of the members, and upper halves of packet numbers that MKPDUs name. Nobody authenticated them.
        self.scis: dict[bytes, None] = {}
        self.uppers: dict[int, None] = {}

    @property
    def has_caks(self) -> bool:
        """Was a CAK given?"""
        return bool(self._caks)

    def add(self, record: int, frame: bytes) -> KeyArgument | None:
        """Adds a frame. Returns a SAK, if it distributes a new one."""
        it = read_mkpdu(frame)
        if it is None:
            return None
        self.seen += 1
        if len(self._members) < _MOST_MEMBERS:
            self._members[it.member] = it.sci
        if len(self.scis) < _MOST_HINTS:
            self.scis[it.sci] = None
        if len(self.uppers) < _MOST_HINTS:
            self.uppers.update(dict.fromkeys(it.uppers))
        if self._cryptography is None:
            return None
        kek = self._kek(it)
        if kek is not None and len(self._in_use) < _MOST_SAKS:
            self._in_use.update(dict.fromkeys(it.used))
        if kek is None or it.sak is None or it.sak.suite is None or len(self.saks) >= _MOST_SAKS:
            return None
        octets = self._cryptography.unwrapped(kek, it.sak.wrapped)
        if octets is None or len(octets) != it.sak.suite.key_octets:
            return None
        self._distributed.add((it.member, it.sak.number))
        if octets in self._octets:
            return None
        self._octets.add(octets)
        suite = it.sak.suite
        salt = salt_of(it.member, it.sak.number) if suite.is_extended else None
        sscis = self._sscis(it) if suite.is_extended else ()
        key = KeyArgument(
            octets, salt, an=it.sak.an, suite=suite, offset=it.sak.offset, name=f"SAK {len(self.saks) + 1}", sscis=sscis
        )
        self.saks.append(Sak(record, key, it.sak.number, it.sci, it.ckn))
        return key

    def _kek(self, it: Mkpdu) -> bytes | None:
        """The KEK of the CAK under which an MKPDU's ICV is valid."""
        assert self._cryptography is not None
        named = [cak for cak in self._caks if cak.ckn in (None, it.ckn) or _is_same_name(cak.ckn, it.ckn)]
        if not named or it.agility != AGILITY or len(it.ckn) > _MOST_CKN:
            self.unnamed += 1
            return None
        for cak in named:
            keys = self._derived(cak, it.ckn)
            if keys and hmac.compare_digest(self._cryptography.cmac(keys[1], it.covered), it.icv):
                self.valid += 1
                return keys[0]
        self.invalid += 1
        return None

    def _derived(self, cak: Cak, ckn: bytes) -> tuple[bytes, bytes] | None:
        """KEK and ICK; None once there are too many names."""
        assert self._cryptography is not None
        place = cak.octets, ckn[:16].ljust(16, b"\0")
        if place not in self._keys:
            if len(self._keys) >= _MOST_NAMES * len(self._caks):
                return None
            cmac = self._cryptography.cmac
            kek, ick = (derived(cmac, cak.octets, it, ckn) for it in (b"IEEE8021 KEK", b"IEEE8021 ICK"))
            self._keys[place] = kek, ick
        return self._keys[place]

    def _sscis(self, it: Mkpdu) -> tuple[tuple[bytes, int], ...]:
        """The SSCIs that the members can have: 1 for the greatest SCI, and so on; or by the order of the list of live
        peers, in which the key server has the number that is named. The library says which of them opens a frame."""
        live = [self._members[member] for member in it.live if member in self._members]
        everyone = sorted({it.sci, *live}, reverse=True)
        found = [(sci, place) for place, sci in enumerate(everyone, 1)]
        first = it.first_ssci or 1
        found.append((it.sci, first))
        others = (number for number in range(1, len(live) + 2) if number != first)
        found += zip(live, others)
        return tuple(dict.fromkeys(found))

    def notes(self) -> list[str]:
        """What became of the MKPDUs, if the CAKs did not open all of them."""
        if self._cryptography is None:
            return []
        found = []
        if self.invalid:
            found.append(f"{mkpdus_text(self.invalid)} with another ICV: another CAK, or altered")
        if self.unnamed:
            found.append(f"{mkpdus_text(self.unnamed)} of another CAK name")
        earlier = sorted(number for server, number in self._in_use if (server, number) not in self._distributed)
        if earlier and self.saks:
            found.append(f"key number {ranges(earlier)} is in use, and was distributed before the capture")
        if self.valid and not self.saks:
            found.append(
                f"{mkpdus_text(self.valid)} with a valid ICV, none with a SAK: capture from before the keys are agreed"
            )
        return found if self.seen else ["the capture has no MKPDU"]


def _is_same_name(one: bytes | None, other: bytes) -> bool:
    """Some devices add zeros to a name. The keys of such names are the same."""
    return one is not None and one.rstrip(b"\0") == other.rstrip(b"\0")


def mkpdus_text(count: int) -> str:
    """A number of MKPDUs."""
    return f"{count} MKPDU" + ("" if count == 1 else "s")


def _octets(text: str, what: str, where: str, *lengths: int) -> bytes:
    try:
        octets = bytes.fromhex(text)
    except ValueError:
        octets = b""
    if len(octets) not in lengths or len(text) != 2 * len(octets):
        expected = (
            f"{2 * lengths[0]} to {2 * lengths[-1]}" if len(lengths) > 2 else f"{2 * lengths[0]} or {2 * lengths[1]}"
        )
        raise UsageError(f"{where}: the {what} has {len(text)} characters, {expected} hex digits expected")
    return octets


def cak_of(cak: str, ckn: str | None, where: str = "--cak") -> Cak:
    """A CAK and its name from their hex digits.

    >>> cak_of("00" * 16, "01").ckn
    b'\\x01'
    """
    name = _octets(ckn, "CAK name", where, *range(1, _MOST_CKN + 1)) if ckn else None
    return Cak(_octets(cak, "CAK", where, 16, 32), name)


def caks_of_file(path: str) -> list[Cak]:
    """The CAKs of a file: `CAK CKN` or `CAK` in each line; or mka_cak and mka_ckn as wpa_supplicant reads them."""
    found: list[Cak] = []
    named: dict[str, str] = {}
    with open(path, encoding="utf-8", errors="replace") as file:
        lines = file.read(1 << 20).splitlines()
    for number, line in enumerate(lines, 1):
        text, where = line.strip(), f"{path}:{number}"
        key, is_setting, value = text.partition("=")
        if not text or text.startswith("#"):
            continue
        if is_setting or text in ("}", "{"):
            named[key.strip()] = value.strip()
            if "mka_cak" in named and "mka_ckn" in named:
                found.append(cak_of(named.pop("mka_cak"), named.pop("mka_ckn"), where))
            continue
        words = text.split()
        if len(words) > 2:
            raise UsageError(f"{where}: CAK CKN expected")
        found.append(cak_of(words[0], words[1] if len(words) == 2 else None, where))
    if not found:
        raise UsageError(f"{path}: no CAK: a line CAK CKN, or mka_cak= and mka_ckn= expected")
    return found
