"""Asks the library whether a frame opens under other keys, suites, offsets, SSCIs, upper halves or SCIs."""

from __future__ import annotations

import base64
import itertools
import re
from typing import NamedTuple

from .errors import MacsecError, UsageError
from .names import Suite, Verdict, suite_of
from .secy import Received, SecY

# Verdicts on frames that were opened: the ICV is valid.
OPENED = (Verdict.OK, Verdict.Delayed)
_LAST_SSCI = 0xFFFF_FFFF
# 16 or 32 octets in base64, of either alphabet.
_BASE64 = re.compile(r"[A-Za-z0-9+/_-]{22}==|[A-Za-z0-9+/_-]{43}=")
_OWN_SCIS = (bytes.fromhex("02ffffffffff0001"), bytes.fromhex("02fffffffffe0001"))


class Key(NamedTuple):
    """A key, and what it is called."""

    octets: bytes
    suite: Suite
    offset: int = 0
    salt: bytes = bytes(12)
    name: str = ""


def own_sci(*others: bytes) -> bytes:
    """An SCI that none of the others is.

    >>> own_sci(bytes.fromhex("02ffffffffff0001")).hex()
    '02fffffffffe0001'
    """
    more = (bytes([2, *[0] * 6, n]) for n in range(256))
    return next(it for it in itertools.chain(_OWN_SCIS, more) if it not in others)


def whole_number(pn: int, next_number: int) -> int:
    """The whole packet number of a frame with this PN in its SecTAG that was opened, or was late: the highest one
    below the next expected number. Windows have fewer than 2^31 numbers, so no other one can be.

    >>> hex(whole_number(0xffffffff, 0x300000002)), hex(whole_number(1, 0x300000002))
    ('0x2ffffffff', '0x300000001')
    """
    return next_number - 1 - (next_number - 1 - pn) % 2**32


class Trial:
    """An endpoint with one key and one channel, which opens frames of one association, late ones too."""

    def __init__(self, key: Key, sci: bytes, an: int, ssci: int = 0) -> None:
        self.key, self.sci, self.an, self.ssci, self.is_extended = key, sci, an, ssci, key.suite.is_extended
        self.secy = SecY(own_sci(sci), key.suite)
        self.secy.set_replay(False)
        # The endpoint's own SSCI has to be another one.
        self._own_ssci = 0 if ssci == _LAST_SSCI else _LAST_SSCI
        self.secy.install_key(0, key.octets, offset=key.offset, ssci=self._own_ssci, salt=key.salt)
        self.secy.add_rx_sc(sci)
        self._has_sa = False
        # The lowest acceptable packet number of an association that has opened nothing.
        self._lowest: int | None = None

    def begin(self, upper: int = 0, ssci: int | None = None) -> None:
        """Begins the association again, with this upper half of extended packet numbers, and another SSCI if one is
        given."""
        lowest, is_other = upper << 32 | 1, ssci is not None and ssci != self.ssci
        if self._lowest is not None and not is_other and lowest >= self._lowest:
            # One call in place of three: it opens what a new association would.
            if lowest > self._lowest:
                self.secy.set_lowest_pn(self.sci, self.an, lowest)
            self._lowest = lowest
            return
        if self._has_sa:
            self.secy.delete_rx_sa(self.sci, self.an)
            self._has_sa, self._lowest = False, None
        self.ssci = self.ssci if ssci is None else ssci
        self.secy.add_rx_sa(self.sci, self.an, 0, lowest, self.ssci)
        self.secy.enable_rx_sa(self.sci, self.an)
        self._has_sa, self._lowest = True, lowest

    def receive(self, frame: bytes) -> Received:
        """What becomes of a frame. `begin` comes first."""
        received = self.secy.receive(frame)
        if received.verdict in OPENED:
            self._lowest = None
        return received

    def packet_number(self, pn: int) -> int:
        """The whole packet number of the last frame, which was opened and has this PN in its SecTAG."""
        return whole_number(pn, self.secy.rx_sa(self.sci, self.an).next)

    @property
    def sci_of_iv(self) -> bytes | None:
        """The SCI in the IVs, if it is not the one that the tags mean."""
        return None

    def close(self) -> None:
        self.secy.close()


def of_iv(key: Key, sci: bytes) -> Key:
    """A key of an extended suite that opens what `key` protects under IVs with this SCI, whatever SCI the tags mean:
    with SSCI 1 and upper half 0 its IVs are the same. There is no such key with an offset.

    >>> of_iv(Key(bytes(16), Suite.gcm128), bytes.fromhex("0200000000010005")).salt.hex()
    '020000010001000500000000'
    """
    assert not key.suite.is_extended and not key.offset
    suite = suite_of(key.suite.key_octets, True)
    return key._replace(suite=suite, salt=bytes([*sci[:3], sci[3] ^ 1, *sci[4:], 0, 0, 0, 0]))


class IvTrial(Trial):
    """A trial for tags with ES or SCB whose IVs have another SCI. No receiver of the standard opens such frames. Each
    is opened as a first one: packet numbers have 32 bits."""

    def __init__(self, key: Key, sci: bytes, meant: bytes, an: int) -> None:
        super().__init__(of_iv(key, sci), meant, an, 1)
        self._sci_of_iv = sci

    def receive(self, frame: bytes) -> Received:
        self.begin(0)
        return super().receive(frame)

    def packet_number(self, pn: int) -> int:
        return pn

    @property
    def sci_of_iv(self) -> bytes | None:
        return self._sci_of_iv


class Trials:
    """Trials that are kept, so that many tries do not create an endpoint each."""

    MOST = 64

    def __init__(self) -> None:
        self._kept: dict[tuple[Key, bytes, int, bool], Trial] = {}
        self._any: SecY | None = None

    def opens(self, key: Key, sci: bytes, an: int, frame: bytes, ssci: int = 0, upper: int = 0) -> bool:
        """Does the frame open so, as the first one of its association?"""
        return self.verdict(key, sci, an, frame, ssci, upper) in OPENED

    def verdict(self, key: Key, sci: bytes, an: int, frame: bytes, ssci: int = 0, upper: int = 0) -> Verdict | None:
        """Its verdict so; None if no suite has such a key or offset, or no endpoint takes such a frame."""
        try:
            trial = self._trial(key, sci, an, ssci)
            trial.begin(upper, ssci)
            return trial.receive(frame).verdict
        except MacsecError:
            return None

    def check(self, frame: bytes) -> None:
        """Raises FrameFault if no endpoint takes a frame, since it is too short or too long."""
        if self._any is None:
            self._any = SecY(own_sci())
        self._any.receive(frame)

    def _trial(self, key: Key, sci: bytes, an: int, ssci: int) -> Trial:
        place = (key, sci, an, ssci == _LAST_SSCI)
        found = self._kept.pop(place, None) or Trial(key, sci, an, ssci)
        # The last one is that which was used last.
        self._kept[place] = found
        if len(self._kept) > self.MOST:
            self._kept.pop(next(iter(self._kept))).close()
        return found

    def close(self) -> None:
        """Closes all of them."""
        for each in self._kept.values():
            each.close()
        self._kept.clear()
        if self._any is not None:
            self._any.close()
            self._any = None


class KeyArgument(NamedTuple):
    """The value of an option --key: a key, and whose it is where that is said. What MKA says of a key is after `id`;
    `sscis` are SSCIs that senders can have."""

    octets: bytes
    salt: bytes | None = None
    ssci: int | None = None
    sci: bytes | None = None
    an: int | None = None
    id: str | None = None
    upper: int | None = None
    suite: Suite | None = None
    offset: int | None = None
    name: str = ""
    sscis: tuple[tuple[bytes, int], ...] = ()

    def suites(self, asked: Suite | None = None) -> tuple[Suite, ...]:
        """The suites that the key can be of: its own, one that was asked for, or by its length and whether it has a
        salt."""
        if self.suite is not None:
            return (self.suite,) if asked in (None, self.suite) else ()
        if asked is not None:
            return (asked,) if asked.key_octets == len(self.octets) else ()
        octets = 16 if len(self.octets) == 16 else 32
        return tuple(suite_of(octets, it) for it in ((False,) if self.salt is None else (True, False)))


def _hex(text: str, what: str, *lengths: int) -> bytes:
    """Octets in hex. A message never has the digits: they can be a key."""
    if not all(it in "0123456789abcdefABCDEF" for it in text):
        raise UsageError(f"--key: {what} is not hex: digits alone expected, without 0x, colons and spaces")
    if len(text) not in [2 * it for it in lengths]:
        expected = " or ".join(str(2 * it) for it in lengths)
        raise UsageError(f"--key: {what} has {len(text)} digits, {expected} expected")
    return bytes.fromhex(text)


def _key(text: str) -> bytes:
    """A key in hex or base64."""
    if _BASE64.fullmatch(text):
        return base64.b64decode(text.replace("-", "+").replace("_", "/"))
    return _hex(text, "the key", 16, 32)


def key_argument(text: str) -> KeyArgument:
    """Reads [WHOSE=]KEY[:SALT[:SSCI[:UPPER]]], where WHOSE is SCI, SCI/AN, /AN, or the identifier of the key for
    `ip macsec`. KEY is hex or base64, the others are hex. UPPER is the upper half of the packet number; SSCI can be
    empty before it.

    >>> key_argument("0200000000010001/3=ad7a2bd03eac835a6f620fdcb506b345").an
    3
    >>> key_argument("ad7a2bd03eac835a6f620fdcb506b345:a0a1a2a3a4a5a6a7a8a9aaab:00000002").ssci
    2
    >>> key_argument("ad7a2bd03eac835a6f620fdcb506b345:a0a1a2a3a4a5a6a7a8a9aaab::1f4").upper
    500
    >>> key_argument("/3=rXor0D6sg1pvYg/ctQazRQ==").octets.hex()
    'ad7a2bd03eac835a6f620fdcb506b345'
    """
    parts = text.split(":")
    if len(parts) > 4:
        raise UsageError("--key: KEY, KEY:SALT, KEY:SALT:SSCI or KEY:SALT:SSCI:UPPER expected, without colons in KEY")
    # Base64 ends with the sign that ends WHOSE.
    at = parts[0].rstrip("=").rfind("=") + 1
    whose, octets = parts[0][: max(at - 1, 0)], _key(parts[0][at:])
    salt = _hex(parts[1], "the salt", 12) if len(parts) > 1 else None
    has_ssci = len(parts) > 3 and parts[2] or len(parts) == 3
    ssci = int.from_bytes(_hex(parts[2], "the SSCI", 4), "big") if has_ssci else None
    upper = int.from_bytes(_hex(parts[3].zfill(8), "the upper half", 4), "big") if len(parts) > 3 else None
    sci_text, slash, an_text = whose.partition("/")
    if slash and an_text not in ("0", "1", "2", "3"):
        raise UsageError("--key: the association number after / is not 0 to 3")
    an = int(an_text) if slash else None
    if sci_text and not slash and len(sci_text) != 16:
        return KeyArgument(octets, salt, ssci, id=sci_text.lower().ljust(32, "0"), upper=upper)
    return KeyArgument(octets, salt, ssci, _hex(sci_text, "the SCI", 8) if sci_text else None, an, upper=upper)
