"""Seals frames for tests: any SecTAG, with a valid ICV. The library computes it, and decides what is authenticated."""

from __future__ import annotations

import ctypes
from typing import Any

from . import _library
from .errors import error
from .names import Suite
from .secy import Octets, SciLike, named, number_of, octets_of, sak_of, sci_of

ICV_OCTETS = 16


def sealed(sak: Any, sci: SciLike, pn: int, conf: bool, head: int, frame: Octets) -> tuple[int, bytes]:
    """What `macsec_seal` of include/macsec.h returns, and the frame after it. The frame has space for the ICV."""
    octets = octets_of(frame)
    room = ctypes.create_string_buffer(octets, len(octets) + 1)
    status = _library.load().macsec_seal_raw(
        ctypes.byref(sak), sci_of(sci), number_of(pn, 64, "pn"), bool(conf), number_of(head, 64, "head"),
        ctypes.addressof(room), len(octets),
    )  # fmt: skip
    return int(status), room.raw[: len(octets)]


def seal(
    frame: Octets,
    head: int,
    *,
    key: Octets,
    sci: SciLike,
    pn: int,
    suite: Suite | int | str = Suite.gcm128,
    conf: bool = True,
    offset: int = 0,
    ssci: int = 0,
    salt: Octets = bytes(12),
) -> bytes:
    """A frame for a test, sealed, with its ICV after it. The first `head` octets are addresses and SecTAG, of any
    content; with `conf` the data after `offset` octets are encrypted. The IV is of SCI and PN, or of salt, SSCI and PN:
    what the SecTAG says does not matter. **Told the same PN twice, it repeats an IV: use a key of the test alone.**

    >>> head = bytes.fromhex("ffffffffffff02000000000188e52c00000000010200000000010001")
    >>> key = bytes.fromhex("ad7a2bd03eac835a6f620fdcb506b345")
    >>> frame = seal(head + bytes(50), len(head), key=key, sci="0200000000010001", pn=1)
    >>> len(frame), frame[:28] == head
    (94, True)
    """
    sak = sak_of(key, number=0, offset=offset, suite=named(Suite, suite), ssci=ssci, salt=salt)
    status, made = sealed(sak, sci, pn, conf, head, octets_of(frame) + bytes(ICV_OCTETS))
    if status:
        raise error(status)
    return made
