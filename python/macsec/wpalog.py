"""The keys and associations in a log of wpa_supplicant, run with -dK."""

from __future__ import annotations

import re
from collections.abc import Iterable, Iterator
from typing import BinaryIO, NamedTuple

from .errors import UsageError
from .names import Suite
from .plan import Plan, PlannedSa

# What the key server and its peers log of a key, and what either logs of the association around it.
_KEY = re.compile(
    r"(generated new SAK|AES Key Unwrap of SAK|macsec_linux: SA key)[.:]* - hexdump\(len=\d{1,9}\):"
    r"((?: [0-9a-f]{2})+| \[REMOVED\])"
)
# No line of interest is longer.
_LONGEST_LINE = 4096
_AN = re.compile(r"Distributed AN\.*: ([0-3])")
_OFFSET = re.compile(r"Confidentiality Offset\.*: ([0-9])")
# What the driver for Linux logs: the number and the SCI of an association, and options. The key comes on a later line.
_SA = re.compile(
    r"create_(transmit|receive)_sa -> ([0-3]) on ((?:[0-9a-f]{2}:){5}[0-9a-f]{2})::([0-9a-f]{1,4}) "
    r"\([^)]*next_pn=([0-9]{1,20})\)"
)
_OPTION = re.compile(
    r"try_commit (protect_frames|encrypt|encoding_sa|replay_protect)=([0-9]{1,20})(?: replay_window=([0-9]{1,20}))?"
)
# The offsets by their numbers in MKA; 0 is integrity alone.
_OFFSETS = {"0": 0, "1": 0, "2": 30, "3": 50}


class LoggedKey(NamedTuple):
    """A key of the log, in the order in which they were distributed."""

    octets: bytes
    an: int | None
    offset: int


def lines_of(log: BinaryIO) -> Iterator[str]:
    """The lines of a log. Of one that is too long for any key, its start."""
    while True:
        line = log.readline(_LONGEST_LINE)
        if not line:
            return
        yield line.decode(errors="replace").rstrip("\r\n")
        while len(line) == _LONGEST_LINE and not line.endswith(b"\n"):
            line = log.readline(_LONGEST_LINE)


def keys_of(log: Iterable[str]) -> list[LoggedKey]:
    """The keys in the lines of a log, each once.

    >>> log = ["\\tDistributed AN........: 1", "\\tAES Key Unwrap of SAK.: - hexdump(len=16):" + " 0f" * 16]
    >>> keys_of(log)[0].an
    1
    """
    found: list[LoggedKey] = []
    seen: set[bytes] = set()
    an: int | None = None
    offset, waits = 0, False
    for line in log:
        told = _OFFSET.search(line)
        offset = _OFFSETS.get(told[1], 0) if told else offset
        told = _AN.search(line)
        if told:
            an = int(told[1])
            if waits:
                found[-1], waits = found[-1]._replace(an=an), False
            continue
        told = _KEY.search(line)
        if not told:
            if waits and _OFFSET.search(line):
                found[-1] = found[-1]._replace(offset=offset)
            continue
        if "REMOVED" in told[2]:
            raise UsageError("the log does not show keys: run wpa_supplicant with -dK")
        octets = bytes.fromhex(told[2])
        if len(octets) in (16, 32) and octets not in seen:
            seen.add(octets)
            # The server logs the association after its key, a peer before.
            waits = told[1].startswith("generated")
            found.append(LoggedKey(octets, None if waits else an, offset))
    return found


def plan_of_log(log: Iterable[str], mtu: int = 1500) -> Plan:
    """The endpoint that wpa_supplicant made by the driver for Linux: of each association the last key."""
    sas: dict[tuple[bool, bytes, int], tuple[bytes, int]] = {}
    waits: tuple[bool, bytes, int, int] | None = None
    options: dict[str, int] = {}
    replaced = 0
    for line in log:
        told = _OPTION.search(line)
        if told:
            options[told[1]] = int(told[2])
            options["window"] = int(told[3] or options.get("window", 0))
        told = _SA.search(line)
        if told:
            sci = bytes.fromhex(told[3].replace(":", "")) + int(told[4], 16).to_bytes(2, "big")
            waits = told[1] == "transmit", sci, int(told[2]), max(int(told[5]), 1)
        told = _KEY.search(line)
        if told and waits and told[1].endswith("SA key"):
            if "REMOVED" in told[2]:
                raise UsageError("the log does not show keys: run wpa_supplicant with -dK")
            replaced += waits[:3] in sas
            sas[waits[:3]], waits = (bytes.fromhex(told[2]), waits[3]), None
    own = [sci for is_tx, sci, _ in sas if is_tx]
    if not own:
        raise UsageError("the log has no create_transmit_sa of macsec_linux with its key: run wpa_supplicant with -dK")
    lengths = {len(octets) for octets, _ in sas.values()}
    plan = Plan(own[-1], Suite.gcm256 if lengths == {32} else Suite.gcm128, "sci", mtu + 14)
    plan.protect, plan.encrypt = options.get("protect_frames", 1) == 1, options.get("encrypt", 1) == 1
    plan.replay, plan.window = options.get("replay_protect", 0) == 1, options.get("window", 0)
    plan.encoding = options.get("encoding_sa")
    if replaced:
        plan.notes.append(f"{replaced} associations got another key in the log; each one here has its last key")
    for (is_tx, sci, an), (octets, pn) in sas.items():
        suite = Suite.gcm256 if len(octets) == 32 else Suite.gcm128
        sa = PlannedSa(plan.key_of(octets, suite=suite), pn)
        if is_tx and sci == plan.sci:
            plan.tx[an] = sa
        elif not is_tx:
            plan.rx.setdefault(sci, {})[an] = sa
    return plan
