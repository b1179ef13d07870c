"""The numbers that the library gives and takes, with the names that the program `macsec` prints.

>>> print(Verdict(5), Verdict.NoSAError.value, f"{Verdict.OK} {Verdict.OK:d}")
NoSAError 5 OK 12
>>> Suite["xpn128"]
<Suite.xpn128: 3>
"""

from __future__ import annotations

from enum import IntEnum
from typing import Any


class Named(IntEnum):
    """A number that is printed as its name; as a number where a format asks for one."""

    def __str__(self) -> str:
        return str(self._name_)

    def __format__(self, spec: str) -> str:
        return format(int(self) if spec[-1:] in tuple("bcdoxXn") else str(self), spec)


class _Number(Named):
    """A number that a library of a later version can give without a name here: it is called `unknown`."""

    @classmethod
    def _missing_(cls, value: object) -> Any:
        if not isinstance(value, int):
            return None
        made = int.__new__(cls, value)
        made._name_, made._value_ = "unknown", value
        return made


class Status(_Number):
    """Why the library did nothing. 1 to 20 are the refusals of commands."""

    # made: statuses of tools/families.json
    OK = 0
    KeyLength = 1
    Offset = 2
    KeyNumberUsed = 3
    KeyRepeated = 4
    NoKey = 5
    KeyRetired = 6
    KeyInUse = 7
    OwnSci = 8
    ScTaken = 9
    ScFull = 10
    NoSc = 11
    AnTaken = 12
    NoSa = 13
    PnRange = 14
    PnLower = 15
    PnFloor = 16
    SsciOwn = 17
    Window = 18
    SciForm = 19
    Exhausted = 20
    Empty = 32
    Taken = 33
    NoSuchSuite = 34
    NoSuchForm = 35
    NoSuchMode = 36
    NoSuchAn = 37
    NoSuchKeyNumber = 38
    NoSuchKeyOctets = 39
    NotFound = 40
    Memory = 41
    NewMaxFrame = 42
    NewSciForm = 43
    Short = 44
    Long = 45
    Word = 46
    Count = 47
    Hex = 48
    Number = 49
    Ends = 50
    LineLong = 51
    ScriptLong = 52
    NotJournal = 53
    NotRecord = 54
    AnswerLong = 55
    Job = 56
    OtherKey = 57
    Space = 58
    NoSuchCommand = 59
    JournalDamaged = 60
    JournalFull = 61
    JournalBusy = 62
    # end


class Suite(Named):
    """A cipher suite (clause 14). `default` is the suite of the endpoint, for keys alone."""

    # made: suites of tools/families.json
    default = 0
    gcm128 = 1
    gcm256 = 2
    xpn128 = 3
    xpn256 = 4
    # end

    @property
    def is_extended(self) -> bool:
        """Do its packet numbers have 64 bits?"""
        return bool(self) and _OF_SUITES[self][1]

    @property
    def key_octets(self) -> int:
        """The length of its keys."""
        return _OF_SUITES[self][0] if self else 16

    @property
    def in_ip(self) -> str:
        """Its name in `ip macsec`."""
        return _OF_SUITES[self][2]

    @property
    def identifier(self) -> bytes:
        """Its identifier in key agreements (802.1AE-2018, Table 14-1)."""
        return bytes.fromhex(_OF_SUITES[self][3])


# Each suite's octets of a key, whether its packet numbers are extended, its name in `ip` and its identifier.
# made: of-suites of tools/families.json
_OF_SUITES = {
    Suite.gcm128: (16, False, "gcm-aes-128", "0080c20001000001"),
    Suite.gcm256: (32, False, "gcm-aes-256", "0080c20001000002"),
    Suite.xpn128: (16, True, "gcm-aes-xpn-128", "0080c20001000003"),
    Suite.xpn256: (32, True, "gcm-aes-xpn-256", "0080c20001000004"),
}
# end
SUITES = tuple(_OF_SUITES)


def suite_of(key_octets: int, is_extended: bool) -> Suite:
    """The suite with keys of this length whose packet numbers are extended or not.

    >>> suite_of(16, True)
    <Suite.xpn128: 3>
    """
    return next(it for it in SUITES if (it.key_octets, it.is_extended) == (key_octets, is_extended))


class Form(Named):
    """Which SecTAG a frame gets (9.5)."""

    auto = 0
    sci = 1
    es = 2
    scb = 3


class Mode(Named):
    """How received frames are validated (10.6)."""

    disabled = 0
    check = 1
    strict = 2


class Kind(_Number):
    """A kind of command (10.7), named as the keyword of its line."""

    # made: kinds of tools/families.json
    protect = 1
    validate = 2
    replay = 3
    tag = 4
    key = 5
    retire = 6
    txsa = 7
    txon = 8
    txoff = 9
    txdel = 10
    rxsc = 11
    rxscdel = 12
    rxsa = 13
    rxon = 14
    rxoff = 15
    rxlow = 16
    rxdel = 17
    # end


class Fate(_Number):
    """What becomes of a client frame (10.5)."""

    # made: fates of tools/families.json
    Protected = 1
    Plain = 2
    NoSA = 3
    TooLong = 4
    NoReservation = 5
    # end


class Verdict(_Number):
    """What becomes of a link frame (10.6). Each is named as its counter is, without InPkts (10.7).

    The last two are no verdicts of the standard, and no counter counts them. An endpoint with `ahead` drops a valid
    frame whose packet number is not reserved yet (`NoReservation`), or that an earlier run had reserved (`EarlierRun`).
    """

    # made: verdicts of tools/families.json
    Untagged = 1
    NoTag = 2
    BadTag = 3
    Reserved = 4
    NoSAError = 5
    NoSA = 6
    Late = 7
    NotValid = 8
    Unchecked = 9
    Delayed = 10
    Invalid = 11
    OK = 12
    NoReservation = 13
    EarlierRun = 14
    # end


# The order of each structure of counters in include/macsec.h.
# made: counters of tools/families.json
ENDPOINT_COUNTERS = (
    "InPktsUntagged", "InPktsNoTag", "InPktsBadTag", "InPktsReserved", "InPktsNoSA", "InPktsNoSAError",
    "InOctetsValidated", "InOctetsDecrypted", "OutPktsUntagged", "OutPktsTooLong", "OutPktsNoSA",
)  # fmt: skip
TX_COUNTERS = ("OutPktsProtected", "OutPktsEncrypted", "OutOctetsProtected", "OutOctetsEncrypted")
RX_COUNTERS = ("InPktsOK", "InPktsUnchecked", "InPktsDelayed", "InPktsLate", "InPktsInvalid", "InPktsNotValid")
# end
