"""The exceptions of this package. Each one from the library has the status's number and name."""

from __future__ import annotations

import re

from .names import Status

MEANINGS = {
    # made: meanings of tools/families.json
    Status.KeyLength: "the key has another length than its suite's keys",
    Status.Offset: "the suite's keys have no such confidentiality offset",
    Status.KeyNumberUsed: "a key of this number was installed before",
    Status.KeyRepeated: "a key of these octets was installed before",
    Status.NoKey: "there is no such key",
    Status.KeyRetired: "the key is retired",
    Status.KeyInUse: "an association uses the key",
    Status.OwnSci: "the SCI is the endpoint's own",
    Status.ScTaken: "there is such a channel",
    Status.ScFull: "there are as many channels as there can be",
    Status.NoSc: "there is no such channel",
    Status.AnTaken: "there is such an association",
    Status.NoSa: "there is no such association",
    Status.PnRange: "the packet number is not from 1 to the last",
    Status.PnLower: "the packet number is below the lowest acceptable one",
    Status.PnFloor: "the packet number may have been used before",
    Status.SsciOwn: "packet numbers are extended, and the SSCI is the key's own",
    Status.Window: "the replay window is too wide",
    Status.SciForm: "the tag form does not fit the endpoint's SCI",
    Status.Exhausted: "the association has no packet number left",
    Status.Empty: "the endpoint is closed",
    Status.Taken: "the handle holds an endpoint",
    Status.NoSuchSuite: "the number names no cipher suite",
    Status.NoSuchForm: "the number names no tag form",
    Status.NoSuchMode: "the number names no mode of validation",
    Status.NoSuchAn: "an association number is 0 to 3",
    Status.NoSuchKeyNumber: "a key number is 0 to 4095",
    Status.NoSuchKeyOctets: "a key has 16 or 32 octets",
    Status.NotFound: "there is no such channel or association",
    Status.Memory: "out of memory",
    Status.NewMaxFrame: "the largest frame is 64 to 9248 octets",
    Status.NewSciForm: "the tag form does not fit the SCI",
    Status.Short: "the frame has fewer than 14 octets",
    Status.Long: "the frame has more than 9248 octets",
    Status.Word: "a keyword is unknown, or an argument is not allowed there",
    Status.Count: "too few words or too many",
    Status.Hex: "a word is not hex, or not of as many digits as it must have",
    Status.Number: "a word is not a decimal number in its range",
    Status.Ends: "the line is in a wrong place, or its tag form does not fit its SCI",
    Status.LineLong: "the line has more than 20000 octets",
    Status.ScriptLong: "the text has more than 1048576 octets or 65536 lines",
    Status.NotJournal: "the octets are no journal, one of another version, or one with a damaged header",
    Status.NotRecord: "the octets are not a record of a journal",
    Status.AnswerLong: "the buffer is too small for the answer to the line",
    Status.Job: "the slot has no such job, or it has a frame already",
    Status.OtherKey: "the key is not the one that the job needs",
    Status.Space: "the buffer is too small for what is to be written",
    Status.NoSuchCommand: "the number names no kind of command",
    Status.JournalDamaged: "the count of the journal is damaged, or does not agree with its entries",
    Status.JournalFull: "the entries of the journal would not fit into a file of its limit",
    Status.JournalBusy: "an order to the journal is under way",
    # end
}


class MacsecError(Exception):
    """The library did nothing. `number` and `name` are the status's; `line` is a line of a text, from 1, or None."""

    def __init__(self, status: int, line: int | None = None) -> None:
        self.number = int(status)
        self.line = line
        known = Status(status)
        self.name, meaning = known.name, MEANINGS.get(known, "")
        where = f"line {line}: " if line else ""
        super().__init__(f"{where}{self.number} {self.name}" + (f": {meaning}" if meaning else ""))


class Refused(MacsecError):
    """A command is refused, and nothing has changed (statuses 1 to 20)."""


class TextFault(MacsecError):
    """A line or a text is at fault (statuses 46 to 52)."""


class JournalFault(MacsecError):
    """Octets are not a journal, or not a record of one, or a journal is damaged, full or busy (statuses 53, 54, 60 to
    62)."""


class FrameFault(MacsecError):
    """A frame is too short or too long, and nothing has changed (statuses 44 and 45)."""


class NotFound(MacsecError, LookupError):
    """There is no such channel or association to show (status 40)."""


class CaptureError(Exception):
    """A capture file has a fault."""


class UsageError(Exception):
    """The arguments of a command, or a text that it was given, cannot be used."""


def without_keys(text: str) -> str:
    """A text of somebody's file without what can be a key: words of 20 and more letters and digits.

    >>> without_keys("on key 01 000102030405060708090a0b0c0d0e0f")
    'on key 01 (32 characters)'
    """
    return re.sub("[0-9A-Za-z]{20,}", lambda it: f"({len(it[0])} characters)", text)


def error(status: int, line: int | None = None) -> MacsecError:
    """The exception of a status that is not OK.

    >>> error(5)
    Refused('5 NoKey: there is no such key')
    >>> error(48, 2).line
    2
    """
    if 1 <= status <= 20:
        return Refused(status, line)
    if status in (Status.Short, Status.Long):
        return FrameFault(status, line)
    if Status.Word <= status <= Status.ScriptLong:
        return TextFault(status, line)
    if status in (Status.NotJournal, Status.NotRecord) or Status.JournalDamaged <= status <= Status.JournalBusy:
        return JournalFault(status, line or None)
    return (NotFound if status == Status.NotFound else MacsecError)(status, line)
