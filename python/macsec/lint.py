"""What is wrong with a CONFIG, and where: lines that the library cannot read or refuses, and likely slips.

`macsecd --check` (device/check.c) says the same of these lines, and also looks at the host and at its own lines.
"""

from __future__ import annotations

from collections.abc import Iterator
from typing import NamedTuple

from .capture import is_capture
from .endpoint_of_config import without_device_lines
from .errors import Refused
from .grammar import Command, Text, parse
from .names import Status
from .secy import SecY

# The SCI of an endpoint for the other lines if the line `end` is wrong.
_OTHER_SCI = "0200000000000001"

# What to do after a refusal.
_REMEDIES = {
    # made: remedies of tools/families.json
    Status.KeyLength: "gcm128 and xpn128 need 32 digits, gcm256 and xpn256 64",
    Status.Offset: "write 0",
    Status.KeyNumberUsed: "write another number",
    Status.KeyRepeated: "make another key",
    Status.NoKey: "install it in a line before this one",
    Status.KeyRetired: "install another one",
    Status.KeyInUse: "name another key, or delete that first",
    Status.OwnSci: "write the peer's",
    Status.ScTaken: "delete one of the two lines",
    Status.ScFull: "delete lines `rxsc`",
    Status.NoSc: "write A rxsc SCI before this line",
    Status.AnTaken: "write another AN",
    Status.NoSa: "begin it in a line before this one",
    Status.PnRange: "write 1",
    Status.PnLower: "write a higher one",
    Status.PnFloor: "write a higher one",
    Status.SsciOwn: "write the peer's",
    Status.Window: "write 0",
    Status.SciForm: "write sci",
    # end
}
# What is said of likely slips.
# made: slips of tools/families.json
UNUSED_KEY = "no association uses key %u"
BOTH_DIRECTIONS = "key %u is for both directions: AES-GCM breaks if both ends ever have one SCI. Write two keys"
READABLE_OCTETS = "the first %u octets of each frame stay readable under this key: write 0"
DECIMAL_NUMBER = "packet numbers are hex: decimal %s is %x"
INTEGRITY_ALONE = "int does not encrypt: everybody on the link can read the frames; write conf"
NOT_ENABLED_TX = "no transmit association is enabled, so no frame is sent: A txon %u"
NOT_ENABLED_RX = "this association is never enabled, so it receives nothing: A rxon %s %u"
# end


class Finding(NamedTuple):
    """Something about a line. `kind` is fault, refused or hint, `name` the library's name of a fault or refusal."""

    kind: str
    line: int
    word: int
    name: str
    message: str

    def __str__(self) -> str:
        where = f"line {self.line}" if self.line else "the text"
        where += f", argument {self.word}" if self.word else ""
        told = {"fault": "", "refused": "refused: ", "hint": "hint: "}[self.kind]
        return f"{where}: {told}{self.message}"


def lint(text: bytes) -> list[Finding]:
    """All findings of a text, by lines. After a wrong line `end` nothing is known of refusals.

    >>> for each in lint(b"end A gcm-aes-128 0200000000010001 1546 sci\\nA key 0 00 0\\n"):
    ...     print(each)
    line 1, argument 3: 'gcm-aes-128', gcm128, gcm256, xpn128 or xpn256 expected; write gcm128
    line 2, argument 4: 2 digits, 32 or 64 expected
    """
    if is_capture(text[:4]):
        return [Finding("fault", 0, 0, "Word", "this is a capture, not a CONFIG")]
    made = parse(without_device_lines(text))
    found = [Finding("fault", *it) for it in made.faults] + [*_carried_out(made, text)]
    return sorted(found, key=lambda it: it.line)


def _carried_out(made: Text, text: bytes) -> Iterator[Finding]:
    """The refusals of the lines, and the likely slips in those that the library carries out."""
    lines, slips = text.split(b"\n"), _Slips(made.commands)
    end = made.end
    with SecY(end.sci, end.suite, end.form, end.max_frame) if end else SecY(_OTHER_SCI) as secy:
        for it in made.commands:
            line = lines[it.line - 1]
            try:
                secy.command(line)
            except Refused as why:
                if end:
                    remedy = _REMEDIES.get(Status(why.number))
                    yield Finding("refused", it.line, 0, why.name, f"{why}; {remedy}" if remedy else str(why))
            else:
                words = line.decode("latin-1").split()
                yield from (Finding("hint", it.line, word, "", said) for word, said in slips.of(it, words))


class _Slips:
    """What a whole CONFIG is looked at for: slips that no line's text shows."""

    def __init__(self, commands: list[Command]) -> None:
        self._sends = {it.key for it in commands if it.keyword == "txsa"}
        self._receives = {it.key for it in commands if it.keyword == "rxsa"}
        self._enabled = {(it.sci, it.an) for it in commands if it.keyword == "rxon"}
        self._enables = any(it.keyword == "txon" for it in commands)
        self._has_sent = False

    def of(self, it: Command, words: list[str]) -> Iterator[tuple[int, str]]:
        """The slips of a line, each with its word from 1, or 0."""
        if it.keyword == "key":
            yield from self._of_key(it)
        if it.keyword == "txsa":
            yield from _of_number(5, words)
            if not it.is_conf:
                yield 6, INTEGRITY_ALONE
            if not self._has_sent and not self._enables:
                yield 0, NOT_ENABLED_TX % it.an
            self._has_sent = True
        if it.keyword == "rxsa":
            yield from _of_number(6, words)
            if (it.sci, it.an) not in self._enabled:
                yield 0, NOT_ENABLED_RX % (it.sci.hex(), it.an)

    def _of_key(self, it: Command) -> Iterator[tuple[int, str]]:
        if it.key not in self._sends | self._receives:
            yield 3, UNUSED_KEY % it.key
        if it.key in self._sends & self._receives:
            yield 3, BOTH_DIRECTIONS % it.key
        if it.offset:
            yield 5, READABLE_OCTETS % it.offset


def _of_number(place: int, words: list[str]) -> Iterator[tuple[int, str]]:
    """A packet number of several digits without a letter may be meant in decimal, as `ip` writes it."""
    word = words[place - 1]
    if 2 <= len(word) <= 8 and word.isdecimal() and int(word) >= 2:
        yield place, DECIMAL_NUMBER % (word, int(word))
