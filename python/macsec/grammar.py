"""The lines of a CONFIG (macsec(5)). The library reads each one, and says whether it is a line and what it means.

It names the first fault of a line. This finds which argument that is, and says what is expected there: it asks the
library about the same line with all other arguments replaced by right ones.
"""

from __future__ import annotations

import ctypes
import difflib
import itertools
from collections.abc import Sequence
from typing import NamedTuple

from . import _library
from .errors import MEANINGS, MacsecError, error, without_keys
from .names import SUITES, Form, Kind, Status, Suite
from .secy import SecY

# What is read of a file: the library takes no longer text.
MOST_OCTETS = 1_048_576
BYTE_ORDER_MARK = b"\xef\xbb\xbf"
END = "end A SUITE SCI MAX FORM"

# What follows each keyword of a command.
USAGES = {
    # made: usages of tools/families.json
    "protect": "on|off",
    "validate": "strict|check|disabled",
    "replay": "on|off WINDOW",
    "tag": "auto|sci|es|scb",
    "key": "N KEY OFFSET [SUITE] [SSCI SALT]",
    "retire": "N",
    "txsa": "AN N PN int|conf",
    "txon": "AN",
    "txoff": "AN",
    "txdel": "AN",
    "rxsc": "SCI",
    "rxscdel": "SCI",
    "rxsa": "SCI AN N PN [SSCI]",
    "rxon": "SCI AN",
    "rxoff": "SCI AN",
    "rxlow": "SCI AN PN",
    "rxdel": "SCI AN",
    # end
}
# What is said of each argument: the numbers from and to which it is decimal, how many hex digits it has, or its words;
# and a right one.
_NUMBERS = {"AN": (0, 3), "N": (0, 4095), "OFFSET": (0, 255), "WINDOW": (0, 2**64 - 1), "MAX": (64, 9248)}
_DIGITS = {"KEY": "32 or 64", "SCI": "16", "SSCI": "8", "SALT": "24", "PN": "1 to 16"}
_WORDS = {"SUITE": "|".join(it.name for it in SUITES), "FORM": USAGES["tag"]}
_RIGHT = {"KEY": "00" * 16, "SCI": "0200000000000001", "SSCI": "00000001", "SALT": "00" * 12, "PN": "1"}
_AFTER_END = "A|B SUITE SCI MAX FORM".split()
_OTHER_NAMES = {**{it.in_ip: it.name for it in SUITES}, "default": "gcm128"}


class Fault(NamedTuple):
    """What is wrong with a text: the line and the word from 1 (0: none), the library's name of the fault, a message."""

    line: int
    word: int
    name: str
    message: str

    def __str__(self) -> str:
        where = f"line {self.line}" if self.line else "the text"
        return f"{where}, argument {self.word}: {self.message}" if self.word else f"{where}: {self.message}"


class End(NamedTuple):
    """The line `end`: its number from 1, and what it says."""

    line: int
    suite: Suite
    sci: bytes
    max_frame: int
    form: Form


class Command(NamedTuple):
    """A line of a command: its number from 1, its keyword, and what its arguments mean. Those that its keyword does not
    have are 0. `octets` to `suite` are of a `key`, whose number is `key`."""

    line: int
    keyword: str
    an: int
    key: int
    pn: int
    sci: bytes
    ssci: int
    is_conf: bool
    octets: bytes
    salt: bytes
    offset: int
    suite: Suite


class Text(NamedTuple):
    """The text of a CONFIG: its lines that are not skipped, and all faults. The first one is the one that the library
    names. `end` is None if that line is missing or wrong."""

    end: End | None
    commands: list[Command]
    faults: list[Fault]


# What the library says.


def _status_of_end(line: bytes) -> tuple[int, _library.Config]:
    config = _library.Config()
    return int(_library.load().macsec_parse_end_raw(line, len(line), ctypes.byref(config))), config


def _status_of_line(line: bytes, number: int = 0) -> tuple[int, Command | None]:
    """The status of a line, and its command; None if it is skipped or wrong."""
    it = _library.Command()
    status = int(_library.load().macsec_parse_line_raw(line, len(line), ctypes.byref(it)))
    made = _command_of(number, it) if it.kind else None
    # It can have a key.
    ctypes.memset(ctypes.addressof(it), 0, ctypes.sizeof(it))
    return status, made


def _status_of_text(text: bytes) -> int:
    """What is wrong with a text as a whole, or 0."""
    try:
        SecY.configure(text).close()
    except MacsecError as why:
        return 0 if why.line or why.number < Status.Word else why.number
    return 0


def _command_of(number: int, it: _library.Command) -> Command:
    sak, keyword = it.sak, Kind(it.kind).name
    return Command(
        number, keyword, it.an, it.key, it.pn, bytes(it.sci), sak.ssci if keyword == "key" else it.ssci, bool(it.flag),
        bytes(sak.bytes)[: sak.length], bytes(sak.salt), sak.offset, Suite(sak.suite),
    )  # fmt: skip


def parse(text: bytes) -> Text:
    """The lines of a CONFIG.

    >>> parse(b"end A gcm128 0200000000010001 1546 sci\\nA key 0 ad7a2bd03eac835a6f620fdcb506b345f 0\\n").faults[0]
    Fault(line=2, word=4, name='Hex', message='33 digits, 32 or 64 expected')
    """
    status = _status_of_text(text)
    if status:
        is_empty = status == Status.Ends
        why = f"every line is skipped; the first has to be {END}" if is_empty else MEANINGS[Status(status)]
        return Text(None, [], [Fault(0, 0, Status(status).name, why)])
    made = Text(None, [], [])
    is_first = True
    for number, line in enumerate(text.split(b"\n"), 1):
        if number == 1 and line.startswith(BYTE_ORDER_MARK):
            made.faults.append(_fault_of(number, line, _status_of_line(line)[0], is_first))
            line = line[len(BYTE_ORDER_MARK) :]
        status, command = _status_of_line(line, number)
        if status == Status.OK and command is None:
            continue
        if is_first:
            status, config = _status_of_end(line)
            suite, form = Suite(config.suite), Form(config.form)
            made = made._replace(end=None if status else End(number, suite, bytes(config.sci), config.max_frame, form))
        elif command is not None:
            made.commands.append(command)
        if status:
            made.faults.append(_fault_of(number, line, status, is_first))
        is_first = False
    return made


# What is wrong with a line, in words.


def _fault_of(number: int, line: bytes, status: int, is_first: bool) -> Fault:
    if status == Status.Memory:
        raise error(status)
    named = Status(status)
    words = line.decode("latin-1").removesuffix("\r").replace("\t", " ").split(" ")
    place, message = _explained([it for it in words if it], named, is_first)
    return Fault(number, place, named.name, message)


def _explained(words: list[str], status: Status, is_first: bool) -> tuple[int, str]:
    """Which word is wrong, from 1 (0: none), and a message."""
    if status == Status.LineLong:
        return 0, MEANINGS[status]
    if status == Status.Ends:
        return _explained_place(words, is_first)
    if words[0] not in ("A", "B", "end"):
        return _explained_start(words[0], status)
    if words[0] == "end":
        return _explained_arguments(words[:1], words[1:], status)
    if len(words) == 1:
        return 0, "a command is missing"
    if words[1] in USAGES:
        return _explained_arguments(words[:2], words[2:], status)
    # The library reads the keywords of scripts too.
    if status != Status.Word:
        return 0, f"{words[1]} is for scripts alone"
    return 2, f"{_quoted(words[1])} is no command{_suggestion(words[1], list(USAGES))}"


def _explained_place(words: list[str], is_first: bool) -> tuple[int, str]:
    if is_first and words[:2] == ["end", "A"]:
        return 6, f"{words[5]} needs an SCI with port {'0001' if words[5] == 'es' else '0000'}"
    if is_first:
        return 0, f"the first line has to be {END}"
    if words[0] != "A":
        return 0, "every line after the first has to be a command at A"
    return 0, f"{words[1]} is for scripts alone"


def _explained_start(word: str, status: Status) -> tuple[int, str]:
    """A line that begins with another word than A, B or end."""
    if status != Status.Word:
        return 0, f"{word} is for scripts alone"
    if word.encode("latin-1").startswith(BYTE_ORDER_MARK):
        return 1, "the file begins with a byte order mark (EF BB BF); save it without one"
    return 1, f"{_quoted(word)}, A or end expected"


def _explained_arguments(before: list[str], words: list[str], status: Status) -> tuple[int, str]:
    """What is wrong with the words after the keyword."""
    keyword = before[-1]
    if status == Status.Count:
        usage = END if keyword == "end" else f"A {keyword} {USAGES[keyword]}"
        counts = " or ".join(str(len(before) + len(it)) for it in _forms_of(keyword))
        why = "; a comment needs a line of its own" if any(it.startswith("#") for it in words) else ""
        return 0, f"{len(before) + len(words)} words, {counts} expected: {usage}{why}"
    kinds: list[str] = next((it for it in _forms_of(keyword) if len(it) == len(words)), [])
    for place, (kind, word) in enumerate(zip(kinds, words)):
        asked = ["end"] if keyword == "end" else ["A", keyword]
        asked += [word if at == place else _right(it) for at, it in enumerate(kinds)]
        line = " ".join(asked).encode("latin-1")
        if (_status_of_end(line) if keyword == "end" else _status_of_line(line))[0] == status:
            return len(before) + place + 1, _expected(kind, word)
    # A library of a later version can have other forms of a line.
    return 0, MEANINGS.get(status, status.name)


def _forms_of(keyword: str) -> list[list[str]]:
    """What can follow a keyword: without its optional arguments, and with them, fewer first.

    >>> [len(it) for it in _forms_of("key")], _forms_of("rxsa")
    ([3, 4, 5, 6], [['SCI', 'AN', 'N', 'PN'], ['SCI', 'AN', 'N', 'PN', 'SSCI']])
    """
    if keyword == "end":
        return [_AFTER_END]
    needed, *groups = USAGES[keyword].replace("]", "").split("[")
    chosen = itertools.product(*([[], it.split()] for it in groups))
    return sorted(([*needed.split(), *itertools.chain(*it)] for it in chosen), key=len)


def _right(kind: str) -> str:
    """An argument that is right."""
    if kind in _NUMBERS:
        return str(_NUMBERS[kind][0])
    return _RIGHT.get(kind) or _WORDS.get(kind, kind).split("|")[0]


def _quoted(word: str) -> str:
    """A word for a message, unless it can be a key in a wrong place."""
    return repr(without_keys(word if len(word) <= 40 else word[:37] + "..."))


def _suggestion(word: str, choices: Sequence[str]) -> str:
    other = _OTHER_NAMES.get(word.lower()) or next(iter(difflib.get_close_matches(word.lower(), choices, 1, 0.7)), "")
    return f"; write {other}" if other in choices else ""


def _expected(kind: str, word: str) -> str:
    """What is expected in place of an argument."""
    if kind in _NUMBERS:
        low, high = _NUMBERS[kind]
        return f"{_quoted(word)}, a decimal number from {low} to {high} expected"
    if kind not in _DIGITS:
        choices = _WORDS.get(kind, kind).split("|")
        expected = f"{', '.join(choices[:-1])} or {choices[-1]}"
        return f"{_quoted(word)}, {expected} expected{_suggestion(word, choices)}"
    wrong = next((it for it in word if it not in "0123456789abcdefABCDEF"), None)
    if wrong is None:
        return f"{len(word)} digits, {_DIGITS[kind]} expected"
    advice = "leave 0x out" if word[:2].lower() == "0x" else "leave them out" if wrong in ":-" else "0 to 9, a to f"
    return f"{_quoted(wrong)} is no hex digit: {advice}"
