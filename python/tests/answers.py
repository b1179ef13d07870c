"""Makes the calls that the lines of standard input name, by the package, and prints each answer as fuzz/calls.c does.

fuzz/calls.py gives it random calls, and compares the answers with those that its model expects.
"""

from __future__ import annotations

import pathlib
import sys
from typing import Callable

from macsec import Journal, MacsecError, SecY, journal_compacted, journal_created, journal_header, sealing
from macsec.errors import error
from macsec.names import ENDPOINT_COUNTERS, RX_COUNTERS, TX_COUNTERS
from macsec.secy import sak_of

sys.path.insert(0, str(pathlib.Path(__file__).resolve().parents[2] / "fuzz"))
from handles import UNSHOWN  # noqa: E402

sys.path.pop(0)

handles: list[SecY | None] = [None] * 4
files: list[Journal | None] = [None] * 2
EMPTY, TAKEN, NOT_FOUND, MEMORY, ANSWER_LONG, SPACE = 32, 33, 40, 41, 55, 58


def octets(word: str) -> bytes:
    return b"" if word == "-" else bytes.fromhex(word)


def hex_of(frame: bytes | None) -> str:
    return frame.hex() if frame else "-"


def wide(number: int) -> str:
    return f"{number:017x}"


def send(it: SecY, frame: str) -> str:
    sent = it.send(memoryview(octets(frame)))
    return f" {int(sent.fate)} {sent.key or 0} {hex_of(sent.frame)}"


def receive(it: SecY, frame: str) -> str:
    got = it.receive(bytearray(octets(frame)))
    has_sa, sci = got.sci is not None, (got.sci or bytes(8)).hex()
    delivered = f"{int(got.frame is not None)} {got.pn or 0} {hex_of(got.frame)}"
    return f" {int(got.verdict)} {int(has_sa)} {sci} {got.an or 0} {delivered}"


def keyed(name: str) -> Callable[..., str]:
    """The call of this name, which takes a key."""

    def call(it: SecY, *words: str) -> str:
        key, salt, ssci, suite, number, length, offset = words
        chosen = {"suite": int(suite), "ssci": int(ssci), "salt": octets(salt), "offset": int(offset)}
        getattr(it, name)(int(number), octets(key)[: int(length)], **chosen)
        return ""

    return call


def shown_record(record: bytes | None) -> str:
    if record is None:
        raise error(NOT_FOUND)
    return f" {record.hex()}"


def seal(*words: str) -> tuple[str, int]:
    key, salt, ssci, suite, number, length, offset, sci, pn, conf, head, frame = words
    sak = sak_of(
        octets(key)[: int(length)], number=int(number), offset=int(offset), suite=int(suite), ssci=int(ssci),
        salt=octets(salt),
    )  # fmt: skip
    status, made = sealing.sealed(sak, sci, int(pn), conf != "0", int(head), octets(frame))
    return f" {hex_of(made)}", status


def compacted(journal: str) -> tuple[str, int]:
    given = octets(journal)
    try:
        made = journal_compacted(given)
    except MacsecError as why:
        return f" 7 {hex_of(bytes([7]) * len(given))}", why.number
    return f" {len(made)} {hex_of(made + bytes([7]) * (len(given) - len(made)))}", 0


def options(it: SecY) -> str:
    shown = it.options()
    return f" {shown.window} {int(shown.mode)} {int(shown.form)} {int(shown.protect)} {int(shown.replay)}"


def counters(values: dict[str, int], names: tuple[str, ...]) -> str:
    return "".join(f" {values[name]}" for name in names)


def tx_sa(it: SecY, an: str) -> str:
    sa = it.tx_sa(int(an))
    return f" {wide(sa.next)} {sa.key} {int(sa.conf)} {int(sa.on)}"


def rx_sa(it: SecY, sci: str, an: str) -> str:
    sa = it.rx_sa(sci, int(an))
    return f" {wide(sa.next)} {wide(sa.lowest)} {sa.ssci} {sa.key} {int(sa.on)}"


def answered(it: SecY | None, number: str, line: str, room: str) -> tuple[str, int]:
    """The answer to a line, with octets of 7 where nothing is written."""
    size = int(room)
    if it is None:
        return f" 0 {hex_of(bytes([7]) * size)}", EMPTY
    status, length, out = it.answer_within(int(number), octets(line), size)
    text = b"" if status in (MEMORY, ANSWER_LONG) else out[:length]
    return f" {length} {hex_of(text + bytes([7]) * (size - len(text)))}", status


# The calls that show nothing, and their arguments.
PLAIN = """send_uncontrolled octets; set_protect flag; set_validation int; set_replay flag int; set_tag_form int;
    retire_key int; add_tx_sa int int int flag; enable_tx_sa int; disable_tx_sa int; delete_tx_sa int; add_rx_sc str;
    delete_rx_sc str; add_rx_sa str int int int int; enable_rx_sa str int; disable_rx_sa str int;
    set_lowest_pn str int int; delete_rx_sa str int; reserve_granted octets"""
READ: dict[str, Callable[[str], object]] = {"int": int, "str": str, "octets": octets, "flag": lambda it: it != "0"}


def plain(name: str, kinds: list[str]) -> Callable[..., str]:
    def call(it: SecY, *words: str) -> str:
        getattr(it, name)(*(READ[kind](word) for kind, word in zip(kinds, words)))
        return ""

    return call


CALLS: dict[str, Callable[..., str]] = {
    **{name: plain(name, kinds) for name, *kinds in map(str.split, PLAIN.split(";"))},
    "send": send,
    "receive": receive,
    "command_line": lambda it, line: it.command(octets(line)) or "",
    "install_key": keyed("install_key"),
    "renew_key": keyed("renew_key"),
    "get_options": options,
    "keys_left": lambda it: f" {it.keys_left()}",
    "get_counters": lambda it: counters(it.counters(), ENDPOINT_COUNTERS),
    "get_tx_counters": lambda it: counters(it.counters(), TX_COUNTERS),
    "get_rx_counters": lambda it, sci: counters(it.rx_counters(sci), RX_COUNTERS),
    "get_rx_sa_counters": lambda it, sci, an: counters(it.rx_counters(sci, int(an)), RX_COUNTERS),
    "get_removed_counters": lambda it, sci: counters(it.removed_counters(sci), RX_COUNTERS),
    "get_rx_sc": lambda it, place: f" {it.rx_sc(int(place)).hex()}",
    "get_tx_sa": tx_sa,
    "get_rx_sa": rx_sa,
    "reserve_wanted": lambda it, an, amount: shown_record(it.reserve_wanted(int(an), int(amount))),
    "reserve_to_accept": lambda it, sci, *numbers: shown_record(it.reserve_to_accept(sci, *map(int, numbers))),
    "reserve_to_save": lambda it, sci, an: f" {it.reserve_to_save(sci, int(an)).hex()}",
    "reserve_tx_floor": lambda it, key: f" {it.reserve_tx_floor(int(key))}",
    "reserve_rx_floor": lambda it, sci, an, key: f" {it.reserve_rx_floor(sci, int(an), int(key))}",
}
# The calls without a handle.
FREE_CALLS: dict[str, Callable[..., tuple[str, int]]] = {
    "seal": seal,
    "journal_header": lambda salt: (f" {journal_header(octets(salt)).hex()}", 0),
    "journal_compacted": compacted,
    "journal_created": lambda salt: (f" {journal_created(octets(salt)).hex()}", 0),
}
MAKES = ("new", "configure", "reserve_open", "reserve_configure")


def made(name: str, words: list[str]) -> SecY:
    if name == "configure":
        return SecY.configure(octets(words[0]))
    if name == "reserve_configure":
        text, journal, ahead = words
        return SecY.configure(octets(text), octets(journal), ahead=ahead != "0")
    sci, suite, form, most = words[0], *map(int, words[1:4])
    if name == "reserve_open":
        return SecY(sci, suite, form, most, octets(words[4]), ahead=words[5] != "0")
    return SecY(sci, suite, form, most)


def creation(name: str, handle: int, words: list[str]) -> tuple[str, int]:
    """The answer of a call that makes or ends an endpoint."""
    if name == "free":
        it = handles[handle]
        if it is not None:
            it.close()
            try:
                it.keys_left()
            except MacsecError as why:
                assert why.number == EMPTY
        handles[handle] = None
        return "", 0
    line = " 0" if name.endswith("configure") else ""
    if handles[handle] is not None:
        return line, TAKEN
    try:
        handles[handle] = made(name, words)
    except MacsecError as why:
        return f" {why.line or 0}" if line else "", why.number
    return line, 0


def shown_at(records: list[bytes], index: str) -> str:
    return shown_record(dict(enumerate(records)).get(int(index)))


def next_call(it: Journal, room: str) -> str:
    found = it.next()
    if int(room) < len(found.octets):
        raise error(SPACE)
    return f" {int(found.step)} {found.at} {found.end} {hex_of(found.octets)}"


def whole(it: Journal, room: str) -> str:
    found = it.whole()
    if int(room) < len(found):
        raise error(SPACE)
    return f" {len(found)} {found.hex()}"


def order(it: Journal, records: str, anew: str) -> None:
    """Octets that are not so many whole records go to the library as they are."""
    given = octets(records)
    if len(given) % 64 == 0:
        it.order([given[at : at + 64] for at in range(0, len(given), 64)], anew != "0")
    else:
        it._checked(it._library.macsec_journal_order_raw(it._handle, given, len(given), anew != "0"))


# The calls with a journal as a file.
FILE_CALLS: dict[str, Callable[..., str | None]] = {
    "journal_order": order,
    "journal_next": next_call,
    "journal_answered": lambda it, good: it.answered(good != "0"),
    "journal_shown": lambda it, index: shown_at(it.shown(), index),
    "journal_record": lambda it, index: shown_at(it.records(), index),
    "journal_let_go": lambda it, name: it.let_go(octets(name)),
    "journal_whole": whole,
}


def of_file(name: str, place: int, words: list[str]) -> tuple[str, int]:
    """The answer of a call with a journal as a file."""
    it = files[place]
    if name == "journal_free":
        if it is not None:
            it.close()
        files[place] = None
        return "", 0
    if name == "journal_begin" and it is not None:
        return "", TAKEN
    if name != "journal_begin" and it is None:
        return UNSHOWN.get(name, ""), EMPTY
    try:
        if name == "journal_begin":
            files[place] = Journal(octets(words[0]), int(words[1]))
            return "", 0
        return FILE_CALLS[name](it, *words) or "", 0
    except MacsecError as why:
        return UNSHOWN.get(name, ""), why.number


def answer(name: str, handle: int, words: list[str]) -> tuple[str, int]:
    if name in (*FILE_CALLS, "journal_begin", "journal_free"):
        return of_file(name, int(words[0]), words[1:])
    if name in (*MAKES, "free"):
        return creation(name, handle, words)
    if name in FREE_CALLS:
        return FREE_CALLS[name](*words)
    it = handles[handle]
    if name == "answer":
        return answered(it, *words)
    if it is None:
        return UNSHOWN.get(name, ""), EMPTY
    try:
        return CALLS[name](it, *words), 0
    except MacsecError as why:
        return UNSHOWN.get(name, ""), why.number


def main() -> None:
    for line in sys.stdin:
        name, handle, *words = line.split()
        shown, status = answer(name, int(handle), words)
        print(f"{name}{shown} : {status}")


if __name__ == "__main__":
    main()
