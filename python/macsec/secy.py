"""A MACsec endpoint (SecY) of the proved library."""

from __future__ import annotations

import ctypes
import operator
import struct
import threading
from typing import Any, NamedTuple, Union

from . import _library
from .errors import error
from .frames import new_tuple
from .names import ENDPOINT_COUNTERS, RX_COUNTERS, TX_COUNTERS, Fate, Form, Mode, Status, Suite, Verdict

# A frame or a text: anything with octets, as a packet of Scapy has by `__bytes__`.
Octets = Union[bytes, bytearray, memoryview, Any]
# An SCI: 8 octets, or their 16 hex digits.
SciLike = Union[bytes, bytearray, memoryview, str]

_FATES = {int(it): it for it in Fate}
_VERDICTS = {int(it): it for it in Verdict}
_SENT_OCTETS = ctypes.c_char * ctypes.sizeof(_library.Sent)
_RECEIVED_OCTETS = ctypes.c_char * ctypes.sizeof(_library.Received)
# The members of both before `reserved`, read at once.
_SENT_MEMBERS, _RECEIVED_MEMBERS = struct.Struct("=QQ4xIH"), struct.Struct("=QQ4xI8sB??5xQ")
_sent_of, _received_of = _SENT_MEMBERS.unpack_from, _RECEIVED_MEMBERS.unpack_from
# Answers that name no frame, as MACSEC_SENT_INIT and MACSEC_RECEIVED_INIT are.
_NOTHING = ctypes.create_string_buffer(1)
_NO_SENT = bytes(_library.Sent(frame=ctypes.addressof(_NOTHING)))
_NO_RECEIVED = bytes(_library.Received(frame=ctypes.addressof(_NOTHING)))
_memmove = ctypes.memmove
# The octets at an address. A slice of them is a copy, in less time than ctypes.string_at takes.
_Octets = ctypes.c_char * 9248


class Sent(NamedTuple):
    """What becomes of a client frame. `frame` is to be transmitted, or None; `key` is the number of its key."""

    fate: Fate
    frame: bytes | None
    key: int | None


class Received(NamedTuple):
    """What becomes of a link frame. `frame` is what the client gets, or None; `sci` and `an` name the association. `pn`
    is the packet number of a frame that is dropped as `Verdict.NoReservation` or `Verdict.EarlierRun`, else None."""

    verdict: Verdict
    frame: bytes | None
    sci: bytes | None
    an: int | None
    pn: int | None = None


class Options(NamedTuple):
    """The options of an endpoint."""

    protect: bool
    mode: Mode
    replay: bool
    window: int
    form: Form


class TxSa(NamedTuple):
    """A transmit association. `next` is the packet number of the next frame, one past the last if it is exhausted."""

    key: int
    next: int
    conf: bool
    on: bool


class RxSa(NamedTuple):
    """A receive association: the next expected packet number, and the lowest acceptable one."""

    key: int
    next: int
    lowest: int
    ssci: int
    on: bool


def octets_of(value: Octets) -> bytes:
    """The octets of a frame.

    >>> octets_of(memoryview(b"abcd")[::2])
    b'ac'
    """
    if type(value) is bytes:
        return value
    if isinstance(value, (bytes, bytearray, memoryview)) or hasattr(value, "__bytes__"):
        return bytes(value)
    raise TypeError(f"a frame is bytes, bytearray, memoryview or has __bytes__, not {type(value).__name__}")


def sci_of(value: SciLike) -> bytes:
    """The octets of an SCI.

    >>> sci_of("0200000000010001")
    b'\\x02\\x00\\x00\\x00\\x00\\x01\\x00\\x01'
    """
    octets = bytes.fromhex(value) if isinstance(value, str) else octets_of(value)
    if len(octets) != 8:
        raise ValueError(f"an SCI has 8 octets, not {len(octets)}")
    return octets


def number_of(value: int, bits: int, what: str) -> int:
    """A number that fits into so many bits; the library says whether it means something."""
    number = operator.index(value)
    if not 0 <= number < 1 << bits:
        raise ValueError(f"{what} is from 0 to {(1 << bits) - 1}, not {number}")
    return number


def named(kind: Any, value: int | str) -> int:
    """A number of an enumeration, given as its name too."""
    return int(kind[value]) if isinstance(value, str) else number_of(value, 32, kind.__name__)


def sak_of(key: Octets, *, number: int, offset: int, suite: Suite | int | str, ssci: int, salt: Octets) -> _library.Sak:
    """A key as the library takes it."""
    octets, salt = octets_of(key), octets_of(salt)
    if len(salt) != 12:
        raise ValueError(f"a salt has 12 octets, not {len(salt)}")
    # The library says which lengths keys have.
    sak = _library.Sak(
        ssci=number_of(ssci, 32, "ssci"), suite=named(Suite, suite), number=number_of(number, 16, "number"),
        length=min(len(octets), 255), offset=number_of(offset, 8, "offset"),
    )  # fmt: skip
    _memmove(ctypes.addressof(sak), octets, min(len(octets), 32))
    _memmove(ctypes.addressof(sak) + _library.Sak.salt.offset, salt, 12)
    return sak


def journal_of(journal: Octets | None, ahead: bool) -> bytes | None:
    """The octets of a journal. Without one nothing is reserved, and `ahead` would protect nothing."""
    if journal is None and ahead:
        raise ValueError("ahead needs a journal")
    return None if journal is None else octets_of(journal)


class SecY:
    """An endpoint. It protects its client's frames, validates those from the link, and counts both.

    A refused command raises `Refused`, and nothing has changed. An endpoint is closed by `close`, at the end of a
    `with`, or when nothing refers to it any more. Threads may share it: one call at a time is made. After a fork only
    one of the processes may send by it. Never give two endpoints that send the same key and packet number.

    `journal` is all octets of a journal's file. With it the endpoint uses only packet numbers that a record reserves,
    and begins no association at a number that an earlier run reserved or saved. It creates no receive association again
    below its lowest acceptable number. include/macsec.h says how to keep the file.

    With `ahead` the endpoint also accepts only packet numbers that a record reserves, so it accepts no frame again that
    an earlier run accepted, whatever the moment at which that run ended. Its caller then has to write records for its
    receive associations (`reserve_to_accept`); until the first one it accepts no frame. So `ahead` is False unless it
    is given. Without it a later run can accept frames again that came after the last record of `reserve_to_save`.
    `ahead` without a journal raises ValueError.

    >>> key = bytes.fromhex("ad7a2bd03eac835a6f620fdcb506b345")
    >>> with SecY("0200000000010001") as a, SecY("0200000000020001") as b:
    ...     a.install_key(0, key)
    ...     a.add_tx_sa(0, key=0, pn=1, conf=True)
    ...     a.enable_tx_sa(0)
    ...     b.install_key(0, key)
    ...     b.add_rx_sc("0200000000010001")
    ...     b.add_rx_sa("0200000000010001", 0, key=0, pn=1)
    ...     b.enable_rx_sa("0200000000010001", 0)
    ...     sent = a.send(bytes.fromhex("ffffffffffff0200000000010800"))
    ...     received = b.receive(sent.frame)
    ...     again = b.receive(sent.frame)
    >>> sent.fate.name, len(sent.frame), received.verdict.name, received.frame.hex(), again.verdict.name
    ('Protected', 46, 'OK', 'ffffffffffff0200000000010800', 'Late')
    """

    def __init__(
        self,
        sci: SciLike,
        suite: Suite | int | str = Suite.gcm128,
        form: Form | int | str = Form.sci,
        max_frame: int = 9248,
        journal: Octets | None = None,
        *,
        ahead: bool = False,
    ) -> None:
        self._begin()
        kept = journal_of(journal, ahead)
        config = _library.Config(
            _library.Sci(*sci_of(sci)), named(Suite, suite), named(Form, form), number_of(max_frame, 32, "max_frame")
        )
        if kept is None:
            status = self._library.macsec_new(self._handle, ctypes.byref(config))
        else:
            status = self._library.macsec_reserve_open_raw(
                self._handle, ctypes.byref(config), kept, len(kept), bool(ahead)
            )
        if status:
            raise error(status)

    def _begin(self) -> None:
        """What an endpoint has before the library fills its handle."""
        self._library = _library.load()
        self._lock = threading.Lock()
        self._endpoint = _library.Endpoint()
        self._handle = ctypes.addressof(self._endpoint)
        self._sent, self._received = _SENT_OCTETS(), _RECEIVED_OCTETS()
        # What the calls for frames take, and where they put a frame: objects that are made once.
        self._endpoint_at, self._length = ctypes.byref(self._endpoint), ctypes.c_size_t()
        self._sent_at, self._received_at = ctypes.byref(self._sent), ctypes.byref(self._received)
        # Where the last frame was that the client got.
        self._at, self._octets = 0, _Octets()
        self._send_raw, self._receive_raw = _library.frame_calls()

    @classmethod
    def configure(cls, text: str | Octets, journal: Octets | None = None, *, ahead: bool = False) -> SecY:
        """The endpoint of the text of a CONFIG. A fault or a refused line raises, with its line, and makes nothing.
        `journal` and `ahead` are as for `SecY`: a line `txsa` or `rxsa` at a number that an earlier run reserved is
        refused.

        >>> SecY.configure("end A gcm128 0200000000010001 1546 sci\\nA txon 0\\n")
        Traceback (most recent call last):
            ...
        macsec.errors.Refused: line 2: 13 NoSa: there is no such association
        """
        made = cls.__new__(cls)
        made._begin()
        octets, line, kept = _text(text), ctypes.c_uint32(), journal_of(journal, ahead)
        if kept is None:
            status = made._library.macsec_configure_raw(made._handle, octets, len(octets), ctypes.byref(line))
        else:
            status = made._library.macsec_reserve_configure_raw(
                made._handle, octets, len(octets), kept, len(kept), bool(ahead), ctypes.byref(line)
            )
        if status:
            raise error(status, line.value)
        return made

    def close(self) -> None:
        """Frees the endpoint. Every later call raises, except this one."""
        if hasattr(self, "_endpoint"):
            with self._lock:
                self._library.macsec_free_raw(self._handle)

    def __enter__(self) -> SecY:
        return self

    def __exit__(self, *_: object) -> None:
        self.close()

    def __del__(self) -> None:
        self.close()

    def __reduce_ex__(self, protocol: Any) -> Any:
        raise TypeError("an endpoint cannot be copied: two of them would send the same packet numbers")

    # Frames.

    def send(self, frame: Octets) -> Sent:
        """What becomes of a client frame at the controlled port (10.5)."""
        octets = frame if type(frame) is bytes else octets_of(frame)
        with self._lock:
            self._sent.raw = _NO_SENT
            self._length.value = len(octets)
            status = self._send_raw(self._endpoint_at, octets, self._length, self._sent_at)
            if status:
                raise error(status)
            at, length, fate, key = _sent_of(self._sent)
            link = _Octets.from_address(at)[:length] if length else None
        made: Sent = new_tuple(Sent, (_FATES.get(fate) or Fate(fate), link, key if fate == 1 else None))
        return made

    def receive(self, frame: Octets) -> Received:
        """What becomes of a frame from the link (10.6)."""
        octets = frame if type(frame) is bytes else octets_of(frame)
        with self._lock:
            made: Received = new_tuple(Received, self.judged(octets))
        return made

    def judged(self, frame: bytes) -> tuple[Verdict, bytes | None, bytes | None, int | None, int | None]:
        """The same in half the time, as a tuple, if no other thread has this endpoint."""
        self._received.raw = _NO_RECEIVED
        self._length.value = len(frame)
        status = self._receive_raw(self._endpoint_at, frame, self._length, self._received_at)
        if status:
            raise error(status)
        at, length, number, sci, an, has_sa, is_delivered, pn = _received_of(self._received)
        client: Any = None
        if is_delivered:
            if at != self._at:
                self._at, self._octets = at, _Octets.from_address(at)
            client = self._octets[:length]
        verdict = _VERDICTS.get(number) or Verdict(number)
        return (verdict, client, sci, an, pn or None) if has_sa else (verdict, client, None, None, pn or None)

    def send_uncontrolled(self, frame: Octets) -> bytes:
        """A client frame of the uncontrolled port, which is to be transmitted as it is."""
        octets = octets_of(frame)
        self._call("send_uncontrolled_raw", octets, len(octets))
        return octets

    # Commands (10.7).

    def _call(self, name: str, *arguments: Any) -> None:
        """Makes a call, and raises its status if it is not OK."""
        with self._lock:
            status = getattr(self._library, f"macsec_{name}")(self._handle, *arguments)
        if status:
            raise error(status)

    def command(self, line: str | Octets) -> None:
        """Carries out a command as a line of CONFIG says it: `A txon 0`."""
        octets = _text(line)
        self._call("command_line_raw", octets, len(octets))

    def answer(self, line: str | Octets, number: int = 1) -> str:
        """Carries out a line of a script at end A, and returns what `macsec run` prints for it as line `number`: for a
        command, `A counters`, `A numbers` or a blank line. A line that is wrong or refused changes nothing, and its
        text says so.

        >>> SecY("0200000000010001").answer("A txon 0", 7)
        '7 refused 13 NoSa\\n'
        """
        octets, of = _text(line), number_of(number, 32, "number")
        status, written, out = self.answer_within(of, octets, 4096)
        while status == Status.AnswerLong:
            status, written, out = self.answer_within(of, octets, written)
        if status in (Status.Empty, Status.Memory):
            raise error(status)
        return out[:written].decode("ascii")

    def answer_within(self, number: int, line: bytes, room: int) -> tuple[int, int, bytes]:
        """The status of the line, how many octets its answer has or needs, and the buffer of so many octets."""
        out, written = ctypes.create_string_buffer(room + 1), ctypes.c_size_t()
        with self._lock:
            status = self._library.macsec_answer_raw(
                self._handle, number, line, len(line), ctypes.addressof(out), room, ctypes.byref(written)
            )
        return status, written.value, out.raw[:room]

    def set_protect(self, on: bool) -> None:
        """Protects client frames, or sends them as they are (10.7.17)."""
        self._call("set_protect", bool(on))

    def set_validation(self, mode: Mode | int | str) -> None:
        """Sets how received frames are validated (10.7.8)."""
        self._call("set_validation", named(Mode, mode))

    def set_replay(self, on: bool, window: int = 0) -> None:
        """Drops late frames or not, and sets the replay window, in packet numbers (10.7.8)."""
        self._call("set_replay", bool(on), number_of(window, 64, "window"))

    def set_tag_form(self, form: Form | int | str) -> None:
        """Sets the tag form: which SecTAG a frame gets (9.5)."""
        self._call("set_tag_form", named(Form, form))

    def install_key(
        self,
        number: int,
        key: Octets,
        *,
        offset: int = 0,
        suite: Suite | int | str = Suite.default,
        ssci: int = 0,
        salt: Octets = bytes(12),
    ) -> None:
        """Installs a key (SAK, 10.7.27). SSCI, the endpoint's own, and salt are for extended packet numbers."""
        sak = sak_of(key, number=number, offset=offset, suite=suite, ssci=ssci, salt=salt)
        self._call("install_key", ctypes.byref(sak))

    def renew_key(
        self,
        number: int,
        key: Octets,
        *,
        offset: int = 0,
        suite: Suite | int | str = Suite.default,
        ssci: int = 0,
        salt: Octets = bytes(12),
    ) -> None:
        """Installs a key as `install_key` does, also under the number of a retired key that no association uses. The
        new key takes that key's place, and that key's octets are refused from then on."""
        sak = sak_of(key, number=number, offset=offset, suite=suite, ssci=ssci, salt=salt)
        self._call("renew_key", ctypes.byref(sak))

    def retire_key(self, number: int) -> None:
        """Retires a key that no association uses (10.7.28)."""
        self._call("retire_key", number_of(number, 16, "number"))

    def add_tx_sa(self, an: int, key: int, pn: int, conf: bool) -> None:
        """Creates a transmit association, disabled (10.7.22). It encrypts if `conf`. `pn` must be above all that the
        key used; with a journal above `reserve_tx_floor`, else it is refused."""
        self._call("add_tx_sa", number_of(an, 8, "an"), number_of(key, 16, "key"), number_of(pn, 64, "pn"), bool(conf))

    def enable_tx_sa(self, an: int) -> None:
        """Enables a transmit association, and disables every other one (10.7.24)."""
        self._call("enable_tx_sa", number_of(an, 8, "an"))

    def disable_tx_sa(self, an: int) -> None:
        """Disables a transmit association (10.7.24)."""
        self._call("disable_tx_sa", number_of(an, 8, "an"))

    def delete_tx_sa(self, an: int) -> None:
        """Deletes a transmit association (10.7.22)."""
        self._call("delete_tx_sa", number_of(an, 8, "an"))

    def add_rx_sc(self, sci: SciLike) -> None:
        """Creates a receive channel, of another endpoint's SCI (10.7.11)."""
        self._call("add_rx_sc", sci_of(sci))

    def delete_rx_sc(self, sci: SciLike) -> None:
        """Deletes a receive channel with its associations and counters (10.7.11)."""
        self._call("delete_rx_sc", sci_of(sci))

    def add_rx_sa(self, sci: SciLike, an: int, key: int, pn: int, ssci: int = 0) -> None:
        """Creates a receive association, disabled (10.7.13). `pn` is its lowest acceptable packet number, `ssci` the
        sender's.

        With a journal `pn` must be above `reserve_rx_floor`, else it is refused: an association that was deleted does
        not begin again below its lowest acceptable number.
        """
        numbers = number_of(an, 8, "an"), number_of(key, 16, "key"), number_of(pn, 64, "pn")
        self._call("add_rx_sa", sci_of(sci), *numbers, number_of(ssci, 32, "ssci"))

    def enable_rx_sa(self, sci: SciLike, an: int) -> None:
        """Enables a receive association (10.7.15)."""
        self._call("enable_rx_sa", sci_of(sci), number_of(an, 8, "an"))

    def disable_rx_sa(self, sci: SciLike, an: int) -> None:
        """Disables a receive association (10.7.15)."""
        self._call("disable_rx_sa", sci_of(sci), number_of(an, 8, "an"))

    def set_lowest_pn(self, sci: SciLike, an: int, pn: int) -> None:
        """Raises the lowest acceptable packet number of a receive association (10.7.15)."""
        self._call("set_lowest_pn", sci_of(sci), number_of(an, 8, "an"), number_of(pn, 64, "pn"))

    def delete_rx_sa(self, sci: SciLike, an: int) -> None:
        """Deletes a receive association (10.7.13)."""
        self._call("delete_rx_sa", sci_of(sci), number_of(an, 8, "an"))

    # Reservations. include/macsec.h says in which order a caller makes these calls and writes its file.

    def _record(self, name: str, *arguments: Any) -> bytes | None:
        """The record that a call shows, or None."""
        try:
            return bytes(self._shown(_library.Record, name, *arguments).octets)
        except LookupError:
            return None

    def reserve_wanted(self, an: int, amount: int) -> bytes | None:
        """The record to write next for a transmit association: it reserves the packet numbers up to its next one plus
        `amount`. None if there is no such association, or if half of `amount` are still reserved."""
        return self._record("reserve_wanted", number_of(an, 8, "an"), number_of(amount, 64, "amount"))

    def reserve_to_accept(self, sci: SciLike, an: int, amount: int, pn: int = 0) -> bytes | None:
        """The record to write next for a receive association of an endpoint with `ahead`: it reserves the packet
        numbers up to the next one plus `amount`. The next one is the association's own, or `pn` if that is higher: the
        packet number of a frame that was dropped as `Verdict.NoReservation`. Once the record is on the disk and
        `reserve_granted` is called, the same frame can be given again.

        None if there is no such association, or if half of `amount` are still reserved.
        """
        numbers = number_of(an, 8, "an"), number_of(amount, 64, "amount"), number_of(pn, 64, "pn")
        return self._record("reserve_to_accept", sci_of(sci), *numbers)

    def reserve_to_save(self, sci: SciLike, an: int) -> bytes:
        """The record that saves the lowest acceptable packet number of a receive association: without `ahead`, to be
        written before an orderly end and from time to time."""
        shown = self._shown(_library.Record, "reserve_to_save", sci_of(sci), number_of(an, 8, "an"))
        return bytes(shown.octets)

    def reserve_tx_floor(self, key: int) -> int:
        """The highest packet number that earlier runs reserved under a key, 0 if none. Transmit associations begin
        above it."""
        return int(self._shown(ctypes.c_uint64, "reserve_tx_floor", number_of(key, 16, "key")).value)

    def reserve_rx_floor(self, sci: SciLike, an: int, key: int) -> int:
        """The highest packet number of a receive association under a key that earlier runs reserved or saved, or the
        one below its lowest acceptable one where this run deleted it; 0 if none. The association begins above it."""
        words = sci_of(sci), number_of(an, 8, "an"), number_of(key, 16, "key")
        return int(self._shown(ctypes.c_uint64, "reserve_rx_floor", *words).value)

    def reserve_granted(self, record: Octets) -> None:
        """A record is on the disk, where every later run will read it."""
        octets = octets_of(record)
        if len(octets) != ctypes.sizeof(_library.Record):
            raise error(Status.NotRecord)
        self._call("reserve_granted", octets)

    # What an endpoint shows.

    def _shown(self, kind: Any, name: str, *arguments: Any) -> Any:
        """A structure that a call fills in."""
        shown = kind()
        self._call(name, *arguments, ctypes.byref(shown))
        return shown

    def options(self) -> Options:
        """The options."""
        it = self._shown(_library.Options, "get_options")
        return Options(it.protect, Mode(it.mode), it.replay, it.window, Form(it.form))

    def keys_left(self) -> int:
        """How many keys the endpoint still takes in its life."""
        return int(self._shown(ctypes.c_uint32, "keys_left").value)

    def counters(self) -> dict[str, int]:
        """The counters of the endpoint and of its transmit channel (10.7.9, 10.7.10, 10.7.18, 10.7.19), by the names
        that the program prints."""
        return {
            **_counters(self._shown(_library.Counters, "get_counters"), ENDPOINT_COUNTERS),
            **_counters(self._shown(_library.TxCounters, "get_tx_counters"), TX_COUNTERS),
        }

    def rx_counters(self, sci: SciLike, an: int | None = None) -> dict[str, int]:
        """The counters of a receive channel (10.7.9), or of one of its associations."""
        if an is None:
            return _counters(self._shown(_library.RxCounters, "get_rx_counters", sci_of(sci)), RX_COUNTERS)
        words = sci_of(sci), number_of(an, 8, "an")
        return _counters(self._shown(_library.RxCounters, "get_rx_sa_counters", *words), RX_COUNTERS)

    def removed_counters(self, sci: SciLike) -> dict[str, int]:
        """What the deleted associations of a channel had counted."""
        return _counters(self._shown(_library.RxCounters, "get_removed_counters", sci_of(sci)), RX_COUNTERS)

    def rx_sc(self, place: int) -> bytes:
        """The SCI of the receive channel at this place in the order of creation."""
        return bytes(self._shown(_library.Sci, "get_rx_sc", number_of(place, 64, "place")))

    def rx_scs(self) -> list[bytes]:
        """The SCIs of the receive channels, in the order of creation."""
        found: list[bytes] = []
        try:
            while True:
                found.append(self.rx_sc(len(found)))
        except LookupError:
            return found

    def tx_sa(self, an: int) -> TxSa:
        """A transmit association (10.7.23)."""
        it = self._shown(_library.TxSa, "get_tx_sa", number_of(an, 8, "an"))
        return TxSa(it.key, it.next_high << 64 | it.next, it.conf, it.on)

    def rx_sa(self, sci: SciLike, an: int) -> RxSa:
        """A receive association (10.7.14)."""
        it = self._shown(_library.RxSa, "get_rx_sa", sci_of(sci), number_of(an, 8, "an"))
        return RxSa(it.key, it.next_high << 64 | it.next, it.lowest_high << 64 | it.lowest, it.ssci, it.on)


def _text(text: str | Octets) -> bytes:
    """The octets of a text."""
    return text.encode() if isinstance(text, str) else octets_of(text)


def _counters(shown: Any, names: tuple[str, ...]) -> dict[str, int]:
    """Counters by their names."""
    return {name: getattr(shown, field[0]) for name, field in zip(names, shown._fields_)}


def journal_header(salt: Octets) -> bytes:
    """The header of a new journal. `salt` is 24 random octets: other journals name the same key otherwise.

    >>> len(journal_header(bytes(24)))
    64
    """
    octets = octets_of(salt)
    if len(octets) != 24:
        raise ValueError(f"the salt of a journal has 24 octets, not {len(octets)}")
    made = _library.Record()
    _library.load().macsec_journal_header(octets, ctypes.byref(made))
    return bytes(made.octets)


def journal_compacted(journal: Octets) -> bytes:
    """A journal that reserves the same, with one record for each name."""
    octets, written = octets_of(journal), ctypes.c_size_t()
    out = ctypes.create_string_buffer(len(octets) + 1)
    status = _library.load().macsec_journal_compacted_raw(
        octets, len(octets), ctypes.addressof(out), len(octets), ctypes.byref(written)
    )
    if status:
        raise error(status)
    return out.raw[: written.value]


def version() -> int:
    """The number of the library's version: 1,000,000 times its first number, plus 1,000 times its second, plus its
    third."""
    return int(_library.load().macsec_version())
