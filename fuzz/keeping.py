"""An endpoint as the C library has it: with counters of deleted associations, a journal of packet numbers, and retired
keys that it forgets.

handles.py compares the C library with this. It is written from the definitions of crates/macsec_reserve/specs and
crates/macsec_ahead/specs."""

from __future__ import annotations

from typing import NoReturn

import expected
import journals


class NoReservation(Exception):
    """The packet number of a client frame is not reserved."""


class Dropped(Exception):
    """Why a valid link frame is dropped, NoReservation or EarlierRun, and its packet number."""


def raised(entries: list[journals.Reservation], by: journals.Reservation) -> list[journals.Reservation]:
    """These entries. The entries of the reservation's name are raised to its number."""
    its, to = by
    return [(name, max(last, to) if name == its else last) for name, last in entries]


class Endpoint(expected.Endpoint):
    """An endpoint that also keeps what deleted associations had counted, and reservations, and that forgets the octets
    of retired keys. With `ahead` it accepts a packet number only if that is reserved."""

    def __init__(self, suite, sci, max_frame, form, journal=None, ahead=False):
        super().__init__(suite, sci, max_frame, form)
        self.keeps = journal is not None
        self.ahead = ahead
        self.salt = journals.salt_of(journal) if self.keeps else bytes(24)
        self.before = list(journals.reservations(journal)) if self.keeps else []
        # An entry for each key that was installed before the last report: its name, and the last number reserved.
        self.granted: list[journals.Reservation] = []
        # An entry for each receive association that there was at the last report.
        self.taken: list[journals.Reservation] = []
        # Where deleted receive associations ended, by key, SCI and AN. While 1,024 are enough the library keeps each.
        self.ends: dict[tuple[int, bytes, int], int] = {}
        # The names of the keys whose place a new key took.
        self.given_up: list[bytes] = []
        # Has it renewed a key, and is it renewing one?
        self.renews = self.renewing = False

    def key_name(self, number):
        return journals.sending_name(self.salt, self.keys[number].octets if number in self.keys else b"")

    def fingerprint(self, octets):
        """What is kept of a forgotten key: as many octets of its name as it had itself."""
        return journals.sending_name(self.salt, octets)[: len(octets)]

    def do_key(self, number, octets, *rest):
        """A forgotten key is refused by its fingerprint, and so is one that is given up."""
        expected.refuse("KeyRepeated", self.renews and self.is_given_up(octets))
        mark = self.fingerprint(octets)
        is_forgotten = any(it.retired and it.octets == mark for it in self.keys.values())
        super().do_key(number, mark if is_forgotten else octets, *rest)

    def is_given_up(self, octets):
        """Has a new key taken the place of the key with these octets, or with their fingerprint?"""
        return any(journals.sending_name(self.salt, it) in self.given_up for it in (octets, self.fingerprint(octets)))

    def is_taken(self, number):
        """A key that is renewed may take the place of a retired key, which no association uses."""
        return number in self.keys and not (self.renewing and self.keys[number].retired)

    def renew(self, number, octets, *rest):
        """Installs a key. The name of the key whose place it takes is given up."""
        expected.refuse("KeyRepeated", self.is_given_up(octets))
        takes, name = number in self.keys, self.key_name(number)
        self.renewing = True
        try:
            self.do_key(number, octets, *rest)
        finally:
            self.renewing = False
        self.renews = True
        if takes:
            self.given_up.append(name)
            place = list(self.keys).index(number)
            self.granted[place : place + 1] = [(self.key_name(number), 0)] if place < len(self.granted) else []

    def do_retire(self, number):
        """The key is forgotten, unless a key has its fingerprint already."""
        super().do_retire(number)
        mark = self.fingerprint(self.keys[number].octets)
        if all(it.octets != mark for it in self.keys.values()):
            self.granted = self.entries()
            self.keys[number].octets = mark

    def command(self, keyword, values):
        """A refusal because of a journal comes before every other one. What a command deletes has ended."""
        if self.keeps and keyword == "txsa":
            expected.refuse("PnFloor", 0 < values[2] <= self.tx_floor(values[1]))
        if self.keeps and keyword == "rxsa":
            expected.refuse("PnFloor", 0 < values[3] <= self.rx_floor(*values[:3]))
        rows = self.rows()
        super().command(keyword, values)
        if self.keeps:
            self.note_ends(rows)
        if self.keeps and keyword == "retire":
            self.ends = {place: last for place, last in self.ends.items() if place[0] != values[0]}

    def rows(self) -> dict[tuple[bytes, int], expected.Sa]:
        """The receive associations, for each channel in the order of their creation."""
        return {(channel.sci, an): sa for channel in self.channels for an, sa in channel.sas.items()}

    def note_ends(self, before: dict[tuple[bytes, int], expected.Sa]) -> None:
        """Of these associations, those that are not there have ended before their lowest acceptable packet number."""
        now = self.rows()
        for (sci, an), sa in before.items():
            if (sci, an) not in now:
                last = min(max(sa.lowest - 1, 0), journals.LAST)
                self.ends[sa.key, sci, an] = max(self.ends.get((sa.key, sci, an), 0), last)

    def row_name(self, sci: bytes, an: int, sa: expected.Sa) -> bytes:
        """The name under which the numbers of a receive association are reserved and saved."""
        return journals.receiving_name(self.key_name(sa.key), sci, an)

    def protected(self, frame, bits, an, sa, data):
        name = self.key_name(sa.key)
        if self.keeps and not journals.highest(self.before, name) < sa.next <= journals.highest(self.granted, name):
            raise NoReservation
        return super().protected(frame, bits, an, sa, data)

    # Link frames.

    def opened(self, read, frame, sci, sa, pn):
        """A valid frame is accepted if its packet number is reserved. Else nothing changes."""
        counted = dict(self.counters)
        text = super().opened(read, frame, sci, sa, pn)
        if text is not None and self.ahead:
            name = self.row_name(sci, read["tci"] & 3, sa)
            if pn <= journals.highest(self.before, name):
                self.drop("EarlierRun", pn, counted)
            if pn > journals.highest(self.taken, name):
                self.drop("NoReservation", pn, counted)
        return text

    def drop(self, why: str, pn: int, counted: dict[str, int]) -> NoReturn:
        self.counters = counted
        raise Dropped(why, pn)

    # Records and floors.

    def wanted(self, an, amount):
        """The reservation that a transmit association needs next, or None."""
        if an not in self.tx:
            return None
        sa = self.tx[an]
        name = self.key_name(sa.key)
        last = journals.wanted_last(journals.highest(self.granted, name), sa.next, amount)
        return None if last is None else (name, last)

    def to_accept(self, sci: bytes, an: int, amount: int, pn: int) -> journals.Reservation | None:
        """The reservation that a receive association needs next, to accept its next number or `pn`; or None."""
        sa = self.rows().get((sci, an))
        if sa is None:
            return None
        name = self.row_name(sci, an, sa)
        last = journals.wanted_last(journals.highest(self.taken, name), max(sa.next, pn), amount)
        return None if last is None else (name, last)

    def to_save(self, sci, an):
        """What is to be saved of a receive association, if it exists."""
        sa = self.rows().get((sci, an))
        if sa is None:
            return None
        return self.row_name(sci, an, sa), min(max(sa.lowest - 1, 0), journals.LAST)

    def tx_floor(self, number: int) -> int:
        """The highest number that the journal had when the endpoint was made, under a key's name. A forgotten key has
        another name, under which the journal has nothing."""
        return journals.highest(self.before, self.key_name(number))

    def rx_floor(self, sci: bytes, an: int, number: int) -> int:
        """The same under the key's name for receiving from an SCI and AN, or where that association ended."""
        name = journals.receiving_name(self.key_name(number), sci, an)
        return max(journals.highest(self.before, name), self.ends.get((number, sci, an), 0))

    def floor(self, receiving, number):
        """The floor of a key, or for receiving from an SCI and AN; None if there is no such key."""
        if number not in self.keys:
            return None
        return self.rx_floor(*receiving, number) if receiving else self.tx_floor(number)

    def first_free(self, number, receiving):
        """The lowest packet number that was neither used under a key nor accepted from an SCI and AN."""
        if receiving:
            return self.rx_floor(*receiving, number) + 1
        return max(self.keys[number].first_unused if number in self.keys else 0, self.tx_floor(number) + 1)

    def entries(self):
        """What was reported durable, with an entry for each key."""
        names = [self.key_name(it) for it in self.keys]
        return [*self.granted, *((it, 0) for it in names[len(self.granted) :])]

    def note_durable(self, reservation):
        """A reservation is durable: the entries of its name are raised, and those of associations that are gone end."""
        names = [self.row_name(*place, sa) for place, sa in self.rows().items()]
        self.taken = raised([(it, journals.highest(self.taken, it)) for it in names], reservation)
        self.granted = raised(self.entries(), reservation)

    # Counters, and keys.

    def do_rxsc(self, sci):
        super().do_rxsc(sci)
        self.channels[-1].removed = dict.fromkeys(expected.RX_COUNTERS, 0)

    def do_rxdel(self, sci, an):
        sa = self.rx_sa(sci, an)
        super().do_rxdel(sci, an)
        removed = self.channel(sci).removed
        for name in expected.RX_COUNTERS:
            removed[name] = (removed[name] + sa.counters[name]) % 2**64

    def row_of(self, frame):
        """The SCI and the number of the association that a link frame is for."""
        read = expected.read_frame(frame)
        if isinstance(read, str) or (read["tci"] & 8 and not read["tci"] & 4):
            return None
        channel, an = self.channel_of(read, frame), read["tci"] & 3
        return (channel.sci, an) if channel and an in channel.sas and channel.sas[an].on else None

    def identity(self, number):
        """What distinguishes a key from every other one."""
        key = self.keys[number]
        return number, key.octets, key.suite, key.offset

    def opened_with(self, frame):
        """The number of the key with which a link frame would be opened now, if it would be."""
        row = self.row_of(frame)
        if row is None or self.mode == "disabled":
            return None
        sa = self.rx_sa(*row)
        pn = self.recovered(sa, expected.read_frame(frame)["pn"])
        return None if pn is None or (self.replay and pn < sa.lowest) else sa.key
