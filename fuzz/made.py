"""Makes scripts: two ends, their keys and SAs, and then events by their managers, their clients and the link.

A script is run while it is made, so that its lines can name existing keys, frames and packet numbers. In most scripts
the ends' keys agree; in some the two ends have different salts, offsets, suites or SSCIs. The suite of a key can differ
from its end's.
"""

from __future__ import annotations

import copy

import expected

ADDRESSES = ("020000000001", "020000000002")
SIZES = (0, 0, 1, 2, 18, 27, 28, 29, 30, 31, 45, 46, 46, 47, 48, 49, 50, 51, 60)


class Maker:
    """The lines of a script, and the run of these lines."""

    def __init__(self, rng):
        self.rng, self.lines, self.text, self.ends, self.clients = rng, [], [], {}, []
        self.create_ends()
        self.world = expected.World(self.ends)
        # What ends have protected, and which end each time; the link may have padded it.
        self.link, self.senders, self.suites = self.world.link, {}, {}
        self.offsets = dict(zip("AB", self.both(0.15, lambda: rng.choice((0, 0, 30, 50)))))
        self.salts = dict(zip("AB", self.both(0.1, lambda: rng.choice((bytes(12), rng.randbytes(12))).hex())))
        self.sscis = {"A": "00000001", "B": rng.choice(["00000002"] * 12 + ["00000001"])}
        self.first = {is_xpn: self.first_number(is_xpn) for is_xpn in (False, True)}
        self.set_up()

    def both(self, odds, choose):
        """One value for both ends; or, at these odds, a separate value for each."""
        value = choose()
        return value, choose() if self.rng.random() < odds else value

    def add(self, line):
        keyword, end, values = expected.parse_words(line.split())
        self.lines.append(line)
        if keyword == "end":
            self.ends[values[0]] = expected.Endpoint(*values[1:])
        else:
            count = len(self.link)
            self.text += expected.lines_told(self.world, len(self.lines), keyword, end, values)
            if keyword == "send" and len(self.link) > count and self.ends[end].protects:
                for frame in (self.link[-1], self.link[-1].ljust(60, b"\0")):
                    self.senders.setdefault(frame, end)

    # The initial ends.

    def create_ends(self):
        rng = self.rng
        suites = self.both(0.25, lambda: rng.choice(list(expected.SUITES)))
        scis = [(ADDRESSES[0] + "0001", "es"), (ADDRESSES[1] + "0000", "scb")]
        if rng.randrange(40) == 0:
            scis[1] = scis[0]
        most = rng.choice((64, 1_518, 1_518, 9_248))
        for end, suite, (sci, form) in zip("AB", suites, scis):
            self.add(f"end {end} {suite} {sci} {most} {rng.choice((form, 'auto', 'sci'))}")

    def first_number(self, is_xpn):
        """The first packet number of SAs, under keys with extended packet numbers or under the others."""
        extended = (2**32 + 2**31, 2**64 - 4, 2**33 - 3) if is_xpn else ()
        return self.rng.choice((1, 1, 5, 2**31 - 1, 2**32 - 4, 2**32 - 2, *extended))

    def set_up(self):
        """Keys, options, and SAs in both directions. The first SA is enabled."""
        rng, shift = self.rng, self.rng.choice((0, 0, 0, 10))
        for end in "AB":
            if rng.randrange(20) == 0:
                self.replay(end)
            for index in (0, 1):
                self.install(end, index + shift * (end == "B"), index)
            if rng.randrange(3) == 0:
                self.validate(end)
            if rng.randrange(2) == 0:
                self.replay(end)
        for end in "AB":
            for an, (number, key) in enumerate(list(self.ends[end].keys.items())):
                self.add(f"{end} txsa {an} {number} {self.first[key.is_xpn]:x} {self.int_or_conf()}")
            self.add(f"{end} txon 0")
        for end in "AB":
            self.add(f"{end} rxsc {self.ends[self.other(end)].sci.hex()}")
            for an in (0, 1):
                self.listen(end, an, self.first_of(self.other(end), an))

    # Choices.

    def end(self):
        return self.rng.choice("AB")

    def other(self, end):
        return "B" if end == "A" else "A"

    def an_of(self, rows):
        return self.rng.choice([*rows] * 4 + [0, 1, 2, 3])

    def int_or_conf(self):
        return self.rng.choice(("int", "conf"))

    def channel(self, end):
        """The receive channel for the other end, if there is one."""
        return self.ends[end].channel(self.ends[self.other(end)].sci)

    def first_of(self, end, an):
        """The packet number at which a transmit SA of this end usually begins."""
        endpoint = self.ends[end]
        return self.first[an in endpoint.tx and endpoint.keys[endpoint.tx[an].key].is_xpn]

    def suite_of(self, end, index):
        """The suite of a key at an end: usually the same at both ends, either one end's suite or another."""
        if index not in self.suites:
            own = {it: endpoint.suite for it, endpoint in self.ends.items()}
            named = dict(zip("AB", self.both(0.05, lambda: self.rng.choice((*own.values(), *expected.SUITES)))))
            self.suites[index] = own if self.rng.randrange(4) == 0 else named
        return self.suites[index][end]

    def change_numbers(self, end, index):
        """Gives a new key a suite with extended packet numbers if the end sends without them, and the reverse."""
        endpoint = self.ends[end]
        is_xpn = any(sa.on and endpoint.keys[sa.key].is_xpn for sa in endpoint.tx.values())
        suite = self.rng.choice([it for it, (_, extended) in expected.SUITES.items() if extended != is_xpn])
        self.suites.setdefault(index, {"A": suite, "B": suite})

    def octets_of(self, end, index):
        return bytes([index]) * expected.SUITES[self.suite_of(end, index)][0]

    def frame_number(self):
        """A link frame, usually a recent one; or the number after the last one."""
        count = len(self.link)
        return self.rng.choice((self.rng.randrange(count + 1), max(0, count - self.rng.randrange(1, 5))))

    def client(self, end):
        """A client frame, usually a new one."""
        rng = self.rng
        if self.clients and rng.randrange(8) == 0:
            return rng.choice(self.clients)
        source = rng.choice((*[self.ends[end].sci[:6].hex()] * 3, *ADDRESSES))
        size = rng.choice(SIZES)
        if rng.randrange(40) == 0 and self.ends[end].max_frame < 2_000:
            size = self.ends[end].max_frame - rng.choice((14, 38, 46)) + rng.randrange(2)
        self.clients.append(f"ffffffffffff{source}{0x0800 + len(self.clients):04x}{'5a' * size}")
        return self.clients[-1]

    # Lines of one event, and groups of commands that belong together.

    def install(self, end, number, index):
        """A key. Its line names the suite if it is not the end's, and sometimes even if it is."""
        suite, rest = self.suite_of(end, index), ""
        is_xpn = expected.SUITES[suite][1]
        if suite != self.ends[end].suite or self.rng.randrange(4) == 0:
            rest = f" {suite}"
        if is_xpn or self.rng.randrange(2):
            rest += f" {self.sscis[end]} {self.salts[end]}"
        self.add(f"{end} key {number} {self.octets_of(end, index).hex()} {0 if is_xpn else self.offsets[end]}{rest}")

    def listen(self, end, an, pn):
        """A receive SA for one of the other end's SAs, usually with its key."""
        rng, peer = self.rng, self.ends[self.other(end)]
        octets = peer.keys[peer.tx[an].key].octets if an in peer.tx else None
        numbers = [it for it, key in self.ends[end].keys.items() if key.octets == octets] or [rng.randrange(4)]
        if rng.randrange(20) == 0:
            numbers = list(self.ends[end].keys) or numbers
        sci, ssci = peer.sci.hex(), self.sscis[self.other(end)]
        if rng.randrange(20) == 0:
            ssci = self.sscis[end]
        self.add(f"{end} rxsa {sci} {an} {rng.choice(numbers)} {max(pn, 0) % 2**64:x} {ssci}")
        self.add(f"{end} rxon {sci} {an}")

    def send(self, end=None):
        end = end or self.end()
        self.add(f"{end} send {self.client(end)}")
        if self.rng.randrange(2):
            self.add(f"{self.other(end)} deliver {max(0, len(self.link) - 1)}")

    def burst(self):
        """Some frames are sent, and then delivered in another order, some of them twice."""
        end, before = self.end(), len(self.link)
        for _ in range(self.rng.randrange(2, 6)):
            self.add(f"{end} send {self.client(end)}")
        numbers = list(range(before, len(self.link)))
        self.rng.shuffle(numbers)
        for number in numbers + numbers[:2]:
            self.add(f"{self.other(end)} deliver {number}")

    def deliver(self):
        number, end = self.frame_number(), self.end()
        sender = self.senders.get(self.link[number]) if number < len(self.link) else None
        if sender and self.rng.randrange(6):
            end = self.other(sender)
        self.add(f"{end} deliver {number}")

    def deliver_last(self):
        """Delivers the newest link frame to one end, or to both."""
        if self.link and self.rng.randrange(4):
            for end in self.rng.choice(("A", "B", "AB")):
                self.add(f"{end} deliver {len(self.link) - 1}")

    def alter(self):
        rng, number = self.rng, self.frame_number()
        frame = self.link[number] if number < len(self.link) else b""
        place = rng.choice((0, 12, 13, 14, 14, 15, 15, 19, 20, 28, rng.randrange(90), rng.randrange(len(frame) or 1)))
        octet = rng.choice((0, 1, 0x10, 0x2F, 0x30, 0x40, 0x50, rng.randrange(256)))
        if rng.randrange(2) and place < len(frame):
            octet = frame[place] ^ 1 << rng.randrange(8)
        self.add(f"alter {number} {place} {octet:02x}")
        self.deliver_last()

    def pad(self):
        self.add(f"pad {self.frame_number()}")
        self.deliver_last()

    def inject(self):
        """Someone on the link repeats a frame or sends another one, rarely with the key."""
        rng, number = self.rng, self.frame_number()
        frame = self.link[number] if number < len(self.link) else rng.randbytes(40)
        way = rng.randrange(12)
        if way == 0:
            frame = self.forged(self.end()) or frame
        elif way == 1:
            frame = frame[: rng.randrange(1, len(frame) + 1)]
        elif way == 2:
            frame += rng.randbytes(rng.randrange(1, 3))
        elif way < 6 and len(frame) > 15:
            tci, short = rng.choice((frame[14], rng.randrange(64))), rng.choice((frame[15], 0, 2, 16, 47, 48, 63))
            frame = frame[:12] + b"\x88\xe5" + bytes((tci, short)) + frame[16:]
        elif way == 6:
            frame = rng.randbytes(rng.choice((1, 13, 14, 15, 60, 9_248, 9_249) if rng.randrange(8) == 0 else (1, 30)))
        self.add(f"inject {frame.hex()}")
        self.deliver_last()

    def forged(self, end):
        """A frame made by someone who has an end's key, or None."""
        clone = copy.copy(self.ends[end])
        clone.counters = dict(clone.counters)
        clone.keys = {number: copy.copy(key) for number, key in clone.keys.items()}
        if not clone.tx:
            return None
        an = self.rng.choice(list(clone.tx))
        pn = min(clone.keys[clone.tx[an].key].last, clone.tx[an].next + self.rng.randrange(3))
        client, conf = bytes.fromhex(self.client(end)), self.rng.randrange(2) == 1
        sa = expected.Sa(clone.tx[an].key, pn, conf=conf)
        return clone.protected(client, clone.tag_bits(client[6:12]), an, sa, client[12:])

    def send_uncontrolled(self):
        end, number = self.end(), self.frame_number()
        frame = self.rng.randbytes(self.rng.randrange(13, 40)).hex()
        if self.rng.randrange(2):
            frame = self.client(end)
        elif number < len(self.link):
            frame = self.link[number].hex()
        self.add(f"{end} sendu {frame}")
        self.deliver_last()

    # Options.

    def validate(self, end=None):
        self.add(f"{end or self.end()} validate {self.rng.choice(('strict', 'strict', 'check', 'disabled'))}")

    def replay(self, end=None):
        window = self.rng.choice((0, 0, 1, 2, 2, 3, 5, 9, 2**30 - 1, 2**30, 2**32 - 1, 2**32))
        self.add(f"{end or self.end()} replay {self.rng.choice(('on', 'on', 'on', 'off'))} {window}")

    def option(self):
        words = [f"tag {it}" for it in expected.FORMS] + ["protect off", "protect on", "protect on"]
        self.add(f"{self.end()} {self.rng.choice(words)}")

    # Keys.

    def key(self):
        rng, end = self.rng, self.end()
        suite = rng.choice((self.ends[end].suite, *expected.SUITES))
        length = rng.choice([expected.SUITES[suite][0]] * 9 + [16, 32])
        number, octets = rng.randrange(5), bytes([rng.randrange(5)]) * length
        rest = rng.choice(("", f" {suite}")) + rng.choice(("", f" {self.sscis[end]} {self.salts[end]}"))
        self.add(f"{end} key {number} {octets.hex()} {rng.choice((0, 0, 0, 30, 50, 1))}{rest}")

    def retire(self):
        """Retires a key, usually after deleting its SAs, and then uses it or installs it again."""
        rng, end = self.rng, self.end()
        endpoint = self.ends[end]
        number = self.used_key(end)
        if rng.randrange(4):
            self.free(end, number)
        self.add(f"{end} retire {number}")
        if number not in endpoint.keys:
            return
        key = endpoint.keys[number]
        for again in rng.sample((number, rng.randrange(4096)), rng.randrange(1, 3)):
            an, suite = self.free_an(end), rng.choice(("", f" {key.suite}"))
            self.add(f"{end} key {again} {key.octets.hex()} 0{suite} {self.sscis[end]} {self.salts[end]}")
            self.add(f"{end} txsa {an} {again} {self.first[key.is_xpn]:x} {self.int_or_conf()}")
            self.add(f"{end} txon {an}")
            self.send(end)

    def used_key(self, end):
        """The number of a key, usually one that has protected a frame."""
        keys = self.ends[end].keys
        return self.rng.choice([it for it, key in keys.items() if key.first_unused > 1] or list(keys) or [0])

    def free(self, end, number):
        endpoint = self.ends[end]
        for an in [it for it, sa in endpoint.tx.items() if sa.key == number]:
            self.add(f"{end} txdel {an}")
        rows = [(it.sci.hex(), an) for it in endpoint.channels for an, sa in it.sas.items() if sa.key == number]
        for sci, an in rows:
            self.add(f"{end} rxdel {sci} {an}")

    def widen(self):
        """Sets a window at the limit for extended packet numbers, beside such keys and after they are retired."""
        rng, end = self.rng, self.end()
        wide = rng.choice((2**30 - 1, 2**30, 2**30, 2**32 - 1))
        self.add(f"{end} replay on {wide}")
        self.install(end, rng.randrange(2, 6), rng.randrange(2, 6))
        for number in [it for it, key in self.ends[end].keys.items() if key.is_xpn and not key.retired]:
            if rng.randrange(8):
                self.free(end, number)
                self.add(f"{end} retire {number}")
        self.add(f"{end} replay {rng.choice(('on', 'off'))} {wide}")
        self.install(end, rng.randrange(6, 9), rng.randrange(6, 9))

    # SAs.

    def free_an(self, end):
        return next((it for it in range(4) if it not in self.ends[end].tx), 0)

    def transmit(self):
        end = self.end()
        word = self.rng.choice(("txon", "txon", "txoff", "txdel"))
        self.add(f"{end} {word} {self.an_of(self.ends[end].tx)}")

    def remake(self):
        """Creates a transmit SA again under its key, from another packet number, with the same AN or another."""
        rng, end = self.rng, self.end()
        endpoint = self.ends[end]
        an = self.an_of(endpoint.tx)
        sa = endpoint.tx.get(an)
        number = sa.key if sa else self.used_key(end)
        key = endpoint.keys.get(number)
        far = (2**31, 2**32) if key and key.is_xpn else ()
        pn = (key.first_unused if key else 1) + rng.choice((-2, -1, -1, 0, 0, 1, 3, *far))
        is_deleted = rng.randrange(6) > 0
        if is_deleted:
            self.add(f"{end} txdel {an}")
        there = rng.choice((an, an, self.free_an(end))) if is_deleted else self.free_an(end)
        self.add(f"{end} txsa {there} {number} {max(pn, rng.randrange(2)) % 2**64:x} {self.int_or_conf()}")
        self.add(f"{end} txon {there}")
        self.send(end)
        if not is_deleted:
            self.add(f"{end} txon {an}")
            self.send(end)
        if rng.randrange(2):
            self.again(self.other(end), there)

    def roll(self):
        """Both ends install a key, and one end's traffic changes to it."""
        end, index = self.end(), self.rng.randrange(2, 8)
        an = self.free_an(end)
        if self.rng.randrange(2):
            self.change_numbers(end, index)
        numbers = {it: self.rng.choice((index, index, index + 100)) for it in "AB"}
        for it in "AB":
            self.install(it, numbers[it], index)
        first = self.first[expected.SUITES[self.suite_of(end, index)][1]]
        self.add(f"{end} txsa {an} {numbers[end]} {self.rng.choice((1, first)):x} {self.int_or_conf()}")
        self.again(self.other(end), an)
        self.add(f"{end} txon {an}")
        self.send(end)

    def again(self, end=None, an=None):
        """Creates a receive SA again, usually from a packet number that its sender will reach."""
        rng, end = self.rng, end or self.end()
        peer = self.ends[self.other(end)]
        an = self.an_of(peer.tx) if an is None else an
        first = self.first_of(self.other(end), an)
        here = peer.tx[an].next if an in peer.tx else first
        if self.channel(end) is None:
            self.add(f"{end} rxsc {peer.sci.hex()}")
        elif an in self.channel(end).sas:
            self.add(f"{end} rxdel {peer.sci.hex()} {an}")
        self.listen(end, an, here + rng.choice((-3, -1, -1, 0, 0, 1, first - here)))

    def receive(self):
        rng, end = self.rng, self.end()
        channel = self.channel(end)
        an = self.an_of(channel.sas if channel else ())
        word = rng.choice(("rxon", "rxon", "rxoff", "rxdel"))
        self.add(f"{end} {word} {self.ends[rng.choice((*[self.other(end)] * 6, end))].sci.hex()} {an}")

    def raise_lowest(self):
        rng, end = self.rng, self.end()
        channel = self.channel(end)
        an = self.an_of(channel.sas if channel else ())
        sa = channel.sas.get(an) if channel else None
        first = self.first_of(self.other(end), an)
        far = (2**31, 2**32) if first > 1 else ()
        pn = (sa.lowest if sa else first) + rng.choice((-1, 0, 1, 1, 2, *far))
        self.add(f"{end} rxlow {self.ends[self.other(end)].sci.hex()} {an} {max(pn, 0) % 2**64:x}")

    def channels(self):
        """Creates channels for other senders, sometimes too many; or the peer's channel again."""
        rng, end = self.rng, self.end()
        peer = self.ends[self.other(end)].sci.hex()
        way = rng.randrange(6)
        if way == 0:
            for number in range(rng.randrange(63, 65)):
                self.add(f"{end} rxsc 00000000000000{number:02x}")
        elif way < 3:
            self.add(f"{end} {rng.choice(('rxsc', 'rxscdel'))} 0000000000000001")
        else:
            self.add(f"{end} {rng.choice(('rxsc', 'rxscdel'))} {peer}")
            self.again(end)

    def reflect(self):
        """Makes an end receive what it sent itself: its frames come back to it."""
        end = self.end()
        endpoint = self.ends[end]
        an = self.an_of(endpoint.tx)
        if an not in endpoint.tx:
            return
        sci = endpoint.sci.hex() if self.rng.randrange(2) else self.ends[self.other(end)].sci.hex()
        self.add(f"{end} rxsc {sci}")
        if endpoint.channel(bytes.fromhex(sci)) and an in endpoint.channel(bytes.fromhex(sci)).sas:
            self.add(f"{end} rxdel {sci} {an}")
        self.add(f"{end} rxsa {sci} {an} {endpoint.tx[an].key} {endpoint.tx[an].next % 2**64:x} {self.sscis[end]}")
        self.add(f"{end} rxon {sci} {an}")
        self.add(f"{end} send {self.client(end)}")
        self.add(f"{end} deliver {max(0, len(self.link) - 1)}")

    def show(self):
        self.add(f"{self.end()} {self.rng.choice(('numbers', 'numbers', 'counters'))}")


WEIGHTS = {
    Maker.send: 30, Maker.burst: 7, Maker.deliver: 24, Maker.alter: 9, Maker.pad: 4, Maker.inject: 6,
    Maker.send_uncontrolled: 2, Maker.validate: 2, Maker.replay: 4, Maker.option: 4, Maker.key: 4, Maker.retire: 2,
    Maker.widen: 2, Maker.transmit: 4, Maker.remake: 5, Maker.roll: 5, Maker.again: 3, Maker.receive: 4,
    Maker.raise_lowest: 3, Maker.channels: 2, Maker.reflect: 2, Maker.show: 2,
}  # fmt: skip


def made_script(rng):
    """A script without a fault, and its text."""
    maker = Maker(rng)
    for act in rng.choices(list(WEIGHTS), list(WEIGHTS.values()), k=rng.randrange(1, 40)):
        act(maker)
    for line in ("A numbers", "A counters", "B numbers", "B counters"):
        maker.add(line)
    return "".join(it + "\n" for it in maker.lines).encode(), expected.text_of(maker.text)
