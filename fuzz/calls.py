#!/usr/bin/env python3
"""Makes random calls of the C library, and compares each answer with the one that handles.py works out.

    python3 fuzz/calls.py                          100,000 calls, by build/c/calls
    python3 fuzz/calls.py --calls 5000 --seed 7    fewer, and others
    python3 fuzz/calls.py --program valgrind --error-exitcode=9 build/c/calls
    python3 fuzz/calls.py --also build/c/calls-x86-64-v2    the same calls by two programs

The calls go to three handles: with endpoints, without one, and freed. Numbers, lengths and frames are of all kinds,
also those that nothing has. Statuses, suites, forms, modes, fates and verdicts are compared by the names that
include/macsec.h gives them. At the end each of these names must have been met at least once, and each call of the
header made. Of the calls that allocate, one in EVERY, or each of the rare ones, is first made with each of its
allocations refused: then it has to answer MACSEC_E_MEMORY and do nothing. Call number N of a seed, which is any text,
is the same on every machine.
"""

from __future__ import annotations

import argparse
import collections
import hashlib
import itertools
import random
import re
import subprocess
import sys

sys.dont_write_bytecode = True
import expected
import journals
from filed import Filed
from handles import CALLS, CONSTANTS, ROOT, SUITES, hex_of, without_memory
from rarely import Rarely

# The calls that allocate: whether one allocation is refused (!), or also all after it (?), since a text's vector that
# is refused twice its size may get a smaller one.
ALLOCATING = {"new": "!", "reserve_open": "!", "journal_compacted": "!", "key_take": "!", "slot_new": "!"}
ALLOCATING |= dict.fromkeys("configure reserve_configure command_line parse_line parse_end answer".split(), "?")
ALLOCATING |= {"journal_begin": "?", "renew_key": "!", "load": "!"}
EVERY = 8
# The calls that are made seldom, and often fail before they allocate: of these every one is first made so.
SELDOM = {"reserve_open", "reserve_configure", "journal_compacted", "journal_begin", "key_take", "slot_new"}
# A longer line is not among them: it would take its program too much time.
MOST_REFUSED = 50_000

# The calls that show a record.
RECORDS = {"reserve_wanted", "reserve_to_accept", "reserve_to_save"}
# The calls that the Python package does not make: those with keys and slots, with commands as structs, and for numbers
# of a program's own in a journal.
IN_C_ALONE = {
    "parse_line", "parse_end", "carry_out", "load", "clear_command", "key_take", "key_free", "slot_new", "slot_free",
    "slot_clear", "plan_send", "seal_job", "plan_receive", "open_job", "finish_receive", "journal_noted",
}  # fmt: skip


class Calls(Filed, Rarely):
    """Random calls, each made when its turn has come: some depend on what the handles hold."""

    PNS = [0, 1, 1, 2, 3, 9, 2**31, 2**32 - 2, 2**32 - 1, 2**32, 2**63, 2**64 - 2, 2**64 - 1]
    WINDOWS = [0, 0, 1, 5, 2**30 - 1, 2**30, 2**32 - 1, 2**32, 2**64 - 1]
    NUMBERS = [0, 1, 2, 3, 4, 5, 4095, 4096, 65535]
    SSCIS = [0, 1, 2, 2**32 - 1]
    AMOUNTS = [0, 1, 2, 2, 3, 3, 8, 64, 2**32, 2**63, 2**64 - 1]

    def __init__(self, seed, in_c_too=True):
        self.in_c_too = in_c_too
        self.random = random.Random(int.from_bytes(hashlib.sha256(seed.encode()).digest(), "big"))
        self.link = []
        # Records that were shown.
        self.records = []
        super().__init__([self.random.randbytes(32) for _ in range(6)])

    def handle(self):
        return self.random.choice((0, 0, 0, 1, 1, 1, 2))

    def an(self):
        return self.random.choice((0, 0, 0, 1, 1, 2, 3, 4, 255))

    def salt(self):
        return self.random.randbytes(24)

    def place(self):
        return self.random.choice((0, 0, 1, 1, 2))

    def sci(self):
        return self.random.choice(self.SCIS)

    def receiving(self):
        """A handle, most often the receiver's, an SCI and an association number."""
        return self.random.choice((0, 1, 1, 1, 2)), self.sci(), self.an()

    def pick(self, pool):
        return self.random.choice(pool)

    def client_frame(self):
        source = self.pick(self.SCIS)[:6]
        head = self.pick((b"\xff" * 6, self.random.randbytes(6))) + source + b"\x08\x00"
        length = self.pick((0, 0, 1, 4, 16, 33, 34, 35, 46, 47, 60, 90, self.random.randrange(200)))
        if self.random.random() < 0.01:
            return self.random.randbytes(self.pick((0, 1, 13, 9_216, 9_248, 9_249, 9_300)))
        return head + self.random.randbytes(length)

    def link_frame(self):
        """One that was sent, as it was or altered; or another."""
        chance = self.random.random()
        if not self.link or chance < 0.1:
            return self.client_frame()
        frame = self.pick(self.link[-8:] if chance < 0.7 else self.link)
        if chance < 0.55:
            return frame
        if chance < 0.6:
            return frame + bytes(self.random.randrange(1, 20))
        if chance < 0.65:
            return frame[: self.random.randrange(len(frame) + 1)]
        altered = bytearray(frame)
        # Mostly of the SecTAG, or of what follows.
        place = self.pick((14, 14, 14, 15, 16, 18, 19, 20, 27, len(frame) - 1, self.random.randrange(len(frame))))
        if place < len(altered):
            altered[place] ^= self.pick((1, 2, 3, 4, 8, 12, 16, 32, 64, 128, 255))
        return bytes(altered)

    def new(self):
        form = self.pick((0, 1, 1, 2, 2, 3, 3, 4))
        max_frame = self.pick((1518,) * 8 + (9_248, 100, 64, 63, 0, 9_249, 2**32 - 1))
        return self.handle(), self.sci(), self.pick((1, 1, 1, 2, 3, 3, 4, 0, 5, 2**32 - 1)), form, max_frame

    def record(self):
        """The octets of a record that was shown, as they were or altered; or of another one."""
        known = self.records[-4:] or [journals.record((self.random.randbytes(32), self.pick(self.PNS)))]
        record = bytearray(self.pick(known))
        if self.random.random() < 0.1:
            record[self.random.randrange(len(record))] ^= 1
        return bytes(record)

    def journal(self):
        """Most often a journal with records that were shown, and a part of one."""
        if self.random.random() < 0.1:
            damaged = bytearray(self.JOURNAL)
            damaged[self.random.randrange(journals.RECORD)] ^= 1 << self.random.randrange(8)
            return self.pick((b"", self.JOURNAL[:63], self.random.randbytes(64), bytes(damaged)))
        records = [self.record() for _ in range(self.pick((0, 1, 2, 5)))]
        return self.JOURNAL + b"".join(records) + self.record()[: self.pick((0, 0, 1, 63))]

    def key(self):
        fitting = ((0, 16), (0, 32), (1, 16), (2, 32), (3, 16), (4, 32))
        suite, length = self.pick((*fitting, (1, 32), (5, 16), (0, 17), (0, 0)))
        number = self.pick(self.NUMBERS)
        octets = self.keys[number] if number < 6 and self.random.random() < 0.9 else self.pick(self.keys)
        offset = self.pick((0, 0, 0, 0, 30, 50, 31, 255))
        return self.handle(), octets, self.SALT, self.pick(self.SSCIS), suite, number, length, offset

    def sealing(self):
        """A frame of a tester: of a client, or any octets, with a SecTAG or other octets and space for an ICV."""
        client = self.client_frame()
        tag = self.random.randbytes(self.pick((8, 16, 16, 0, 3, 24)))
        frame = client[:12] + tag + client[12:] + bytes(self.pick((16, 16, 16, 0, 15, 17)))
        head = self.pick((12 + len(tag),) * 4 + (0, 1, len(frame) - 16 & 2**64 - 1, len(frame), 2**64 - 1))
        return *self.key(), self.sci(), self.pick(self.PNS), self.pick((0, 1)), head, frame

    def word(self, field):
        pick = self.pick
        words = {
            "an": str(pick((0, 0, 0, 1, 2, 3, 4))), "number": str(pick(self.NUMBERS)),
            "offset": str(pick((0, 0, 30, 256))), "window": str(pick(self.WINDOWS)), "pn": f"{pick(self.PNS):x}",
            "ssci": f"{pick(self.SSCIS):08X}", "sci": self.sci().hex(), "salt": self.SALT.hex(),
            "octets": pick(self.keys)[: pick((16, 16, 32))].hex(), "suite": pick(list(expected.SUITES)),
            "form": pick(expected.FORMS), "mode": pick(expected.MODES), "switch": pick(("on", "off")),
            "protection": pick(("int", "conf")),
        }  # fmt: skip
        return words[field]

    def altered(self, words):
        place, chance = self.random.randrange(len(words)), self.random.random()
        other = self.pick(("B", "x", "0", "4096", "9" * 21, "0g", "abc", "on", "end", "#"))
        if chance < 0.6:
            return [*words[:place], other, *words[place + 1 :]]
        return words[:-1] if chance < 0.8 else [*words, other]

    def line(self):
        """A line of a configuration, most often a command."""
        keyword, *fields = self.pick(expected.LINES).split()
        words = ["A", keyword, *(self.word(it) for it in fields)]
        chance = self.random.random()
        if chance < 0.2:
            words = self.altered(words)
        elif chance < 0.3:
            end = "end A xpn128 0200000000010000 64 es"
            words = self.pick(("", "# A txon 0", "A numbers", "A send 00", end)).split()
        return (self.pick((" ", " ", " ", "  ", "\t")).join(words) + self.pick(("", "", "", " ", "\r"))).encode()

    def asked(self):
        others = "A counters,A counters,A numbers,A send 00,A deliver 0,B counters,pad 0,A counters 1".split(",")
        return self.line() if self.random.random() < 0.7 else self.pick(others).encode()

    def answering(self):
        handle, number = self.handle(), self.pick((0, 1, 3, 65_536, 2**32 - 1))
        return handle, number, self.asked(), self.pick((0, 63, 64, 64, 400, 9_000))

    def row(self):
        """A command as a struct, of each kind and of none, with members that name something or nothing."""
        kind, choice = self.pick((*range(19), 2**32 - 1)), self.pick((0, 1, 2, 3, 4, 2**32 - 1))
        _, *key, number, length, offset = self.key()
        pn, shown = self.pick((*self.PNS, *self.WINDOWS)), self.pick((number, number, self.pick(self.NUMBERS)))
        rest = (kind, choice, shown, self.an(), self.pick((0, 0, 0, 1, 1, 1, 2, 255)))
        return *key, number, length, offset, pn, self.sci(), self.pick(self.SSCIS), *rest

    def loading(self):
        """Some commands, most often of few kinds, so that all of them are carried out sometimes."""
        handle, count = self.handle(), self.pick((0, 1, 1, 2, 2, 3))
        return handle, count, *(word for _ in range(count) for word in self.row())

    def end_line(self):
        """Most often the line of a configuration."""
        words = ["end", "A", self.word("suite"), self.sci().hex(), self.pick(("64", "1518", "9248")), self.word("form")]
        if self.random.random() < 0.3:
            words = self.altered(words)
        return " ".join(words).encode() if self.random.random() < 0.9 else self.line()

    def text(self):
        """The text of a configuration. Most often its first lines have no fault."""
        if self.random.random() < 0.1:
            return self.pick((b"", b"# A\n\n", b"\n" * 65_536, b"\n" * 65_537, b"# " + b"A" * 19_999, b"end A\n"))
        suite, sci = self.pick(list(SUITES)), self.sci()
        lines = [self.line() for _ in range(self.pick((0, 0, 0, 1, 1, 2, 5)))]
        if self.random.random() < 0.8:
            return self.configuration(sci, suite, self.key_line(suite, 1), "rxsc " + "06" * 8) + b"\n".join(lines)
        words = self.altered(["end", "A", SUITES[suite], sci.hex(), "1518", self.word("form")])
        return "\r\n".join([" ".join(words), *(it.decode() for it in lines)]).encode()

    # Each call, how often it is made, and its arguments: what a method makes, and numbers, of which one is taken.
    GIVEN = """send 200 0,0,0,0,0,1,2 client_frame; receive 300 1,1,1,1,1,0,2 link_frame; send_uncontrolled 5 handle
        client_frame; new 12 new; configure 12 handle text; free 2 handle; set_protect 4 handle 0,1,1; set_validation 8
        handle 0,1,1,2,2,2,3,4294967295; set_replay 8 handle 0,1,1 WINDOWS; set_tag_form 8 handle 0,1,2,3,4,4294967295;
        install_key 25 key; renew_key 25 key; retire_key 6 handle NUMBERS; add_tx_sa 20 handle an NUMBERS PNS 0,1;
        enable_tx_sa 20 handle an; disable_tx_sa 2 handle an; delete_tx_sa 2 handle an; add_rx_sc 10 handle sci;
        delete_rx_sc 2 handle sci; add_rx_sa 30 handle sci an NUMBERS PNS SSCIS; enable_rx_sa 25 handle sci an;
        disable_rx_sa 2 handle sci an; set_lowest_pn 10 handle sci an PNS; delete_rx_sa 3 handle sci an; command_line 60
        handle line; answer 60 answering; parse_line 40 handle line; parse_end 10 handle end_line; carry_out 60 handle
        row; load 40 loading; clear_command 2 handle row; get_options 8 handle; keys_left 8 handle; get_counters 20
        handle;
        get_tx_counters 10 handle; get_rx_counters 15 handle sci; get_rx_sa_counters 15 handle sci an;
        get_removed_counters 10 handle sci; get_rx_sc 6 handle 0,0,1,2,63,64,18446744073709551615; get_tx_sa 10 handle
        an; get_rx_sa 15 handle sci an; reserve_open 4 new journal 0,1; reserve_configure 4 handle text journal 0,1;
        reserve_wanted 15 0,0,0,1,2 an AMOUNTS; reserve_to_save 10 handle sci an; reserve_granted 15 0,0,0,1,2 record;
        reserve_to_accept 15 receiving AMOUNTS PNS; reserve_tx_floor 6 0,0,0,1,2 NUMBERS; reserve_rx_floor 10 receiving
        NUMBERS; journal_header 5 handle salt; journal_compacted 5 handle journal; seal 25 sealing; key_take 20
        0,0,1,1,2 place NUMBERS; key_free 4 0 place; slot_new 6 0 place; slot_free 4 0 place; slot_clear 3 0 place;
        plan_send 60 0,0,0,0,1,2 place client_frame; seal_job 80 0 place place 400,400,400,9248,0,23,60; plan_receive 80
        1,1,1,1,0,2 place link_frame; open_job 60 0 place place; finish_receive 80 1,1,1,1,0,2 place
        9248,9248,9248,9248,9248,9248,9248,9248,9247,0; journal_created 2 0 salt; journal_begin 6 0 0,1 file LIMITS;
        journal_order 10 0 0,1 orders 0,0,1; journal_next 20 0 0,1 16384,16384,8192,8191,0; journal_answered 20 0 0,1
        0,1,1,1; journal_shown 6 0 0,1 0,0,1,2; journal_record 6 0 0,1 0,0,1,2,18446744073709551615; journal_let_go 3 0
        0,1 name; journal_whole 4 0 0,1 16384,16384,64,63,0; journal_noted 2 0 name PNS; journal_free 3 0 0,1"""
    MADE_OF = {name: words for name, *words in map(str.split, GIVEN.split(";"))}

    def arguments(self, name):
        found = []
        for word in self.MADE_OF[name][1:]:
            if word[0].isdigit():
                made = self.pick([*map(int, word.split(","))])
            else:
                made = self.pick(getattr(self, word)) if word.isupper() else getattr(self, word)()
            found += made if isinstance(made, tuple) else [made]
        return tuple(found)

    def paired(self, ahead=None):
        """Calls that let endpoint 0 send to endpoint 1 under a key of one suite, as they are mostly seen in use. With
        `ahead`, on or off, endpoint 1 has a journal, in which an earlier run has reserved numbers or none."""
        suite = self.pick((1, 1, 2, 3, 4))
        an, pn = self.random.randrange(4), self.pick((1, 1, 7, 2**32 - 3, 2**32 - 3 if suite < 3 else 2**64 - 3))
        sender = self.model.ends[0].sci if self.model.ends[0] else self.SCIS[0]
        yield "free", (1,)
        receiver = self.pick([it for it in self.SCIS if it != sender])
        name = journals.receiving_name(journals.sending_name(self.JOURNAL_SALT, self.key_octets(suite)), sender, an)
        earlier = journals.record((name, min(pn + self.pick((0, 1, 4)), journals.LAST)))
        journal = self.JOURNAL + b"".join([*self.records[-3:], earlier][: self.pick((0, 3, 4, 4))])
        beside = () if ahead is None else (journal, ahead)
        yield "reserve_open" if beside else "new", (1, receiver, suite, 1, 1518, *beside)
        yield "new", (0, sender, suite, 1, 1518)
        yield "install_key", (0, *self.key_of(suite, 1))
        yield "delete_tx_sa", (0, an)
        yield "add_tx_sa", (0, an, suite, pn, self.random.randrange(2))
        yield "enable_tx_sa", (0, an)
        yield "set_protect", (0, 1)
        yield "install_key", (1, *self.key_of(suite, 2))
        yield "add_rx_sc", (1, sender)
        floor = self.model.ends[1].floor((sender, an), suite)
        for lowest in {pn: 0, max(pn, min(floor + 1, journals.LAST)): 0}:
            yield "add_rx_sa", (1, sender, an, suite, lowest, 1)
        yield "enable_rx_sa", (1, sender, an)
        yield "set_replay", (1, self.pick((0, 1)), self.pick((0, 2)))
        yield "set_validation", (1, self.pick((0, 1, 2, 2, 2)))
        yield "reserve_to_save", (1, sender, an)

    def paired_beside(self):
        """The same with a journal, most often with `ahead`, and with frames of a new sender alone."""
        yield "free", (0,)
        self.link = []
        yield from self.paired(self.pick((0, 1, 1)))

    def reserved_at(self, end, chance=0.8):
        """What each receive association of an endpoint is to reserve next, which mostly is on the disk then."""
        amount = self.pick((1, 2, 3, 8))
        for sci, an in list(self.model.ends[end].rows()):
            pn = self.pick((0, 0, min(self.model.ends[end].rows()[sci, an].next + 2, journals.LAST)))
            wanted = self.model.ends[end].to_accept(sci, an, amount, pn)
            yield "reserve_to_accept", (end, sci, an, amount, pn)
            if wanted and self.random.random() < chance:
                yield "reserve_granted", (end, journals.record(wanted))

    def received_beside(self):
        """Frames to endpoint 1 with a journal: numbers are reserved before they are accepted, or not. The association
        is deleted, and created again above its end or not."""
        yield from self.paired_beside()
        end = self.model.ends[1]
        for _ in range(self.pick((3, 6, 12))):
            yield from self.reserved_at(1, 0.5)
            for _ in range(self.pick((1, 2, 3))):
                yield "send", (0, self.client_frame())
            for _ in range(self.pick((1, 2, 4))):
                yield "receive", (1, self.link_frame())
            if self.random.random() < 0.4 and end.rows():
                (sci, an), sa = self.pick(list(end.rows().items()))
                yield self.pick((("delete_rx_sa", (1, sci, an)), ("delete_rx_sc", (1, sci))))
                yield "add_rx_sc", (1, sci)
                floor = end.floor((sci, an), sa.key)
                for lowest in self.random.sample((1, floor, floor + 1, floor + 2), 2):
                    yield "add_rx_sa", (1, sci, an, sa.key, min(lowest, journals.LAST), 1)
                yield "enable_rx_sa", (1, sci, an)
                yield "reserve_rx_floor", (1, sci, an, sa.key)

    def in_jobs(self):
        """Frames from endpoint 0 to endpoint 1 in slots, mostly as they are seen in use, with other calls between."""
        yield from self.pick((self.paired, self.paired, self.paired_beside))()
        suite = next(iter(self.model.ends[1].keys))
        other = suite % 4 + 1
        yield "install_key", (0, *self.key_of(other, 1))
        for key, end, number in ((0, 0, suite), (1, 1, suite), (2, 0, other)):
            yield "key_free", (0, key)
            yield "key_take", (end, key, number)
        for slot in (0, 1, 2):
            yield "slot_new", (0, slot)
            yield "slot_clear", (0, slot)
        for _ in range(self.pick((4, 8, 16))):
            sent = self.random.sample(range(3), self.random.randrange(1, 4))
            for slot in sent:
                yield "plan_send", (0, slot, self.client_frame())
            for slot in self.random.sample(sent, len(sent)):
                yield "seal_job", (0, slot, self.pick((0, 0, 0, 1, 2)), self.pick((400, 400, 9_300, 50)))
            for slot in sent:
                yield "slot_clear", (0, slot)
                yield "plan_receive", (1, slot, self.link_frame())
            if self.model.ends[1].keeps:
                yield from self.reserved_at(1)
            for slot in self.random.sample(sent, len(sent)):
                if self.random.random() < 0.8:
                    yield "open_job", (0, slot, self.pick((1, 1, 1, 0, 2)))
            if self.random.random() < 0.3:
                name = self.pick(("set_validation", "set_replay", "set_lowest_pn", "disable_rx_sa", "enable_rx_sa"))
                yield name, (1, *self.arguments(name)[1:])
            for slot in self.random.sample(sent, len(sent)):
                yield "finish_receive", (self.pick((1, 1, 1, 1, 1, 2)), slot, 9_248)

    def paired_by_texts(self):
        """The same of two configurations."""
        suite, (sender, receiver) = self.pick((1, 1, 2, 3, 4)), self.random.sample(self.SCIS, 2)
        an, pn, of = self.random.randrange(4), self.pick((1, 7, 2**32 - 3)), sender.hex()
        sends = [self.key_line(suite, 1), f"txsa {an} {suite} {pn:x} {self.word('protection')}", f"txon {an}"]
        receives = [self.key_line(suite, 2), f"rxsc {of}", f"rxsa {of} {an} {suite} {pn:x} 00000001", f"rxon {of} {an}"]
        yield "free", (0,)
        yield "configure", (0, self.configuration(sender, suite, *sends))
        yield "free", (1,)
        yield "configure", (1, self.configuration(receiver, suite, *receives))

    def rarely_parsed(self):
        """Commands of each kind as structs, for an endpoint, and one that is cleared."""
        yield "configure", (0, self.configuration(self.sci(), 1))
        for kind in [*range(19)] * 2:
            *key, pn, sci, ssci, _, choice, number, an, flag = self.row()
            yield "carry_out", (0, *key, pn, sci, ssci, kind, choice, number, an, flag)
        yield "clear_command", (0, *self.row())

    def rarely_loaded(self):
        """Commands of which all are carried out, or one is refused. SAs begin above what was sent or reserved."""

        def row(kind, key=0, pn=0, an=0, octet=0, sci=bytes(8)):
            octets = bytes([octet]) * 16 + bytes(16)
            return octets, bytes(12), 0, 1, key, 16, 0, pn, sci, 0, CONSTANTS["COMMAND_" + kind], 0, key, an, 1

        def load(*rows):
            return "load", (0, len(rows), *itertools.chain.from_iterable(rows))

        for beside in (False, True):
            yield "free", (0,)
            made = 0, self.sci(), 1, 1, 1518
            yield ("reserve_open", (*made, self.JOURNAL, 1)) if beside else ("new", made)
            yield load(row("KEY", 5, octet=1), row("TX_SA", 5, 1), row("TX_ON"))
            if beside and (wanted := self.model.ends[0].wanted(0, 8)):  # none if no load is made
                yield "reserve_granted", (0, journals.record(wanted))
            for _ in range(3):
                yield "send", (0, self.client_frame())
            yield load(row("TX_DEL"), row("TX_SA", 5, 1, 1), row("TX_ON", an=3))
            yield load(row("TX_DEL"), row("TX_SA", 5, 1, 1), row("TX_ON", an=1))
            yield load(row("TX_DEL", an=1), row("RETIRE", 5), row("KEY", 5, octet=1))
            yield load(row("TX_DEL", an=1), row("RETIRE", 5), row("KEY", 5, octet=2))
            yield load(row("RX_SC", sci=b"\7" * 8), row("RX_SA", 5, 9, sci=b"\7" * 8), row("NONE"))
            yield load(row("RX_DEL", sci=b"\7" * 8), row("RX_SA", 5, 1, sci=b"\7" * 8), row("RX_ON", sci=b"\7" * 8))
            yield load()
            yield "get_tx_sa", (0, 1)
            yield "get_rx_sa", (0, b"\7" * 8, 0)

    def configured(self):
        """A configuration for a handle without an endpoint."""
        yield "free", (2,)
        yield "configure", (2, self.text())

    def kept(self):
        """Endpoint 0 with a journal, which it sends from: numbers are reserved before they are used, or not."""
        suite, sender, an = self.pick((1, 1, 2, 3, 4)), self.sci(), self.random.randrange(4)
        yield "free", (0,)
        yield "reserve_open", (0, sender, suite, 1, 1518, self.JOURNAL + b"".join(self.records[-8:]), self.pick((0, 1)))
        yield "install_key", (0, *self.key_of(suite, 1))
        end = self.model.ends[0]
        for pn in (1, 1 + journals.highest(end.before, end.key_name(suite))):
            yield "add_tx_sa", (0, an, suite, min(pn, journals.LAST), self.random.randrange(2))
        yield "reserve_tx_floor", (0, suite)
        yield "enable_tx_sa", (0, an)
        for _ in range(self.pick((1, 2, 5))):
            amount = self.pick((2, 3, 8))
            wanted = end.wanted(an, amount)
            yield "reserve_wanted", (0, an, amount)
            if wanted and self.random.random() < 0.9:
                yield "reserve_granted", (0, journals.record(wanted))
            for _ in range(self.pick((1, 2, 3))):
                yield "send", (0, self.client_frame())

    def all(self, count):
        rarely = self.rarely_written, self.rarely_refused, self.rarely_made, self.rarely_reserved, self.rarely_forgotten
        rarely += self.rarely_renewed, self.rarely_ahead, self.rarely_parsed, self.rarely_loaded, self.rarely_filed
        waiting = itertools.chain.from_iterable(it() for it in (self.crowded, *rarely))
        names, weights = list(self.MADE_OF), [int(weight) for weight, *_ in self.MADE_OF.values()]
        for _ in range(count):
            made = next(waiting, None)
            if made is None and self.random.random() < 0.025:
                several = (self.paired, self.paired_by_texts, self.in_jobs, self.kept, self.configured, self.configured)
                waiting = iter(self.pick((*several, self.received_beside, self.received_beside, self.filed))())
                made = next(waiting)
            if made is None:
                name = self.random.choices(names, weights)[0]
                made = name, self.arguments(name)
            name, words = made
            if name in IN_C_ALONE and not self.in_c_too:
                continue
            self.meet(name, words)
            answer = self.model.answer(name, *words)
            if name == "send" and answer.split()[1] in (str(CONSTANTS["FATE_PROTECTED"]), str(CONSTANTS["FATE_PLAIN"])):
                self.link = [*self.link[-40:], bytes.fromhex(answer.split()[3])]
            if name == "seal_job" and answer.endswith(f" : {CONSTANTS['OK']}"):
                self.link = [*self.link[-40:], bytes.fromhex(answer.split()[2])]
            if name in RECORDS and answer.endswith(f" : {CONSTANTS['OK']}"):
                self.records = [*self.records[-40:], bytes.fromhex(answer.split()[1])]
            yield " ".join([name, *(hex_of(it) if isinstance(it, bytes) else str(it) for it in words)]), answer

    def meet(self, name, words):
        given = {"new": ("SUITE_", 2), "install_key": ("SUITE_", 4), "carry_out": ("COMMAND_", 11)}
        given |= {"reserve_open": given["new"], "seal": given["install_key"], "renew_key": given["install_key"]}
        prefix, place = given.get(name, ("", 0))
        for it, value in CONSTANTS.items():
            if place and it.startswith(prefix) and value == words[place]:
                self.model.met[it] += 1


def compare(program, seed, lines, answers):
    """Has a program make the calls of these lines, and compares its answers. Ends at the first that differs."""
    ran = subprocess.run(program, input="".join(f"{it}\n" for it in lines).encode(), stdout=subprocess.PIPE)
    # Each answer ends with a newline; `splitlines` would also end one at a vertical tab.
    given = collections.deque(ran.stdout.decode(errors="replace").removesuffix("\n").split("\n"))
    met, count = collections.Counter(), len(given)
    for number, (line, answer) in enumerate(zip(lines, answers)):
        while line[0] in "!?" and given and given[0] == without_memory(line[1:]):
            met[line[1:].split()[0]] += 1
            given.popleft()
        gave = given.popleft() if given else None
        if answer != gave:
            sys.exit(f"call {number} of seed {seed}: {line}\n  expected {answer}\n  answered {gave}")
    if ran.returncode or given:
        answered = count - sum(met.values())
        sys.exit(f"the program ended with status {ran.returncode} after {answered} answers to {len(lines)} calls")
    return met


def marked(lines):
    """These lines; of each call that allocates one in EVERY, or each, has the mark for refused allocations."""
    made = collections.Counter()
    for line in lines:
        name = line.split(" ", 1)[0]
        made[name] += 1
        tried = name in SELDOM or name in ALLOCATING and made[name] % EVERY == 1
        yield ALLOCATING[name] + line if tried and len(line) < MOST_REFUSED else line


def main():
    parser = argparse.ArgumentParser(description=__doc__, formatter_class=argparse.RawDescriptionHelpFormatter)
    parser.add_argument("--calls", type=int, default=100_000)
    parser.add_argument("--seed", default="1")
    parser.add_argument("--met-from", type=int, default=5_000, help="how many calls must meet everything (5,000)")
    parser.add_argument("--also", action="append", default=[], help="a program that makes the same calls")
    parser.add_argument("--program", nargs=argparse.REMAINDER, default=[str(ROOT / "build/c/calls")])
    options = parser.parse_args()
    calls = Calls(options.seed)
    lines, answers = zip(*calls.all(options.calls))
    refused = collections.Counter()
    for program in (options.program, *([it] for it in options.also)):
        refused |= compare(program, options.seed, list(marked(lines)), answers)
        print(f"{len(answers)} calls of seed {options.seed}: each was answered as expected by {program[-1]}")
    lines = collections.Counter(line.split()[0] for line in lines)
    print("calls: " + ", ".join(f"{name} {count}" for name, count in sorted(lines.items())))
    print("met: " + ", ".join(f"{name} {count}" for name, count in sorted(calls.model.met.items())))
    print("allocations refused: " + ", ".join(f"{name} {count}" for name, count in sorted(refused.items())))
    others = re.compile("FATE_NONE|VERDICT_NONE|E_MEMORY|FRAME_M..|VERSION_NUMBER|RECORD_LENGTH|ANSWER_MIN|.*_COUNT")
    unmet = [it for it in CONSTANTS if not calls.model.met[it] and not others.fullmatch(it)]
    missing = [it for it in sorted(CALLS) if it not in lines]
    missing += [f"a refused allocation of {it}" for it in ALLOCATING if not refused[it]]
    if options.calls >= options.met_from and (unmet or missing):
        sys.exit(f"never met: {', '.join(unmet + missing)}")


if __name__ == "__main__":
    main()
