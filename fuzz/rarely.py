"""Calls of the C library that random ones seldom come to. calls.py makes them first."""

from __future__ import annotations

import struct

import expected
import journals
from handles import CONSTANTS, SUITES, Model


class Rarely:
    """The calls, each with its arguments. They go to handle 2, which nothing else uses meanwhile."""

    SCIS = [bytes.fromhex(f"020000000{it}") for it in ("0010001", "0020001", "0030000", "0030001")]
    SALT = bytes(range(0xA0, 0xAC))
    JOURNAL_SALT = bytes(range(24))
    JOURNAL = journals.header(JOURNAL_SALT)

    def __init__(self, keys):
        self.keys = keys
        self.model = Model()

    def key_of(self, suite, ssci):
        """A key of this suite, with the suite's number as its own."""
        return self.keys[suite], self.SALT, ssci, suite, suite, 32 if suite in (2, 4) else 16, 0

    def configuration(self, sci, suite, *lines):
        """The text of a configuration: the line of the end, and then these commands."""
        return "\n".join([f"end A {SUITES[suite]} {sci.hex()} 1518 sci", *("A " + it for it in lines), ""]).encode()

    def key_line(self, suite, ssci):
        """The line of a key of this suite, with the suite's number as its own."""
        return f"key {suite} {self.key_octets(suite).hex()} 0 {ssci:08x} {self.SALT.hex()}"

    def calls(self, text, handle=2, /, **named):
        """The calls of a text, one after another. Their arguments are numbers, constants of the header, *N for N octets
        of 0, and what is named here."""
        for name, *words in map(str.split, text.split(";")):
            of_zeros = {it: bytes(int(it[1:])) for it in words if it[0] == "*"}
            known = {**CONSTANTS, **of_zeros, **named}
            yield name, (handle, *(known[it] if it in known else int(it) for it in words))

    @staticmethod
    def each(name, given):
        for it in given:
            yield name, (2, *(it if isinstance(it, tuple) else (it,)))

    def rarely_reserved(self):
        """What random calls over journals seldom come to."""
        own, other = self.SCIS[2], self.SCIS[0]
        saved = journals.receiving_name(journals.sending_name(self.JOURNAL_SALT, self.keys[0][:16]), other, 1), 7
        yield "free", (2,)
        for journal in (b"", self.JOURNAL[:63], b"M" + self.JOURNAL[1:], self.JOURNAL[:16] + b"s" + self.JOURNAL[17:]):
            text = self.configuration(own, 1)
            begin = "reserve_open own 1 1 1518 journal 0; reserve_configure text journal 1; journal_compacted journal"
            yield from self.calls(begin, own=own, text=text, journal=journal)
        yield from self.calls("reserve_open own 1 1 63 journal 1; reserve_wanted 0 4", own=own, journal=self.JOURNAL)
        yield "reserve_open", (2, own, 1, 1, 1518, self.JOURNAL + journals.record(saved) + b"torn", 0)
        yield "install_key", (2, self.keys[0], self.SALT, 1, 1, 0, 16, 0)
        for number in (0, 1, 4_096):
            yield "reserve_tx_floor", (2, number)
            yield from self.each("reserve_rx_floor", [(other, an, number) for an in (0, 1, 4)])
        yield from self.calls("add_rx_sc other; add_rx_sa other 1 0 7 0; add_rx_sa other 1 0 8 0", other=other)
        yield from self.each("reserve_to_save", [(other, 1), (other, 4)])
        text = "add_tx_sa 0 0 1 1; enable_tx_sa 0; send *60; reserve_wanted 0 4; reserve_granted *64"
        yield from self.calls(text)
        yield "reserve_granted", (2, journals.record(self.model.ends[2].wanted(0, 4)))
        yield from self.calls("reserve_wanted 0 4" + "; send *60" * 6)
        yield "journal_compacted", (2, self.JOURNAL + 3 * journals.record(saved) + bytes(64))
        yield "journal_header", (2, self.JOURNAL_SALT)

    def rarely_forgotten(self):
        """Retired keys. Their fingerprints stay, their floors are gone, and their octets are refused. A job that was
        planned before is done. If a key is the fingerprint of another one, the other one's octets stay."""
        octets = self.keys[0][:16]
        name = journals.sending_name(self.JOURNAL_SALT, octets)
        saved = (name, 9), (journals.receiving_name(name, self.SCIS[0], 1), 7)
        for journal in (self.JOURNAL + b"".join(map(journals.record, saved)), None):
            yield from self.begun(journal)
            mark = self.model.ends[2].fingerprint(octets)
            yield from self.retired(octets, journal is not None)
            yield from self.refused_again(octets, mark)
            yield "add_tx_sa", (2, 0, 1, 1, 1)
            yield from self.enabled(journal is not None)
            yield from self.each("send", [bytes(60)] * 6)
            yield from self.begun(journal)
            yield from self.retired_with_mark(octets, mark)

    def begun(self, journal):
        own = self.SCIS[2]
        yield "free", (2,)
        yield ("new", (2, own, 1, 1, 1518)) if journal is None else ("reserve_open", (2, own, 1, 1, 1518, journal, 0))

    def short_keys(self, *keys):
        yield from self.each("install_key", [(it + bytes(16), self.SALT, 1, 1, number, 16, 0) for number, it in keys])

    def enabled(self, reserves):
        """The transmit association, with a reservation if it needs one."""
        if reserves:
            yield "reserve_granted", (2, journals.record(self.model.ends[2].wanted(0, 4)))
        yield "enable_tx_sa", (2, 0)

    def retired(self, octets, reserves):
        """Key 0, which has these octets, is retired while its job is planned. Calls name it before and after that."""
        other = self.SCIS[0]
        yield from self.short_keys((0, octets), (1, self.keys[1][:16]))
        yield from self.calls("add_rx_sc other; add_tx_sa 0 0 9 1; add_tx_sa 0 0 10 1", other=other)
        yield from self.enabled(reserves)
        yield from self.calls("slot_free 2; slot_new 2; key_free 2", 0)
        text = "key_take 2 0; plan_send 2 *60; delete_tx_sa 0"
        named = "reserve_tx_floor 0; reserve_rx_floor other 1 0; add_rx_sa other 1 0 7 0; add_tx_sa 1 0 9 1"
        yield from self.calls(f"{text}; {named}; delete_rx_sa other 1; retire_key 0; {named}", other=other)

    def refused_again(self, octets, mark):
        """The planned job, and the octets of the retired key and its fingerprint, as keys and in lines."""
        yield "seal_job", (0, 2, 2, 400)
        yield from self.short_keys((2, octets), (2, mark), (0, octets))
        key = f"A key 2 {octets.hex()} 0"
        yield from self.answered(key, f"{key} {SUITES[2]}", "A txsa 1 0 9 conf")

    def answered(self, *lines):
        """Lines that are carried out, and then answered."""
        for line in map(str.encode, lines):
            yield "command_line", (2, line)
            yield "answer", (2, 3, line, 64)

    def retired_with_mark(self, octets, mark):
        """A key and one that is its fingerprint, both retired and installed again."""
        yield from self.short_keys((0, octets), (1, mark))
        yield from self.calls("retire_key 0; reserve_tx_floor 0; retire_key 1; reserve_tx_floor 0")
        yield from self.short_keys((2, octets), (3, mark))

    def renewed(self, *keys):
        yield from self.each("renew_key", [(it + bytes(16), self.SALT, 1, 1, number, 16, 0) for number, it in keys])

    def rarely_renewed(self):
        """A key in the place of a retired one, with a journal and without one. Only numbers that no key in use has are
        free. The octets of each key whose place was taken are refused from then on, and no others."""
        octets, other = [it[:16] for it in self.keys], self.SCIS[0]
        for journal in (self.JOURNAL + journals.record((bytes(32), 9)), self.JOURNAL, None):
            yield from self.begun(journal)
            yield from self.renewed((0, octets[0]), (0, octets[1]), (1, octets[0]), (1, octets[1]))
            text = "add_rx_sc other; add_rx_sa other 1 1 7 0; add_tx_sa 0 0 9 1"
            yield from self.calls(text, other=other)
            yield from self.enabled(journal is not None)
            text = "send *60; retire_key 0; delete_tx_sa 0; retire_key 0"
            yield from self.calls(text)
            mark = self.model.ends[2].keys[0].octets
            yield from self.renewed((0, mark), (0, octets[0]), (0, octets[1]), (0, octets[2]), (0, octets[3]))
            yield from self.short_keys((2, octets[0]), (2, mark), (2, octets[3]))
            yield from self.renewed((3, octets[0]), (3, mark))
            key = f"A key 4 {octets[0].hex()} 0"
            yield from self.answered(key, f"{key} {SUITES[2]}", f"A key 0 {octets[4].hex()} 0")
            yield from self.calls("add_tx_sa 0 0 1 1; reserve_tx_floor 0; reserve_wanted 0 4")
            yield from self.enabled(journal is not None)
            text = "send *60; send *60; delete_rx_sa other 1; reserve_rx_floor other 1 1; retire_key 1"
            yield from self.calls(text, other=other)
            yield from self.renewed((1, octets[5]))
            text = (
                "reserve_rx_floor other 1 1; add_rx_sa other 1 1 1 0; keys_left; get_tx_sa 0; key_free 2; key_take 2 1"
            )
            yield from self.calls(text, other=other)

    def rarely_ahead(self):
        """A receiver with a journal: numbers that are reserved, not reserved yet, and reserved by an earlier run."""
        for suite, ahead in ((1, 0), (1, 1), (3, 1)):
            sent = self.sender(suite)
            name = journals.sending_name(self.JOURNAL_SALT, self.key_octets(suite))
            saved = journals.receiving_name(name, self.SCIS[0], 1), 7
            yield "free", (2,)
            yield "reserve_open", (2, self.SCIS[2], suite, 1, 1518, self.JOURNAL + journals.record(saved), ahead)
            yield from self.accepted(suite, sent)
            yield from self.accepted_in_each_mode(sent)
            yield from self.accepted_in_jobs(suite, sent)
            yield from self.accepted_again(suite, sent)
        yield from self.configured_ahead()

    def key_octets(self, suite):
        return self.keys[suite][: expected.SUITES[SUITES[suite]][0]]

    def sender(self, suite):
        """A function that protects a frame of SCI 0 and association 1 with a packet number, and can alter its ICV."""
        end = expected.Endpoint(SUITES[suite], self.SCIS[0], 1518, "sci")
        end.command("key", (suite, self.key_octets(suite), 0, SUITES[suite], struct.pack(">I", 1), self.SALT))
        end.command("txsa", (1, suite, 1, "int"))
        end.command("txon", (1,))

        def frame(pn, is_altered=False):
            end.tx[1].next = pn
            sent, _ = end.send(b"\xff" * 6 + self.SCIS[0][:6] + b"\x08\x00" + bytes(46))
            return sent[:-1] + bytes([sent[-1] ^ is_altered])

        return frame

    def reserved(self, amount, pn):
        """A record to accept frames is written to the disk, and then no further one is needed."""
        for _ in range(2):
            wanted = self.model.ends[2].to_accept(self.SCIS[0], 1, amount, pn)
            yield "reserve_to_accept", (2, self.SCIS[0], 1, amount, pn)
            if wanted:
                yield "reserve_granted", (2, journals.record(wanted))

    def begun_at(self, suite, *numbers):
        """The association begins at the last of these numbers."""
        yield from self.each("add_rx_sa", [(self.SCIS[0], 1, suite, pn, 1) for pn in numbers])
        yield "enable_rx_sa", (2, self.SCIS[0], 1)

    def accepted(self, suite, sent):
        """Numbers up to 7 were used by an earlier run, and numbers from 8 to 20 are reserved after the first frames."""
        other = self.SCIS[0]
        yield from self.calls("reserve_to_accept other 1 4 0; reserve_to_accept other 4 4 0", other=other)
        yield "install_key", (2, *self.key_of(suite, 2))
        yield "add_rx_sc", (2, other)
        yield from self.begun_at(suite, 7, 8)
        yield from self.each("receive", [sent(8), sent(8, True), sent(7)])
        yield from self.reserved(10, 10)
        yield "reserve_to_accept", (2, other, 1, 12, 0)
        yield from self.each("receive", map(sent, (8, 8, 10, 9, 12, 21)))
        yield from self.calls("get_rx_sa other 1; get_rx_sa_counters other 1; get_counters", other=other)

    def accepted_in_each_mode(self, sent):
        """Late frames are not dropped, and then an invalid frame is delivered too."""
        yield "set_replay", (2, 0, 0)
        yield from self.each("receive", map(sent, (9, 7, 1)))
        for mode in ("CHECK", "DISABLED", "STRICT"):
            yield "set_validation", (2, CONSTANTS["MODE_" + mode])
            yield from self.each("receive", [sent(7), sent(22), sent(7, True)])

    def accepted_in_jobs(self, suite, sent):
        """Frames in slots, opened before or not."""
        yield from self.calls("slot_free 2; slot_new 2; key_free 2", 0)
        yield "key_take", (2, 2, suite)
        for pn, is_opened in ((7, 1), (23, 1), (23, 0), (11, 1)):
            yield "plan_receive", (2, 2, sent(pn))
            if is_opened:
                yield "open_job", (0, 2, 2)
            yield "finish_receive", (2, 2, 9_248)
        yield "set_replay", (2, 1, 0)

    def accepted_again(self, suite, sent):
        """The association and then its channel are deleted and created again. What was reserved for it is forgotten."""
        other, end = self.SCIS[0], self.model.ends[2]
        lowest = end.rx_sa(other, 1).lowest
        yield from self.calls("delete_rx_sa other 1; reserve_rx_floor other 1 suite", other=other, suite=suite)
        yield from self.begun_at(suite, 1, lowest - 1, lowest)
        yield from self.each("receive", map(sent, (lowest - 1, lowest)))
        lowest = end.rx_sa(other, 1).lowest
        yield "delete_rx_sc", (2, other)
        lines = (f"A rxsa {other.hex()} 1 {suite} {it:x} 00000001" for it in (lowest - 1, lowest, 0))
        yield from self.answered(*lines)
        yield "reserve_granted", (2, journals.record((bytes(32), 9)))
        yield "add_rx_sc", (2, other)
        yield from self.begun_at(suite, lowest - 1, lowest)
        yield "receive", (2, sent(lowest))
        yield from self.reserved(4, lowest)
        yield "receive", (2, sent(lowest))
        text = "delete_rx_sa other 1; retire_key suite; reserve_rx_floor other 1 suite; add_rx_sa other 1 suite 1 1"
        yield from self.calls(text, other=other, suite=suite)

    def configured_ahead(self):
        """A line that creates an association again is refused in a CONFIG too."""
        other = self.SCIS[0].hex()
        lines = self.key_line(1, 2), f"rxsc {other}", f"rxsa {other} 1 1 9", f"rxdel {other} 1"
        for pn, ahead in ((8, 0), (8, 1), (9, 1)):
            yield "free", (2,)
            text = self.configuration(self.SCIS[2], 1, *lines, f"rxsa {other} 1 1 {pn:x}")
            yield "reserve_configure", (2, text, self.JOURNAL, ahead)
        yield "reserve_rx_floor", (2, self.SCIS[0], 1, 1)

    def crowded(self):
        most = CONSTANTS["RX_CHANNEL_COUNT"]
        yield from self.calls("free; new own 1 0 1518", own=self.SCIS[0])
        yield from self.each("add_rx_sc", (bytes([6, 0, 0, 0, 0, it, 0, 1]) for it in range(most + 1)))
        yield "get_rx_sc", (2, most - 1)

    # Texts of configurations, and lines, that random ones seldom are.
    END = "end A gcm128 1215352400000001 1518 sci\n"
    KEY = "A key 0 ad7a2bd03eac835a6f620fdcb506b345 0\n"
    TEXTS = (
        "", "# nothing\n\n", END, f"{END}{KEY}A txsa 0 0 1 conf\nA txon 0\r\n# the end", KEY + END, END + END,
        END + "A send 00\n", END + "B protect on\n", END.replace("1518", "63"), END.replace("sci", "scb"),
        f"\n{END}A proetct on\n", END + "A protect on on\n", END + "A rxsc 0\n", END + "A txon 4\n", END + KEY + KEY,
        f"{END}A txon 0\n{KEY}A txoff 0\n",
    )  # fmt: skip
    WORDS = (
        ",# A txoff 0,A txoff 0,A txoff 0\r,A txoff,A txoff 4,txoff 0,A txof 0,A txoff 1,A rxsc 0,B txoff 0,A counters,"
        "A txon 0,A,A txon 4,A counters 0,B counters,A send 00,A sendu 00,A deliver 0,alter 0 0 00,pad 0,inject 00,"
        + END[:-1]
    )

    def rarely_written(self):
        """Texts with each fault, a frame by an endpoint that a text has made, and lines in buffers of each size."""
        for text in map(str.encode, self.TEXTS):
            yield from self.calls("free; configure text", text=text)
        text = "command_line off; free; command_line off; configure text; configure text; send *60"
        yield from self.calls(text, off=b"A txoff 0", text=self.TEXTS[3].encode())
        for line in self.WORDS.encode().split(b","):
            yield from self.calls("command_line line; answer 4294967295 line 9000; get_tx_sa 0", line=line)
        for line in (b"A txoff 0", b"A numbers", b"A counters", b"A txoff"):
            yield "enable_tx_sa", (2, 0)
            needed = len(expected.text_of(self.model.ends[2].counter_lines(1))) if line == b"A counters" else 64
            for room in (0, needed - 1, needed):
                yield from self.calls("answer 1 line room; get_tx_sa 0", line=line, room=room)

    def rarely_refused(self):
        """What random calls seldom come to."""
        own, other = self.SCIS[2], self.SCIS[0]
        key = lambda number, octets, suite: (self.keys[octets], self.SALT, 1, suite, number, 16, 0)
        text = """free; new other 1 FORM_ES 1518; get_options; free; new own 1 FORM_ES 1518; new own 1 FORM_SCB 64;
            get_options; set_tag_form FORM_ES"""
        yield from self.calls(text, own=own, other=other)
        suites = CONSTANTS["SUITE_DEFAULT"], CONSTANTS["SUITE_GCM_AES_XPN_128"]
        yield from self.each("install_key", [key(0, 0, suites[0]), key(1, 0, suites[0]), key(3, 3, suites[1])])
        # The frame is a tagged one with E and C clear, and an ICV of zeros.
        frame = bytes(12) + bytes.fromhex("88e5200000000009") + other + bytes(64)
        text = """add_rx_sc other; add_rx_sa other 0 3 1 1; add_rx_sa other 0 0 9 0; add_rx_sa other 0 0 9 0;
            set_lowest_pn other 0 8; set_lowest_pn other 0 4294967296; add_tx_sa 0 0 4294967295 1; enable_tx_sa 0;
            send *34; send *14; enable_tx_sa 0; get_tx_sa 0; send_uncontrolled *9249; delete_tx_sa 0; add_tx_sa 0 0 1 1;
            enable_rx_sa other 0; set_validation MODE_CHECK; receive frame; delete_rx_sa other 0; retire_key 0;
            add_tx_sa 0 0 1 1; free; configure lines; configure long; new own 1 FORM_AUTO 63"""
        yield from self.calls(text, own=own, other=other, frame=frame, lines=b"\n" * 65_537, long=b"#" * 20_001)

    def rarely_made(self):
        """Calls, modes and verdicts that some seeds would not come to."""
        yield from self.calls("free; new own 5 FORM_AUTO 1518; new own 1 FORM_AUTO 1518", own=self.SCIS[2])
        yield from self.rarely_received()
        yield from self.rarely_sent()
        lines = b"A rxsc 0g", b"A rxsc", b"A rxon 0000000000000001 4", b"A frob", b"B txon 0", b"#" * 20_001
        yield from self.each("command_line", lines)

    def rarely_received(self):
        """Keys and receive associations, and frames in each mode of validation."""
        own, other = self.SCIS[2], self.SCIS[0]
        # A tagged frame of integrity alone with this TCI, packet number 9 or another, and an ICV of zeros.
        tagged = lambda tci, pn=9: bytes(12) + b"\x88\xe5" + bytes([tci, 0]) + struct.pack(">I", pn) + other + bytes(64)
        named = {"own": own, "other": other, "next": tagged(0x20), "late": tagged(0x20, 8)}
        yield from self.calls("set_validation MODE_DISABLED; get_options")
        for length, offset in ((16, 31), (17, 0), (32, 0), (16, 0), (16, 0)):
            yield "install_key", (2, self.keys[5], self.SALT, 1, 1, 0, length, offset)
        text = """add_rx_sc own; add_rx_sc other; add_rx_sc other; add_rx_sa other 0 1 9 0; add_rx_sa other 0 0 9 0;
            receive next; enable_rx_sa other 0; receive next; receive late; set_replay 0 0"""
        yield from self.calls(text, **named)
        yield from self.each("receive", [named["late"], *map(tagged, (0x28, 0x2C, 0xA0)), bytes(60)])
        text = """set_validation MODE_CHECK; get_options; set_validation 3; set_validation MODE_STRICT; receive *60;
            disable_rx_sa other 0; receive next; delete_rx_sa other 0; delete_rx_sc other; delete_rx_sc other"""
        yield from self.calls(text, **named)

    def rarely_sent(self):
        """Options of sending, transmit associations, and frames of the shortest length and below."""
        yield from self.calls(
            """set_tag_form 4; set_tag_form FORM_ES; set_replay 1 4294967296; enable_tx_sa 0;
            add_tx_sa 4 0 1 0; add_tx_sa 0 4096 1 0; add_tx_sa 0 0 1 0; add_tx_sa 1 0 1 0; retire_key 0;
            disable_tx_sa 0; send *60; send *13; set_protect 0; send *60; get_rx_sc 0"""
        )
