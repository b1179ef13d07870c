"""The ledger of used IVs: reuse between captures is named, copies are not, and its file outlives kills and damage."""

from __future__ import annotations

import contextlib
import json
import os
import signal
import stat
from collections.abc import Sequence
from typing import Any, NamedTuple
from unittest import mock

from macsec import CaptureError, Suite, capture
from macsec.capture import Packet
from macsec.cli import decrypt, report, why
from macsec.ledger import _ENTRY, Ledger

from .frames import client_frames, protected, vlan, with_fcs
from .helpers import KEYS, SALT, SENDER, START, InFolder, main_of
from .test_ivs import Link

# When the captures of these tests begin (START).
DATE = "2023-11-14 22:13:20 UTC"


class Ran(NamedTuple):
    """What a command has said: its status, the IVs used twice, and of the ledger."""

    status: int
    twice: list[dict[str, Any]]
    seen: dict[str, Any]


class Case(InFolder):
    def setUp(self) -> None:
        super().setUp()
        self.ledger = self.folder / "ledger"

    def run_of(self, name: str, capture: str, frames: Sequence[bytes], link: Link = Link(), *words: object) -> Ran:
        """Runs a command over a capture of this name."""
        path = self.put(capture, frames)
        more = ("--seen", self.ledger, *words)
        out = self.folder / "OUT"
        out.unlink(missing_ok=True)
        if name == "report":
            config = ("--config", self.put("CONFIG", link.receives()))
            status, text, error = main_of(report.main, path, "-o", "-", *config, *more)
            (data,) = (it for it in text.splitlines() if '"objects":' in it)
            objects = json.loads(data[data.index("{") : data.rindex("}") + 1])["objects"]
        else:
            main, given = {
                "why": (why.main, (self.put("CONFIG", link.receives()), path)),
                "decrypt": (decrypt.main, (path, out, *link.words())),
            }[name]
            status, text, error = main_of(main, *given, "--json", *more)
            objects = [json.loads(it) for it in text.splitlines()]
        self.assertEqual(error, "")
        (seen,) = (it["seen"] for it in objects if "seen" in it)
        return Ran(status, [it["iv used twice"] for it in objects if "iv used twice" in it], seen)

    def ledger_with(self, *frames: bytes, limit: int | None = None, name: str = "a capture") -> list[object]:
        """Adds frames with the IVs 0, 1 and so on to the ledger. Returns what it says of each."""
        with Ledger(str(self.ledger), limit) as ledger:
            packets = [Packet(record, START, it, len(it)) for record, it in enumerate(frames)]
            said = [
                ledger.add(it.number, KEYS[0], it.number.to_bytes(12, "big"), it.frame, True)
                for it in ledger.reading(name, packets)
            ]
            ledger.save()
        return said


class Between(Case):
    def test_captures_of_two_days(self) -> None:
        """Each command finds what each other one has seen, under each suite."""
        pairs = ("decrypt", "why"), ("why", "report"), ("report", "decrypt"), ("decrypt", "report")
        for n, (first, second) in enumerate(pairs):
            suite = list(Suite)[1 + n]
            link = Link(suite, 0x2_0000_0001 if suite.is_extended else 1, "int" if n % 2 else "conf")
            like = {"suite": suite, "key": link.key, "conf": link.conf == "conf"}
            sent = protected(client_frames(3) + client_frames(1, length=30), pn=link.pn, **like)
            (other,) = protected(client_frames(9)[8:], pn=link.pn + 1, **like)
            with self.subTest(first=first, second=second, link=link):
                self.ledger.unlink(missing_ok=True)
                made = self.run_of(first, "monday.pcap", sent, link)
                self.assertEqual((made.status, made.twice, made.seen["new"]), (0, [], 4))
                # The same octets again, also with what a network or a capture adds.
                copies = [sent[3] + bytes(6), with_fcs(sent[2]), vlan(sent[1]), sent[0], *sent]
                made = self.run_of("decrypt", "copies.pcap", copies, link)
                self.assertEqual((made.status, made.twice, made.seen["new"]), (0, [], 0))
                made = self.run_of(second, "tuesday.pcap", [sent[0], other, sent[3]], link)
                earlier = {"capture": str(self.folder / "monday.pcap"), "record": 1, "first record at": DATE}
                key = "key 1" if second == "decrypt" else "key 0"
                named = {"records": [1], "earlier": earlier, "key": key, "sci": SENDER, "pn": link.pn + 1}
                self.assertEqual((made.status, made.twice), (3, [named]))

    def test_what_is_said_of_it(self) -> None:
        sent = protected(client_frames(3))
        (other,), (third,) = (protected(client_frames(n)[n - 1 :], pn=2) for n in (8, 9))
        self.run_of("decrypt", "monday.pcap", sent)
        words = ("--seen", self.ledger, *Link().words())
        text = main_of(decrypt.main, self.put("IN", [sent[0], other]), self.folder / "A", *words)[1]
        where = f"record 1 of {self.folder}/monday.pcap ({DATE})"
        self.assertTrue(text.startswith(f"IV USED TWICE: record 1, and {where}, key 1, SCI {SENDER}, PN 0x2\n"), text)
        self.assertIn("reads the XOR of their data", text)
        self.assertIn("seen: 2 frames, 0 of them new; the ledger has 3 frames of 1 capture\n", text)
        self.assertIn(f"; IV USED TWICE: also in {where}".encode(), (self.folder / "A").read_bytes())
        path = self.put("IN", [other, third, sent[1]])
        text = main_of(decrypt.main, path, self.folder / "B", *words)[1]
        self.assertTrue(text.startswith(f"IV USED TWICE: records 0-2, and {where}, key 1"), text)
        config = self.put("CONFIG", Link().receives())
        page = main_of(report.main, path, "-o", "-", "--config", config, "--seen", self.ledger)[1]
        self.assertIn(f"IV USED TWICE: records 0-2, and {where}, key 0", page)

    def test_several_captures_of_a_report(self) -> None:
        """Each record has the name of its own capture, also one that is explained at the end."""
        sent = protected(client_frames(3))
        fcs = [it[:-4] + bytes(4) for it in map(with_fcs, protected(client_frames(2), pn=5))]
        paths = [self.put("first", sent), self.put("second", fcs), self.put("third", protected(client_frames(2), pn=8))]
        config = self.put("CONFIG", Link().receives())
        main_of(report.main, *paths, "-o", "-", "--config", config, "--seen", self.ledger)
        again = protected(client_frames(9)[7:], pn=5) + protected(client_frames(9)[8:], pn=9)
        made = self.run_of("decrypt", "later", again)
        found = [(os.path.basename(it["earlier"]["capture"]), it["earlier"]["record"]) for it in made.twice]
        self.assertEqual(found, [("second", 0), ("second", 1), ("third", 1)])

    def test_two_ledgers_have_no_digest_in_common(self) -> None:
        digests = []
        for _ in range(2):
            self.ledger.unlink(missing_ok=True)
            self.ledger_with(b"frame of a client" * 9)
            with Ledger(str(self.ledger)) as ledger:
                digests.append(
                    {bytes(it[:8]) for it in ledger._parts if it} | {bytes(it[8:14]) for it in ledger._parts}
                )
            octets = self.ledger.read_bytes()
            self.assertFalse(KEYS[0] in octets or b"frame of" in octets or SALT in octets)
        self.assertEqual(digests[0] & digests[1], {b""})


class Bounds(Case):
    def test_it_forgets_the_earliest_and_says_so(self) -> None:
        frames = protected(client_frames(6))
        (other,) = protected(client_frames(9)[8:], pn=2)
        self.run_of("decrypt", "monday.pcap", frames[:4], Link(), "--seen-limit", 3)
        # The limit stays, and the frame with the packet number 1 is forgotten.
        made = self.run_of("decrypt", "tuesday.pcap", [other, frames[4]])
        self.assertEqual((made.status, len(made.twice)), (3, 1))
        told = {"frames": 2, "new": 1, "kept": 3, "captures": 2, "limit": 3, "forgotten": 2}
        self.assertEqual(made.seen, {**told, "forgotten now": {str(self.folder / "monday.pcap"): 1}})
        made = self.run_of("decrypt", "wednesday.pcap", [other])
        self.assertEqual((made.status, made.twice, made.seen["new"]), (0, [], 1))
        words = (self.put("IN", frames[5:]), "-", *Link().words(), "--seen", self.ledger, "--seen-limit", "1")
        with mock.patch("sys.stdout", mock.Mock(isatty=lambda: False, buffer=open(os.devnull, "wb"))) as out:
            with contextlib.closing(out.buffer), mock.patch("macsec.cli.decrypt.say") as say:
                self.assertEqual(decrypt.main([str(it) for it in words]), 0)
        text = say.call_args[0][0]
        self.assertIn("the ledger has 1 frame of 1 capture\n", text)
        names = ", ".join(f"1 of {self.folder}/{it}.pcap" for it in ("monday", "tuesday", "wednesday"))
        self.assertIn(f"seen: the ledger has forgotten 6 frames, now {names}: its limit is 1 frame\n", text)

    def test_memory_is_bounded_within_a_run(self) -> None:
        with mock.patch("macsec.ledger._SLACK", 8), Ledger(str(self.ledger), 16) as ledger:
            packets = [Packet(it, START, b"", 0) for it in range(500)]
            for it in ledger.reading("long", packets):
                ledger.add(it.number, KEYS[0], it.number.to_bytes(12, "big"), b"frame", False)
                self.assertLessEqual(sum(map(len, ledger._parts)) // _ENTRY, 16 + 8)
            self.assertEqual((ledger.as_dict()["seen"]["kept"], ledger.forgotten), (16, 484))  # type: ignore[index]


class File(Case):
    def test_only_its_owner_reads_it(self) -> None:
        self.ledger_with(b"one")
        self.ledger.chmod(0o666)
        self.ledger_with(b"one", b"two")
        self.assertEqual(stat.S_IMODE(self.ledger.stat().st_mode), 0o600)

    def test_damage_is_refused_by_name(self) -> None:
        self.ledger_with(*[bytes([it]) for it in range(40)])
        good = self.ledger.read_bytes()
        altered = [good[:at] + bytes([good[at] ^ 1 << at % 8]) + good[at + 1 :] for at in range(0, len(good), 23)]
        texts = [*altered, *(good[:at] for at in range(1, len(good), 211)), good + b"\0", b"", b"\xd4\xc3\xb2\xa1"]
        path, out = self.put("IN", protected(client_frames(2))), self.folder / "OUT"
        for text in texts:
            self.ledger.write_bytes(text)
            told = main_of(decrypt.main, path, out, *Link().words(), "--seen", self.ledger)
            self.assertEqual(told[:2], (1, ""))
            self.assertRegex(told[2], f"^macsec-decrypt: {self.ledger}: (this is no ledger|the ledger is damaged)")
            self.assertEqual(self.ledger.read_bytes(), text)
        self.assertEqual(self.names(), ["IN", "ledger"])
        self.ledger.write_bytes(good)
        self.assertEqual(self.ledger_with(b"\0"), [None])

    def test_other_files_and_limits(self) -> None:
        path = self.put("IN", protected(client_frames(1)))
        for words, status, text in (
            (("--seen", self.folder), 1, f"{self.folder}: this is no file"),
            (("--seen", "/nonexist/ledger"), 1, "/nonexist/ledger: No such file or directory"),
            (("--seen-limit", 3), 2, "--seen-limit is for a ledger: name it by --seen"),
            (("--seen", self.ledger, "--seen-limit", 0), 2, "error: argument --seen-limit: invalid number value: '0'"),
        ):
            told = main_of(decrypt.main, path, self.folder / "OUT", *Link().words(), *words)
            self.assertEqual((told[0], told[2].splitlines()[-1]), (status, f"macsec-decrypt: {text}"))

    def test_one_command_at_a_time(self) -> None:
        path, out = self.put("IN", protected(client_frames(1))), self.folder / "OUT"
        with Ledger(str(self.ledger)):
            told = main_of(decrypt.main, path, out, *Link().words(), "--seen", self.ledger)
        self.assertEqual(told, (1, "", f"macsec-decrypt: {self.ledger}: another command has this ledger\n"))

    def test_kills_leave_the_old_one_or_the_new_one(self) -> None:
        """A process that is killed before or after each system call of `save`."""
        for call in ("os.fsync", "os.replace"):
            for is_done in (False, True):
                self.ledger.unlink(missing_ok=True)
                self.ledger_with(b"old")
                child = os.fork()
                if not child:
                    self.kill_at(call, is_done)
                self.assertEqual(os.waitpid(child, 0)[1], signal.SIGKILL)
                with self.subTest(call, is_done=is_done), Ledger(str(self.ledger)) as ledger:
                    self.assertEqual(ledger.kept, 2 if is_done and call == "os.replace" else 1)
        before = self.names()
        with mock.patch("os.replace", side_effect=OSError(28, "No space left on device")):
            self.assertRaises(OSError, self.ledger_with, b"old", b"new", b"newer")
        self.assertEqual(self.names(), before)
        self.assertEqual(self.ledger_with(b"old", b"new", b"newer"), [None, None, None])

    def kill_at(self, call: str, is_done: bool) -> None:
        """Ends this process before or after a call of `save`."""
        real = getattr(os, call.split(".")[1])

        def killed(*words: Any, **more: Any) -> None:
            if is_done:
                real(*words, **more)
            os.kill(os.getpid(), signal.SIGKILL)

        with mock.patch(call, killed):
            self.ledger_with(b"old", b"new")
        os._exit(0)

    def test_a_command_that_is_ended_keeps_what_it_saw(self) -> None:
        frames = protected(client_frames(5))
        calls = iter(range(5))

        def ended(*_: object) -> None:
            if next(calls) == 3:
                os.kill(os.getpid(), signal.SIGINT)

        with mock.patch.object(capture.PcapngFile, "write", side_effect=ended), mock.patch("macsec.cli._end_by"):
            main_of(
                decrypt.main, self.put("IN", frames), self.folder / "OUT", *Link().words(), "--seen", self.ledger
            )  # fmt: skip
        with Ledger(str(self.ledger)) as ledger:
            self.assertEqual(ledger.kept, 4)
        self.assertNotIn("OUT", self.names())
        self.assertRaises(CaptureError, Ledger, str(self.folder / "IN"))
