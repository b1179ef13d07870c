"""An IV that frames with other octets use under one key is named by macsec-why and macsec-decrypt, and nothing else."""

from __future__ import annotations

import itertools
import json
import os
import subprocess
import tracemalloc
import unittest
from array import array
from collections.abc import Sequence
from typing import NamedTuple
from unittest import mock

from macsec import Suite, capture
from macsec.cli import decrypt, why
from macsec.explanation import Unopened
from macsec.frames import read_tag
from macsec.ivs import UsedIvs, lines_of
from macsec.settings import Setting
from macsec.summary import Summary
from macsec.trial import Key

from .frames import altered, client_frames, protected, vlan, with_fcs
from .helpers import KEYS, LONG_KEY, OTHER, RECEIVER, SALT, SENDER, InFolder, main_of


class Link(NamedTuple):
    """What two ends agree on."""

    suite: Suite = Suite.gcm128
    pn: int = 1
    conf: str = "conf"

    @property
    def key(self) -> bytes:
        return KEYS[0] if self.suite.key_octets == 16 else LONG_KEY

    @property
    def key_line(self) -> str:
        return f"A key 0 {self.key.hex()} 0" + (f" 00000001 {SALT.hex()}" if self.suite.is_extended else "")

    def sends(self) -> str:
        end = f"end A {self.suite.name} {SENDER} 1546 sci"
        return f"{end}\n{self.key_line}\nA txsa 0 0 {self.pn:x} {self.conf}\nA txon 0\n"

    def receives(self, replay: str = "off", more: str = "") -> str:
        """A CONFIG of the receiver, whose SSCI is another one."""
        key, ssci = (self.key_line.replace(" 00000001 ", " 00000009 "), " 00000001" if self.suite.is_extended else "")
        lowest = f"{self.pn >> 32:x}00000001" if self.pn >> 32 else "1"
        return "\n".join([
            f"end A {self.suite.name} {RECEIVER} 1546 sci", f"A replay {replay} 0", key, f"A rxsc {SENDER}",
            f"A rxsa {SENDER} 0 0 {lowest}{ssci}", f"A rxon {SENDER} 0", more,
        ])  # fmt: skip

    def words(self) -> list[str]:
        """The key for macsec-decrypt."""
        return ["--key", self.key.hex() + (f":{SALT.hex()}" if self.suite.is_extended else "")]


class Case(InFolder):
    def used_twice(self, out: str) -> list[tuple[list[int], str, str, int]]:
        """What the lines of JSON name. Those objects are the first."""
        objects = [json.loads(it) for it in out.splitlines()]
        count = len(list(itertools.takewhile(lambda it: "iv used twice" in it, objects)))
        self.assertFalse([it for it in objects[count:] if "iv used twice" in it])
        twice = (each["iv used twice"] for each in objects[:count])
        return [(it["records"], it["key"], it["sci"], it["pn"]) for it in twice]

    def why(self, text: str, frames: Sequence[bytes], *words: str) -> tuple[int, str]:
        """The status and the text of macsec-why."""
        status, out, error = main_of(why.main, self.put("CONFIG", text), self.put("IN", frames), *words)
        self.assertEqual(error, "")
        return status, out

    def decrypt(self, frames: Sequence[bytes], *words: str) -> tuple[int, str]:
        """The status and the text of macsec-decrypt. `comments` are the comments of OUT."""
        out = self.folder / "OUT"
        out.unlink(missing_ok=True)
        status, text, error = main_of(decrypt.main, self.put("IN", frames), out, *words)
        self.assertEqual((error, self.names().count("OUT")), ("", 1))
        self.assertFalse([it for it in self.names() if it.startswith(".")])
        octets = out.read_bytes()
        self.comments = [it.split(b"\0")[0].decode() for it in octets.split(b"macsec: ")[1:]]
        self.assertEqual(len(self.comments), len(list(capture.read(str(out)))))
        return status, text

    def named(
        self, link: Link, frames: Sequence[bytes], expected: dict[int, list[int]], replay: str = "off", status: int = 0
    ) -> None:
        """Both commands say that these records use these packet numbers. `status` is macsec-why's for other reasons."""
        both = {"key 0": self.why(link.receives(replay), frames, "--json")}
        both["key 1"] = self.decrypt(frames, "--json", *link.words())
        for key, (ended, out) in both.items():
            rows = [(records, key, SENDER, pn) for pn, records in expected.items()]
            self.assertEqual(self.used_twice(out), rows)
            self.assertEqual(ended, 3 if expected else status if key == "key 0" else 0)
        used = {record: records for records in expected.values() for record in records}
        shown = {it["record"]: it.get("iv_also_in") for it in map(json.loads, out.splitlines()) if "record" in it}
        for record, comment in enumerate(self.comments):
            self.assertEqual("IV USED TWICE" in comment, record in used, comment)
            if record in used:
                self.assertIn(shown[record], used[record])
                self.assertNotEqual(shown[record], record)
                self.assertIn(f"also in record {shown[record]}", comment)
            else:
                self.assertIsNone(shown[record])


class Runs(Case):
    """Runs of the program with one CONFIG, joined in one capture."""

    def sent(self, link: Link, frames: Sequence[bytes]) -> list[bytes]:
        """What the program sends for client frames."""
        out = self.folder / "LINK"
        words = [os.environ["MACSEC_PROGRAM"], "protect", self.put("SENDER", link.sends()), self.put("CLIENT", frames)]
        text = subprocess.run([*words, str(out)], stdout=subprocess.PIPE, text=True, check=True).stdout
        self.assertNotIn("refused", text)
        return [it.frame for it in capture.read(str(out))]

    @unittest.skipUnless(os.environ.get("MACSEC_PROGRAM"), "the program is not built")
    def test_two_runs(self) -> None:
        first = client_frames(4)
        # Frames 1 and 3 differ, the last in one octet.
        second = [first[0], first[1][::-1][:60], first[2], first[3][:-1] + b"\xff"]
        second[1] = first[1][:14] + second[1][14:]
        for suite, conf in itertools.product([it for it in Suite if it], ("conf", "int")):
            pns = (1, 0xFFFF_FFFC) if not suite.is_extended else (1, 0x2_0000_0009, 0x2_FFFF_FFFE)
            for pn in pns:
                link = Link(suite, pn, conf)
                frames = self.sent(link, first) + self.sent(link, second)
                expected = {pn + 1: [1, 5], pn + 3: [3, 7]}
                for replay in ("off", "on"):
                    with self.subTest(link=link, replay=replay):
                        self.named(link, frames, expected, replay)

    @unittest.skipUnless(os.environ.get("MACSEC_PROGRAM"), "the program is not built")
    def test_the_text_begins_with_it(self) -> None:
        link, first = Link(), client_frames(2)
        frames = self.sent(link, first) + self.sent(link, first[:1] + [first[1] + b"more"])
        for key, (status, out) in {
            "key 0": self.why(link.receives(), frames), "key 1": self.decrypt(frames, *link.words()),
        }.items():  # fmt: skip
            self.assertEqual(status, 3)
            line, lost = out.splitlines()[:2]
            self.assertEqual(line, f"IV USED TWICE: records 1 and 3, {key}, SCI {SENDER}, PN 0x2")
            self.assertIn("reads the XOR of their data, and can forge frames", lost)
            self.assertIn("two senders have one SCI", lost)
            self.assertNotIn("rekey", out)
            self.assertNotIn(KEYS[0].hex(), out)

    @unittest.skipUnless(os.environ.get("MACSEC_PROGRAM"), "the program is not built")
    def test_the_same_run_again_repeats_its_frames(self) -> None:
        for link in (Link(), Link(conf="int"), Link(Suite.xpn256, 0x7_FFFF_FFFF)):
            frames = self.sent(link, client_frames(3))
            # macsec-why says of the extended one that it opens as the first frame: the upper half went on.
            status = 3 if link.suite.is_extended else 0
            self.named(link, frames + self.sent(link, client_frames(3)), {}, status=status)

    def test_a_version_that_does_not_compare_octets_is_noticed(self) -> None:
        numbers = itertools.count()
        frames = protected(client_frames(3))
        with mock.patch("macsec.ivs._digest", side_effect=lambda *_: next(numbers)):
            self.assertRaises(AssertionError, self.named, Link(), frames + frames[1:2], {})
        with mock.patch("macsec.ivs._digest", return_value=0):
            other = frames + protected(client_frames(4)[3:], pn=2)
            self.assertRaises(AssertionError, self.named, Link(), other, {2: [1, 3]})
        self.named(Link(), other, {2: [1, 3]})
        self.named(Link(), frames + frames[1:2], {})


class Memory(unittest.TestCase):
    def octets_of_a_frame(self, step: int) -> float:
        """What macsec-why keeps of a frame, of many whose packet numbers have such a distance."""
        key, sci, count = Key(KEYS[0], Suite.gcm128), bytes.fromhex(SENDER), 4096
        used, seen, unopened, ivs = UsedIvs(), Summary(), Unopened(), why.Ivs.__new__(why.Ivs)
        ivs.keys, ivs.names, ivs._used, ivs._only = array("I"), [], used, None
        tracemalloc.start()
        for record in range(count):
            frame = bytes(12) + b"\x88\xe5\x2c\0" + (record * step).to_bytes(4, "big") + sci + bytes(40)
            tag = read_tag(frame)
            assert tag is not None
            ivs.add(record, Setting(key, sci, 0), tag.pn, frame, tag)
            unopened.add_opened(seen.add(record, frame, "OK"), record, frame)
        kept, _ = tracemalloc.get_traced_memory()
        tracemalloc.stop()
        return kept / count

    def test_little_is_kept_of_a_frame(self) -> None:
        self.assertLess(self.octets_of_a_frame(1), 150)
        # Numbers that do not follow each other take more.
        self.assertGreater(self.octets_of_a_frame(8), 300)


class Frames(Case):
    def setUp(self) -> None:
        super().setUp()
        self.first = protected(client_frames(4))
        # Another frame with the packet number 2.
        (self.again,) = protected(client_frames(9)[8:], pn=2)

    def test_three_frames_and_a_repeat(self) -> None:
        (third,) = protected(client_frames(8)[7:], pn=2)
        frames = [*self.first, self.again, third, self.again]
        for words, key in ((("--json",), "key 0"), ((), "key 1")):
            by_key = self.decrypt(frames, "--json", *Link().words()) if not words else None
            _, out = by_key or self.why(Link().receives(), frames, *words)
            self.assertEqual(self.used_twice(out), [([1, 4, 5], key, SENDER, 2)])
        self.assertIn("IV USED TWICE", self.comments[6])
        self.assertIn("records 1, 4-5, key 0", self.why(Link().receives(), frames)[1])

    def test_what_is_around_a_frame_does_not_count(self) -> None:
        short = protected(client_frames(1, length=30))
        for each in (vlan(self.first[1]), with_fcs(self.first[2])):
            self.named(Link(), [*self.first, each], {}, status=3)
        self.named(Link(), [short[0], short[0] + bytes(6)], {})

    def test_frames_with_a_vlan_tag_or_a_check_sequence(self) -> None:
        for each in (vlan(self.again), with_fcs(self.again)):
            self.named(Link(), [*self.first, each], {2: [1, 4]})

    def test_a_late_frame_that_does_not_open(self) -> None:
        status, out = self.why(Link().receives("on"), [*self.first, altered(self.again)], "--json")
        self.assertEqual((status, self.used_twice(out)), (3, []))

    def test_late_frames_that_are_not_checked(self) -> None:
        """With `validate disabled` a late frame is Delayed whatever its ICV is."""
        first, again = (protected(client_frames(9)[it : it + 1], pn=2, conf=False)[0] for it in (1, 8))
        text = Link().receives(more="A validate disabled").replace(" 0 0 1", " 0 0 7")
        for other, expected in ((again, [([0, 1], "key 0", SENDER, 2)]), (altered(again), [])):
            status, out = self.why(text, [first, other], "--json")
            self.assertEqual((status, self.used_twice(out)), (3 if expected else 0, expected))
            self.assertIn('"verdicts": {"Delayed": 2}', out)

    def test_one_record(self) -> None:
        frames = [*self.first, self.again, self.again]
        for record, expected in ((1, 0), (3, 0), (4, 3), (5, 3)):
            status, out = self.why(Link().receives(), frames, str(record))
            self.assertEqual((status, out.startswith("IV USED TWICE: records 1 and 4")), (expected, expected == 3))

    def test_another_association_with_the_same_key(self) -> None:
        """The association number is no part of the IV, but the SCI is."""
        frames = [*self.first, *protected(client_frames(2), an=1)]
        status, out = self.decrypt(frames, "--json", *Link().words())
        rows = [([it, it + 4], "key 1", SENDER, it + 1) for it in range(2)]
        self.assertEqual((status, self.used_twice(out)), (3, rows))
        more = f"A rxsa {SENDER} 1 0 1\nA rxon {SENDER} 1"
        self.assertEqual(len(self.used_twice(self.why(Link().receives(more=more), frames, "--json")[1])), 2)
        status, out = self.decrypt([*self.first, *protected(client_frames(2), sci=OTHER)], "--json", *Link().words())
        self.assertEqual((status, self.used_twice(out)), (0, []))

    def test_packet_numbers_that_differ_in_the_upper_half(self) -> None:
        link = Link(Suite.xpn128, 0x1_0000_0005)
        frames = [it for n in (1, 2) for it in protected(client_frames(n)[n - 1 :], suite=link.suite, pn=n << 32 | 5)]
        self.named(link, frames, {}, status=3)
        self.assertIn("0 missing, 0 repeated: OK 1, NotValid 1", self.why(link.receives(), frames)[1])

    def test_two_senders_with_one_ssci(self) -> None:
        suite = {"suite": Suite.xpn128, "ssci": 1}
        for ssci, count in ((1, 2), (2, 0)):
            other = protected(client_frames(2, OTHER), sci=OTHER, **{**suite, "ssci": ssci})
            frames = protected(client_frames(2), **suite) + other
            status, out = self.decrypt(frames, "--json", *Link(Suite.xpn128).words())
            rows = [([it, it + 2], "key 1", f"{SENDER} and {OTHER}", it + 1) for it in range(count)]
            self.assertEqual((status, self.used_twice(out)), (3 if count else 0, rows))
            told = self.decrypt(frames, *Link(Suite.xpn128).words())[1]
            self.assertEqual("Stop using it: two senders have one SSCI\n" in told, count > 0)

    def test_what_is_lost_by_integrity_alone(self) -> None:
        """Nothing is secret, but frames can be forged."""
        frames = protected(client_frames(2), conf=False) + protected(client_frames(3)[2:], pn=2, conf=False)
        told = self.decrypt(frames, *Link().words())[1]
        self.assertIn("\n  whoever has both frames can forge frames under the key. Stop using it", told)


class Rekeys(Case):
    def test_a_rekey(self) -> None:
        frames = protected(client_frames(3)) + protected(client_frames(3), key=KEYS[1])
        more = f"A key 1 {KEYS[1].hex()} 0"
        status, out = self.why(Link().receives(more=more), frames)
        self.assertEqual(status, 3)
        self.assertIn("a number again under another key in record 3-5: a rekey", out)
        self.assertNotIn("IV", out)
        status, out = self.decrypt(frames, *Link().words(), "--key", KEYS[1].hex())
        self.assertEqual((status, "IV" in out), (0, False))

    def test_a_key_that_is_not_given(self) -> None:
        """Nobody knows whether the keys differ."""
        frames = protected(client_frames(3)) + protected(client_frames(3), key=KEYS[1])
        status, out = self.why(Link().receives(), frames)
        self.assertEqual(status, 3)
        self.assertIn("a number again with other octets in record 3-5", out)
        self.assertNotIn("rekey", out)

    def test_an_iv_used_twice_after_a_rekey(self) -> None:
        first, other = client_frames(6)[:3], client_frames(6)[3:]
        frames = protected(first) + protected(first, key=KEYS[1]) + protected(other, key=KEYS[1]) + protected(other)
        more = f"A key 1 {KEYS[1].hex()} 0"
        expected = [([it, it + 9], 0, it + 1) for it in range(3)] + [([it + 3, it + 6], 1, it + 1) for it in range(3)]
        made = self.why(Link().receives(more=more), frames, "--json")
        rows = [(records, f"key {key}", SENDER, pn) for records, key, pn in expected]
        self.assertEqual((made[0], self.used_twice(made[1])), (3, rows))
        made = self.decrypt(frames, "--json", *Link().words(), "--key", KEYS[1].hex())
        rows = [(records, f"key {key + 1}", SENDER, pn) for records, key, pn in expected]
        self.assertEqual((made[0], self.used_twice(made[1])), (3, rows))

    def test_many_rekeys_of_a_capture(self) -> None:
        """And the first key once more."""
        keys = [number.to_bytes(16, "big") for number in range(1, 61)]
        frames = [it for key in keys for it in protected(client_frames(1), key=key)]
        listed = self.put("KEYS", "".join(f"{it.hex()}\n" for it in keys))
        status, out = self.decrypt(frames, "--keys", listed, "--offset", "0")
        self.assertEqual((status, "IV" in out, out.count("under")), (0, False, 60))
        frames += protected(client_frames(2)[1:], key=keys[0])
        status, out = self.decrypt(frames, "--keys", listed, "--offset", "0", "--json")
        self.assertEqual((status, self.used_twice(out)), (3, [([0, 60], "key 1", SENDER, 1)]))


class Many(Case):
    def test_thousands_of_frames(self) -> None:
        count = 3_000
        first = protected([it + bytes(2) for it in client_frames(250) * 12])
        again = protected([it + bytes(3) for it in client_frames(250) * 12])
        frames = first + again
        self.named(Link(), frames, {it + 1: [it, it + count] for it in range(count)}, "on")
        lines = self.why(Link().receives(), frames)[1].splitlines()
        self.assertEqual(lines[7], f"IV USED TWICE: records 7 and 3007, key 0, SCI {SENDER}, PN 0x8")
        self.assertEqual(lines[8], "IV USED TWICE: 2992 more, records 8-2999, 3008-5999")
        self.assertTrue(lines[9].startswith("  whoever has both frames"))
        self.assertEqual(lines_of([]), [])
