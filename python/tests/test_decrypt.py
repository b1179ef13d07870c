"""macsec-decrypt: both directions, rekeys, VLAN tags, check sequences, files."""

from __future__ import annotations

import gzip
import json
import os
import shutil
import subprocess
import sys
import unittest
from collections.abc import Iterator
from types import FrameType

from macsec import Suite, capture
from macsec.cli.decrypt import main

from .frames import altered, client_frames, protected, vlan, with_fcs
from .helpers import CAPTURES, DATA, KEYS, LONG_KEY, OTHER, SALT, SENDER, START, InFolder, main_of

# The most calls of functions that macsec-decrypt may make for a frame. Under Python 3.11 it makes 47.
MOST_CALLS = 60


def mixed(*parts: list[bytes]) -> Iterator[bytes]:
    """Frames of several senders, one of each after another."""
    for several in zip(*parts):
        yield from several


class Opening(InFolder):
    def opened(self, frames: object, *words: object, status: int = 0) -> list[bytes]:
        """The frames of OUT, for some frames or a capture file."""
        path = frames if isinstance(frames, (str, os.PathLike)) else self.put("IN", frames)
        out = self.folder / "OUT"
        out.unlink(missing_ok=True)
        ended, self.text, error = main_of(main, path, out, *words)
        self.assertEqual((ended, error), (status, ""), self.text)
        self.packets = list(capture.read(str(out)))
        return [it.frame for it in self.packets]

    def keys(self, *which: int) -> list[str]:
        return [word for it in which for word in ("--key", KEYS[it].hex())]


class Decrypt(Opening):
    def test_both_directions(self) -> None:
        one, two = client_frames(5), client_frames(5, OTHER)
        link = mixed(protected(one), protected(two, sci=OTHER, key=KEYS[1]))
        self.assertEqual(self.opened(list(link), *self.keys(0, 1)), list(mixed(one, two)))

    def test_four_rekeys_that_return_to_an_association_number(self) -> None:
        frames = client_frames(20)
        link = [it for n in range(5) for it in protected(frames[4 * n : 4 * n + 4], key=KEYS[n], an=n % 4)]
        # A frame of the first key comes after the first one of the second.
        link[3], link[4] = link[4], link[3]
        frames[3], frames[4] = frames[4], frames[3]
        self.assertEqual(self.opened(link, *self.keys(4, 2, 0, 1, 3)), frames)
        self.assertEqual(self.text.count("under"), 5)

    def test_the_old_key_of_an_association_number_still_opens(self) -> None:
        frames = client_frames(6)
        link = protected(frames[:3]) + protected(frames[3:], key=KEYS[1])
        link[2], link[3] = link[3], link[2]
        self.assertEqual(self.opened(link, *self.keys(0, 1)), frames[:2] + [frames[3], frames[2]] + frames[4:])

    def test_suites_offsets_and_forms(self) -> None:
        frames = client_frames(3)
        for how in (
            {"suite": Suite.gcm256, "key": LONG_KEY}, {"offset": 30}, {"offset": 50}, {"conf": False}, {"form": "auto"},
            {"form": "es"}, {"form": "scb", "sci": "0200000000010000"}, {"form": "auto", "sci": "0200000000010002"},
            {"suite": Suite.xpn128}, {"suite": Suite.xpn256, "key": LONG_KEY, "ssci": 5, "pn": 0x77_0000_0001},
            {"suite": Suite.xpn128, "pn": 0xFFFF_FFFE}, {"suite": Suite.xpn128, "form": "auto", "ssci": 1 << 24},
        ):  # fmt: skip
            key = how.get("key", KEYS[0]).hex()  # type: ignore[union-attr]
            suite = Suite(how.get("suite", 1))  # type: ignore[arg-type]
            extended = f":{SALT.hex()}" if suite.is_extended else ""
            with self.subTest(how=how):
                self.assertEqual(self.opened(protected(frames, **how), "--key", key + extended), frames)

    def test_an_sci_that_nothing_says_is_marked(self) -> None:
        """Tags without an SCI: the IV has it, but not under an extended suite, nor if the frame stays closed."""
        frames = [it[:6] + bytes([2, 0, 0, 0, 9, n]) + it[12:] for n, it in enumerate(client_frames(9))]
        for how, key, form in (
            ({"form": "auto", "sci": "0200000009000001"}, KEYS[0].hex(), "0200000009000001"),
            ({"form": "auto", "suite": Suite.xpn128}, f"{KEYS[0].hex()}:{SALT.hex()}", "(0200000009000001)"),
            ({"form": "auto"}, KEYS[1].hex(), "(0200000009000001)"),
            ({"form": "sci"}, KEYS[1].hex(), SENDER),
        ):  # fmt: skip
            with self.subTest(how=how, key=key):
                is_opened = key != KEYS[1].hex()
                link = protected(frames[:1] if how.get("sci") else frames, **how)
                self.opened(link, "--key", key, "--json", status=0 if is_opened else 3)
                self.assertEqual(json.loads(self.text.splitlines()[0])["sci"], form)
                self.opened(link, "--key", key, status=0 if is_opened else 3)
                # A sender behind a bridge has frames of many addresses, and is one sender.
                self.assertEqual(self.text.count("under"), int(is_opened))

    def test_extended_numbers_are_shown_whole(self) -> None:
        link = protected(client_frames(4), suite=Suite.xpn128, pn=0x2_FFFF_FFFE)
        self.opened(link, "--json", "--key", f"{KEYS[0].hex()}:{SALT.hex()}")
        self.assertEqual([json.loads(it)["pn"] for it in self.text.splitlines()], [0x2_FFFF_FFFE + n for n in range(4)])

    def test_vlan_tags_are_put_back(self) -> None:
        (frame,), (link,) = client_frames(1), protected(client_frames(1))
        for tags in ("81000064", "88a8000a81000064"):
            self.assertEqual(self.opened([vlan(link, tags)], *self.keys(0)), [vlan(frame, tags)])

    def test_check_sequences_are_cut_off(self) -> None:
        frames = client_frames(2, length=30) + client_frames(2)
        link = protected(frames)
        self.assertEqual(self.opened(map(with_fcs, link), *self.keys(0)), frames)
        self.assertEqual(self.opened([it + b"\xde\xad\xbe\xef" for it in link], *self.keys(0)), frames)
        plain = client_frames(1)[0]
        self.assertEqual(self.opened([with_fcs(plain)], *self.keys(0)), [plain])

    def test_what_is_not_opened_is_kept(self) -> None:
        link = protected(client_frames(3)) + protected(client_frames(1), key=KEYS[1])
        link[1] = altered(link[1])
        opened = self.opened([*link, bytes(60)], *self.keys(0), status=3)
        self.assertEqual(opened, [client_frames(1)[0], link[1], client_frames(3)[2], link[3], bytes(60)])
        self.assertIn("2 frames opened; 2 frames not opened; 1 frame not protected", self.text)
        self.assertEqual(len(self.opened(link, *self.keys(0), "--only-opened", status=3)), 2)

    def test_repeats_are_opened(self) -> None:
        link = protected(client_frames(3))
        self.assertEqual(self.opened(link + link[:1], *self.keys(0)), client_frames(3) + client_frames(1))

    def test_whose_key(self) -> None:
        frames = client_frames(2)
        link = protected(frames)
        self.assertEqual(self.opened(link, "--key", f"{OTHER}={KEYS[0].hex()}", status=3), link)
        self.assertEqual(self.opened(link, "--key", f"0200000000010001/0={KEYS[0].hex()}"), frames)
        self.assertEqual(self.opened(link, "--key", f"/1={KEYS[0].hex()}", status=3), link)
        keys = self.put("KEYS", f"# two keys\n\n{KEYS[1].hex()}\n/0={KEYS[0].hex()}\n")
        self.assertEqual(self.opened(link, "--keys", keys), frames)

    def test_a_log_of_wpa_supplicant(self) -> None:
        spaced = [it.hex(" ") for it in KEYS[:2]]
        log = (
            f"KaY: generated new SAK - hexdump(len=16): {spaced[0]}\n\tDistributed AN........: 0\n"
            "MKA Distributed SAK parameter set\n\tDistributed AN........: 1\n\tConfidentiality Offset: 1\n"
            f"\tAES Key Unwrap of SAK.: - hexdump(len=16): {spaced[1]}\n"
        )
        frames = client_frames(4)
        link = protected(frames[:2]) + protected(frames[2:], key=KEYS[1], an=1)
        self.assertEqual(self.opened(link, "--wpa", self.put("LOG", log)), frames)
        hidden = self.put("HIDDEN", "KaY: generated new SAK - hexdump(len=16): [REMOVED]\n")
        status, _, error = main_of(main, self.put("IN", link), self.folder / "OTHER", "--wpa", hidden)
        self.assertEqual(status, 2)
        self.assertIn("-dK", error)


class Linux(Opening):
    """A link of Linux 6.1 whose five keys wpa_supplicant 2.10 agreed on; the fifth returns to association number 0."""

    def test_key_agreement(self) -> None:
        for log in ("mka-server.log", "mka-peers.log"):
            opened = self.opened(DATA / "mka.pcap", "--wpa", DATA / log)
            self.assertEqual(self.text.count("under"), 5)
            # The client sent frames with the numbers of their run and of their place in it.
            self.assertEqual([it[14:16] for it in opened], [bytes([run, n]) for run in range(5) for n in range(6)])
            self.assertEqual({len(set(zip(it[14::2], it[15::2]))) for it in opened}, {1})


class Files(Opening):
    def test_formats(self) -> None:
        frames = client_frames(3)
        path = self.put("IN", protected(frames))
        for made in (path, self.put("IN.gz", gzip.compress((self.folder / "IN").read_bytes()))):
            self.assertEqual(self.opened(made, *self.keys(0)), frames)
        self.assertEqual([it.time for it in self.packets], [START + n * 10**6 for n in range(3)])
        again = self.put("again", (self.folder / "OUT").read_bytes())
        self.assertEqual(self.opened(again, *self.keys(0)), frames)

    def test_out_is_a_new_file_that_appears_when_it_is_complete(self) -> None:
        link = protected(client_frames(2))
        out = self.put("OUT", "yesterday's")
        path = self.put("IN", link)
        self.assertEqual(main_of(main, path, out, *self.keys(0))[0], 1)
        self.assertEqual((self.folder / "OUT").read_text(), "yesterday's")
        self.assertEqual(main_of(main, path, path, *self.keys(0))[0], 1)
        os.unlink(out)
        cut = self.put("CUT", (self.folder / "IN").read_bytes()[:-1])
        status, _, error = main_of(main, cut, out, *self.keys(0))
        self.assertEqual((status, self.names()), (1, ["CUT", "IN", "OUT"]))
        self.assertIn("record 1", error)
        os.unlink(out)
        self.assertEqual(main_of(main, "/nowhere/IN", out, *self.keys(0))[0], 1)
        self.assertEqual(main_of(main, path, out)[0], 2)
        self.assertEqual(main_of(main, path, out, "--key", "00")[0], 2)
        self.assertEqual(self.names(), ["CUT", "IN"])
        self.assertEqual(main_of(main, path, out, *self.keys(0))[0], 0)
        self.assertEqual(os.stat(out).st_mode & 0o777, 0o600)
        self.assertEqual(self.names(), ["CUT", "IN", "OUT"])

    def test_other_records(self) -> None:
        """Records that are not whole, or not Ethernet, are kept."""
        writer = capture.PcapngFile(str(self.folder / "IN"))
        (link,) = protected(client_frames(1))
        writer.write(START, link[:40], len(link))
        writer.write(START, b"other", 5, link_type=113)
        writer.write(START, link, len(link), "a comment")
        writer.close()
        opened = self.opened(self.folder / "IN", *self.keys(0), status=3)
        self.assertEqual(opened, [link[:40], b"other", *client_frames(1)])
        self.assertEqual([it.link_type for it in self.packets], [1, 113, 1])
        self.assertEqual(self.packets[0].length, len(link))

    def test_examples(self) -> None:
        self.opened(CAPTURES / "rekey.pcap", *self.keys(0, 1, 2))
        for name in ("observed", "linux", "no-sci", "fcs", "vlan"):
            self.opened(CAPTURES / f"{name}.pcap", *self.keys(0))
        clients = [it.frame for it in capture.read(str(CAPTURES / "client.pcap"))]
        self.assertEqual(self.opened(CAPTURES / "link.pcap", *self.keys(0)), clients)

    @unittest.skipIf(shutil.which("tshark") is None, "tshark is not installed")
    def test_tshark_reads_it(self) -> None:
        self.opened(CAPTURES / "observed.pcap", *self.keys(0))
        fields = "-T fields -e frame.time_epoch -e icmp.seq -e frame.comment".split()
        words = ["tshark", "-r", str(self.folder / "OUT"), *fields]
        shown = subprocess.run(words, capture_output=True, text=True, check=True).stdout.splitlines()
        self.assertEqual(shown[2], "1700000000.001000000\t1\tmacsec: OK, SCI 0200000000010001, AN 0, PN 0x1f5, key 1")
        self.assertEqual(shown[5].split("\t")[2], "macsec: not protected")


class Calls(Opening):
    def calls(self, count: int) -> int:
        """How many calls macsec-decrypt makes for a capture of so many frames."""
        path, out, made = self.put("IN", protected(client_frames(count))), self.folder / "OUT", 0
        out.unlink(missing_ok=True)

        def note(_frame: FrameType, event: str, _what: object) -> None:
            nonlocal made
            made += event in ("call", "c_call")

        sys.setprofile(note)
        try:
            ended, _, _ = main_of(main, path, out, *self.keys(0))
        finally:
            sys.setprofile(None)
        self.assertEqual(ended, 0)
        return made

    def test_few_calls_are_made_for_a_frame(self) -> None:
        """Calls take nearly all of its time, and their number is the same in each run."""
        self.calls(1)  # some calls are made once in a process
        self.assertLess((self.calls(250) - self.calls(50)) / 200, MOST_CALLS)
