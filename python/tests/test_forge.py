"""Frames for tests: what is sealed, which verdict each frame gets, and the command."""

from __future__ import annotations

import json
import os
import re
import subprocess
import unittest
from typing import Any, Callable

import macsec
from macsec import SecY, Suite, Verdict, capture, device_trial, hostile, random_frames, script_frames, seal
from macsec.cli import forge
from macsec.names import SUITES
from macsec.number_file import NumberFile

from .frames import altered, client_frames, protected
from .helpers import KEYS, LONG_KEY, RECEIVER, ROOT, SALT, SENDER, InFolder, main_of

SCI = bytes.fromhex(SENDER)
CONFIG = (
    f"end A gcm128 {RECEIVER} 1546 sci\nA key 0 {KEYS[0].hex()} 0\n"
    f"A rxsc {SENDER}\nA rxsa {SENDER} 0 0 5\nA rxon {SENDER} 0\n"
)


def source(suite: Suite = Suite.gcm128, pn: int = 5, offset: int = 0) -> hostile.Source:
    key = LONG_KEY if suite.key_octets == 32 else KEYS[0]
    extended = (1, SALT) if suite.is_extended else (0, bytes(12))
    return hostile.Source(key, suite, SCI, 0, pn, offset, *extended)


def verdicts(of: hostile.Source, key: bytes | None = None) -> dict[str, tuple[Verdict, Verdict]]:
    """The verdict of an endpoint on each frame of the list, and the one that the list names."""
    with SecY(RECEIVER, of.suite) as secy:
        secy.install_key(0, key or of.key, offset=of.offset, ssci=of.ssci ^ 2, salt=of.salt)
        secy.add_rx_sc(of.sci)
        secy.add_rx_sa(of.sci, of.an, 0, of.pn, of.ssci)
        secy.enable_rx_sa(of.sci, of.an)
        return {it.name: (secy.receive(frame).verdict, it.verdict) for it, frame in hostile.hostile_list(of)}


def named(of: hostile.Source) -> dict[str, str]:
    return {it.name: it.verdict.name for it, _ in hostile.hostile_list(of)}


class Sealed(unittest.TestCase):
    def test_a_frame_of_annex_c(self) -> None:
        """The integrity-protected frame of 54 octets of IEEE Std 802.1AE, Annex C, in the two suites without XPN."""
        data = bytes.fromhex("08000f10") + bytes(range(0x11, 0x35)) + b"\0\1"
        head = bytes.fromhex("d609b1f056637a0d46df998d88e5222ab2c2846512153524c0895e81")
        long_key = bytes.fromhex("e3c08a8f06c6e3ad95a70557b23f75483ce33021a9c72b7025666204c69c0b72")
        how = {"sci": "12153524c0895e81", "pn": 0xB2C28465, "conf": False}
        for suite, key, icv in (
            (Suite.gcm128, KEYS[0], "f09478a9b09007d06f46e9b6a1da25dd"),
            (Suite.gcm256, long_key, "2f0bc5af409e06d609ea8b7d0fa5ea50"),
        ):
            frame = seal(head + data, len(head), key=key, suite=suite, **how)  # type: ignore[arg-type]
            self.assertEqual(frame.hex(), (head + data).hex() + icv)

    def test_as_an_endpoint_sends(self) -> None:
        for suite in SUITES:
            for offset in (0,) if suite.is_extended else (0, 30, 50):
                of, frames = source(suite, offset=offset), client_frames(3)
                sent = protected(frames, suite=suite, key=of.key, pn=5, offset=offset)
                for number, (client, link) in enumerate(zip(frames, sent)):
                    tag = hostile.ordinary_tag(of, 5 + number, len(client) - 12)
                    self.assertEqual(hostile.Shape(client, tag.octets(), 5 + number).frame(of), link)

    def test_statuses(self) -> None:
        for name, words in (
            ("KeyLength", {"key": LONG_KEY}), ("NoSuchKeyOctets", {"key": b""}), ("NoSuchSuite", {"suite": 0}),
            ("PnRange", {"pn": 2**32}), ("Short", {"head": 61}),
        ):  # fmt: skip
            how = {"key": KEYS[0], "sci": SENDER, "pn": 1, "head": 20, **words}
            with self.assertRaises(macsec.MacsecError) as why:
                seal(bytes(60), **how)  # type: ignore[arg-type]
            self.assertEqual(why.exception.name, name)
        self.assertRaises(ValueError, seal, bytes(60), -1, key=KEYS[0], sci=SENDER, pn=1)


class Judged(unittest.TestCase):
    def test_each_frame_gets_its_verdict(self) -> None:
        for suite in SUITES:
            for name, (given, expected) in verdicts(source(suite)).items():
                self.assertEqual(given, expected, f"{suite.name}, {name}")

    def test_another_port(self) -> None:
        """A SecTAG without an SCI means port 0001 with ES, 0000 with SCB."""
        ports = {"0000": {"no-sci", "scb", "es-and-scb"}, "0001": {"no-sci", "es"}, "0002": {"no-sci"}}
        for port, opened in ports.items():
            of = source()._replace(sci=bytes.fromhex(SENDER[:12] + port))
            found = verdicts(of)
            self.assertEqual({name for name, (given, expected) in found.items() if given != expected}, set())
            without = {name for name in ("no-sci", "es", "scb", "es-and-scb") if found[name][0] == Verdict.OK}
            self.assertEqual(without, opened)

    def test_extended_numbers_above_32_bits(self) -> None:
        found = verdicts(source(Suite.xpn128, 3 << 32 | 5))
        self.assertEqual({name for name, (given, expected) in found.items() if given != expected}, {"pn-0"})

    def test_a_wrong_key_shows_which_verdicts_are_the_tags(self) -> None:
        """The frames that are dropped for their ICV are those that no longer open; the others are dropped as before."""
        found = verdicts(source(), KEYS[1])
        changed = {name for name, (given, expected) in found.items() if given != expected}
        opened = {name for name, (_, expected) in found.items() if expected == Verdict.OK}
        self.assertEqual(changed, opened | {"again"})
        self.assertEqual({found[name][0] for name in changed}, {Verdict.NotValid})

    def test_as_the_pages_say(self) -> None:
        pages = {name: (ROOT / "docs" / f"{name}.md").read_text() for name in ("INTEROP", "HOSTILE")}
        by_name = named(source())
        for title, names in (
            ("SL from 48 to 63", ("sl-48", "sl-63")), ("E set and C clear", ("e-without-c",)),
        ):  # fmt: skip
            (said,) = re.findall(rf"\*\*{title}\.\*\*.*?Here it is\s+`(\w+)`", pages["INTEROP"], re.S)
            self.assertEqual({by_name[it] for it in names}, {said})
        self.assertIn("Here padding after the ICV is ignored", pages["INTEROP"])
        self.assertEqual(by_name["padded"], "OK")
        # The verdicts that come before the ICV do not depend on it.
        told = r"each value of the octet of TCI.*?(\d+) `BadTag`, (\d+) `Reserved`"
        ((bad, reserved),) = re.findall(told, pages["HOSTILE"])
        status, text, _ = main_of(forge.main, "-", "--key", KEYS[0].hex(), "--sci", SENDER, "--each", "octet")
        self.assertEqual(status, 0)
        with SecY.configure(CONFIG) as secy:
            given = [secy.receive(frame).verdict for _, frame in script_frames.frames_of_text(text)]
        self.assertEqual((len(given), given.count(Verdict.BadTag)), (256, int(bad)))
        self.assertEqual(given.count(Verdict.Reserved), int(reserved))
        self.assertNotIn(Verdict.NotValid, given)


class Command(InFolder):
    def forged(self, *words: object) -> list[capture.Packet]:
        out = self.folder / f"{len(self.names())}.pcapng"
        status, printed, error = main_of(forge.main, out, *words)
        self.assertEqual((status, printed, error), (0, "", ""))
        return list(capture.read(str(out)))

    def test_from_a_config(self) -> None:
        config = self.put("config", CONFIG)
        (ordinary,) = self.forged("--config", config, "--data", 60)
        client = hostile.client_frame(source(), 60)
        self.assertEqual(ordinary.frame, protected([client], pn=5)[0])
        status, printed, _ = main_of(forge.main, "-", "--config", config, "--hostile")
        found = dict(re.findall(r"^# ([\w-]+): .*; here (\w+)$", printed, re.M))
        self.assertEqual((status, found), (0, named(source())))
        self.assertEqual(len(self.forged("--config", config, "--hostile")), len(found))

    def test_of_what_an_end_sends(self) -> None:
        text = f"end A gcm128 {SENDER} 1546 sci\nA key 0 {KEYS[0].hex()} 0\nA txsa 1 0 1f conf\nA txon 1\n"
        status, printed, _ = main_of(forge.main, "-", "--config", self.put("config", text))
        ((_, made),) = script_frames.frames_of_text(printed)
        self.assertEqual((status, made[14:20].hex()), (0, "2d2e0000001f"))

    def test_a_config_that_receives_nothing(self) -> None:
        """Without the lines of CONFIG from one on, that line is named; with all of them nothing is."""
        lines = CONFIG.splitlines(keepends=True)
        sender = "A txsa 0 0 1 conf\nA txon 0\n"
        for count, told in ((2, "A rxsc SCI"), (3, f"A rxsa {SENDER} AN N PN"), (4, f"A rxon {SENDER} 0"), (5, None)):
            config = self.put("config", "".join(lines[:2]) + sender + "".join(lines[2:count]))
            status, printed, error = main_of(forge.main, "-", "--config", config, "--hostile")
            verdicts = set(re.findall("here (\\w+)$", printed, re.M))
            self.assertEqual((status, 'it has no line "%s"' % told in error), (0, told is not None), error)
            self.assertEqual("OK" in verdicts, told is None)
        refused = self.put(
            "config", CONFIG.replace("rxon", "rxoff").replace(f"rxsa {SENDER} 0 0", f"rxsa {SENDER} 0 1")
        )
        _, _, error = main_of(forge.main, "-", "--config", refused, "--frames", self.put("list", "00"))
        self.assertRegex(error, 'no line "A rxsa .*; refused: line 4: 5 NoKey')

    def test_frames_of_ones_own(self) -> None:
        """The list as lines and as a capture, judged again: the verdicts are those of the list."""
        config = ("--config", self.put("config", CONFIG))
        _, lines, _ = main_of(forge.main, "-", *config, "--hostile")
        comments = re.findall("^# (.*)", lines, re.M)
        _, again, _ = main_of(forge.main, "-", *config, "--frames", self.put("list", lines))
        self.assertEqual(again, lines)
        told = [it.partition("; ")[2] for it in comments]
        frames = [it.frame for it in self.forged(*config, "--hostile")]
        made = self.forged(*config, "--frames", self.put("in.pcap", frames))
        self.assertEqual([it.frame for it in made], frames)
        status, printed, _ = main_of(forge.main, "-", *config, "--frames", self.folder / "in.pcap")
        self.assertEqual(re.findall("^# (.*)", printed, re.M), [f"record {n}; {it}" for n, it in enumerate(told)])
        first = frames[0]
        text = f"{first.hex(':')} # mine\n\n# of 802.3\n{bytes(60).hex(' ')}\r\n{first.hex()}\n0102\n"
        _, printed, _ = main_of(forge.main, "-", *config, "--frames", self.put("list", text))
        told = ["mine; here OK", "of 802.3; here NoTag", "line 5; here Late"]
        told += ["line 6; here no verdict, shorter than a header or too long"]
        self.assertEqual(re.findall("^# (.*)", printed, re.M), told)
        for text, words in (("00\nxyz\n", ()), ("00", ("--seed", "1"))):
            ended, _, error = main_of(forge.main, "-", *config, "--frames", self.put("list", text), *words)
            self.assertEqual((ended, error.startswith("macsec-forge: ")), (2, True), error)

    def test_times_by_rate(self) -> None:
        times = [it.time for it in self.forged("--config", self.put("config", CONFIG), "--hostile", "--rate", 4)]
        self.assertEqual({b - a for a, b in zip(times, times[1:])}, {250_000_000})

    def test_at_random(self) -> None:
        """The same text makes the same frames; each verdict is tried; no packet number has two contents."""
        config = ("--config", self.put("config", CONFIG), "--random", 1500)
        first, again, other = (main_of(forge.main, "-", *config, "--seed", it)[1] for it in "aab")
        self.assertEqual((first, first == other), (again, False))
        tried = set(re.findall("here (\\w+)$", first, re.M))
        self.assertLessEqual({"OK", "NoTag", "BadTag", "Reserved", "NoSAError", "Late", "NotValid"}, tried)
        used: dict[int, bytes] = {}
        for _, shape in random_frames.random_shapes(source(), "a", 1500):
            self.assertEqual(used.setdefault(shape.pn, shape.frame(source())), shape.frame(source()))

    def test_fields(self) -> None:
        base = ("--key", KEYS[0].hex(), "--sci", SENDER, "--an", 1)
        for words, tag in (
            ((), "88e52d2e00000001" + SENDER),
            (("--bits", "V,ES"), "88e5c12e00000001"),
            (("--bits", "none", "--pn", "ff"), "88e5012e000000ff"),
            (("--octet", "ff", "--sl", "255"), "88e5ffff00000001" + SENDER),
            (("--tag-pn", "7", "--tag-sci", "0102"), "88e52d2e000000070102"),
            (("--ethertype", "88e6", "--tag-sci", "none"), "88e62d2e00000001"),
            (("--tag", "88e5"), "88e5"),
        ):
            (made,) = self.forged(*base, *words)
            self.assertEqual(made.frame[12 : 12 + len(tag) // 2].hex(), tag)
            self.assertEqual(len(made.frame), 12 + len(tag) // 2 + 46 + 16)

    def test_the_icv(self) -> None:
        base = ("--config", self.put("config", CONFIG))
        ordinary, wrong, padded, cut, clear = (
            self.forged(*base, *words)[0].frame
            for words in ((), ("--icv", "01"), ("--pad", 3), ("--cut", 5), ("--int", "--bits", "SC"))
        )
        self.assertEqual((wrong[:-1], wrong[-1] ^ 1), (ordinary[:-1], ordinary[-1]))
        self.assertEqual((padded, cut), (ordinary + bytes(3), ordinary[:-5]))
        self.assertEqual(clear[28:-16], hostile.client_frame(source())[12:])
        # The frame has 90 octets.
        self.assertEqual(hostile.Shape(bytes(58), bytes(16), 5, cut=100).frame(source()), b"")

    def test_clients_of_a_capture(self) -> None:
        frames = client_frames(3)
        config = self.put("config", CONFIG)
        made = self.forged("--config", config, "--client", self.put("in.pcap", frames))
        self.assertEqual([it.frame for it in made], protected(frames, pn=5))
        self.assertEqual(len(self.forged("--config", config, "--each", "sl")), 256)

    def test_captures_and_lines(self) -> None:
        frames = client_frames(4)
        status, text, _ = main_of(forge.main, "-", "--capture", self.put("in.pcap", frames))
        self.assertEqual((status, text), (0, "".join(f"inject {it.hex()}\n" for it in frames)))
        back = self.forged("--text", self.put("lines", "# frames\n" + text + "A counters\n"))
        self.assertEqual([it.frame for it in back], frames)

    @unittest.skipUnless(os.environ.get("MACSEC_PROGRAM"), "the program is not built")
    def test_the_program_judges_the_lines(self) -> None:
        """The list as a script: the program prints the verdicts of the list."""
        _, text, _ = main_of(forge.main, "-", "--config", self.put("config", CONFIG), "--hostile")
        expected = named(source())
        count = len(expected)
        script = CONFIG.replace("\n", f"\nend B gcm128 {SENDER} 1546 sci\n", 1) + text
        script += "".join(f"A deliver {number}\n" for number in range(count))
        program = os.environ["MACSEC_PROGRAM"]
        ran = subprocess.run([program, "run", self.put("s", script)], stdout=subprocess.PIPE, text=True)
        told = [line.split()[1] for line in ran.stdout.splitlines()[-count:]]
        self.assertEqual(told, list(expected.values()))

    def test_faults(self) -> None:
        key = ("--key", KEYS[0].hex(), "--sci", SENDER)
        for words, status in (
            ((), 2), (("--config", self.put("config", CONFIG), "--an", 3), 2), ((*key, "--bits", "X"), 2),
            ((*key, "--octet", "100"), 2), ((*key, "--sl", 256), 2), ((*key, "--icv", "00" * 17), 2),
            ((*key, "--pn", "100000000"), 2), ((*key, "--tag", "0g"), 2), ((*key, "--pad", -1), 2),
            (("--capture", "nothing"), 1), (("--key", KEYS[0].hex()), 2), ((*key, "--suite", "gcm256"), 2),
            (("--text", self.put("odd", "inject 0\n")), 2), ((*key, "--random", 0), 2), ((*key, "--seed", "1"), 2),
            ((*key, "--rate", 0), 2), ((*key, "--frames", "odd"), 2),
            (("--config", self.folder / "config", "--frames", "no"), 1),
        ):  # fmt: skip
            ended, printed, error = main_of(forge.main, self.folder / "out", *words)
            self.assertEqual((ended, printed), (status, ""), words)
            self.assertRegex(error, r"^macsec-forge: ")
        self.assertEqual(self.names(), ["config", "odd"])
        taken = self.put("taken", b"")
        self.assertEqual(main_of(forge.main, taken, *key)[0], 1)


class Numbers(InFolder):
    """The file in which packet numbers go on."""

    def path(self) -> str:
        return str(self.folder / "numbers")

    def test_numbers_go_on(self) -> None:
        with NumberFile(self.path(), source()) as file:
            self.assertEqual(file.next, 1)
            file.reserve(41)
            # As after a crash: it is on disk before the run ends.
            self.assertEqual(json.loads((self.folder / "numbers").read_text())["next"], "29")
            self.assertRaisesRegex(OSError, "another run uses this file", NumberFile, self.path(), source())
            self.assertRaises(macsec.UsageError, file.reserve, 41)
        self.assertEqual(os.stat(self.path()).st_mode & 0o777, 0o600)
        with NumberFile(self.path(), source(pn=7)) as file:
            self.assertEqual(file.next, 41)
        self.assertEqual(self.names(), ["numbers"])

    def test_of_another_key(self) -> None:
        with NumberFile(self.path(), source()) as file:
            file.reserve(2)
        text = (self.folder / "numbers").read_text()
        self.assertNotIn(KEYS[0].hex(), text)
        others = ({"key": KEYS[1]}, {"sci": bytes(8)}, {"ssci": 9}, {"salt": SALT}, {"suite": Suite.xpn128})
        for it in others:
            with self.assertRaisesRegex(macsec.UsageError, "of another key"):
                NumberFile(self.path(), source()._replace(**it))  # type: ignore[arg-type]
        self.assertEqual((self.folder / "numbers").read_text(), text)

    def test_damaged(self) -> None:
        for text in ("x", "[]", "{}", '{"form": 1, "key": 2, "next": "3"}', "\0", '{"next": 1}'):
            with self.assertRaisesRegex(macsec.UsageError, "damaged"):
                NumberFile(self.put("numbers", text), source())

    def test_no_iv_of_an_earlier_run(self) -> None:
        """Ten runs of the list: no packet number of an IV is in two frames that differ."""
        used: dict[int, bytes] = {}
        first = 1
        for _ in range(10):
            of = hostile.unused_number(source(pn=first))
            for it, frame in hostile.hostile_list(of, True):
                self.assertEqual(used.setdefault(it.shape.pn, frame), frame)
                # Below `first`, another list of an earlier run can have used each number.
                self.assertTrue(it.shape.pn == 0 or it.shape.pn >= first or it.name == "again")
            first = max(used) + 1


class Device:
    """A device under test, in place of two interfaces."""

    name = "client"

    def __init__(self, change: Callable[[bytes], list[bytes]]) -> None:
        self.secy = SecY.configure(CONFIG)
        self.change = change
        self.out: list[bytes] = []

    def send(self, frame: bytes) -> None:
        made = self.secy.receive(frame).frame
        if made is not None:
            self.out += self.change(made)

    def frames(self, _: float) -> list[bytes]:
        found, self.out = self.out, []
        return found


class OnAWire(InFolder):
    """Devices that are as CONFIG says, and others."""

    def run_of(self, change: Callable[[bytes], list[bytes]], is_marked: bool = True) -> tuple[dict[str, str], int]:
        """What the device did with those frames that differ, and how many frames are for none."""
        frames = [(it.name, frame) for it, frame in hostile.hostile_list(source(), is_marked)]
        device: Any = Device(change)
        with SecY.configure(CONFIG) as secy:
            judgements = list(device_trial.judged(secy, frames))
        outcomes, others = device_trial.tried(judgements, device, device, 0)
        return {it.judged.name: it.device for it in outcomes if not it.agrees}, others

    def test_devices(self) -> None:
        same = self.run_of(lambda it: [it])
        self.assertEqual((same, self.run_of(lambda it: [it], False)), (({}, 0), ({}, 0)))
        self.assertEqual(self.run_of(lambda it: [it.ljust(60, b"\0")]), ({}, 0))
        # What has no whole EtherType need not come out.
        self.assertEqual(self.run_of(lambda it: [it] if len(it) > 13 else []), ({}, 0))
        opened = {it.name for it, _ in hostile.hostile_list(source()) if it.verdict == Verdict.OK}
        for change, told in (
            (lambda it: [], "dropped"), (lambda it: [it, it], "delivered 2 times"),
            (lambda it: [altered(it)], "delivered 58, other"), (lambda it: [it + b"\1"], "delivered 59, other"),
        ):  # fmt: skip
            found, others = self.run_of(change)
            self.assertEqual((set(found) | {"one-octet"}, found["ordinary"], others), (opened, told, 0))
        found, others = self.run_of(lambda it: [bytes(12) + it[12:]])
        self.assertEqual((found["ordinary"], others), ("dropped", len(opened)))

    def test_passes(self) -> None:
        def passes(is_marked: bool) -> list[range]:
            with SecY.configure(CONFIG) as secy:
                frames = [(it.name, frame) for it, frame in hostile.hostile_list(source(), is_marked)]
                return list(device_trial.passes(list(device_trial.judged(secy, frames))))

        self.assertEqual(passes(True), [range(0, 35), range(35, 36)])
        self.assertEqual(passes(False), [range(it, it + 1) for it in range(36)])
        self.assertEqual(list(device_trial.passes([])), [])

    def test_faults(self) -> None:
        config = ("--config", self.put("config", CONFIG))
        to = ("--send", "no-such-1", "--judge", "no-such-2")
        state = ("--state", str(self.folder / "numbers"))
        for words in (
            (*to, *state), (*to, *config), ("out", *to, *config, *state), (*to[:2], *config, *state),
            (*to[:2], "--judge", "no-such-1", *config, *state), (*to, *config, *state, "--wait", "nan"),
            (*to, *config, *state, "--wait", -1), ("out", *config, *state), ("out", *config, "--json"), config,
            (*to, *config, *state, "--text", "x"),
        ):  # fmt: skip
            ended, printed, error = main_of(forge.main, *words)
            self.assertEqual((ended, printed), (2, ""), words)
            self.assertRegex(error, r"^macsec-forge: [^\n]*\n$")
        ended, printed, error = main_of(forge.main, *to, *config, *state)
        self.assertEqual((ended, printed), (1, ""))
        self.assertRegex(error, r"^macsec-forge: no-such-1: [^\n]*\n$")
