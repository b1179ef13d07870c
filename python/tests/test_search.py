"""What macsec-decrypt finds for frames that need more than a key, and what it says of those that stay closed."""

from __future__ import annotations

import base64
import json
import time
from collections.abc import Sequence
from unittest import mock

from macsec import Suite, capture, seal
from macsec.cli import config, why
from macsec.cli.decrypt import main

from .frames import client_frames, protected
from .helpers import KEYS, LONG_KEY, OTHER, SALT, SENDER, InFolder, main_of

KEY, LONG, SALTED = KEYS[0].hex(), LONG_KEY.hex(), f"{KEYS[0].hex()}:{SALT.hex()}"
LONG_SALTED = f"{LONG}:{SALT.hex()}"
OTHER_PORT, FAR = "0200000000010005", "02000000009912ff"
NONE, ES, SCB = 0x0C, 0x4C, 0x1C


def sealed(
    tci: int, sci: str, count: int = 3, key: bytes = KEYS[0], pn: int = 1, suite: Suite = Suite.gcm128, ssci: int = 0,
    offset: int = 0,
) -> list[bytes]:  # fmt: skip
    """Frames with tags that have no SCI, whose IVs have this one, as Linux makes them with `end_station on` or `scb on`
    at any port."""
    made = []
    for number, frame in enumerate(client_frames(count), pn):
        head = frame[:12] + b"\x88\xe5" + bytes([tci, 0]) + (number & 0xFFFF_FFFF).to_bytes(4, "big")
        salt = SALT if suite.is_extended else bytes(12)
        how = {"suite": suite, "ssci": ssci, "salt": salt, "offset": offset, "conf": bool(tci & 8)}
        made.append(seal(head + frame[12:], len(head), key=key, sci=sci, pn=number, **how))  # type: ignore[arg-type]
    return made


def xpn(upper: int, suite: Suite = Suite.xpn128, ssci: int = 1, low: int = 1, **how: object) -> list[bytes]:
    key = LONG_KEY if suite.key_octets == 32 else KEYS[0]
    return protected(client_frames(3), suite=suite, key=key, pn=upper << 32 | low, ssci=ssci, **how)


class Decrypted(InFolder):
    """Searches end earlier here, so that the tests do not take long."""

    WIDTH = 0x800

    def setUp(self) -> None:
        super().setUp()
        patched = mock.patch.multiple("macsec.attempts", WIDE=self.WIDTH, PORTS=self.WIDTH)
        patched.start()
        self.addCleanup(patched.stop)

    def shown(self, frames: Sequence[bytes], *keys: str, options: Sequence[str] = ()) -> tuple[int, list[dict]]:
        """The status, and what is printed as JSON."""
        (self.folder / "OUT").unlink(missing_ok=True)
        words = [word for key in keys for word in ("--key", key)]
        status, out, error = main_of(main, self.put("IN", frames), self.folder / "OUT", "--json", *words, *options)
        self.assertEqual(error, "")
        return status, [json.loads(it) for it in out.splitlines()]

    def hint(self, frames: Sequence[bytes], *keys: str, options: Sequence[str] = ()) -> str:
        """The hints for frames none of which opens."""
        status, shown = self.shown(frames, *keys, options=options)
        self.assertEqual(status, 3)
        self.assertEqual({it["state"] for it in shown if "state" in it}, {"not opened"})
        return "\n".join(it["hint"] for it in shown if "hint" in it)

    def opens(self, frames: Sequence[bytes], *keys: str, clients: int = 3) -> list[dict]:
        """The records. All of them open and are the clients'."""
        status, shown = self.shown(frames, *keys)
        self.assertEqual((status, [it for it in shown if "hint" in it]), (0, []))
        opened = [it.frame for it in capture.read(str(self.folder / "OUT"))]
        self.assertEqual(opened, client_frames(clients))
        return [it for it in shown if "record" in it]


class Opened(Decrypted):
    def test_frames_that_need_more_than_a_key(self) -> None:
        for name, frames, key in (
            ("upper half above ff", xpn(0x100), f"{SALTED}:00000001"),
            ("of a long key", xpn(0x734, Suite.xpn256), f"{LONG_SALTED}:00000001"),
            ("one that is given", xpn(0x800, Suite.xpn256), f"{LONG_SALTED}:00000001:800"),
            ("the highest", xpn(0xFFFF_FFFF, ssci=7), f"{SALTED}:00000007:ffffffff"),
            ("across an upper half", xpn(0x1FF, low=0xFFFF_FFFE), f"{SALTED}:00000001"),
            ("without an SCI", xpn(0x300, conf=False, form="auto"), f"{SALTED}:00000001"),
            ("with ES", xpn(0x300, form="es"), f"{SALTED}:00000001"),
            ("SSCI above 16", xpn(0, ssci=0x1122_3344), f"{SALTED}:11223344"),
            ("SSCI that is found", xpn(0x2_0000, ssci=0x1FF), f"{SALTED}::20000"),
            ("the highest SSCI", xpn(0, ssci=0xFFFF_FFFF), f"{SALTED}:ffffffff"),
            ("a usual one", xpn(0x99, ssci=16), SALTED),
            ("another port, no SCI", sealed(NONE, OTHER_PORT), KEY),
            ("a far port, no SCI", sealed(NONE, SENDER[:12] + "07ff"), KEY),
            ("another address, no SCI", sealed(NONE, FAR), f"{FAR}={KEY}"),
            ("another address, no SCI, integrity only", sealed(0, FAR, offset=30), f"{FAR}={KEY}"),
            ("another port, ES", sealed(ES, OTHER_PORT), KEY),
            ("another port, SCB", sealed(SCB, OTHER_PORT), KEY),
            ("a far port, SCB, long key", sealed(SCB, SENDER[:12] + "07fe", key=LONG_KEY, suite=Suite.gcm256), LONG),
            ("another address, ES", sealed(ES, FAR), f"{FAR}={KEY}"),
            ("another address, SCB, AN", sealed(SCB | 2, FAR), f"{FAR}/2={KEY}"),
            ("ES, high packet numbers", sealed(ES, OTHER_PORT, pn=0x8000_0001), KEY),
            ("ES, XPN", sealed(ES, FAR, pn=0x1F_0000_0001, suite=Suite.xpn128, ssci=3), SALTED),
        ):  # fmt: skip
            with self.subTest(name):
                self.opens(frames, key)

    def test_the_sci_of_the_iv_is_named(self) -> None:
        (first, *_) = self.opens(sealed(ES, OTHER_PORT), KEY)
        self.assertEqual((first["sci"], first["note"]), (OTHER_PORT, f"its IV has this SCI, its tag means {SENDER}"))
        (first, *_) = self.opens(sealed(NONE, OTHER_PORT), KEY)
        self.assertEqual((first["sci"], "note" in first), (OTHER_PORT, False))

    def test_a_config_cannot_open_it(self) -> None:
        """macsec-config says so, and leaves such a sender out."""
        path = self.put("IN", sealed(ES, OTHER_PORT) + protected(client_frames(2, OTHER), sci=OTHER))
        status, text, error = main_of(config.main, "--capture", path, "--key", KEY)
        self.assertEqual((status, error), (3, ""))
        self.assertIn(f"# tags with ES or SCB whose IVs have SCI {OTHER_PORT}: no CONFIG opens these", text)
        self.assertEqual(text.count("A rxsc "), 1)
        self.assertIn(f"A rxsc {OTHER}\n", text)
        # With extended packet numbers no SCI is in the IV.
        path = self.put("IN", sealed(ES, OTHER_PORT, suite=Suite.xpn128, ssci=3))
        status, text, _ = main_of(config.main, "--capture", path, "--key", SALTED)
        self.assertEqual((status, text.count(f"A rxsa {SENDER} 0 0 1 00000003\n")), (0, 1))

    def test_repeats_and_reordered_numbers(self) -> None:
        """Frames with ES and another SCI in the IV open in any order."""
        frames = sealed(ES, OTHER_PORT, pn=0x7FFF_FFFE)
        status, shown = self.shown([*frames, frames[0], frames[2], frames[0]], KEY)
        self.assertEqual([it["pn"] - 0x7FFF_FFFE for it in shown if "record" in it], [0, 1, 2, 0, 2, 0])
        self.assertEqual(status, 0)

    def test_an_iv_used_twice_is_found(self) -> None:
        twice = sealed(ES, OTHER_PORT) + sealed(ES, OTHER_PORT, count=4)[3:] + sealed(ES, OTHER_PORT, count=2, pn=2)[:1]
        status, shown = self.shown(twice, KEY)
        self.assertEqual((status, shown[0]["iv used twice"]["records"]), (3, [1, 4]))
        self.assertEqual(shown[0]["iv used twice"]["sci"], OTHER_PORT)
        # Tags that name the SCI have the same IVs.
        status, shown = self.shown(sealed(ES, OTHER_PORT) + protected(client_frames(4, OTHER)[3:], sci=OTHER_PORT), KEY)
        self.assertEqual((status, shown[0]["iv used twice"]["records"]), (3, [0, 3]))
        config = f"end A gcm128 {OTHER} 1546 sci\nA key 0 {KEY} 0\nA rxsc {OTHER_PORT}\nA rxsa {OTHER_PORT} 0 0 1\n"
        words = self.put("CONFIG", config + f"A rxon {OTHER_PORT} 0\n"), self.folder / "IN", "--json"
        status, out, _ = main_of(why.main, *words)
        self.assertEqual((status, json.loads(out.splitlines()[0])["iv used twice"]["records"]), (3, [0, 3]))

    def test_what_one_sender_shows_helps_with_another(self) -> None:
        """The upper half, the SSCI under another key, and the SCIs of tags that carry one."""
        first, second = xpn(0x444), xpn(0x444, ssci=2, sci=OTHER)
        status, _ = self.shown(first + second, f"{SENDER}={SALTED}:00000001", f"{OTHER}={SALTED}")
        self.assertEqual(status, 0)
        rekeyed = xpn(0, ssci=9) + protected(client_frames(3), suite=Suite.xpn128, key=KEYS[1], ssci=9)
        status, _ = self.shown(rekeyed, f"{SALTED}:00000009", f"{KEYS[1].hex()}:{SALT.hex()}")
        self.assertEqual(status, 0)
        tagged = protected(client_frames(3), sci=FAR)
        status, _ = self.shown(tagged + sealed(NONE, FAR, pn=9), KEY)
        self.assertEqual(status, 0)

    def test_a_config_has_the_upper_half(self) -> None:
        """Of the association, also of one that sends; frames of another upper half open as without it."""
        for pn, line in (
            (0x1234_5678_0000_0001, f"A rxsc {SENDER}\nA rxsa {SENDER} 0 0 1234567800000001 00000011"),
            (0x20_0000_0005, f"A rxsc {SENDER}\nA rxsa {SENDER} 0 0 1234567800000001 00000011"),
            (0x1234_5678_0000_0001, "A txsa 0 0 1234567800000000 conf"),
        ):  # fmt: skip
            own, ssci = (SENDER, "00000011") if "txsa" in line else (OTHER, "0000000f")
            text = f"end A xpn128 {own} 1546 sci\nA key 0 {KEY} 0 {ssci} {SALT.hex()}\n{line}\n"
            frames = protected(client_frames(3), suite=Suite.xpn128, pn=pn, ssci=17)
            self.assertEqual(self.shown(frames, options=("--config", self.put("CONFIG", text)))[0], 0, line)
            self.assertEqual([it.frame for it in capture.read(str(self.folder / "OUT"))], client_frames(3))

    def test_keys_in_base64(self) -> None:
        """Of both alphabets, with a salt, and after whose key it is."""
        for octets in (bytes(range(16)), b"\0" + b"\xfb\xf0" * 15 + b"\x3f"):
            suite = Suite.gcm128 if len(octets) == 16 else Suite.gcm256
            extended = Suite.xpn128 if len(octets) == 16 else Suite.xpn256
            for text in (base64.b64encode(octets).decode(), base64.urlsafe_b64encode(octets).decode()):
                self.opens(protected(client_frames(3), suite=suite, key=octets), f"{SENDER}/0={text}")
                self.opens(protected(client_frames(3), suite=extended, key=octets), f"{text}:{SALT.hex()}:00000001")
        for text in (base64.b64encode(bytes(17)).decode(), base64.b64encode(bytes(16)).decode()[:-1], "="):
            told = main_of(main, self.put("IN", []), self.folder / "NONE", "--key", text)
            self.assertEqual((told[0], "--key: the key " in told[2], text in told[2]), (2, True, False), told)


class Width(Decrypted):
    WIDTH = 0x1_0000

    def test_how_far_a_search_goes(self) -> None:
        """As it is: to the last of 65,536."""
        self.opens(xpn(0xFFFF), f"{SALTED}:00000001")


class Hints(Decrypted):
    def lines(self, frames: Sequence[bytes], *keys: str) -> list[str]:
        return self.hint(frames, *keys).splitlines()

    def test_what_is_missing_is_named_and_opens_it(self) -> None:
        wide = "SSCIs 0x1 to 0x10, upper halves below 0x100"
        for frames, key, texts, better in (
            (xpn(0x300), SALTED, (f"key 1 as xpn128 with {wide}", "KEY:SALT:SSCI:UPPER", "offset 0, 30, 50"),
             f"{SALTED}:00000001"),
            (xpn(0x800), f"{SALTED}:00000001", ("SSCI 0x1, upper halves below 0x800", "other upper halves"),
             f"{SALTED}:00000001:800"),
            (xpn(0, ssci=17), SALTED, (wide, "other SSCIs and upper halves"), f"{SALTED}:00000011"),
            (xpn(7, ssci=0x800), f"{SALTED}::7", ("SSCIs below 0x800, upper half 0x7",), f"{SALTED}:00000800:7"),
            (xpn(0), KEY, ("not tried: xpn128, which needs a salt (KEY:SALT)",), SALTED),
            (sealed(NONE, FAR), KEY, ("all ports of the source address", "SCIs of other addresses (SCI=KEY)"),
             f"{FAR}={KEY}"),
            (sealed(ES, FAR), KEY, ("all ports of the source address", "ES E C", "(SCI=KEY)"), f"{FAR}={KEY}"),
            (sealed(ES, FAR), f"{OTHER}={KEY}", ("the SCI of the key",), f"{FAR}={KEY}"),
            (protected(client_frames(3), an=2), f"/1={KEY}", ("no key is for AN 2",), f"/2={KEY}"),
            (protected(client_frames(3)), f"{OTHER}={KEY}", ("is for this SCI",), f"{SENDER}={KEY}"),
            (protected(client_frames(3)), LONG, ("another key",), KEY),
        ):  # fmt: skip
            found = self.hint(frames, key)
            for text in texts:
                self.assertIn(text, found)
            self.assertNotIn(KEY, found)
            self.opens(frames, better)

    def test_what_options_left_out(self) -> None:
        frames = protected(client_frames(3), offset=30)
        self.assertIn("offsets other than 50 (--offset)", self.hint(frames, KEY, options=("--offset", "50")))
        self.assertIn("suites other than gcm128 (--suite)", self.hint(xpn(0), SALTED, options=("--suite", "gcm128")))
        self.assertIn("of the suite gcm256", self.hint(frames, KEY, options=("--suite", "gcm256")))

    def test_malformed_frames(self) -> None:
        cut = [it[:-3] for it in protected(client_frames(3, length=40))]
        first, second = self.lines(cut + protected(client_frames(2), key=KEYS[1]), KEY)
        # The lower half of an extended packet number can be 0.
        self.assertEqual(len(self.lines(xpn(0, low=0xFFFF_FFFF), KEY)), 1)
        head = "frames not opened, SCI 0200000000010001 AN 0, SC E C, from record"
        self.assertTrue(first.startswith(f"3 {head} 0: BadTag"), first)
        self.assertTrue(second.startswith(f"2 {head} 3: tried"), second)

    def test_groups(self) -> None:
        """One hint for each tag form, the largest group first; senders with the same text share one."""
        frames = protected(client_frames(2), key=KEYS[1]) + sealed(ES, OTHER_PORT, key=KEYS[1])
        first, second = self.hint(frames, KEY).splitlines()
        for line, count, bits, record in ((first, 3, "ES E C", 2), (second, 2, "SC E C", 0)):
            begin = f"{count} frames not opened, SCI {SENDER} AN 0, {bits}, from record {record}: "
            self.assertTrue(line.startswith(begin), line)
        many = [it for n in range(40) for it in protected(client_frames(1), key=KEYS[1], sci=f"02000000{n:04x}0001")]
        many += [it for n in range(30) for it in protected(client_frames(1), an=3, sci=f"02010000{n:04x}0001")]
        keys = [f"{0x0200000000000001 + (n << 16):016x}/0={KEYS[2].hex()}" for n in range(20)]
        lines = self.hint(many, *keys).splitlines()
        self.assertEqual(len(lines), 17)
        begin = "30 frames not opened, SCI 0201000000000001 AN 3 and 29 more senders"
        self.assertTrue(lines[0].startswith(begin), lines[0])

    def test_the_time_grows_with_keys_and_frames(self) -> None:
        """200 keys whose salts do not fit, over 90 frames."""
        keys = [f"{number:032x}:{SALT[::-1].hex()}" for number in range(1, 200)]
        begun = time.process_time()
        found = self.hint(xpn(0) * 30, SALTED.replace(SALT.hex(), SALT[::-1].hex()), *keys)
        self.assertIn("the search was cut short", found)
        self.assertLess(time.process_time() - begun, 10)

    @mock.patch("macsec.attempts._AT_FIRST", 1000)
    def test_what_was_cut_short_is_not_said_to_be_tried(self) -> None:
        found = self.hint(sealed(NONE, FAR), KEY)
        self.assertIn("the usual ports of the source address", found)
        self.assertIn("other ports, and SCIs of other addresses (SCI=KEY)", found)
        self.assertIn("the search was cut short", found)

    @mock.patch("macsec.attempts._AT_FIRST", 2000)
    def test_many_keys_in_any_order(self) -> None:
        """60 rekeys under XPN: each key is found, although all searches are more than a run may try."""
        octets, how = [bytes([number]) * 16 for number in range(1, 61)], {"suite": Suite.xpn128}
        frames = [protected(client_frames(1), key=octets[n * 7 % 60], an=n % 4, **how)[0] for n in range(60)]
        status, shown = self.shown(frames, *(f"{it.hex()}:{SALT.hex()}" for it in octets))
        self.assertEqual((status, sum(it.get("state") == "opened" for it in shown)), (0, 60))
