"""macsec-why names each planted cause, and none for an untouched capture."""

from __future__ import annotations

import json

from macsec.cli.why import main

from .frames import altered, client_frames, protected, with_fcs
from .helpers import CAPTURES, KEYS, RECEIVER, SENDER, InFolder, main_of


def config(key: bytes = KEYS[0], more: str = "") -> str:
    lines = (f"end A gcm128 {RECEIVER} 1546 sci", f"A key 0 {key.hex()} 0", f"A rxsc {SENDER}")
    return "\n".join([*lines, f"A rxsa {SENDER} 0 0 1", f"A rxon {SENDER} 0", more])


class Planted(InFolder):
    def causes(self, text: str, frames: list[bytes], *words: str, count: int = 8) -> set[str]:
        """The kinds of causes that are named. All frames have to be explained."""
        path = self.put("CONFIG", text)
        status, out, error = main_of(main, path, self.put("IN", frames), "--json", *words)
        self.assertEqual((status, error), (3, ""))
        groups = [it["unopened"] for it in map(json.loads, out.splitlines()) if "unopened" in it]
        self.assertEqual(sum(len(it["records"]) for it in groups), count)
        self.assertTrue(all(it["causes"] for it in groups), out)
        return {cause["cause"] for it in groups for cause in it["causes"]}

    def setUp(self) -> None:
        super().setUp()
        self.frames = client_frames(8)
        self.link = protected(self.frames)

    def test_key(self) -> None:
        path = self.put("KEYS", f"# more\n{KEYS[2].hex()}\n{KEYS[0].hex()}\n")
        self.assertEqual(self.causes(config(key=KEYS[1]), self.link, "--keys", path), {"key"})
        self.assertIn(
            "key 2 of ",
            main_of(main, self.put("CONFIG", config(key=KEYS[1])), self.put("IN", self.link), "--keys", path)[1],
        )

    def test_rekey(self) -> None:
        later = protected(client_frames(4), key=KEYS[1], pn=9)
        more = f"A key 1 {KEYS[1].hex()} 0"
        self.assertEqual(self.causes(config(more=more), self.link + later, count=4), {"rekey"})


class Untouched(InFolder):
    def run_of(self, text: str, capture: str, *words: str) -> tuple[int, list[dict]]:
        status, out, error = main_of(main, CAPTURES / text, CAPTURES / capture, "--json", *words)
        self.assertEqual(error, "")
        return status, [json.loads(it) for it in out.splitlines()]

    def test_no_cause_is_named(self) -> None:
        pairs = (
            ("receiver.config", "link.pcap"), ("observer.config", "observed.pcap"), ("peer.config", "linux.pcap"),
            ("xpn.config", "xpn.pcap"),
        )  # fmt: skip
        for text, capture in pairs:
            status, shown = self.run_of(text, capture)
            self.assertEqual(status, 0, capture)
            self.assertFalse([it for it in shown if it.get("unopened", {}).get("causes")], capture)

    def test_an_altered_frame_has_no_cause(self) -> None:
        link = protected(client_frames(4))
        link[2] = altered(link[2])
        text = self.put("CONFIG", config())
        status, out, _ = main_of(main, text, self.put("IN", link), "--json")
        (group,) = (it["unopened"] for it in map(json.loads, out.splitlines()) if "unopened" in it)
        self.assertEqual((status, group["causes"], group["records"]), (3, [], [2]))

    def test_summary(self) -> None:
        _, shown = self.run_of("observer.config", "observed.pcap")
        first, second = (it["association"] for it in shown if "association" in it)
        self.assertEqual((first["sci"], first["frames"], first["repeated"], first["missing"]), (SENDER, 4, 1, 0))
        self.assertEqual(second["verdicts"], {"OK": 3})
        frames = protected(client_frames(9))
        text = self.put("CONFIG", config())
        _, out, _ = main_of(main, text, self.put("IN", frames[:3] + frames[5:]))
        self.assertIn("7 frames, PN 00000001 to 00000009, 2 missing, 0 repeated: OK 7", out)
        short = protected(client_frames(1, length=20))[0]
        padded = short + bytes(60 - len(short))
        again = [short, padded, with_fcs(padded)]
        self.assertIn("2 repeated: ", main_of(main, text, self.put("IN", again))[1].splitlines()[0])

    def test_one_record(self) -> None:
        status, out, _ = main_of(main, CAPTURES / "one-sender.config", CAPTURES / "fcs.pcap", 1)
        self.assertEqual(status, 3)
        self.assertIn("SecTAG: SC E C, AN 0, SL 0, PN 00000002", out)
        self.assertIn("fcs: ", out)
        self.assertEqual(main_of(main, CAPTURES / "one-sender.config", CAPTURES / "fcs.pcap", 9)[0], 2)

    def test_a_refused_line_is_named(self) -> None:
        text = self.put("CONFIG", config().replace("key 0", "key 1"))
        _, out, _ = main_of(main, text, self.put("IN", protected(client_frames(1))))
        self.assertIn("line 4: 5 NoKey", out)

    def test_faults(self) -> None:
        text = self.put("CONFIG", config())
        bad = self.put("BAD", config().replace("gcm128", "gcm-aes-128"))
        self.assertEqual(main_of(main, bad, self.put("IN", []))[0], 2)
        self.assertEqual(main_of(main, text, self.put("TEXT", "no capture"))[0], 1)
        self.assertEqual(main_of(main, text, "/nowhere/IN")[0], 1)
        self.assertEqual(main_of(main, text)[0], 2)
        told = main_of(main, self.put("IN", protected(client_frames(1))), text)
        self.assertEqual(told, (2, "", "macsec-why: this is a capture, not a CONFIG\n"))
