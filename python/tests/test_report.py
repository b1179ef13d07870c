"""macsec-report: each number of the page is what macsec-why and macsec-decrypt say, and the page needs nothing else."""

from __future__ import annotations

import base64
import hashlib
import json
import os
import re
import shutil
import stat
import subprocess
import unittest
from collections import Counter
from typing import Any

from macsec.cli import decrypt, report, why
from macsec.report.drawn import MOST_ROWS, unpacked

from .frames import altered, client_frames, protected
from .helpers import CAPTURES, DATA, KEYS, LONG_KEY, OTHER, RECEIVER, SALT, SENDER, InFolder, main_of

MARKED = b"what a client said"


def unpacked_all(value: Any) -> Any:
    """JSON of the page with its packed lists as they were."""
    if isinstance(value, dict):
        return unpacked(value) if "packed" in value else {name: unpacked_all(it) for name, it in value.items()}
    return [unpacked_all(it) for it in value] if isinstance(value, list) else value


def frames_of(data: dict) -> dict[int, tuple]:
    """The frames that are drawn by their records: SCI, AN, key, packet number, verdict and time."""
    found = {}
    for row in data["rows"]:
        base = int(row["base"], 16)
        columns = [unpacked(row[it]) for it in ("records", "numbers", "verdicts", "times")]
        for record, number, verdict, time in zip(*columns):
            number = (base + number) % 2**64
            found[record] = row["sci"], row["an"], row["key"], number, data["verdicts"][verdict], time
    return found


def config(*keys: bytes, window: int = 4) -> str:
    """A receiver of one sender, with a key for each association number."""
    lines = [f"end A gcm128 {RECEIVER} 9248 sci", f"A replay on {window}", f"A rxsc {SENDER}"]
    for an, key in enumerate(keys):
        lines += [f"A key {an} {key.hex()} 0", f"A rxsa {SENDER} {an} {an} 1", f"A rxon {SENDER} {an}"]
    return "\n".join(lines)


def troubled() -> list[bytes]:
    """Frames with a rekey, losses, replays, altered ones, an unknown sender, and an IV that is used twice."""
    clients = [it[:14] + MARKED + it[14:] for it in client_frames(60)]
    first, second = protected(clients), protected(clients[:40], key=KEYS[1], an=1)
    again = protected(clients[50:], key=KEYS[1], an=1, pn=11)
    unknown = protected(client_frames(5, OTHER), key=KEYS[4], sci=OTHER)
    frames = first[:20] + [altered(it) for it in first[25:35]] + first[35:] + first[3:9] + unknown + second + again
    return [*frames, bytes.fromhex("ffffffffffff0200000000010806") + bytes(46)]


class Report(InFolder):
    def page(self, *words: object, status: int | None = None) -> str:
        """The page that the command writes."""
        told = main_of(report.main, *words, "-o", self.folder / "page.html")
        self.assertEqual((told[0] if status is not None else None, *told[1:]), (status, "", ""))
        text = (self.folder / "page.html").read_text()
        os.unlink(self.folder / "page.html")
        return text

    def data(self, *words: object, status: int | None = None) -> Any:
        """The data in the page."""
        (text,) = re.findall(
            '<script type="application/json" id="data">(.*?)</script>', self.page(*words, status=status)
        )
        return json.loads(text)

    def told(self, main: Any, *words: object) -> list[dict]:
        """What another command says as JSON."""
        return [json.loads(it) for it in main_of(main, *words, "--json")[1].splitlines()]

    def test_by_config_it_is_what_macsec_why_says(self) -> None:
        made = self.put("receiver.config", config(*KEYS[:2])), self.put("troubled.pcap", troubled())
        pairs = [made, *((CAPTURES / text, CAPTURES / name) for text, name in (
            ("receiver.config", "link.pcap"), ("observer.config", "observed.pcap"), ("one-sender.config", "fcs.pcap"),
            ("xpn.config", "xpn.pcap"), ("one-sender.config", "two-runs.pcap"), ("one-sender.config", "vlan.pcap"),
            ("rekey-1.config", "rekey.pcap"), ("one-sender.config", "no-sci.pcap"), ("peer.config", "linux.pcap"),
        ))]  # fmt: skip
        shown = 0
        for text, name in pairs:
            with self.subTest(name):
                objects = self.told(why.main, text, name)
                data = self.data(name, "--config", text, status=main_of(why.main, text, name)[0])
                self.assertEqual(unpacked_all(data["objects"]), objects)
                self.compare(data, objects)
                shown += len(objects)
        self.assertGreater(shown, 30)

    def compare(self, data: dict, objects: list[dict]) -> None:
        """The frames that are drawn, and the counters, against what macsec-why says of them."""
        frames = frames_of(data)
        counters: Counter[str] = Counter()
        for it in (each["association"] for each in objects if "association" in each):
            own = [each for each in frames.values() if each[:2] == (it["sci"], it["an"])]
            numbers = [each[3] for each in own]
            self.assertEqual(Counter(each[4] for each in own), it["verdicts"])
            self.assertEqual((f"{min(numbers) % 2**32:08x}", f"{max(numbers) % 2**32:08x}"), (it["first"], it["last"]))
            self.assertEqual(max(numbers) - min(numbers) + 1 - len(set(numbers)), it["missing"])
            counters.update(it["verdicts"])
        for it in (each["unopened"] for each in objects if "unopened" in each):
            for record in it["records"] if it.get("an") is not None else ():
                self.assertEqual((*frames[record][:2], frames[record][4]), (it["sci"], it["an"], it["verdict"]))
        for it in (each["verdicts"] for each in objects if "ethertype" in each):
            counters.update(it)
        counted: Counter[str] = Counter()
        for each in data["counters"].values():
            counted.update({name[6:]: n for name, n in each.items() if name.startswith("InPkts") and n})
        self.assertEqual(counted, counters)

    def test_by_keys_it_is_what_macsec_decrypt_says(self) -> None:
        keys = [f"--key={it}" for it in (*(it.hex() for it in KEYS[:3]), f"{KEYS[0].hex()}:{SALT.hex()}")]
        names = "link", "observed", "rekey", "xpn", "two-runs", "vlan", "fcs", "no-sci"
        paths = [self.put("troubled.pcap", troubled()), *(CAPTURES / f"{it}.pcap" for it in names)]
        for path in paths:
            with self.subTest(path):
                out = self.folder / "out.pcapng"
                lines = self.told(decrypt.main, path, out, *keys)
                os.unlink(out)
                data = self.data(path, *keys)
                frames = frames_of(data)
                said = {it["record"]: it for it in lines if "record" in it and "an" in it}
                self.assertEqual(frames.keys(), said.keys())
                for record, it in said.items():
                    sci, an, key, number, verdict, _ = frames[record]
                    self.assertEqual((an, number, verdict), (it["an"], it["pn"], it["verdict"]))
                    self.assertIn(it.get("key", key), key)
                twice = [it for it in lines if "iv used twice" in it]
                self.assertEqual([it for it in data["objects"] if "iv used twice" in it], twice)

    def test_times_and_events(self) -> None:
        data = self.data(self.put("IN", troubled()), "--config", self.put("CONFIG", config(*KEYS[:2])))
        self.assertEqual(
            {record: it[5] for record, it in frames_of(data).items()}, {n: n * 10**6 for n in range(116)}
        )
        self.assertEqual(
            [(it["record"], it["an"], it["key"]) for it in data["events"]], [(0, 0, "key 0"), (66, 1, "key 1")]
        )
        # The window of 4 after the first frame, and after the last one that was accepted.
        window = [[time, it[0] + 1, it[1] + 1] for time, *it in data["rows"][0]["window"]]
        self.assertEqual((window[0], window[-1]), ([0, 1, 2], [54 * 10**6, 57, 61]))

    def test_several_captures_are_one(self) -> None:
        frames, text = troubled(), self.put("CONFIG", config(*KEYS[:2]))
        one, parts = self.put("one.pcap", frames), [self.put("a.pcap", frames[:50]), self.put("b.pcap", frames[50:])]
        whole, joined = self.data(one, "--config", text), self.data(*parts, "--config", text)
        self.assertEqual(joined["objects"], whole["objects"])
        self.assertEqual(joined["captures"], [{"name": "a.pcap", "records": 50}, {"name": "b.pcap", "records": 67}])

    def test_what_to_ask_for(self) -> None:
        whole = protected(client_frames(3), key=KEYS[3])
        cases = [
            (CAPTURES / "link.pcap", [KEYS[1].hex()], f"the key (SAK) of SCI {SENDER} AN 0: no key opens 3 frames"),
            (self.put("IN", whole), [KEYS[1].hex()], "not tried: xpn128, which needs a salt"),
            (DATA / "cak-linux.pcap", [LONG_KEY.hex()], "with the CAK, --cak takes the keys from them"),
        ]  # fmt: skip
        for path, keys, text in cases:
            self.assertIn(text, "\n".join(self.data(path, *(f"--key={it}" for it in keys))["asks"]))
        data = self.data(DATA / "cak-linux.pcap", "--config", CAPTURES / "receiver.config")
        self.assertIn("the CAK of the link", "\n".join(data["asks"]))
        self.assertEqual(
            self.data(CAPTURES / "link.pcap", "--config", CAPTURES / "receiver.config", status=0)["asks"], []
        )

    def test_the_page_is_alone(self) -> None:
        """A browser runs and loads nothing but what the policy names; names of files end no element."""
        path, odd = self.put("<img src=x onerror=1>@.pcap", troubled()), self.folder / "<"
        odd.mkdir()
        (odd / "script>").write_text(KEYS[1].hex())
        text = self.put("<title>.config", config(KEYS[0], KEYS[2]))
        for words in (["--config", text, "--keys", odd / "script>"], ["--keys", odd / "script>"]):
            text = self.page(path, *words, status=3)
            (policy,) = re.findall(r'http-equiv="Content-Security-Policy" content="([^"]+)"', text)
            for kind in "style", "script":
                (octets,) = re.findall(f"<{kind}>(.*?)</{kind}>", text, re.S)
                digest = base64.b64encode(hashlib.sha256(octets.encode()).digest()).decode()
                self.assertIn(f"{kind}-src 'sha256-{digest}'", policy)
            self.assertIn("default-src 'none'", policy)
            outside = re.sub("<(style|script).*?</", "", text, flags=re.S)
            self.assertFalse(re.findall(r"\bon\w+=|\b(?:src|href|style)=|<img|url\(", outside))
            self.assertEqual(set(re.findall("https?://[^\"' ]+", text)), {"http://www.w3.org/2000/svg"})
            self.assertEqual(text.count("</script>"), 2)

    def test_no_key_and_no_data(self) -> None:
        path, keys = self.put("IN", troubled()), self.put("keys", "\n".join(it.hex() for it in KEYS))
        for words in (["--config", self.put("CONFIG", config(*KEYS[:2])), "--keys", keys], ["--keys", keys]):
            page = self.page(path, *words)
            for octets in (*KEYS, MARKED, protected(client_frames(1))[0][28:40]):
                for form in (octets.hex(), base64.b64encode(octets).decode(), octets.decode("latin-1")):
                    self.assertNotIn(form.lower(), page.lower())

    def test_many_senders(self) -> None:
        """The page is bounded, and says what it left out."""
        frames = [it for n in range(MOST_ROWS + 9) for it in protected(client_frames(1), sci=f"02{n:010x}0001")]
        data = self.data(self.put("IN", frames), "--key", KEYS[0].hex(), status=0)
        self.assertEqual((len(data["rows"]), data["not drawn"]), (MOST_ROWS, {"associations": 9, "frames": 9}))
        asks = self.data(self.put("IN", frames), "--key", KEYS[1].hex(), status=3)["asks"]
        self.assertEqual(asks[MOST_ROWS], "the keys of 9 more associations")

    def test_files(self) -> None:
        capture, text = self.put("IN", troubled()), self.put("CONFIG", config(KEYS[0]))
        out = self.folder / "page.html"
        self.assertEqual(main_of(report.main, capture, "--config", text, "-o", out)[0], 3)
        self.assertEqual(stat.S_IMODE(out.stat().st_mode), 0o600)
        for words, status, message in (
            ([capture, "--config", text, "-o", out], 1, "exists: name a new file"),
            ([capture, "-o", self.folder / "a"], 2, "no key"),
            ([capture, "--config", text, "--config", text, "-o", self.folder / "a"], 2, "one receiver expected"),
            (["/nowhere", "--config", text, "-o", self.folder / "a"], 1, "/nowhere"),
            ([capture, "--config", text, "-o", "/nowhere/a"], 1, "/nowhere/a"),
            ([capture, "--config", text], 2, "-o"),
        ):
            told = main_of(report.main, *words)
            self.assertEqual((told[0], message in told[2]), (status, True), told)
        self.assertEqual(self.names(), ["CONFIG", "IN", "page.html"])
        self.assertEqual(main_of(report.main, capture, "--config", text, "-o", "-")[1], out.read_text())

    @unittest.skipUnless(shutil.which("chromium"), "needs chromium")
    def test_in_a_browser(self) -> None:
        """What a browser has made of the page."""
        path = self.put("IN", troubled())
        (self.folder / "page.html").write_text(self.page(path, "--config", self.put("CONFIG", config(*KEYS[:2]))))
        words = ["chromium", "--headless", "--no-sandbox", "--disable-gpu", f"--user-data-dir={self.folder}/browser",
                 "--virtual-time-budget=9000", "--dump-dom", f"file://{self.folder}/page.html"]  # fmt: skip
        shown = subprocess.run(words, capture_output=True, text=True, timeout=300)
        self.assertNotIn("Content Security Policy", shown.stderr)
        self.assertIn('data-state="drawn"', shown.stdout)
        marks: Counter[str] = Counter()
        for kind, n in re.findall(r'class="k-(\w+)" d="[^"]*" data-marks="(\d+)"', shown.stdout):
            marks[kind] += int(n)
        self.assertEqual(+marks, {"ok": 75, "twice": 20, "late": 6, "invalid": 10, "nosa": 5}, shown.stdout[:200])
        for text in ("10 IVs used twice under one key: stop using the key", "5 packet numbers missing, in 1 gap"):
            self.assertIn(text, shown.stdout)
