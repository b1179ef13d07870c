"""The comments of macsec-decrypt and of macsec-report as tshark shows them by the plugin of integrations/wireshark."""

from __future__ import annotations

import json
import shutil
import subprocess
import unittest
from typing import Any

from macsec import Suite, capture
from macsec.cli import decrypt, report, why

from .frames import altered, client_frames, ip_packet, protected, vlan, with_fcs
from .helpers import KEYS, OTHER, ROOT, SALT, InFolder, main_of
from .test_report import config, frames_of, troubled

PLUGIN = ROOT / "integrations/wireshark/macsec_verdict.lua"
FIELDS = ("state", "verdict", "cause", "sci", "an", "pn", "key", "iv_also_in", "note")


def packets() -> list[bytes]:
    """Frames with several causes, an IV that is used twice, a tag that names nobody, and frames without a tag."""
    clients = [it[:12] + ip_packet(n, bytes(60)) for n, it in enumerate(client_frames(4))]
    cut = protected(clients, an=1, key=KEYS[1], pn=200)[0][:-7]
    sent = protected(client_frames(3), pn=300)
    more = [cut, vlan(sent[0]), with_fcs(sent[1]), sent[2] + bytes(9), *protected(client_frames(1), pn=400, form="es")]
    more += [vlan(with_fcs(protected(client_frames(1), pn=450)[0])), *protected(client_frames(1), pn=460, form="auto")]
    return [*troubled(), *more, altered(protected(clients, pn=0x12345)[1], 60), sent[0][:20]]


@unittest.skipUnless(shutil.which("tshark"), "needs tshark")
class Wireshark(InFolder):
    def shown(self, path: Any, *words: str) -> list[tuple[str, ...]]:
        """What tshark prints of each frame: the number of its record, and the fields."""
        fields = (f"macsec_verdict.{it}" for it in FIELDS)
        called = ["tshark", "-X", f"lua_script:{PLUGIN}", "-r", str(path), "-T", "fields", "-E", "aggregator=&"]
        called += [it for each in ("frame.number", *fields) for it in ("-e", each)]
        told = subprocess.run([*called, *words], stdout=subprocess.PIPE, stderr=subprocess.PIPE, text=True)
        self.assertFalse([it for it in told.stderr.splitlines() if "root" not in it])
        lines = [it.split("\t") for it in told.stdout.splitlines()]
        return [(str(int(it[0]) - 1), *it[1:]) for it in lines]

    def filtered(self, path: Any, text: str) -> list[int]:
        """The records that a filter finds."""
        return [int(it[0]) for it in self.shown(path, "-Y", f"macsec_verdict.{text}")]

    def test_the_capture_of_a_report(self) -> None:
        made = self.put("CONFIG", config(*KEYS[:2])), self.put("IN", packets())
        objects = [json.loads(it) for it in main_of(why.main, *made, "--json")[1].splitlines()]
        out = self.folder / "OUT"
        text = main_of(report.main, made[1], "-o", "-", "--config", made[0], "--pcapng", out)[1]
        (data,) = (json.loads(it[it.index("{") : it.rindex("}") + 1]) for it in text.splitlines() if '"rows":' in it)
        frames, groups = frames_of(data), [it["unopened"] for it in objects if "unopened" in it]
        causes = {n: [each["cause"] for each in it["causes"]] for it in groups for n in it["records"]}
        ivs = [it["iv used twice"]["records"] for it in objects if "iv used twice" in it]
        twice = {n: records for records in ivs for n in records}
        others = {n: it["verdict"] for it in groups if it.get("an") is None for n in it["records"]}
        shown = self.shown(out)
        self.assertEqual([it[0] for it in shown], list(map(str, range(len(packets())))))
        for record, state, verdict, cause, sci, an, pn, key, iv, note in shown:
            n = int(record)
            if n not in frames:
                self.assertIn((state, verdict), (("not protected", "NoTag"), ("not opened", others.get(n))))
                continue
            # The source address of a tag that names nobody is a guess, which the page has in parentheses.
            drawn, number, _, whole, name, _ = frames[n]
            self.assertEqual((sci, an, pn, verdict), (drawn.strip("()"), str(number), f"0x{whole:016x}", name))
            self.assertEqual((state, cause, note), ("", "&".join(causes.get(n, [])), ""))
            is_open = verdict in ("OK", "Delayed") or cause in ("replay", "vlan", "fcs", "padding", "vlan&fcs")
            self.assertEqual(key, f"key {an}" if is_open else "", (record, cause))
            self.assertEqual(iv != "", n in twice)
            self.assertIn(iv, ["", *(f"record {it}" for it in twice.get(n, []) if it != n)])
        named = {it for each in causes.values() for it in each}
        self.assertLessEqual({"replay", "vlan", "fcs", "cut", "altered"}, named)
        for each in ("replay", "vlan"):
            self.assertEqual(
                self.filtered(out, f'cause == "{each}"'), [n for n, it in sorted(causes.items()) if each in it]
            )
        self.assertEqual(self.filtered(out, "iv_also_in"), sorted(twice))
        late = [n for n, it in sorted(frames.items()) if it[4] == "Late" and it[3] > 5]
        self.assertEqual(self.filtered(out, 'verdict == "Late" && macsec_verdict.pn > 5'), late)
        self.assertEqual([it.frame for it in capture.read(str(out))], packets())

    def test_the_new_file_of_macsec_decrypt(self) -> None:
        extended = protected(client_frames(2), suite=Suite.xpn128, pn=0x2_0000_0001, sci=OTHER, form="sci")
        path, out = self.put("IN", [*packets(), *extended]), self.folder / "OUT"
        words = [it for key in KEYS[:2] for it in ("--key", key.hex())] + ["--key", f"{KEYS[0].hex()}:{SALT.hex()}"]
        objects = [json.loads(it) for it in main_of(decrypt.main, path, out, *words, "--json")[1].splitlines()]
        shown, expected = self.shown(out), []
        for it in (each for each in objects if "record" in each):
            state = "" if it["state"] == "opened" else it["state"]
            iv = f"record {it['iv_also_in']}" if "iv_also_in" in it else ""
            pn = f"0x{it['pn']:016x}" if "pn" in it else ""
            sci, an = it.get("sci", "").strip("()"), str(it.get("an", ""))
            row = state, it.get("verdict", ""), "", sci, an, pn, it.get("key", ""), iv, it.get("note", "")
            expected.append((str(it["record"]), *row))
        self.assertEqual(shown, expected)
        self.assertEqual({it[1] for it in shown}, {"", "not opened", "not protected"})
        self.assertEqual(len({it[7] for it in shown}), 4)
        self.assertGreater(len({it[8] for it in shown}), 5)

    def test_it_reads_no_standard_input_and_keeps_files(self) -> None:
        made = self.put("CONFIG", config(KEYS[0])), self.put("IN", protected(client_frames(1)))
        for path, status, text in (
            ("-", 2, "--pcapng reads IN twice: IN cannot be standard input"),
            (made[1], 1, f"{made[0]} exists: name a new file"),
        ):
            told = main_of(report.main, path, "-o", "-", "--config", made[0], "--pcapng", made[0])
            self.assertEqual(told, (status, "", f"macsec-report: {text}\n"))
        self.assertEqual(self.names(), ["CONFIG", "IN"])
