"""Captures of Linux with VLAN tags and frame check sequences, which kernel-captures made, are opened without any
CONFIG but those that macsec-config writes."""

from __future__ import annotations

import collections
import json
import shutil
from collections import Counter

from macsec import capture
from macsec.cli import config, decrypt, why

from .helpers import DATA, InFolder, main_of


class Linux(InFolder):
    """6 pings from each end, and what ARP asks before and after them."""

    def configs(self, name: str) -> list[str]:
        """The paths of CONFIGs for a capture: from the commands, from `ip -j macsec show`, and from the capture."""
        for end in ("pcap", "sh", "json", "keys"):
            shutil.copy(DATA / f"{name}.{end}", self.folder)
        keys = (self.folder / f"{name}.keys").read_text().split()
        at = str(self.folder / name)
        made = []
        for source in (
            ("--ip", f"{at}.sh", "--as", "observer"),
            ("--ip-json", f"{at}.json", "--key", f"01={keys[0]}", "--key", f"02={keys[1]}", "--as", "observer"),
            ("--capture", f"{at}.pcap", "--keys", f"{at}.keys"),
        ):
            status, text, error = main_of(config.main, *source)
            self.assertEqual((status, error), (0, ""), text)
            made.append(self.put(f"{len(made)}.config", text))
        note = "28 frames with a VLAN tag before the SecTAG: macsec-decrypt opens these"
        self.assertEqual(note in text, name != "above")
        return made

    def opened(self, name: str, tags: str, causes: dict[tuple[str, ...], int]) -> None:
        """With each CONFIG macsec-why names these causes of so many frames. macsec-decrypt opens all 28."""
        for path in self.configs(name):
            status, text, _ = main_of(why.main, path, self.folder / f"{name}.pcap", "--json")
            named: Counter[tuple[str, ...]] = collections.Counter()
            for group in [it["unopened"] for it in map(json.loads, text.splitlines()) if "unopened" in it]:
                named[tuple(it["cause"] for it in group["causes"])] += len(group["records"])
            self.assertEqual((status, named), (3 if causes else 0, causes))
        out = self.folder / f"{name}.pcapng"
        words = (self.folder / f"{name}.pcap", out, "--keys", self.folder / f"{name}.keys")
        status, text, error = main_of(decrypt.main, *words)
        self.assertEqual((status, text.splitlines()[-1], error), (0, "28 frames opened", ""))
        frames = [it.frame for it in capture.read(str(out))]
        head = 12 + len(tags) // 2
        self.assertEqual({it[12:head].hex() for it in frames}, {tags})
        # 28 octets of ARP, and 84 of IP: nothing is left at the end.
        kinds = collections.Counter((it[head : head + 2].hex(), len(it) - head - 2) for it in frames)
        self.assertEqual(kinds, {("0806", 28): 4, ("0800", 84): 24})

    def test_a_tag_before_the_sectag(self) -> None:
        self.opened("below", "81000064", {("vlan",): 28})

    def test_a_tag_within(self) -> None:
        self.opened("above", "81000064", {})

    def test_two_tags_and_a_frame_check_sequence(self) -> None:
        """Of a short frame, as ARP's, SL says where the ICV is: its frame check sequence is no fault."""
        self.opened("twice-fcs", "88a8000a81000064", {("vlan",): 4, ("vlan", "fcs"): 24})
