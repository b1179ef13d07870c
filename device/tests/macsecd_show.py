"""`macsecctl NAME show`: what it says agrees with `json`, and it names the last drop."""

from __future__ import annotations

import json
import re

from house import families
from house.reporting import report, until
from macsecd_world import End, Packets, ping

# The rows of the tables: AN, key and state, then numbers.
SENDS = re.compile(r"^ +(\d) +(\d+)  (on|off), (encrypts|integrity only) +(\d+|none left) +(\S+( 10\^12)?)$", re.M)
RECEIVES = re.compile(r"^ +(\d) +(\d+)  (on|off) +(\d+|none left) +(\d+|none left) +(\d+) +(\d+) +(\d+)$", re.M)
AGE = r"\d+ s ago"
# The counters in the last columns.
COLUMNS = {it["name"]: it["column"] for it in families.family("counters", of="rx") if "column" in it}


def rows_of_json(end: End) -> tuple[list[tuple[str, ...]], list[tuple[str, ...]]]:
    """The rows that the tables must have."""
    shown = json.loads(end.ask("json"))
    last = 2**64 if "xpn" in end.config.read_text() else 2**32
    sends, receives = [], []
    for it in shown["transmit"]:
        number, left = int(it["next"], 16), last - int(it["next"], 16)
        state = "on" if it["on"] else "off", "encrypts" if it["conf"] else "integrity only"
        sends.append((f"{it['an']}", f"{it['key']}", *state, f"{number}", "> 10^12" if left > 10**12 else f"{left}"))
    for channel in shown["receive"]:
        for it in channel["associations"]:
            counts = (f"{it['counters'][name]}" for name in COLUMNS)
            numbers = (f"{int(it[name], 16)}" for name in ("next", "lowest"))
            receives.append((f"{it['an']}", f"{it['key']}", "on" if it["on"] else "off", *numbers, *counts))
    return sends, receives


def rows_of_text(text: str) -> tuple[list[tuple[str, ...]], list[tuple[str, ...]]]:
    return [it[:6] for it in SENDS.findall(text)], RECEIVES.findall(text)


# Frames from the other end of the wire, and what is said of each: one without a tag, and two of no association.
DROPPED = {
    "88b5": "NoTag",
    "88e52e00000000010200000000990001": "NoSAError, SCI 0200000000990001, AN 2",
    "88e5030000000001": "NoSAError, SCI none, AN 3",
}


def check_rows(end: End) -> None:
    """The tables have the rows of `json`, with one association in each."""
    report(until(lambda: rows_of_text(end.ask("show")) == rows_of_json(end)), f"show has other rows: {end.ask('show')}")
    text = end.ask("show")
    heading = "lowest PN" + "".join(f" {it:>11}" for it in COLUMNS.values())
    report(f"{heading}\n" in text, f"show has not the heading {heading}: {text}")
    report(len(rows_of_text(text)[0]) == 1 == len(rows_of_text(text)[1]), f"show has not one row each: {text}")


def check_show(end: End) -> None:
    """The text of a device that has sent, received and dropped frames."""
    peer = end.peer.sci
    report(ping(end) == 3, "no replies")
    check_rows(end)
    text = end.ask("show")
    for form in (
        r"\Amacsec0\n  link link0: up, MTU \d+, [0-9a-f]{2}(:[0-9a-f]{2}){5}, in .+$",
        r"^  tap macsec0: port on, segments TCP( and UDP)?$",
        rf"^  suite \w+, SCI {end.sci}, \d+ keys left$", rf"^  last frame sent: {AGE}$",
        r"^  journal: [1-9]\d* of 28672 names$",
        rf"^peer {peer}: last frame {AGE}$",
    ):  # fmt: skip
        report(re.search(form, text, re.M) is not None, f"show has no {form}: {text}")
    other = Packets(end.peer.link_namespace, "link0")
    for octets, said in DROPPED.items():
        other.send(bytes.fromhex("ffffffffffff020000000099" + octets) + bytes(90))
        wanted = rf"^  last drop: {AGE}, from the link: {said}$"
        report(until(lambda: re.search(wanted, end.ask("show"), re.M) is not None), f"show: {end.ask('show')}")
