"""Devices with one planted mistake each: macsec-forge finds it, shrinks it to the smallest frames, and scores it."""

from __future__ import annotations

import argparse
import contextlib
import io
import itertools
import json
import re
import time
from typing import Any, Callable, NamedTuple, Optional

from macsec import SecY, device_trial, hostile
from macsec.cli import on_a_wire
from macsec.endpoint_of_config import Configuration
from macsec.number_file import NumberFile

from .helpers import ROOT, SENDER, InFolder
from .test_forge import CONFIG, source

SOMETHING = b"\x88\xb5"
Before = list[tuple[bytes, Optional[bytes]]]
# What a device delivers: by the frame, by what it should deliver, and by what it received and should have delivered.
Wrong = Callable[[bytes, Optional[bytes], Before], Optional[bytes]]


class Device:
    """A device under test with a planted mistake, in place of two interfaces."""

    name = "client"

    def __init__(self, wrong: Wrong = lambda link, right, before: right) -> None:
        self.secy, self.wrong = SecY.configure(CONFIG), wrong
        self.before: Before = []
        self.out: list[bytes] = []

    def send(self, link: bytes) -> None:
        right = self.secy.receive(link).frame
        made = self.wrong(link, right, self.before)
        self.before.append((link, right))
        self.out += [] if made is None else [made]

    def frames(self, seconds: float) -> list[bytes]:
        time.sleep(seconds)
        found, self.out = self.out, []
        return found


class Planted(NamedTuple):
    """A mistake; the first frame of the list that shows it; the smallest frames, as the hex digits after the addresses,
    where N are those of a packet number, and * is any other digit; and the data of the last, in order, if it opens."""

    wrong: Wrong
    name: str
    smallest: tuple[str, ...]
    data: bytes = b""


def bit_6(link: bytes, right: bytes | None, _: Before) -> bytes | None:
    """It does not look at a reserved bit beside SL."""
    return link[:12] + SOMETHING if right is None and link[15] & 0x40 else right


def again(link: bytes, right: bytes | None, before: Before) -> bytes | None:
    """It delivers again what it has delivered."""
    return right or dict(before).get(link)


def after_v(_: bytes, right: bytes | None, before: Before) -> bytes | None:
    """It loses the first valid frame after one with V set."""
    since = itertools.takewhile(lambda it: it[1] is None, reversed(before))
    return None if any(link[14] & 0x80 for link, _ in since) else right


def unchecked(link: bytes, right: bytes | None, _: Before) -> bytes | None:
    """It delivers what is not encrypted without validation."""
    is_clear = link[12:14] == hostile.MACSEC and not link[14] & 0xD8
    return link[:12] + SOMETHING if is_clear and right is None else right


def number_0(link: bytes, right: bytes | None, _: Before) -> bytes | None:
    """It takes packet number 0."""
    return link[:12] + SOMETHING if link[12:14] == hostile.MACSEC and link[16:20] == bytes(4) else right


def line_feed(_: bytes, right: bytes | None, __: Before) -> bytes | None:
    """It loses data with a line feed."""
    return None if right is None or b"\n" in right else right


def padded(link: bytes, right: bytes | None, _: Before) -> bytes | None:
    """It loses what has octets after the ICV, and data of 40 octets or more."""
    end = (28 if link[14] & 0x20 else 20) + link[15] + 16
    return None if right is None or link[15] >= 40 and len(link) > end else right


def nothing(*_: object) -> None:
    """It delivers nothing."""


# An ordinary frame without the SCI has E and C. It has one octet of data, or two: a device need not deliver 13 octets.
NUMBER, ICV = "N" * 8, "*" * 32
ONE, TWO = f"88e50c01{NUMBER}**{ICV}", f"88e50c02{NUMBER}****{ICV}"
MADE = (
    Planted(bit_6, "sl-bit-6", (f"88e50c40{NUMBER}{ICV}",)),
    Planted(again, "again", (ONE, ONE)),
    Planted(after_v, "no-sci", (f"88e58c00{NUMBER}{ICV}", TWO), bytes(2)),
    Planted(unchecked, "encrypted-no-e", (f"88e50401{NUMBER}**{ICV}",)),
    Planted(nothing, "ordinary", (TWO,), bytes(2)),
    Planted(line_feed, "ordinary", (TWO,), b"\0\n"),
    Planted(padded, "padded", (f"88e50c28{NUMBER}{'**' * 40}{ICV}00",), bytes(40)),
    # It stays whole: with other octets its IV would be used twice.
    Planted(number_0, "pn-0", (f"88e52c2e{'0' * 8}{SENDER}{'**' * 46}{ICV}",)),
)
# Of frames of a file what does not open is shrunk as octets, without an ICV.
OF_A_FILE = (Planted(bit_6, "sl-bit-6", ("88e50c40",)), Planted(again, "again", (ONE, ONE)))


def pattern(digits: str) -> str:
    return "[0-9a-f]{24}" + digits.replace("*", "[0-9a-f]").replace("N", "[0-9a-f]")


class OfPlanted(InFolder):
    def run_of(self, *devices: Device, is_made: bool = True, **asked: Any) -> tuple[int, str]:
        """Sends the list. Returns the status, and what is printed."""
        words = argparse.Namespace(**{"wait": 0, "rate": None, "json": True, "shrink": False, **asked})
        (self.folder / "numbers").unlink(missing_ok=True)
        of = hostile.unused_number(source())
        made = [
            on_a_wire.Made(frame, f"{it.name}: ..", it.shape.pn, it.clause, it.shape if is_made else None)
            for it, frame in hostile.hostile_list(of, True)
        ]
        out, error = io.StringIO(), io.StringIO()
        with NumberFile(str(self.folder / "numbers"), of) as file:
            file.reserve(max(it.pn for it in made) + 1)
            sides: Any = [on_a_wire.Device(it, it) for it in devices]  # type: ignore[arg-type]
            with contextlib.redirect_stdout(out), contextlib.redirect_stderr(error):
                status = on_a_wire.send_and_judge(
                    words, Configuration(CONFIG.encode()), made, sides, on_a_wire.Numbers(of, file)
                )
        return status, out.getvalue()

    def test_shrunk(self) -> None:
        for is_made, planted in [(True, it) for it in MADE] + [(False, it) for it in OF_A_FILE]:
            with self.subTest(planted.wrong.__doc__, is_made=is_made):
                status, printed = self.run_of(Device(planted.wrong), is_made=is_made, shrink=True)
                lines = list(map(json.loads, printed.splitlines()))
                found = lines[-1]["smallest"]
                differing = [it["name"] for it in lines[:-2] if not it["agree"]]
                self.assertEqual((status, found["name"], differing[0]), (3, f"{planted.name}: ..", found["name"]))
                self.assertEqual(len(found["frames"]), len(planted.smallest), found)
                for frame, digits in zip(found["frames"], planted.smallest):
                    self.assertRegex(frame, f"^{pattern(digits)}$")
                # Sent to a new device of this kind, they show the mistake.
                with SecY.configure(CONFIG) as secy:
                    judged = list(device_trial.judged(secy, [("", bytes.fromhex(it)) for it in found["frames"]]))
                device: Any = Device(planted.wrong)
                self.assertFalse(device_trial.tried(judged, device, device, 0)[0][-1].agrees)
                self.assertEqual(bytes(sorted((judged[-1].expected or b"")[12:])), planted.data)

    def test_no_number_has_two_contents(self) -> None:
        """All frames of runs that shrink: no packet number below the SecTAG is in two frames that differ."""
        for planted in MADE:
            device, used = Device(planted.wrong), dict[bytes, bytes]()
            self.run_of(device, shrink=True)
            for link, _ in device.before:
                self.assertEqual(used.setdefault(link[:6], link), link, planted.wrong.__doc__)

    def test_a_device_that_agrees_is_not_shrunk(self) -> None:
        status, printed = self.run_of(Device(), shrink=True, json=False)
        self.assertEqual(
            (status, "36 frames: 36 agree, 0 differ\n" in printed, "smallest" in printed), (0, True, False)
        )

    def test_beside(self) -> None:
        """Two devices: who differs, and the score of each by clause."""
        status, printed = self.run_of(Device(), Device(again), json=False, shrink=True)
        self.assertEqual(status, 3)
        self.assertRegex(printed, r"(?m)^Late +dropped +delivered 58 +2 DIFFERS +again: \.\.$")
        self.assertEqual(len(re.findall(r"(?m) agree +[\w-]+: \.\.$", printed)), 35)
        self.assertRegex(printed, r"(?m)^  clause 10\.6\.2 +packet numbers +1 tried, 1, 0 as expected$")
        self.assertRegex(printed, r"(?m)^  clause 9\.5 +TCI +6 tried, all as expected$")
        self.assertRegex(printed, rf"(?m)^the smallest for again: \.\.: 2 frames .*\n(inject {pattern(ONE)}\n){{2}}\Z")
        status, printed = self.run_of(Device(nothing), Device(again))
        *rows, counts = map(json.loads, printed.splitlines())
        self.assertEqual(sum(not it["agree"] or not it["beside"]["agree"] for it in rows), counts["differ"])
        self.assertEqual(sum(it[0] for it in counts["clauses"].values()), 36)
        self.assertEqual(counts["clauses"]["10.6.2"], [1, 1, 0])
        opened = sum(it.verdict == it.verdict.OK for it, _ in hostile.hostile_list(source()))
        # The client's frame of one-octet need not be delivered.
        self.assertEqual(sum(it[0] - it[1] for it in counts["clauses"].values()), opened - 1)

    def test_clauses(self) -> None:
        """Each clause is one of those in conformance/, and each verdict of the standard has one."""
        known = set[str]()
        for name in ("clause-9", "clause-10"):
            known |= {it["clause"] for it in json.loads((ROOT / f"conformance/{name}.json").read_text())["rows"]}
        named = {it.clause for it in hostile.CASES} | {*hostile.CLAUSE_OF.values()}
        self.assertEqual((named - {*hostile.CLAUSES}, {*hostile.CLAUSES} - named - known), (set(), set()))
        self.assertLessEqual(named, known)
        verdicts = json.loads((ROOT / "tools/families.json").read_text())["verdicts"]
        self.assertEqual({it.name for it in hostile.CLAUSE_OF}, {it["name"] for it in verdicts if it.get("clause")})

    def test_rate(self) -> None:
        times = list[float]()

        def noted(_: bytes, right: bytes | None, __: Before) -> bytes | None:
            times.append(time.monotonic())
            return right

        self.run_of(Device(noted), rate=100.0)
        # What was sent late is made up for, but for no more than 0.05 s.
        self.assertGreater(times[-1] - times[0], 0.3)
