"""The part of macsec-forge that sends its frames to devices under test, and reports what each device did."""

from __future__ import annotations

import argparse
import json
import math
from collections.abc import Iterator, Sequence
from typing import NamedTuple

from ..device_trial import Outcome, judged, tried
from ..endpoint_of_config import Configuration
from ..errors import UsageError
from ..hostile import CLAUSES, Shape, Source
from ..interface import Interface
from ..number_file import NumberFile
from ..script_frames import inject_line
from ..secy import SecY
from ..shrinking import moved, shape_of, shrunk
from . import say, warn

DIFFERS = 3
_WAIT = 0.2
# So many packet numbers are taken from the file at once.
_RESERVED = 1000
# So often the smallest frames are sent until the device differs.
_MOST_TRIES = 3


class Made(NamedTuple):
    """A frame that was made, what it is, the packet number in its IV, the clause that it tries, and how it was made."""

    frame: bytes
    comment: str = ""
    pn: int = 0
    clause: str = ""
    shape: Shape | None = None


class Device(NamedTuple):
    """A device under test, by the interfaces at its two sides."""

    link: Interface
    client: Interface


class Numbers(NamedTuple):
    """Whose frames are made, and the file of their packet numbers."""

    source: Source
    file: NumberFile


def add_wire_options(parser: argparse.ArgumentParser) -> None:
    """The options for a device under test."""
    wire = parser.add_argument_group(
        "a device under test",
        "send the frames to it, and compare what it delivers with what CONFIG's endpoint delivers",
    )
    wire.add_argument("--send", metavar="IFACE", help="the interface to which the frames are sent, in place of OUT")
    wire.add_argument(
        "--judge", metavar="IFACE", help="the interface at the device's other side, where frames come out"
    )
    wire.add_argument(
        "--beside", metavar="IFACE", nargs=2, help="--send and --judge of a second device, for the same frames"
    )
    wire.add_argument("--state", metavar="FILE", help="where the packet numbers go on from one run to the next")
    wire.add_argument("--wait", type=float, metavar="SECONDS", help=f"for what the device delivers ({_WAIT})")
    wire.add_argument("--shrink", action="store_true", help="find the smallest frame on which the device differs")
    wire.add_argument("--json", action="store_true", help="one JSON object on each line")


def check_wire_options(asked: argparse.Namespace) -> None:
    """Raises an error if the options do not fit each other."""
    if asked.rate is not None and not (math.isfinite(asked.rate) and asked.rate > 0):
        raise UsageError("--rate: a number of frames a second expected")
    if asked.send is None and asked.judge is None:
        if asked.shrink or asked.json or any(it is not None for it in (asked.state, asked.wait, asked.beside)):
            raise UsageError("--beside, --state, --wait, --shrink and --json: only with --send and --judge")
        if asked.out is None:
            raise UsageError("where to: give OUT, or --send and --judge")
        return
    names = [asked.send, asked.judge, *(asked.beside or ())]
    if len({*names} - {None}) != len(names):
        raise UsageError("--send, --judge and --beside: two interfaces expected, one at each side of a device")
    if asked.out is not None:
        raise UsageError("OUT: not with --send")
    if asked.config is None:
        raise UsageError("--send: give --config, the device's CONFIG, whose endpoint judges")
    if asked.wait is None:
        asked.wait = _WAIT
    if not (math.isfinite(asked.wait) and 0 <= asked.wait <= 3600):
        raise UsageError("--wait: 0 to 3600 seconds expected")
    needs_numbers = asked.shrink or not (asked.capture or asked.text or asked.frames)
    if needs_numbers and asked.state is None:
        raise UsageError("--send: give --state FILE, so that the next run uses no packet number again")
    if not needs_numbers and asked.state is not None:
        raise UsageError("--state: only for frames that are made here")


def send_and_judge(
    asked: argparse.Namespace, configuration: Configuration, made: Sequence[Made], devices: Sequence[Device],
    numbers: Numbers | None = None,
) -> int:  # fmt: skip
    """Sends frames, prints what became of each, and returns the exit status."""
    with configuration.fresh() as endpoint:
        frames = [(it.comment or f"frame {number}", it.frame) for number, it in enumerate(made)]
        judgements = [
            it._replace(clause=of.clause or it.clause) for it, of in zip(judged(endpoint, frames), made)
        ]  # fmt: skip
        rate = math.inf if asked.rate is None else asked.rate
        sent = [tried(judgements, *it, asked.wait, rate) for it in devices]
        rows = [Row(it) for it in zip(*(outcomes for outcomes, _ in sent))]
        others = sum(count for _, count in sent)
        for row in rows:
            say(json.dumps(row.as_dict()) + "\n" if asked.json else "".join(row.lines()))
        _say_counts(asked, rows, others)
        for (_, client), (outcomes, _) in zip(devices, sent):
            if any(it.judged.expected is not None for it in outcomes) and not any(it.delivered for it in outcomes):
                warn(
                    "macsec-forge", f"the device delivered nothing to {client.name}: see its keys, and whether it is up"
                )
        if asked.shrink and numbers is not None:
            _shrink(asked, configuration, endpoint, made, rows, devices, numbers)
    return 0 if all(it.agrees for it in rows) else DIFFERS


class Row(NamedTuple):
    """What each device did with a frame."""

    outcomes: tuple[Outcome, ...]

    @property
    def name(self) -> str:
        return self.outcomes[0].judged.name

    @property
    def agrees(self) -> bool:
        return all(it.agrees for it in self.outcomes)

    def lines(self) -> Iterator[str]:
        """A line, and more with the octets if a device delivered others."""
        judged_as = self.outcomes[0].judged
        expected = judged_as.expected
        here = judged_as.verdict + ("" if expected is None else f" {len(expected)}")
        wrong = [str(number) for number, it in enumerate(self.outcomes, 1) if not it.agrees]
        told = "DIFFERS" if wrong else "agree"
        if len(self.outcomes) > 1 and wrong:
            told = "both DIFFER" if len(wrong) == 2 else f"{wrong[0]} DIFFERS"
        did = " ".join(f"{it.device:<22}" for it in self.outcomes)
        yield f"{here:<14} {did} {told:<{8 if len(self.outcomes) == 1 else 11}} {judged_as.name}\n"
        for number, it in enumerate(self.outcomes, 1):
            if expected is not None and it.delivered and not it.agrees:
                device = "device" if len(self.outcomes) == 1 else f"device {number}"
                yield f"  {'here':<{len(device)}} {expected.hex()}\n"
                yield from (f"  {device} {each.hex()}\n" for each in it.delivered)

    def as_dict(self) -> dict[str, object]:
        """The row for JSON."""
        first, *more = self.outcomes
        it = first.judged
        found: dict[str, object] = {
            "name": it.name, "clause": it.clause, "sent": it.sent.hex(), "verdict": it.verdict,
            "here": None if it.expected is None else it.expected.hex(),
            "device": [each.hex() for each in first.delivered], "agree": first.agrees,
        }  # fmt: skip
        for other in more:
            found["beside"] = {"device": [each.hex() for each in other.delivered], "agree": other.agrees}
        return found


def _scores(rows: Sequence[Row]) -> dict[str, list[int]]:
    """For each clause that was tried how many frames there were, and how many each device treated as expected."""
    found: dict[str, list[int]] = {it: [] for it in (*CLAUSES, "none")}
    for row in rows:
        counts = [1, *(int(it.agrees) for it in row.outcomes)]
        before = found[row.outcomes[0].judged.clause] or [0] * len(counts)
        found[row.outcomes[0].judged.clause] = [a + b for a, b in zip(before, counts)]
    return {clause: counts for clause, counts in found.items() if counts}


def _say_counts(asked: argparse.Namespace, rows: Sequence[Row], others: int) -> None:
    differing, scores = sum(not it.agrees for it in rows), _scores(rows)
    if asked.json:
        counts = {"frames": len(rows), "differ": differing, "other frames": others, "clauses": scores}
        say(json.dumps(counts) + "\n")
        return
    say(f"{len(rows)} frames: {len(rows) - differing} agree, {differing} differ{'s' * (differing == 1)}\n")
    if others:
        say(f"{others} frames came out that have the addresses of none of them\n")
    for clause, (count, *good) in scores.items():
        told = ", ".join(map(str, good)) if min(good) < count else "all"
        say(f"  clause {clause:<7} {CLAUSES.get(clause, 'too long'):<24} {count:>5} tried, {told} as expected\n")


def _shrink(
    asked: argparse.Namespace, configuration: Configuration, endpoint: SecY, made: Sequence[Made],
    rows: Sequence[Row], devices: Sequence[Device], numbers: Numbers,
) -> None:  # fmt: skip
    """Prints the smallest frames that show the first difference, of the first device that has it."""
    at = next((number for number, it in enumerate(rows) if not it.agrees), None)
    if at is None:
        return
    which = next(number for number, it in enumerate(rows[at].outcomes) if not it.agrees)
    shapes = [it.shape or shape_of(it.frame, configuration, numbers.source) for it in made[: at + 1]]
    again = _Again(asked.wait, endpoint, devices[which], numbers, rows[at].outcomes[which])
    again.next = max([again.next, *(it.pn + 1 for it in shapes)])
    smallest = shrunk(shapes, numbers.source, again.holds)
    is_found = smallest is not None and any(again.holds(smallest) for _ in range(_MOST_TRIES))
    verdict = again.last.judged.verdict
    if asked.json:
        frames = [it.hex() for it in again.frames]
        found = {"name": rows[at].name, "frames": frames, "verdict": verdict, "tries": again.tries}
        say(json.dumps({"smallest": found if is_found else None}) + "\n")
    elif is_found:
        count = len(again.frames)
        told = f"{count} frame{'s' * (count > 1)} after {again.tries} tries: here {verdict}"
        told += f", the device {again.last.device}"
        say(f"the smallest for {rows[at].name}: {told}\n" + "".join(inject_line(it) + "\n" for it in again.frames))
    else:
        say(f"{rows[at].name} is not shrunk: under other packet numbers the device does not differ so\n")


class _Again:
    """Sends frames again, under fresh packet numbers, to a device and to the endpoint that is in step with it."""

    def __init__(self, wait: float, endpoint: SecY, device: Device, numbers: Numbers, outcome: Outcome) -> None:
        self._wait, self._endpoint, self._device, self._numbers = (wait, endpoint, device, numbers)
        self._wanted = self._kind(outcome)
        self.next, self.tries = numbers.file.next, 0
        self.frames: list[bytes] = []
        self.last = outcome

    @staticmethod
    def _kind(outcome: Outcome) -> tuple[str, bool, bool]:
        return outcome.judged.verdict, bool(outcome.delivered), outcome.agrees

    def holds(self, shapes: Sequence[Shape]) -> bool:
        """Does the device differ as it did, in the last of these frames?"""
        fresh, self.next = moved(shapes, self.next)
        if self.next > self._numbers.file.next:
            self._numbers.file.reserve(self.next + _RESERVED)
        self.frames = [it.frame(self._numbers.source) for it in fresh]
        judgements = list(judged(self._endpoint, (("", it) for it in self.frames)))
        outcomes, _ = tried(judgements, *self._device, self._wait)
        self.last, self.tries = outcomes[-1], self.tries + 1
        return self._kind(self.last) == self._wanted
