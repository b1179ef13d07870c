"""The endpoint that tries settings: it opens what a new association would, however it was begun."""

from __future__ import annotations

import random
import unittest

from macsec import Suite
from macsec.names import Verdict
from macsec.trial import Key, Trial

from .frames import client_frames, protected
from .helpers import KEYS, SALT, SENDER

SCI = bytes.fromhex(SENDER)


def fresh(key: Key, ssci: int, upper: int, frame: bytes) -> Verdict:
    """The verdict under an endpoint that has seen nothing."""
    trial = Trial(key, SCI, 0, ssci)
    trial.begin(upper)
    verdict = trial.receive(frame).verdict
    trial.close()
    return verdict


class Beginning(unittest.TestCase):
    def test_in_any_order(self) -> None:
        source = random.Random(1)
        met: set[Verdict] = set()
        for _ in range(60):
            low = source.choice([1, 2, 0x7FFF_FFFF, 0x8000_0000, 0xFFFF_FFFE, source.randrange(1, 2**32 - 1)])
            (frame,) = protected(client_frames(1), suite=Suite.xpn128, pn=source.randrange(6) << 32 | low, ssci=3)
            key = Key(KEYS[0], Suite.xpn128, 0, SALT)
            trial = Trial(key, SCI, 0, 3)
            for _ in range(12):
                upper, ssci = source.randrange(7), source.choice([3, 3, 3, 4])
                trial.begin(upper, ssci)
                verdict = trial.receive(frame).verdict
                self.assertEqual(verdict, fresh(key, ssci, upper, frame))
                met.add(verdict)
            trial.close()
        self.assertEqual(met, {Verdict.OK, Verdict.NotValid})
