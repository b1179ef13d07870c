#!/usr/bin/env python3
"""Two runs send frames under one key. A journal keeps the second one above all packet numbers that the first one may
have used.

The key is a published test vector: use your own. The journal is in a temporary folder here: keep yours."""

from __future__ import annotations

import tempfile

from macsec import JournalFile, SecY

# A record reserves the packet numbers of four seconds at 1,000 frames a second.
AMOUNT = 4096
CONFIG = """
end A gcm128 0200000000010001 1518 sci
A key 0 ad7a2bd03eac835a6f620fdcb506b345 0
"""
FRAME = bytes.fromhex("0200000000020200000000018888") + bytes(46)


def reserve(journal, secy):
    """Reserves AMOUNT packet numbers, unless half of them are left. If the disk fails, OSError is raised: the endpoint
    can still send what is reserved. Try again after a second."""
    record = secy.reserve_wanted(0, AMOUNT)
    if record is not None:
        journal.write([record])
        secy.reserve_granted(record)


def run(path, count):
    """Sends frames, and asks for more packet numbers before each one: twice in AMOUNT frames is enough."""
    with JournalFile(path) as journal, SecY.configure(CONFIG, journal.whole()) as secy:
        floor = secy.reserve_tx_floor(0)
        secy.add_tx_sa(0, key=0, pn=floor + 1, conf=True)
        reserve(journal, secy)
        secy.enable_tx_sa(0)
        for _ in range(count):
            reserve(journal, secy)
            if secy.send(FRAME).frame is None:
                raise SystemExit("a frame was not protected")
        print(f"above {floor}: {count} frames, the last one has packet number {secy.tx_sa(0).next - 1}")


with tempfile.TemporaryDirectory() as folder:
    JournalFile.create(f"{folder}/journal")
    for frames in (5000, 10):
        run(f"{folder}/journal", frames)
