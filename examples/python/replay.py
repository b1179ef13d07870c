#!/usr/bin/env python3
"""Repeats, delays and drops frames, and shows which of them a receiver accepts, with and without a replay window.

The key is a published test vector: use your own."""

from __future__ import annotations

from macsec import SecY

KEY = bytes.fromhex("ad7a2bd03eac835a6f620fdcb506b345")
SENDER_SCI, RECEIVER_SCI = "0200000000010001", "0200000000020001"


def sender():
    """An endpoint that encrypts under association 0, from packet number 1 on."""
    it = SecY(SENDER_SCI)
    it.install_key(0, KEY)
    it.add_tx_sa(0, key=0, pn=1, conf=True)
    it.enable_tx_sa(0)
    return it


def receiver(window, drops_late_frames=True):
    """An endpoint that receives from it."""
    it = SecY(RECEIVER_SCI)
    it.install_key(0, KEY)
    it.add_rx_sc(SENDER_SCI)
    it.add_rx_sa(SENDER_SCI, 0, key=0, pn=1)
    it.enable_rx_sa(SENDER_SCI, 0)
    it.set_replay(drops_late_frames, window)
    return it


with sender() as it:
    frames = [it.send(bytes.fromhex("ffffffffffff0200000000010800") + bytes([n])).frame for n in range(6)]

# The attacker holds frame 3 back, repeats frame 2, and sends frame 1 again at the end.
order = [0, 1, 2, 2, 4, 3, 5, 1]
print("packet number      " + "".join(f"{n + 1:>9}" for n in order))
for name, made in (("window 0", receiver(0)), ("window 2", receiver(2)), ("no protection", receiver(0, False))):
    print(f"{name:<19}" + "".join(f"{made.receive(frames[n]).verdict.name:>9}" for n in order))
    association = made.rx_sa(SENDER_SCI, 0)
    counters = {name: count for name, count in made.rx_counters(SENDER_SCI).items() if count}
    print(f"    lowest acceptable {association.lowest}, next expected {association.next}, {counters}")

print()
print("A window lets late frames in, but not only late ones: inside it a repeated frame is accepted again.")
