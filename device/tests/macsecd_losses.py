"""Frames that are lost: each is in a counter of macsecd or of the system, and TCP gets through."""

from __future__ import annotations

import concurrent.futures
import signal
import subprocess
import time

from house.reporting import Failed, report, until
from macsecd_handover import dropped
from macsecd_world import IN, OUT, RX, End, Stream, World, inside, tcp, tcp_pair, transfer


def count_all(end: End) -> None:
    """Each frame that macsecd read is in one counter of the endpoint or of the device."""
    c = end.counters()
    sci = end.peer.sci
    judged = sum(c[it] for it in IN) + sum(c[f"{sci} {it}"] for it in RX)
    names = ("LinkTooShort", "LinkTooLong", "NoEndpoint", "LinkNoReservation", "LinkEarlierRun")
    faults = sum(c[f"device {it}"] for it in names)
    report(c["device LinkIn"] == judged + faults, f"{end.number}: {c['device LinkIn']} frames of LINK, {judged} judged")
    sent = sum(c[it] for it in OUT)
    faults = sum(c[f"device {it}"] for it in ("TapTooShort", "TapTooLong", "NoReservation", "PortOut"))
    report(c["device TapIn"] == sent + faults, f"{end.number}: {c['device TapIn']} frames of TAP, {sent} sent")


def settled(a: End, b: End) -> tuple[dict[str, int], dict[str, int]]:
    """The counters of both ends, when no frame is under way."""
    names = ["device LinkIn", "device LinkOut", "device LinkLost"]
    for _ in range(50):
        first, second = a.counters(), b.counters()
        time.sleep(0.1)
        later = a.counters(), b.counters()
        if all(first[it] == later[0][it] and second[it] == later[1][it] for it in names):
            return later
    raise Failed("frames come all the time")


def sent_of(end: End) -> int:
    """How many frames LINK took."""
    return end.counters()["device LinkOut"]


def check_tcp(a: End, b: End, octets: int) -> None:
    """TCP: each frame that one end sends is read by the other."""
    before = settled(a, b)
    seconds = tcp(a, octets)
    print(f"losses: TCP, {octets / seconds / 1e6:.1f} million octets a second", flush=True)
    after = settled(a, b)
    grown = [{name: after[end][name] - before[end][name] for name in before[end]} for end in (0, 1)]
    for sender, receiver in ((0, 1), (1, 0)):
        sent, got = grown[sender]["device LinkOut"], grown[receiver]["device LinkIn"]
        lost = grown[receiver]["device LinkLost"]
        refused = grown[sender]["device LinkRefused"], grown[receiver]["device TapRefused"]
        holds = lost == 0 and sent == got and refused == (0, 0)
        report(holds, f"TCP: {sent} frames were sent and {got} read; {lost} were lost and {refused} refused")
        lacked = grown[sender]["device NoReservation"], grown[receiver]["device LinkNoReservation"]
        report(lacked == (0, 0), f"TCP: {lacked} frames were dropped without a reservation")


def check_socket_loss(world: World) -> None:
    """A receiver that does not run loses frames, also those of TCP, which sends them again, and counts each."""
    world.start()
    a, b = world.ends
    pair = tcp_pair(a)
    before = settled(a, b)
    b.send_signal(signal.SIGSTOP)
    stream = Stream(a, 0, 1300)
    until(lambda: sent_of(a) > 20000, 60)
    stream.stop()
    sent = sent_of(a)
    with concurrent.futures.ThreadPoolExecutor(1) as pool:
        transferring = pool.submit(transfer, *pair, 1 << 20)
        report(until(lambda: sent_of(a) > sent + 5), "no frame of TCP is sent")
        b.send_signal(signal.SIGCONT)
        transferring.result()
    after = settled(a, b)
    sent = after[0]["device LinkOut"] - before[0]["device LinkOut"]
    got, lost = (after[1][it] - before[1][it] for it in ("device LinkIn", "device LinkLost"))
    report(lost > 0 and got + lost == sent, f"{sent} frames were sent, {got} read and {lost} counted as lost")
    count_all(b)


def check_slow_link(world: World) -> None:
    """A LINK that is slower than the client: frames wait in macsecd, and then in TAP's queue, where the system counts
    what it drops. LINK refuses none."""
    world.start()
    a, b = world.ends
    slow = ["tc", "qdisc", "add", "dev", "link0", "root", "tbf", "rate", "10mbit", "burst", "10k", "limit", "100m"]
    with inside(a.link_namespace):
        is_slow = subprocess.run(slow, capture_output=True).returncode == 0
    if not is_slow:
        print("losses: this system can't slow a device down", flush=True)
        return
    pair = tcp_pair(a)
    before, full = settled(a, b), dropped(a)
    stream = Stream(a, 0, 1)
    until(lambda: dropped(a) > full + 10000)
    stream.goes_on = False
    seconds = transfer(*pair, 1 << 18)
    sent, arrived = stream.stop()
    after = settled(a, b)
    full = dropped(a) - full
    out, got = (after[it][name] - before[it][name] for it, name in ((0, "device LinkOut"), (1, "device LinkIn")))
    print(f"losses: TCP over a slow LINK, {seconds:.1f} s; {out} frames sent, {full} dropped by a full TAP", flush=True)
    holds = full > 0 and sent <= arrived + full
    report(holds, f"{sent} datagrams were sent, {arrived} arrived and {full} were dropped")
    report(out == got, f"a slow LINK: {out} frames were sent and {got} read")
    report(after[0]["device LinkRefused"] == 0, f"a slow LINK refused {after[0]['device LinkRefused']} frames")
    for end in (a, b):
        count_all(end)
