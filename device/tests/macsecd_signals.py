"""Signals to macsecd at any moment: those that end it, those that mean nothing, and those that interrupt a call."""

from __future__ import annotations

import pathlib
import signal
import time

from house import ROOT
from house.reporting import report
from macsecd_handover import Recorder, losses
from macsecd_losses import settled
from macsecd_world import RX, Stream, World, build, numbers_of

# The calls of macsecd that a signal can interrupt.
CALLS = ["read", "write", "pread", "pwrite", "recv", "send", "recvfrom", "recvmmsg", "sendmmsg", "epoll_wait"]


def check_end(world: World, number: int, seconds: float) -> None:
    """A signal ends macsecd while frames are sent."""
    world.start()
    a = world.ends[0]
    for each in (signal.SIGHUP, signal.SIGUSR1, signal.SIGUSR2, signal.SIGPIPE):
        a.send_signal(each)
    stream = Stream(a, 0)
    time.sleep(seconds)
    began = time.monotonic()
    status = a.stop(number)
    stream.stop()
    report(status == 0, f"a signal under load: status {status}, {a.log()[-200:]}")
    report(time.monotonic() - began < 8, "macsecd takes more than eight seconds to end")


def interrupted(out: pathlib.Path, library: pathlib.Path, source: pathlib.Path) -> pathlib.Path:
    """Builds macsecd so that every third call that can be interrupted is. Returns the folder of the programs."""
    wrapped = [*(f"-Wl,--wrap={name}" for name in CALLS), str(ROOT / "device/tests/macsecd_interrupts.c")]
    return build(out, library, ["-O0", "-Wno-error"], source, wrapped)


def check_stops(world: World, programs: pathlib.Path, stops: int) -> None:
    """Calls are interrupted, and both processes are stopped and continued: no frame is lost or repeated."""
    for end in world.ends:
        end.program = programs / "macsecd"
    world.start()
    a, b = world.ends
    before, dropped = settled(a, b), [losses(end) for end in world.ends]
    recorder = Recorder(b, a.sci)
    streams = [Stream(a, 0.0005), Stream(b, 0.0005, port=9011)]
    for _ in range(stops):
        for end in world.ends:
            end.send_signal(signal.SIGSTOP)
            time.sleep(0.002)
            end.send_signal(signal.SIGCONT)
        time.sleep(0.002)
    for stream in streams:
        sent, arrived = stream.stop()
        told = f"{sent} datagrams were sent, {arrived} arrived, and {stream.received} with repeated ones"
        report(sent == arrived == stream.received > 100, f"signals: {told}")
    after = settled(a, b)
    frames = [number for _, number in numbers_of(recorder.stop())]
    report(frames == list(range(frames[0], frames[0] + len(frames))), "signals: packet numbers do not rise by 1")
    for number, (end, peer) in enumerate(((a, b), (b, a))):
        names = "device TapIn", "device LinkOut", f"{peer.sci} {RX[0]}", "device TapOut"
        read, out, valid, delivered = (after[number][name] - before[number][name] for name in names)
        report(read == out, f"signals: {end.number}: {read} frames of TAP, {out} sent")
        report(valid == delivered, f"signals: {end.number}: {valid} valid frames, {delivered} delivered")
        report(losses(end) == dropped[number], f"signals: {end.number}: frames were dropped: {losses(end)}")
