"""Floods of LINK: the client's frames get through."""

from __future__ import annotations

import contextlib
import os
import pathlib
import shutil
import subprocess
import time
from collections.abc import Iterator
from typing import NamedTuple

from house.reporting import report, until
from macsecd_saves import build_sender
from macsecd_world import End, Stream, World, processor_time

# The greatest part of the client's datagrams that may be lost: the machine may let macsecd wait for longer than its
# socket has space for.
LOST = 0.01

# An SCI that no channel has, and the one of the first end.
UNKNOWN, KNOWN = "0200000000770001", "0200000000010001"


class Flood(NamedTuple):
    """What is sent, the arguments of the program that sends it, the frames a second, and whether the system drops it."""

    what: str
    words: list[str]
    rate: int
    is_filtered: bool

    def command(self, end: End, sender: list[str], seconds: float) -> list[str]:
        """The command that sends it from this end, without a macsecd."""
        words = [self.words[0], "link0", *self.words[1:], str(int(self.rate * seconds)), str(self.rate)]
        return [*end.enter, *sender, *words]


PLAIN = Flood("another EtherType", ["plain"], 500_000, True)
STRANGE = Flood("an unknown SCI", ["forged", UNKNOWN, "94"], 500_000, True)


def forged(rate: int) -> Flood:
    """Frames of 1,428 octets with a wrong ICV. Each has to be judged."""
    return Flood("a wrong ICV", ["forged", KNOWN, "1428"], rate, False)


def check_client(world: World, sender: list[str], flood: Flood, seconds: float) -> None:
    """A flood, beside datagrams of the client."""
    a, b = world.ends
    stream = Stream(a, 0.001)
    time.sleep(0.2)
    before, used = b.counters(), processor_time(b)
    began = time.monotonic()
    told = subprocess.run(flood.command(a, sender, seconds), capture_output=True, text=True, check=True).stdout.strip()
    took, used = time.monotonic() - began, processor_time(b) - used
    sent, arrived = stream.stop()
    c = b.counters()
    grown = {name: c[f"device {name}"] - before[f"device {name}"] for name in ("LinkIn", "LinkLost", "LinkFloods")}
    print(
        f"flood: {flood.what}: {told} in {took:.1f} s; {sent} datagrams were sent and {arrived} arrived; {grown}; "
        f"{used / took / 1e4:.0f} % of a processor; load {os.getloadavg()[0]:.1f}",
        flush=True,
    )
    report((grown["LinkFloods"] > 0) == flood.is_filtered, f"flood: {flood.what}: {grown}")
    report(arrived >= (1 - LOST) * sent, f"flood: {flood.what}: {sent} datagrams were sent and {arrived} arrived")


@contextlib.contextmanager
def flooded(end: End, sender: list[str], flood: Flood) -> Iterator[None]:
    """A flood from this end, while something is looked at."""
    with subprocess.Popen(flood.command(end, sender, 60), stdout=subprocess.DEVNULL) as process:
        time.sleep(0.3)
        yield
        process.kill()


def check_new_channel(world: World, sender: list[str]) -> None:
    """A channel is made while its frames flood LINK: they are judged at once."""
    a, b = world.ends
    with flooded(a, sender, STRANGE):
        for _ in range(6):
            b.carry_out(f"A rxsc {UNKNOWN}", f"A rxsa {UNKNOWN} 0 1 1", f"A rxon {UNKNOWN} 0")
            judged = until(lambda: b.counters()[f"{UNKNOWN} InPktsNotValid"] > 0, 0.4)
            report(judged, "flood: the frames of a new channel are dropped unread")
            b.carry_out(f"A rxscdel {UNKNOWN}")
            time.sleep(0.1)


def check_counted(world: World, sender: list[str]) -> None:
    """After a flood all frames are counted again."""
    a, b = world.ends
    time.sleep(1.5)
    before = b.counters()
    subprocess.run(PLAIN._replace(rate=1000).command(a, sender, 0.01), capture_output=True, check=True)
    counted = until(lambda: b.counters()["InPktsNoTag"] >= before["InPktsNoTag"] + 10)
    report(counted, "flood: frames without protection are not counted after it")


def check_other_mode(world: World, sender: list[str]) -> None:
    """An endpoint that is not strict delivers frames without protection: the system drops none."""
    a, b = world.ends
    b.carry_out("A validate check")
    before = b.counters()
    for flood in (PLAIN, STRANGE):
        with flooded(a, sender, flood):
            pass
    after = b.counters()
    report(after["device LinkFloods"] == before["device LinkFloods"], "flood: frames are dropped in the mode check")
    report(after["InPktsUntagged"] > before["InPktsUntagged"], "flood: no frame is delivered in the mode check")


def check_flood(world: World, library: pathlib.Path, short: bool) -> None:
    """Floods of LINK."""
    sender = [str(build_sender(world.folder / "sender", library))]
    world.prepare()
    a, b = world.ends
    b.write_config(device="device link link0\ndevice allow validate check\n")
    if not short and shutil.which("chrt"):
        b.prefix = ["chrt", "-f", "10"]  # other processes do not let it wait
        sender = ["chrt", "-f", "5", *sender]  # which would then send faster
    for end in (a, b):
        end.start()
    for flood in (PLAIN, STRANGE, forged(5_000 if short else 100_000)):
        check_client(world, sender, flood, 1 if short else 20)
    check_new_channel(world, sender)
    check_counted(world, sender)
    check_other_mode(world, sender)
