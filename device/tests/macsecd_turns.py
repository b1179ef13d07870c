"""macsecd beside itself without segments at TAP, beside another macsecd, and beside other programs, in turns: TCP,
datagrams and echo requests.

In each turn every row is measured once, in random order, so that other work on the machine, which comes and goes, meets
all of them. What counts is the ratio within a turn: its median over the turns, and the least and greatest one."""

from __future__ import annotations

import os
import pathlib
import random
import socket
import statistics
import subprocess
import time
from typing import NamedTuple

import macsecd_cores as cores
import macsecd_peers as peers
from house import performance
from house.reporting import Failed, report
from macsecd_losses import settled
from macsecd_world import End, World, inside, processor_time, tcp, udp_socket

WITHOUT = "device segments off\n"


class Row(NamedTuple):
    """What is measured: a macsecd with so many workers, over a LINK of this MTU, with a line; or another program."""

    name: str
    programs: pathlib.Path
    workers: int | None = None
    mtu: int = 1500
    line: str = ""
    is_peer: bool = False
    is_own: bool = True  # is it of this checkout?

    def begin(self, world: World) -> None:
        """Starts both ends."""
        if self.is_peer:
            peers.start(world, self.name)
            return
        for end in world.ends:
            end.write_config(device=f"device link link0\n{self.line}")
            end.create_journal()
        for end in world.ends:
            end.isolate()
        for end in world.ends:
            end.start()
        if self.is_own:
            shown = f"segments {'off' if self.line else 'TCP'}"
            report(shown in world.ends[0].ask("show"), f"turns: show does not say {shown}")


class Speed(NamedTuple):
    """What a row does in a turn: million octets a second by TCP; the processor's seconds of both ends for 10^9 octets;
    the part of it that is of the first thread, at the sender and at the receiver; datagrams of 1,358 octets that arrive
    in a second; the microseconds of an echo."""

    tcp: float
    seconds: float
    sender: float
    receiver: float
    udp: float
    echo: float


def used(end: End) -> tuple[float, float]:
    """The microseconds of a processor that the first thread has used, and all of them."""
    if end.process is None:
        return 0.0, 0.0
    first = pathlib.Path(f"/proc/{end.pid}/task/{end.pid}/schedstat").read_text().split()[0]
    return int(first) / 1000, processor_time(end)


def measure_tcp(row: Row, world: World, octets: int) -> list[float]:
    """TCP. No frame may be lost by this checkout's macsecd."""
    a, b = world.ends
    tcp(a, octets // 8)
    before, began = settled(a, b) if row.is_own else (), [used(end) for end in (a, b)]
    took = tcp(a, octets)
    shares = [(first - was[0], all_ - was[1]) for (first, all_), was in zip(map(used, (a, b)), began)]
    names = "device LinkLost", "device LinkRefused", "device TapRefused"
    after = settled(a, b) if row.is_own else ()
    lost = [now[name] - old[name] for now, old in zip(after, before) for name in names]
    report(not any(lost), f"turns: frames were lost: {lost}")
    seconds = sum(all_ for _, all_ in shares) / octets * 1e3
    return [octets / took / 1e6, seconds, *(first / all_ if all_ else 0.0 for first, all_ in shares)]


def arrived(end: End) -> int:
    """How many datagrams have come for which a socket had no space."""
    with inside(end.namespace):
        text = pathlib.Path("/proc/thread-self/net/snmp").read_text()
    names, values = (line.split() for line in text.splitlines() if line.startswith("Udp:"))
    return int(values[names.index("RcvbufErrors")])


def measure_udp(world: World, sender: pathlib.Path) -> float:
    """Datagrams for half a second, more than the ends can take, to a socket that nobody reads: all but its first ones
    are counted. 0 is no figure: the measurement has failed."""
    a, b = world.ends
    with udp_socket(b.namespace, 9) as receiver:
        receiver.setsockopt(socket.SOL_SOCKET, 33, 1)  # SO_RCVBUFFORCE: the least
        words = [*a.enter, str(sender), "0.6", "10.9.0.2", "9", str(cores.DATAGRAM)]
        with subprocess.Popen(words, stdin=subprocess.DEVNULL) as sending:
            time.sleep(0.2)
            before, began = arrived(b), time.monotonic()
            time.sleep(0.3)
            count, took = arrived(b) - before, time.monotonic() - began
        report(sending.returncode == 0, f"the sender of datagrams ends with {sending.returncode}")
    report(count > 0, "turns: a failed measurement: no datagram is counted")
    return count / took


def measure(folder: pathlib.Path, row: Row, sender: pathlib.Path, octets: int, echoes: int) -> Speed:
    """Measures a row once."""
    End.workers = row.workers
    with World(folder, row.programs, row.mtu) as world:
        row.begin(world)
        speeds = measure_tcp(row, world, octets)
        echo = cores.echo_times(world, echoes)
        udp = measure_udp(world, sender) or measure_udp(world, sender)
        if udp == 0:
            raise Failed(f"turns: {row.name}: no datagram is counted twice: there is no figure")
        for end in world.ends:
            if end.stop() != 0 and not row.is_peer:
                report(False, f"turns: {row.name} does not end well: {end.log()}")
    return Speed(*speeds, udp, statistics.median(echo[echoes // 10 :]) * 1e6)


def rows_of(programs: pathlib.Path, beside: pathlib.Path | None) -> list[Row]:
    """What is measured: macsecd with no worker and with those that it takes, in frames of 1,500 and 9,000 octets."""
    found = []
    for workers, mtu in ((None, 1500), (0, 1500), (None, 9000), (0, 9000)):
        what = ("" if workers is None else ", no workers") + ("" if mtu == 1500 else ", MTU 9,000")
        found.append(Row(f"macsecd{what}", programs, workers, mtu))
        if beside:
            found.append(Row(f"the other macsecd{what}", beside, workers, mtu, is_own=False))
    found.append(Row("macsecd, `device segments off`", programs, line=WITHOUT))
    return [*found, *(Row(name, programs, is_peer=True, is_own=False) for name in peers.installed())]


def measure_turns(
    folder: pathlib.Path,
    programs: pathlib.Path,
    library: pathlib.Path,
    turns: int,
    beside: pathlib.Path | None,
    seed: str,
    writes: bool,
) -> None:
    """Measures all rows in so many turns, and prints each turn, and the ratios."""
    sender, rows, rng = cores.build_datagrams(folder), rows_of(programs, beside), random.Random(seed)
    found: dict[str, list[Speed]] = {row.name: [] for row in rows}
    loads: list[float] = []
    for turn in range(turns):
        for number, row in enumerate(rng.sample(rows, len(rows))):
            octets = (50 << 20) if row.is_peer else (150 << 20)
            found[row.name].append(measure(folder / f"{turn}-{number}", row, sender, octets, 200))
        loads.append(os.getloadavg()[0])
        print(f"turns: turn {turn + 1}, load {loads[-1]:.1f}", flush=True)
        for name, speeds in found.items():
            shown = (f"{what} {it:.3g}" for what, it in zip(Speed._fields, speeds[-1]))
            print(f"turns: {name}: {', '.join(shown)}", flush=True)
    for row in rows:
        if row.is_own and not row.line:
            for other in rows:
                if other.is_peer or (other.workers, other.mtu) == (row.workers, row.mtu) and other != row:
                    told = (f"{what} {performance.ratios(ours, theirs)}" for what, ours, theirs in
                            zip(Speed._fields, zip(*found[row.name]), zip(*found[other.name])))  # fmt: skip
                    print(f"turns: {row.name} by {other.name}, median (least to greatest): {', '.join(told)}")
    if writes:
        kept = {row.name: found[row.name] for row in rows if row.is_own or row.is_peer}
        lines = [[name, str(turn + 1), *(f"{it:.4g}" for it in speed)]
                 for name, speeds in kept.items() for turn, speed in enumerate(speeds)]  # fmt: skip
        processor = "x86-64-v3" if "x86-64-v3" in str(library) else "every processor"
        load = f"load {min(loads):.0f} to {max(loads):.0f}"
        told = f"library for {processor}, {load}; {peers.versions()}"
        performance.write("turns", ["turn", *Speed._fields], lines, told)
