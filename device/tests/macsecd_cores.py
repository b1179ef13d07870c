"""macsecd with workers beside macsecd without, in one run: UDP, TCP and echo requests.

UDP goes through one macsecd, whose frames nobody receives. There is one for each number of workers, and they take turns
of half a second, so that other work on the machine's processors, which comes and goes, meets all of them. A gain is the
median, over the turns, of the frames with workers by those without in the same turn. TCP and echo requests go through
two; of the rounds the best throughput and the least median count. The threads need as many processors that are free."""

from __future__ import annotations

import contextlib
import os
import pathlib
import socket
import statistics
import subprocess
import time
from typing import NamedTuple

from house import ROOT
from house.compiling import WARNINGS
from house.reporting import Failed, call, report
from macsecd_losses import settled
from macsecd_world import End, World, build, echo_request, inside, is_answered, processor_time, tcp

# The octets of a datagram whose Ethernet frame has 1,400.
DATAGRAM = 1400 - 14 - 20 - 8
# What workers have to gain at least, by their number, and what an echo may lose, in microseconds.
BARS_UDP, BARS_TCP, BAR_ECHO = {2: 2.2}, {2: 1.5}, 10.0


class Speed(NamedTuple):
    """A throughput, and the microseconds of processors that a frame takes in the first macsecd."""

    each_second: float
    processors: float


def median(speeds: list[Speed]) -> Speed:
    """The median of each."""
    return Speed(*(statistics.median(it) for it in zip(*speeds)))


class Row(NamedTuple):
    """What was measured: frames by UDP in each turn, million octets by TCP, microseconds of an echo."""

    udp: list[Speed]
    tcp: Speed
    echo: float

    def text(self) -> str:
        """What is printed of it."""
        usual = median(self.udp)
        udp = f"UDP {usual.each_second:,.0f} frames a second, {usual.processors:.2f} us of processors each"
        tcp = f"TCP {self.tcp.each_second:.1f} million octets a second, {self.tcp.processors:.2f} us for each frame"
        return f"{udp}; {tcp}; an echo {self.echo:.1f} us"


def build_datagrams(folder: pathlib.Path) -> pathlib.Path:
    """Builds the program that sends datagrams."""
    source, out = ROOT / "device/tests/macsecd_datagrams.c", folder / "macsecd_datagrams"
    call("gcc", *WARNINGS, "-pedantic", "-O2", "-o", str(out), str(source))
    return out


def take_turn(a: End, sender: pathlib.Path) -> Speed:
    """Frames of 1,400 octets to a macsecd for half a second, more than it can take."""
    words = [*a.enter, str(sender), "0.5", "10.9.0.2", "9", str(DATAGRAM)]
    with subprocess.Popen(words, stdin=subprocess.DEVNULL) as sending:
        time.sleep(0.1)
        before, began, used = a.counters(), time.monotonic(), processor_time(a)
        time.sleep(0.3)
        after, ended, grown = a.counters(), time.monotonic(), processor_time(a) - used
        report(sending.poll() is None, "the sender of datagrams ends before it is measured")
    report(sending.returncode == 0, f"the sender of datagrams ends with {sending.returncode}")
    frames = after["device LinkOut"] - before["device LinkOut"]
    missed = after["device TapIn"] - before["device TapIn"] - frames
    report(abs(missed) <= 256, f"{missed} frames of TAP did not leave")
    return Speed(frames / (ended - began), grown / frames)


def run_udp(
    folder: pathlib.Path, programs: pathlib.Path, sender: pathlib.Path, numbers: list[int], turns: int
) -> dict[int, list[Speed]]:
    """So many turns of a macsecd for each number of workers."""
    with contextlib.ExitStack() as stack:
        ends = {}
        for workers in numbers:
            End.workers = workers
            world = stack.enter_context(World(folder.with_name(f"{folder.name}-{workers}"), programs))
            world.prepare()
            ends[workers] = world.ends[0]
            ends[workers].start()
        taken = [{workers: take_turn(a, sender) for workers, a in ends.items()} for _ in range(turns)]
        for a in ends.values():
            report(a.stop() == 0, f"macsecd does not end well: {a.log()}")
    return {workers: [turn[workers] for turn in taken] for workers in numbers}


def run_tcp(folder: pathlib.Path, programs: pathlib.Path, octets: int) -> Speed:
    """TCP from one client to the other: million octets a second, and for a frame of data, with the acknowledgements
    and with the system, the microseconds of processors in the macsecd that sends it."""
    with World(folder, programs) as world:
        world.start()
        a = world.ends[0]
        tcp(a, octets // 8)
        before, used = settled(*world.ends), processor_time(a)
        seconds = tcp(a, octets)
        used, after = processor_time(a) - used, settled(*world.ends)
        for end in world.ends:
            report(end.stop() == 0, f"macsecd does not end well: {end.log()}")
    names = "device LinkLost", "device LinkRefused", "device TapRefused"
    lost = [now[name] - old[name] for now, old in zip(after, before) for name in names]
    report(not any(lost), f"frames were lost: {lost}")
    return Speed(octets / seconds / 1e6, used / (after[0]["device LinkOut"] - before[0]["device LinkOut"]))


def echo_times(world: World, count: int) -> list[float]:
    """Echo requests in a quiet network, each a millisecond after the reply to the last one: the seconds of each."""
    times = []
    with inside(world.ends[0].namespace):
        it = socket.socket(socket.AF_INET, socket.SOCK_RAW, 1)
    for sequence in range(count):
        octets = echo_request(1, sequence)
        began = time.perf_counter()
        it.sendto(octets, ("10.9.0.2", 0))
        if not is_answered(it, 4, 1, sequence, 1.0):
            raise Failed("an echo request is not answered")
        times.append(time.perf_counter() - began)
        time.sleep(0.001)
    it.close()
    return times


def run_echo(folder: pathlib.Path, programs: pathlib.Path, count: int) -> float:
    """Echo requests between two new ends. Returns the median."""
    with World(folder, programs) as world:
        world.start()
        times = echo_times(world, count)
    return statistics.median(times[count // 10 :]) * 1e6


def joined(rows: list[Row]) -> Row:
    """All turns of UDP, and the best of the others."""
    return Row([each for it in rows for each in it.udp], max(it.tcp for it in rows), min(it.echo for it in rows))


def compare(rows: dict[int, Row]) -> None:
    """Prints what counts of each number of workers, beside none, and whether the bars hold."""
    none = rows[0]
    for workers, row in rows.items():
        udp = statistics.median(it.each_second / other.each_second for it, other in zip(row.udp, none.udp))
        gains = udp, row.tcp.each_second / none.tcp.each_second
        later = row.echo - none.echo
        print(f"cores: all rounds, {workers} workers: {row.text()}", flush=True)
        print(f"cores: beside none: UDP {gains[0]:.2f}, TCP {gains[1]:.2f}, an echo {later:+.1f} us", flush=True)
        if workers > 0:
            least = BARS_UDP.get(workers, 0), BARS_TCP.get(workers, 0)
            report(gains[0] >= least[0], f"{workers} workers: UDP gains {gains[0]:.2f}, and not {least[0]}")
            report(gains[1] >= least[1], f"{workers} workers: TCP gains {gains[1]:.2f}, and not {least[1]}")
            report(later <= BAR_ECHO, f"{workers} workers: an echo takes {later:.1f} us longer")


def measure_cores(folder: pathlib.Path, library: pathlib.Path, numbers: list[int], short: bool) -> None:
    """Measures macsecd with each number of workers."""
    programs, sender = build(folder / "full", library, [], ROOT / "device"), build_datagrams(folder)
    rounds, turns, octets, echoes = (1, 4, 100 << 20, 300) if short else (5, 10, 400 << 20, 1000)
    rows: dict[int, list[Row]] = {workers: [] for workers in numbers}
    for number in range(rounds):
        print(f"cores: round {number + 1}, load {os.getloadavg()[0]:.1f}", flush=True)
        udp = run_udp(folder / f"{number}-udp", programs, sender, numbers, turns)
        for workers in numbers:
            End.workers, at = workers, f"{number}-{workers}"
            speed = run_tcp(folder / f"{at}-tcp", programs, octets)
            row = Row(udp[workers], speed, run_echo(folder / f"{at}-echo", programs, echoes))
            rows[workers].append(row)
            print(f"cores: {workers} workers: {row.text()}", flush=True)
    compare({workers: joined(found) for workers, found in rows.items()})
