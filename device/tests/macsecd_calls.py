"""How many system calls macsecd makes for a frame of TCP and of UDP, and in which order for one that comes alone.
strace counts them."""

from __future__ import annotations

import contextlib
import pathlib
import re
import shutil
import signal
import subprocess
from collections.abc import Iterator

from house.reporting import Failed, report, until
from macsecd_segments import ACK, Stream, frame, whole
from macsecd_world import SOL_PACKET, End, Packets, World, inside, ping

# Of the frames, the octets of a segment, and how many segments one frame of the client has.
FRAMES, SIZE, TOGETHER = 10350, 1300, 45
# So many frames come at a time: no queue of the system is full.
AT_ONCE = 450
TCP, UDP = 6, 17
# The calls by which frames pass. The others come each second, or are of the thread that writes the journal.
CALLS = "read", "write", "recvmmsg", "sendmmsg", "epoll_wait"
# So many frames come alone, and one fewer leaves at once at least: the first one can follow others.
ALONE = 20
# The most of them for a frame, at the end that sends and at the one that receives.
LIMITS = {"TCP": (0.2, 0.2), "UDP in segments": (0.2, 0.2), "UDP": (1.2, 0.3)}


@contextlib.contextmanager
def traced(end: End, path: pathlib.Path, *options: str) -> Iterator[None]:
    """Has strace write about the calls that macsecd makes meanwhile."""
    words = ["strace", *options, "-o", str(path), "-p", str(end.pid)]
    with subprocess.Popen(words, stderr=subprocess.PIPE, text=True) as strace:
        assert strace.stderr is not None
        if "attached" not in strace.stderr.readline():
            raise Failed("strace can't attach")
        try:
            yield
        finally:
            strace.send_signal(signal.SIGINT)
            strace.stderr.read()


@contextlib.contextmanager
def counted(end: End, found: list[int]) -> Iterator[None]:
    """Adds how many calls of CALLS macsecd makes meanwhile, in all threads."""
    path = end.folder / "calls"
    with traced(end, path, "-f", "-c"):
        yield
    table = (line.split() for line in path.read_text().splitlines())
    found.append(sum(int(row[3]) for row in table if row and row[-1] in CALLS))


def burst(kind: str) -> list[bytes]:
    """What a client gives TAP for so many frames: frames of several segments, or each frame alone."""
    it = Stream(4, TCP if kind == "TCP" else UDP, b"", b"", SIZE, 1)
    if kind != "UDP":
        return [whole(it, 7, ACK, bytes(SIZE * TOGETHER), SIZE)] * (AT_ONCE // TOGETHER)
    about = bytes(10)
    return [about + frame(it, 7 + at, at * SIZE, ACK, bytes(SIZE), None) for at in range(AT_ONCE)]


def counts(end: End, device: str) -> list[int]:
    """What the system counts of a device: the octets and frames that came, and in column 9 the frames that it has sent.
    macsecd, which is asked nothing, makes no call for it."""
    with inside(end.link_namespace if device == "link0" else end.namespace):
        lines = pathlib.Path("/proc/thread-self/net/dev").read_text().splitlines()
    return next([int(it) for it in words[1:]] for words in map(str.split, lines) if words[0] == f"{device}:")


def data_of(end: End, header: int) -> int:
    """How many octets of data TAP has delivered: what macsecd joins has one header."""
    octets, frames = counts(end, "macsec0")[:2]
    return octets - header * frames


def send(world: World, kind: str) -> None:
    """Sends the frames, many at a time. The receiver sees each burst at once, so it is the same on a busy machine."""
    a, b = world.ends
    sender, given, header = Packets(a.namespace, "macsec0"), burst(kind), 54 if kind == "TCP" else 42
    sender.socket.setsockopt(SOL_PACKET, 15, 1)  # PACKET_VNET_HDR
    sent, came = counts(a, "link0")[9], data_of(b, header)
    for count in range(AT_ONCE, FRAMES + 1, AT_ONCE):
        b.send_signal(signal.SIGSTOP)
        a.send_signal(signal.SIGSTOP)
        for each in given:
            sender.send(each)
        a.send_signal(signal.SIGCONT)
        passed = until(lambda: counts(a, "link0")[9] - sent >= count)
        b.send_signal(signal.SIGCONT)
        if not passed or not until(lambda: data_of(b, header) - came >= count * SIZE):
            raise Failed(f"calls: of {count} frames not all arrive")


def calls_a_frame(world: World, kind: str) -> list[float]:
    """How many calls each end makes for a frame."""
    a, b = world.ends
    found: list[int] = []
    before = b.counters()["device TapOut"]
    with counted(a, found), counted(b, found):
        send(world, kind)
    frames = b.counters()["device TapOut"] - before
    report(FRAMES <= frames < FRAMES + 50, f"calls: {kind}: {frames} frames are counted")
    return [it / FRAMES for it in reversed(found)]  # the last one to begin ends first


def check_order(world: World) -> None:
    """A client frame that comes alone, as an echo request and its reply, is sent before TAP is read again."""
    a, b = world.ends
    paths = [end.folder / "order" for end in (a, b)]
    with traced(a, paths[0], "-e", "trace=read,sendmmsg"), traced(b, paths[1], "-e", "trace=read,sendmmsg"):
        report(ping(a, ALONE) == ALONE, "calls: echo requests are not answered")
    for path in paths:  # of the first thread: a read of 108 octets has an echo
        sent = len(re.findall(r"(?m)^read\(.* = 108\nsendmmsg\(", path.read_text()))
        report(sent >= ALONE - 1, f"calls: of {ALONE} frames that come alone {sent} are sent before TAP is read again")


def compare(world: World, kind: str, takes: bool) -> None:
    """Compares the calls for a frame with the limits. If TAP takes no segments, each end is over those below one."""
    found, limits = calls_a_frame(world, kind), LIMITS[kind]
    print(f"calls: {kind}: {found[0]:.2f} a frame that is sent, {found[1]:.2f} a received one", flush=True)
    holds = all((it <= most) == takes for it, most in zip(found, limits) if takes or most < 1)
    report(holds, f"calls: {kind}: {found} a frame, the limits are {limits}; segments: {takes}")


def check_calls(world: World) -> None:
    """With segments at TAP, and without. UDP is counted if the system takes segments of UDP too, as `show` says."""
    if shutil.which("strace") is None:
        print("calls: no strace (tools/needed): no system call is counted", flush=True)
        return
    world.prepare()
    kinds = ["TCP"]
    for takes in (True, False):
        for end in world.ends:
            end.write_config(device="device link link0\n" + "device segments off\n" * (not takes))
            end.start()
        if takes:
            check_order(world)
            kinds = list(LIMITS) if "TCP and UDP" in world.ends[0].ask("show") else kinds
        for kind in kinds:
            compare(world, kind, takes)
        for end in world.ends:
            report(end.stop() == 0, f"calls: macsecd does not end well: {end.log()}")
