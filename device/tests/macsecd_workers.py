"""The workers of macsecd: how many there are, and when they work."""

from __future__ import annotations

import os
import pathlib
import socket
import time

from house.reporting import report
from macsecd_world import End, World, echo_request, inside, is_answered, tcp

MOST = 8


def fitting() -> int:
    """How many workers macsecd takes by default if it is started by this thread."""
    return min(MOST, len(os.sched_getaffinity(0)) - 1)


def workers_of(end: End) -> int:
    """How many its macsecd has to have."""
    return fitting() if end.workers is None else end.workers


def workers_at(end: End) -> list[pathlib.Path]:
    """The folders of its workers in /proc, where threads are in the order in which they began: these are the last."""
    tasks = pathlib.Path(f"/proc/{end.pid}/task")
    return [tasks / it for it in os.listdir(tasks)[2:]]


def wakes(end: End) -> int:
    """How often its workers have been given a processor or lost it."""
    texts = [(it / "status").read_text() for it in workers_at(end)]
    return sum(int(line.split()[1]) for text in texts for line in text.splitlines() if "_ctxt_switches" in line)


def check_number(world: World) -> None:
    """Their number: a processor less than macsecd may run on, or what the configuration says."""
    a, own = world.ends[0], os.sched_getaffinity(0)
    a.write_config()
    a.create_journal()
    for line, processors in ((None, 1), (None, 2), (None, MOST + 2), (0, MOST), (MOST, 1)):
        a.workers = line
        a.write_config()
        os.sched_setaffinity(0, sorted(own)[:processors])
        try:
            a.start()
            wanted = workers_of(a)
        finally:
            os.sched_setaffinity(0, own)
        found = len(workers_at(a))
        report(found == wanted, f"{found} workers, and not {wanted}, with the line {line} and {processors} processors")
        report(a.stop() == 0, f"macsecd does not end well: {a.log()}")


def echoes(end: End, count: int, at_once: int) -> int:
    """Sends echo requests, so many at once, and the next ones when all replies are there. Returns the replies."""
    with inside(end.namespace):
        it = socket.socket(socket.AF_INET, socket.SOCK_RAW, 1)
    replies = 0
    for first in range(0, count, at_once):
        for sequence in range(first, first + at_once):
            it.sendto(echo_request(1, sequence), (f"10.9.0.{end.peer.number}", 0))
        replies += sum(is_answered(it, 4, 1, sequence, 5.0) for sequence in range(first, first + at_once))
        time.sleep(0.002)
    it.close()
    return replies


def at_rest(world: World) -> list[int]:
    """The same of both ends, once it stays as it is."""
    before: list[int] = []
    for _ in range(50):
        now = [wakes(end) for end in world.ends]
        if now == before:
            break
        before = now
        time.sleep(0.3)
    return before


def check_rest(world: World) -> None:
    """Frames that come alone, or a few at once, wake no worker. Many do."""
    a = world.ends[0]
    for end in world.ends:
        end.workers = 3
    world.start()
    report(echoes(a, 12, 4) == 12, "no replies with workers")
    before = at_rest(world)
    report(echoes(a, 100, 1) + echoes(a, 400, 4) == 500, "no replies with workers that sleep")
    rest = [wakes(end) for end in world.ends]
    report(rest == before, f"few frames wake workers: {rest} and before {before}")
    tcp(a, 8 << 20)
    busy = [wakes(end) for end in world.ends]
    report(all(now > old for now, old in zip(busy, rest)), f"many frames wake no worker: {busy} and before {rest}")
