"""Clients that do not own the device make requests as fast as they can: frames and other users lose nothing for it."""

from __future__ import annotations

import contextlib
import pathlib
import secrets
import subprocess
import time
from collections.abc import Iterator

from house.reporting import call, report
from macsecd_requests import OTHER, asked, of_group
from macsecd_world import INCLUDED, WARNINGS, Background, Client, End, Stream, World, connected

# The greatest part of the datagrams that may be lost; how many connections a step makes that wait for no answer; and
# of how many of these one request may be read, beside a few.
LOST, UNWAITING, ONE_OF, FEW = 0.01, 8, 4, 10
TWO_LINES, DONE = b"load\nA protect on\nA validate strict", b"1 ok\n2 ok\n"


class Loads(Background):
    """`load` again and again, most of them of connections that do not wait for the answer."""

    def __init__(self, end: End) -> None:
        self.end, self.client, self.count, self.unwaited = end, connected(end.socket, 60), 0, 0
        super().__init__()

    def step(self) -> None:
        """Makes several that do not wait, and one that does."""
        with contextlib.suppress(OSError):
            for _ in range(UNWAITING):
                with contextlib.closing(connected(self.end.socket, 60)) as other:
                    other.send(TWO_LINES)
                    self.unwaited += 1
            self.client.send(TWO_LINES)
            self.count += self.client.recv(100) == DONE


@contextlib.contextmanager
def loading(end: End) -> Iterator[list[Loads]]:
    """Three such clients."""
    them = [Loads(end) for _ in range(3)]
    try:
        yield them
    finally:
        for each in them:
            each.goes_on = False
            each.client.shutdown(2)
        for each in them:
            each.join()
            each.client.close()


def fill(end: End, keys: int) -> None:
    """Installs keys, which each `load` copies, as a client that owns the device: its requests are not limited."""
    owner = Client(end)
    owner.carry_out("own")
    for first in range(2, keys, 500):
        numbers = range(first, min(first + 500, keys))
        lines = [f"A key {it} {secrets.token_hex(16)} 0" for it in numbers]
        answer = owner.ask("\n".join(["load", *lines]))
        report(answer.count(" ok\n") == len(numbers), f"budget: `load` of keys: {answer[:100]}")
    began = time.monotonic()
    for _ in range(3):
        report(owner.ask(TWO_LINES.decode()) == DONE.decode(), "budget: `load` of the owner")
    print(f"budget: a `load` of two lines takes the owner {(time.monotonic() - began) / 3:.3f} s", flush=True)
    owner.carry_out("port on")


def check_parts(folder: pathlib.Path, source: pathlib.Path) -> None:
    """What part of the time requests take, by a clock that the test sets."""
    program, here = folder / "parts", pathlib.Path(__file__).parent
    words = ["gcc", *WARNINGS, *INCLUDED, "-I", str(source), "-Wl,--wrap=clock_gettime", "-o", str(program)]
    call(*words, str(here / "macsecd_budget.c"), str(source / "budget.c"))
    ended = subprocess.run([str(program)], capture_output=True, text=True)
    report(ended.returncode == 0, f"budget: {ended.stdout}")


def check_budget(world: World, seconds: float, keys: int) -> None:
    """`load` of two lines as often as a client can."""
    world.prepare()
    a = world.ends[0]
    a.write_config(device="device link link0\ndevice group nogroup\n")
    for path in (world.folder.parent, world.folder):
        path.chmod(0o755)
    for end in world.ends:
        end.start()
    fill(a, keys)
    a.carry_out("port on")
    before = a.counters()
    with loading(a) as them, of_group(a, OTHER) as other:
        stream, slowest, asks = Stream(a, 0.00005), 0.0, 0
        end = time.monotonic() + seconds
        while time.monotonic() < end:
            began = time.monotonic()
            report(asked(other, "port") == "port on\n", "budget: another user is not answered")
            slowest, asks = max(slowest, time.monotonic() - began), asks + 1
            time.sleep(0.05)
        sent, arrived = stream.stop()
    with contextlib.closing(connected(a.socket, 70)) as it:
        it.send(b"counters")  # its user owes for the last `load`
        after = it.recv(1 << 20).decode()
    names = "device RequestsDelayed", "device Requests"
    grown, read = (int(after.split(f"{name} ")[1].split()[0]) - before[name] for name in names)
    count, unwaited = sum(it.count for it in them), sum(it.unwaited for it in them)
    print(
        f"budget: {count} answers in {seconds:.0f} s, {unwaited} unwaited; {sent} datagrams, {sent - arrived} lost; "
        f"{grown} delayed; another user's answer takes up to {slowest:.2f} s",
        flush=True,
    )
    report(arrived >= (1 - LOST) * sent, f"budget: {sent} datagrams were sent and {arrived} arrived")
    report(slowest < 5, f"budget: another user waits {slowest:.1f} s for an answer")
    report(grown > 0 and count > 0, f"budget: {grown} requests were delayed, and {count} answered")
    report(
        read <= count + asks + FEW + unwaited // ONE_OF,
        f"budget: {read} requests were read, of clients that do not wait too: {count}, {asks}, {unwaited}",
    )
