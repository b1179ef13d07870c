"""A long run of macsecd: new keys, random frames and random control lines beside the traffic of clients."""

from __future__ import annotations

import pathlib
import random
import time
from collections.abc import Sequence

from house.reporting import report
from macsecd_handover import clients, losses, rekey
from macsecd_losses import settled
from macsecd_world import IN, OUT, RX, Background, End, Packets, Stream, World, protected

REKEYS = 60

# By how many kB the heap may grow after ten changes of keys: the journal is longer after each one, and two rows of keys
# of 4.5 kB are used.
GROWS = 64 + (REKEYS - 10) * 2 * 5

# Words of control lines. None of them forms a line that the endpoint carries out.
WORDS = "A B key txsa txon rxsa rxsc numbers counters json metrics load own rx tx 0 1 3 4096 ffffffffffffffff #".split()


class Noise(Background):
    """Random frames on LINK and random requests."""

    def __init__(self, end: End, peer: End, rng: random.Random, good: bytes) -> None:
        self.peer, self.rng, self.good = peer, rng, good
        self.injector = Packets(end.link_namespace, "link0")
        self.frames, self.requests = 0, 0
        super().__init__()

    def frame(self) -> bytes:
        """A frame of random octets, or a recorded one that is altered, cut or sent again."""
        if self.rng.random() < 0.3:
            return self.rng.randbytes(self.rng.randint(14, 1400))
        frame = bytearray(self.good)
        for _ in range(self.rng.randint(0, 2)):
            frame[self.rng.randrange(12, len(frame))] = self.rng.randrange(256)
        return bytes(frame[: self.rng.randint(14, len(frame))])

    def step(self) -> None:
        """Sends some frames and requests, ten times a second."""
        for _ in range(20):
            self.injector.send(self.frame())
            self.frames += 1
        for _ in range(5):
            words = self.rng.choices(WORDS, k=self.rng.randint(1, 5))
            self.peer.ask("wrong " * (words[0] in ("own", "A", "load")) + " ".join(words))
            self.requests += 1
        time.sleep(0.1)


def heap_of(end: End) -> int:
    """The memory of the heap that its macsecd has used, in kB. Its addresses are there from the start."""
    found, inside = 0, False
    with open(f"/proc/{end.pid}/smaps", encoding="utf-8") as lines:
        for line in lines:
            inside = "[heap]" in line if "-" in line.split()[0] else inside
            found += int(line.split()[1]) if inside and line.startswith("Rss:") else 0
    return found


def resident(end: End) -> int:
    """All of its resident memory, in kB."""
    status = pathlib.Path(f"/proc/{end.pid}/status").read_text()
    return next(int(line.split()[1]) for line in status.splitlines() if line.startswith("VmRSS:"))


def files_of(end: End) -> int:
    """How many files its macsecd has open."""
    return len(list(pathlib.Path(f"/proc/{end.pid}/fd").iterdir()))


def check_counts(world: World, before: Sequence[dict[str, int]], noise: list[Noise]) -> None:
    """Each frame is in the counters of both ends."""
    after = settled(*world.ends)
    grown = [{name: now[name] - old.get(name, 0) for name in now} for now, old in zip(after, before)]
    for end, it, other, injected in zip(world.ends, grown, grown[::-1], noise[::-1]):
        peer = end.peer.sci
        came = it["device LinkIn"] + it["device LinkLost"]
        sent = other["device LinkOut"] + injected.frames
        report(came == sent, f"{end.number}: {sent} frames were sent to it, and {came} counted")
        judged = sum(it[name] for name in IN) + sum(it[f"{peer} {name}"] for name in RX)
        judged += sum(it[f"device Link{name}"] for name in ("TooShort", "TooLong", "NoReservation", "EarlierRun"))
        report(judged == it["device LinkIn"], f"{end.number}: {it['device LinkIn']} frames were read, {judged} judged")
        taken = sum(it[name] for name in OUT) + it["device NoReservation"] + it["device TapTooShort"]
        report(taken == it["device TapIn"], f"{end.number}: {it['device TapIn']} frames of TAP, {taken} counted")
        valid = it[f"{peer} InPktsOK"]
        report(valid == other["device LinkOut"], f"{end.number}: {valid} valid frames of {other['device LinkOut']}")
        print(
            f"soak: {end.number}: {it['device LinkIn']} frames of LINK, {it['device TapIn']} of TAP, "
            f"{ {name: n for name, n in it.items() if n and name in IN + [f'{peer} {r}' for r in RX[1:]]} }, "
            f"lost {it['device LinkLost']}",
            flush=True,
        )


def check_soak(world: World, minutes: float, seed: str) -> None:
    """The run: datagrams, which all have to arrive, 60 changes of keys, and noise in both directions."""
    world.start()
    a, b = world.ends
    link = Packets(b.link_namespace, "link0")
    streams = [Stream(a, 0.002, 400), Stream(b, 0.002, 400, port=9011)]
    time.sleep(0.5)
    for each in streams:
        each.stop()
    good = protected(link.frames(), a.sci)[0]
    link.socket.close()
    before = settled(*world.ends)
    rng = random.Random(seed)
    noise = [Noise(end, end.peer, rng, good) for end in world.ends]
    streams = [Stream(a, 0.002, 400), Stream(b, 0.002, 400, port=9011)]
    memory: list[list[int]] = []
    with clients(world) as pair:
        for phase in range(1, REKEYS + 1):
            began = time.monotonic()
            rekey(pair, phase, 0)
            time.sleep(max(0.0, minutes * 60 / REKEYS - (time.monotonic() - began)))
            memory.append([heap_of(end) for end in world.ends])
            if phase % 10 == 0:
                print(f"soak: {phase} changes of keys, heap {memory[-1]} kB", flush=True)
        slowest = max(it.slowest for it in pair)
        files = [files_of(end) for end in world.ends]
    for each in noise:
        each.join()
    for sent, arrived in (it.stop() for it in streams):
        report(sent == arrived and sent > 1000, f"{sent} datagrams were sent and {arrived} arrived")
        print(f"soak: {sent} datagrams were sent and {arrived} arrived", flush=True)
    check_counts(world, before, noise)
    for end, first, last in zip(world.ends, memory[9], memory[-1]):
        report(last <= first + GROWS, f"{end.number}: the heap has grown from {first} to {last} kB")
        print(
            f"soak: {end.number}: the heap has {first} kB after 10 changes of keys and {last} kB after {REKEYS}; "
            f"{resident(end)} kB are resident",
            flush=True,
        )
    print(
        f"soak: {sum(it.requests for it in noise)} requests, slowest answer {1000 * slowest:.1f} ms, files {files}, "
        f"dropped {[losses(end) for end in world.ends]}",
        flush=True,
    )
