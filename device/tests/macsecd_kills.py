"""SIGKILL of macsecd under a key agreement: no IV is used twice and no frame is delivered twice, over new SAKs, `load`
and `open`."""

from __future__ import annotations

import random
import secrets
import signal
import threading

from house.reporting import Failed, report, until
from macsecd_agreement import configure
from macsecd_ahead import give_again
from macsecd_world import Client, End, Packets, Stream, World, numbers_of, protected

# Between two kills there are so many SAKs, and after one so many recorded frames come once more.
CHANGES, AGAIN = 11, 500


class Agreement:
    """A key agreement of both ends, one SAK after another. It reads all frames on the link."""

    def __init__(self, world: World, rng: random.Random) -> None:
        self.ends, self.rng, self.killed = world.ends, rng, threading.Event()
        self.clients = {end: Client(end) for end in self.ends}
        self.links = {end: Packets(end.peer.link_namespace, "link0") for end in self.ends}
        self.phase, self.saks = 0, {0: (8, secrets.token_hex(16))}
        self.recorded: dict[End, dict[bytes, tuple[int, int]]] = {end: {} for end in self.ends}
        self.counts = {"open": 0, "load": 0}

    def ask(self, end: End, *lines: str) -> None:
        """Makes requests. None may be refused, except those of a macsecd that was killed."""
        for line in lines:
            answer = self.clients[end].ask(line)
            if not answer:
                raise ConnectionResetError
            if any(it in answer for it in ("refused", "fault")):
                raise Failed(f"{line}: {answer}")
            self.counts[line.split()[0]] = self.counts.get(line.split()[0], 0) + 1

    def install(self, end: End, phase: int, sends: bool) -> list[str]:
        """The lines with which an end receives under a SAK, or sends."""
        (number, sak), an, peer = self.saks[phase], phase % 4, end.peer.sci
        if sends:
            return [f"A txsa {an} {number} 1 conf", f"A txon {an}"]
        return [f"A key {number} {sak} 0", f"A rxsa {peer} {an} {number} 1", f"A rxon {peer} {an}"]

    def open(self, end: End) -> None:
        """A new endpoint, with the SAK that is in use."""
        self.ask(end, "own", f"open {end.sci} gcm128", f"A rxsc {end.peer.sci}")
        for sends in (False, True):
            self.ask(end, *self.install(end, self.phase, sends))
        self.ask(end, "port on")

    def read(self) -> bool:
        """Reads the link. Has each end sent a frame under the SAK in use? Frames under the one before come first."""
        for end, link in self.links.items():
            for frame in protected(link.frames(0), end.sci):
                an, number = numbers_of([frame])[0]
                self.recorded[end].setdefault(frame, (self.phase - (self.phase - an) % 4, number))
        return all(it and next(reversed(it.values()))[0] == self.phase for it in self.recorded.values())

    def change(self) -> None:
        """A new SAK: both ends receive under it, then send, then the old one goes. It can have the number of a retired
        one. With `load` all lines of a step are carried out, or none is."""
        loads = self.rng.random() < 0.5
        if self.rng.random() < 0.1:
            self.open(self.rng.choice(self.ends))
        old, self.phase = self.phase, self.phase + 1
        number = self.phase % 4 if loads else 8 + self.phase % 4000
        self.saks[self.phase] = number, secrets.token_hex(16)
        for step in ("receives", "sends", "retires"):
            for end in self.ends:
                lines = self.install(end, self.phase, step == "sends")
                if step == "retires":
                    lines = [f"A txdel {old % 4}", f"A rxdel {end.peer.sci} {old % 4}", f"A retire {self.saks[old][0]}"]
                self.ask(end, *(["load\n" + "\n".join(lines)] if loads else lines))
            if step == "sends" and not until(lambda: self.read() or self.killed.is_set()):
                raise Failed(f"no frames under SAK {self.phase}")
        del self.saks[old]

    def kill(self, victims: list[End]) -> None:
        """Kills them."""
        for end in victims:
            end.send_signal(signal.SIGKILL)
        self.killed.set()

    def live(self, victims: list[End]) -> None:
        """New SAKs, and a kill beside the last one. Then both ends begin again with the SAK in use."""
        self.killed.clear()
        for _ in range(CHANGES - 1):
            self.change()
        timer = threading.Timer(self.rng.uniform(0, 0.1), self.kill, [victims])
        timer.start()
        try:
            self.change()
        except OSError:
            if not self.killed.wait(1):
                raise
        timer.join()
        self.saks = {self.phase: self.saks[self.phase]}
        for end in victims:
            end.stop(signal.SIGKILL)
            self.clients[end].close()
        self.read()
        for end in victims:
            end.start()
            self.clients[end] = Client(end)
        for end in self.ends:
            self.open(end)
        for end in victims:
            give_again(end, list(self.recorded[end.peer])[-AGAIN:])


def check_kills(world: World, kills: int, rng: random.Random) -> None:
    """SIGKILL of one end, of the other, and of both at once."""
    a, b = world.ends
    for end in world.ends:
        configure(end)
        end.create_journal()
        end.start()
    agreement = Agreement(world, rng)
    for end in world.ends:
        agreement.open(end)
    streams = [Stream(a, 0.005), Stream(b, 0.005, port=9011)]
    try:
        for number in range(kills):
            agreement.live(([a], [b], [a, b])[number % 3])
    finally:
        ended = [(*it.stop(), it.received) for it in streams]
        agreement.read()
    frames = [list(it.values()) for it in agreement.recorded.values()]
    ivs = sum(len(it) - len(set(it)) for it in frames)
    twice = sum(received - arrived for _, arrived, received in ended)
    few = min(map(len, frames)) <= 10 * kills or min(arrived for _, arrived, _ in ended) <= 10 * kills
    report(ivs == twice == 0 and not few, f"kills: {ivs} IVs used twice, {twice} of {ended} datagrams delivered twice")
    print(
        f"kills: {kills} of ends with a key agreement, {agreement.phase} SAKs, {agreement.counts['load']} `load`, "
        f"{agreement.counts['open']} `open`, {sum(map(len, frames))} frames: {ivs} IVs twice, {twice} datagrams twice "
        f"of {sum(arrived for _, arrived, _ in ended)}",
        flush=True,
    )
