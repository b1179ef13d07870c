"""The journal of macsecd: no frame is delivered twice, and nothing waits for the disk."""

from __future__ import annotations

import concurrent.futures
import contextlib
import hashlib
import json
import math
import pathlib
import random
import secrets
import shutil
import signal
import socket
import subprocess
import sys
import threading
import time
from typing import NamedTuple

from house import ROOT
from house.compiling import INCLUDED, WARNINGS
from house.reporting import call, report, until
from journal_runs import earlier_header
from macsecd_handover import dropped, next_of
from macsecd_world import Background, Client, End, Packets, Stream, World, build, expect, load_lines, ping

CHANNELS = 64

# The most packet numbers that are reserved ahead of a channel that gets 40 frames a second.
RESERVED = 1024

# The longest time between two reports to the service manager, in seconds.
WATCHDOG = 2.0


def build_sender(folder: pathlib.Path, library: pathlib.Path) -> pathlib.Path:
    """Builds the program that sends frames."""
    folder.mkdir(parents=True, exist_ok=True)
    source, out = ROOT / "device/tests/macsecd_frames.c", folder / "macsecd_frames"
    call("gcc", *WARNINGS, "-pedantic", "-O2", *INCLUDED, "-o", str(out), str(source), str(library))
    return out


def slow_programs(out: pathlib.Path, library: pathlib.Path, source: pathlib.Path) -> pathlib.Path:
    """Builds macsecd over a slow disk. Returns the folder of the programs."""
    return build(out, library, ["-Wno-error"], source, [str(ROOT / "device/tests/macsecd_disk.c")])


def sci_of(channel: int) -> str:
    """The SCI of a channel."""
    return f"0200000001{channel:02x}0001"


# ---- No frame twice


class Deliveries(Background):
    """What TAP delivers: the frames of each channel."""

    def __init__(self, end: End) -> None:
        self.tap = Packets(end.namespace, "macsec0")
        self.tap.socket.settimeout(0.05)
        self.frames: list[tuple[int, int]] = []
        super().__init__()

    def step(self) -> None:
        """Reads a frame."""
        with contextlib.suppress(OSError):
            frame = self.tap.socket.recv(200)
            if frame[12:14] == b"\x88\xb5":
                self.frames.append((frame[14], int.from_bytes(frame[15:19], "big")))

    def stop(self) -> list[tuple[int, int]]:
        """Stops it once no frame is left. Returns the frames."""
        count = -1
        while count != (count := len(self.frames)):
            time.sleep(0.1)
        self.join()
        return self.frames


class Receiver:
    """An end that receives from 64 channels under one key, at window 0, and frames for it."""

    def __init__(self, world: World, sender: pathlib.Path) -> None:
        self.end, self.peer, self.sender = world.ends[0], world.ends[1], sender
        self.key = secrets.token_hex(16)
        lines = [f"device link link0\nend A gcm128 {self.end.sci} 1514 sci\nA key 9 {self.key} 0"]
        for channel in range(CHANNELS):
            sci = sci_of(channel)
            lines += [f"A rxsc {sci}", f"A rxsa {sci} 0 9 1", f"A rxon {sci} 0"]
        self.end.write("\n".join([*lines, "device receive ahead", "device shared", "device transient", ""]))
        self.end.create_journal()

    def send(self, first: int, count: int, rate: int) -> None:
        """Sends frames of all channels."""
        words = ["sealed", "link0", self.key, str(first), str(count), str(rate), "0"]
        call("ip", "netns", "exec", self.peer.namespace, str(self.sender), *words)

    def settle(self) -> None:
        """Waits until no frame comes any more."""
        last = -1
        while last != (last := self.end.counters()["device LinkIn"]):
            time.sleep(0.05)


def check_kill(receiver: Receiver, first: int, rounds: int, rng: random.Random) -> tuple[int, int]:
    """Frames, SIGKILL, and the same frames again. Returns how many were delivered, and how many of them again."""
    end, rate = receiver.end, 64 * 40
    end.start()
    deliveries = Deliveries(end)
    thread = threading.Thread(target=receiver.send, args=(first, rounds, rate))
    thread.start()
    time.sleep(rounds * 64 / rate + rng.uniform(-1, 0.1))
    end.stop(signal.SIGKILL)
    thread.join()
    before = set(deliveries.stop())
    end.start()
    deliveries = Deliveries(end)
    receiver.send(first, rounds, 20000)
    receiver.settle()
    again = before & set(deliveries.stop())
    end.stop()
    return len(before), len(again)


def check_replays(world: World, sender: pathlib.Path, kills: int, rng: random.Random) -> None:
    """SIGKILL with traffic in 64 channels: no frame is delivered again."""
    receiver = Receiver(world, sender)
    first, total, again = 1, 0, 0
    for _ in range(kills):
        rounds = 40 * rng.choice([3, 4])
        delivered, repeated = check_kill(receiver, first, rounds, rng)
        report(delivered > 64 * 40, f"replays: only {delivered} frames were delivered before a kill")
        total, again = total + delivered, again + repeated
        first += rounds + 3 * RESERVED
    report(again == 0, f"replays: {again} frames were delivered again")
    print(f"replays: {kills} kills, {total} frames, {again} delivered again", flush=True)


def check_again(world: World, sender: pathlib.Path) -> None:
    """An association comes again under its key: nothing is delivered again, and it begins above what it accepted."""
    receiver = Receiver(world, sender)
    end, sci, key = receiver.end, sci_of(5), receiver.key
    end.start()
    begin = [f"A rxsa {sci} 0 9 1", f"A rxon {sci} 0"]
    afresh = [f"A key 9 {key} 0", f"A rxsc {sci}", *begin]
    ways = {
        "rxdel": [f"A rxdel {sci} 0", *begin],
        "rxscdel": [f"A rxscdel {sci}", f"A rxsc {sci}", *begin],
        "load": ["load\n" + "\n".join([f"A rxdel {sci} 0", *begin])],
        "loads": [f"load\nA rxdel {sci} 0", "load\n#", "load\n" + "\n".join(begin)],
        "between": [f"A rxdel {sci} 0", load_lines(), *begin],
        "rxdel and open": [f"A rxdel {sci} 0", f"open {end.sci} gcm128", *afresh, "port on"],
        "load and open": [f"load\nA rxdel {sci} 0\nA protect on", f"open {end.sci} gcm128", *afresh, "port on"],
        "open": [f"open {end.sci} gcm128", *afresh, "port on"],
        "close": ["close", f"open {end.sci} gcm128", *afresh, "port on"],
    }
    for number, (what, requests) in enumerate(ways.items()):
        first = 1 + 30 * number
        receiver.send(first, 30, 20000)
        receiver.settle()
        deliveries = Deliveries(end)
        answers = [end.ask(it) for it in requests]
        report(all("ok" in it for it in answers), f"again: {what}: {answers}")
        receiver.send(first, 30, 20000)
        receiver.settle()
        again = [it for it in deliveries.stop() if it[0] == 5]
        report(not again, f"again: {what}: {len(again)} frames of 30 were delivered again")
        report(f"rx {sci} 0 9 {first + 30:016x} " in end.ask("numbers"), f"again: {what}: {end.ask('numbers')[:300]}")
    report(end.stop() == 0, f"again: macsecd does not end well: {end.log()}")


def check_last_records(world: World, sender: pathlib.Path) -> None:
    """A journal that can't be written at the end: nothing that the next run needs is missing, so macsecd ends well."""
    receiver = Receiver(world, sender)
    end = receiver.end
    end.start()
    receiver.send(1, 10, 20000)
    journal = end.journal
    journal.rename(journal.with_suffix(".moved"))
    receiver.settle()
    status = end.stop()
    report(status == 0, f"the journal can't be written at the end: status {status}: {end.log()}")


# ---- The disk


class Polls:
    """Asks for the port over and over, in a separate process, and notes how long the answers take."""

    def __init__(self, end: End, interval: float) -> None:
        words = [sys.executable, str(ROOT / "device/tests/macsecd_polls.py"), end.socket, str(interval)]
        self.process = subprocess.Popen(words, stdin=subprocess.PIPE, stdout=subprocess.PIPE, text=True)
        assert self.process.stdout is not None
        self.process.stdout.readline()
        self.count = 0

    def stop(self) -> float:
        """Stops it. Returns the slowest answer in seconds. `machine` is how long the machine paused itself."""
        words = self.process.communicate()[0].split()
        self.count, self.machine = int(words[0]), float(words[2])
        return float(words[1])


class Manager(Background):
    """A service manager, which notes the longest time between two reports that macsecd runs."""

    def __init__(self, path: pathlib.Path) -> None:
        self.socket = socket.socket(socket.AF_UNIX, socket.SOCK_DGRAM)
        self.socket.bind(str(path))
        self.socket.settimeout(0.05)
        self.longest, self.count, self.last = 0.0, 0, math.inf
        super().__init__()

    def step(self) -> None:
        """Reads a report."""
        with contextlib.suppress(socket.timeout):
            if self.socket.recv(100) == b"WATCHDOG=1":
                now = time.monotonic()
                self.longest = max(self.longest, now - self.last)
                self.last, self.count = now, self.count + 1

    def stop(self) -> None:
        """Stops it."""
        self.join()
        self.socket.close()


def send_plain(end: End, sender: pathlib.Path, count: int, rate: int) -> int:
    """A client sends frames. Returns how many TAP took."""
    words = ["ip", "netns", "exec", end.namespace, str(sender), "plain", "macsec0", str(count), str(rate)]
    return int(call(*words).split()[0])


class Slow(NamedTuple):
    """A disk: how many seconds a synchronization takes, whether from the start or when frames begin, and how many an
    answer to `port` may take."""

    seconds: float
    suddenly: bool
    answer: float


def start_on_disk(a: End, slow: Slow, manager: Manager) -> None:
    """Starts macsecd over such a disk."""
    stalled = a.folder / "slow"
    a.more_environment = {"SLOW": str(int(1000 * slow.seconds)), "NOTIFY_SOCKET": str(a.world.folder / "notify")}
    if slow.suddenly:
        a.more_environment["SLOW_FILE"] = str(stalled)
    a.start(wait=False)
    until(a.answers, 40)
    a.start_addresses()
    until(lambda: manager.count > (12 if slow.suddenly else 1), 20)
    stalled.touch()


def check_slow_disk(
    world: World, programs: pathlib.Path, sender: pathlib.Path, slow: Slow, seconds: int, rate: int
) -> None:
    """A slow disk: it costs no frame, and nothing else waits."""
    world.prepare()
    a, b = world.ends
    a.program = programs / "macsecd"
    manager = Manager(world.folder / "notify")
    b.start()
    start_on_disk(a, slow, manager)
    before, polls, client = a.counters(), Polls(a, 0.005), Client(a)
    sent = send_plain(a, sender, rate * seconds, rate)
    key = secrets.token_hex(16)
    client.carry_out(f"A key 7 {key} 0", "A txsa 1 7 1 conf")
    began = time.monotonic()
    refused = client.ask("A txsa 1 7 1 conf"), time.monotonic() - began
    client.carry_out("A txdel 1", "A retire 7")
    slowest, after = polls.stop(), a.counters()
    client.close()
    lost = after["device NoReservation"] - before["device NoReservation"]
    protected = after["OutPktsEncrypted"] - before["OutPktsEncrypted"]
    report(lost == 0, f"disk: {lost} of {sent} frames were lost without a reservation")
    report(protected > sent // 2, f"disk: only {protected} of {sent} frames were protected")
    report(slowest < slow.answer + polls.machine, f"disk: an answer to `port` took {1000 * slowest:.0f} ms")
    report(manager.longest < WATCHDOG, f"disk: {manager.longest:.1f} s between two reports to the service manager")
    report(0.5 < client.slowest < 1.5, f"disk: a request took {client.slowest:.1f} s")
    report(refused[0].startswith("refused") and refused[1] < 0.5, f"disk: a refused request: {refused}")
    print(
        f"disk: synchronizations of {slow.seconds} s{' suddenly' * slow.suddenly}, {sent} frames at {rate} a second, "
        f"{protected} protected, {lost} without a reservation, {dropped(a)} dropped by a full TAP, `port` in "
        f"{1000 * slowest:.0f} ms of {polls.count} (the machine {1000 * polls.machine:.0f} ms), a request in "
        f"{client.slowest:.2f} s, watchdog {manager.longest:.2f} s",
        flush=True,
    )
    report(a.stop(seconds=40) == 0, f"disk: {a.log()[-300:]}")
    manager.stop()


class Sudden(NamedTuple):
    """A receiver's disk that becomes slow: how many seconds a synchronization takes then; frames a second, for so many
    seconds; and which part of them has to arrive."""

    seconds: float
    rate: int
    length: int
    least: float


def check_sudden(world: World, programs: pathlib.Path, sender: pathlib.Path, sudden: Sudden) -> None:
    """A disk that becomes slow while frames come, with a record for sending: few frames are lost. Almost half of their
    reservation is used then: for 5.5 seconds nothing was written."""
    world.prepare()
    a, b = world.ends
    b.program, stalled = programs / "macsecd", b.folder / "slow"
    b.more_environment = {"SLOW": str(int(1000 * sudden.seconds)), "SLOW_FILE": str(stalled)}
    for end in (a, b):
        end.start()

    def counts() -> tuple[int, int]:
        return a.counters()["device LinkOut"], b.counters()[f"{a.sci} InPktsOK"]

    frames = a.spawn(str(sender), "plain", "macsec0", str(100 * sudden.rate), str(sudden.rate), log="sender")
    waits = until(lambda: time.time() - b.journal.stat().st_mtime > 5.5, 40)
    first = counts()
    stalled.touch()
    b.carry_out(f"A key 7 {secrets.token_hex(16)} 0", "A txsa 1 7 1 conf")
    time.sleep(sudden.length)
    frames.terminate()
    frames.wait()
    stalled.unlink()
    until(lambda: counts()[0] - first[0] <= counts()[1] - first[1], sudden.seconds + 2)
    sent, arrived = (now - then for now, then in zip(counts(), first))
    lacked, lost = (b.counters()[f"device {it}"] for it in ("LinkNoReservation", "LinkLost"))
    what = f"disk: synchronizations of {sudden.seconds} s while {sudden.rate} frames come in a second"
    print(f"{what}: {arrived} of {sent} arrived, {lacked} without a reservation, {lost} lost by LINK", flush=True)
    report(waits and sent > 100 * sudden.length, f"{what}: only {sent} were sent")
    if sent < sudden.rate * sudden.length / 2:
        print(f"{what}: not tried in full: this machine sends only {sent}", flush=True)
    report(arrived >= sudden.least * sent, f"{what}: only {arrived} of {sent} arrived")
    b.stop(signal.SIGKILL)


def check_order(world: World, programs: pathlib.Path, waited: list[bool]) -> None:
    """A new key while frames under the old one wait for a slow disk: none of its frames overtakes these. Notes whether
    they waited: a machine under load sends too few."""
    world.prepare()
    a, b = world.ends
    b.program, stalled, key = programs / "macsecd", b.folder / "slow", secrets.token_hex(16)
    b.more_environment = {"SLOW": "2500", "SLOW_FILE": str(stalled)}
    for end in (a, b):
        end.start()
    stream = Stream(a, 0.02)
    time.sleep(3)  # few packet numbers are reserved for so few frames
    stalled.touch()
    stream.interval = 0.0003
    b.carry_out(f"A key 5 {key} 0", f"A rxsa {a.sci} 1 5 1", f"A rxon {a.sci} 1")
    a.carry_out(f"A key 5 {key} 0", "A txsa 1 5 1 conf")
    waited.append(until(lambda: a.counters()["device LinkOut"] > b.counters()["device LinkIn"] + 30, 3))
    a.carry_out("A txon 1")
    time.sleep(5)
    stalled.unlink()
    sent, arrived = stream.stop()
    print(f"disk: a new key: {arrived} of {sent} datagrams arrived, {stream.overtaken} after later ones", flush=True)
    report(arrived > 50 and stream.overtaken == 0, f"disk: {stream.overtaken} of {arrived} datagrams were overtaken")


def check_exchanged(world: World, programs: pathlib.Path, sender: pathlib.Path, runs: int, rng: random.Random) -> None:
    """Frames of each channel come over a slow disk, some at a time in reverse order. If one of them is reserved, and
    those before it wait for a record, it is delivered before them."""
    receiver = Receiver(world, sender)
    end, count, overtaken = receiver.end, 0, 0
    end.program, end.more_environment = programs / "macsecd", {"SLOW": "150"}
    for run in range(runs):
        end.start()
        deliveries, first, last = Deliveries(end), 1 + 10000 * run, [0] * CHANNELS
        while first < 45 + 10000 * run:
            length = rng.randrange(2, 7)
            for number in reversed(range(first, first + length)):
                receiver.send(number, 1, 1000000)
            first += length
        time.sleep(0.5)
        receiver.settle()
        for channel, number in deliveries.stop():
            overtaken += number < last[channel]
            last[channel] = max(last[channel], number)
            count += 1
        report(end.stop() == 0, f"disk: macsecd does not end well: {end.log()}")
    print(f"disk: {count} frames that the link exchanges, {overtaken} after later ones", flush=True)
    report(count > 5 * runs * CHANNELS and overtaken == 0, f"disk: {overtaken} of {count} frames were overtaken")


# ---- Many keys


def new_key(client: Client, number: int, key: str, peer: str) -> None:
    """A new key in both directions, as a key agreement installs it; the old one goes."""
    an, old, name, before = number % 4, (number - 1) % 4, number % 4096, (number - 1) % 4096
    client.carry_out(f"A key {name} {key} 0", f"A rxsa {peer} {an} {name} 1", f"A rxon {peer} {an}")
    client.carry_out(f"A txsa {an} {name} 1 conf", f"A txon {an}")
    if number > 0:
        client.carry_out(f"A txdel {old}", f"A rxdel {peer} {old}", f"A retire {before}")


def use_keys(client: Client, keys: range, sender: pathlib.Path) -> tuple[float, float, Polls]:
    """New keys, and a frame under each. Returns the seconds, the longest pause and the polls that show it."""
    injector, polls, began = Packets(client.end.namespace, "macsec0"), Polls(client.end, 0.002), time.monotonic()
    peer = client.end.peer.namespace
    for number in keys:
        key = secrets.token_hex(16)
        new_key(client, number, key, sci_of(5))
        injector.send(b"\xff" * 12 + b"\x88\xb5" + bytes(50))
        if number % 20 == 0:
            an = f"{number % 4}"
            call("ip", "netns", "exec", peer, str(sender), "sealed", "link0", key, "1", "1", "100000", an)
            is_next = lambda an=an: f" {2:016x} " in client.ask(f"numbers rx {sci_of(5)} {an}")
            report(until(is_next), "keys: no frame")
    seconds, pause = time.monotonic() - began, polls.stop()
    return seconds, pause, polls


def take_over(end: End) -> Client:
    """A key agreement, which owns the device and opens an endpoint."""
    client = Client(end)
    client.carry_out("own", f"open {end.sci} gcm128", f"A rxsc {sci_of(5)}", "port on")
    return client


def check_many_keys(world: World, sender: pathlib.Path, keys: int, longest: float) -> None:
    """Keys of a key agreement, one after another: nothing pauses, and the journal stays short, also over a restart."""
    a = world.ends[0]
    a.write("device link link0\ndevice shared\ndevice transient\n")
    a.create_journal()
    a.prefix = ["chrt", "-f", "10"] if shutil.which("chrt") else []  # other processes make no pauses
    a.start()
    client = take_over(a)
    seconds, pause, polls = use_keys(client, range(keys), sender)
    shown, lacked = json.loads(client.ask("json")), a.counters()["device NoReservation"]
    size = a.journal.stat().st_size
    told = f"a pause of {1000 * pause:.0f} ms, the machine {1000 * polls.machine:.0f}"
    report(pause < longest + polls.machine, f"keys: {told}")
    # The names of the last 256 keys that were given up stay, and the names of the keys in use.
    names = shown["journal_names"]
    report(256 <= names < 300, f"keys: the journal has {names} names after {keys} keys")
    report(size <= 1 << 21, f"keys: the journal has {size} octets after {keys} keys")
    report(lacked == 0, f"keys: {lacked} frames lacked a reservation")
    client.close()
    a.stop(signal.SIGKILL)
    began = time.monotonic()
    a.start()
    restart = time.monotonic() - began
    report(restart < 2, f"keys: a restart takes {restart:.1f} s")
    client = take_over(a)
    use_keys(client, range(300), sender)
    names = json.loads(client.ask("json"))["journal_names"]
    report(names < 300, f"keys: the journal has {names} names after a restart and 300 keys")
    client.close()
    print(
        f"keys: {keys} in {seconds:.1f} s, longest pause {1000 * pause:.1f} ms of {polls.count} answers (the "
        f"machine {1000 * polls.machine:.1f} ms), "
        f"{shown['journal_names']} names, {size} octets, restart {restart:.2f} s, then {names} names",
        flush=True,
    )


# ---- Which names stay


def use_key(by: Client, injector: Packets, number: int, key: str) -> None:
    """A frame is sent under a key."""
    by.carry_out(f"A key {number} {key} 0", f"A txsa 2 {number} 1 conf", "A txon 2", "port on")
    injector.send(b"\xff" * 12 + b"\x88\xb5" + bytes(50))
    report(until(lambda: f" {1:016x} " not in by.ask("numbers tx 2")), "given up: no frame is sent")


def retire_key(by: Client, number: int) -> None:
    """Ends what use_key has begun."""
    by.carry_out("A txoff 2", "A txdel 2", f"A retire {number}")


def check_given_up(world: World) -> None:
    """Only a key that the owner of the device has brought and retired leaves the journal."""
    world.start()
    a, b = world.ends
    lasting, injector = secrets.token_hex(16), Packets(a.namespace, "macsec0")

    def use(by: Client, number: int, key: str) -> None:
        use_key(by, injector, number, key)
        retire_key(by, number)

    other = Client(a)
    use(other, 7, lasting)
    other.socket.close()
    client = Client(a)
    client.carry_out("own", "A txoff 0", "A txdel 0", f"A rxscdel {b.sci}", "A retire 0", "A retire 1")
    again = f"A key 5 {secrets.token_hex(16)} 0"
    received = [again, f"A rxsc {b.sci}", f"A rxsa {b.sci} 1 5 1"]
    client.carry_out(f"open {a.sci} gcm128", *received, f"A rxon {b.sci} 1")
    b.carry_out(again, "A txsa 1 5 1 conf", "A txon 1")
    ping(b)
    client.carry_out(f"A rxdel {b.sci} 1", "A retire 5", f"open {a.sci} gcm128", *received)
    use(client, 7, lasting)
    keys = [secrets.token_hex(16) for _ in range(300)]
    for number, key in enumerate(keys, 8):
        use(client, number, key)
    client.carry_out(f"open {a.sci} gcm128", f"A key 1 {keys[-20]} 0", f"A key 2 {keys[0]} 0", f"A key 3 {lasting} 0")
    answers = [client.ask(f"A txsa {an} {key} 1 conf") for an, key in ((0, 1), (1, 2), (2, 3))]
    report(answers[0].startswith("ok pn"), f"given up: a recent key begins again at 1: {answers}")
    report(answers[1] == "ok\n", f"given up: an old key has not left the journal: {answers}")
    report(answers[2].startswith("ok pn"), f"given up: a key that came again before begins at 1: {answers}")
    client.carry_out(*received[:2])
    report(client.ask(received[2]).startswith("ok pn"), "given up: a key that is installed again has left the journal")
    client.close()
    a.stop()
    log = len(a.log())
    a.start()
    number, said = next_of(a), a.log()[log:]
    report(number > 1000, f"given up: a key of the configuration begins again, at {number}: {said}")


def check_refused(world: World) -> None:
    """After a key was given up, the answers to what is refused and to `open` do not wait for the clock."""
    world.start()
    client, took = Client(world.ends[0]), []
    client.carry_out("own")
    for number in range(10, 19):
        key = f"A key {number} {secrets.token_hex(16)} 0"
        client.carry_out(key, f"A txsa 2 {number} 1 conf", "A txdel 2", f"A retire {number}")
        began = time.monotonic()
        answers = [
            client.ask(it).split()[0]
            for it in ("A txsa 9", f"A txsa 2 {number} 1 conf", f"open {world.ends[0].sci} gcm128")
        ]
        took.append(time.monotonic() - began)
        report(answers == ["fault", "refused", "ok"], f"refused: {answers}")
    median = sorted(took)[len(took) // 2]
    report(median < 0.5, f"refused: after a key was given up, the answers take {1000 * median:.0f} ms")
    client.socket.close()


# ---- Threads


def check_threads(world: World, programs: pathlib.Path) -> None:
    """Requests of several clients, frames and the thread of the journal, under ThreadSanitizer."""
    a = world.ends[0]
    a.program = programs / "macsecd"
    a.more_environment = {"TSAN_OPTIONS": "exitcode=66 halt_on_error=1"}
    world.start()
    stream = Stream(a, 0.001)

    def keys(own: int) -> None:
        client = Client(a)
        for number in range(40 * own, 40 * own + 40):
            client.carry_out(f"A key {number} {secrets.token_hex(16)} 0", f"A txsa {own} {number} 1 conf")
            client.carry_out(f"A txdel {own}", f"A retire {number}")
            client.ask(load_lines() if number % 8 == 0 else "json")
        client.close()

    try:
        with concurrent.futures.ThreadPoolExecutor() as pool:
            for done in [pool.submit(keys, own) for own in (1, 2, 3)]:
                done.result()
    finally:
        sent, arrived = stream.stop()
    report(sent == arrived, f"threads: {sent} datagrams were sent and {arrived} arrived")
    report(a.stop() == 0, f"threads: {a.log()[-2000:]}")


def record(number: int) -> bytes:
    """A record of a name that no key has."""
    octets = secrets.token_bytes(32) + number.to_bytes(8, "big")
    return octets + hashlib.sha256(b"macsec reserve: check" + octets).digest()[:24]


def check_fill(world: World) -> None:
    """A journal that is half full, one that is full, and one with more names than a journal can have. They have the
    earlier form, which needs no count."""
    world.prepare()
    a = world.ends[0]
    journal = a.journal
    header = earlier_header(journal.read_bytes())
    journal.write_bytes(header + b"".join(record(5) for _ in range(32768)))
    expect(a, "fill: too many names", 2, "has too many names")
    for names, text in ((14200, ""), (14400, "is full to 50 percent"), (32766, "no name left")):
        journal.write_bytes(header + b"".join(record(5) for _ in range(names)))
        log = len(a.log()) if (a.folder / "log").exists() else 0
        a.start()
        until(lambda: "percent" in a.log()[log:], 3)
        with_text = ("percent" in a.log()[log:]) == bool(text) and text in a.log()[log:]
        report(with_text, f"fill: {names} names: {a.log()[log:]}")
        shown = json.loads(a.ask("json"))
        report(names <= shown["journal_names"] <= names + 2, f"fill: {names} names: {shown['journal_names']}")
        gauge = f'macsec_journal_names{{device="macsec0"}} {shown["journal_names"]}\n'
        report(gauge in a.ask("metrics") and shown["journal_names_max"] == 28672, f"fill: no gauge {gauge}")
        a.stop(signal.SIGKILL)
