"""Packet numbers that macsecd reserves ahead of receiving: no frame is delivered twice, and what that costs."""

from __future__ import annotations

import concurrent.futures
import contextlib
import pathlib
import random
import secrets
import signal
import socket
import time

from house.reporting import report, until
from macsecd_losses import count_all, settled
from macsecd_world import (
    Client,
    End,
    Packets,
    Stream,
    World,
    late_frames,
    load_lines,
    numbers_of,
    ping,
    protected,
    udp_socket,
)

# A reservation has the packet numbers of so many seconds of a channel's frames, and at least so many.
LASTS, LEAST = 2, 16

# How long macsecd waits between two looks at the clock, and a bit more.
TICK = 1.2

# So many other frames a host sends meanwhile.
FEW = 5


def rx_next(end: End, peer: End) -> int:
    """The next packet number of the association that receives."""
    return int(end.ask(f"numbers rx {peer.sci} 0").split()[4], 16)


def give_again(end: End, frames: list[bytes]) -> dict[str, int]:
    """Brings frames to LINK of this end once more. Returns by how much its counters have grown."""
    injector = Packets(end.peer.link_namespace, "link0")
    before = end.counters()
    for at, frame in enumerate(frames):
        injector.send(frame)
        if at % 500 == 499:
            until(lambda at=at: end.counters()["device LinkIn"] > before["device LinkIn"] + at)
    arrived = until(lambda: end.counters()["device LinkIn"] >= before["device LinkIn"] + len(frames))
    report(arrived, f"{len(frames)} frames given again did not arrive")
    after = end.counters()
    return {name: value - before.get(name, 0) for name, value in after.items()}


# ---- No frame twice


def check_recorded(world: World, replay: bool, times: int) -> None:
    """A recorded frame of an earlier run, again and again: it is not delivered, and reserves nothing."""
    a, b = world.ends
    world.start(more=f"A replay {'on' if replay else 'off'} 0\n")
    link = Packets(b.link_namespace, "link0")
    ping(a)
    frame = protected(link.frames(), a.sci)[-1]
    a.stop()
    b.stop(signal.SIGKILL)
    b.start()
    time.sleep(TICK)
    journal, log = b.journal.read_bytes(), b.log()
    grown = give_again(b, [frame] * times)
    time.sleep(TICK)
    what = f"ahead: a recorded frame, {times} times, replay protection {'on' if replay else 'off'}"
    report(grown["device TapOut"] == 0 == grown[f"{a.sci} InPktsOK"], f"{what}: delivered: {grown}")
    late, earlier = late_frames(grown, a.sci), grown["device LinkEarlierRun"]
    wanted = (times, 0) if replay else (0, times)
    report((late, earlier) == wanted, f"{what}: {late} late, {earlier} of an earlier run")
    report(b.journal.read_bytes() == journal, f"{what}: the journal has changed")
    said = b.log()[len(log) :].count("an earlier run may have delivered them")
    report(said == (0 if replay else 1), f"{what}: {said} messages")
    shown = f"dropped 0 without a reservation, {earlier} of an earlier run\n"
    report(shown in b.ask("show"), f"{what}: show: {b.ask('show')}")
    count_all(b)


def check_orderly(world: World) -> None:
    """SIGTERM: the next run delivers no recorded frame, and drops as many new ones as were reserved."""
    world.start(more="A replay on 64\n")
    a, b = world.ends
    link = Packets(b.link_namespace, "link0")
    for more in (0, 200):
        report(ping(a, 20) == 20, "ahead: no replies")
        frames = protected(link.frames(), a.sci)
        last = max(number for _, number in numbers_of(frames))
        report(b.stop() == 0, f"ahead: macsecd does not end well: {b.log()[-300:]}")
        b.start()
        first = rx_next(b, a)
        grown = give_again(b, frames)
        again = grown[f"{a.sci} InPktsOK"]
        report(again == 0, f"ahead: after SIGTERM {again} of {len(frames)} frames are accepted again")
        reserved, most = first - last - 1, max(LEAST, LASTS * (more + len(frames) + FEW)) + 1
        report(0 <= reserved <= most, f"ahead: SIGTERM leaves {reserved} reserved, and not at most {most}")
        arrived = burst(a, 200)
        holds = 200 - reserved <= arrived <= max(0, 200 - reserved) + 2 * FEW
        report(holds, f"ahead: after SIGTERM {arrived} of 200 frames arrived, where {reserved} are reserved")
        link.frames()


def check_kills_of_both(world: World, kills: int, replay: bool, rng: random.Random) -> None:
    """SIGKILL of the sender, of the receiver, and of both at once, under traffic. After each start the receiver gets
    what was recorded before once more: no frame is delivered twice, and no packet number is sent twice. Without replay
    protection a run may deliver its own frames twice, so only a new run of the receiver gets them."""
    world.start(more=f"A replay {'on' if replay else 'off'} 0\n")
    a, b = world.ends
    link, stream = Packets(b.link_namespace, "link0"), Stream(a, 0.002)
    recorded: dict[bytes, None] = {}
    again = 0
    for number in range(kills):
        time.sleep(rng.uniform(0.2, 0.6))
        victims = ([a], [b], [a, b])[number % 3]
        for end in victims:
            end.send_signal(signal.SIGKILL)
        for end in victims:
            end.stop(signal.SIGKILL)
        recorded.update(dict.fromkeys(protected(link.frames(0), a.sci)))
        frames = list(recorded)[-2000:]
        for end in victims:
            end.start()
        if replay or b in victims:
            give_again(b, frames)
            again += len(frames)
    time.sleep(TICK)
    sent, arrived = stream.stop()
    recorded.update(dict.fromkeys(protected(link.frames(), a.sci)))
    what = f"ahead: {kills} kills, replay protection {'on' if replay else 'off'}"
    twice = stream.received - arrived
    report(twice == 0, f"{what}: {twice} of {arrived} datagrams were delivered twice")
    numbers = numbers_of(list(recorded))
    report(len(set(numbers)) == len(numbers), f"{what}: {len(numbers) - len(set(numbers))} numbers were sent twice")
    report(arrived > 20 * kills and again > 20 * kills, f"{what}: only {arrived} arrived, {again} were given again")
    print(f"{what}: {arrived} of {sent} datagrams arrived, {again} frames given again, {twice} delivered", flush=True)


# ---- What it costs


def check_crash(world: World) -> None:
    """SIGKILL under traffic: as many frames are lost as were reserved, and no more."""
    world.start()
    a, b = world.ends
    stream, rate, before = Stream(a, 0.0005), 0, rx_next(b, a)
    for _ in range(4):
        time.sleep(1)
        rate, before = max(rate, rx_next(b, a) - before), rx_next(b, a)
    b.stop(signal.SIGKILL)
    b.start()
    passes = until(lambda: b.counters()[f"{a.sci} InPktsOK"] > 0, 20)
    sent, arrived = stream.stop()
    late = late_frames(b.counters(), a.sci)
    most = int(1.5 * max(LEAST, LASTS * rate))
    report(passes, f"ahead: no frame passes after a crash, {late} late")
    report(0 < late <= most, f"ahead: a crash lost {late} frames at {rate} a second, and not at most {most}")
    print(f"ahead: a crash lost {late} frames at {rate} a second; {arrived} of {sent} arrived", flush=True)


def check_crash_of_both(world: World) -> None:
    """SIGKILL of both ends: each then sends above all that it had reserved, which is more than the other end had."""
    world.start()
    a, b = world.ends
    stream = Stream(a, 0.0005)
    time.sleep(3)
    stream.stop()
    for end in (a, b):
        end.stop(signal.SIGKILL)
    for end in (a, b):
        end.start()
    replies = ping(a), ping(b)
    dropped = [late_frames(end.counters(), peer.sci) for end, peer in ((a, b), (b, a))]
    report(replies == (3, 3), f"ahead: after a crash of both ends {replies} of 3 requests are answered")
    report(dropped == [0, 0], f"ahead: after a crash of both ends {dropped} frames are late")


def check_burst(world: World) -> None:
    """Frames come much faster than before: some may be dropped without a reservation at first, and then none is."""
    world.start()
    a, b = world.ends
    ping(a)
    before = settled(a, b)
    stream = Stream(a, 0)
    time.sleep(2)
    middle = b.counters()["device LinkNoReservation"]
    time.sleep(1)
    lacked = b.counters()["device LinkNoReservation"]
    sent, _ = stream.stop()
    after = settled(a, b)
    out = after[0]["device LinkOut"] - before[0]["device LinkOut"]
    got, lost = (after[1][it] - before[1][it] for it in ("device LinkIn", "device LinkLost"))
    report(out == got + lost, f"ahead: {out} frames were sent, {got} read and {lost} lost")
    report(lacked == middle, f"ahead: {lacked - middle} frames lacked a reservation in the third second of a burst")
    report(lacked < got / 10, f"ahead: {lacked} of {got} frames of a burst lacked a reservation")
    count_all(b)
    print(f"ahead: a burst of {sent} datagrams in 3 s: {lacked} frames lacked a reservation", flush=True)


def burst(end: End, count: int, at_once: int = 1000, seconds: float = 1.5) -> int:
    """Sends so many datagrams to the other client, so many at once. Returns how many arrive, until none does for so
    many seconds."""
    arrived = 0
    with udp_socket(end.peer.namespace, 9012) as to, udp_socket(end.namespace) as by:
        for sent in range(count):
            with contextlib.suppress(OSError):
                by.sendto(b"burst", (f"10.9.0.{end.peer.number}", 9012))
            if sent % at_once == at_once - 1:
                time.sleep(0.01)
        to.settimeout(seconds)
        with contextlib.suppress(socket.timeout):
            while arrived < count:
                to.recv(100)
                arrived += 1
    return arrived


def start_silently(end: End) -> None:
    """Starts it without IPv6, which sends frames unasked."""
    end.without_ipv6("default")
    end.start(wait=False)
    end.wait_for_answer()
    end.ip("addr", "replace", f"10.9.0.{end.number}/24", "dev", "macsec0")
    end.ip("link", "set", "macsec0", "up")
    end.ip("neigh", "replace", f"10.9.0.{end.peer.number}", "lladdr", end.peer.address(), "dev", "macsec0")


def check_gap(world: World) -> None:
    """The peer starts again, far above the reservation: its frames wait for a record, and none is lost."""
    world.start()
    a, b = world.ends
    for end in (a, b):
        ping(end)
    for count in (1, 300):
        before, lacked = rx_next(b, a), b.counters()["device LinkNoReservation"]
        a.stop(signal.SIGKILL)
        start_silently(a)
        with concurrent.futures.ThreadPoolExecutor(1) as pool:
            if count > 1:
                b.send_signal(signal.SIGSTOP)  # so that many are there when it goes on
            sending = pool.submit(burst, a, count)
            time.sleep(0.5)
            b.send_signal(signal.SIGCONT)
            arrived = sending.result()
        what = f"ahead: after a start of the peer {arrived} of {count} frames"
        report(arrived == count, f"{what} arrived: {b.counters()}")
        grown = rx_next(b, a) - before
        report(grown > 60000, f"ahead: a start of the peer has skipped only {grown} packet numbers")
        lacked = b.counters()["device LinkNoReservation"] - lacked
        report(lacked == 0, f"ahead: after a start of the peer {lacked} of {count} frames lacked a reservation")
    count_all(b)


# ---- Changes


def check_loads(world: World, count: int) -> None:
    """`load` under traffic: no frame is lost, and none is accepted again."""
    world.start()
    a, b = world.ends
    link, stream, client = Packets(b.link_namespace, "link0"), Stream(a, 0.001), Client(b)
    time.sleep(0.5)
    for _ in range(count):
        got = client.ask(load_lines())
        report(got == "1 ok\n2 ok\n", f"ahead: `load`: {got}")
        time.sleep(0.1)
    sent, arrived = stream.stop()
    client.close()
    c = b.counters()
    lost = c["device LinkNoReservation"], c["device LinkEarlierRun"], late_frames(c, a.sci)
    report(sent == arrived and lost == (0, 0, 0), f"ahead: {count} `load`: {arrived} of {sent} arrived, lost {lost}")
    frames = protected(link.frames(), a.sci)
    report(len(frames) >= sent, f"ahead: only {len(frames)} of {sent} frames were recorded")
    again = give_again(b, frames[-1000:])[f"{a.sci} InPktsOK"]
    report(again <= FEW, f"ahead: {count} `load`: {again} frames are accepted again")
    count_all(b)


def check_late_records(world: World, programs: pathlib.Path) -> None:
    """A disk that takes half a second. The first frames of an association wait for a record. While frames of its
    channel come, the answer to `rxsa` comes when its reservation is on the disk. So an association which is enabled
    then loses no frame. Of more frames than can wait, some are dropped and counted."""
    world.prepare()
    a, b = world.ends
    b.program = programs / "macsecd"
    b.more_environment = {"SLOW": "500"}
    a.start()
    b.start()
    client = Client(b)
    for an, number in ((1, 2), (2, 3)):
        key = secrets.token_hex(16)
        began = time.monotonic()
        client.carry_out(f"A key {number} {key} 0", f"A rxsa {a.sci} {an} {number} 1")
        took = time.monotonic() - began
        client.carry_out(f"A rxon {a.sci} {an}")
        a.carry_out(f"A key {number} {key} 0", f"A txsa {an} {number} 1 conf", f"A txon {an}")
        waits = 0.3 if an == 2 else 0
        report(waits < took < 1.1, f"ahead: `rxsa` over a slow disk is answered after {took:.2f} s")
        report(burst(a, 50, seconds=3) == 50, "ahead: a new association over a slow disk loses frames")
    report(b.counters()["device LinkNoReservation"] == 0, "ahead: a new association lacked a reservation")
    client.close()
    a.stop(signal.SIGKILL)
    a.start()
    arrived, said = burst(a, 3000, 100), "their packet numbers are not reserved yet"
    lacked = b.counters()["device LinkNoReservation"]
    report(arrived > 500 and lacked > 0, f"ahead: a slow disk: {arrived} of 3000 frames arrived, {lacked} were dropped")
    report(until(lambda: said in b.log(), 3), f"ahead: no message about dropped frames: {b.log()[-300:]}")
    report(burst(a, 50) == 50, "ahead: no frames after those that were dropped")
    count_all(b)
    b.stop(signal.SIGKILL)
