"""Reports of rtnetlink that the system drops, since macsecd's queue is full: the state is right all the same."""

from __future__ import annotations

import contextlib
import pathlib
import random
import signal
import subprocess
import time

from house.reporting import Failed, call, report, until
from macsecd_world import End, World, ping

# Within so many seconds TAP has to be as LINK is. The system itself reports a carrier after up to a second.
LIMIT = 2.0
# So many reports fill the queue.
CHANGES = 400


def drops(end: End) -> int:
    """How many messages the system has dropped for macsecd's socket."""
    lines = pathlib.Path(f"/proc/{end.pid}/net/netlink").read_text().splitlines()[1:]
    found = [it for it in map(str.split, lines) if it[1] == "0" and it[2] == str(end.pid)]
    if len(found) != 1:
        raise Failed(f"macsecd has {len(found)} sockets of rtnetlink")
    return int(found[0][8])


def stop(end: End) -> None:
    """Stops macsecd, and waits until it is stopped."""
    end.send_signal(signal.SIGSTOP)
    status = pathlib.Path(f"/proc/{end.pid}/status")
    if not until(lambda: "State:\tT" in status.read_text()):
        raise Failed("macsecd does not stop")


def fill(end: End) -> None:
    """Makes more reports than macsecd's queue holds, while macsecd does not run."""
    lines = "".join(f"link set lo alias a{number}\n" for number in range(CHANGES))
    subprocess.run(["ip", "-n", end.namespace, "-batch", "-"], input=lines, text=True, check=True, capture_output=True)


def flags(end: End, device: str) -> str:
    """What the system shows of a device."""
    return end.ip("-o", "link", "show", device)


def has_carrier(end: End, device: str) -> bool:
    """Is it up, and has it carrier?"""
    return "LOWER_UP" in flags(end, device) and ",UP," in flags(end, device).replace("<", ",").replace(">", ",")


def is_right(end: End) -> bool:
    """Has TAP carrier if LINK has, and does macsecd know LINK's state and MTU?"""
    link = flags(end, "link0")
    mtu, address = link.split(" mtu ")[1].split()[0], link.split("link/ether ")[1].split()[0]
    state = "up" if has_carrier(end, "link0") else "down"
    told = end.ask("link")
    return told.startswith(f"link link0 {state} mtu {mtu} address {address} ") and has_carrier(end, "macsec0") == (
        state == "up"
    )


def change(end: End, peer: End, rng: random.Random) -> str:
    """Changes LINK or TAP. Returns what was done."""
    one, other, mtu = rng.choice(["up", "down"]), rng.choice(["up", "down"]), rng.choice(["1400", "1500"])
    address, carrier = f"02:00:00:00:01:{rng.randrange(256):02x}", rng.choice(["on", "off"])
    end.ip("link", "set", "link0", "mtu", mtu, "address", address, one)
    peer.ip("link", "set", "link0", other)
    end.ip("link", "set", "macsec0", "carrier", carrier)
    return f"LINK {one}, its peer {other}, mtu {mtu}, address {address}, TAP's carrier {carrier}"


def overflow(end: End, peer: End, rng: random.Random) -> float:
    """Lets macsecd lose reports of a change. Returns after how many seconds the state was right."""
    before = drops(end)
    stop(end)
    fill(end)
    what = change(end, peer, rng)
    if rng.random() < 0.5:
        fill(end)
    end.send_signal(signal.SIGCONT)
    began = time.monotonic()
    report(drops(end) > before, "overflow: no report was lost")
    report(until(lambda: is_right(end), LIMIT), f"overflow: {what}: {flags(end, 'macsec0')}, {end.ask('link')!r}")
    return time.monotonic() - began


def check_overflow(world: World, times: int, seed: str) -> None:
    """Reports are lost many times, while LINK and TAP change."""
    world.start()
    a, b = world.ends
    rng = random.Random(seed)
    took = [overflow(a, b, rng) for _ in range(times)]
    print(f"overflow: {times} times, the state was right after at most {max(took):.2f} s", flush=True)
    for end in (a, b):
        end.ip("link", "set", "link0", "up")
    a.ip("neigh", "flush", "dev", "macsec0")
    b.ip("neigh", "flush", "dev", "macsec0")
    report(until(lambda: ping(a, 2, seconds=0.5) == 2), "overflow: no replies at the end")
    check_deletion(a)


def check_deletion(end: End) -> None:
    """The report of LINK's deletion is lost."""
    stop(end)
    fill(end)
    call("ip", "-n", end.namespace, "link", "del", "link0")
    end.send_signal(signal.SIGCONT)
    status = end.ended(LIMIT)
    report(status == 1 and "LINK is gone" in end.log(), f"overflow: LINK was deleted: {status}, {end.log()[-300:]}")
    with contextlib.suppress(ProcessLookupError):
        end.process.kill()
