"""macsecd with an isolated LINK over time: kills, carrier, restarts, changes of LINK and TAP, and clients."""

from __future__ import annotations

import re
import signal
import socket
import subprocess
import threading
import time

from house.reporting import report, until
from isolated_frames import ALL_NODES, advertisement, ethernet
from isolated_world import Host, Options, Pair, sending
from macsecd_world import Packets

NETWORKS = (
    ["route", "add", "blackhole", "10.9.0.0/24", "metric", "4000"],
    ["-6", "route", "add", "blackhole", "fd09::/64", "metric", "4000"],
)


def leave_by_carrier(host: Host) -> None:
    """Routes of a device without carrier are not used."""
    for family in ("ipv4", "ipv6"):
        host.set(*(f"{family}/conf/{it}/ignore_routes_with_linkdown=1" for it in ("all", "default", "macsec0")))


def kill(pair: Pair, kills: int, what: str) -> None:
    """Kills macsecd while datagrams are sent. None may be on the other network."""
    a = pair.a
    sniffer = Packets(pair.other.namespace, "other0")
    with sending(a) as senders:
        for _ in range(kills):
            a.stop(signal.SIGKILL)
            time.sleep(0.03)
            a.restart()
        sent = senders.stop()
    leaked = sum(b"SECRET" in it for it in sniffer.frames(0.3))
    report(leaked == 0, f"kills: {what}: {leaked} datagrams left by another device, {sent}")
    addresses = a.ip("-br", "addr", "show", "macsec0")
    report("10.9.0.1/24" in addresses and "fd09::1/64" in addresses, f"kills: {what}: {addresses}")
    pair.passes("after the kills")
    print(f"kills: {what}: {kills} kills, {sent}", flush=True)


def check_kills(options: Options) -> None:
    """SIGKILL, with routes that need carrier and without."""
    kills = 10 if options.short else 100
    for needs_carrier in (False, True):
        with options.pair() as pair:
            pair.start()
            for each in NETWORKS if options.blackhole else ():
                pair.a.ip(*each)
            if needs_carrier:
                leave_by_carrier(pair.a)
            kill(pair, kills, "routes that need carrier" if needs_carrier else "routes that need none")


def check_carrier(options: Options) -> None:
    """LINK's carrier goes and comes."""
    with options.pair() as pair:
        pair.start()
        for each in NETWORKS if options.blackhole else ():
            pair.a.ip(*each)
        leave_by_carrier(pair.a)
        sniffer = Packets(pair.other.namespace, "other0")
        end, changes, leaked = time.monotonic() + 60 * options.minutes, 0, 0
        with sending(pair.a) as senders:
            while time.monotonic() < end:
                for state in ("down", "up"):
                    pair.b.link_ip("link", "set", "link0", state)
                    changes += 1
                    time.sleep(options.rng.uniform(0.3, 3))  # the system reports a carrier after up to a second
                leaked += sum(b"SECRET" in it for it in sniffer.frames(0.02))
            sent = senders.stop()
        leaked += sum(b"SECRET" in it for it in sniffer.frames(0.3))
        report(leaked == 0, f"carrier: {leaked} datagrams left by another device, {sent}")
        pair.passes("after the changes of carrier")
        report(any(senders.refused.values()), f"carrier: no route was withdrawn: {sent}")
        print(f"carrier: {changes} changes, {sent}", flush=True)


# ---- The name of the namespace


def bring_back(pair: Pair, seconds: float) -> None:
    """Makes LINK again, some time after it has gone."""
    time.sleep(seconds)
    a, other = str(pair.a.holder.pid), str(pair.other.holder.pid)
    words = ["ip", "link", "add", "link0", "netns", a, "type", "veth", "peer", "name", "link0", "netns", other]
    until(lambda: subprocess.run(words, capture_output=True).returncode == 0, 10)
    pair.other.ip("link", "set", "link0", "up")


def restart_without_name(pair: Pair, number: int, seconds: float) -> None:
    """Deletes the name while macsecd runs, kills macsecd, so that LINK goes, and starts it again."""
    a = pair.a
    a.run("ip", "netns", "del", "macsec-macsec0")
    report(bool(a.ask("port")), f"names: {number}: macsecd does not run without the name")
    a.stop(signal.SIGKILL)
    back = threading.Thread(target=bring_back, args=(pair, seconds))
    back.start()
    ended = a.link("isolate")
    back.join()
    report(ended.returncode == 0, f"names: {number}: LINK came back after {seconds:.2f} s: {ended.stderr}")
    a.restart()
    addresses = a.ip("-br", "addr", "show", "macsec0")
    report("10.9.0.1/24" in addresses, f"names: {number}: {addresses}")


def check_names(options: Options) -> None:
    """Restarts after which LINK comes back late, as a card does whose namespace has ended."""
    with options.pair() as pair:
        a, b = pair.a, pair.b
        b.ip("link", "del", "link0")
        pair.join("link0", a, pair.other)
        a.configure(pair.keys)
        a.start()
        times = 10 if options.short else 100
        for number in range(times):
            restart_without_name(pair, number, options.rng.uniform(0, 1))
        print(f"names: {times} restarts", flush=True)


# ---- Changes


def has_carrier(host: Host) -> bool:
    """Has TAP carrier?"""
    return "LOWER_UP" in host.devices()["macsec0"]


def check_link(pair: Pair) -> None:
    """LINK goes down and up, and gets another MTU."""
    a, b = pair.a, pair.b
    for what, end in (("LINK", a), ("the peer's LINK", b)):
        end.link_ip("link", "set", "link0", "down")
        report(until(lambda: not has_carrier(a)), f"life: {what} is down, and TAP has carrier")
        end.link_ip("link", "set", "link0", "up")
        report(until(lambda: has_carrier(a)), f"life: {what} is up again, and TAP has no carrier")
    a.link_ip("link", "set", "link0", "mtu", "1400")
    report(until(lambda: "ip link set macsec0 mtu 1368" in a.log()), "life: no message about another MTU")
    a.isolate()
    report("mtu 1368 " in a.devices()["macsec0"], "life: macsec-link did not set TAP's MTU")
    told = a.ask("link")
    form = "link link0 up mtu 1400 address .* namespace /run/netns/macsec-macsec0 tap macsec0\n"
    report(re.fullmatch(form, told) is not None, f"life: `link`: {told!r}")
    report('"namespace":"/run/netns/macsec-macsec0"' in a.ask("json"), "life: json has no namespace")
    a.link_ip("link", "set", "link0", "mtu", "1500")
    a.isolate()


def ends(host: Host, what: str, text: str) -> None:
    """macsecd has to end with status 1 and say this."""
    status, host.process = host.ended(5), None
    last = host.log().splitlines()[-1]
    report(status == 1 and text in last, f"life: {what}: status {status}, {last!r}")


def check_ends(pair: Pair) -> None:
    """TAP is deleted, LINK leaves its namespace, TAP goes to a third namespace, and LINK is deleted."""
    a, b = pair.a, pair.b
    a.ip("link", "del", "macsec0")
    ends(a, "TAP is deleted", "TAP macsec0 was deleted")
    a.start()
    pair.passes("with a new TAP")
    a.link_ip("link", "set", "link0", "netns", str(a.holder.pid))
    ends(a, "LINK is moved", "LINK link0 was deleted or moved")
    a.start()
    pair.passes("after LINK was moved in again")
    a.ip("link", "set", "macsec0", "netns", str(pair.other.holder.pid))
    time.sleep(1.5)
    report(bool(a.ask("port")), "life: macsecd does not run with a TAP in a third namespace")
    a.stop()
    b.link_ip("link", "del", "link0")
    ends(b, "LINK is deleted", "LINK link0 was deleted or moved")


def check_address(pair: Pair) -> None:
    """TAP gets another address: LINK passes frames to any address."""
    a, b = pair.a, pair.b
    a.ip("link", "set", "macsec0", "address", "02:00:00:00:00:55")
    report(until(lambda: "passes frames to any address" in a.log()), "life: TAP's new address was not seen")
    b.ip("neigh", "replace", "10.9.0.1", "lladdr", "02:00:00:00:00:55", "dev", "macsec0")
    pair.passes("with another address of TAP")


def check_release(pair: Pair) -> None:
    """The way back, also when the configuration says `device shared` by then."""
    a = pair.a
    report("link0" not in a.devices(), "life: LINK is in the host's namespace")
    report(a.stop() == 0, f"life: SIGTERM: {a.log()[-300:]}")
    stay = "link0" in a.devices(True) and "10.9.0.1/24" in a.ip("-br", "addr", "show", "macsec0")
    report(stay, "life: LINK or TAP's address went with macsecd")
    a.shared = True
    a.configure(pair.keys)
    ended = a.link("isolate")
    report(ended.returncode == 1 and "macsec-link release" in ended.stderr, f"life: LINK is isolated: {ended.stderr!r}")
    ended = a.link("release")
    there = a.devices()
    is_back = "link0" in there and "UP" not in there["link0"].split(">")[0]
    report(ended.returncode == 0 and is_back, f"life: release: {ended.stderr!r}, {list(there)}")
    report(a.run("ls", "/run/netns") == "", "life: release has left a namespace")
    a.ip("link", "set", "link0", "up")
    a.ip("link", "del", "macsec0")
    a.start()
    report("`device shared`: LINK link0 is in the host's" in a.log(), "life: no message about `device shared`")
    pair.passes("with `device shared`")
    a.stop()
    report("macsec0" in a.devices(), "life: TAP ended with `device shared`")
    a.shared = False
    a.configure(pair.keys)
    a.start()
    pair.passes("isolated again")


def check_life(options: Options) -> None:
    """Changes of LINK and TAP."""
    with options.pair() as pair:
        pair.start()
        check_link(pair)
        check_release(pair)
        check_address(pair)
        check_ends(pair)


# ---- Clients


def check_bridge(pair: Pair) -> None:
    """TAP is a port of a bridge, also after a kill."""
    a = pair.a
    a.ip("addr", "flush", "dev", "macsec0")
    a.ip("link", "add", "br0", "type", "bridge")
    a.ip("link", "set", "macsec0", "master", "br0")
    a.ip("addr", "add", "10.9.0.1/24", "dev", "br0")
    a.ip("link", "set", "br0", "up")
    pair.passes("by a bridge")
    a.stop(signal.SIGKILL)
    report("master br0" in a.devices()["macsec0"], "clients: TAP has left its bridge")
    a.restart()
    pair.passes("by a bridge after a kill")


def check_clients(options: Options) -> None:
    """A router's advertisement through MACsec, the service manager's socket, and a bridge."""
    with options.pair() as pair, socket.socket(socket.AF_UNIX, socket.SOCK_DGRAM) as manager:
        pair.start()
        a, b = pair.a, pair.b
        b_tap = Packets(b.namespace, "macsec0")
        address = b.address("macsec0")
        for _ in range(3):
            b_tap.send(ethernet(ALL_NODES, address, 0x86DD, advertisement(address, "2001:db8:900d::")))
        has_address = until(lambda: "2001:db8:900d" in a.ip("-6", "addr", "show", "macsec0"), 5)
        report(has_address, "clients: no address by a router's advertisement through MACsec")
        a.stop()
        manager.bind(str(pair.folder / "notify"))
        manager.settimeout(20)
        a.start(NOTIFY_SOCKET=str(pair.folder / "notify"))
        report([manager.recv(100) for _ in range(2)] == [b"READY=1", b"WATCHDOG=1"], "clients: the manager's socket")
        check_bridge(pair)
