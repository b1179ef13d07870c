"""Frames in clear from LINK, devices around LINK, and a macsecd that was taken over."""

from __future__ import annotations

import contextlib
import pathlib
import shutil
import signal
import socket
import time
from typing import Callable

from house import ROOT
from house.reporting import Failed, report
from isolated_frames import ALL_NODES, BROADCAST, advertisement, datagram, ethernet, ipv4, ipv6, request, reset
from isolated_world import Host, Options, Pair, received
from macsecd_controls import replace_once
from macsecd_world import Packets, build, inside

TAP = "10.9.0.1"


class Attacker:
    """Host b, which sends frames in clear on LINK."""

    def __init__(self, pair: Pair, count: int) -> None:
        self.pair, self.a, self.count = pair, pair.a, count
        self.wire = Packets(pair.b.link_namespace, "link0")
        self.own = pair.b.address("link0", pair.b.link_namespace)
        self.link = self.a.address("link0", self.a.link_namespace)

    def flood(self, frame: bytes, to: socket.socket) -> int:
        """Sends a frame many times. Returns how many a program receives."""
        with to:
            for _ in range(self.count):
                self.wire.send(frame)
            return len(received(to))

    def ipv4(self, target: str, port: int, to: bytes = b"") -> bytes:
        """A datagram by IPv4."""
        return ethernet(to or self.link, self.own, 0x800, ipv4("10.9.0.2", target, 17, datagram(port)))


def datagrams4(it: Attacker) -> int:
    """To a program on TAP's address."""
    return it.flood(it.ipv4(TAP, 5000), it.a.udp(5000, TAP))


def broadcasts(it: Attacker) -> int:
    """To each program."""
    return it.flood(it.ipv4("255.255.255.255", 5001, BROADCAST), it.a.udp(5001))


def datagrams6(it: Attacker) -> int:
    """The same by IPv6."""
    packet = ipv6("fd09::2", "fd09::1", 17, datagram(5002), 6)
    return it.flood(ethernet(it.link, it.own, 0x86DD, packet), it.a.udp(5002, "::"))


def with_tag(it: Attacker) -> int:
    """With a VLAN tag of 0, which the system takes for no tag."""
    frame = it.ipv4(TAP, 5003)
    return it.flood(frame[:12] + b"\x81\0\0\0" + frame[12:], it.a.udp(5003, TAP))


def forwarded(it: Attacker) -> int:
    """To a network behind the host."""
    behind = it.pair.host()
    it.pair.join("in0", it.a, behind)
    it.a.ip("addr", "add", "198.51.100.1/24", "dev", "in0")
    behind.ip("addr", "add", "198.51.100.2/24", "dev", "in0")
    behind.ip("route", "add", "default", "via", "198.51.100.1")
    it.a.set("ipv4/ip_forward=1")
    return it.flood(it.ipv4("198.51.100.2", 5004), behind.udp(5004))


def asked(it: Attacker) -> list[bytes]:
    """Asks for TAP's address. Returns the replies."""
    it.wire.frames(0.05)
    for _ in range(100):
        it.wire.send(ethernet(BROADCAST, it.own, 0x806, request(it.own, "10.9.0.77", TAP)))
    return [each for each in it.wire.frames() if each[12:14] == b"\x08\x06" and each[20:22] == b"\0\2"]


def replies(it: Attacker) -> int:
    """Replies of ARP."""
    return len(asked(it))


def entries(it: Attacker) -> int:
    """What the host's ARP has learned."""
    asked(it)
    return len(it.a.ip("neigh", "show", "10.9.0.77").split())


def routes(it: Attacker) -> int:
    """Routes by a router's advertisements."""
    before = it.a.ip("-6", "route", "show")
    packet = advertisement(it.own, "2001:db8:bad::")
    for _ in range(100):
        it.wire.send(ethernet(ALL_NODES, it.own, 0x86DD, packet))
    time.sleep(0.3)
    return len(set(it.a.ip("-6", "route", "show").splitlines()) - set(before.splitlines()))


def next_number(it: socket.socket) -> int:
    """The sequence number that a connection expects."""
    for option, value in ((19, 1), (20, 1)):  # TCP_REPAIR, TCP_REPAIR_QUEUE: what is received
        it.setsockopt(socket.IPPROTO_TCP, option, value)
    number = it.getsockopt(socket.IPPROTO_TCP, 21) & 0xFFFFFFFF  # TCP_QUEUE_SEQ
    it.setsockopt(socket.IPPROTO_TCP, 19, 0)
    return number


def resets(it: Attacker) -> int:
    """Ends of a connection through MACsec, by a reset whose sequence number is known."""
    with inside(it.a.namespace):
        listener = socket.create_server((TAP, 6000))
    with inside(it.pair.b.namespace):
        client = socket.create_connection((TAP, 6000), 10)
    server, peer = listener.accept()
    server.settimeout(5)
    with listener, client, server:
        client.send(b"hello")
        if server.recv(9) != b"hello":
            raise Failed("TCP through MACsec")
        packet = reset("10.9.0.2", TAP, (peer[1], 6000), next_number(server))
        for _ in range(100):
            it.wire.send(ethernet(it.link, it.own, 0x800, packet))
        time.sleep(0.2)
        with contextlib.suppress(OSError):
            client.send(b"again")
            return int(server.recv(9) != b"again")
    return 1


def not_protected(it: Attacker) -> int:
    """Frames in clear that LINK sends."""
    it.wire.frames(0.1)
    end, got = time.monotonic() + 8, []
    while time.monotonic() < end:
        got += it.wire.frames(0.1)
    return sum(each[12:14] != b"\x88\xe5" for each in got)


ROWS: dict[str, Callable[[Attacker], int]] = {
    "IPv4 datagrams": datagrams4,
    "IPv4 broadcasts": broadcasts,
    "IPv6 datagrams": datagrams6,
    "datagrams with a VLAN tag": with_tag,
    "forwarded datagrams": forwarded,
    "replies of ARP": replies,
    "entries of ARP": entries,
    "routes": routes,
    "ended connections": resets,
    "frames in clear from LINK": not_protected,
}


def check_attacks(options: Options) -> None:
    """What reaches the host by LINK without MACsec."""
    with options.pair() as pair:
        pair.a.shared = options.shared
        pair.start()
        attacker = Attacker(pair, 200 if options.shared else 10000)
        before = pair.a.arrived()
        for name, row in ROWS.items():
            got = row(attacker)
            report(got == 0, f"attacks: {name}: {got}")
        # While there is a flood, the system drops most of them before macsecd counts them.
        arrived = pair.a.arrived() - before
        report(arrived >= 5 * attacker.count, f"attacks: {arrived} frames have arrived at LINK")
        report(pair.echo(100) > 0, "attacks: no datagram passes after them")
        print(f"attacks: {arrived} frames in clear", flush=True)


# ---- Devices around LINK


def macvlan(host: Host, below: str, name: str) -> None:
    """Makes a device over another one."""
    host.ip("link", "add", "link", below, "name", name, "type", "macvlan", "mode", "bridge")


def refused(host: Host, text: str, *stay: str) -> None:
    """`macsec-link isolate` has to fail and say this, and devices have to be in the host's namespace, up as before."""
    before = {name: "UP" in text.split(">")[0] for name, text in host.devices().items()}
    ended = host.link("isolate")
    holds = ended.returncode == 1 and text in ended.stderr
    report(holds, f"devices: {ended.returncode}, {ended.stderr!r}, not {text!r}")
    after = {name: "UP" in text.split(">")[0] for name, text in host.devices().items()}
    changed = [it for it in stay if it not in after or after[it] != before[it]]
    report(not changed, f"devices: {text}: {changed} of the host changed")


def below(options: Options) -> None:
    """LINK is a macvlan device: datagrams in clear to the address of the device below it."""
    with options.pair() as pair:
        for host in (pair.a, pair.b):
            macvlan(host, "link0", "mv0")
        way = "device isolate alone\n" if options.alone else ""
        pair.a.configure(pair.keys, "device link mv0\n" + way)
        pair.b.configure(pair.keys, "device link mv0\n")
        for host in (pair.a, pair.b):
            host.isolate()
        for host in (pair.a, pair.b):
            host.start()
        pair.passes("by a macvlan device")
        wire = Packets(pair.b.link_namespace, "link0")
        to = pair.a.address("link0", pair.a.namespace if "link0" in pair.a.devices() else pair.a.link_namespace)
        listener = pair.a.udp(5000, TAP)
        for _ in range(1000):
            wire.send(ethernet(to, b"\2\0\0\0\0\x99", 0x800, ipv4("10.9.0.2", TAP, 17, datagram(5000))))
        got = len(received(listener))
        report(got == 0, f"devices: {got} datagrams in clear arrived by the device below LINK")
        pair.a.stop()
        if options.alone:
            pair.a.configure(pair.keys, "device link mv0\n")
            refused(pair.a, "the device below mv0 is not with it", "link0")
        ended = pair.a.link("release")
        both = {"link0", "mv0"} <= set(pair.a.devices())
        report(ended.returncode == 0 and both, f"devices: release: {ended.stderr}, {list(pair.a.devices())}")


def over(options: Options) -> None:
    """A device over LINK, a bridge that LINK is a port of, and a device that is made over LINK later."""
    with options.pair() as pair:
        a = pair.a
        pair.write()
        macvlan(a, "link0", "up0")
        refused(a, "up0 is over link0", "link0", "up0")
        a.ip("link", "del", "up0")
        a.ip("link", "add", "br0", "type", "bridge")
        a.ip("link", "set", "link0", "master", "br0")
        refused(a, "br0 is over link0", "link0", "br0")
        report("master br0" in a.devices()["link0"], "devices: LINK was taken out of its bridge")
        a.configure(pair.keys, "device link link0\ndevice isolate alone\n")
        refused(a, "link0 is a port", "link0")
        a.configure(pair.keys, "device link br0\n")
        refused(a, "link0 is a port", "link0", "br0")
        report("master br0" in a.devices()["link0"], "devices: a port was taken out of LINK, a bridge")
        a.ip("link", "set", "link0", "nomaster")
        a.configure(pair.keys)
        a.start()
        a.link_ip("link", "add", "link", "link0", "name", "up0", "netns", str(a.holder.pid), "type", "macvlan")
        refused(a, "up0 is over the link")


def fixed(options: Options) -> None:
    """LINK is over a bridge, which can't be moved; and LINK is a bridge."""
    with options.pair() as pair:
        a = pair.a
        a.ip("link", "add", "br0", "type", "bridge")
        macvlan(a, "br0", "mv0")
        for link, stays in (("mv0", ["br0", "mv0"]), ("br0", ["br0"])):
            if link == "br0":
                a.ip("link", "del", "mv0")
            a.configure(pair.keys, f"device link {link}\n")
            refused(a, "br0 can't be moved", *stays)
            report(set(a.devices(True)) <= {"lo"}, f"devices: {list(a.devices(True))} were moved without br0")


def check_devices(options: Options) -> None:
    """Devices below LINK and over it."""
    below(options)
    over(options)
    fixed(options)


# ---- A macsecd that was taken over

FORBIDDEN = ["setns", "unshare", "socket", "bind", "openat", "sendto", "SIOCGSKNS", "TUNGETDEVNETNS", "TUNSETIFF"]
# What no thread but one may do with the socket of the service manager; and threads. That one may send to nobody else.
OF_MANAGER, THREADS = ["write", "send", "sendto", "sendmmsg"], ["journal", "worker", "service"]
THREAD = 'extern void taken_thread(const char *); taken_thread("{}");'


def build_taken(options: Options) -> pathlib.Path:
    """Builds a macsecd that tries isolated_taken.c once its rights are gone."""
    source = options.folder / f"taken{next(options.numbers)}"
    shutil.copytree(options.source, source, ignore=shutil.ignore_patterns("built", "tests"))
    shutil.copy(ROOT / "device/tests/isolated_taken.c", source)
    for name, place, call in (
        ("macsecd.c", '    service_notify(&d->service, "READY=1");\n', "extern void taken(struct device *); taken(d);"),
        (
            "journal_writer.c",
            "    int64_t began = clock_now(CLOCK_MONOTONIC);\n",
            "extern void taken_files(void); taken_files();",
        ),
        ("service.c", "    if (s->socket >= 0 && ", "extern int taken_manager; taken_manager = s->socket;"),
        ("journal_writer.c", "    s->confined = ", THREAD.format("journal")),
        ("workers.c", "    atomic_fetch_add(&w->begun, ", THREAD.format("worker")),
        ("service.c", "    (void)sem_post(&s->begun);\n", THREAD.format("service")),
    ):
        replace_once(source / name, place, f"    {call}\n{place}")
    return build(source / "built", options.library, ["-Wno-error"], source)


def tries(log: str) -> list[list[str]]:
    """What it has tried: the call, the index and the error."""
    return [line.split("taken ")[1].split() for line in log.splitlines() if "taken " in line]


def reaches(pair: Pair) -> None:
    """No other device may be reached, whatever its index is."""
    a = pair.a
    sniffer = Packets(pair.other.namespace, "other0")
    own = {line.split(":")[0] for line in a.link_ip("-o", "link", "show").splitlines()}
    a.start(TAKEN="devices")
    got = tries(a.log())
    there = sorted({f"{call} {index}" for call, index, error in got if error not in ("6", "19") and index not in own})
    report(len(got) == 200 and not there, f"taken: devices that are not LINK's namespace's: {there}, {len(got)} tries")
    stolen = sum(b"stolen" in it for it in sniffer.frames())
    report(stolen == 0, f"taken: {stolen} frames left by another device")
    a.stop()


def opens(pair: Pair) -> None:
    """No file of another instance may be opened or removed, although it belongs to the same user."""
    a = pair.a
    journal, control = a.folder / "other/other0.journal", a.folder / "run/other0.sock"
    journal.parent.mkdir()
    for path in (journal, control):
        path.write_bytes(bytes(64))
        path.chmod(0o666)
    a.start(TAKEN="files", JOURNAL=str(journal), CONTROL=str(control))
    a.ask(f"A key 7 {'07' * 16} 0")
    a.ask("A txsa 1 7 1 conf")  # a record, which the thread writes
    got = [it for it in tries(a.log()) if it[0] in ("openat", "unlinkat")]
    done = [f"{call} {index}" for call, index, error in got if error != "13"]
    report(len(got) >= 8 and not done, f"taken: files of another instance: {done}, {len(got)} tries")
    report(journal.exists() and control.exists(), "taken: a file of another instance was removed")
    a.stop()


def is_ended(a: Host, what: str, **more: str) -> None:
    """The system has to end it."""
    a.begin(**more)
    status = a.ended(3)
    report(status == -signal.SIGSYS, f"taken: {what}: status {status}, {tries(a.log())[-1:]}")
    a.stop(signal.SIGKILL)


def manages(pair: Pair) -> None:
    """No thread but one may send by the socket of the service manager, to the manager or to another program."""
    with contextlib.ExitStack() as stack:
        paths = [str(pair.folder / it) for it in ("manager", "evil")]
        them = [stack.enter_context(socket.socket(socket.AF_UNIX, socket.SOCK_DGRAM)) for _ in paths]
        for it, path in zip(them, paths):
            it.bind(path)
        for call in OF_MANAGER:
            is_ended(pair.a, f"{call} by the manager's socket", TAKEN=call, NOTIFY_SOCKET=paths[0], EVIL=paths[1])
        pair.a.configure(pair.keys, "device link link0\ndevice workers 1\n")
        for thread in THREADS:
            is_ended(pair.a, f"the thread: {thread}", TAKEN=thread, NOTIFY_SOCKET=paths[0])
        told = {text for it in them for text in received(it, 0.1)}
        report(told <= {b"READY=1", b"WATCHDOG=1"}, f"taken: sent by the manager's socket: {told}")


def check_taken(options: Options) -> None:
    """What it can reach."""
    programs = build_taken(options)
    with options.pair() as pair:
        a = pair.a
        a.shared, a.program = options.shared, programs / "macsecd"
        pair.write()
        a.isolate()
        reaches(pair)
        opens(pair)
        for call in FORBIDDEN:
            is_ended(a, call, TAKEN=call)
        manages(pair)
