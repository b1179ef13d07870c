"""Hosts for device/tests/isolated: network namespaces with a macsecd whose LINK is isolated."""

from __future__ import annotations

import contextlib
import dataclasses
import fcntl
import json
import os
import pathlib
import random
import secrets
import shutil
import signal
import socket
import struct
import subprocess
import threading
import time
from collections.abc import Iterator, Sequence

from house.reporting import Failed, call, until
from macsecd_world import Namespace, Packets, hold, inside, let_go, lines_of_end, udp_socket

NOBODY = 65534
# A new node, since not every system lets all users open /dev/net/tun.
MAKE = 'mount -t tmpfs none /dev/net && mknod -m 666 /dev/net/tun c 10 200 && exec "$@"'
NODE = ["unshare", "-m", "sh", "-c", MAKE, "sh"]


class Host(Namespace):
    """A simulated host, with separate mount and network namespaces."""

    def __init__(self, folder: pathlib.Path, number: int, programs: pathlib.Path, source: pathlib.Path) -> None:
        self.holder = hold(*NODE, "unshare", "-n")
        super().__init__(f"/proc/{self.holder.pid}/ns/net", folder / f"host{number}", programs / "macsecd")
        self.number = number
        self.macsec_link = source / "macsec-link"
        self.shared, self.credentials = False, self.folder / "credentials"
        control = self.folder / "macsecctl"
        control.write_text(f'#!/bin/sh\nexec {programs}/macsecctl -s {self.folder}/run/$1.sock "$@"\n')
        control.chmod(0o755)
        self.run("ip", "link", "set", "lo", "up")

    # ---- Commands

    @property
    def environment(self) -> dict[str, str]:
        """Where the programs find their files."""
        more = {"MACSECD": str(self.program), "MACSECCTL": str(self.folder / "macsecctl")}
        if self.credentials.exists():
            more["CREDENTIALS_DIRECTORY"] = str(self.credentials)
        return {**super().environment, **more}

    @property
    def enter(self) -> list[str]:
        """A command that runs the one after it at this host."""
        return ["nsenter", "-t", str(self.holder.pid), "-m", "-n"]

    @property
    def link_namespace(self) -> str:
        """The namespace of LINK."""
        return self.namespace if self.shared else f"/proc/{self.holder.pid}/root/run/netns/macsec-macsec0"

    def run(self, *words: str) -> str:
        """Runs a command, which has to succeed. Returns what it prints."""
        ended = self.attempt(*words)
        if ended.returncode:
            raise Failed(f"{' '.join(words)}: {ended.stdout}{ended.stderr}")
        return ended.stdout

    def ip(self, *words: str) -> str:
        """Runs `ip` in the host's namespace."""
        return self.run("ip", *words)

    def link_ip(self, *words: str) -> str:
        """Runs `ip` in LINK's namespace."""
        return self.run("ip", *([] if self.shared else ["-n", "macsec-macsec0"]), *words)

    def arrived(self) -> int:
        """How many frames LINK has received."""
        return int(json.loads(self.link_ip("-s", "-j", "link", "show", "link0"))[0]["stats64"]["rx"]["packets"])

    def devices(self, is_link: bool = False) -> dict[str, str]:
        """The devices of the host's namespace or of LINK's, and what `ip` shows of them."""
        command = ["ip", *(["-n", "macsec-macsec0"] if is_link else []), "-o", "link", "show"]
        lines = (line.split(": ", 2) for line in self.attempt(*command).stdout.splitlines())
        return {name.split("@")[0]: text for _, name, text in lines}

    def set(self, *settings: str) -> None:
        """Sets kernel settings in the host's namespace, such as ipv4/ip_forward=1."""
        for each in settings:
            path, value = each.split("=")
            self.run("sh", "-c", f"echo {value} > /proc/sys/net/{path}")

    def link(self, what: str, **more: str) -> subprocess.CompletedProcess[str]:
        """Runs macsec-link."""
        return self.attempt(str(self.macsec_link), what, "macsec0", **more)

    # ---- macsecd

    def configure(self, keys: Sequence[str], device: str = "device link link0\n") -> None:
        """Writes a configuration, and creates the journal if there is none."""
        self.write(device + ("device shared\n" if self.shared else "") + lines_of_end(self.number, keys))
        if not self.journal.exists():
            self.create_journal()

    def isolate(self) -> None:
        """Runs `macsec-link isolate`, which has to succeed."""
        ended = self.link("isolate")
        if ended.returncode:
            raise Failed(f"macsec-link isolate: {ended.stderr}")

    def start(self, command: list[str] | None = None, **more: str) -> None:
        """Starts macsecd, by another command if there is one, and gives TAP addresses."""
        self.restart(command, **more)
        self.ip("addr", "replace", f"10.9.0.{self.number}/24", "dev", "macsec0")
        self.ip("addr", "replace", f"fd09::{self.number}/64", "dev", "macsec0", "nodad")
        self.ip("link", "set", "macsec0", "up")

    def begin(self, command: list[str] | None = None, **more: str) -> None:
        """Starts macsecd, and does not wait."""
        self.process = self.spawn(*(command or [str(self.program), "macsec0"]), **more)

    def restart(self, command: list[str] | None = None, **more: str) -> None:
        """Starts macsecd again. TAP has its addresses."""
        self.isolate()
        self.begin(command, **more)
        self.wait_for_answer()

    def belongs_to_nobody(self) -> None:
        """Gives the user nobody the files that macsecd writes, and the configuration as a service manager does."""
        self.credentials.mkdir()
        shutil.copy(self.config, self.credentials)
        (self.credentials / "macsec0.conf").chmod(0o444)
        for each in ("state", "state/macsec0.journal", "run"):
            os.chown(self.folder / each, NOBODY, NOBODY)

    def close(self) -> None:
        """Ends everything of the host."""
        self.stop(signal.SIGKILL)
        let_go(self.holder)

    # ---- Sockets

    def udp(self, port: int = 0, address: str = "0.0.0.0") -> socket.socket:
        """A socket for datagrams, of IPv6 if the address is."""
        return udp_socket(self.namespace, port, address)

    def address(self, device: str, namespace: str | None = None) -> bytes:
        """The address of a device, in the host's namespace if no other is named."""
        with inside(namespace or self.namespace), socket.socket(socket.AF_INET, socket.SOCK_DGRAM) as it:
            got = fcntl.ioctl(it, 0x8927, struct.pack("16s24x", device.encode()))  # SIOCGIFHWADDR
        return got[18:24]


def received(it: socket.socket, seconds: float = 0.3) -> list[bytes]:
    """What a socket has received, until nothing arrives for so long."""
    got = []
    it.settimeout(seconds)
    with contextlib.suppress(socket.timeout):
        while True:
            got.append(it.recv(65536))
    return got


OPEN = [
    f"{name.format(it)}=0"
    for name in ("ipv4/conf/{}/rp_filter", "ipv6/conf/{}/disable_ipv6", "ipv6/conf/{}/accept_dad")
    for it in ("all", "default")
]


class Pair:
    """Two hosts and a link, link0. Host a has another network, other0, to a third host, with default routes."""

    def __init__(self, folder: pathlib.Path, programs: pathlib.Path, source: pathlib.Path) -> None:
        self.folder, self.programs, self.source = folder, programs, source
        self.keys = [secrets.token_hex(16), secrets.token_hex(16)]
        self.hosts: list[Host] = []
        self.a, self.b, self.other = (self.host() for _ in range(3))

    def host(self) -> Host:
        """One more host."""
        it = Host(self.folder, len(self.hosts) + 1, self.programs, self.source)
        it.set(*OPEN)
        self.hosts.append(it)
        return it

    def __enter__(self) -> Pair:
        self.join("link0", self.a, self.b)
        self.join("other0", self.a, self.other)
        for number, end in ((1, self.a), (2, self.other)):
            end.ip("addr", "add", f"192.0.2.{number}/24", "dev", "other0")
            end.ip("addr", "add", f"2001:db8::{number}/64", "dev", "other0", "nodad")
        self.a.ip("route", "add", "default", "via", "192.0.2.2")
        self.a.ip("-6", "route", "add", "default", "via", "2001:db8::2", "metric", "2048")
        return self

    def join(self, name: str, one: Host, other: Host) -> None:
        """Joins two hosts by a link, which is up. Nothing protects it."""
        a, b = str(one.holder.pid), str(other.holder.pid)
        call("ip", "link", "add", name, "netns", a, "type", "veth", "peer", "name", name, "netns", b)
        for end in (one, other):
            end.set(f"ipv4/conf/{name}/rp_filter=0")
            end.ip("link", "set", name, "up")

    def write(self) -> None:
        """Writes the configurations of both ends."""
        for end in (self.a, self.b):
            end.configure(self.keys)

    def start(self) -> None:
        """Starts both ends, and waits until datagrams pass."""
        self.write()
        for end in (self.a, self.b):
            end.isolate()  # while one LINK moves, the other has no carrier
        for end in (self.a, self.b):
            end.start()
        self.passes("at the start")

    def passing(self) -> bool:
        """Does a datagram pass? A start drops what the run before had reserved, so others of the peer come first: a
        reply that tells a the address of b must not be among those."""
        tap = Packets(self.b.namespace, "macsec0")
        with contextlib.suppress(OSError):
            for _ in range(50):
                tap.send(b"\xff" * 12 + b"\x88\xb5" + bytes(50))
        return self.echo() > 0

    def passes(self, when: str) -> None:
        """Datagrams have to pass."""
        if not until(self.passing):
            raise Failed(f"no datagram passes {when}: {self.a.log()[-500:]}{self.b.log()[-500:]}")

    def echo(self, count: int = 1) -> int:
        """How many datagrams from a arrive at b."""
        with self.b.udp(7000) as to, self.a.udp() as by:
            for _ in range(count):
                with contextlib.suppress(OSError):
                    by.sendto(b"echo", ("10.9.0.2", 7000))
            return len(received(to, 0.2))

    def __exit__(self, *_: object) -> None:
        for each in self.hosts:
            each.close()


class Senders:
    """Threads that send datagrams to the peer without a pause, by IPv4 and IPv6, until they are stopped."""

    def __init__(self, host: Host) -> None:
        self.sent = {"10.9.0.2": 0, "fd09::2": 0}
        self.refused, self.goes_on = dict(self.sent), True
        self.threads = [
            threading.Thread(target=self.send, args=(host.udp(0, wild), target))
            for wild, target in (("0.0.0.0", "10.9.0.2"), ("::", "fd09::2"))
        ]
        for each in self.threads:
            each.start()

    def send(self, by: socket.socket, target: str) -> None:
        """Sends."""
        while self.goes_on:
            try:
                by.sendto(b"SECRET", (target, 7000))
                self.sent[target] += 1
            except OSError:
                self.refused[target] += 1
            time.sleep(0.0005)
        by.close()

    def stop(self) -> str:
        """Stops them. Returns what they have sent."""
        self.goes_on = False
        for each in self.threads:
            each.join()
        return f"{list(self.sent.values())} sent, {list(self.refused.values())} refused to the program"


@contextlib.contextmanager
def sending(host: Host) -> Iterator[Senders]:
    """Senders, which stop in each case."""
    it = Senders(host)
    try:
        yield it
    finally:
        it.stop()


@dataclasses.dataclass
class Options:
    """What the arguments say, the programs, and what a control changes."""

    folder: pathlib.Path
    programs: pathlib.Path
    source: pathlib.Path
    library: pathlib.Path
    short: bool
    rng: random.Random
    numbers: Iterator[int]
    minutes: float
    shared: bool = False  # `device shared` at host a
    alone: bool = False  # `device isolate alone`
    blackhole: bool = True  # are there blackhole routes?

    def pair(self) -> Pair:
        """Two new hosts with a link."""
        folder = self.folder / f"pair{next(self.numbers)}"
        folder.mkdir()
        return Pair(folder, self.programs, self.source)
