"""Network namespaces for the test mka: a bridge, and ends of macsecd and wpa_supplicant on it."""

from __future__ import annotations

import contextlib
import os
import pathlib
import re
import secrets
import signal
import socket
import struct
import subprocess
import threading
import time
from re import Pattern
from typing import NamedTuple

from house import captures
from house.reporting import call
from macsecd_world import ALL_FRAMES, Namespace, connected, echo_request, inside

CAK, CKN = secrets.token_hex(16), secrets.token_hex(32)
MACSEC, EAPOL = "88e5", "888e"
SOL_PACKET, ADD_MEMBERSHIP, PROMISCUOUS, STATISTICS = 263, 1, 1, 6


def stopped(process: subprocess.Popen[bytes] | None, number: int = signal.SIGTERM) -> None:
    """Ends a process by a signal, and kills it if it does not end."""
    if process is None or process.poll() is not None:
        return
    process.send_signal(number)
    try:
        process.wait(5)
    except subprocess.TimeoutExpired:
        process.kill()
        process.wait()


def network(settings: dict[str, str]) -> str:
    """The configuration of wpa_supplicant for a network with MACsec, with these settings among the usual ones."""
    usual = {"key_mgmt": "NONE", "eapol_flags": "0", "macsec_policy": "1", "mka_cak": CAK, "mka_ckn": CKN}
    all_settings = {**usual, "macsec_replay_protect": "1", "macsec_replay_window": "0", **settings}
    lines = "".join(f"\t{name}={value}\n" for name, value in all_settings.items())
    return f"eapol_version=3\nap_scan=0\nnetwork={{\n{lines}}}\n"


class End(Namespace):
    """A namespace with a macsecd and a wpa_supplicant that drives it."""

    def __init__(self, world: World, number: int, settings: dict[str, str]) -> None:
        self.name = "abc"[number - 1]
        super().__init__(f"{world.prefix}{self.name}", world.folder / self.name, world.programs / "macsecd")
        self.world, self.number, self.settings = world, number, settings
        self.address, self.mac = f"10.9.0.{number}", f"02:00:00:00:00:0{number}"
        self.sci = f"02000000000{number}0001"
        self.allow: list[str] = []
        self.relay: Relay | None = None
        self.wpa: subprocess.Popen[bytes] | None = None

    def start_device(self) -> None:
        """Starts macsecd, and gives its TAP an address."""
        lines = ["device link link0", "device shared", *(f"device allow {it}" for it in self.allow)]
        self.launch("\n".join(lines) + "\n")
        self.ip("addr", "replace", f"{self.address}/24", "dev", "macsec0")
        self.ip("link", "set", "macsec0", "up")

    def start_wpa(self) -> None:
        path = self.relay.path if self.relay else self.socket
        config = self.folder / "wpa.conf"
        config.write_text(f"ctrl_interface={self.folder}/control\ndriver_param=socket={path}\n{network(self.settings)}")
        config.chmod(0o600)
        program = str(self.world.wpa / "wpa_supplicant")
        words = ["-D", "macsec_macsecd", "-i", "link0", "-c", str(config), "-ddtK"]
        self.wpa = self.spawn(program, *words, log="wpa.log")

    def start(self) -> None:
        self.start_device()
        self.start_wpa()

    def is_open(self) -> bool:
        """Is the controlled port on?"""
        return self.ask("port").strip() == "port on"

    def cli(self, *words: str) -> str:
        command = [
            *self.enter,
            str(self.world.wpa / "wpa_cli"),
            "-p",
            str(self.folder / "control"),
            "-i",
            "link0",
            *words,
        ]
        return subprocess.run(command, stdin=subprocess.DEVNULL, capture_output=True, text=True).stdout

    def status(self) -> dict[str, str]:
        """What `wpa_cli status` and `wpa_cli status driver` say."""
        lines = (self.cli("status") + self.cli("status", "driver")).splitlines()
        return dict(line.split("=", 1) for line in lines if "=" in line)

    def logged(self, pattern: str) -> list[float]:
        """When wpa_supplicant logged lines with this pattern."""
        return logged(self.folder / "wpa.log", pattern)

    def close(self) -> None:
        stopped(self.wpa)
        stopped(self.process)
        if self.relay:
            self.relay.close()


def logged(path: pathlib.Path, pattern: str) -> list[float]:
    """When lines with this pattern were written to a log with times."""
    text = path.read_text(errors="replace") if path.exists() else ""
    return [float(it) for it in re.findall(rf"^(\d+\.\d+): .*(?:{pattern})", text, re.M)]


class Capture(threading.Thread):
    """Writes the frames that pass the bridge to a pcap file."""

    def __init__(self, namespace: str, path: pathlib.Path) -> None:
        super().__init__(daemon=True)
        self.path, self.goes_on = path, True
        with inside(namespace):
            self.socket = socket.socket(socket.AF_PACKET, socket.SOCK_RAW, ALL_FRAMES)
            self.socket.setsockopt(socket.SOL_SOCKET, 33, 256 << 20)  # SO_RCVBUFFORCE
            self.socket.bind(("hub0", 3))
            index = socket.if_nametoindex("hub0")
        self.socket.setsockopt(SOL_PACKET, ADD_MEMBERSHIP, struct.pack("iHH8s", index, PROMISCUOUS, 0, bytes(8)))
        self.socket.settimeout(0.2)
        self.start()

    def run(self) -> None:
        """Writes until it is closed."""
        with open(self.path, "wb", buffering=0) as out:
            out.write(captures.pcap_header())
            while self.goes_on:
                with contextlib.suppress(socket.timeout):
                    frame = self.socket.recv(65536)
                    out.write(captures.pcap_record(time.time_ns(), frame))

    def frames(self) -> list[bytes]:
        return captures.frames_so_far(self.path)

    def close(self) -> int:
        self.goes_on = False
        self.join()
        _, lost = struct.unpack("II", self.socket.getsockopt(SOL_PACKET, STATISTICS, 8))
        self.socket.close()
        return int(lost)


class World:
    """A bridge that forwards EAPOL, and ends on it."""

    count = 0

    def __init__(
        self, folder: pathlib.Path, programs: pathlib.Path, wpa: pathlib.Path, *settings: dict[str, str]
    ) -> None:
        World.count += 1
        self.folder, self.programs, self.wpa = folder / f"world{World.count}", programs, wpa
        self.prefix = f"mka-{os.getpid()}-"
        self.hub = f"{self.prefix}hub"
        self.ends = [End(self, number, each) for number, each in enumerate(settings, 1)]
        self.processes: list[subprocess.Popen[bytes]] = []
        self.pings: list[Ping] = []

    def __enter__(self) -> World:
        call("ip", "netns", "add", self.hub)
        quiet = ["net.ipv6.conf.all.disable_ipv6=1", "net.ipv6.conf.default.disable_ipv6=1"]
        call("ip", "netns", "exec", self.hub, "sysctl", "-qw", *quiet)
        call("ip", "-n", self.hub, "link", "add", "hub0", "type", "bridge", "mcast_snooping", "0")
        self.forward_eapol(True)
        call("ip", "-n", self.hub, "link", "set", "hub0", "up")
        for end in self.ends:
            call("ip", "netns", "add", end.namespace)
            end.sysctl(*quiet)
            end.ip("link", "set", "lo", "up")
            port = f"p{end.number}"
            end.ip("link", "add", "link0", "address", end.mac, "type", "veth", "peer", "name", port, "netns", self.hub)
            end.ip("link", "set", "link0", "up")
            call("ip", "-n", self.hub, "link", "set", port, "master", "hub0", "up")
        self.capture = Capture(self.hub, self.folder / "wire.pcap")
        return self

    def forward_eapol(self, forwards: bool) -> None:
        """Lets the bridge forward frames to 01-80-c2-00-00-03, or drop them, as it does by default."""
        mask = "8" if forwards else "0"
        call("ip", "-n", self.hub, "link", "set", "hub0", "type", "bridge", "group_fwd_mask", mask)

    def separate(self, apart: bool) -> None:
        """Lets the bridge forward no frame between the ends, or all again. The capture has them in either case."""
        for end in self.ends:
            isolated = "on" if apart else "off"
            call("ip", "-n", self.hub, "link", "set", f"p{end.number}", "type", "bridge_slave", "isolated", isolated)

    def start(self) -> float:
        for end in self.ends:
            end.start_device()
        now = time.time()
        for end in self.ends:
            end.start_wpa()
        return now

    def send_again(self, frames: list[bytes]) -> int:
        """Sends protected frames of ends to the other ends again. Returns their number."""
        count = 0
        with inside(self.hub), contextlib.ExitStack() as stack:
            ports = {}
            for end in self.ends:
                ports[end] = stack.enter_context(socket.socket(socket.AF_PACKET, socket.SOCK_RAW, 0))
                ports[end].bind((f"p{end.number}", 0))
            for frame in frames:
                for end, port in ports.items():
                    if frame[12:14].hex() == MACSEC and frame[6:12] != bytes.fromhex(end.mac.replace(":", "")):
                        port.send(frame)
                        count += 1
        return count

    def __exit__(self, *_: object) -> None:
        for ping in self.pings:
            ping.goes_on = False
        for end in self.ends:
            end.close()
        for process in self.processes:
            stopped(process)
        self.capture.goes_on = False
        for name in (*(it.namespace for it in self.ends), self.hub):
            subprocess.run(["ip", "netns", "del", name], capture_output=True)


class Pinged(NamedTuple):
    """What became of a ping: how many requests there were, and which had no reply."""

    sent: int
    lost: list[int]


class Ping:
    """Echo requests from an end to an address, in threads, until it is stopped."""

    def __init__(self, end: End, target: str, interval: float) -> None:
        self.target, self.interval, self.goes_on = target, interval, True
        self.name = secrets.randbelow(65536)
        with inside(end.namespace):
            self.socket = socket.socket(socket.AF_INET, socket.SOCK_RAW, 1)
        self.socket.setsockopt(socket.SOL_SOCKET, 33, 64 << 20)  # SO_RCVBUFFORCE
        self.socket.settimeout(0.2)
        self.sent = 0
        self.replies: dict[int, float] = {}
        self.threads = [threading.Thread(target=it, daemon=True) for it in (self.send, self.receive)]
        end.world.pings.append(self)
        for thread in self.threads:
            thread.start()

    def send(self) -> None:
        """Sends until it is stopped, and catches up if it is late. What the system refuses has no reply either."""
        begun = time.monotonic()
        while self.goes_on:
            octets = echo_request(self.name, self.sent & 0xFFFF, self.sent.to_bytes(4, "big") + bytes(48))
            with contextlib.suppress(OSError):
                self.socket.sendto(octets, (self.target, 0))
            self.sent += 1
            time.sleep(max(0.0005, begun + self.sent * self.interval - time.monotonic()))

    def receive(self) -> None:
        """Notes replies until it is stopped, and for a second longer."""
        end = None
        while end is None or time.monotonic() < end:
            if not self.goes_on and end is None:
                end = time.monotonic() + 1
            with contextlib.suppress(OSError):
                got = self.socket.recv(65536)[20:]
                if got[0] == 0 and int.from_bytes(got[4:6], "big") == self.name:
                    self.replies.setdefault(int.from_bytes(got[8:12], "big"), time.time())

    def reply(self, seconds: float, after: float = 0.0) -> float | None:
        """When the first reply after a time comes, if it does within so many seconds from now."""
        end = time.time() + seconds
        while time.time() < end:
            found = [it for it in list(self.replies.values()) if it > after]
            if found:
                return min(found)
            time.sleep(0.02)
        return None

    def stop(self) -> Pinged:
        self.goes_on = False
        for thread in self.threads:
            thread.join()
        self.socket.close()
        return Pinged(self.sent, sorted(set(range(self.sent)) - set(self.replies)))


class Relay(threading.Thread):
    """A control socket between wpa_supplicant and macsecd, which can refuse a request and shift the numbers of keys."""

    def __init__(self, end: End) -> None:
        super().__init__(daemon=True)
        self.end = end
        self.path = str(end.folder / "run/relay.sock")
        self.refuses: Pattern[str] | None = None
        self.refused_at: float | None = None
        self.used_before = 0
        self.listener = socket.socket(socket.AF_UNIX, socket.SOCK_SEQPACKET)
        self.listener.bind(self.path)
        self.listener.listen(4)
        end.relay = self
        self.start()

    def run(self) -> None:
        """Serves each client in a thread."""
        with contextlib.suppress(OSError):
            while True:
                client, _ = self.listener.accept()
                threading.Thread(target=self.serve, args=(client,), daemon=True).start()

    def serve(self, client: socket.socket) -> None:
        """Passes requests and answers on until one side has gone."""
        with client, contextlib.suppress(OSError), connected(self.end.socket, 5) as device:
            device.settimeout(None)
            while True:
                request = client.recv(1 << 16)
                if not request:
                    return
                if self.refuses is not None and self.refuses.search(request.decode()):
                    self.refuses, self.refused_at = None, time.time()
                    client.send(b"refused 3 KeyNumberUsed\n")
                    continue
                device.send(self.shifted(request.decode()).encode())
                answer = device.recv(1 << 16)
                if not answer:
                    return
                if request.startswith(b"open "):
                    self.use_keys(device)
                client.send(answer)

    def shifted(self, line: str) -> str:
        """A line with the number of its key shifted by the keys that were used before."""
        words = line.split(" ")
        at = {"key": 2, "retire": 2, "txsa": 3, "rxsa": 4}.get(words[1] if words[0] == "A" else "")
        if at is None or not self.used_before:
            return line
        words[at] = str((int(words[at]) + self.used_before) % 4096)
        return " ".join(words)

    def use_keys(self, device: socket.socket) -> None:
        """Installs and retires keys, so that few numbers are left."""
        for first in range(0, self.used_before, 1000):
            numbers = range(first, min(first + 1000, self.used_before))
            lines = "".join(f"A key {it} {secrets.token_hex(16)} 0\nA retire {it}\n" for it in numbers)
            device.send(f"load\n{lines}".encode())
            answer = device.recv(1 << 20).decode()
            if answer.count(" ok\n") != 2 * len(numbers):
                raise SystemExit(f"mka: load: {answer[:60]}")

    def close(self) -> None:
        self.listener.close()
