"""What is outside the virtual machine of device/tests/device-installed: the other ends of its links, and watchers."""

from __future__ import annotations

import contextlib
import os
import pathlib
import secrets
import signal
import socket
import subprocess
import time

from house.reporting import call, until
from installed_machine import CARDS, SLOWER
from macsecd_world import Background, Namespace, echo_request, inside

MACSEC, EAPOL, IPV4, ARP = b"\x88\xe5", b"\x88\x8e", b"\x08\x00", b"\x08\x06"
PEERS = {"a": ("link0", 2, 1), "b": ("link1", 4, 2)}  # the device, the end of its address, and that of its network


def is_protected(frame: bytes) -> bool:
    """May this frame be on a link: has it a SecTAG, or is it of a key agreement?"""
    return frame[12:14] in (MACSEC, EAPOL)


def is_elsewhere(frame: bytes) -> bool:
    """Is this frame for a network behind MACsec?"""
    return (frame[12:14], frame[30:32]) == (IPV4, b"\x0a\x09") or (frame[12:14], frame[38:40]) == (ARP, b"\x0a\x09")


class Watch(Background):
    """Looks at each frame that the machine sends on a device: is it in clear, is its packet number new?"""

    def __init__(self, namespace: str, device: str) -> None:
        self.device, self.is_link = device, device.startswith("link")
        with inside(namespace):
            self.socket = socket.socket(socket.AF_PACKET, socket.SOCK_RAW, 0)
            self.socket.setsockopt(socket.SOL_SOCKET, 33, 64 << 20)  # SO_RCVBUFFORCE
            self.socket.bind((device, 3))
        self.socket.settimeout(0.2)
        self.bad: list[bytes] = []
        self.numbers: set[bytes] = set()
        self.repeated = 0
        super().__init__()

    def step(self) -> None:
        """Looks at the next frame."""
        with contextlib.suppress(OSError):
            frame, address = self.socket.recvfrom(2048)
            if address[2] != socket.PACKET_OUTGOING:
                self.see(frame)

    def see(self, frame: bytes) -> None:
        """Looks at a frame."""
        if not (is_protected(frame) if self.is_link else not is_elsewhere(frame)):
            self.bad.append(frame)
        elif frame[12:14] == EAPOL:
            self.numbers.clear()  # each key begins at 1
        elif frame[12:14] == MACSEC:
            number = frame[14:15] + frame[16:28]
            self.repeated += number in self.numbers
            self.numbers.add(number)

    def wrong(self) -> str:
        """What it saw that may not be, since the last call."""
        bad, repeated = self.bad, self.repeated
        self.bad, self.repeated = [], 0
        shown = [it[:64].hex() for it in bad[:3]]
        return f"{self.device}: {len(bad)} in clear {shown}, {repeated} repeated" if bad or repeated else ""

    def stop(self) -> None:
        """Stops it."""
        self.join()
        self.socket.close()


class Peer(Namespace):
    """A macsecd outside, at the other end of a link."""

    def __init__(self, outside: Outside, name: str) -> None:
        super().__init__(outside.namespace, outside.folder / name, outside.programs / "macsecd")
        self.outside, self.name = outside, name
        self.link, self.octet, self.network = PEERS[name]
        self.agreement: subprocess.Popen[bytes] | None = None

    def start(self, text: str) -> None:
        """Starts it with the configuration of the machine's instance, with both ends exchanged."""
        tap = f"macsec-{self.name}"
        self.launch(f"device link {self.link}\ndevice tap {tap}\ndevice shared\ndevice transient\n{text}")
        self.ip("addr", "add", f"10.9.{self.network}.2/24", "dev", tap)
        self.ip("link", "set", tap, "up")

    def agree(self, cak: str) -> None:
        """Starts it again, without keys, and a key agreement."""
        self.stop(signal.SIGKILL)
        self.start("")
        config = self.folder / "wpa.conf"
        config.write_text(
            f"eapol_version=3\nap_scan=0\ndriver_param=socket={self.socket}\nnetwork={{\n key_mgmt=NONE\n"
            f" eapol_flags=0\n macsec_policy=1\n mka_cak={cak}\n mka_ckn=01\n mka_priority=17\n"
            " macsec_replay_protect=1\n macsec_replay_window=0\n}\n"
        )
        program = str(self.outside.programs / "wpa_supplicant-macsecd")
        self.agreement = self.spawn(program, "-D", "macsec_macsecd", "-i", self.link, "-c", str(config))

    def close(self) -> None:
        """Ends both."""
        self.stop(signal.SIGKILL)
        if self.agreement is not None:
            self.agreement.kill()
            self.agreement.wait()


class Pings(Background):
    """Echo requests to the machine every ten milliseconds, and when they are answered."""

    def __init__(self, outside: Outside, name: str) -> None:
        self.target = f"10.9.{PEERS[name][2]}.1"
        with inside(outside.namespace):
            self.socket = socket.socket(socket.AF_INET, socket.SOCK_RAW, socket.IPPROTO_ICMP)
        self.socket.setblocking(False)
        self.name, self.sent, self.answered = secrets.randbelow(65536), 0, [time.monotonic()]
        super().__init__()

    def step(self) -> None:
        """Sends one, and notes each reply."""
        with contextlib.suppress(OSError):
            self.socket.sendto(echo_request(self.name, self.sent % 65536, b""), (self.target, 0))
            self.sent += 1
        with contextlib.suppress(OSError):
            while True:
                got = self.socket.recv(2048)[20:]
                if got[0] == 0 and int.from_bytes(got[4:6], "big") == self.name:
                    self.answered.append(time.monotonic())
        time.sleep(0.01)

    def stop(self) -> float:
        """Stops it. Returns the longest time without a reply."""
        self.join()
        self.socket.close()
        times = [*self.answered, time.monotonic()]
        return max(after - before for before, after in zip(times, times[1:]))


class Outside:
    """A namespace with the devices of the machine's cards, and the other end of each link."""

    def __init__(self, folder: pathlib.Path, programs: pathlib.Path) -> None:
        self.folder, self.programs = folder, programs
        self.namespace = f"device-installed-{os.getpid()}"
        self.peers: dict[str, Peer] = {}
        self.watches: list[Watch] = []

    def __enter__(self) -> Outside:
        call("ip", "netns", "add", self.namespace)
        quiet = ["net.ipv6.conf.all.disable_ipv6=1", "net.ipv6.conf.default.disable_ipv6=1"]
        call("ip", "netns", "exec", self.namespace, "sysctl", "-qw", *quiet)
        self.ip("link", "set", "lo", "up")
        for name in CARDS:
            self.ip("tuntap", "add", name, "mode", "tap")
        for name, octet in (("link0", 2), ("link1", 4), ("other0", 6)):
            self.ip("link", "set", name, "address", f"02:00:00:00:00:0{octet}", "up")
            self.watches.append(Watch(self.namespace, name))
        self.ip("addr", "add", "192.0.2.2/24", "dev", "other0")
        self.peers = {name: Peer(self, name) for name in PEERS}
        return self

    def ip(self, *words: str) -> str:
        """Runs `ip` in the namespace."""
        return call("ip", "-n", self.namespace, *words)

    def wrong(self) -> str:
        """What the machine has sent that may not be, since the last call."""
        return "; ".join(filter(None, (it.wrong() for it in self.watches)))

    def pings(self, name: str, seconds: float) -> float:
        """The seconds until the machine's instance passes an echo request, or infinity after so many seconds."""
        began = time.monotonic()
        it = Pings(self, name)
        until(lambda: len(it.answered) > 1, seconds * SLOWER)
        it.stop()
        return it.answered[1] - began if len(it.answered) > 1 else float("inf")

    def __exit__(self, *_: object) -> None:
        for peer in self.peers.values():
            peer.close()
        for it in self.watches:
            it.stop()
        subprocess.run(["ip", "netns", "del", self.namespace], capture_output=True)
