"""A virtual machine for device/tests/device-installed: Debian with systemd as its first process, and two links."""

from __future__ import annotations

import contextlib
import gzip
import hashlib
import json
import os
import pathlib
import shutil
import socket
import subprocess
import time

from house import ROOT
from house.machine import Machine, words_of
from house.reporting import Failed, call, until
from macsecd_controls import replace_once

SUITE = "bookworm"
INCLUDED = "systemd,systemd-sysv,udev,dbus,procps,iproute2,kmod,libssl3,python3,linux-image-cloud-amd64"
GUEST = "/usr/local/lib/installed_guest.py"
# The devices outside that the machine's cards are connected to, and the addresses and names of the cards.
CARDS = {
    "link0": ("02:00:00:00:00:01", "lan0"),
    "link1": ("02:00:00:00:00:03", "lan1"),
    "other0": ("02:00:00:00:00:05", "wan0"),
}

# For an emulated machine: services of Debian's that start in 90 seconds elsewhere.
PATIENCE = """[Manager]
DefaultTimeoutStartSec=900
DefaultTimeoutStopSec=300
"""
COMMANDS = f"""[Unit]
Description=Commands over the second serial line
[Service]
ExecStart=/usr/bin/python3 {GUEST} commands
Restart=always
[Install]
WantedBy=multi-user.target
"""
# The network that is no LINK, with the default route, and a route for what MACsec protects.
OTHER = """[Match]
Name=wan0
[Network]
Address=192.0.2.1/24
Gateway=192.0.2.2
[Route]
Destination=10.9.0.0/16
Type=blackhole
Metric=4000
"""
TAP = """[Match]
Name={name}
[Network]
Address=10.9.{number}.1/24
ConfigureWithoutCarrier=yes
"""


def accelerators() -> list[str]:
    """KVM, if the processor itself can run guests. If the system emulates that, the BIOS takes minutes."""
    flags = pathlib.Path("/proc/cpuinfo").read_text().split()
    return ["kvm", "tcg"] if {"vmx", "svm"} & set(flags) else ["tcg"]


# Programs of an emulated machine start some fifty times as slowly: so waiting takes so many times as long at most.
SLOWER = 1 if "kvm" in accelerators() else 5


# Units that are left out.
UNITS = "apt-daily.timer apt-daily-upgrade.timer dpkg-db-backup.timer e2scrub_reap.service serial-getty@ttyS0.service"


def write(root: pathlib.Path, path: str, text: str) -> None:
    """Writes a file below a root."""
    (root / path).parent.mkdir(parents=True, exist_ok=True)
    (root / path).write_text(text)


def furnish(root: pathlib.Path) -> None:
    """Lets a root of Debian carry out commands, and configure its network."""
    write(root, "etc/hostname", "installed\n")
    write(root, "etc/hosts", "127.0.0.1 localhost installed\n")
    write(root, "etc/systemd/system/commands.service", COMMANDS)
    if SLOWER > 1:
        write(root, "etc/systemd/system.conf.d/patience.conf", PATIENCE)
    write(root, "etc/systemd/network/wan0.network", OTHER)
    for address, name in CARDS.values():
        text = f"[Match]\nMACAddress={address}\nDriver=virtio_net\n[Link]\nName={name}\n"
        write(root, f"etc/systemd/network/10-{name}.link", text)  # 99-default.link is for each name
    for number, name in enumerate("ab", 1):
        write(root, f"etc/systemd/network/{name}.network", TAP.format(name=name, number=number))
    shutil.copy(ROOT / "device/tests/installed_guest.py", f"{root}{GUEST}")
    write(root, "etc/apt/sources.list", "")
    (root / "packages").mkdir()
    (root / "var/log/journal").mkdir(exist_ok=True)
    for unit in UNITS.split():
        (root / "etc/systemd/system" / unit).symlink_to("/dev/null")
    call("chroot", str(root), "systemctl", "enable", "commands.service", "systemd-networkd.service")


def make_base(folder: pathlib.Path) -> None:
    """Makes the disk, the kernel and its initial file system from Debian's packages, unless they are there."""
    if (folder / "complete").exists():
        return
    shutil.rmtree(folder, ignore_errors=True)
    root = folder / "root"
    root.mkdir(parents=True)
    with open(folder / "debootstrap.log", "wb") as log:
        words = ["debootstrap", "--variant=minbase", f"--include={INCLUDED}", SUITE, str(root)]
        if subprocess.run(words, stdin=subprocess.DEVNULL, stdout=log, stderr=log).returncode:
            raise Failed(f"debootstrap: {folder}/debootstrap.log")
    for name in ("vmlinuz", "initrd.img"):
        shutil.copy(os.path.realpath(next((root / "boot").glob(f"{name}-*"))), folder / name)
    furnish(root)
    make_disk(root, folder / "disk", "2G")
    shutil.rmtree(root)
    (folder / "complete").touch()


def make_disk(root: pathlib.Path, to: pathlib.Path, size: str) -> None:
    """Makes a disk of what is in a folder."""
    call("mke2fs", "-q", "-F", "-t", "ext4", "-d", str(root), str(to), size)


def index(folder: pathlib.Path) -> None:
    """Lets apt find the packages in a folder."""
    text = ""
    for it in sorted(folder.glob("*.deb")):
        octets = it.read_bytes()
        text += call("dpkg-deb", "-f", str(it)) + f"Filename: ./{it.name}\nSize: {len(octets)}\n"
        text += f"SHA256: {hashlib.sha256(octets).hexdigest()}\n\n"
    (folder / "Packages.gz").write_bytes(gzip.compress(text.encode()))


def repack(package: pathlib.Path, to: pathlib.Path, version: str, edits: list[tuple[str, str, str]]) -> None:
    """Makes a package again with another version, and with edits: a file, a text that is there, and another one."""
    tree = to / package.stem
    call("dpkg-deb", "-R", str(package), str(tree))
    control = tree / "DEBIAN/control"
    lines = [f"Version: {version}" if it.startswith("Version: ") else it for it in control.read_text().splitlines()]
    control.write_text("\n".join(lines) + "\n")
    for path, old, new in edits:
        replace_once(tree / path, old, new)
    name = package.name.split("_")[0]
    call("dpkg-deb", "--root-owner-group", "-b", str(tree), str(to / f"{name}_{version}_amd64.deb"))
    shutil.rmtree(tree)


class Guest:
    """The machine, between `CARDS` in a namespace. It can be started again, over the same disk."""

    def __init__(self, namespace: str, base: pathlib.Path, folder: pathlib.Path, packages: pathlib.Path) -> None:
        self.namespace, self.base, self.folder = namespace, base, folder
        self.machine: Machine | None = None
        self.line, self.kept = socket.socket(socket.AF_UNIX), b""
        make_disk(packages, folder / "packages.disk", "64M")
        words = ["qemu-img", "create", "-q", "-f", "qcow2", "-F", "raw", "-b", str(base / "disk"), str(folder / "disk")]
        call(*words)

    @property
    def words(self) -> list[str]:
        """qemu's arguments."""
        more = "root=/dev/vda rw net.ifnames=0 random.trust_cpu=on"
        words = words_of(self.base / "vmlinuz", self.base / "initrd.img", 768, more, accelerators())
        words += ["-cpu", "max", "-smp", "1" if SLOWER == 1 else "4", "-serial", f"file:{self.folder}/console"]
        words += ["-serial", f"unix:{self.folder}/line,server=on,wait=off"]
        words += ["-qmp", f"unix:{self.folder}/qmp,server=on,wait=off"]
        words += ["-drive", f"file={self.folder}/disk,if=virtio,format=qcow2"]
        words += ["-drive", f"file={self.folder}/packages.disk,if=virtio,format=raw,readonly=on"]
        for name, (address, _) in CARDS.items():
            words += ["-netdev", f"tap,id=n-{name},ifname={name},script=no,downscript=no"]
            words += ["-device", f"virtio-net-pci,id={name},netdev=n-{name},mac={address},romfile="]
        return words

    def start(self) -> None:
        """Starts it, and waits until it carries out commands; again if it loses its disk while its kernel starts."""
        for left in range(1 if SLOWER == 1 else 3)[::-1]:
            try:
                self.start_once()
                break
            except Failed as why:
                if left == 0:
                    raise
                print(f"device-installed: the machine is started again: {why}", flush=True)
                self.stop()
        self.run("mount -o ro /dev/vdb /packages")

    def start_once(self) -> None:
        """Starts it."""
        for name in ("line", "qmp"):
            (self.folder / name).unlink(missing_ok=True)
        with open(self.folder / "qemu.log", "ab") as log:
            self.machine = Machine(self.namespace, self.words, self.folder / "console", log)
        self.line, self.kept = self.connected("line"), b""
        if not self.answer(300 * SLOWER).get("ready"):
            raise Failed("the machine does not start")

    def connected(self, name: str) -> socket.socket:
        """A connection to one of qemu's sockets."""
        it = socket.socket(socket.AF_UNIX)

        def is_there() -> bool:
            with contextlib.suppress(OSError):
                it.connect(str(self.folder / name))
                return True
            return False

        if not until(is_there, 20):
            raise Failed(f"qemu does not start: {(self.folder / 'qemu.log').read_text()[-500:]}")
        return it

    def answer(self, seconds: float) -> dict:
        """The next answer. It is an error if it does not come in time, or the machine ends."""
        end = time.monotonic() + seconds
        while b"\n" not in self.kept:
            self.line.settimeout(max(0.001, end - time.monotonic()))
            try:
                got = self.line.recv(65536)
            except socket.timeout:
                got = b""
            if not got:
                raise Failed(f"the machine does not answer: {self.console()[-500:]}")
            self.kept += got
        line, _, self.kept = self.kept.partition(b"\n")
        return json.loads(line)

    def console(self) -> str:
        """What the machine shows."""
        assert self.machine is not None
        return self.machine.text()

    def attempt(self, script: str, seconds: float = 60) -> tuple[int | None, str]:
        """Runs a script there. Returns its status, or None if it does not end, and its output."""
        seconds *= SLOWER
        self.line.settimeout(10)
        self.line.sendall(json.dumps({"script": script, "seconds": seconds}).encode() + b"\n")
        got = self.answer(seconds + 30)
        return got["status"], got["output"]

    def run(self, script: str, seconds: float = 60) -> str:
        """Runs a script there, which has to succeed. Returns its output."""
        status, output = self.attempt(script, seconds)
        if status != 0:
            raise Failed(f"{script}: status {status}: {output[-1500:]}")
        return output

    def command(self, name: str, **arguments: str) -> None:
        """Gives qemu a command."""
        with self.connected("qmp") as it, it.makefile("rwb", buffering=0) as lines:
            it.settimeout(20)
            lines.readline()
            for order in ({"execute": "qmp_capabilities"}, {"execute": name, "arguments": arguments}):
                lines.write(json.dumps(order).encode() + b"\n")
                while not (got := json.loads(lines.readline())).keys() & {"return", "error"}:
                    pass
                if "error" in got:
                    raise Failed(f"qemu: {name}: {got['error']}")

    def pull(self, name: str) -> None:
        """Takes a card away."""
        self.command("device_del", id=name)

    def insert(self, name: str) -> None:
        """Puts the card in again."""
        address = CARDS[name][0]
        self.command("device_add", driver="virtio-net-pci", id=name, netdev=f"n-{name}", mac=address, romfile="")

    def pull_for(self, name: str, seconds: float) -> None:
        """Takes a card away for so long."""
        self.pull(name)
        time.sleep(seconds)
        self.insert(name)

    def reboot(self) -> None:
        """Lets it reboot without help. qemu ends then, and is started again."""
        with contextlib.suppress(Failed):
            self.attempt("systemctl reboot", 60)
        assert self.machine is not None
        self.machine.process.wait(180 * SLOWER)
        self.line.close()
        self.start()

    def cut(self) -> None:
        """Cuts its power off, and starts it again."""
        self.stop()
        self.start()

    def stop(self) -> None:
        """Cuts its power off."""
        if self.machine is not None and self.machine.process.poll() is None:
            self.machine.process.kill()
            self.machine.process.wait()
        self.line.close()
