"""A virtual machine for the test mka: Linux's own MACsec, driven by Debian's wpasupplicant."""

from __future__ import annotations

import collections
import json
import pathlib
import re
import shutil
import socket
import subprocess

from house.machine import Machine, pack, prepare, words_of
from house.reporting import Failed, call
from mka_world import World, network, stopped

# Frames that come before the machine has their channel or SA are no fault: the key server sends first.
FAULTS = re.compile("Late|NotValid|Invalid|Delayed|BadTag")
ADDRESS, MAC = "10.9.0.9", "02:00:00:00:00:09"
PACKAGES = ["wpasupplicant", "libnl-3-200", "libnl-genl-3-200", "libnl-route-3-200", "libpcsclite1"]
MODULES = ["virtio_pci", "virtio_net", "gcm", "ghash_generic", "ctr", "crypto_null", "seqiv", "macsec", "af_packet"]

# What the machine runs. wpa_supplicant makes macsec0, and makes it again; it ends when the wire loses its carrier.
JOB = f"""echo 1 > /proc/sys/net/ipv6/conf/default/disable_ipv6
echo 1 > /proc/sys/net/ipv6/conf/eth0/disable_ipv6
ip link set lo up
ip link set eth0 up
wpa_supplicant -D macsec_linux -i eth0 -c /wpa.conf -ddtK > /dev/ttyS1 2>&1 &
echo "machine: wpa_supplicant, Linux $(uname -r)"
while [ "$(cat /sys/class/net/eth0/carrier)" = 1 ]; do
    if ip link show macsec0 > /dev/null 2>&1; then
        ip addr show macsec0 | grep -q {ADDRESS} || ip addr add {ADDRESS}/24 dev macsec0
    fi
    sleep 0.5
done
ip -s macsec show
echo "machine: end"
"""


class Member(Machine):
    """The machine, on the bridge of a world."""

    def __init__(self, world: World, folder: pathlib.Path, settings: dict[str, str]) -> None:
        kernel = next(folder.glob("files/boot/vmlinuz-*"), None)
        if kernel is None or not (folder / "root/init").exists():
            shutil.rmtree(folder, ignore_errors=True)
            kernel = prepare(folder, "linux-image-cloud-amd64", MODULES, ["wpa_supplicant"], PACKAGES)
        self.world, self.base, self.address = world, folder, ADDRESS
        self.log = world.folder / "machine.log"
        hub = world.hub
        call("ip", "-n", hub, "tuntap", "add", "vtap", "mode", "tap")
        call("ip", "-n", hub, "link", "set", "vtap", "master", "hub0", "up")
        initrd = pack(folder, {"job": JOB, "wpa.conf": network(settings)}, world.folder / "initrd")
        words = [*words_of(kernel, initrd, 384, "random.trust_cpu=on"), "-cpu", "max"]
        words += ["-serial", f"file:{world.folder}/console", "-serial", f"file:{self.log}"]
        words += ["-netdev", "tap,id=n,ifname=vtap,script=no,downscript=no"]
        words += ["-device", f"virtio-net-pci,id=d,netdev=n,mac={MAC},romfile="]
        words += ["-qmp", f"unix:{world.folder}/qmp,server=on,wait=off"]
        with open(world.folder / "qemu.log", "wb") as log:
            super().__init__(hub, words, world.folder / "console", log)
        world.processes.append(self.process)

    def end(self) -> None:
        """Takes its carrier away, and waits until it has shown its counters and ended."""
        with socket.socket(socket.AF_UNIX) as it:
            it.connect(str(self.world.folder / "qmp"))
            it.settimeout(5)
            it.recv(65536)
            for command in (
                {"execute": "qmp_capabilities"},
                {"execute": "set_link", "arguments": {"name": "d", "up": False}},
            ):
                it.sendall(json.dumps(command).encode())
                it.recv(65536)
        if not self.waits_for("machine: end", 60):
            raise Failed(f"the machine does not end: {self.text()[-300:]}")
        try:
            self.process.wait(20)
        except subprocess.TimeoutExpired:
            stopped(self.process)

    def faults(self) -> dict[str, int]:
        """Its counters of late and invalid frames that are not 0, from `ip -s macsec show`."""
        bad: collections.Counter[str] = collections.Counter()
        names: list[str] = []
        for line in self.text().splitlines():
            words = line.split()
            if words[:1] == ["stats:"]:
                names = words[1:]
            elif names and words and all(it.isdigit() for it in words):
                bad.update({name: int(value) for name, value in zip(names, words) if FAULTS.search(name)})
                names = []
        return {name: count for name, count in bad.items() if count}

    def versions(self) -> str:
        found = re.search(r"Linux \S+", self.text())
        return f"{found[0] if found else ''}; {(self.base / 'versions').read_text()}"
