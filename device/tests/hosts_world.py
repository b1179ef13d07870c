"""Two simulated hosts, alice and bob, for the programs that run the commands of an administrator: each has network and
mount namespaces with an /etc, a /var/lib and a /run of its own."""

from __future__ import annotations

import contextlib
import os
import pathlib
import shutil
import signal
import sys

from house import ROOT
from house.reporting import Failed, call
from macsecd_world import Ended, attempt, build, hold, let_go

NUMBERS = {"alice": 1, "bob": 2}
# The user and folders of the package's postinst. Its programs are in /usr/local/sbin here.
INSTALLED = (
    "echo 'macsec:x:990:990::/:/bin/false' >> /etc/passwd && echo 'macsec:x:990:' >> /etc/group && "
    "install -d -m 700 /etc/macsec && install -d /var/lib/macsec"
)
# What the unit does, with the folder of each host.
STARTED = (
    "install -d -o macsec /run/macsec && macsec-link isolate macsec0 && "
    "(macsecd macsec0 > {folder}/{host}/log 2>&1 & echo $! > {folder}/{host}/pid) && "
    "for each in $(seq 100); do macsecctl macsec0 port > /dev/null 2>&1 && exit; sleep 0.1; done; "
    "cat {folder}/{host}/log; exit 1"
)

# Makes the folders of a host: $1 is its folder, $2 has the programs. /etc has this system's accounts.
OWN = r"""set -e
mkdir -p "$1/etc" "$1/var" "$1/work"
cp -a /etc/passwd /etc/group /etc/nsswitch.conf /etc/alternatives "$1/etc/"
for each in /etc/pam.d /etc/security /etc/iproute2 /etc/ld.so.cache; do
    [ ! -e "$each" ] || cp -a "$each" "$1/etc/"
done
mount --make-rprivate /
mount --bind "$1/etc" /etc
mount --bind "$1/var" /var/lib
mount --bind "$2" /usr/local/sbin
mount -t tmpfs none /dev/net
mknod -m 666 /dev/net/tun c 10 200
shift 2
exec "$@"
"""


class Hosts:
    """Two hosts with a link."""

    def __init__(self, folder: pathlib.Path, programs: pathlib.Path) -> None:
        self.folder, self.holders = folder, {}
        for host in NUMBERS:
            (folder / host).mkdir(parents=True)
            own = ["unshare", "-m", "sh", "-c", OWN, "sh", str(folder / host), str(programs)]
            self.holders[host] = hold(*own, "unshare", "-n")

    def __enter__(self) -> Hosts:
        a, b = (str(it.pid) for it in self.holders.values())
        call("ip", "link", "add", "eth0", "netns", a, "type", "veth", "peer", "name", "eth0", "netns", b)
        for host, number in NUMBERS.items():
            self.run(host, f"ip link set lo up && ip link set eth0 address 02:00:00:00:00:0{number} up")
        return self

    def attempt(self, host: str, script: str) -> Ended:
        """Runs a script at a host, which may fail."""
        words = ["nsenter", "-t", str(self.holders[host].pid), "-m", "-n", f"--wd={self.folder / host / 'work'}"]
        words += ["env", "PATH=/usr/local/sbin:/usr/sbin:/usr/bin:/sbin:/bin", "sh", "-c", script]
        return attempt(words)

    def run(self, host: str, script: str) -> str:
        """Runs a script at a host, where it has to succeed."""
        ended = self.attempt(host, script)
        if ended.returncode:
            raise Failed(f"{host}# {script}: status {ended.returncode}: {ended.stdout}{ended.stderr}")
        return ended.stdout

    def __exit__(self, *_: object) -> None:
        for host, holder in self.holders.items():
            for pid in self.processes(host):
                with contextlib.suppress(ProcessLookupError):
                    os.kill(pid, signal.SIGKILL)
            let_go(holder)

    def processes(self, host: str) -> list[int]:
        """What was started at a host and runs: the processes with its mount namespace."""
        holder = self.holders[host].pid
        own = os.readlink(f"/proc/{holder}/ns/mnt")
        found = []
        for path in pathlib.Path("/proc").glob("[0-9]*"):
            with contextlib.suppress(OSError):
                if os.readlink(path / "ns/mnt") == own and int(path.name) != holder:
                    found.append(int(path.name))
        return found


def make_programs(folder: pathlib.Path, library: pathlib.Path) -> pathlib.Path:
    """The programs that the packages install."""
    programs = build(folder / "programs", library, [], ROOT / "device")
    shutil.copy(ROOT / "device/macsec-link", programs)
    config = programs / "macsec-config"
    config.write_text(
        f"""#!/bin/sh
export PYTHONDONTWRITEBYTECODE=1 PYTHONPATH={ROOT}/python MACSEC_LIBRARY={library.parent}/libmacsec.so.1
exec {sys.executable} -c 'import sys; from macsec.cli.config import main; sys.exit(main())' "$@"
"""
    )
    config.chmod(0o755)
    return programs
