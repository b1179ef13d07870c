"""A virtual machine with a Linux kernel of Debian, and with programs of this machine or of Debian's packages."""

from __future__ import annotations

import os
import pathlib
import re
import shutil
import subprocess
from collections.abc import Sequence
from typing import IO

from house.reporting import Failed, call, until

# The machine's first program: it loads the modules and runs the script /job. `ip` is iproute2's, not busybox's.
INIT = """#!/bin/busybox sh
/bin/busybox mkdir -p /proc /sys /dev /run /tmp /etc
/bin/busybox mount -t proc none /proc
/bin/busybox mount -t sysfs none /sys
/bin/busybox mount -t devtmpfs none /dev
/bin/busybox --install -s /bin
export PATH=/bin LD_LIBRARY_PATH=/lib
while read -r it; do insmod "$it"; done < /modules/order
ip() { ip.real "$@"; }
. /job
poweroff -f
"""
LIBRARIES = ("usr/lib/x86_64-linux-gnu", "lib/x86_64-linux-gnu")
PROGRAMS = ":/usr/sbin:/sbin"


def fetch(folder: pathlib.Path, package: str, more: Sequence[str]) -> pathlib.Path:
    """Unpacks a package's kernel and other packages of Debian into the folder, and notes their versions."""
    found = re.search(r"Depends: (linux-image-[0-9]\S*)", call("apt-cache", "depends", package))
    if not found:
        raise Failed(f"apt-cache does not know {package}: apt-get update")
    packages, files = folder / "packages", folder / "files"
    packages.mkdir(parents=True)
    subprocess.run(
        ["apt-get", "-o", "APT::Sandbox::User=root", "-qq", "download", found[1], *more],
        cwd=packages,
        check=True,
        stdout=subprocess.DEVNULL,
    )
    names = sorted(packages.glob("*.deb"))
    for it in names:
        call("dpkg-deb", "-x", str(it), str(files))
    (folder / "versions").write_text(" ".join(it.name.rsplit("_", 1)[0].replace("%3a", ":") for it in names))
    return files


def copy_program(files: pathlib.Path, root: pathlib.Path, name: str, to: str) -> None:
    """Copies a program of the packages or of this machine with its libraries."""
    found = shutil.which(name, path=f"{files}/sbin:{os.environ['PATH']}{PROGRAMS}")
    if found is None:
        raise Failed(f"{name} is not installed")
    path = os.path.realpath(found)
    shutil.copy(path, root / "bin" / to)
    where = {**os.environ, "LD_LIBRARY_PATH": ":".join(f"{files}/{it}" for it in LIBRARIES)}
    told = subprocess.run(["ldd", path], env=where, capture_output=True, text=True).stdout
    for word in told.split():
        if word.startswith("/"):
            shutil.copy(word, root / ("lib64" if "ld-linux" in word else "lib"))


def copy_modules(files: pathlib.Path, root: pathlib.Path, modules: Sequence[str]) -> None:
    """Copies modules of the kernel, and writes the order in which they are loaded."""
    version = next((files / "lib/modules").iterdir()).name
    call("depmod", "-b", str(files), version)
    order: list[str] = []
    for module in modules:
        shown = call("modprobe", "-d", str(files), "-S", version, "--show-depends", module)
        order += [line.split()[1] for line in shown.splitlines() if line.startswith("insmod")]
    order = list(dict.fromkeys(order))
    for path in order:
        shutil.copy(path, root / "modules")
    (root / "modules/order").write_text("".join(f"/modules/{os.path.basename(it)}\n" for it in order))


def prepare(
    folder: pathlib.Path,
    package: str,
    modules: Sequence[str],
    programs: Sequence[str] = (),
    packages: Sequence[str] = (),
) -> pathlib.Path:
    """The machine's files below folder/root: the modules, busybox, ip and other programs. Returns the kernel."""
    os.environ["PATH"] += PROGRAMS
    files, root = fetch(folder, package, packages), folder / "root"
    for name in ("bin", "lib", "lib64", "modules"):
        (root / name).mkdir(parents=True)
    for name, to in [("busybox", "busybox"), ("ip", "ip.real"), *((it, it) for it in programs)]:
        copy_program(files, root, name, to)
    copy_modules(files, root, modules)
    (root / "init").write_text(INIT)
    (root / "init").chmod(0o755)
    return next((files / "boot").glob("vmlinuz-*"))


def pack(folder: pathlib.Path, files: dict[str, str], out: pathlib.Path) -> pathlib.Path:
    """The file system with which the machine starts, and in it more files, such as the script `job`."""
    for name, text in files.items():
        (folder / "root" / name).write_text(text)
    words = f"cd root && find . | cpio -o -H newc --quiet | gzip -1 > {out}"
    subprocess.run(["sh", "-c", words], cwd=folder, check=True)
    return out


def words_of(
    kernel: pathlib.Path, initrd: pathlib.Path, memory: int, more: str = "", accelerators: Sequence[str] = ("tcg",)
) -> list[str]:
    """qemu's arguments, except for cards and consoles. It takes the first of the accelerators that there is."""
    words = f"qemu-system-x86_64 -m {memory} -display none -no-reboot -nic none".split()
    for it in accelerators:
        words += ["-accel", it]
    # Linux tests the timer while it starts, and stops if an emulated machine gets no processor meanwhile.
    append = f"console=ttyS0 quiet panic=-1 no_timer_check {more}"
    return [*words, "-kernel", str(kernel), "-initrd", str(initrd), "-append", append]


class Machine:
    """A machine that runs in a namespace. What its console shows is in a file."""

    def __init__(
        self,
        namespace: str,
        words: list[str],
        console: pathlib.Path,
        out: int | IO[bytes] = subprocess.DEVNULL,
        into: int = subprocess.DEVNULL,
    ) -> None:
        self.console = console
        self.process = subprocess.Popen(["ip", "netns", "exec", namespace, *words], stdin=into, stdout=out, stderr=out)

    def text(self) -> str:
        return self.console.read_text(errors="replace").replace("\r", "") if self.console.exists() else ""

    def waits_for(self, text: str, seconds: float) -> bool:
        until(lambda: text in self.text() or self.process.poll() is not None, seconds)
        return text in self.text()
