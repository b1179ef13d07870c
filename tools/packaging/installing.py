"""Tries `make install` and `make install-device` of what is built where `rt` is not on the PATH, as `sudo` runs them."""

from __future__ import annotations

import os
import shutil
import subprocess
from pathlib import Path

from house.crates import ROOT
from trials import ENVIRONMENT, run, see

CPU = "x86-64-v2"
# What stands for each file that make builds.
BUILT = {f"macsec-{CPU}": "macsec", f"macsecd-{CPU}": "macsec", "macsecctl": "macsec"}
BUILT |= {it: it for it in ("libmacsec.a", "libmacsec.so.1")}
# What these targets read: of the crates, one is enough.
READ = ("Makefile", "VERSION", "crates.txt", "crates/macsec_c/src", "device", "include", "man", "python", "tools")
INSTALLED = ("bin/macsec", "lib/libmacsec.so.1", "sbin/macsecd", "sbin/macsecctl", "include/macsec.h")


def make(top: Path, to: Path) -> subprocess.CompletedProcess[str]:
    """Installs what is built in a copy of the tree."""
    words = ["make", "-C", str(top), "install", "install-device", f"CPU={CPU}", "PREFIX=/usr", f"DESTDIR={to}"]
    return subprocess.run(words, env=ENVIRONMENT, stdin=subprocess.DEVNULL, capture_output=True, text=True)


def without_rt(folder: str, room: str) -> None:
    """Installs what is built in a folder; then there is a newer source."""
    top, to = Path(room, "tree"), Path(room, "to")
    for name in run("git", "-C", str(ROOT), "ls-files", *READ).splitlines():
        if os.path.isfile(ROOT / name) and "tests" not in Path(name).parts:
            os.makedirs(top / Path(name).parent, exist_ok=True)
            shutil.copy(ROOT / name, top / name)
    os.mkdir(top / "build")
    for name, file in BUILT.items():
        shutil.copy(f"{folder}/{file}", top / "build" / name)
    ended = make(top, to)
    is_there = all((to / "usr" / it).is_file() for it in INSTALLED)
    see("make install asks for no rt if all is built", ended.returncode == 0 and is_there)
    os.utime(top / "crates/macsec_c/src/lib.rt", (newer := os.path.getmtime(top / "build/libmacsec.a") + 1, newer))
    ended = make(top, to)
    see("it asks for rt if a source is newer", ended.returncode == 2 and "rt, the command of" in ended.stderr)
