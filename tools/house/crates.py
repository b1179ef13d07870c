"""The crates of crates.txt, their files, and the kit of the command `rt`: what the tools that build the project
share."""

from __future__ import annotations

import functools
import hashlib
import os
import re
import shutil
import subprocess
import sys
from pathlib import Path
from typing import Callable

from house import ROOT

BUILD = f"{ROOT}/build"

# The kit that the command `rt` belongs to: the prover, its logic, compilers, linker and libraries.
RT = shutil.which("rt") or sys.exit("rt, the command of the Rattle toolchain, is not on the PATH")
KIT = os.path.dirname(os.path.dirname(os.path.realpath(RT)))

# The parts in C of the kit's library, with which each program is linked.
KIT_IN_C = [f"{KIT}/c/libos_c.a", f"{KIT}/c/liblibc_c.a"]

TARGET = "x86_64-unknown-linux-gnu"


def listed() -> dict[str, list[str]]:
    """Each crate of crates.txt, with the libraries that it is listed with."""
    text = (ROOT / "crates.txt").read_text(encoding="utf-8")
    lines = [line.split(":") for line in text.splitlines() if line.strip() and not line.startswith("#")]
    return {name.split()[0]: libraries.split() for name, libraries in lines}


CRATES = listed()


def own(name: str) -> list[str]:
    """The crates of the project that one is listed with."""
    return [each for each in CRATES[name] if each in CRATES]


def of_kit(name: str) -> list[str]:
    return ["std", *(each for each in CRATES[name] if each not in CRATES)]


@functools.cache
def below(name: str) -> tuple[str, ...]:
    """The crates of the project below one, each after those that it depends on."""
    found: dict[str, None] = {}
    for each in own(name):
        found |= {**dict.fromkeys(below(each)), each: None}
    return tuple(found)


def files(name: str, parts: tuple[str, ...] = ("src", "specs", "proofs")) -> list[str]:
    folders = [f"{ROOT}/crates/{name}/{part}" for part in parts]
    return sorted(f"{folder}/{it}" for top in folders for folder, _, names in os.walk(top) for it in names)


def root_file(name: str) -> str:
    """The root file of a crate, in the crate's folder."""
    return "src/main.rt" if os.path.isfile(f"{ROOT}/crates/{name}/src/main.rt") else "src/lib.rt"


def has_tests(name: str) -> bool:
    texts = (Path(it).read_text(encoding="utf-8") for it in files(name, ("src",)))
    return any(re.search(r"^\s*#\[test\]", it, re.M) for it in texts)


def prover_words(name: str, jobs: int, folder_of: Callable[[str], str]) -> list[str]:
    """The prover's arguments for a crate, in the crate's folder. `folder_of` says where a library is."""
    words = ["--crate-name", name, root_file(name), "-L", f"dependency={KIT}/rlibs"]
    for each in ("std", *CRATES[name]):
        folder = folder_of(each) if each in CRATES else f"{KIT}/rlibs"
        words += ["--extern", f"{each}={folder}/{each}.rlib"]
    for folder in dict.fromkeys(map(folder_of, below(name))):
        words += ["-L", f"dependency={folder}"]
    words += ["--antt-project", f"{KIT}/rattle/logic/antt-project.json"]
    return [*words, "--logic-built", f"{KIT}/logic_built", "--jobs", str(jobs)]


def folder_of_ci(library: str) -> str:
    """Where `rt ci` keeps the library that it has proved."""
    return f"{ROOT}/crates/{library}/out/rlib"


def kit_id() -> str:
    """What identifies the kit: its version and logic, not where it is installed."""
    return Path(f"{KIT}/KIT-ID").read_text(encoding="utf-8")


@functools.cache
def sum_of(name: str) -> str:
    """A hash of all that a library is made from, the same in every folder: the kit, its files and those below it."""
    made = hashlib.sha256(repr([kit_id(), CRATES[name], *map(sum_of, own(name))]).encode())
    for path in files(name):
        made.update(repr((os.path.relpath(path, ROOT), Path(path).read_bytes())).encode())
    return made.hexdigest()


def hash_of(path: str) -> str:
    return hashlib.sha256(Path(path).read_bytes()).hexdigest()


def record(path: str, crate: str, run: str) -> str:
    """What tools/prove writes beside a program or a library when it is built: which run proved its crates, its own
    hash, and the hashes of what its crates are made from. It is the same for a copy."""
    lines = [run, f"{hash_of(path)} built of {crate}"]
    return "\n".join([*lines, *(f"{sum_of(it)} {it}" for it in (*below(crate), crate))]) + "\n"


def record_file(path: str) -> str:
    """Where that is."""
    return f"{path}.proved"


def verdict_file(path: str | Path) -> str:
    """Where tools/prove leaves what the prover printed of a program or a library that it built."""
    return f"{path}.verdict"


def proved_by(path: str, crate: str) -> str | None:
    """The run that proved the crates of a program or a library; None if it was built of other files."""
    if not os.path.isfile(path) or not os.path.isfile(record_file(path)):
        return None
    text = Path(record_file(path)).read_text(encoding="utf-8")
    run = text.partition("\n")[0]
    return run if text == record(path, crate, run) else None


def libraries_folder() -> str:
    """Where built libraries of this checkout are kept. `rt ci` refuses their sources anywhere in the checkout but below
    the git directory, which it does not read; without a git directory they are in the user's cache."""
    try:
        asked = ["git", "-C", ROOT, "rev-parse", "--absolute-git-dir", "--show-toplevel"]
        told = subprocess.run(asked, capture_output=True, text=True, check=True).stdout.splitlines()
        if len(told) == 2 and os.path.samefile(told[1], ROOT):
            return f"{told[0]}/macsec-built"
    except (OSError, subprocess.CalledProcessError):
        pass
    cache = os.environ.get("XDG_CACHE_HOME") or os.path.expanduser("~/.cache")
    return f"{cache}/macsec-built{ROOT}"
