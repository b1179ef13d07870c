"""The Debian package of the key agreement, wpa-supplicant-macsecd: what is in it, and its trials.

It is built of Debian's source package wpa, which `make dist` downloads once. Without that source it is not made."""

from __future__ import annotations

import gzip
import shutil
import subprocess
import sys
from pathlib import Path

from house.crates import BUILD, ROOT, hash_of
from trials import DOC, dpkg_in, is_empty, outside, quietly, read, run, see

NAME = "wpa-supplicant-macsecd"
HERE = f"{ROOT}/integrations/wpa_supplicant"
ABOUT = "Key agreement (MKA) for the MACsec device macsecd"
SCRIPTS = ("postinst", "prerm", "postrm")
UNIT = "wpa_supplicant-macsec@.service"
EXAMPLES = ("macsec0.conf", "wpa_supplicant.conf")
PROGRAMS = ("wpa_supplicant", "wpa_cli")
# Where the source is kept for the next call.
KEPT = Path(BUILD, "wpa_supplicant")


def has_source(folder: Path = KEPT) -> bool:
    return any((folder / "source").glob("wpa_*.dsc"))


def fetch() -> None:
    """Downloads the source, unless it is there."""
    if not has_source():
        ended = subprocess.run([f"{HERE}/build", "--fetch", str(KEPT)])
        if ended.returncode:
            sys.exit(f"tools/dist: {NAME} needs Debian's source package wpa; --without-agreement leaves it out")


def build(room: str) -> Path:
    """Builds the programs of the source in another folder. Returns that folder."""
    shutil.copytree(KEPT / "source", Path(room, "source"), ignore=shutil.ignore_patterns("tree", "apt", "*.log"))
    quietly(f"{HERE}/build", room)
    for name in PROGRAMS:
        run("strip", f"{room}/{name}")
    return Path(room)


def source(folder: Path) -> tuple[str, str]:
    """The version of the source package, and what it is, for PROVENANCE."""
    description = next((folder / "source").glob("wpa_*.dsc"))
    version = next(it[9:] for it in description.read_text().splitlines() if it.startswith("Version: "))
    return version, f"source {description.name} of Debian, sha256 {hash_of(str(description))}\n"


def installed(path: str) -> bytes:
    """A file of the project that names programs, which the packages have in /usr and under names of their own."""
    octets = read(path).replace(b"/usr/local/", b"/usr/")
    return octets.replace(b"/usr/sbin/wpa_supplicant ", f"/usr/sbin/{NAMES['wpa_supplicant']} ".encode())


NAMES = {it: f"{it}-macsecd" for it in PROGRAMS}


def files(folder: Path) -> dict[str, tuple[bytes, int] | None]:
    """The files of the package except PROVENANCE, and the folder of its configurations."""
    doc = f"{DOC[1:]}/{NAME}"
    found: dict[str, tuple[bytes, int] | None] = {"etc/wpa_supplicant": None}
    for name, to in NAMES.items():
        found[f"usr/sbin/{to}"] = (read(f"{folder}/{name}"), 0o755)
    found[f"usr/lib/systemd/system/{UNIT}"] = (installed(f"{HERE}/{UNIT}"), 0o644)
    page = read(f"{ROOT}/man/wpa_supplicant-macsecd.8")
    found["usr/share/man/man8/wpa_supplicant-macsecd.8.gz"] = (gzip.compress(page, 9, mtime=0), 0o644)
    for name in EXAMPLES:
        found[f"{doc}/examples/{name}"] = (read(f"{HERE}/{name}"), 0o644)
    found[f"{doc}/copyright"] = (read(f"{folder}/source/tree/debian/copyright"), 0o644)
    return found


def scripts() -> dict[str, tuple[bytes, int]]:
    """What dpkg runs when it installs and removes the package."""
    return {it: (read(f"{ROOT}/tools/packaging/{NAME}/{it}"), 0o755) for it in SCRIPTS}


# ---- Trials


def tried_below(where: str, root: str) -> None:
    """Tries the programs that are unpacked below a root."""
    do = outside({})
    program, client = (f"{root}/usr/sbin/{it}" for it in NAMES.values())
    see(f"{where}, wpa_supplicant has the driver", "macsec_macsecd" in help_of(program))
    see(f"{where}, wpa_cli prints its version", do(client, "-v").startswith("wpa_cli v2"))
    unit = Path(root, f"usr/lib/systemd/system/{UNIT}").read_text()
    named = [word.strip("'\"") for word in unit.split() if word.startswith("/usr/sbin/")]
    see(f"{where}, the unit starts {named}", f"/usr/sbin/{NAMES['wpa_supplicant']}" in named and "/local/" not in unit)


def help_of(program: str) -> str:
    """What a program prints of itself. Its status says that it was given nothing to do."""
    return subprocess.run([program, "-h"], stdout=subprocess.PIPE, text=True).stdout


def unpacked(package: str, root: str) -> None:
    run("dpkg", "-x", package, root)
    tried_below("unpacked", root)


def empty_root(package: str, root: str) -> None:
    """Installs the package in an empty root, and removes it: nothing is left."""
    wants = Path(root, "etc/systemd/system/multi-user.target.wants", UNIT.replace("@", "@macsec0"))
    wants.parent.mkdir(parents=True)
    dpkg = dpkg_in(root, "--force-script-chrootless")
    for _ in range(2):
        quietly(*dpkg, "-i", package)
    tried_below("in an empty root", root)
    wants.symlink_to(f"/usr/lib/systemd/system/{UNIT}")
    quietly(*dpkg, "-P", NAME)
    is_empty(root, NAME)
