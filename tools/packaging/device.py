"""The Debian package of the device, macsecd: what is in it, and its trials."""

from __future__ import annotations

import gzip
import os
import shutil
from pathlib import Path

from house.crates import ROOT
from trials import DOC, dpkg_in, found_in, outside, quietly, read, run, see, tried_completions

NAME = "macsecd"
HERE = f"{ROOT}/tools/packaging/macsecd"
NEEDS = "systemd (>= 252), iproute2, util-linux"
ABOUT = "MACsec device: protects the link between two hosts"
SCRIPTS = ("postinst", "prerm", "postrm")
MANUALS = ("macsecd.8", "macsecctl.8", "macsec-link.8")
# The accounts of an empty root, and what systemd-sysusers leaves beside them.
ACCOUNTS = {"passwd": "root:x:0:0::/root:/bin/sh\n", "group": "root:x:0:\n"}
BESIDE = ("etc/.pwd.lock", "etc/passwd-", "etc/group-", "etc/shadow", "etc/shadow-", "etc/gshadow", "etc/gshadow-")


def build(library: str, to: str) -> list[str]:
    """Builds the programs of the device over a library, with the flags of `make device`. Returns their paths."""
    words = ["make", "--no-print-directory", "-C", str(ROOT), "device-of", f"LIBRARY={library}", f"TO={to}"]
    quietly(*words)
    return [f"{to}/macsecd", f"{to}/macsecctl"]


def installed(path: str) -> bytes:
    """A file of the project that names its programs, which the package has in /usr."""
    return read(f"{ROOT}/{path}").replace(b"/usr/local/", b"/usr/")


def files(programs: list[str]) -> dict[str, tuple[bytes, int]]:
    """The files of the package, except PROVENANCE and completions."""
    doc = f"{DOC[1:]}/{NAME}"
    found = {f"usr/sbin/{os.path.basename(it)}": (read(it), 0o755) for it in programs}
    found["usr/sbin/macsec-link"] = (installed("device/macsec-link"), 0o755)
    found["usr/lib/systemd/system/macsecd@.service"] = (installed("device/macsecd@.service"), 0o644)
    for folder in ("sysusers", "tmpfiles"):
        found[f"usr/lib/{folder}.d/{NAME}.conf"] = (read(f"{HERE}/{folder}.conf"), 0o644)
    for page in MANUALS:
        found[f"usr/share/man/man8/{page}.gz"] = (gzip.compress(installed(f"man/{page}"), 9, mtime=0), 0o644)
    found[f"{doc}/examples/macsec0.conf"] = (read(f"{HERE}/macsec0.conf"), 0o644)
    for name in ("README.md", "alerts.yml", "test-alerts.yml", "dashboard.json"):
        found[f"{doc}/examples/prometheus/{name}"] = (read(f"{ROOT}/integrations/prometheus/{name}"), 0o644)
    return found


def scripts() -> dict[str, tuple[bytes, int]]:
    """What dpkg runs when it installs and removes the package."""
    return {it: (read(f"{HERE}/{it}"), 0o755) for it in SCRIPTS}


# ---- Trials


def plain(path: Path) -> bytes:
    """The octets of a file, unpacked if it is packed."""
    return gzip.decompress(path.read_bytes()) if path.suffix == ".gz" else path.read_bytes()


def tried_below(where: str, root: str) -> None:
    """Tries the programs that are unpacked below a root."""
    do = outside({})
    version = read(f"{ROOT}/VERSION").decode().strip()
    printed = do(f"{root}/usr/sbin/macsecd", "--version")
    see(f"{where}, macsecd --version prints {version}", printed == f"macsecd {version}\n")
    room = Path(root, "tried")
    room.mkdir()
    example = room / "macsec0.conf"
    shutil.copy(f"{root}{DOC}/{NAME}/examples/macsec0.conf", example)
    example.chmod(0o600)
    do = outside({"CONFIGURATION_DIRECTORY": str(room)})
    wanted = "eth0 macsec0 1514 isolated 0\n"
    printed = do(f"{root}/usr/sbin/macsecd", "--settings", "macsec0") if os.geteuid() == 0 else wanted
    see(f"{where}, macsecd --settings reads the example", printed == wanted)
    tried_completions(where, do, root, ["macsecd", "macsecctl", "macsec-link"])
    shutil.rmtree(room)
    paths = [str(it) for it in Path(root, "usr").rglob("*") if it.is_file() and b"/usr/local" in plain(it)]
    see(f"{where}, nothing of macsecd names /usr/local {paths or ''}", not paths)


def unpacked(package: str, root: str) -> None:
    run("dpkg", "-x", package, root)
    tried_below("unpacked", root)


def accounts(root: str) -> dict[str, list[str]]:
    return {it: Path(root, "etc", it).read_text().splitlines() for it in ACCOUNTS}


def left(root: str) -> dict[str, str]:
    """What is below a root, except accounts."""
    hidden = (*BESIDE, *(f"etc/{it}" for it in ACCOUNTS))
    return {path: it for path, it in found_in(root).items() if path not in hidden}


def empty_root(package: str, root: str) -> None:
    """Installs the package in an empty root, upgrades and removes it: the user of the service alone is left."""
    if not all(map(shutil.which, ("systemd-sysusers", "systemd-tmpfiles"))):
        print("  macsecd was not installed in an empty root: systemd is not installed", flush=True)
        return
    for path in ("etc/systemd/system/multi-user.target.wants", "var/lib", "run"):
        os.makedirs(f"{root}/{path}", exist_ok=True)
    dpkg = dpkg_in(root, "--force-script-chrootless")
    for name, text in ACCOUNTS.items():
        Path(root, "etc", name).write_text(text)
    before = left(root)
    for _ in range(2):
        quietly(*dpkg, "-i", package)
    tried_below("in an empty root", root)
    modes = [f"{os.stat(f'{root}/{it}').st_mode & 0o7777:o}" for it in ("etc/macsec", "var/lib/macsec")]
    see(f"in an empty root, macsecd has its folders {modes}", modes == ["700", "755"])
    added = [it.split(":")[0] for each in accounts(root).values() for it in each[1:]]
    see(f"in an empty root, macsecd has its user and group {added}", added == ["macsec", "macsec"])
    kept = [Path(root, it) for it in ("etc/macsec/macsec0.conf", "var/lib/macsec/macsec0/macsec0.journal")]
    wants = Path(root, "etc/systemd/system/multi-user.target.wants/macsecd@macsec0.service")
    wants.symlink_to("/usr/lib/systemd/system/macsecd@.service")
    for it in kept:
        it.parent.mkdir(exist_ok=True)
        it.touch()
    quietly(*dpkg, "-P", NAME)
    see("in an empty root, configurations and journals stay", all(it.exists() for it in kept))
    see("in an empty root, no unit of macsecd is enabled any more", not wants.is_symlink())
    for it in kept:
        it.unlink()
    quietly(*dpkg, "-i", package)
    quietly(*dpkg, "-P", NAME)
    more = sorted(set(left(root).items()) ^ set(before.items()))
    see(f"in an empty root, nothing but the user is left of macsecd {more or ''}", not more)
