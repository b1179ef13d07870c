"""Tries the packages that tools/dist makes: unpacked, installed in an empty root, and in a root of Debian."""

from __future__ import annotations

import hashlib
import os
import re
import shutil
import subprocess
import sys
from collections.abc import Iterable
from pathlib import Path
from typing import Callable

from house.crates import ROOT
from house.linked import links
from house.processors import EVERY, KINDS, WIDER, at_hand, runs

TRIPLET = "x86_64-linux-gnu"
HWCAPS = f"glibc-hwcaps/{WIDER}"
NAMES = ["libmacsec1", "libmacsec-dev", "macsec", "macsec-doc", "python3-macsec"]
DOC, LIBRARIES = "/usr/share/doc", f"/usr/lib/{TRIPLET}"
# Below /usr: the folder of the package for Python.
PYTHON = "lib/python3/dist-packages"
COMPLETIONS = "/usr/share/bash-completion/completions"
# Nothing of the toolchain is on this path.
ENVIRONMENT = {"PATH": "/usr/sbin:/usr/bin:/sbin:/bin", "LANG": "C.UTF-8"}

# A root of Debian in which the packages are tried.
SUITE = "bookworm"
INCLUDED = "gcc,libc6-dev,pkg-config,man-db,bash-completion,python3"
# Below it, what installing anything leaves: the records of dpkg, logs and caches.
RECORDS = ("var/lib/dpkg/", "var/log/", "var/cache/", "etc/ld.so.cache", "tmp/")


def run(*words: str, **how) -> str:
    """What a command prints. It has to end well."""
    return subprocess.run(words, check=True, stdout=subprocess.PIPE, text=True, **how).stdout


def quietly(*words: str) -> None:
    """Runs a command, whose output is printed if it fails."""
    ended = subprocess.run(words, stdout=subprocess.PIPE, stderr=subprocess.STDOUT, text=True)
    if ended.returncode:
        sys.exit(f"tools/dist: {' '.join(words[:3])} ..: status {ended.returncode}\n{ended.stdout}")


def read(path: str) -> bytes:
    return Path(path).read_bytes()


def python_commands() -> list[str]:
    return re.findall("^(macsec-[a-z]+) = ", read(f"{ROOT}/python/pyproject.toml").decode(), re.M)


def see(what: str, holds: bool) -> None:
    """Prints whether something holds, and ends if it doesn't."""
    print(f"  {what}: {'yes' if holds else 'NO'}", flush=True)
    if not holds:
        sys.exit(f"tools/dist: {what}: no")


def text(path: str) -> str:
    return read(f"{ROOT}/{path}").decode()


def tried_in_c(where: str, do: Callable[..., str], at: str, room: str, flags: list[str]) -> None:
    """Compiles the examples in C, and runs them over the shared library, and one over the static one."""
    examples = f"{at}{DOC}/libmacsec-dev/examples/c"
    for name in ("talk", "first_frame"):
        told = text(f"examples/c/{name}.txt")
        do("gcc", "-std=c99", "-o", f"{room}/{name}", f"{examples}/{name}.c", *flags)
        see(f"{where}, {name}.c, by pkg-config over the shared library, prints its text", do(f"{room}/{name}") == told)
    do("gcc", "-std=c99", "-static", "-o", f"{room}/static", f"{examples}/talk.c", *flags)
    see(f"{where}, talk.c, linked statically, prints its text", do(f"{room}/static") == text("examples/c/talk.txt"))
    faster = f"{at}{LIBRARIES}/{HWCAPS}/libmacsec.so.1"
    is_there = do("sh", "-c", f"[ ! -e {faster} ] || echo yes") != ""
    expected = f"/{HWCAPS}/libmacsec.so.1" if is_there and runs(WIDER) else f"/{TRIPLET}/libmacsec.so.1"
    loaded = re.findall(r"libmacsec\.so\.1 => (\S+)", do("env", "LD_TRACE_LOADED_OBJECTS=1", f"{room}/talk"))
    see(f"{where}, the loader takes ..{expected}", len(loaded) == 1 and loaded[0].endswith(expected))


def tried_in_python(where: str, do: Callable[..., str], at: str, room: str) -> None:
    """Runs the commands of the package for Python, and an example over it."""
    captures, doc = f"{at}{DOC}/macsec/examples/captures", f"{at}{DOC}/python3-macsec"
    call = lambda name, *words: do(f"{at}/usr/bin/macsec-{name}", *words)
    keys = [f"--key={key}" for key in re.findall(r"--key (\w{32})", text("docs/PYTHON.md"))[:3]]
    told = call("decrypt", f"{captures}/rekey.pcap", f"{room}/clear.pcapng", *keys)
    see(f"{where}, macsec-decrypt opens a capture with rekeys", told.endswith("5 frames opened\n"))
    do("sh", "-c", f"{at}/usr/bin/macsec-config --capture {captures}/link.pcap {keys[0]} > {room}/config")
    told = call("why", f"{room}/config", f"{captures}/link.pcap")
    see(f"{where}, macsec-why opens a capture by the CONFIG of macsec-config", told.endswith(": OK 3\n"))
    told = call("report", f"{captures}/link.pcap", "-o", "-", "--config", f"{room}/config")
    whole = len(re.findall("</style>|</script>|</html>", told)) == 4
    see(f"{where}, macsec-report writes a page with style, data and script", whole)
    told = call("forge", "-", "--config", f"{room}/config", "--bits", "SC,E")
    see(f"{where}, macsec-forge makes a frame that the library judges", told.startswith("# here Reserved\ninject "))
    told = do("python3", "-B", f"{doc}/examples/python/dissect.py")
    see(f"{where}, an example in Python prints its text", told == text("examples/python/dissect.txt"))


def tried_programs(where: str, do: Callable[..., str], top: str, tour: str) -> None:
    """Runs the tour by the program below a folder, and by the program for each kind of processors."""
    program, of_kinds = f"{top}/bin/macsec", [f"{top}/lib/macsec/{it}/macsec" for it in KINDS]
    are_there = do("sh", "-c", f"[ ! -e {of_kinds[0]} ] || echo yes") != ""
    for path in [program, *(it for kind, it in zip(KINDS, of_kinds) if are_there and runs(kind))]:
        told = do(path, "run", tour)
        see(
            f"{where}, {os.path.relpath(path, top)} prints the text of the tour",
            told == text("examples/scripts/tour.txt"),
        )
    if are_there:
        told = do("sh", "-c", f"sh -x {program} run {tour} 2>&1")
        chosen = re.findall(r"^\+ exec \S+/lib/macsec/(\S+)/macsec run ", told, re.M)
        see(f"{where}, bin/macsec runs the program for {at_hand()}", chosen == [at_hand()])
        wide = do("objdump", "-d", of_kinds[KINDS.index(EVERY)]).count("%ymm") if shutil.which("objdump") else 0
        see(f"{where}, the program for {EVERY} has no vectors of 256 bits", wide == 0)


def tried_completions(where: str, do: Callable[..., str], at: str, names: Iterable[str]) -> None:
    """Sees that bash can load the completion of each command. What they complete, python/tests tries."""
    told = do("bash", "-c", "; ".join(f". {at}{COMPLETIONS}/{it}" for it in names) + "; complete -p")
    see(f"{where}, {', '.join(names)} are completed", all(told.count(f" {it}\n") for it in names))


def tried(where: str, do: Callable[..., str], at: str, room: str, flags: list[str]) -> None:
    """Tries what the packages install: `do` runs a command, `at` is before each path, `room` is a folder."""
    tried_programs(where, do, f"{at}/usr", f"{at}{DOC}/macsec/examples/tour.macsec")
    tried_in_c(where, do, at, room, flags)
    tried_in_python(where, do, at, room)
    tried_completions(where, do, at, ["macsec", *python_commands()])


def manuals(where: str, do: Callable[..., str], words: str) -> None:
    """Sees that `man` finds and formats the pages."""
    for name, section in (("macsec", "1"), ("macsec", "5"), *((it, "1") for it in python_commands())):
        told = do("sh", "-c", f"man {words} {section} {name} 2> /dev/null")
        see(f"{where}, man {section} {name} prints the page", f"{name}({section})" in told.lower())


def outside(environment: dict[str, str]) -> Callable[..., str]:
    """What runs a command without the toolchain on the PATH."""
    return lambda *words: run(*words, env={**ENVIRONMENT, **environment})


def tried_below(where: str, root: str) -> None:
    """Tries what is unpacked below a root, which stays as it is."""
    asks = {"PKG_CONFIG_PATH": f"{root}{LIBRARIES}/pkgconfig", "PKG_CONFIG_SYSROOT_DIR": root}
    flags = outside(asks)("pkg-config", "--cflags", "--libs", "macsec").split()
    room = f"{root}/tried"
    os.mkdir(room)
    do = outside({"LD_LIBRARY_PATH": f"{root}{LIBRARIES}", "PYTHONPATH": f"{root}/usr/{PYTHON}"})
    tried(where, do, root, room, flags)
    if shutil.which("man"):
        manuals(where, do, f"-M {root}/usr/share/man")
    shutil.rmtree(room)


def dangling(folder: Path, pages: list[Path]) -> list[str]:
    """The links of some pages that lead nowhere, or out of a folder."""
    wrong = []
    for page in pages:
        for _, target in links(page.read_text(encoding="utf-8")):
            path = os.path.normpath(page.parent / target.partition("#")[0])
            if target[0] != "#" and not (os.path.exists(path) and Path(path).is_relative_to(folder)):
                wrong.append(f"{page.relative_to(folder)}: {target}")
    return wrong


def linked_pages(root: str) -> None:
    """Sees that the pages of packages lead to what is there."""
    folder = Path(f"{root}{DOC}/macsec-doc")
    pages = list(folder.rglob("*.md"))
    wrong = dangling(folder, pages)
    see(f"every link of the {len(pages)} pages of macsec-doc leads to a file of it {wrong[:5] or ''}", not wrong)
    folder = Path(f"{root}{DOC}/python3-macsec")
    wrong = dangling(folder, [folder / "docs/PYTHON.md"])
    see(f"every link of PYTHON leads to a file of python3-macsec {wrong[:5] or ''}", not wrong)


def dpkg_in(root: str, *words: str) -> list[str]:
    """The call of dpkg for an empty root, which is prepared."""
    for name in ("info", "updates", "triggers"):
        os.makedirs(f"{root}/var/lib/dpkg/{name}", exist_ok=True)
    Path(root, "var/lib/dpkg/status").touch()
    return ["dpkg", f"--root={root}", "--force-depends", "--force-not-root", "--log=/dev/null", *words]


def is_empty(root: str, name: str) -> None:
    """Sees that what was installed in an empty root left nothing."""
    hidden = f"{root}/var/lib/dpkg"
    left = [f"{at}/{it}" for at, _, names in os.walk(root) for it in names if not at.startswith(hidden)]
    see(f"in an empty root, nothing is left of {name} {left or ''}", not left and not os.path.exists(f"{root}/usr"))


def unpacked(names: list[str], root: str) -> None:
    for name in names:
        run("dpkg", "-x", name, root)
    linked_pages(root)
    tried_below("unpacked", root)


def empty_root(names: list[str], root: str) -> None:
    """Installs the packages in an empty root and removes them: nothing is left."""
    dpkg = dpkg_in(root)
    quietly(*dpkg, "-i", *names)
    tried_below("in an empty root", root)
    quietly(*dpkg, "-P", *NAMES)
    is_empty(root, "the packages")


def archive(name: str, room: str) -> None:
    """Unpacks the archive, and tries it where it is."""
    run("tar", "-xzf", name, "-C", room)
    top = f"{room}/{os.path.basename(name).removesuffix('.tar.gz')}"
    asks = {"PKG_CONFIG_PATH": f"{top}/lib/pkgconfig", "LD_LIBRARY_PATH": f"{top}/lib"}
    do = outside(asks)
    flags = do("pkg-config", "--cflags", "--libs", "macsec").split()
    do("gcc", "-o", f"{room}/talk", f"{top}/share/doc/macsec/examples/c/talk.c", *flags)
    see("unpacked, the archive has what talk.c needs", do(f"{room}/talk") == text("examples/c/talk.txt"))
    tried_programs("in the archive", do, top, f"{top}/share/doc/macsec/examples/tour.macsec")
    cargo = shutil.which("cargo")
    if cargo and subprocess.run([cargo, "--version"], stdout=subprocess.DEVNULL).returncode == 0:
        # Cargo finds its compiler by variables and files of the user.
        rust = outside({**os.environ, **asks, "PATH": f"{os.path.dirname(cargo)}:{ENVIRONMENT['PATH']}"})
        words = [cargo, "run", "--quiet", "--offline", "--target-dir", f"{room}/rust"]
        told = rust(*words, "--manifest-path", f"{top}/share/doc/macsec/examples/rust/Cargo.toml")
        see("unpacked, the archive has what cargo needs for examples/rust", told == text("examples/rust/stdout.txt"))


def found_in(root: str) -> dict[str, str]:
    """What is below a root except records: each path, and what is there."""
    found = {}
    for at, folders, files in os.walk(root):
        for name in (*folders, *files):
            path, what = f"{at}/{name}", ""
            if os.path.islink(path):
                what = os.readlink(path)
            elif os.path.isfile(path):
                what = hashlib.sha256(read(path)).hexdigest()
            found[os.path.relpath(path, root)] = f"{os.lstat(path).st_mode:o} {what}"
    return {path: it for path, it in found.items() if not path.startswith(RECORDS)}


def debian_root(names: list[str], root: str) -> None:
    """Installs the packages in a root of Debian by its own dpkg, tries them there, and removes them."""
    if not os.path.exists(root):
        quietly("debootstrap", "--variant=minbase", f"--include={INCLUDED}", SUITE, root)
    before = found_in(root)
    room = "/tmp/macsec"
    shutil.rmtree(root + room, ignore_errors=True)
    os.mkdir(root + room)
    for name in names:
        shutil.copy(name, root + room)
    do: Callable[..., str] = lambda *words: run("chroot", root, *words, env=ENVIRONMENT)
    quietly("chroot", root, "dpkg", "-i", *(f"{room}/{os.path.basename(it)}" for it in names))
    tried("in Debian", do, "", room, do("pkg-config", "--cflags", "--libs", "macsec").split())
    manuals("in Debian", do, "")
    loads = ". /usr/share/bash-completion/bash_completion; _completion_loader macsec; complete -p macsec"
    see("in Debian, bash-completion finds the completion", "_macsec" in do("bash", "-c", loads))
    quietly("chroot", root, "dpkg", "-P", *NAMES)
    shutil.rmtree(root + room)
    see("in Debian, nothing is left when they are removed", found_in(root) == before)
    see("in Debian, dpkg and the loader know nothing of them", "macsec" not in do("dpkg", "-l") + do("ldconfig", "-p"))
