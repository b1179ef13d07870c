"""The journals of a host: where they are, on which file systems, keys that are in two of them, and journals that are
cut while macsecd runs."""

from __future__ import annotations

import fcntl
import os
import pathlib
import secrets
import shutil
import signal
import subprocess

from house import ROOT
from house.compiling import WARNINGS
from house.reporting import call, report, until
from macsecd_handover import next_of
from macsecd_world import End, Packets, World, attempt, expect, numbers_of, ping, ping_again, protected


def on(end: End, kind: str, *words: str) -> subprocess.CompletedProcess[str]:
    """Runs macsecd with its journal's folder on a new file system of this kind, with what was in the folder."""
    state, copy = end.folder / "state", end.folder / "copy"
    shutil.rmtree(copy, ignore_errors=True)
    shutil.copytree(state, copy)
    mounts = {
        "tmpfs": f"mount -t tmpfs none {state}",
        "a full disk": f"mount -t tmpfs -o size=4k none {state}",
        "overlay": f"mount -t tmpfs none /mnt && mkdir /mnt/u /mnt/w && mount -t overlay overlay "
        f"-o lowerdir={copy},upperdir=/mnt/u,workdir=/mnt/w {state}",
    }
    shell = f'{mounts[kind]} && cp -a {copy}/. {state}/ && exec timeout 2 "$@"'
    command = ["unshare", "-m", *end.enter, "sh", "-c", shell, "sh", str(end.program), *words]
    return attempt(command, 60, end.environment)


def check_disks(end: End) -> None:
    """File systems that do not keep a journal."""
    end.write_config()
    told = on(end, "tmpfs", "--create-journal", "macsec0")
    report((told.returncode, "in memory" in told.stderr) == (2, True), f"a journal in memory is created: {told}")
    told = on(end, "overlay", "--create-journal", "macsec0")
    report((told.returncode, "an overlay" in told.stderr) == (0, True), f"a journal on an overlay: {told}")
    end.create_journal()
    again = end.run_program("--create-journal", "macsec0")
    report((again.returncode, "is there already" in again.stderr) == (1, True), f"a journal is created twice: {again}")
    full = "so frames are dropped until it can be: write: No space left on device"
    for kind, text in (("tmpfs", "in memory"), ("overlay", "an overlay"), ("a full disk", full)):
        told = on(end, kind, "macsec0")
        report(text in told.stderr and "protects macsec0" in told.stderr, f"a journal on {kind}: {told}")


def arrange(end: End) -> tuple[pathlib.Path, pathlib.Path]:
    """Gives two NAMEs of a host a folder each for their journals. Returns the journals."""
    folders = [end.folder / "state" / name for name in ("macsec0", "other0")]
    for folder in folders:
        folder.mkdir(mode=0o700)
    end.journal.rename(folders[0] / "macsec0.journal")
    end.more_environment = {"STATE_DIRECTORY": str(folders[0])}
    return folders[0] / "macsec0.journal", folders[1] / "other0.journal"


def try_start(end: End, what: str, journal: pathlib.Path, peer: End) -> None:
    """macsecd has to start and to send."""
    end.start()
    report(ping_again(peer) == 3, f"no replies with {what}: {journal}")
    report(end.stop() == 0, f"macsecd with {what} does not end well")


def check_keys(a: End, b: End, cuts: int) -> None:
    """A key for which another journal of the host has packet numbers."""
    own, other = arrange(a)
    try_start(a, "an empty folder beside", other, b)
    used = own.read_bytes()
    # Another NAME with the same configuration and another journal, which has packet numbers of the key.
    shutil.copy(own, other)
    text = f"key 0 has packet numbers in {other} too"
    expect(a, "a key of another journal", 2, text)
    for damage in (used + bytes(63), used[:-64]):
        other.write_bytes(damage)
        expect(a, "a key of another journal, which is being written", 2, text)
    own.unlink()
    a.run_program("--create-journal", "macsec0")
    expect(a, "a new journal beside one with the key", 2, text)
    report(len(own.read_bytes()) == 128, "a refused start has written to the journal")
    # In the same folder, as without a service manager.
    other.rename(own.parent / "other0.journal")
    expect(a, "a key of another journal in the folder", 2, "key 0 has packet numbers in")
    (own.parent / "other0.journal").unlink()
    own.write_bytes(used)
    # What is no reason to refuse: the peer's journal, under whose key this end receives, and other files.
    shutil.copy(b.journal, other)
    for name, octets in (("none.journal", b""), ("wrong.journal", bytes(128)), ("other.away", used)):
        (other.parent / name).write_bytes(octets)
    (other.parent / "link.journal").symlink_to(own)
    (other.parent / "long.journal").write_bytes(bytes(5 << 20))
    os.mkfifo(other.parent / "fifo.journal")
    (other.parent / "damaged.journal").write_bytes(used[:64] + bytes(64))
    try_start(a, "other files and journals", other, b)
    for text in ("fifo.journal can't be read", "damaged.journal is damaged"):
        report(text in a.log(), f"no message of a journal that {text}: {a.log()}")
    check_cut(a, cuts)


def check_cut(a: End, cuts: int) -> None:
    """A journal that is cut while macsecd runs is written again, without a new record too. So the next run begins
    above."""
    journal = a.folder / "state/macsec0/macsec0.journal"
    for number in range(cuts):
        a.start()
        ping(a, 1, seconds=0.1)
        used, log, inode = next_of(a), len(a.log()), journal.stat().st_ino
        os.truncate(journal, journal.stat().st_size * number // cuts)
        noticed = until(lambda: journal.stat().st_ino != inode and "it is written again" in a.log()[log:], 5)
        report(noticed, f"a journal that is cut is not written again: {a.log()[log:]}")
        a.stop(signal.SIGKILL)
        a.start()
        report(next_of(a) >= used, f"after a journal was cut, {next_of(a)} is sent next, and {used} was before")
        a.stop()


# ---- Two starts at one time


class Pair:
    """Two NAMEs with one key, each with a link and a folder of its own, whose disk is slow."""

    NAMES = "macsec0", "other1"

    def __init__(self, world: World, milliseconds: int) -> None:
        self.end = world.ends[0]
        world.join("other0")
        self.end.write_config()
        other = self.end.config.with_name("other1.conf")
        other.write_text(self.end.config.read_text().replace("device link link0", "device link other0"))
        other.chmod(0o600)
        preloaded, source = self.end.folder / "slow.so", ROOT / "device/tests/macsecd_disk.c"
        call("gcc", *WARNINGS, "-O2", "-shared", "-fPIC", "-pthread", "-o", str(preloaded), str(source))
        self.environment = {"LD_PRELOAD": str(preloaded), "SLOW": str(milliseconds)}

    def folder(self, name: str) -> pathlib.Path:
        """The folder of a journal."""
        return self.end.folder / "both" / name

    def create(self) -> None:
        """Gives both new journals."""
        shutil.rmtree(self.end.folder / "both", ignore_errors=True)
        for name in self.NAMES:
            self.folder(name).mkdir(mode=0o700, parents=True)
            self.end.more_environment = {"STATE_DIRECTORY": str(self.folder(name))}
            report(self.end.run_program("--create-journal", name).returncode == 0, f"no journal for {name}")

    def start(self, *names: str, **more: str) -> dict[str, str]:
        """Starts them at one time, and waits until each has ended or runs. Then all end. Returns what each has said."""
        logs = {name: self.end.folder / f"{name}.log" for name in names}
        processes = []
        for name, path in logs.items():
            path.unlink(missing_ok=True)
            environment = {**self.environment, "STATE_DIRECTORY": str(self.folder(name)), **more}
            processes.append(self.end.spawn(str(self.end.program), name, log=path.name, **environment))
        for process, path in zip(processes, logs.values()):
            until(lambda: process.poll() is not None or "protects" in path.read_text(), 60)
        for process in processes:
            process.kill()
            process.wait()
        return {name: path.read_text() for name, path in logs.items()}


def check_starts(world: World, starts: int, milliseconds: int) -> None:
    """Two devices with one key that start at one time never both run, and one of them does."""
    pair, run = Pair(world, milliseconds), []
    for _ in range(starts):
        pair.create()
        said = pair.start(*pair.NAMES)
        run.append([name for name, text in said.items() if "protects" in text])
        refused = [text for text in said.values() if "key 0 has packet numbers in" in text]
        report(len(run[-1]) == len(refused) == 1, f"two devices with one key start at one time: {said}")
    print(
        f"journals: {starts} starts of two devices with one key: {run.count([])} with none, "
        f"{sum(len(it) == 1 for it in run)} with one, {sum(len(it) == 2 for it in run)} with both",
        flush=True,
    )
    # Somebody keeps the lock of a folder, which only its owner can open or anybody can.
    pair.create()
    held = os.open(pair.folder("other1"), os.O_RDONLY)
    fcntl.flock(held, fcntl.LOCK_EX)
    for mode, runs, text in ((0o700, False, "for 30 seconds: another device"), (0o755, True, "chmod 700")):
        pair.folder("other1").chmod(mode)
        said = pair.start("macsec0", HURRY="1")["macsec0"]
        report(text in said and ("protects" in said) == runs, f"a locked folder of mode {mode:o}: {said}")
    os.close(held)


def check_journals(world: World, cuts: int) -> None:
    """File systems, keys, and journals that are cut."""
    a, b = world.ends
    check_disks(a)
    b.write_config()
    b.create_journal()
    b.start()
    check_keys(a, b, cuts)


def check_older(world: World) -> None:
    """An older copy of a journal, as a backup has it: packet numbers repeat, and nothing says so. New keys end that."""
    world.start()
    a, b = world.ends
    link = Packets(b.link_namespace, "link0")
    ping(a)
    a.stop()
    older = a.journal.read_bytes()
    a.start()
    report(ping_again(a) == 3, "older: no replies after a start")
    a.stop()
    a.journal.write_bytes(older)
    a.start()
    replies = ping(a, seconds=0.2)
    numbers = numbers_of(protected(link.frames(), a.sci))
    report(len(set(numbers)) < len(numbers) and replies == 0, f"older: docs/WHO.md: numbers do not repeat: {numbers}")
    world.keys = [secrets.token_hex(16), secrets.token_hex(16)]
    for end in world.ends:
        end.stop()
        end.write_config()
        end.start()
    report(ping_again(a) == 3, "older: no replies under new keys")
