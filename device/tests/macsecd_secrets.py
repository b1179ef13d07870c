"""Keys in the memory of macsecd, which is read from outside: after new keys, for which the old ones are retired, lines
that are all carried out, `close`, and when macsecd ends."""

from __future__ import annotations

import ctypes
import os
import secrets
import signal
from collections.abc import Iterable

from house.memory import MAIN_STACK, NOTHING, Region, hits, mappings, parts_of, places, regions
from house.reporting import Failed, report
from macsecd_world import LIBC, SALT, End, Packets, World, ping

SEIZE, DETACH, STOPS_AT_EXIT, AT_EXIT = 0x4206, 17, 0x40, signal.SIGTRAP | 6 << 8
PLAIN = bytes.fromhex("ffffffffffff02000000000988b5")
# Octets that may be unlocked: the stack of a thread that has no keys.
LEFT = 512 << 10
# Fewer parts of what was prepared from a key than this: it was not found. Up to FEW parts can be of something else that
# was near its row; of a key that stays, more than a hundred are found.
FEWEST, FEW = 50, 3


class Secrets:
    """The keys that a macsecd has had, and parts of what was prepared from them."""

    def __init__(self, end: End) -> None:
        self.end, self.number = end, end.pid
        self.parts: dict[bytes, dict[bytes, int]] = {}
        # The keys beside which each part was found. What is beside two of them is prepared from neither.
        self.beside: dict[bytes, set[bytes]] = {}

    def note(self, *keys: str) -> None:
        """Notes keys that the endpoint has. Each must be found, in locked memory and not on the stack."""
        memory = regions(self.number)
        for key in map(bytes.fromhex, keys):
            self.parts[key] = parts_of(memory, key)
            for part in self.parts[key]:
                self.beside.setdefault(part, set()).add(key)
            report(len(self.parts[key]) >= FEWEST, f"a key is not found, or only {len(self.parts[key])} parts")
            for it in memory:
                found = hits([it], key)
                is_guarded = "lo" in it.flags and it.place != MAIN_STACK
                report(found == NOTHING or is_guarded, f"{sorted(it.flags)}: {found}: {places([it], key, {})}")

    def add(self, *keys: str) -> None:
        """Notes keys without their parts."""
        for key in map(bytes.fromhex, keys):
            self.parts.setdefault(key, {})

    def judge(self, what: str, living: Iterable[str] = (), memory: list[Region] | None = None) -> None:
        """Nothing of a key may be in the memory, except of the keys in use, which must be there."""
        memory = regions(self.number) if memory is None else memory
        lives = set(map(bytes.fromhex, living))
        for number, (key, parts) in enumerate(self.parts.items()):
            own = {it: at for it, at in parts.items() if len(self.beside[it]) == 1}
            found = hits(memory, key, own)
            if key in lives:
                report(found.octets > 0 and found.digits == 0, f"{what}: living key {number}: {found}")
            else:
                is_gone = found.octets == found.digits == 0 and found.parts <= FEW
                where = "" if is_gone else places(memory, key, own)
                report(is_gone, f"{what}: key {number} of {len(self.parts)}: {found}: {where}")


def check_locked(end: End) -> None:
    """The memory is locked, except the stack of the thread that writes the journal."""
    free = [it for it in mappings(end.pid) if "lo" not in it.flags]
    size = sum(it.last - it.first for it in free)
    report(size <= LEFT, f"{size} octets in {[it.place for it in free]} are not locked")
    report("may be swapped" not in end.log(), f"a message about locked memory: {end.log()}")


def memory_at_exit(end: End, number: int = signal.SIGTERM) -> list[Region]:
    """Ends macsecd by a signal. Returns its memory when all its code has run."""
    pid = end.pid
    if LIBC.ptrace(SEIZE, pid, None, ctypes.c_void_p(STOPS_AT_EXIT)):
        raise Failed(f"ptrace: {os.strerror(ctypes.get_errno())}")
    os.kill(pid, number)
    _, status = os.waitpid(pid, 0)
    if status >> 8 != AT_EXIT:
        raise Failed(f"macsecd stops otherwise than at its end: {status:x}")
    memory = regions(pid)
    LIBC.ptrace(DETACH, pid, None, None)
    report(end.ended() == 0, f"macsecd does not end well: {end.log()}")
    end.process = None
    return memory


def key_line(end: End, number: int, key: str) -> str:
    """The line of a key for each suite."""
    return f"A key {number} {key} 0 0000000{end.number} {SALT}"


def change_keys(world: World, phase: int, octets: int) -> tuple[str, str]:
    """New keys for both directions, and a frame under each. Returns those of the first end: its own, and the other."""
    an, old, key = phase % 4, (phase - 1) % 4, 2 * phase
    keys = secrets.token_hex(octets), secrets.token_hex(octets)
    for end in world.ends:
        peer = end.peer
        end.carry_out(key_line(end, key, keys[end.number - 1]), key_line(end, key + 1, keys[peer.number - 1]))
        end.carry_out(f"A rxsa {peer.sci} {an} {key + 1} 1 0000000{peer.number}", f"A rxon {peer.sci} {an}")
    for end in world.ends:
        end.carry_out(f"A txsa {an} {key} 1 conf", f"A txon {an}")
    report(ping(world.ends[0], 1) == 1, f"no reply under keys {phase}")
    for end in world.ends:
        peer = end.peer
        end.carry_out(f"A txdel {old}", f"A rxdel {peer.sci} {old}", f"A retire {key - 2}", f"A retire {key - 1}")
    return keys


def check_loads(a: End, known: Secrets, octets: int, living: list[str]) -> None:
    """Lines that are all carried out, or none is: of a key that is refused or retired, nothing is there."""
    kept, refused, passed = ([secrets.token_hex(octets) for _ in range(2)] for _ in range(3))
    a.ask("load\n" + "\n".join(key_line(a, 3000 + number, key) for number, key in enumerate(kept)))
    known.note(*kept)
    counts: set[int] = set()
    for _ in range(10):
        a.carry_out("A protect on")  # it frees the copies of workers, which frames of the system may have needed
        memory = regions(known.number)
        counts = {hits(memory, bytes.fromhex(key)).octets for key in (*kept, *living)}
        if len(counts) == 1:
            break
    report(len(counts) == 1, f"a copy of the endpoint leaves keys, which are there {counts} times")
    lines = [*(key_line(a, 3002 + number, key) for number, key in enumerate(refused)), "A retire 4095"]
    answer = a.ask("load\n" + "\n".join(lines))
    report("refused" in answer, f"a wrong line of `load`: {answer}")
    known.add(*refused)
    known.judge("a refused `load`", [*living, *kept])
    for number, key in enumerate(passed):
        answer = a.ask(f"load\n{key_line(a, 4000 + number, key)}\nA retire {4000 + number}")
        report(answer == "1 ok\n2 ok\n", f"a key that is installed and retired: {answer}")
    known.add(*passed)
    known.judge("after `load`", [*living, *kept])


def check_secrets(world: World, suite: str, changes: int) -> None:
    """The life of keys in a macsecd."""
    octets = 16 if suite.endswith("128") else 32
    world.start(suite)
    a = world.ends[0]
    check_locked(a)
    known = Secrets(a)
    first = [it * (octets // 16) for it in world.keys]
    known.note(*first)
    report(ping(a) == 3, "no replies")
    known.judge("after frames", first)
    last = secrets.token_hex(octets)
    answer = a.ask(f"A key 4094 {last} 30 0000000{a.number} {SALT}")
    report(answer == "fault NotAllowed\n", f"an offset: {answer}")
    known.add(last)
    known.judge("after a refused key", first)
    for phase in range(1, changes + 1):
        living = change_keys(world, phase, octets)
        known.add(*living)
    known.note(*living)
    known.judge("after new keys", living)
    check_loads(a, known, octets, list(living))
    report(ping(a) == 3, "no replies after `load`")
    check_locked(a)
    a.ask("close")
    known.judge("after close")
    check_end(a, known, suite, octets)


def check_end(a: End, known: Secrets, suite: str, octets: int) -> None:
    """An endpoint that a client has opened, and the end of macsecd."""
    client = Packets(a.namespace, "macsec0")
    key = secrets.token_hex(octets)
    a.carry_out(f"open {a.sci} {suite}", key_line(a, 0, key), "A txsa 0 0 1 conf", "A txon 0", "port on")
    client.send(PLAIN + bytes(100))
    known.note(key)
    known.judge("after open", [key])
    known.judge("at the end", memory=memory_at_exit(a))


def check_end_of_config(world: World) -> None:
    """The end of a macsecd that has its keys from NAME.conf."""
    world.start()
    a = world.ends[0]
    known = Secrets(a)
    known.note(*world.keys)
    known.judge("at the end", memory=memory_at_exit(a))
