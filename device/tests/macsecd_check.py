"""`macsecd --check`: each planted fault and slip of a configuration is reported with its line, and nothing else is."""

from __future__ import annotations

import os
import pathlib
import random
import re

from house.reporting import report
from macsecd_workers import MOST, fitting
from macsecd_world import SALT, End, World, expect

# What is said of as many workers as there can be, on a host with fewer processors.
TOO_MANY = [f"line 2: hint: there are too few processors for so many workers, so frames wait for them: write at most {it}"
            for it in [fitting()] if it < MOST]  # fmt: skip

# What is planted: lines of the configuration by their numbers (10: after the last one of the endpoint), and what has to
# be reported: the beginning of each finding, in their order. "hint: " is no fault, so macsecd starts with it.
PLANTED: list[tuple[dict[int, str], list[str]]] = [
    ({}, []),
    ({1: "device link nolink0"}, ["line 1: hint: there is no network device nolink0"]),
    ({1: "device link lo"}, ["line 1: LINK lo is not an Ethernet device"]),
    ({1: "device link averyveryverylongname0"}, ["line 1: no network device can have this name", "the file: there is no"]),
    ({1: "device link link0\ndevice tab x"}, ["line 2: the word after `device` is not link"]),
    ({1: "device link link0\ndevice user nosuchuser"}, ["line 2: there is no such user"]),
    ({1: "device link link0\ndevice user root"}, []),
    ({1: "device link link0\ndevice user nobody"}, ["line 2: hint: while macsecd does not run, this user can read"]),
    ({1: "device link link0\ndevice workers 9"}, ["line 2: the number of workers is not 0 to 8"]),
    ({1: f"device link link0\ndevice workers {fitting()}"}, []),
    ({1: "device link link0\ndevice receive late"}, ["line 2: the word after `device receive` is not ahead"]),
    ({1: "device link link0\ndevice receive ahead"}, []),
    ({10: "device receive behind"},
     ["line 10: `device receive behind` is gone: what is received is reserved ahead, so that no frame is delivered twice"]),
    ({1: f"device link link0\ndevice workers {MOST}"}, TOO_MANY),
    ({1: "# none"}, ["the file: there is no line `device link NAME`"]),
    ({1: "\ufeffdevice link link0"}, ["line 1: the file begins with a byte order mark (EF BB BF); save it without one"]),
    ({1: "\ufeff# a comment\ndevice link link0\0evil"},
     ["line 1: the file begins with a byte", "line 2: the line has a zero octet; save the file", "the file: there is no line"]),
    ({1: "device link link0\n# a comment\0"}, ["line 2: the line has a zero octet; save the file as plain text"]),
    ({9: "A rxon 0200000000020001 0\0"},
     ["line 8: hint: this association is never enabled", "line 9: the line has a zero octet; save the file"]),
    ({10: "device isolate"}, ["the file: `device shared` and `device isolate` exclude each other"]),
    ({2: "end A gcm12 0200000000010001 1514 sci"}, ["line 2: a keyword is unknown, or"]),
    ({2: "# none"}, ["line 3: the line is in a wrong place"]),
    ({2: "end A gcm128 020000000001 1514 sci", 6: "A txonn 0", 9: "B rxon"},
     ["line 2: a word is not hex", "line 5: hint: no transmit association is enabled", "line 6: a keyword is unknown",
      "line 8: hint: this association is never enabled", "line 9: too few words or too many"]),
    ({3: "A key 0 00 0"}, ["line 3: a word is not hex, or not of as many digits as it must have; expected: A key N KEY",
                           "line 5: refused: there is no such key", "line 6: refused: there is no such association"]),
    ({6: "A txdel 4", 9: "A rxon 0200000000020001 0 # AN 0"},
     ["line 5: hint: no transmit association is enabled, so no frame is sent: A txon 0",
      "line 6: a word is not a decimal number in its range; expected: A txdel AN",
      "line 8: hint: this association is never enabled, so it receives nothing: A rxon 0200000000020001 0",
      "line 9: too few words or too many; expected: A rxon SCI AN"]),
    ({4: f"A key 1 {'a5' * 32} 0", 8: "# none", 9: "# none"},
     ["line 4: refused: the key has another length than its suite's keys; gcm128 and xpn128 need 32 digits"]),
    ({10: "A rxsc 0200000000010001\nA rxon 0200000000030001 0\nA txon 3\nA txsa 0 0 1 conf"},
     ["line 10: refused: the SCI is the endpoint's own; write the peer's", "line 11: refused: there is no such",
      "line 12: refused: there is no such association", "line 13: refused: an association uses the key; name another key"]),
    ({2: "end A gcm128 0200000000990001 1514 sci"},
     ["line 2: hint: the SCI is not that of LINK link0, so another host may have it: write 0200000000010001"]),
    ({2: "end A gcm128 0200000000010001 1600 sci"},
     ["line 2: hint: MAX does not fit the MTU 1500 of LINK link0: TAP's MTU is 1468; write 1514"]),
    ({2: "end A gcm128 0200000000010001 1000 sci"},
     ["line 2: hint: MAX does not fit the MTU 1500 of LINK link0: TAP's MTU is 954; write 1514"]),
    ({7: "A rxsc 0200000000010002", 8: "A rxsa 0200000000010002 0 1 1", 9: "A rxon 0200000000010002 0"},
     ["line 7: hint: the peer's SCI has the address of this host's LINK link0"]),
    ({8: "A rxsa 0200000000020001 0 0 1"},
     ["line 3: hint: key 0 is for both directions", "line 4: hint: no association uses key 1"]),
    ({5: "A txsa 0 0 100 int"}, ["line 5: hint: packet numbers are hex: decimal 100 is 64",
                                "line 5: hint: int does not encrypt"]),
    ({10: f"A key 2 {'5a' * 16} 30 00000001 {SALT}\nA txsa 1 2 1 conf"},
     ["line 10: hint: the first 30 octets of each frame stay readable under this key"]),
    ({10: "A replay on 100"}, ["line 10: hint: frames that were recorded within this window can be delivered again: write "
                               "0. No `device allow` lets requests say the same"]),
    ({10: "A replay on 100\ndevice allow replay 100"}, ["line 10: hint: frames that were recorded within this window"]),
    ({10: "A replay off 0\nA validate check\nA protect off"},
     ["line 10: hint: recorded frames are delivered again", "line 11: hint: forged and unprotected frames reach TAP",
      "line 12: hint: frames are sent in clear"]),
]  # fmt: skip


def run(end: End, name: str = "macsec0") -> tuple[int, list[str]]:
    """The status and the findings. The last line has their numbers."""
    ended = end.run_program("--check", name)
    *found, last = ended.stdout.splitlines() or [""]
    hints = sum(": hint: " in it for it in found)
    faults = len(found) - hints
    numbers = re.search(r": (\d+) faults?(?:, so macsecd does not start)?, (\d+) hints?$", last)
    report(numbers is not None and [*map(int, numbers.groups())] == [faults, hints], f"--check counts wrong: {last}")
    return ended.returncode, found


def plant(end: End, lines: dict[int, str]) -> None:
    """Writes a configuration with these lines."""
    end.write_config()
    text = end.config.read_text().splitlines()
    after = [lines[10]] if 10 in lines else []
    text = [lines.get(number, line) for number, line in enumerate(text[:9], 1)] + after + text[9:]
    end.config.write_text("\n".join(text) + "\n")


def state_of(folder: pathlib.Path) -> list[tuple[str, int, int, bytes]]:
    """The files of a folder, when they were changed, their modes, and what is in them."""
    return [
        (str(it), about.st_mtime_ns, about.st_mode, it.read_bytes() if it.is_file() else b"")
        for it in sorted(folder.rglob("*"))
        for about in [it.lstat()]
    ]


def check_planted(end: End) -> None:
    """Each planted fault and slip. What it calls a fault keeps macsecd from starting."""
    for lines, wanted in PLANTED:
        plant(end, lines)
        before, devices = state_of(end.folder), end.ip("-br", "link")
        status, found = run(end)
        good = len(found) == len(wanted) and all(it.startswith(start) for it, start in zip(found, wanted))
        report(good, f"--check of {lines}: {found}, and not {wanted}")
        faults = [it for it in wanted if ": hint: " not in it]
        report(status == (2 if faults else 0), f"--check of {lines}: status {status}")
        same = state_of(end.folder) == before and end.ip("-br", "link") == devices
        report(same, f"--check of {lines} changed something")
        shown = [it for it in (*end.world.keys, "5a" * 16, "a5" * 16) if any(it[:8] in line for line in found)]
        report(not shown, f"--check of {lines} shows a key")
        if faults:
            where = re.match(r"line \d+", faults[0])
            # Before it reads the lines for the endpoint, macsecd looks at LINK.
            expect(end, f"{lines}", 2, where[0] if where and "LINK" not in faults[0] else "")


def check_journal(end: End, text: str) -> None:
    """With its journal macsecd does not start, and --check says why."""
    status, found = run(end)
    report(status == 2 and text in found[0], f"a journal that {text}: {found}")
    expect(end, f"a journal that {text}", 2, text)


def check_octets(end: End, journal: pathlib.Path) -> None:
    """Journals with which macsecd does not start."""
    octets = journal.read_bytes()
    for text, each in (
        ("is none", octets[:63]),
        ("is none", b"\0" + octets[1:]),
        ("is too long", octets + bytes(1 << 22)),
        ("is damaged", octets[:127]),
        ("is damaged", octets[:64] + bytes(512)),
    ):
        journal.write_bytes(each)
        check_journal(end, text)
    journal.write_bytes(octets + bytes(512) + random.randbytes(5000))
    report(run(end) == (0, []), f"a journal of which a crash has torn the last records: {run(end)}")
    journal.write_bytes(octets)
    other = journal.with_suffix(".other")
    os.link(journal, other)
    check_journal(end, "has another name too")
    other.unlink()
    for mode, owner, text in (
        (0o604, 0, "can be read or written by others"),
        (0o620, 0, "can be read or written by others"),
        (0o600, 65534, "belongs to another user than its folder"),
    ):
        journal.chmod(mode)
        os.chown(journal, owner, owner)
        check_journal(end, text)
    journal.chmod(0o600)
    os.chown(journal, 0, 0)


def check_surroundings(end: End) -> None:
    """The file itself, its path, and the journal."""
    journal = end.journal
    end.write_config()
    report(run(end) == (0, []), "--check has found something in a good configuration")
    report(run(end, str(end.config)) == (0, []), "--check of a path has found something in a good configuration")
    os.chown(journal.parent, 65534, 65534)
    status, found = run(end)
    report(status == 2 and "so macsecd can't write it" in found[0], f"a journal of root in another's folder: {found}")
    os.chown(journal.parent, 0, 0)
    check_octets(end, journal)
    journal.rename(journal.with_suffix(".away"))
    status, found = run(end)
    report(status == 2 and "--create-journal macsec0" in found[0], f"no journal: {found}")
    report(run(end, str(end.config)) == (0, []), "--check of a path looks at the journal")
    journal.with_suffix(".away").rename(journal)
    end.config.chmod(0o644)
    end.config.write_text(end.config.read_text() + "A txonn 0\n")
    status, found = run(end)
    holds = status == 2 and len(found) == 2 and "chmod 600" in found[0] and "a keyword is unknown" in found[1]
    report(holds, f"mode 0644, and a wrong line: {found}")
    end.config.chmod(0o600)
    ended = end.run_program("--check", "nothing0")
    report(ended.returncode == 1 and "nothing0.conf: No such file" in ended.stderr, f"--check of no file: {ended}")


def check_isolated(end: End) -> None:
    """An isolated LINK is in another namespace, and has TAP's address. Here TAP is an end of another link."""
    end.write_config()
    end.config.write_text(end.config.read_text().replace("device shared\ndevice transient\n", ""))
    end.ip("link", "set", "link0", "name", "other0")
    status, found = run(end)
    report(status == 0 and [it[:35] for it in found] == ["line 1: hint: there is no network d"], f"no LINK: {found}")
    for address, wanted in (("02:00:00:00:00:99", ["line 2: hint: the SCI is not that o"]), ("02:00:00:00:00:01", [])):
        end.ip("link", "add", "macsec0", "address", address, "type", "veth", "peer", "name", "other1")
        status, found = run(end)
        report(status == 0 and [it[:35] for it in found] == wanted, f"an isolated LINK, TAP {address}: {found}")
        end.ip("link", "del", "macsec0")
    end.ip("link", "set", "other0", "name", "link0")


def check_check(world: World) -> None:
    """All of it."""
    end = world.ends[0]
    end.write_config()
    end.create_journal()
    end.workers = None
    end.ip("link", "set", "link0", "address", "02:00:00:00:00:01")
    check_planted(end)
    check_surroundings(end)
    check_isolated(end)
