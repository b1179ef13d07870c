"""Files that macsecd needs, and those that it makes; its standard error."""

from __future__ import annotations

import contextlib
import grp
import os
import re
import secrets
import socket
import stat
import subprocess
import termios
import time

from house.reporting import report, until
from macsecd_world import End, World, connected, expect, ping, ping_again

# Lines for the device, and with which status and message macsecd ends.
WRONG_DEVICES = (
    ("device link nolink0\n", 1, "LINK nolink0: No such device"),
    ("device link averyveryverylongname0\n", 2, "line 1: no network device can have this name"),
    ("device link link0\ndevice tap averyveryverylongname0\n", 2, "line 2: no network device"),
    ("device link link0\ndevice tab macsec0\n", 2, "line 2: the word after `device`"),
    ("device link link0\ndevice journal 0123456789ABCDEF\n", 2, "line 2: the name of a journal has 16 digits"),
    ("device link link0\ndevice group nosuchgroup\n", 2, "line 2: there is no such group"),
    ("device link link0\ndevice user nosuchuser\n", 2, "line 2: there is no such user"),
    ("device link link0\ndevice receive behind\n", 2, "line 2: `device receive behind` is gone: what is received is"),
    ("device link lo\n", 2, "LINK lo is not an Ethernet device"),
    ("# none\n", 2, "no line `device link NAME`"),
)


def check_wrong_files(a: End) -> None:
    """What macsecd does not start with: configurations, journals and arguments."""
    expect(a, "no configuration", 1, "macsec0.conf: No such file")
    a.write_config()
    expect(a, "no journal", 2, "--create-journal")
    a.create_journal()
    line = f"device journal {a.journal.read_bytes()[16:24].hex()}\n"
    again = a.run_program("--create-journal", "macsec0")
    report((again.returncode, again.stdout) == (1, line), f"a journal that is there: {again}, and not {line}")
    a.config.chmod(0o644)
    expect(a, "a configuration of mode 0644", 2, "chmod 600")
    a.config.chmod(0o600)
    os.chown(a.config, 65534, 65534)
    expect(a, "a configuration of another user", 2, "belongs to another user")
    os.chown(a.config, 0, 0)
    for device, status, text in WRONG_DEVICES:
        a.write_config(device=device)
        expect(a, device.strip(), status, text)
    a.write_config(device=f"device link link0\ndevice journal {'0' * 16}\n")
    text = f"is {line[-17:-1]}, and not {'0' * 16}: put the journal of this host there, or install new keys"
    expect(a, "another journal", 2, text)
    report(text in a.run_program("--check", "macsec0").stdout, "--check does not say that it is another journal")
    a.write_config(device="device link link0\n" + line, more="A txon 3\n")
    expect(a, "a refused line", 2, "line 11: NoSa")
    a.write_config(more="A txonn 0\n")
    expect(a, "a wrong line", 2, "line 10: Word")
    a.write_config()
    journal = a.journal
    octets = journal.read_bytes()
    journal.write_bytes(bytes(64))
    expect(a, "a file that is no journal", 2, "journal")
    journal.write_bytes(octets)
    report(a.run_program("a/b").returncode == 2 and a.run_program().returncode == 2, "wrong arguments are taken")


def check_used_keys(a: End) -> None:
    """A start that reserves the last packet numbers of a key leaves none to the next one, which says what to do."""
    a.config.write_text(a.config.read_text().replace("A txsa 0 0 1 conf", "A txsa 0 0 ffffff00 conf"))
    a.start()
    a.stop()
    expect(a, "a used key", 2, "line 5: PnFloor: the key has no packet number left: install a new one at both ends\n")
    a.world.keys = [secrets.token_hex(16), secrets.token_hex(16)]
    a.write_config()


def check_socket_and_tap(a: End) -> None:
    """What macsecd makes, and what stays when it has ended."""
    a.start()
    expect(a, "a second one of this name", 1, "lock")
    mode = os.stat(a.socket).st_mode
    report(stat.S_IMODE(mode) == 0o600, f"the control socket has the mode {mode:o}")
    a.stop()
    report("macsec0" not in a.ip("-br", "link"), "TAP is there after macsecd has ended")
    a.write_config(device="device link link0\ndevice group nogroup\ndevice persist\n")
    a.start()
    about = os.stat(a.socket)
    group = grp.getgrnam("nogroup").gr_gid
    report((stat.S_IMODE(about.st_mode), about.st_gid) == (0o660, group), f"the control socket: {about}")
    a.stop()
    report("10.9.0.1/24" in a.ip("-br", "addr", "show", "macsec0"), "`device persist`: TAP has lost its address")


# What standard error can be, and what macsecd is started by. Without this right a pipe of mode 0 can't be opened again.
STANDARD_ERRORS = (
    ("a pipe", []),
    ("a pipe of another user", ["setpriv", "--bounding-set=-dac_override"]),
    ("a socket", []),
    ("a terminal", []),
    ("a stopped terminal", []),
)


def fill(writer: int) -> int:
    """Writes as much as is taken at once. Returns how many octets."""
    count = 0
    with contextlib.suppress(BlockingIOError):
        while True:
            count += os.write(writer, b"x")
    return count


def full(kind: str) -> tuple[int, int]:
    """A standard error that takes no octet: the descriptor to read, and the one to write."""
    if kind == "a socket":
        pair = socket.socketpair()
        pair[1].setblocking(False)
        fill(pair[1].fileno())
        pair[1].setblocking(True)
        return pair[0].detach(), pair[1].detach()
    reader, writer = os.pipe() if "pipe" in kind else os.openpty()
    if "stopped" in kind:
        termios.tcflow(writer, termios.TCOOFF)
    other = os.open(f"/proc/self/fd/{writer}", os.O_WRONLY | os.O_NONBLOCK)
    fill(other)
    # Linux moves what a terminal has to its reader later, on a busy machine much later, and then it takes more.
    while "terminal" in kind and any([time.sleep(0.02) or fill(other) for _ in range(5)]):
        pass
    os.close(other)
    if "user" in kind:
        os.fchmod(writer, 0)
    return reader, writer


def said(reader: int) -> str:
    """What can be read now."""
    got = b""
    os.set_blocking(reader, False)
    with contextlib.suppress(BlockingIOError):
        while True:
            got += os.read(reader, 1 << 16)
    return got.decode().lstrip("x")


def let_go_owner(a: End) -> None:
    """Has macsecd say something."""
    with connected(a.socket, 5) as owner:
        owner.send(b"own")
        owner.recv(100)
    until(lambda: a.ask("port on") == "ok\n")


def check_closed(a: End) -> None:
    """Standard streams that are closed: no device gets one of their numbers, to which messages would go."""
    words = [*a.enter, "sh", "-c", 'exec "$@" <&- >&- 2>&-', "sh", str(a.program), "macsec0"]
    a.process = subprocess.Popen(words, env=a.environment)
    until(a.answers, 15)
    found = [os.readlink(f"/proc/{a.pid}/fd/{it}") for it in range(3)]
    report(found == ["/dev/null"] * 3, f"in place of closed streams macsecd has {found}")
    a.stop()


def check_standard_errors(a: End) -> None:
    """A standard error that nobody reads stops no frame, and later lines say how many are missing."""
    for kind, prefix in STANDARD_ERRORS:
        reader, writer = full(kind)
        words = [*a.enter, *prefix, str(a.program), "macsec0"]
        a.process = subprocess.Popen(words, stdin=subprocess.DEVNULL, stderr=writer, env=a.environment)
        try:
            if not until(a.answers, 15):
                report(False, f"{kind} that is full: macsecd does not start")
                continue
            a.start_addresses()
            let_go_owner(a)
            sent = a.counters()["device LinkOut"]
            ping(a, 1, seconds=0.01)
            report(until(lambda: a.counters()["device LinkOut"] > sent), f"{kind} that is full: no frame is sent")
            if "stopped" in kind:
                termios.tcflow(writer, termios.TCOON)
            # Another message may come while this is read.
            text = said(reader)
            let_go_owner(a)
            text += said(reader)
            missing = re.search(r"macsecd macsec0: lines missing here, which .*: (\d+)\r?\nmacsecd macsec0: ", text)
            holds = missing is not None and int(missing[1]) > 3 and "the owner has gone" in text[missing.end() :]
            report(holds, f"{kind} that is read again: {text[-1000:]}")
        finally:
            a.stop()
            os.close(reader)
            os.close(writer)


def check_files(world: World) -> None:
    """What macsecd needs to start, and that it goes on with a TAP that stays."""
    a, b = world.ends
    check_wrong_files(a)
    check_used_keys(a)
    check_socket_and_tap(a)
    a.start()
    b.write_config()
    b.create_journal()
    b.start()
    report(ping_again(a) == 3, "`device persist`: no replies after a restart")
    a.stop()
    check_standard_errors(a)
    check_closed(a)
