"""The files of two ends that protect a link between them, with random keys."""

from __future__ import annotations

import os
import pathlib
import re
import secrets
from typing import NamedTuple

from .errors import UsageError
from .iproute import address_of, commands_of
from .names import Suite
from .plan import Plan, PlannedKey, PlannedSa

# The port of both ends' SCIs. Linux has this one unless another is given.
PORT = 1

_END = re.compile(r"(?P<name>[A-Za-z0-9][A-Za-z0-9._-]*)=(?P<address>[0-9A-Fa-f:-]+)(?:@(?P<link>[^\s/@]{1,15}))?")

_FILE = """\
# {name}, whose peer is {peer}: for macsecd, as /etc/macsec/{device}.conf, owned by root, mode 0600.
# The keys were made for these two files. Never use them elsewhere, nor with a journal that was lost or restored.
"""
_COMMANDS = """\
# {name}, whose peer is {peer}: the macsec device of Linux, made by `ip -batch {name}.batch`. Run that once: \
run again, or
# after a restart of this host, it would use packet numbers again under the same key, which breaks AES-GCM. Make a new
# pair then.
"""


class End(NamedTuple):
    """An end: its name, the address of its link, and the link."""

    name: str
    address: bytes
    link: str

    @property
    def sci(self) -> bytes:
        return self.address + PORT.to_bytes(2, "big")


def end_of(text: str) -> End:
    """The end that an argument NAME=MAC or NAME=MAC@LINK describes."""
    found = _END.fullmatch(text)
    if not found:
        raise UsageError(f"--pair {text}: NAME=MAC or NAME=MAC@LINK expected")
    try:
        address = address_of(found["address"])
    except ValueError:
        raise UsageError(f"--pair {text}: {found['address']} is no MAC address") from None
    if address[0] & 1:
        raise UsageError(f"--pair {text}: {found['address']} is the address of a group")
    return End(found["name"], address, found["link"] or "eth0")


def plan_of_pair(one: End, other: End, suite: Suite = Suite.gcm128, mtu: int = 1500) -> Plan:
    """The first of two ends. It has a random key for each direction, and encrypts."""
    if one.name == other.name or one.address == other.address:
        raise UsageError("--pair: the two ends need different names and addresses")
    salt = secrets.token_bytes(12) if suite.is_extended else bytes(12)
    own, peer = (1, 2) if suite.is_extended else (0, 0)
    keys = [PlannedKey(secrets.token_bytes(suite.key_octets), salt=salt, ssci=own) for _ in range(2)]
    plan = Plan(one.sci, suite, "sci", mtu + 14, encrypt=True, keys=keys, encoding=0)
    plan.tx[0] = PlannedSa(0, ssci=own)
    plan.rx[other.sci] = {0: PlannedSa(1, ssci=peer)}
    return plan


def file_of(plan: Plan, end: End, peer: End, device: str) -> str:
    """The configuration of macsecd for an end."""
    head = _FILE.format(name=end.name, peer=peer.name, device=device)
    return f"{head}device link {end.link}\n{plan.text()}"


def lines_of(plan: Plan, end: End, peer: End, device: str) -> str:
    """The lines for `ip -batch` for an end."""
    lines = "\n".join(commands_of(plan, end.link, device))
    return f"{_COMMANDS.format(name=end.name, peer=peer.name)}{lines}\n"


def write_new(path: pathlib.Path, text: str) -> None:
    """Writes a file that was not there, and that no one else may read from its first octet on."""
    with os.fdopen(os.open(path, os.O_WRONLY | os.O_CREAT | os.O_EXCL | os.O_NOFOLLOW, 0o600), "w") as file:
        os.fchmod(file.fileno(), 0o600)
        file.write(text)


def write_pair(
    ends: tuple[End, End], suite: Suite, mtu: int, device: str, by_ip: str | None, folder: pathlib.Path
) -> list[pathlib.Path]:
    """Writes the files of both ends into a folder: NAME.conf for macsecd, or NAME.batch for `ip -batch`."""
    if by_ip is not None and by_ip not in (it.name for it in ends):
        raise UsageError(f"--ip-end {by_ip}: the ends are {ends[0].name} and {ends[1].name}")
    plan = plan_of_pair(*ends, suite, mtu)
    made = []
    for own, peer, planned in ((ends[0], ends[1], plan), (ends[1], ends[0], plan.peer())):
        if own.name == by_ip:
            made.append((folder / f"{own.name}.batch", lines_of(planned, own, peer, device)))
        else:
            made.append((folder / f"{own.name}.conf", file_of(planned, own, peer, device)))
    for path, _ in made:
        if path.exists() or path.is_symlink():
            raise UsageError(f"--pair: {path} is there already")
    for path, text in made:
        write_new(path, text)
    return [path for path, _ in made]
