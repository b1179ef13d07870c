"""`ip macsec` of iproute2: commands into an endpoint and back, and the output of `ip -j macsec show`."""

from __future__ import annotations

import json
import re
import shlex
from collections.abc import Sequence
from typing import Any

from .errors import UsageError, without_keys
from .names import SUITES, Suite
from .plan import Plan, PlannedSa
from .trial import KeyArgument

CIPHERS = {"default": Suite.gcm128, **{it.in_ip: it for it in SUITES}}
_NAMES = {it: it.in_ip for it in SUITES}
# What a text of others can raise that is not as it should be. RecursionError: JSON that is nested too deeply.
_FAULTS = (ValueError, LookupError, TypeError, AttributeError, OverflowError, RecursionError)
# No command of `ip` has more characters. The time that shlex takes for a word grows with the square of its length.
_LONGEST = 4096
# The most octets of a device's name in Linux.
_NAME = 15
# The options of `type macsec` that have a value.
_OPTIONS = (
    "address port sci cipher icvlen encrypt send_sci end_station scb protect replay window validate encodingsa offload"
).split()


def address_of(text: str) -> bytes:
    """The octets of a MAC address."""
    octets = bytes.fromhex(text.replace(":", "").replace("-", ""))
    if len(octets) != 6:
        raise ValueError(text)
    return octets


def _commands(text: str) -> list[tuple[int, list[str]]]:
    """The words of each `ip` command after `ip` and its options, with its line."""
    found = []
    joined = re.sub(r"\\\n", lambda _: "\x00", text)
    line = 1
    for part in joined.split("\n"):
        for each in re.split(r";|&&|\|\|", part.replace("\x00", " ")):
            try:
                words = shlex.split(each, comments=True) if len(each) <= _LONGEST else []
            except ValueError:
                words = []
            while words[:1] and words[0] != "ip" and words[0] in ("sudo", "doas"):
                words.pop(0)
            if words[:1] in (["link"], ["macsec"]):  # a line for ip -batch
                found.append((line, words))
            if words[:1] == ["ip"]:
                words.pop(0)
                while words and words[0].startswith("-"):
                    words = words[2:] if words[0] in ("-n", "-netns") else words[1:]
                found.append((line, words))
        line += 1 + part.count("\x00")
    return found


class _Device:
    """A device of type macsec, as commands have it."""

    def __init__(self, below: str, address: bytes | None) -> None:
        self.below, self.address = below, address
        self.options: dict[str, str] = {}
        self.tx: dict[int, dict[str, str]] = {}
        self.rx: dict[bytes, dict[int, dict[str, str]]] = {}
        self.rx_off: set[bytes] = set()


def _options_of(words: Sequence[str]) -> dict[str, str]:
    found, rest = {}, list(words)
    while rest:
        name = rest.pop(0)
        if name not in _OPTIONS or not rest:
            raise ValueError(f"{name!r} is no option of a macsec device")
        found[name] = rest.pop(0)
    return found


def _sa_of(words: Sequence[str]) -> dict[str, str]:
    """The options of an association."""
    found, rest = {}, list(words)
    while rest:
        name = rest.pop(0)
        if name in ("on", "off"):
            found["state"] = name
        elif name == "key":
            found["id"], found["key"] = rest.pop(0), rest.pop(0)
        elif name in ("pn", "xpn", "salt", "ssci"):
            found[name] = rest.pop(0)
        else:
            raise ValueError(f"{name!r} is no option of an association")
    return found


def _channel_of(words: list[str]) -> tuple[bytes, list[str]]:
    """The SCI at the beginning of some words, and the words after it."""
    named: dict[str, str] = {}
    rest = list(words)
    while rest[:1] and rest[0] in ("sci", "port", "address"):
        named[rest[0]] = rest[1]
        rest = rest[2:]
    if "sci" in named:
        return int(named["sci"], 16).to_bytes(8, "big"), rest
    return address_of(named["address"]) + int(named["port"], 0).to_bytes(2, "big"), rest


def _new_link(words: Sequence[str]) -> tuple[str, bytes | None, str]:
    """The device below, the address and the name of a new device."""
    below, address, name, rest = "", None, "", list(words)
    while rest:
        word = rest.pop(0)
        if word == "link":
            below = rest.pop(0)
        elif word == "address":
            address = address_of(rest.pop(0))
        elif word in ("name", "dev"):
            name = rest.pop(0)
        elif word in ("mtu", "txqueuelen", "numtxqueues", "numrxqueues"):
            rest.pop(0)
        else:
            name = word
    if len(below) > _NAME or len(name) > _NAME:  # a key can stand there by mistake, and messages show names
        raise ValueError(f"the name of a device has at most {_NAME} octets")
    return below, address, name


class Devices:
    """The macsec devices that commands make."""

    def __init__(self, text: str, addresses: dict[str, bytes]) -> None:
        self._addresses = addresses
        self.devices: dict[str, _Device] = {}
        for line, words in _commands(text):
            try:
                if words[:1] in (["link"], ["l"]):
                    self._link(words[1:])
                elif words[:1] == ["macsec"]:
                    self._macsec(words[1:])
            except _FAULTS as why:
                told = without_keys(f"{' '.join(words)[:60]}: {why or 'a word is missing'}")
                raise UsageError(f"line {line}: ip {told}") from None

    def _link(self, words: list[str]) -> None:
        at = words.index("type") if "type" in words else len(words)
        kind, head = words[at + 1 : at + 2], words[1:at]
        if kind == ["macsec"] and words[0] == "set":
            self.devices[head[-1]].options.update(_options_of(words[at + 2 :]))
        elif kind == ["macsec"]:
            below, address, name = _new_link(head)
            self.devices[name] = _Device(below, address)
            self.devices[name].options = _options_of(words[at + 2 :])
        elif kind == ["vlan"]:
            # A VLAN device has the address of the device below.
            below, address, name = _new_link(head)
            inherited = address or self._addresses.get(below)
            if inherited:
                self._addresses.setdefault(name, inherited)
        elif words[:1] == ["set"] and "address" in words:
            name = words[2] if words[1] == "dev" else words[1]
            self._addresses.setdefault(name, address_of(words[words.index("address") + 1]))

    def _macsec(self, words: list[str]) -> None:
        verb, device = words[0], self.devices.get(words[1]) if len(words) > 1 else None
        if verb not in ("add", "set", "del", "delete") or device is None:
            if verb in ("add", "set"):
                raise ValueError("no command makes this device")
            return
        is_del = verb.startswith("del")
        if words[2] == "tx":
            self._change(device.tx, int(words[4]), _sa_of(words[5:]), is_del)
            return
        sci, rest = _channel_of(words[3:])
        if rest[:1] == ["sa"]:
            self._change(device.rx.setdefault(sci, {}), int(rest[1]), _sa_of(rest[2:]), is_del)
        elif is_del:
            device.rx.pop(sci, None)
        else:
            device.rx.setdefault(sci, {})
            (device.rx_off.add if "off" in rest else device.rx_off.discard)(sci)

    @staticmethod
    def _change(sas: dict[int, dict[str, str]], an: int, options: dict[str, str], is_del: bool) -> None:
        if is_del:
            sas.pop(an, None)
        else:
            sas.setdefault(an, {}).update(options)

    def _sci_of(self, device: _Device) -> bytes:
        if "sci" in device.options:
            return int(device.options["sci"], 16).to_bytes(8, "big")
        given = device.options.get("address")
        address = address_of(given) if given else device.address or self._addresses.get(device.below)
        if address is None:
            raise UsageError(
                f"the address of {device.below or 'the device below'} is not in the commands: "
                f"give it by --address {device.below}=MAC"
            )
        return address + int(device.options.get("port", "1"), 0).to_bytes(2, "big")

    def plan(self, name: str | None = None, mtu: int = 1500) -> Plan:
        """The endpoint of a device: of this name, or of the only one."""
        if name is None and len(self.devices) != 1:
            raise UsageError(f"the commands make {len(self.devices)} macsec devices; choose one by --name")
        chosen = self.devices.get(name) if name else next(iter(self.devices.values()))
        if chosen is None:
            raise UsageError(f"no command makes {name}")
        try:
            return self._plan(chosen, mtu)
        except _FAULTS as why:
            raise UsageError(f"a value of the commands is at fault: {without_keys(str(why))}") from None

    def _plan(self, chosen: _Device, mtu: int) -> Plan:
        options = chosen.options
        cipher = options.get("cipher", "default").lower()
        if cipher not in CIPHERS:
            raise UsageError(f"{without_keys(cipher)} is no cipher suite of ip macsec")
        plan = Plan(self._sci_of(chosen), CIPHERS[cipher], _form_of(options), mtu + 14)
        plan.encrypt, plan.protect = options.get("encrypt") == "on", options.get("protect") != "off"
        plan.validate, plan.replay = options.get("validate", "strict"), options.get("replay") == "on"
        plan.window = int(options.get("window", "0"), 0)
        plan.encoding = int(options.get("encodingsa", "0"))
        if options.get("icvlen", "16") != "16":
            plan.notes.append(f"icvlen {options['icvlen']} has no counterpart: the ICV has 16 octets")
        for an, sa in chosen.tx.items():
            plan.tx[an] = _planned(plan, sa)
            plan.keys[plan.tx[an].key].ssci = plan.tx[an].ssci
        for sci, sas in chosen.rx.items():
            plan.rx[sci] = {an: _planned(plan, sa) for an, sa in sas.items()}
            for planned in plan.rx[sci].values():
                planned.on = planned.on and sci not in chosen.rx_off
        return plan


def _form_of(options: dict[str, str]) -> str:
    if options.get("send_sci", "on") != "off":
        return "sci"
    return "es" if options.get("end_station") == "on" else "scb" if options.get("scb") == "on" else "auto"


def _planned(plan: Plan, sa: dict[str, str]) -> PlannedSa:
    if "key" not in sa:
        raise UsageError("an association has no key")
    octets, salt = bytes.fromhex(sa["key"]), bytes.fromhex(sa.get("salt", "00" * 12).replace("0x", ""))
    if len(octets) not in (16, 32) or len(salt) != 12:
        raise UsageError("a key of 32 or 64 digits and a salt of 24 expected")
    key = plan.key_of(octets, salt)
    return PlannedSa(
        key, int(sa.get("xpn", sa.get("pn", "1")), 0), sa.get("state") == "on", int(sa.get("ssci", "0"), 16)
    )


def _switch(flag: bool) -> str:
    return "on" if flag else "off"


def _name_of(device: str) -> str:
    """A device's name, if it is one that stays a single word."""
    if not re.fullmatch(r"[A-Za-z0-9_.:@-]{1,15}", device):
        raise UsageError("a device has a name of at most 15 letters, digits and . _ : @ -")
    return device


def commands_of(plan: Plan, device: str, name: str) -> list[str]:
    """The lines for `ip -batch` that make an endpoint. They hold keys, which must not be arguments of a command, since
    `ps` shows these. What has no counterpart is a comment."""
    device, name = _name_of(device), _name_of(name)
    port = int.from_bytes(plan.sci[6:], "big")
    notes = []
    if plan.form == "sci":
        address = f"sci {plan.sci.hex()}" if not port else f"address {plan.sci[:6].hex(':')} port {port}"
        form = "send_sci on"
    else:
        address, form = f"port {port}" if port else f"sci {plan.sci.hex()}", "send_sci off"
        form += {"es": " end_station on", "scb": " scb on"}.get(plan.form, "")
        notes.append(f"# {device} must have the address {plan.sci[:6].hex(':')}")
    for place, key in enumerate(plan.keys):
        if key.offset:
            notes.append(f"# key {place}: the confidentiality offset {key.offset} has no counterpart")
        if (key.suite or plan.suite) != plan.suite:
            notes.append(f"# key {place}: another suite than the device's has no counterpart")
    encoding = plan.encoding if plan.encoding is not None else min(plan.tx, default=0)
    window = f" window {plan.window}" if plan.replay else ""
    lines = [
        f"link add link {device} {name} type macsec {address} cipher {_NAMES[plan.suite]} "
        f"encrypt {_switch(plan.encrypt)} {form} protect {_switch(plan.protect)} replay {_switch(plan.replay)}{window} "
        f"validate {plan.validate} encodingsa {encoding}"
    ]

    def sa_words(sa: PlannedSa) -> str:
        key = plan.keys[sa.key]
        number = f"xpn {sa.pn} salt {key.salt.hex()} ssci {sa.ssci:x}" if plan.suite.is_extended else f"pn {sa.pn}"
        return f"{number} {_switch(sa.on)} key {sa.key:02x} {key.octets.hex()}"

    for an, sa in sorted(plan.tx.items()):
        lines.append(f"macsec add {name} tx sa {an} {sa_words(sa)}")
    for sci, sas in plan.rx.items():
        lines.append(f"macsec add {name} rx sci {sci.hex()}")
        lines += [f"macsec add {name} rx sci {sci.hex()} sa {an} {sa_words(sa)}" for an, sa in sorted(sas.items())]
    return [*notes, *lines, f"link set {name} up"]


def _is_on(value: Any) -> bool:
    return value in (True, "on", "true", 1)


def plan_of_json(text: str, keys: Sequence[KeyArgument], name: str | None = None, mtu: int = 1500) -> Plan:
    """The endpoint of a device in the output of `ip -j macsec show`, which shows identifiers in place of keys."""
    try:
        return _plan_of_json(text, keys, name, mtu)
    except _FAULTS as why:
        told = "it is nested too deeply" if isinstance(why, RecursionError) else without_keys(f"{why}")
        raise UsageError(f"this is not the output of ip -j macsec show: {told}") from None


def _plan_of_json(text: str, keys: Sequence[KeyArgument], name: str | None, mtu: int) -> Plan:
    shown = [it for it in json.loads(text) if it]
    found = [it for it in shown if name in (None, it.get("ifname"))]
    if len(found) != 1:
        raise UsageError(f"{len(found)} macsec devices; choose one by --name")
    it = found[0]
    cipher = str(it.get("cipher_suite", "GCM-AES-128")).lower()
    if cipher not in CIPHERS:
        raise UsageError(f"{without_keys(cipher)} is no cipher suite of ip macsec")
    options = {
        key: on
        for key in ("send_sci", "inc_sci", "end_station", "scb")
        for on in ["on" if _is_on(it.get(key)) else "off"]
    }
    if "send_sci" not in it:
        options["send_sci"] = options["inc_sci"] if "inc_sci" in it else "on"
    plan = Plan(_json_sci(it["sci"]), CIPHERS[cipher], _form_of(options), mtu + 14)
    plan.encrypt, plan.protect = _is_on(it.get("encrypt")), _is_on(it.get("protect", True))
    plan.validate, plan.replay = it.get("validate", "strict"), _is_on(it.get("replay"))
    plan.window = int(it.get("window", 0))
    plan.encoding = int(it.get("encoding_sa", 0))
    for sa in it.get("sa_list", []):
        plan.tx[sa["an"]] = _json_sa(plan, sa, keys, plan.sci)
        plan.keys[plan.tx[sa["an"]].key].ssci = plan.tx[sa["an"]].ssci
    for channel in it.get("rx_sc", []):
        sci = _json_sci(channel["sci"])
        plan.rx[sci] = {sa["an"]: _json_sa(plan, sa, keys, sci) for sa in channel.get("sa_list", [])}
    for sas in plan.rx.values():
        for planned in sas.values():
            planned.pn = planned.pn >> 32 << 32 | 1
    if plan.suite.is_extended:
        plan.notes.append("iproute2 shows the lower 32 bits of packet numbers alone: the upper halves here are 0")
    return plan


def _json_sci(value: Any) -> bytes:
    """An SCI, which is shown as hex text, with 0x or without."""
    return int(str(value), 16).to_bytes(8, "big")


def _json_sa(plan: Plan, sa: dict[str, Any], keys: Sequence[KeyArgument], sci: bytes) -> PlannedSa:
    """An association, and its key: by its identifier, by its SCI or number, or the only one."""
    fitting = [it for it in keys if it.id == sa.get("key")]
    fitting = fitting or [it for it in keys if it.id is None and it.sci in (None, sci) and it.an in (None, sa["an"])]
    if len(fitting) != 1:
        raise UsageError(
            f"{len(fitting)} keys fit SCI {sci.hex()} AN {sa['an']}, whose key has the identifier {sa.get('key')}: "
            "give one by --key IDENTIFIER=KEY"
        )
    chosen = fitting[0]
    ssci = int(str(sa["ssci"]), 16) if "ssci" in sa else chosen.ssci or 0
    key = plan.key_of(chosen.octets, chosen.salt or bytes(12))
    state = sa.get("active", sa.get("state", True))
    return PlannedSa(key, max(int(sa.get("pn", 1)), 1), _is_on(state), ssci)
