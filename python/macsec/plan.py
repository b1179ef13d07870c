"""An endpoint as it is to be configured: made from other sources, and written as a CONFIG."""

from __future__ import annotations

import dataclasses

from .endpoint_of_config import Configuration
from .errors import UsageError
from .names import Suite
from .trial import own_sci

# What an observer takes: frames of every length, and an SSCI that no sender has.
OBSERVER_MAX, OBSERVER_SSCI = 9248, 0xFFFF_FFFF


@dataclasses.dataclass
class PlannedKey:
    """A key, and the endpoint's own SSCI under it."""

    octets: bytes
    offset: int = 0
    suite: Suite | None = None
    salt: bytes = bytes(12)
    ssci: int = OBSERVER_SSCI


@dataclasses.dataclass
class PlannedSa:
    """An association: the place of its key, its packet number, and its sender's SSCI."""

    key: int
    pn: int = 1
    on: bool = True
    ssci: int = 0


@dataclasses.dataclass
class Plan:
    """An endpoint."""

    sci: bytes
    suite: Suite = Suite.gcm128
    form: str = "sci"
    max_frame: int = 1514
    encrypt: bool = False
    protect: bool = True
    validate: str = "strict"
    replay: bool = True
    window: int = 0
    keys: list[PlannedKey] = dataclasses.field(default_factory=list)
    tx: dict[int, PlannedSa] = dataclasses.field(default_factory=dict)
    encoding: int | None = None
    rx: dict[bytes, dict[int, PlannedSa]] = dataclasses.field(default_factory=dict)
    notes: list[str] = dataclasses.field(default_factory=list)

    def key_of(self, octets: bytes, salt: bytes = bytes(12), offset: int = 0, suite: Suite | None = None) -> int:
        """The place of a key, which is added if it is new."""
        for place, each in enumerate(self.keys):
            if each.octets == octets:
                return place
        self.keys.append(PlannedKey(octets, offset, suite, salt))
        return len(self.keys) - 1

    def _suite_of(self, key: PlannedKey) -> Suite:
        return key.suite or self.suite

    def text(self) -> str:
        """The CONFIG."""
        lines = [f"# {it}" for it in self.notes]
        lines.append(f"end A {self.suite.name} {self.sci.hex()} {self.max_frame} {self.form}")
        if not self.protect:
            lines.append("A protect off")
        if self.validate != "strict":
            lines.append(f"A validate {self.validate}")
        if not self.replay or self.window:
            lines.append(f"A replay {'on' if self.replay else 'off'} {self.window}")
        for place, key in enumerate(self.keys):
            suite = self._suite_of(key)
            other = f" {suite.name}" if suite != self.suite else ""
            extended = f" {key.ssci:08x} {key.salt.hex()}" if suite.is_extended else ""
            lines.append(f"A key {place} {key.octets.hex()} {key.offset}{other}{extended}")
        for an, sa in sorted(self.tx.items()):
            lines.append(f"A txsa {an} {sa.key} {sa.pn:x} {'conf' if self.encrypt else 'int'}")
        if self.encoding is not None and self.encoding in self.tx and self.tx[self.encoding].on:
            lines.append(f"A txon {self.encoding}")
        for sci, sas in self.rx.items():
            lines.append(f"A rxsc {sci.hex()}")
            for an, sa in sorted(sas.items()):
                ssci = f" {sa.ssci:08x}" if self._suite_of(self.keys[sa.key]).is_extended else ""
                lines.append(f"A rxsa {sci.hex()} {an} {sa.key} {sa.pn:x}{ssci}")
                if sa.on:
                    lines.append(f"A rxon {sci.hex()} {an}")
        return "".join(f"{it}\n" for it in lines)

    def _heard(self, sas: dict[int, PlannedSa]) -> dict[int, PlannedSa]:
        """A sender's associations as a receiver has them that misses no frame."""
        return {an: dataclasses.replace(sa, pn=sa.pn >> 32 << 32 | 1, on=True) for an, sa in sas.items()}

    def observer(self) -> Plan:
        """An endpoint that receives from this one and from all that this one receives from."""
        senders = {
            **({self.sci: self._heard(self.tx)} if self.tx else {}),
            **{s: self._heard(it) for s, it in self.rx.items()},
        }
        keys = [dataclasses.replace(it, ssci=OBSERVER_SSCI) for it in self.keys]
        notes = list(self.notes)
        if self.form == "auto" and len(senders) > 1:
            # Such a frame is for the only channel of its receiver.
            senders = {self.sci: self._heard(self.tx)}
            notes.append(
                "frames without an SCI, ES and SCB need a CONFIG with one channel: the other direction is left out"
            )
        return Plan(
            own_sci(self.sci, *self.rx), self.suite, "sci", OBSERVER_MAX, replay=False, keys=keys, rx=senders,
            notes=notes,
        )  # fmt: skip

    def peer(self) -> Plan:
        """The other end: the only endpoint that this one receives from."""
        if len(self.rx) != 1:
            raise UsageError(f"there are {len(self.rx)} receive channels; a peer is the only one")
        ((sci, sas),) = self.rx.items()
        keys = [dataclasses.replace(it, ssci=OBSERVER_SSCI) for it in self.keys]
        for sa in sas.values():
            keys[sa.key].ssci = sa.ssci
        is_on = [an for an, sa in sorted(sas.items()) if sa.on]
        return dataclasses.replace(
            self, sci=sci, keys=keys, tx=sas, rx={self.sci: self._heard(self.tx)}, encoding=is_on[0] if is_on else None
        )


def plan_of(configuration: Configuration) -> Plan:
    """The endpoint of a CONFIG, as the library has it after all commands."""
    secy, options = configuration.secy, configuration.secy.options()
    plan = Plan(
        configuration.sci, configuration.suite, options.form.name, configuration.max_frame, False, options.protect,
        options.mode.name, options.replay, options.window,
    )  # fmt: skip
    places = {}
    for number, line in configuration.keys.items():
        places[number] = len(plan.keys)
        plan.keys.append(PlannedKey(line.octets, line.offset, line.suite, line.salt, line.ssci))
    for an in range(4):
        try:
            tx = secy.tx_sa(an)
        except LookupError:
            continue
        plan.tx[an] = PlannedSa(places[tx.key], tx.next, tx.on, plan.keys[places[tx.key]].ssci)
        plan.encrypt = plan.encrypt or tx.conf
        plan.encoding = an if tx.on else plan.encoding
    for sci in configuration.channels():
        plan.rx[sci] = {}
        for an in range(4):
            rx = configuration.rx_sa(sci, an)
            if rx is not None:
                plan.rx[sci][an] = PlannedSa(places[rx.key], rx.lowest, rx.on, rx.ssci)
    return plan
