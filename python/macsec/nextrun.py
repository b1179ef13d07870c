"""The CONFIG of the next run, from the text that the last one printed."""

from __future__ import annotations

import re

from .endpoint_of_config import Configuration
from .errors import UsageError


def _results(text: str) -> dict[int, str]:
    """What the text says of CONFIG's lines."""
    return {int(it[1]): it[2] for it in re.finditer(r"^(\d{1,9}) (done|refused \d{1,3} \w{1,30})$", text, re.M)}


def next_config(config: bytes, text: str) -> bytes:
    """A CONFIG whose transmit association goes on after the last packet number that a run of `macsec protect` used.

    The text has to be the whole one, of a run of this CONFIG with status 0: otherwise take a new key.
    """
    configuration = Configuration(config)
    counts = {it[1]: int(it[2]) for it in re.finditer(r"^end (OutPkts\w{1,30}) (\d{1,20})$", text, re.M)}
    if not {"OutPktsProtected", "OutPktsEncrypted"} <= counts.keys():
        raise UsageError(
            "the text does not end with the counters of macsec protect: the run did not end; use a new key"
        )
    refused = {it.line: f"refused {it.number} {it.name}" for it in configuration.refusals}
    expected = {it.line: refused.get(it.line, "done") for it in configuration.commands}
    if _results(text) != expected:
        raise UsageError("the text is of another CONFIG")
    sent = counts["OutPktsProtected"] + counts["OutPktsEncrypted"]
    links = len(re.findall(r"^record \d+ link \d+$", text, re.M))
    if sent != (links if configuration.secy.options().protect else 0):
        raise UsageError("the counters and the records of the text differ: use a new key")
    for an in range(4):
        try:
            sa = configuration.secy.tx_sa(an)
        except LookupError:
            continue
        if sa.on:
            return _changed(configuration, an, sa.next + sent)
    raise UsageError("no transmit association is enabled: there is no packet number to change")


def _changed(configuration: Configuration, an: int, number: int) -> bytes:
    """The text with another packet number in the last line `txsa` of an association."""
    command = [it for it in configuration.commands if it.keyword == "txsa" and it.an == an][-1]
    is_extended = configuration.keys[command.key].suite.is_extended
    if number >= 1 << (64 if is_extended else 32):
        raise UsageError("the association has no packet number left: use a new key")
    lines = configuration.text.split(b"\n")
    place = command.line - 1
    lines[place] = re.sub(rb"^(\s*A\s+txsa\s+\S+\s+\S+\s+)\S+", rb"\g<1>%x" % number, lines[place])
    return b"\n".join(lines)
