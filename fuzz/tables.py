"""The families of names that the rules in Python need, as tools/families.json has them. tools/reference compares that
file with the proved sources."""

from __future__ import annotations

import pathlib
import sys

sys.path.insert(0, str(pathlib.Path(__file__).resolve().parents[1] / "tools"))
from house import families

# The octets of a key, and whether packet numbers are extended.
SUITES = {it["name"]: (it["key_octets"], it["extended"]) for it in families.suites()}
# The constants of the header for these names.
SUITE_CONSTANTS = {it["c"]: it["name"] for it in families.suites()}
REFUSALS = [it["name"] for it in families.refusals()]
WORLD_FAULTS = {it["name"]: it["number"] for it in families.family("faults")}
ENDPOINT_COUNTERS = families.names("counters", of="endpoint")
TX_COUNTERS = families.names("counters", of="tx")
RX_COUNTERS = families.names("counters", of="rx")
CAPTURE_FAULTS = families.names("capture_faults")
TEXT_FAULTS = families.text_faults()
LINE_FAULTS = [it["name"] for it in TEXT_FAULTS if it["name"] != "ScriptLong"]
COMMANDS = [it for it in families.family("commands") if it["number"]]
VERDICTS = [it["name"] for it in families.verdicts()]
# Why a client frame is not sent.
DROPS = [it["name"] for it in families.family("fates") if it["c"] in ("FATE_NO_SA", "FATE_TOO_LONG")]
