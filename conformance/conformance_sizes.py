"""Measures the sizes in docs/PROVED.md: definitions to trust, code and proofs, and what is only tested."""

from __future__ import annotations

import functools
import glob
import os
import re
from collections.abc import Iterable
from pathlib import Path

from house import ROOT
from house.written import table

CITED = re.compile(r"^use (?:denote )?Rattle\.(macsec_\w+)\.specs\.(\w+)", re.M)
# Files of definitions, as CRATE/FILE: where each part of what is proved begins.
MACHINE = [*(f"macsec_secy/{it}" for it in ("Step", "Answers", "Rests")), "macsec_suite/KeyNumbers"]
PROMISES = [f"macsec_link/{it}" for it in "Step Beginnings UniqueIvs Forgery Origin Window Acceptance".split()]
RESTARTS = [f"macsec_reserve/{it}" for it in ("Unique", "TwoEnds", "Replay", "Crashes")]
RESTARTS += [f"macsec_restarts/{it}" for it in ("Sent", "Delivered", "Origin", "Order", "Acceptance")]
RESTARTS += [f"macsec_restarts/{it}" for it in "AheadSteps AheadRuns RenewingRuns RenewingOrder RenewingEnds".split()]
RESTARTS += [f"macsec_restarts/{it}" for it in ("RenewingLists", "RenewingOutputs", "OnDisk", "OnDiskOrder")]
TEXTS = ["macsec_script/Printed", "macsec_script/Promised", "macsec_script_parser/Scripts", "macsec_capture/Captured"]
TEXTS += ["macsec_pcapng/Captures", "macsec_cli_runs/Failures"]
IN_C = [f"macsec_c/{it}" for it in ("Answers", "Found", "Texts")]
IN_C += [f"macsec_c_values/{it}" for it in ("Configs", "Keys", "Reservations", "Shown")]
IN_C += [f"macsec_c_calls/{it}" for it in ("SentAhead", "ReceivedParts", "Reserving", "Texts")]
IN_C += [f"macsec_c_runs/{it}" for it in ("Runs", "TwoEnds", "SingleCalls")]


@functools.lru_cache(None)
def cited(name: str) -> tuple[str, ...]:
    """The files of definitions that one cites."""
    crate, file = name.split("/")
    path = ROOT / "crates" / crate / "specs" / f"{file}.antt"
    if not path.is_file():
        return ()
    found = [f"{a}/{b}" for a, b in CITED.findall(path.read_text(encoding="utf-8"))]
    return tuple(it for it in found if os.path.isfile(f"{ROOT}/crates/{it.replace('/', '/specs/')}.antt"))


@functools.lru_cache(None)
def whole(name: str) -> frozenset[str]:
    return frozenset({name}).union(*map(whole, cited(name)))


def below(names: Iterable[str]) -> set[str]:
    """These files, and all that they cite, directly or not."""
    return set().union(*map(whole, names))


def lines(paths: Iterable[str]) -> int:
    texts = (Path(it).read_text(encoding="utf-8", errors="replace") for it in paths)
    return sum(bool(line.strip()) for text in texts for line in text.split("\n"))


def rounded(count: int) -> int:
    """A number with two digits that are not 0, so that small changes do not change the page."""
    unit = 10 ** max(0, len(str(count)) - 2)
    return (count + unit // 2) // unit * unit


def paths(*patterns: str) -> list[str]:
    found = (it for pattern in patterns for it in glob.glob(f"{ROOT}/{pattern}", recursive=True))
    return sorted(it for it in found if os.path.isfile(it))


def of_definitions(names: set[str]) -> list[str]:
    return [f"{ROOT}/crates/{it.replace('/', '/specs/')}.antt" for it in sorted(names)]


def size_table() -> str:
    machine = below(MACHINE)
    promises = below(PROMISES) - machine
    restarts = below(RESTARTS) - machine - promises
    texts = below(TEXTS) - machine - promises
    in_c = below(IN_C) - machine - restarts - promises - texts
    code = [it for it in paths("crates/*/src/**/*.rt") if "_tests/" not in it]
    device = paths("device/*.[ch]", "include/macsec.h", "examples/c/*.c")
    python = paths("python/macsec/*.py") + paths("python/macsec/cli/*.py")
    rows = [
        ("definitions of the machine", of_definitions(machine), "the theorem says something else than MACsec"),
        ("definitions that the promises add", of_definitions(promises), "a promise says less than its name"),
        ("definitions that restarts add", of_definitions(restarts), "an IV repeats after a crash"),
        ("definitions of texts and files", of_definitions(texts), "a printed text means something else"),
        ("definitions for the library for C", of_definitions(in_c), "a call does not do what the header says"),
        ("code in Rattle", code, "the prover refuses it, as far as its contracts say"),
        ("proofs", paths("crates/*/proofs/**/*.antt"), "the prover refuses it"),
        ("must-fail edits", paths("crates/*/m*/*.edit"), "a weak contract is not noticed"),
        ("C in the library", paths("tools/library/*.c"), "a contract is false that the proofs assume"),
        ("C: header, device, examples", device, "anything that they do: tested, not proved"),
        ("Python: rules and searches", paths("fuzz/*.py"), "a search finds less"),
        ("Python: package `macsec`", python, "a cause is wrong; it judges no frame"),
    ]
    cells = ((what, f"{rounded(lines(it)):,}", wrong) for what, it, wrong in rows)
    return table("what | lines | if it is wrong", cells)
