"""The options of the commands that take a CAK."""

from __future__ import annotations

import argparse

from ..cak import Cak, cak_of, caks_of_file
from ..errors import UsageError


def add_cak_options(parser: argparse.ArgumentParser) -> None:
    """The options that give CAKs."""
    group = parser.add_argument_group(
        "keys from MKA", "take the SAKs from the frames of MKA in the capture (needs the Python package cryptography)"
    )
    group.add_argument("--cak", action="append", default=[], metavar="CAK", help="a CAK in hex, of 32 or 64 digits")
    group.add_argument(
        "--ckn", action="append", default=[], metavar="CKN", help="its name in hex; without it every name is tried"
    )
    group.add_argument(
        "--cak-file", action="append", default=[], metavar="FILE",
        help="a file with CAK CKN on each line, or with mka_cak= and mka_ckn= as for wpa_supplicant",
    )  # fmt: skip


def caks_of(asked: argparse.Namespace) -> list[Cak]:
    """The CAKs of the options."""
    if asked.ckn and len(asked.ckn) != len(asked.cak):
        raise UsageError(f"{len(asked.ckn)} --ckn for {len(asked.cak)} --cak: as many expected, or none")
    names = asked.ckn or [None] * len(asked.cak)
    found = [cak_of(cak, ckn) for cak, ckn in zip(asked.cak, names)]
    for path in asked.cak_file:
        found += caks_of_file(path)
    return found
