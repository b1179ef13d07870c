"""The names, structures and calls of the package are as in include/macsec.h."""

from __future__ import annotations

import ctypes
import re
import unittest

import macsec
from macsec import _library, errors, names

from .helpers import ROOT

HEADER = (ROOT / "include" / "macsec.h").read_text()


def names_in(function: str) -> dict[str, int]:
    """The names that a function of the header gives, and their numbers."""
    body = re.search(rf"macsec_{function}_name\(.*?\n}}", HEADER, re.S)
    assert body
    constants = {name: int(value) for name, value in re.findall(r"\b(MACSEC_\w+) = (\d+)", HEADER)}
    return {text: constants[name] for name, text in re.findall(r'case (\w+): return "(\w+)"', body[0])}


class Library(unittest.TestCase):
    def test_names(self) -> None:
        for kind in (names.Status, names.Verdict, names.Fate, names.Suite):
            function = kind.__name__.lower()
            expected = {name: number for name, number in names_in(function).items() if name != "None"}
            # A later library can have more after these.
            found = {str(it): int(it) for it in kind}
            self.assertEqual(found, {name: number for name, number in expected.items() if number <= max(kind)})

    def test_forms_and_modes(self) -> None:
        for kind in (names.Form, names.Mode):
            found = re.findall(rf"MACSEC_{kind.__name__.upper()}_(\w+) = (\d+)", HEADER)
            self.assertEqual(
                {f"{it}": int(f"{it:d}") for it in kind}, {name.lower(): int(number) for name, number in found}
            )

    def test_each_status_has_a_meaning(self) -> None:
        self.assertEqual(set(errors.MEANINGS), set(names.Status) - {names.Status.OK})

    def test_structures(self) -> None:
        text = (ROOT / "tests/library/c/layout.txt").read_text()
        for block, kind in _library.STRUCTURES.items():
            found = re.search(rf"^macsec_{block}: (\d+)\n((?:    .*\n)+)", text, re.M)
            assert found
            self.assertEqual(ctypes.sizeof(kind), int(found[1]))
            members = dict(re.findall(r"    (\w+) (\d+)\n", found[2]))
            for name, *_ in kind._fields_:
                # What a later library shows more takes the place of reserved members.
                if name != "reserved":
                    self.assertEqual(getattr(kind, name).offset, int(members[name]), f"{block} {name}")

    def test_calls(self) -> None:
        found = dict(re.findall(r"^(?:uint32_t|void) macsec_(\w+)\(([^)]*)\);", re.sub(r"\n +", " ", HEADER), re.M))
        taken = {name: len(arguments) + 1 for name, arguments in _library.CALLS.items()}
        taken.update({name: len(arguments) for name, arguments in _library.FREE_CALLS.items()})
        self.assertLessEqual(set(taken), set(found))
        for name, count in taken.items():
            self.assertEqual(count, found[name].count(",") + 1, name)

    def test_numbers_of_a_later_library(self) -> None:
        self.assertEqual((names.Fate(77).name, int(names.Fate(77)), errors.error(99).name), ("unknown", 77, "unknown"))

    def test_version(self) -> None:
        number = re.search(r"MACSEC_VERSION_NUMBER (\d+)", HEADER)
        self.assertEqual(macsec.version(), int(number[1]) if number else 0)
