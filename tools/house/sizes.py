"""How large the parts of the project are, and the limits in tests/sizes.tsv. tools/sizes shows, checks and writes them.

A part is the files whose path from the top has its form in PARTS, without what .gitignore names. "Tests and tools" are
the programs in conformance, device/tests, fuzz, integrations, python/tests, tests and tools: of what `git ls-files`
lists there, each file that ends in .py, .c, .h or .sh, or begins with `#!`. Examples are all texts in examples/. Words
of a page do not include its made parts (house/made.py). In no part are the tests' data, must-fail edits, the header
for C, made pages, CHANGES.md, CONTRIBUTING.md, SECURITY.md and the README.md of folders."""

from __future__ import annotations

import os
import re
from collections.abc import Collection, Iterator
from typing import NamedTuple

from house import ROOT
from house.made import without_made

FILE = ROOT / "tests/sizes.tsv"
# What .gitignore names.
IGNORED = re.compile(r"\.git|out|build|__pycache__|.*\.egg-info")
MAINTAINERS = "docs/(ARCHITECTURE|CHANGING|DECISIONS|MAINTAINING)"
TRUST = "docs/(HOSTILE|LINK|PERFORMANCE|PROVED|SECRECY|THEOREM|WHO)"


class Part(NamedTuple):
    """A part of the project: what is counted of its files, and the form of their paths."""

    name: str
    unit: str
    form: str


PARTS = [
    Part("proofs", "octets", r"crates/\w+/proofs/.*\.antt"),
    Part("definitions", "lines", r"crates/\w+/specs/.*\.antt"),
    Part("source", "lines", r"crates/\w+/src/.*\.rt"),
    Part("device", "lines", r"device/[^/]*\.[ch]"),
    Part(
        "tests-and-tools", "program lines", "(conformance|device/tests|fuzz|integrations|python/tests|tests|tools)/.*"
    ),
    Part("python-package", "lines", r"python/macsec/.*\.(css|html|js|py)"),
    Part("examples", "lines", "examples/.*"),
    Part("pages-users", "words", rf"README\.md|(?!{TRUST}|{MAINTAINERS}|docs/CONFORMANCE|docs/MISTAKES)docs/[^/]*\.md"),
    Part("pages-trust", "words", rf"{TRUST}\.md"),
    Part("pages-maintainers", "words", rf"{MAINTAINERS}\.md"),
    Part("manual-pages", "words", r"man/.*\.\d"),
]


def files() -> list[str]:
    """The files of the project, without what git ignores."""
    found = []
    for top, folders, names in os.walk(ROOT, followlinks=True):
        folders[:] = [it for it in folders if not IGNORED.fullmatch(it)]
        found += [os.path.relpath(os.path.join(top, it), ROOT) for it in names]
    return sorted(it for it in found if (ROOT / it).is_file())


def count(unit: str, name: str) -> int:
    """How many octets, lines or words a file has. What is no text has no lines, and what is no program no others."""
    octets = (ROOT / name).read_bytes()
    if unit == "octets":
        return len(octets)
    if unit == "words":
        return len(without_made(name, octets.decode()).split())
    is_program = octets.startswith(b"#!") or name.endswith((".py", ".c", ".h", ".sh"))
    return octets.count(b"\n") if is_program or unit == "lines" and b"\0" not in octets else 0


def measured() -> Iterator[tuple[Part, int, int]]:
    """Each part with its size and its limit. Without a row the limit is 0."""
    named, limits = files(), dict(re.findall(r"^([\w-]+)\t(\d+)$", FILE.read_text(), re.M))
    for it in PARTS:
        size = sum(count(it.unit, name) for name in named if re.fullmatch(it.form, name))
        yield it, size, int(limits.get(it.name, 0))


def faults() -> Iterator[str]:
    """Names each part that is over its limit, and each that has no file, as after its folder was moved."""
    for part, size, limit in measured():
        if size > limit:
            yield f"{part.name}: {size:,} {part.unit}, {size - limit:,} over its limit of {limit:,} in tests/sizes.tsv"
        elif not size:
            yield f"{part.name}: no file has its form in tools/house/sizes.py"


def write(parts: Collection[str]) -> None:
    """Sets the limits of these parts to 2 % above their sizes."""
    rows = [f"{it.name}\t{size * 51 // 50 if it.name in parts else limit}" for it, size, limit in measured()]
    FILE.write_text("\n".join(["part\tlimit", *rows, ""]))


def listed() -> str:
    """The table for a terminal."""
    rows = [f"{it.name:18}{it.unit:14}{size:12,}{limit:12,}{limit - size:12,}" for it, size, limit in measured()]
    return "\n".join([f"{'part':18}{'unit':14}{'now':>12}{'limit':>12}{'left':>12}", *rows])
