"""Lines of over 120 columns in proofs, definitions, source, C and Python. A file may have some only if tests/wide.tsv
has git's id of its content: so a file that changes must not keep them. tools/sizes checks that, and writes the list."""

from __future__ import annotations

import hashlib
import re
from collections.abc import Iterator

from house import ROOT
from house.sizes import files
from house.style import is_python

MOST = 120
FILE = ROOT / "tests/wide.tsv"


def wide() -> Iterator[tuple[str, str, list[int]]]:
    """The files that have such lines, each with git's id of its content, and the numbers of these lines."""
    for name in files():
        if name.endswith((".antt", ".rt", ".c", ".h")) or is_python(name):
            octets = (ROOT / name).read_bytes()
            lines = [i for i, line in enumerate(octets.decode(errors="replace").split("\n"), 1) if len(line) > MOST]
            content = hashlib.sha1(b"blob %d\0%b" % (len(octets), octets), usedforsecurity=False).hexdigest()
            if lines:
                yield name, content[:12], lines


def rows() -> dict[str, str]:
    """The files of the list, each with its content."""
    return dict(re.findall(r"^(\S+)\t([0-9a-f]{12})$", FILE.read_text(), re.M))


def faults() -> Iterator[str]:
    """Names each file with such lines whose content is not in the list. What was only moved is in it."""
    known = set(rows().values())
    for name, content, lines in wide():
        if content not in known:
            yield f"{name}:{lines[0]}: over {MOST} columns; a new or changed file may have none, this has {len(lines)}"


def write(is_anew: bool) -> None:
    """Removes the rows of files that have no such line any more. Anew it lists each file that has one."""
    known, kept = rows(), []
    for name, content, _ in wide():
        if is_anew or name in known or content in known.values():
            is_listed = is_anew or content in known.values()
            kept.append(f"{name}\t{content if is_listed else known[name]}")
    FILE.write_text("\n".join(["file\tcontent", *kept, ""]))


def listed() -> str:
    """A line for a terminal."""
    found = [len(lines) for _, _, lines in wide()]
    return f"{sum(found):,} lines of {len(found):,} files are over {MOST} columns"
