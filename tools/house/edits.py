"""The must-fail edits of the crates, which `rt ci` tries, and the mistakes in bodies, which tools/mistakes plants."""

from __future__ import annotations

import functools
import re
from pathlib import Path
from typing import NamedTuple

from house import ROOT

# The folders of a crate that have them.
MUST_FAIL, MISTAKES = "must-fail", "mistakes"

EDIT = re.compile(
    r"((?:# .+\n)+)(?:function: (\S+)\n)?((?:file: (?:src|specs|proofs)(?:/\w+)+\.\w+\n(?:old: .+\nnew:.*\n)+)+)"
)


class Edit(NamedTuple):
    """An edit of a crate's files that the prover must refuse. `name` is `crate/edit`, as the list of mistakes has it,
    `pairs` are a file, a text of it, and the text that replaces that one, and `function` is the function that must be
    refused, for one that is planted in a body."""

    crate: str
    name: str
    mistake: str
    pairs: list[tuple[Path, str, str]]
    function: str


def read_edit(path: Path) -> Edit | None:
    """Reads an edit, if it has no lines but those that `rt` reads, below what the mistake is and, for a mistake in a
    body, the function."""
    found = EDIT.fullmatch(path.read_text(encoding="utf-8"))
    if not found or bool(found[2]) != (path.parent.name == MISTAKES):
        return None
    folder = path.parent.parent
    pairs: list[tuple[Path, str, str]] = []
    file, old = path, ""
    for key, text in re.findall(r"^(file|old|new): ?(.*)$", found[3], re.MULTILINE):
        if key == "file":
            file = folder / text
        elif key == "old":
            old = text
        else:
            pairs.append((file, old, text))
    mistake = " ".join(it.removeprefix("# ") for it in found[1].splitlines())
    return Edit(folder.name, f"{folder.name}/{path.stem}", mistake, pairs, found[2] or "")


@functools.cache
def mistakes_of(crate: str) -> tuple[Edit, ...]:
    """The mistakes that are planted in bodies of a crate, in the order of their names."""
    found = map(read_edit, sorted((ROOT / "crates" / crate / MISTAKES).glob("*.edit")))
    return tuple(it for it in found if it)
